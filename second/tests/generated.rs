//! The case generator: the same case each time, all refusals met, and what must
//! hold of every case whatever it is.

use second::cases::{
    every_cut, every_flip, Bench, FinderCase, ReaderCase, Second, SequenceCase, Side, Step, SEED,
};
use second::lister::list;
use second::reader::words_of_bytes;
use second::writer::State;
use std::collections::BTreeMap;

type Met = BTreeMap<u64, u32>;

fn meets(met: &Met, numbers: &[u64]) {
    println!("seed {SEED}, answers met: {met:?}");
    for number in numbers {
        assert!(met.contains_key(number), "seed {SEED}: {number} never met in {met:?}");
    }
}

#[test]
fn finder_cases() {
    let (mut met, mut rules) = (Met::new(), Met::new());
    for number in 0..20_000 {
        let case = FinderCase::new(SEED, number);
        assert_eq!(case, FinderCase::new(SEED, number));
        let mut out = case.out.clone();
        let answer = Second.find(&case.settings, case.channel, &case.window, &mut out);
        *met.entry(answer.into()).or_default() += 1;
        if answer != 0 {
            let mut none = case.out.clone();
            none.get_mut(..28).unwrap_or(&mut []).fill(0);
            assert_eq!(out, none, "{case}");
            continue;
        }
        *rules.entry(10 + u64::from(out[0])).or_default() += 1;
        for pulse in out[1..28].chunks(9).take(out[0] as usize) {
            *rules.entry(pulse[8].into()).or_default() += 1;
            assert!(pulse[5] < 64 && pulse[1] <= pulse[0] && pulse[0] <= pulse[2], "{case}");
            assert_eq!(
                pulse[7] == 0,
                pulse[8] != 4,
                "VPEAK 0 marks a time that is only TC: {case}"
            );
        }
    }
    meets(&met, &[0, 1, 3, 4, 5, 64]);
    // The four rules, and none to three pulses.
    meets(&rules, &[1, 2, 3, 4, 10, 11, 12, 13]);
}

fn is_call(step: &Step) -> bool {
    use Step::*;
    !matches!(step, Forge { .. } | StateLength { .. } | Overwrite { .. } | OtherStore { .. })
}

/// The bench behind a refused call: only set up fills in zeros, where it is lent a
/// state of the right length.
fn refused(step: &Step, mut before: Bench) -> Bench {
    if matches!(step, Step::SetUp { .. }) && before.state.len() == State::NUMBERS {
        before.state.fill(0);
    }
    before
}

/// What an accepted call does to the counts: running, part and over, latched.
fn counted(step: &Step, before: &Bench, behind: &Bench) {
    let (old, new) = (&before.state[8..46], &behind.state[8..46]);
    let expected = match step {
        Step::SetUp { .. } => vec![0; 38],
        Step::Latch => [&old[..20], &old[..18]].concat(),
        Step::Reset => [&[0; 19], &old[19..]].concat(),
        Step::OpenEvent { .. } => {
            let triggers = (old[17] + 1) % (1 << 32);
            [&old[..17], &[triggers], &old[18..]].concat()
        }
        Step::Count { frames } => counted_in_parts(before, frames),
        _ => old.to_vec(),
    };
    assert_eq!(new, expected, "{step:?}");
}

/// The counts behind these frames, first all but the last and then that one; and
/// what the timer and the part group must be.
fn counted_in_parts(before: &Bench, frames: &[u16]) -> Vec<u64> {
    let mut state = before.state.clone();
    let (front, last) = frames.split_at(frames.len().saturating_sub(16));
    assert_eq!(Second.count(&mut state, front) + Second.count(&mut state, last), 0);
    let whole = before.state[26] + frames.len() as u64 / 16;
    assert_eq!(state[24], (before.state[24] + whole / 512) % (1 << 32));
    assert_eq!(state[26], whole % 512);
    state[8..46].to_vec()
}

/// What a block holds may be read again, unless the state was forged.
fn finished_block_reads(case: &SequenceCase, bench: &Bench, length: u64) {
    if case.steps.iter().any(|step| matches!(step, Step::Forge { .. } | Step::StateLength { .. })) {
        return;
    }
    let words = &bench.words[..length as usize];
    let bytes: Vec<u8> = words.iter().flat_map(|word| word.to_be_bytes()).collect();
    assert_eq!(Second.check(&bytes), length, "{case}");
}

#[test]
fn sequence_cases() {
    let (mut met, mut blocks) = (Met::new(), 0);
    for number in 0..3_000 {
        let case = SequenceCase::new(SEED, number);
        assert_eq!(case, SequenceCase::new(SEED, number));
        let mut bench = case.bench.clone();
        for step in &case.steps {
            let before = bench.clone();
            let answer = bench.apply(&Second, step);
            if !is_call(step) {
                continue;
            }
            let finish = matches!(step, Step::Finish { .. });
            let refusal = if finish { answer >> 32 } else { answer };
            *met.entry(refusal).or_default() += 1;
            if refusal != 0 {
                assert!(bench == refused(step, before), "what a refused call changes: {case}");
                continue;
            }
            counted(step, &before, &bench);
            if finish {
                blocks += 1;
                finished_block_reads(&case, &bench, answer);
            }
        }
    }
    println!("{blocks} whole blocks");
    assert!(blocks > 2_000);
    meets(&met, &[0, 1, 2, 3, 4, 5, 6, 7, 8, 9, 10, 19]);
}

#[test]
fn reader_cases() {
    let mut met = Met::new();
    for number in 0..20_000 {
        let case = ReaderCase::new(SEED, number);
        assert_eq!(case, ReaderCase::new(SEED, number));
        let answer = Second.check(&case.bytes);
        *met.entry(answer >> 32).or_default() += 1;
        let place = answer & 0xFFFF_FFFF;
        assert!(place <= case.bytes.len() as u64 / 4, "{case}");
        let text = list(&case.bytes);
        let refused = format!("refused\t{}\t{place}\n", answer >> 32);
        if answer >> 32 != 0 && !case.bytes.is_empty() && case.bytes.len() <= 65_536 {
            assert!(text.ends_with(&refused), "{case}");
        }
        assert!(text.matches("refused").count() <= 1, "{case}");
    }
    meets(&met, &[0, 11, 12, 13, 14, 15, 16]);
}

/// Reads all blocks record by record; answers the lines that the records stand
/// for, and what the last call gave.
fn lines_of_records(words: &[u32]) -> (String, u64) {
    let (mut text, mut start, mut scan) = (String::new(), 0, [0; 6]);
    loop {
        let (before, mut record) = (scan, [77; 6]);
        let answer = Second.next(&mut scan, &words[start..], &mut record);
        if answer >> 32 != 0 {
            assert_eq!((scan, record), (before, [0; 6]));
            return (text, answer);
        }
        assert_eq!(answer, u64::from(scan[0]));
        if record[0] != 16 {
            text += &lines(&words[start..], record);
            continue;
        }
        assert_eq!(scan, before);
        (start, scan) = (start + answer as usize, [0; 6]);
        if start == words.len() {
            return (text, answer);
        }
    }
}

/// A record's line, and the lines of its pairs or the cells of its scalers.
fn lines(words: &[u32], record: [u64; 6]) -> String {
    let [kind, a, b, c, d, e] = record;
    match kind {
        1 => format!("block\t{a}\t{b}\t{c}\n"),
        2 => format!("setup\t{a}\t{b}\t{c}\n"),
        3 => format!("event\t{b}\n"),
        4 => format!("clock27\t{a}\n"),
        5 => format!("clock\t{a}\n"),
        7 => format!("window\t{a}\t{c}\n") + &pair_lines(words, d as u32, e as u32),
        8 => format!("pulse\t{a}\t{b}\t{c}\n") + &pair_lines(words, d as u32, e as u32),
        10 => format!("integral\t{a}\t{b}\t{c}\t{d}\n"),
        11 => format!("time\t{a}\t{b}\t{c}\t{d}\t{e}\n"),
        12 => format!("ped\t{a}\t{b}\t{d}\t{e}\n"),
        13 => format!("end\t{b}\n"),
        14 => format!("fill\t{b}\n"),
        15 => format!("empty\t{a}\n"),
        17 => scalers_line(words, d as usize, b as usize),
        _ => panic!("no scan that next moves gives {record:?}"),
    }
}

fn scalers_line(words: &[u32], place: usize, count: usize) -> String {
    let cell = |word: &u32| format!("\t{word}");
    let cells: String = words[place..place + count].iter().map(cell).collect();
    format!("scalers{cells}\n")
}

fn pair_lines(words: &[u32], place: u32, pairs: u32) -> String {
    let mut samples = [0; 500];
    let count = Second.samples(words, place, pairs, &mut samples) as usize;
    assert_eq!(count.div_ceil(2), pairs as usize);
    let line = |pair: &[u16]| match *pair {
        [first, second] => format!("pair\t{first}\t{second}\n"),
        _ => format!("pair\t{}\t-\n", pair[0]),
    };
    samples[..count].chunks(2).map(line).collect()
}

#[test]
fn records_and_lines() {
    let mut refusals = Met::new();
    for number in 0..6_000 {
        let case = ReaderCase::new(SEED, number);
        let Some(words) = words_of_bytes(&case.bytes) else { continue };
        if words.is_empty() {
            continue;
        }
        let (text, answer) = lines_of_records(&words);
        *refusals.entry(answer >> 32).or_default() += 1;
        let mut listed = vec![0; Second.list(&case.bytes, &mut []) as usize];
        Second.list(&case.bytes, &mut listed);
        let listed = String::from_utf8(listed).unwrap();
        if answer >> 32 == 0 {
            assert_eq!(listed, text, "{case}");
            continue;
        }
        // Of a raw item or of scalers that break, the lister has what stands before
        // the break.
        let last = format!("refused\t{}\t{}\n", answer >> 32, answer & 0xFFFF_FFFF);
        let rest = listed.strip_prefix(&text).and_then(|rest| rest.strip_suffix(&last));
        let rest = rest.unwrap_or_else(|| panic!("{case}"));
        let long = ["window\t", "pulse\t", "scalers"].iter().any(|name| rest.starts_with(name));
        assert!(rest.is_empty() || long, "{case}");
        assert!(rest.lines().skip(1).all(|line| line.starts_with("pair\t")), "{case}");
    }
    meets(&refusals, &[0, 11, 12, 13, 14, 15]);
}

#[test]
fn every_cut_and_flip_of_good_blocks() {
    for number in 0..400 {
        let case = ReaderCase::new(SEED, number);
        let length = Second.check(&case.bytes);
        if length >> 32 != 0 || length < 2 || case.bytes.len() > 600 {
            continue;
        }
        // A cut block is refused 11 where it ends, 16 between words; only
        // fillers and what follows the block may be lost.
        let trailer = list(&case.bytes).lines().find_map(|l| l.strip_prefix("end\t")?.parse().ok());
        let trailer: u64 = trailer.unwrap();
        for cut in every_cut(&case.bytes) {
            let whole = cut.len() as u64 / 4;
            let expected = match cut.len() % 4 {
                0 if whole < trailer => (11 << 32) + whole,
                0 => whole.min(length),
                _ => 16 << 32,
            };
            assert_eq!(Second.check(cut), expected, "{case}");
        }
        let flips: Vec<u64> = every_flip(&case.bytes).map(|bytes| Second.check(&bytes)).collect();
        assert_eq!(flips.len(), case.bytes.len() * 8);
    }
}
