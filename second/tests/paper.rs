//! What document 01 says, run: run A, runs b to i, and refusals 1 to 16; what ticket
//! 1 of document 02 says; and what the header says of the calls.

use second::calls;
use second::finder::{find, Pulse};
use second::lister::list;
use second::reader::{check, words_of_bytes, LIMIT};
use second::refusal::Refusal;
use second::scalers::Scalers;
use second::settings::Settings;
use second::words;
use second::writer::{set_up, State};

const RUN_A: [u16; 16] = [10, 11, 12, 11, 10, 40, 120, 200, 180, 90, 60, 30, 12, 11, 10, 11];
const WORDS_A: [u32; 10] = [
    0x81440101, 0x00500405, 0x91400009, 0x98000100, 0x00000000, 0xB98002BC, 0xC18001B4, 0xD180B0C8,
    0x89400009, 0xF9400000,
];
const LINES_A: &str =
    "block\t5\t1\t1\nsetup\t20\t2\t5\nevent\t9\nclock\t256\nintegral\t3\t0\t0\t700\n\
                       time\t3\t0\t0\t6\t52\nped\t3\t0\t11\t200\nend\t9\nfill\t1\n";

fn settings() -> Settings {
    Settings {
        mode: 7,
        nw: 16,
        pl: 20,
        nsb: 2,
        nsa: 5,
        limit: 3,
        slot: 5,
        parameters: true,
        times: 2,
        multiple: 2,
        thresholds: [100; 16],
    }
}

fn settings_for(window: &[u16]) -> Settings {
    Settings { nw: window.len() as u64, ..settings() }
}

fn pulses(settings: &Settings, window: &[u16]) -> Vec<Pulse> {
    let settings = Settings { nw: window.len() as u64, ..settings.clone() };
    find(&settings, 0, window).unwrap()
}

fn tcs(settings: &Settings, window: &[u16]) -> Vec<u32> {
    pulses(settings, window).iter().map(|pulse| pulse.tc).collect()
}

/// A whole block of one event with this window in channel 3.
fn block(settings: Settings, window: &[u16]) -> Vec<u32> {
    let mut state = set_up(settings).unwrap();
    let (mut store, mut words) = (vec![0; 16 * window.len()], vec![0; 13_000]);
    state.open_block(&mut words, 1, 1).unwrap();
    state.open_event(9, 256).unwrap();
    state.post(&mut store, 3, window).unwrap();
    state.close(&store, &mut words).unwrap();
    let length = state.finish(&mut words).unwrap();
    words.truncate(length as usize);
    words
}

/// Only the words of channels, without headers, times and trailer.
fn channel_words(settings: Settings, window: &[u16]) -> Vec<u32> {
    let settings = Settings { parameters: false, times: 0, multiple: 1, ..settings };
    let words = block(settings, window);
    words[2..words.len() - 1].to_vec()
}

fn bytes(words: &[u32]) -> Vec<u8> {
    words.iter().flat_map(|word| word.to_be_bytes()).collect()
}

fn refused(number: u64, place: u64) -> u64 {
    (number << 32) + place
}

#[test]
fn run_a() {
    let found = find(&settings(), 3, &RUN_A).unwrap();
    let expected = Pulse {
        tc: 7,
        first: 5,
        last: 11,
        sum: 700,
        coarse: 6,
        fine: 52,
        vmin: 11,
        vpeak: 200,
        rule: 4,
    };
    assert_eq!(found, [expected]);
    assert_eq!(block(settings(), &RUN_A), WORDS_A);
    assert_eq!(list(&bytes(&WORDS_A)), LINES_A);
    assert_eq!(check(&bytes(&WORDS_A)), 10);
}

#[test]
fn run_b_threshold() {
    assert!(pulses(&settings(), &[100]).is_empty());
    assert_eq!(tcs(&settings(), &[101]), [1]);
    assert!(pulses(&settings(), &[4_096 + 100]).is_empty(), "bit 12 is no amplitude");
}

#[test]
fn runs_c_and_d_next_pulse() {
    let window = [150, 50, 150, 50, 150];
    assert_eq!(tcs(&Settings { nsa: 2, ..settings() }, &window), [1, 5]);
    assert_eq!(tcs(&Settings { nsa: 1, ..settings() }, &window), [1, 3, 5]);
    assert_eq!(tcs(&Settings { nsa: 1, limit: 2, ..settings() }, &window), [1, 3]);
}

#[test]
fn run_e_set_starts_at_one() {
    let found = pulses(&Settings { nsb: 3, ..settings() }, &[0, 150, 0, 0, 0, 0, 0, 0]);
    assert_eq!((found[0].tc, found[0].first, found[0].last), (2, 1, 6));
}

#[test]
fn run_f_late_crossing() {
    for (tc, rule) in [(11, 4), (12, 2)] {
        let mut window = [10; 16];
        window[tc - 1] = 200;
        let found = pulses(&settings(), &window);
        assert_eq!((found[0].tc, found[0].rule), (tc as u32, rule));
        assert_eq!((found[0].vmin, found[0].vpeak), (10, if rule == 4 { 200 } else { 0 }));
    }
}

#[test]
fn run_g_flat_tops() {
    let flat = [10, 10, 10, 10, 50, 150, 200, 200, 200, 200, 200, 200];
    let found = pulses(&settings(), &flat)[0];
    assert_eq!((found.coarse, found.fine), (6, 0));
    assert_eq!((found.vmin, found.vpeak, found.rule), (10, 0, 3));
    let falls = [10, 10, 10, 10, 50, 150, 200, 200, 180, 200, 300, 200];
    let found = pulses(&settings(), &falls)[0];
    assert_eq!((found.vpeak, found.coarse, found.fine), (200, 5, 35));
}

#[test]
fn run_h_cap() {
    let settings = Settings { nsa: 511, mode: 3, ..settings() };
    for (count, sum, written, quality) in [(128, 524_160, 524_160, 0), (129, 528_255, 524_287, 1)] {
        let window = vec![4_095; count];
        assert_eq!(pulses(&settings, &window)[0].sum, sum);
        let words = channel_words(Settings { nw: count as u64, ..settings.clone() }, &window);
        assert_eq!(words[0], 0xB9800000 | quality << 19 | written);
        assert_eq!(words[1], 0xC1800000 | 1 << 6, "mode 3: TC and fine 0");
    }
}

#[test]
fn run_i_vmin_cut_in_the_word_only() {
    for vmin in [511, 512] {
        let window = [vmin, vmin, vmin, vmin, vmin, 900, 1_000, 900, 600, 600, 600, 600];
        let s = Settings { mode: 4, thresholds: [700; 16], ..settings_for(&window) };
        let pulse = find(&s, 3, &window).unwrap()[0];
        assert_eq!((pulse.vmin, pulse.vpeak, pulse.rule), (vmin.into(), 1_000, 4));
        let words = channel_words(s, &window);
        assert_eq!(words[1], 0xD1800000 | 511 << 12 | 1_000);
    }
    // VMID with the VMIN that was measured, not with 511: (1,003 + 1,000) / 2.
    let window = [1_000, 1_000, 1_000, 1_000, 1_000, 1_003, 1_002, 0, 0, 0, 0];
    let s = Settings { thresholds: [1_000; 16], ..settings() };
    assert_eq!((pulses(&s, &window)[0].coarse, pulses(&s, &window)[0].fine), (5, 64 / 3));
}

#[test]
fn easy_mistakes() {
    // A second pulse gets its own edge, not the first one's.
    let window = [0, 0, 0, 0, 0, 200, 0, 0, 0, 0, 200, 0, 0, 0, 0, 0];
    let s = Settings { nsa: 2, ..settings() };
    let found = pulses(&s, &window);
    assert_eq!(found.iter().map(|p| p.coarse).collect::<Vec<_>>(), [5, 10]);
    // Sample s starts no pulse, over or not.
    assert_eq!(tcs(&Settings { nsa: 2, ..settings() }, &[150, 0, 150, 150, 0, 150]), [1, 6]);
    // The peak is the value before the first fall, not the greatest of the set.
    let window = [0, 0, 0, 0, 150, 140, 900, 0, 0, 0, 0, 0];
    assert_eq!(pulses(&settings(), &window)[0].vpeak, 150);
    // The search for the peak goes on past the data set.
    let window = [0, 0, 0, 0, 110, 120, 130, 140, 150, 160, 150, 0];
    assert_eq!(pulses(&Settings { nsa: 1, ..settings() }, &window)[0].vpeak, 160);
}

#[test]
fn rule_one() {
    for window in [&[0, 0, 150][..], &[0, 0, 0, 150, 0, 0, 0, 0, 0, 0]] {
        let found = pulses(&settings(), window)[0];
        assert_eq!(
            (found.coarse, found.fine, found.vmin, found.vpeak, found.rule),
            (found.tc, 0, 0, 0, 1)
        );
    }
}

#[test]
fn old_rows_are_not_read() {
    let mut state = set_up(settings()).unwrap();
    let (mut store, mut words) = (vec![u16::MAX; 256], vec![7; 64]);
    state.open_block(&mut words, 1, 2).unwrap();
    for event in 0..2 {
        state.open_event(event, 0).unwrap();
        if event == 0 {
            state.post(&mut store, 3, &RUN_A).unwrap();
        }
        state.close(&store, &mut words).unwrap();
    }
    assert_eq!(&store[48..64], &RUN_A);
    assert!(store[..48].iter().chain(&store[64..]).all(|&sample| sample == u16::MAX));
    assert_eq!(state.words, 2 + 6 + 3);
    assert!(words[11..].iter().all(|&word| word == 7));
}

#[test]
fn modes_and_odd_windows() {
    let with_flag: u16 = 0x1000 | 150;
    let window = [10, 10, 10, 10, with_flag, 20, 20, 20, 20, 20, 20];
    let s = |mode| Settings { mode, nsa: 1, ..settings_for(&window) };
    let one = channel_words(s(1), &window);
    assert_eq!(one[0], 0xA180000B);
    assert_eq!(one[3], 0x10960014, "raw words carry bit 12");
    assert_eq!((one.len(), one[6]), (7, 20 << 16 | 1 << 13));
    // NSB 2, NSA 1: samples 3 to 5, an odd count
    let two = channel_words(s(2), &window);
    assert_eq!(two, [0xB1800005, 10 << 16 | 10, u32::from(with_flag) << 16 | 1 << 13]);
    let four = channel_words(s(4), &window);
    assert_eq!(four, [0xC1800000 | 4 << 6 | 32, 0xD1800000 | 10 << 12 | 150]);
    assert_eq!(channel_words(s(8), &window), [one, four].concat());
    assert_eq!(channel_words(s(3), &window), [0xB9800000 | 170, 0xC1800000 | 5 << 6]);
    assert!(channel_words(s(1), &[0; 11]).is_empty());
    for mode in [1, 2, 3, 4, 7, 8] {
        let words = block(s(mode), &window);
        assert_eq!(check(&bytes(&words)), words.len() as u64);
    }
}

#[test]
fn limits_of_the_window() {
    let least = channel_words(Settings { mode: 8, ..settings_for(&[101]) }, &[101]);
    assert_eq!(least, [0xA1800001, 101 << 16 | 1 << 13, 0xC1800000 | 1 << 6, 0xD1800000]);
    let full = vec![4_095; 500];
    assert_eq!(channel_words(Settings { mode: 1, ..settings_for(&full) }, &full).len(), 251);
    // Three sets at their longest end at 496, 498 and 500, since a next TC lies
    // at least two after the last set's end: 750 words, within the paper's 753.
    let mut window = vec![0; 500];
    for tc in [496, 498, 500] {
        window[tc - 1] = 300;
    }
    let s = Settings { mode: 2, nsb: 511, nsa: 1, ..settings_for(&window) };
    let words = channel_words(s.clone(), &window);
    assert_eq!(words.len(), 249 + 250 + 251);
    // All sixteen channels of that kind, three times, are within the state's range.
    let mut state = set_up(Settings { times: 2, ..s }).unwrap();
    let (mut store, mut words) = (vec![0; 8_000], vec![0; 40_000]);
    state.open_block(&mut words, 1_023, 3).unwrap();
    for event in 0..3 {
        state.open_event(event, (1 << 48) - 1).unwrap();
        (0..16).for_each(|channel| state.post(&mut store, channel, &window).unwrap());
        state.close(&store, &mut words).unwrap();
    }
    assert_eq!(state.finish(&mut words), Ok(2 + 3 * 12_003 + 1));
    // With scalers each of them is 19 words longer, within 12,070; a filler.
    state.open_block(&mut words, 1_023, 3).unwrap();
    for event in 0..3 {
        state.open_event(event, (1 << 48) - 1).unwrap();
        (0..16).for_each(|channel| state.post(&mut store, channel, &window).unwrap());
        state.close_with_scalers(&store, &mut words).unwrap();
    }
    assert_eq!(state.finish(&mut words), Ok(2 + 3 * 12_022 + 1 + 1));
}

#[test]
fn filler_multiples() {
    for (multiple, length) in [(1, 9), (2, 10), (4, 12)] {
        let words = block(Settings { multiple, ..settings() }, &RUN_A);
        assert_eq!(words.len(), length);
        assert_eq!(words[8], 0x89400009, "the trailer does not count fillers");
        assert!(words[9..].iter().all(|&word| word == 0xF9400000));
        assert_eq!(check(&bytes(&words)), length as u64);
    }
    // A block that is a multiple already gets none.
    assert_eq!(block(Settings { multiple: 4, times: 1, ..settings() }, &RUN_A).len(), 8);
}

#[test]
fn type_six_with_a_flagged_pair() {
    let block = |pairs: &[u32]| {
        let mut words = vec![words::block_header(5, 0, 1), words::event_header(5, 0)];
        words.push(words::pulse_raw(15, 3, 1_023));
        words.extend(pairs);
        words.push(words::trailer(5, words.len() as u32 + 1));
        words
    };
    let flagged = 1 << 16 | 1 << 13;
    let good = block(&[5, flagged]);
    assert_eq!(check(&bytes(&good)), 6);
    assert!(list(&bytes(&good)).contains("pulse\t15\t3\t1023\npair\t0\t5\npair\t1\t-\nend\t6\n"));
    assert_eq!(check(&bytes(&block(&[5, flagged, 5]))), refused(12, 5));
    assert_eq!(check(&bytes(&block(&[5, flagged | 1]))), refused(13, 4));
    assert_eq!(check(&bytes(&block(&[5 | 1 << 29]))), refused(13, 3));
    assert_eq!(check(&bytes(&block(&[5 | 1 << 14]))), refused(13, 3));
    assert_eq!(check(&bytes(&block(&[]))), refused(12, 3));
    assert_eq!(check(&bytes(&block(&[5; 250]))), 254);
    assert_eq!(check(&bytes(&block(&[5; 251]))), refused(12, 253));
}

#[test]
fn type_four_pairs() {
    let block = |width: u32, pairs: &[u32]| {
        let mut words = vec![words::block_header(5, 0, 1), words::event_header(5, 0)];
        words.push(words::window(1, width));
        words.extend(pairs);
        words.push(words::trailer(5, words.len() as u32 + 1));
        check(&bytes(&words))
    };
    let flag = 1 << 13;
    assert_eq!(block(3, &[5, flag]), 6);
    assert_eq!(block(3, &[5, 5]), refused(13, 4), "flag absent at the odd end");
    assert_eq!(block(4, &[5, flag]), refused(13, 4), "flag at an even end");
    assert_eq!(block(3, &[flag, flag]), refused(13, 3), "flag before the end");
    assert_eq!(block(3, &[5]), refused(12, 4));
    assert_eq!(block(3, &[5, flag, 5]), refused(12, 5));
    assert_eq!(block(0, &[]), refused(13, 2));
    assert_eq!(block(501, &[5; 251]), refused(13, 2));
    assert_eq!(block(500, &[5; 250]), 254);
}

#[test]
fn refusal_1_settings() {
    let good = settings().encode();
    let bad: [(usize, &[u64]); 11] = [
        (0, &[0, 5, 6, 9]),
        (1, &[0, 501]),
        (2, &[2_048]),
        (3, &[512]),
        (4, &[0, 512]),
        (5, &[0, 4]),
        (6, &[32]),
        (7, &[2]),
        (8, &[3]),
        (9, &[0, 3, 5]),
        (25, &[4_096, 1 << 32]),
    ];
    let mut state = [9; 72];
    for (place, values) in bad {
        for &value in values {
            let mut numbers = good;
            numbers[place] = value;
            assert_eq!(calls::set_up(&numbers, &mut state), 1);
            assert_eq!(calls::find(&numbers, 99, &[], &mut []), 1);
            numbers[place] = good[place] + (1 << 32);
            assert_eq!(calls::set_up(&numbers, &mut state), 1);
        }
    }
    assert_eq!(calls::set_up(&good[..25], &mut state), 1);
    assert_eq!(calls::set_up(&[], &mut []), 1);
    assert_eq!(calls::set_up(&good, &mut state), 0);
}

/// "A refused call fills FADC250_STATE numbers with zeros, a state that every call
/// refuses with 10; an array of another length stays as it is."
#[test]
fn refused_set_up() {
    let good = settings().encode();
    let mut state = [9; 72];
    assert_eq!(calls::set_up(&good[..25], &mut state), 1);
    assert_eq!(state, [0; 72]);
    assert_eq!(calls::open_block(&mut state, &mut [0; 9], 1, 1), 10);
    for length in [0, 34, 71, 73] {
        let mut other = vec![9; length];
        assert_eq!(calls::set_up(&good[..25], &mut other), 1, "1 before 64");
        assert_eq!(calls::set_up(&good, &mut other), 64);
        assert_eq!(other, vec![9; length]);
    }
}

#[test]
fn refusals_of_the_finder_in_order() {
    let bad = [u16::MAX; 3];
    assert_eq!(find(&settings(), 16, &bad), Err(Refusal::Channel));
    assert_eq!(find(&settings(), 15, &bad), Err(Refusal::WindowLength));
    assert_eq!(find(&settings(), 15, &[8_192; 16]), Err(Refusal::Sample));
    let mut out = [5; 30];
    let good = settings().encode();
    assert_eq!(calls::find(&good, 3, &RUN_A, &mut out[..27]), 64);
    assert_eq!(calls::find(&good, 3, &[8_192; 16], &mut out[..27]), 3, "3 before 64");
    assert_eq!(out, [5; 30], "fewer numbers than 28 stay");
    assert_eq!(calls::find(&good, 3, &RUN_A, &mut out), 0);
    assert_eq!(out[..11], [1, 7, 5, 11, 700, 6, 52, 11, 200, 4, 0]);
    assert_eq!(out[11..], [vec![0; 17], vec![5; 2]].concat());
    for (channel, window, answer) in [(16, &RUN_A, 4), (3, &[8_192; 16], 3)] {
        let mut out = [5; 30];
        assert_eq!(calls::find(&good, channel, window, &mut out), answer);
        assert_eq!(out[..], [vec![0; 28], vec![5; 2]].concat(), "no pulses");
    }
}

/// A state in an event, with channel 3 posted, as numbers.
fn in_event() -> (Vec<u64>, Vec<u16>, Vec<u32>) {
    let (mut state, mut store, mut words) = (vec![0; 72], vec![0; 256], vec![0; 64]);
    assert_eq!(calls::set_up(&settings().encode(), &mut state), 0);
    assert_eq!(calls::open_block(&mut state, &mut words, 1, 1), 0);
    assert_eq!(calls::open_event(&mut state, 9, 256), 0);
    assert_eq!(calls::post(&mut state, &mut store, 3, &RUN_A), 0);
    (state, store, words)
}

#[test]
fn refusals_2_to_6_and_9_in_order() {
    let (mut state, mut store, mut words) = in_event();
    let before = (state.clone(), store.clone(), words.clone());
    assert_eq!(calls::post(&mut state, &mut [], 16, &[]), 4);
    assert_eq!(calls::post(&mut state, &mut [], 3, &[]), 5);
    assert_eq!(calls::post(&mut state, &mut [], 3, &[u16::MAX; 16]), 6);
    assert_eq!(calls::post(&mut state, &mut store[..255], 4, &[u16::MAX; 16]), 2);
    assert_eq!(calls::post(&mut state, &mut store, 4, &[u16::MAX; 16]), 3);
    assert_eq!(calls::close(&mut state, &store[..255], &mut []), 2);
    assert_eq!(calls::close(&mut state, &[8_192; 256], &mut []), 3);
    assert_eq!(calls::close(&mut state, &store, &mut words[..7]), 9);
    assert_eq!((state.clone(), store.clone(), words.clone()), before);
    assert_eq!(calls::close(&mut state, &store, &mut words[..8]), 0);
    assert_eq!(calls::finish(&mut state, &mut words[..9]), refused(9, 0));
    assert_eq!(calls::finish(&mut state, &mut words[..10]), 10);
    assert_eq!(words[..10], WORDS_A);
    assert_eq!(calls::open_block(&mut state, &mut words[..1], 1, 1), 9);
}

#[test]
fn refusals_7_and_8() {
    let (mut state, mut store, mut words) = in_event();
    assert_eq!(calls::open_block(&mut state, &mut [], 1_024, 0), 7);
    assert_eq!(calls::open_event(&mut state, u32::MAX, 0), 7);
    assert_eq!(calls::finish(&mut state, &mut words), refused(7, 0));
    assert_eq!(calls::close(&mut state, &store, &mut words), 0);
    assert_eq!(calls::open_event(&mut state, 1, 1), 7, "beyond the block's count");
    assert_eq!(calls::post(&mut state, &mut store, 16, &[]), 7);
    assert_eq!(calls::close(&mut state, &[], &mut []), 7);
    assert_eq!(calls::finish(&mut state, &mut words), 10);
    for (number, events) in [(1_024, 1), (0, 0), (0, 256)] {
        assert_eq!(calls::open_block(&mut state, &mut [], number, events), 8);
    }
    assert_eq!(calls::open_block(&mut state, &mut words, 1_023, 255), 0);
    assert_eq!(calls::finish(&mut state, &mut words), refused(7, 0), "before the count");
    assert_eq!(calls::open_event(&mut state, 4_194_304, 0), 8);
    assert_eq!(calls::open_event(&mut state, 0, 1 << 48), 8);
    assert_eq!(calls::open_event(&mut state, 4_194_303, (1 << 48) - 1), 0);
}

/// A place and a number that no state in an event has there: phase, block number,
/// events, event, time, marks, closed, words; counts, timer, triggers, part, over,
/// latched; settings.
const FORGED: [(usize, u64); 32] = [
    (0, 0),
    (0, 1),
    (0, 3),
    (1, 1_024),
    (2, 0),
    (2, 256),
    (3, 4_194_304),
    (4, 1 << 48),
    (5, 1 << 16),
    (6, 1),
    (7, 1),
    (7, 3),
    (7, u64::MAX),
    (8, 1 << 32),
    (23, u64::MAX),
    (24, 1 << 32),
    (25, 1 << 32),
    (26, 512),
    (26, 1 << 32),
    (26, u64::MAX),
    (27, 1 << 16),
    (27, (1 << 16) + 1),
    (28, 1 << 32),
    (44, 1 << 32),
    (45, 1 << 32),
    (46, 5),
    (47, 501),
    (53, 2),
    (71, 4_096),
    (1, 1 << 32),
    (6, 1 << 32),
    (71, 1 << 32),
];

#[test]
fn refusal_10_forged_states() {
    let (good, store, mut words) = in_event();
    let mut forge = |change: &[(usize, u64)]| {
        let mut state = good.clone();
        change.iter().for_each(|&(place, value)| state[place] = value);
        calls::close(&mut state, &store, &mut words)
    };
    for change in FORGED {
        assert_eq!(forge(&[change]), 10, "{change:?}");
    }
    // Events closed 1 of 2: 2 + 3 words at least, 2 + 12,070 at most.
    for (words_written, answer) in [(4, 10), (5, 0), (12_072, 9), (12_073, 10)] {
        assert_eq!(forge(&[(2, 2), (6, 1), (7, words_written)]), answer);
    }
    assert_eq!(forge(&[(53, 0), (7, 1)]), 0);
    // The greatest of each count.
    for place in (8..26).chain(28..46) {
        assert_eq!(forge(&[(place, u32::MAX.into()), (26, 511), (27, 0xFFFF)]), 0);
    }
    assert_eq!(calls::open_event(&mut [0; 34], 0, 0), 10);
    assert_eq!(calls::open_event(&mut [0; 72], 0, 0), 10);
    let idle = set_up(settings()).unwrap();
    for place in 1..8 {
        let mut numbers = idle.encode();
        numbers[place] = 1;
        assert_eq!(calls::open_block(&mut numbers, &mut [0; 9], 1, 1), 10);
    }
    // "Idle: all else is zero" is of document 01's fields.
    for place in 8..46 {
        let mut numbers = idle.encode();
        numbers[place] = 1;
        assert_eq!(calls::open_block(&mut numbers, &mut [0; 9], 1, 1), 0);
    }
    assert_eq!(State::decode(&good).map(|state| state.encode().to_vec()), Some(good));
}

/// The answer for run A's block with one word changed.
fn changed(place: usize, word: u32) -> u64 {
    let mut words = WORDS_A;
    words[place] = word;
    check(&bytes(&words))
}

#[test]
fn refusals_11_to_15() {
    for end in 0..9 {
        assert_eq!(check(&bytes(&WORDS_A[..end])), refused(11, end as u64));
    }
    assert_eq!(check(&bytes(&WORDS_A[..9])), 9);
    assert_eq!(changed(0, 0x01440101), refused(12, 0));
    assert_eq!(changed(0, 0xF9400000), refused(12, 0));
    assert_eq!(changed(0, 0x81480101), refused(13, 0), "module 2");
    assert_eq!(changed(0, 0x81440100), refused(13, 0), "events 0");
    assert_eq!(changed(0, 0x81440102), refused(14, 8), "trailer before the events");
    assert_eq!(changed(0, 0x81040101), refused(15, 2));
    assert_eq!(changed(1, 0x20500405), refused(13, 1));
    assert_eq!(changed(1, 0x89400002), refused(14, 1), "trailer where an event may begin");
    assert_eq!(changed(1, 0x89000002), refused(15, 1), "15 before 14");
    assert_eq!(changed(1, 0xB9800000), refused(12, 1));
    assert_eq!(changed(4, 0x01000000), refused(13, 4));
    assert_eq!(changed(4, 0x00000001), refused(13, 4), "time bits 26-24 unequal");
    assert_eq!(changed(4, 0x00FFFFF8), 10);
    assert_eq!(changed(4, 0x98000000), refused(12, 4));
    assert_eq!(changed(5, 0x00000000), refused(12, 5));
    assert_eq!(changed(5, 0xE8000000), refused(12, 5), "type 13");
    assert_eq!(changed(5, 0x91400009), refused(14, 5), "event beyond the stated");
    assert_eq!(changed(6, 0xC18081B4), refused(13, 6));
    assert_eq!(changed(8, 0x8940000A), refused(14, 8));
    assert_eq!(changed(9, 0xF9FFFFFF), refused(15, 9));
    assert_eq!(changed(9, 0xF97FFFFF), 10, "undefined bits");
    assert_eq!(changed(9, 0x00000000), 9, "the block ends before a word that is no filler");
    let fillers = [&WORDS_A[..9], &[0xF9400000; 4]].concat();
    assert_eq!(check(&bytes(&fillers)), 12);
    assert_eq!(check(&bytes(&[0xF17FFFFF, 0])), 1);
    assert_eq!(check(&[]), refused(11, 0));
}

#[test]
fn refusal_14_at_the_limit() {
    let answers: Vec<u64> = second::cases::limit_cases().map(|case| check(&case.bytes)).collect();
    let limit = LIMIT as u64;
    // The longest block and what is missing of it; any word or none at the place;
    // what follows a trailer.
    let mut expected = vec![limit, refused(11, limit - 1)];
    expected.extend([refused(14, limit); 14]);
    // The same of scalers and their words.
    expected.extend([refused(14, limit); 6]);
    expected.extend([limit, refused(11, limit - 1)]);
    expected.extend([limit + 1, limit + 3, refused(15, limit), refused(15, limit + 1), limit]);
    assert_eq!(answers, expected);
}

#[test]
fn refusal_16_and_the_lister() {
    let good = bytes(&WORDS_A);
    assert_eq!(check(&good[..39]), refused(16, 0));
    assert_eq!(list(&good[..39]), "refused\t16\t0\n");
    assert_eq!(words_of_bytes(&good[..5]), None);
    assert_eq!(list(&[]), "");
    assert_eq!(list(&vec![0; 65_540]), "refused\t16\t0\n");
    assert_eq!(list(&vec![0; 65_536]), "refused\t12\t0\n");
    let empties = bytes(&[0xF17FFFFF; 16_384]);
    assert_eq!(list(&empties), "empty\t5\n".repeat(16_384));
    assert_eq!(list(&[&good[..], &good[..]].concat()), LINES_A.repeat(2));
    // A time whose second word is refused stands as if the input ended there.
    let mut words = WORDS_A;
    words[4] = 1;
    assert_eq!(
        list(&bytes(&words)),
        "block\t5\t1\t1\nsetup\t20\t2\t5\nevent\t9\nclock27\t256\nrefused\t13\t4\n"
    );
    let other_slot = [&WORDS_A[..], &[0xF9000000]].concat();
    assert_eq!(list(&bytes(&other_slot)), format!("{LINES_A}refused\t15\t10\n"));
    let fourth = [&WORDS_A[..9], &[0xF9400000; 4]].concat();
    assert!(list(&bytes(&fourth)).ends_with("end\t9\nfill\t3\nrefused\t12\t0\n"));
}

/// A state that was just set up, all thresholds 100.
fn counter() -> State {
    set_up(settings()).unwrap()
}

/// A frame with these channels at 101, the others at 100.
fn frame(over: &[usize]) -> [u16; 16] {
    std::array::from_fn(|channel| if over.contains(&channel) { 101 } else { 100 })
}

/// The running counts of channels 0 and 3 behind these frames, each in its own call.
fn counted(frames: &[[u16; 16]]) -> (u32, u32) {
    let mut state = counter();
    frames.iter().for_each(|frame| state.count(frame).unwrap());
    let mut whole = counter();
    whole.count(&frames.concat()).unwrap();
    assert_eq!(state, whole, "frames by one call or by many");
    (state.scalers.running[0], state.scalers.running[3])
}

/// "each channel counts the frames where it is over and was not in the frame before,
/// the first frame counting as if all had been under"
#[test]
fn channels_count_edges() {
    let (none, first, third) = (frame(&[]), frame(&[0]), frame(&[3]));
    let both = frame(&[0, 3]);
    assert_eq!(counted(&[]), (0, 0));
    assert_eq!(counted(&[none]), (0, 0), "100 at threshold 100");
    assert_eq!(counted(&[both]), (1, 1));
    assert_eq!(counted(&[both, both, both]), (1, 1), "it stays over");
    assert_eq!(counted(&[first, third, first, third]), (2, 2));
    assert_eq!(counted(&[first, both, none, both]), (2, 2));
    let mut flagged = none;
    flagged[0] = 0x1000 | 100;
    flagged[3] = 0x1000 | 101;
    assert_eq!(counted(&[flagged]), (0, 1), "bit 12 is no amplitude");
    let mut state = set_up(Settings { thresholds: [4_095; 16], ..settings() }).unwrap();
    state.count(&[8_191; 32]).unwrap();
    assert_eq!(state.scalers, Scalers { part: 2, ..Scalers::default() });
}

/// "A timer counts whole groups of 512 frames."
#[test]
fn timer_counts_groups() {
    let mut state = counter();
    for (frames, timer, part) in [(511, 0, 511), (1, 1, 0), (0, 1, 0), (1_025, 3, 1), (511, 4, 0)] {
        state.count(&vec![0; 16 * frames]).unwrap();
        assert_eq!((state.scalers.running[16], state.scalers.part), (timer, part));
    }
}

/// "a trigger counter counts opened events": those that were refused are not.
#[test]
fn triggers_count_opened_events() {
    let (mut state, mut words) = (counter(), [0; 99]);
    let store = [0; 256];
    assert_eq!(state.open_event(1, 1), Err(Refusal::OutOfTurn));
    state.open_block(&mut words, 1, 2).unwrap();
    for triggers in 1..=2 {
        assert_eq!(state.open_event(4_194_304, 1), Err(Refusal::Number));
        state.open_event(1, 1).unwrap();
        assert_eq!(state.open_event(1, 1), Err(Refusal::OutOfTurn));
        assert_eq!(state.scalers, Scalers { running: running(triggers), ..Scalers::default() });
        state.close(&store, &mut words).unwrap();
    }
    assert_eq!(state.open_event(1, 1), Err(Refusal::OutOfTurn));
    assert_eq!(state.scalers.running, running(2));
}

/// No counts but those of triggers.
fn running(triggers: u32) -> [u32; 18] {
    let mut running = [0; 18];
    running[17] = triggers;
    running
}

/// "All wrap at 2^32."
#[test]
fn counts_wrap() {
    let (mut state, mut words) = (counter(), [0; 99]);
    state.scalers.running = [u32::MAX; 18];
    state.scalers.part = 511;
    state.scalers.over = 1;
    state.open_block(&mut words, 1, 1).unwrap();
    state.open_event(1, 1).unwrap();
    state.count(&[101; 16]).unwrap();
    let mut expected = [0; 18];
    expected[0] = u32::MAX; // it was over before
    assert_eq!(state.scalers.running, expected);
    assert_eq!((state.scalers.part, state.scalers.over), (0, 0xFFFF));
}

/// "Latch copies eighteen counts at once; reset zeroes the running counts and the
/// timer's part group, not the latched ones, which are zero before any latch."
#[test]
fn latch_and_reset() {
    let mut state = counter();
    state.scalers.running = std::array::from_fn(|count| 100 + count as u32);
    (state.scalers.part, state.scalers.over) = (7, 8);
    let before = state.clone();
    assert_eq!(state.scalers.latched, [0; 18]);
    state.latch().unwrap();
    let latched = before.scalers.running;
    let scalers = Scalers { latched, ..before.scalers.clone() };
    assert_eq!(state, State { scalers, ..before.clone() });
    state.reset().unwrap();
    let scalers = Scalers { over: 8, latched, ..Scalers::default() };
    assert_eq!(state, State { scalers, ..before });
    // Channel 3 was over before the reset, and so this frame is no edge of it.
    state.count(&frame(&[3, 4])).unwrap();
    assert_eq!(state.scalers.running[..5], [0, 0, 0, 0, 1]);
    assert_eq!((state.scalers.part, state.scalers.latched), (1, latched));
}

/// "The state holds all this beside 01's fields, in every phase and kept through
/// idle."
#[test]
fn counts_are_kept() {
    let (mut state, mut store, mut words) = in_event();
    let counts: Vec<u64> = (1..=38).collect();
    state[8..46].copy_from_slice(&counts);
    let kept = |state: &[u64]| assert_eq!(state[8..46], counts);
    assert_eq!(calls::post(&mut state, &mut store, 4, &RUN_A), 0);
    kept(&state);
    assert_eq!(calls::close_with_scalers(&mut state, &store, &mut words), 0);
    kept(&state);
    assert_eq!(calls::finish(&mut state, &mut words), 32);
    kept(&state);
    assert_eq!(state[..8], [0; 8]);
    assert_eq!(calls::open_block(&mut state, &mut words, 1, 1), 0);
    kept(&state);
    // "set up makes it zero"
    assert_eq!(calls::set_up(&settings().encode(), &mut state), 0);
    assert_eq!(state[..46], [0; 46]);
}

/// 10, then 3 for any sample, those of a frame that is not whole too, then 19;
/// refused, none of the frames counts.  The calls are allowed in every phase.
#[test]
fn refusals_of_counting() {
    let (event, store, mut words) = in_event();
    let mut block = event.clone();
    assert_eq!(calls::close(&mut block, &store, &mut words), 0);
    let mut idle = block.clone();
    assert_eq!(calls::finish(&mut idle, &mut words), 10);
    for good in [event, block, idle] {
        let mut state = good.clone();
        let bad = [vec![101; 16], vec![8_192; 1]].concat();
        assert_eq!(calls::count(&mut state, &bad), 3, "3 before 19");
        assert_eq!(calls::count(&mut state, &[vec![101; 31], vec![8_192]].concat()), 3);
        for length in [1, 15, 17, 31, 16 * 512 + 8] {
            assert_eq!(calls::count(&mut state, &vec![101; length]), 19);
        }
        assert_eq!(state, good);
        assert_eq!(calls::count(&mut state, &[]), 0, "no frames change nothing");
        assert_eq!(state, good);
        state[26] = 512;
        let forged = state.clone();
        assert_eq!(calls::count(&mut state, &bad), 10, "10 before 3");
        assert_eq!(calls::latch(&mut state), 10);
        assert_eq!(calls::reset(&mut state), 10);
        assert_eq!(state, forged);
        state[26] = 511;
        assert_eq!(calls::count(&mut state, &[101; 16]), 0);
        assert_eq!((state[8], state[24], state[26], state[27]), (1, 1, 0, 0xFFFF));
        assert_eq!(calls::latch(&mut state), 0);
        assert_eq!(calls::reset(&mut state), 0);
        assert_eq!((state[8], state[24], state[28], state[44]), (0, 0, 1, 1));
    }
    assert_eq!(calls::count(&mut [], &[]), 10);
    assert_eq!(calls::latch(&mut [0; 34]), 10);
    assert_eq!(calls::reset(&mut [0; 72]), 10);
}

/// "On request a closed event ends with type 12 (bits 26-6 zero, 5-0 = 18) and the
/// latched words: channels 0 to 15, timer, triggers."
#[test]
fn event_with_scalers() {
    let (mut state, store, mut words) = in_event();
    let latched: Vec<u64> = (0..18).map(|count| u64::from(u32::MAX) - count).collect();
    state[28..46].copy_from_slice(&latched);
    let mut without = (state.clone(), words.clone());
    assert_eq!(calls::close(&mut without.0, &store, &mut without.1), 0);
    let before = state.clone();
    assert_eq!(calls::close_with_scalers(&mut state, &store[..255], &mut []), 2);
    assert_eq!(calls::close_with_scalers(&mut state, &[8_192; 256], &mut []), 3);
    assert_eq!(calls::close_with_scalers(&mut state, &store, &mut words[..26]), 9);
    assert_eq!((&state, words[2..].iter().max()), (&before, Some(&0)));
    assert_eq!(calls::close_with_scalers(&mut state, &store, &mut words[..27]), 0);
    // Its other words are as they would be, and so is the rest of the state.
    assert_eq!(words[..8], without.1[..8]);
    without.0[7] += 19;
    assert_eq!(state, without.0);
    let mut expected = vec![0xE0000012];
    expected.extend(latched.iter().map(|&count| count as u32));
    assert_eq!(words[8..27], expected);
    assert_eq!(words[27..], [0; 37]);
    assert_eq!(calls::close_with_scalers(&mut state, &store, &mut words), 7);
    assert_eq!(calls::finish(&mut state, &mut words), 28);
    assert_eq!(check(&bytes(&words[..28])), 28);
}

/// A block of two events, slot 5, the first of which holds these items.
fn two_events(items: &[u32]) -> Vec<u32> {
    let mut words = vec![words::block_header(5, 0, 2), words::event_header(5, 0)];
    words.extend(items);
    words.push(words::event_header(5, 1));
    words.push(words::trailer(5, words.len() as u32 + 1));
    words
}

fn check_items(items: &[u32]) -> u64 {
    check(&bytes(&two_events(items)))
}

/// "They carry no tag: the reader takes the stated count, 0 to 63."
#[test]
fn scalers_are_read() {
    let alike = [words::event_header(5, 1), words::trailer(5, 4), 0xF9400000, 0xF1400000, 0];
    for count in [0, 1, 2, 18, 63] {
        let words = alike.iter().cycle().take(count);
        let items: Vec<u32> = [words::scalers(count as u32)].iter().chain(words).copied().collect();
        let place = items.len() as u64 + 2;
        assert_eq!(check_items(&items), place + 2);
        // "12 for anything after the scalers but the next event header or the trailer"
        let behind = [0, 0xB9800000, 0xE0000000, 0xA1800001, 0x98000100, 0xF9400000, 0xF1400000];
        for word in behind {
            assert_eq!(check_items(&[&items[..], &[word]].concat()), refused(12, place));
        }
        // The other refusals of those two.
        let behind = |word| check_items(&[&items[..], &[word]].concat());
        assert_eq!(behind(words::event_header(4, 1)), refused(15, place));
        assert_eq!(behind(words::event_header(5, 1)), refused(14, place + 1));
        assert_eq!(behind(words::trailer(5, place as u32 + 1)), refused(14, place));
        // An input that ends among them.
        let block = two_events(&items);
        for end in 0..block.len() {
            assert_eq!(check(&bytes(&block[..end])), refused(11, end as u64));
        }
    }
}

/// Type 12 may stand where an item may, and nowhere else.
#[test]
fn where_scalers_may_stand() {
    let scalers = [words::scalers(1), 0x91400001];
    let [low, high] = words::trigger_time(256);
    let raw = words::pulse_raw(1, 0, 1);
    let fronts: [&[u32]; 6] =
        [&[], &[low], &[low, high], &[0xB9800000], &[words::window(1, 2), 5], &[raw, 5]];
    for front in fronts {
        let items = [front, &scalers].concat();
        assert_eq!(check_items(&items), items.len() as u64 + 4);
    }
    assert_eq!(check_items(&[&[words::window(1, 4), 5][..], &scalers].concat()), refused(12, 4));
    assert_eq!(check_items(&[&[raw][..], &scalers].concat()), refused(12, 3));
    assert_eq!(check_items(&[&[raw, 1 << 13][..], &scalers].concat()), 8);
    for place in [0, 1, 2, 9] {
        assert_eq!(changed(place, words::scalers(0)), [refused(12, place as u64), 9][place / 9]);
    }
    // "bits 26-6 zero"
    for bit in 6..=26 {
        assert_eq!(check_items(&[scalers[0] | 1 << bit, scalers[1]]), refused(13, 2));
    }
}

/// "The lister prints `scalers` and the words in order": in one line.
#[test]
fn scalers_are_listed() {
    let block = two_events(&[words::scalers(2), 0x91400001, u32::MAX]);
    let lines = "block	5	0	2
event	0
scalers	2436890625	4294967295
event	1
end	7
";
    assert_eq!(list(&bytes(&block)), lines);
    let front = "block	5	0	2
event	0
scalers";
    // The words accepted so far, and then the refusal.
    assert_eq!(
        list(&bytes(&block[..3])),
        format!(
            "{front}
refused	11	3
"
        )
    );
    assert_eq!(
        list(&bytes(&block[..4])),
        format!(
            "{front}	2436890625
refused	11	4
"
        )
    );
    assert_eq!(
        list(&bytes(&two_events(&[words::scalers(0)]))),
        format!(
            "{front}
event	1
end	5
"
        )
    );
    let behind = list(&bytes(&two_events(&[words::scalers(1), 7, 0xB9800000])));
    assert_eq!(
        behind,
        format!(
            "{front}	7
refused	12	4
"
        )
    );
    let bad = list(&bytes(&two_events(&[words::scalers(1) | 1 << 6])));
    assert_eq!(
        bad,
        "block	5	0	2
event	0
refused	13	2
"
    );
}

/// The command line, fed `input`.
fn run(command: &str, input: &[u8]) -> String {
    use std::io::Write;
    use std::process::{Command, Stdio};
    let mut child = Command::new(env!("CARGO_BIN_EXE_second"))
        .arg(command)
        .stdin(Stdio::piped())
        .stdout(Stdio::piped())
        .spawn()
        .unwrap();
    // The lister may stop reading an input that is too long.
    let _ = child.stdin.take().unwrap().write_all(input);
    String::from_utf8(child.wait_with_output().unwrap().stdout).unwrap()
}

#[test]
fn command_line() {
    let good = bytes(&WORDS_A);
    assert_eq!(run("list", &good), LINES_A);
    assert_eq!(run("list", &[0; 65_537]), "refused\t16\t0\n");
    assert_eq!(run("list", &[]), "");
    assert_eq!(run("check", &good), "10\n");
    assert_eq!(run("check", &good[..4]), format!("{}\n", refused(11, 1)));
    let hex: Vec<String> = WORDS_A.iter().map(|word| format!("{word:08X}")).collect();
    assert_eq!(run("demo", &[]), format!("{}\n{LINES_A}", hex.join(" ")));
}
