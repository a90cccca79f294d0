//! What the header says of reading record by record, of the samples of a raw item
//! and of the lister's text, run.

use second::calls::{check, list, next, samples};
use second::reader::words_of_bytes;
use second::{lister, words};

const RUN_A: [u32; 10] = [
    0x81440101, 0x00500405, 0x91400009, 0x98000100, 0x00000000, 0xB98002BC, 0xC18001B4, 0xD180B0C8,
    0x89400009, 0xF9400000,
];
const FILLER: u32 = 0xF9400000;
const EMPTY: u32 = 0xF17FFFFF;
const OVERFLOW: u32 = 0x1000;
/// Of a pair: the second sample, or the first, is not valid.
const NOT_SECOND: u32 = 1 << 13;
const NOT_FIRST: u32 = 1 << 29;

type Scan = [u32; 6];
type Record = [u64; 6];

const NONE: Record = [0; 6];

fn bytes(words: &[u32]) -> Vec<u8> {
    words.iter().flat_map(|word| word.to_be_bytes()).collect()
}

fn refused(number: u64, place: u64) -> u64 {
    (number << 32) + place
}

/// One call: the answer, the scan behind it, and the record, into which other
/// numbers were written before.
fn call(words: &[u32], mut scan: Scan) -> (u64, Scan, Record) {
    let mut record = [77; 6];
    let answer = next(&mut scan, words, &mut record);
    (answer, scan, record)
}

/// Every record up to the end or to a refusal, each with the scan behind it; then
/// what the last call gave, which is the same when asked again.
fn read(words: &[u32]) -> (Vec<(Record, Scan)>, (u64, Scan, Record)) {
    let (mut records, mut scan) = (Vec::new(), [0; 6]);
    loop {
        let (answer, behind, record) = call(words, scan);
        if answer >> 32 != 0 || record[0] == 16 {
            assert_eq!(behind, scan, "the scan stays");
            assert_eq!(answer, check(&bytes(words)));
            return (records, (answer, scan, record));
        }
        assert_eq!(answer, u64::from(behind[0]));
        records.push((record, behind));
        scan = behind;
    }
}

/// A block of slot 5 with one event, which holds these items.
fn block(items: &[u32]) -> Vec<u32> {
    let mut words = vec![words::block_header(5, 0, 1), words::event_header(5, 0)];
    words.extend(items);
    words.push(words::trailer(5, words.len() as u32 + 1));
    words
}

/// What stands behind the two headers of such a block: records and the last call.
fn read_items(items: &[u32]) -> (Vec<(Record, Scan)>, (u64, Scan, Record)) {
    let (mut records, last) = read(&block(items));
    (records.split_off(2), last)
}

#[test]
fn run_a() {
    let expected: [(Record, Scan); 9] = [
        ([1, 5, 1, 1, 0, 0], [1, 5, 1, 1, 0, 0]),
        ([2, 20, 2, 5, 0, 0], [2, 5, 1, 2, 0, 0]),
        ([3, 5, 9, 0, 0, 0], [3, 5, 0, 3, 0, 0]),
        ([5, 256, 0, 0, 0, 0], [5, 5, 0, 5, 0, 0]),
        ([10, 3, 0, 0, 700, 0], [6, 5, 0, 5, 0, 0]),
        ([11, 3, 0, 0, 6, 52], [7, 5, 0, 5, 0, 0]),
        ([12, 3, 0, 0, 11, 200], [8, 5, 0, 5, 0, 0]),
        ([13, 5, 9, 0, 0, 0], [9, 5, 0, 8, 3, 0]),
        ([14, 5, 1, 0, 0, 0], [10, 5, 0, 8, 2, 0]),
    ];
    let (records, last) = read(&RUN_A);
    assert_eq!(records, expected);
    assert_eq!(last, (10, [10, 5, 0, 8, 2, 0], [16, 0, 0, 0, 0, 0]));
}

#[test]
fn module_empty() {
    let (records, last) = read(&[EMPTY, FILLER]);
    assert_eq!(records, [([15, 5, 0, 0, 0, 0], [1, 0, 0, 8, 0, 0])]);
    assert_eq!(last, (1, [1, 0, 0, 8, 0, 0], [16, 0, 0, 0, 0, 0]));
}

#[test]
fn times() {
    // Bits 26-24 stand in both words, and once in the time.
    let [low, high] = words::trigger_time(0xABCD_EF98_7654);
    let (records, _) = read_items(&[low, high]);
    assert_eq!(records[0], ([5, 0xABCD_EF98_7654, 0, 0, 0, 0], [4, 5, 0, 5, 0, 0]));
    // One word alone; its bits 26-24 are 7.
    let (records, _) = read_items(&[low]);
    assert_eq!(records[0], ([4, 0x798_7654, 0, 0, 0, 0], [3, 5, 0, 4, 7, 0]));
    assert_eq!(records[1].0[0], 13);
    // The second word is refused at the next call.
    let (records, last) = read_items(&[low, 1]);
    assert_eq!(records, [([4, 0x798_7654, 0, 0, 0, 0], [3, 5, 0, 4, 7, 0])]);
    assert_eq!(last, (refused(13, 3), [3, 5, 0, 4, 7, 0], NONE));
    // So is the end of the words.
    let (records, last) = read(&block(&[low, high])[..3]);
    assert_eq!(records[2], ([4, 0x798_7654, 0, 0, 0, 0], [3, 5, 0, 4, 7, 0]));
    assert_eq!(last.0, refused(11, 3));
}

#[test]
fn windows() {
    let odd = [words::window(3, 3), 5 << 16 | 6, 7 << 16 | NOT_SECOND];
    let (records, last) = read_items(&odd);
    assert_eq!(records[0], ([7, 3, 0, 3, 3, 2], [5, 5, 0, 5, 0, 0]));
    assert_eq!(last.0, 6);
    // Pairs that break are refused with the window; the scan stays before it.
    let before = [2, 5, 0, 3, 0, 0];
    let broken: [(&[u32], u64); 4] = [
        (&odd[..1], refused(12, 3)),
        (&odd[..2], refused(12, 4)),
        (&[odd[0], 5, 6], refused(13, 4)),
        (&[odd[0], NOT_SECOND, NOT_SECOND], refused(13, 3)),
    ];
    for (items, answer) in broken {
        assert_eq!(read_items(items), (vec![], (answer, before, NONE)));
    }
    // One too many is refused at the next call.
    let (records, last) = read_items(&[&odd[..], &[5]].concat());
    assert_eq!(records.len(), 1);
    assert_eq!(last, (refused(12, 5), [5, 5, 0, 5, 0, 0], NONE));
    let (_, last) = read(&block(&odd)[..4]);
    assert_eq!(last, (refused(11, 4), before, NONE));
}

#[test]
fn raw_pulses() {
    let head = words::pulse_raw(15, 3, 1_023);
    let raw = |pairs| [8, 15, 3, 1_023, 3, pairs];
    let (records, _) = read_items(&[head, 5]);
    assert_eq!(records[0], (raw(1), [4, 5, 0, 7, 249, 1]));
    let (records, _) = read_items(&[head, 5, NOT_SECOND]);
    assert_eq!(records[0], (raw(2), [5, 5, 0, 7, 0, 1]));
    assert_eq!(records[1], ([13, 5, 6, 0, 0, 0], [6, 5, 0, 8, 3, 0]));
    let (records, _) = read_items(&[&[head][..], &[5; 250]].concat());
    assert_eq!(records[0], (raw(250), [253, 5, 0, 7, 0, 1]));
    // An item behind it; then the stage is that of whole items.
    let (records, _) = read_items(&[head, 5, head, 5, 5, 0xB98002BC]);
    assert_eq!(records[1], ([8, 15, 3, 1_023, 5, 2], [7, 5, 0, 7, 248, 1]));
    assert_eq!(records[2], ([10, 3, 0, 0, 700, 0], [8, 5, 0, 5, 0, 0]));
    // A continuation word that is no pair of it breaks the whole item.
    let before = [2, 5, 0, 3, 0, 0];
    let long = [&[head][..], &[5; 251]].concat();
    let broken: [(&[u32], u64); 5] = [
        (&[head], refused(12, 3)),
        (&[head, 5, NOT_SECOND, 5], refused(12, 5)),
        (&[head, 5, NOT_SECOND | 1], refused(13, 4)),
        (&[head, 5, NOT_FIRST], refused(13, 4)),
        (&long, refused(12, 253)),
    ];
    for (items, answer) in broken {
        assert_eq!(read_items(items), (vec![], (answer, before, NONE)));
    }
    assert_eq!(read(&[&block(&[])[..2], &[head]].concat()).1, (refused(11, 3), before, NONE));
    // With a pair it may end where the words do: what is missing is behind it.
    let (records, last) = read(&block(&[head, 5])[..4]);
    assert_eq!(records[2], (raw(1), [4, 5, 0, 7, 249, 1]));
    assert_eq!(last, (refused(11, 4), [4, 5, 0, 7, 249, 1], NONE));
}

/// "scalers with all their words, and refused if one of them is"
#[test]
fn scalers() {
    // Words that look like others are scalers.
    let three = [words::scalers(3), words::event_header(4, 1), FILLER, 0];
    let (records, last) = read_items(&three);
    assert_eq!(records[0], ([17, 0, 3, 0, 3, 0], [6, 5, 0, 9, 0, 0]));
    assert_eq!(records[1], ([13, 5, 7, 0, 0, 0], [7, 5, 0, 8, 3, 0]));
    assert_eq!(last.0, 7);
    for count in [0, 1, 18, 63] {
        let items = [&[words::scalers(count)][..], &vec![u32::MAX; count as usize]].concat();
        let (records, _) = read_items(&items);
        let behind = [count + 3, 5, 0, 9, 0, 0];
        assert_eq!(records[0], ([17, 0, count.into(), 0, 3, 0], behind));
        assert_eq!(records.len(), 2);
        // An item behind them is refused at the next call.
        let (records, last) = read_items(&[&items[..], &[RUN_A[5]]].concat());
        assert_eq!((records.len(), last), (1, (refused(12, behind[0].into()), behind, NONE)));
    }
    // Behind a raw item, whose pairs end there.
    let (records, _) = read_items(&[words::pulse_raw(1, 0, 1), 5, three[0], 5, 6, 7]);
    assert_eq!(records[0], ([8, 1, 0, 1, 3, 1], [4, 5, 0, 7, 249, 1]));
    assert_eq!(records[1], ([17, 0, 3, 0, 5, 0], [8, 5, 0, 9, 0, 0]));
    // Where the input ends among them the scan stays before the type 12.
    let before = [2, 5, 0, 3, 0, 0];
    for end in 3..6 {
        let (records, last) = read(&block(&three)[..end]);
        assert_eq!((records.len(), last), (2, (refused(11, end as u64), before, NONE)));
    }
    assert_eq!(read_items(&[three[0] | 1 << 26]).1, (refused(13, 2), before, NONE));
}

#[test]
fn fillers() {
    let with = |fillers: &[u32]| read(&[&RUN_A[..9], fillers].concat());
    assert_eq!(with(&[]).1, (9, [9, 5, 0, 8, 3, 0], [16, 0, 0, 0, 0, 0]));
    // It ends after the third, undefined bits or not.
    let (records, last) = with(&[FILLER, FILLER | 0x3FFFFF, FILLER, FILLER]);
    assert_eq!(records[8], ([14, 5, 3, 0, 0, 0], [12, 5, 0, 8, 0, 0]));
    assert_eq!(last.0, 12);
    // Another slot's is refused: at once, or at the next call.
    let other = 0xF9000000;
    let (records, last) = with(&[other]);
    assert_eq!((records.len(), last), (8, (refused(15, 9), [9, 5, 0, 8, 3, 0], NONE)));
    let (records, last) = with(&[FILLER, FILLER, other]);
    assert_eq!(records[8], ([14, 5, 2, 0, 0, 0], [11, 5, 0, 8, 1, 0]));
    assert_eq!(last, (refused(15, 11), [11, 5, 0, 8, 1, 0], NONE));
    // The next block, and its scan of zeros.
    let two = [&RUN_A[..], &RUN_A[..]].concat();
    assert_eq!(read(&two).1 .0, 10);
    assert_eq!(call(&two[10..], [0; 6]).2, [1, 5, 1, 1, 0, 0]);
}

#[test]
fn refused_words() {
    for end in 0..9 {
        assert_eq!(read(&RUN_A[..end]).1 .0, refused(11, end as u64));
    }
    let changes = [
        (0, 0x01440101, refused(12, 0)),
        (0, 0x81480101, refused(13, 0)),
        (0, 0x81440102, refused(14, 8)),
        (1, 0x20500405, refused(13, 1)),
        (2, 0x91000009, refused(15, 2)),
        (5, 0x91400009, refused(14, 5)),
        (6, 0xC18081B4, refused(13, 6)),
        (8, 0x8940000A, refused(14, 8)),
    ];
    for (place, word, answer) in changes {
        let mut words = RUN_A;
        words[place] = word;
        assert_eq!(read(&words).1 .0, answer);
    }
}

/// The longest blocks, four million calls each: a call does not read again what
/// stands before its place.
#[test]
fn blocks_at_the_limit() {
    for case in second::cases::limit_cases() {
        let words = words_of_bytes(&case.bytes).unwrap();
        let (mut scan, mut record, mut answer) = ([0; 6], NONE, 0);
        while answer >> 32 == 0 && record[0] != 16 {
            answer = next(&mut scan, &words, &mut record);
        }
        assert_eq!(answer, check(&case.bytes));
    }
}

#[test]
fn arrays_of_another_length() {
    let no_scan = [vec![], vec![0; 5], vec![0; 7], vec![0, 0, 0, 10, 0, 0], vec![0, 0, 0, 9, 1, 2]];
    for mut scan in no_scan {
        let (before, mut record) = (scan.clone(), [77; 8]);
        assert_eq!(next(&mut scan, &RUN_A, &mut record), refused(64, 0));
        assert_eq!((scan, record), (before, [0, 0, 0, 0, 0, 0, 77, 77]));
    }
    let (mut scan, mut record) = ([0; 6], [77; 8]);
    for length in [0, 5] {
        assert_eq!(next(&mut scan, &RUN_A, &mut record[..length]), refused(64, 0));
        assert_eq!(next(&mut scan, &RUN_A[1..], &mut record[..length]), refused(12, 0));
        let mut end = [10, 5, 0, 8, 2, 0];
        assert_eq!(next(&mut end, &RUN_A, &mut record[..length]), refused(64, 0));
        assert_eq!(end, [10, 5, 0, 8, 2, 0]);
    }
    assert_eq!((scan, record), ([0; 6], [77; 8]));
    assert_eq!(next(&mut scan, &RUN_A, &mut record), 1);
    assert_eq!(record, [1, 5, 1, 1, 0, 0, 77, 77]);
}

#[test]
fn scans_of_the_host() {
    // A second time word, a pair and a scaler on their own.
    let timed = [4, 5, 0, 4, 0, 0];
    assert_eq!(call(&RUN_A, timed), (5, [5, 5, 0, 5, 0, 0], [6, 0, 0, 0, 0, 0]));
    let words = [5 << 16 | 6, 7 << 16 | NOT_SECOND];
    let (answer, scan, record) = call(&words, [0, 5, 0, 6, 2, 1]);
    assert_eq!((answer, scan, record), (1, [1, 5, 0, 6, 1, 1], [9, 5, 6, 0, 0, 0]));
    assert_eq!(call(&words, scan), (2, [2, 5, 0, 5, 0, 0], [9, 7, 0, 0, 1, 0]));
    assert_eq!(call(&words, [1, 5, 0, 7, 9, 1]), (2, [2, 5, 0, 7, 0, 1], [9, 7, 0, 0, 1, 0]));
    let words = [FILLER, words::event_header(5, 0)];
    let (answer, scan, record) = call(&words, [0, 5, 1, 9, 2, 0]);
    assert_eq!((answer, scan, record), (1, [1, 5, 1, 9, 1, 0], [18, FILLER.into(), 0, 0, 0, 0]));
    assert_eq!(call(&words, scan).1, [2, 5, 1, 9, 0, 0]);
    // It does not go on to the next one, however many are to come.
    assert_eq!(call(&words, [0, 5, 1, 9, u32::MAX, 0]).1, [1, 5, 1, 9, u32::MAX - 1, 0]);
    assert_eq!(call(&words, [1, 5, 1, 9, 0, 0]).2, [3, 5, 0, 0, 0, 0]);
    assert_eq!(call(&words, [0, 5, 1, 9, 0, 0]).0, refused(12, 0));
    assert_eq!(call(&words, [2, 5, 1, 9, 1, 0]).0, refused(11, 2));
    assert_eq!(call(&words, [4_194_303, 5, 1, 9, 1, 0]).0, refused(14, 4_194_303));
    // A second number means nothing here, and is 0 behind the word.
    assert_eq!(call(&words, [0, 5, 1, 9, 2, 1]).1, [1, 5, 1, 9, 1, 0]);
}

#[test]
fn any_scan_is_answered() {
    let edges = [0, 1, 2, 5, 250, 4_194_303, u32::MAX];
    for number in 0..10 * 7 * 7 * 2 {
        let (place, first) = (edges[number / 20 % 7], edges[number / 140]);
        let scan = [place, first, first, number as u32 % 10, first, number as u32 / 10 % 2];
        let (answer, behind, _) = call(&RUN_A, scan);
        assert!(answer >> 32 <= 16);
        assert!(answer >> 32 == 0 || behind == scan);
    }
}

#[test]
fn samples_of_a_window() {
    let words = block(&[
        words::window(3, 5),
        (OVERFLOW | 5) << 16 | 6,
        7 << 16 | OVERFLOW | 8,
        9 << 16 | NOT_SECOND,
    ]);
    let mut all = [0; 8];
    assert_eq!(samples(&words, 3, 3, &mut all), 5);
    assert_eq!(all, [0x1005, 6, 7, 0x1008, 9, 0, 0, 0]);
    // They are told, but not written, if they do not fit.
    let mut short = [3; 4];
    assert_eq!(samples(&words, 3, 3, &mut short), 5);
    assert_eq!(short, [3; 4]);
    assert_eq!(samples(&words, 3, 2, &mut short), 4);
    assert_eq!(short, [0x1005, 6, 7, 0x1008]);
    // Nothing of what does not lie in the words.
    let w = words.len() as u32;
    for (place, pairs) in [(w, 1), (w - 1, 2), (0, w + 1), (u32::MAX, u32::MAX), (w + 1, 0)] {
        assert_eq!(samples(&words, place, pairs, &mut all), 0);
    }
    assert_eq!(samples(&words, w, 0, &mut all), 0);
    // A first sample that is not valid is left out too.
    assert_eq!(samples(&[NOT_FIRST | 4 << 16 | 3], 0, 1, &mut all), 1);
    assert_eq!(all[..2], [3, 6]);
    assert_eq!(samples(&[NOT_FIRST | NOT_SECOND], 0, 1, &mut all), 0);
}

/// What `list` writes into as much room as it asks for.
fn listed(bytes: &[u8]) -> String {
    let length = list(bytes, &mut []);
    let mut text = vec![b'?'; length as usize + 3];
    assert_eq!(list(bytes, &mut text), length);
    assert_eq!(text.split_off(length as usize), b"???");
    String::from_utf8(text).unwrap()
}

#[test]
fn the_listers_text() {
    let good = bytes(&RUN_A);
    assert_eq!(listed(&good), lister::list(&good));
    assert_eq!(listed(&good[..39]), "refused\t16\t0\n");
    assert_eq!(listed(&[]), "");
    // No limit: twice the lister's, and then a refusal.
    let long = [bytes(&[EMPTY; 32_768]), vec![0; 4]].concat();
    assert_eq!(listed(&long), "empty\t5\n".repeat(32_768) + "refused\t12\t0\n");
    assert_eq!(lister::list(&long), "refused\t16\t0\n");
    // It is told, but not written, if it does not fit.
    let mut text = vec![b'?'; lister::list(&good).len() - 1];
    assert_eq!(list(&good, &mut text), text.len() as u64 + 1);
    assert!(text.iter().all(|&character| character == b'?'));
}
