//! Times the library beside the second program, two rivals in C and the machine, taking turns in one run.

mod agree;
mod data;
mod peers;
mod timing;

use comparison::Library;
use data::{Lent, MOVING};
use peers::{Plain, Sse2};
use second::cases::{Second, Side};
use std::env;
use std::hint::black_box;
use std::io::Write;
use std::process::{Command, Stdio};
use timing::{measure, passing, processor, Measured};

/// The columns, the library first.
const SIDES: [&dyn Side; 4] = [&Library, &Second, &Plain, &Sse2];

/// Three digits, or all before the point.
fn number(value: f64) -> String {
    match value {
        _ if value < 9.995 => format!("{value:.2}"),
        _ if value < 99.95 => format!("{value:.1}"),
        _ => format!("{value:.0}"),
    }
}

/// The cells of the sides: what `shown` makes of a call's seconds; for rivals the ratio too, and its quarters.
fn cells(measured: &Measured, shown: &dyn Fn(f64) -> f64) -> Vec<String> {
    let time = |side: usize| number(shown(measured.seconds[side]));
    let rival = |side: usize| {
        let [low, ratio, high] = measured.ratios[side].map(number);
        format!("{}, {ratio} ({low}-{high})", time(side))
    };
    [time(0)].into_iter().chain((1..SIDES.len()).map(rival)).collect()
}

fn line(cells: &[String]) {
    println!("| {} |", cells.join(" | "));
}

/// A title, the text below it and the head of its table.
fn table(title: &str, text: &str, columns: &[&str]) {
    println!("\n## {title}\n\n{text}\n");
    line(&columns.iter().map(|column| column.to_string()).collect::<Vec<_>>());
    println!("|{}", "---|".repeat(columns.len()));
}

fn row(name: String, measured: &Measured, shown: &dyn Fn(f64) -> f64, more: &[String]) {
    line(&[&[name], &cells(measured, shown)[..], more].concat());
}

fn nanoseconds(seconds: f64) -> f64 {
    seconds * 1e9
}

fn loudness(busy: bool) -> &'static str {
    if busy {
        "busy"
    } else {
        "quiet"
    }
}

/// All sides leave and answer the same; what they do is what is timed.
fn same<T: PartialEq>(name: &str, of: &dyn Fn(&dyn Side) -> T) {
    let wanted = of(&Library);
    SIDES.iter().for_each(|side| assert!(of(*side) == wanted, "{name}: the sides differ"));
}

fn finder_row(nw: usize, busy: bool) {
    let (settings, window) = (data::settings(7, nw), data::window(nw, busy));
    let name = format!("NW {nw}, {}", loudness(busy));
    let find = |side: &dyn Side| {
        let mut out = [0; 28];
        (side.find(black_box(&settings), 3, black_box(&window), &mut out), out)
    };
    same(&name, &find);
    let measured = measure(processor, SIDES.len(), &mut |side, times| {
        for _ in 0..times {
            black_box(find(SIDES[side]));
        }
    });
    row(name, &measured, &nanoseconds, &[data::searched(&settings, &window).to_string()]);
}

/// A call of writing on what is lent: each time the moving part of the state is put back to where it was.
fn writing_row(name: &str, lent: &Lent, call: &dyn Fn(&dyn Side, &mut Lent) -> u32) {
    same(name, &|side| {
        let mut lent = lent.clone();
        (call(side, &mut lent), lent)
    });
    let mut used = lent.clone();
    let measured = measure(processor, SIDES.len(), &mut |side, times| {
        for _ in 0..times {
            used.state[..MOVING].copy_from_slice(black_box(&lent.state[..MOVING]));
            assert_eq!(call(SIDES[side], &mut used), 0);
        }
    });
    row(name.to_string(), &measured, &nanoseconds, &[]);
}

fn writing_rows() {
    writing_row("open event", &data::in_block(7, 100), &|side, lent| {
        side.open_event(&mut lent.state, 9, 256)
    });
    for nw in [16, 100, 500] {
        let window = data::window(nw, true);
        writing_row(&format!("post, NW {nw}"), &data::in_event(7, nw), &|side, lent| {
            side.post(&mut lent.state, &mut lent.store, 3, black_box(&window))
        });
    }
    for (mode, nw, busy) in modes() {
        let name = format!("close, mode {mode}, NW {nw}, {}", loudness(busy));
        writing_row(&name, &data::posted(mode, nw, busy), &|side, lent| {
            side.close(&mut lent.state, &lent.store, &mut lent.words)
        });
    }
}

/// Every mode, with short and long windows, quiet and busy.
fn modes() -> impl Iterator<Item = (u64, usize, bool)> {
    let windows = [(100, false), (100, true), (500, false), (500, true)];
    [1, 2, 3, 4, 7, 8].into_iter().flat_map(move |mode| windows.map(|(nw, busy)| (mode, nw, busy)))
}

const EVENTS_OF_BLOCK: u32 = 200;

/// A block of events, all of the same sixteen windows; answers its length.
fn write_block(side: &dyn Side, window: &[u16], lent: &mut Lent) -> u64 {
    let Lent { state, store, words } = lent;
    let mut refusals = side.open_block(state, words, 1, EVENTS_OF_BLOCK);
    for event in 0..EVENTS_OF_BLOCK {
        refusals |= side.open_event(state, event, event.into());
        for channel in 0..16 {
            refusals |= side.post(state, store, channel, black_box(window));
        }
        refusals |= side.close(state, store, words);
    }
    assert_eq!(refusals, 0);
    side.finish(state, words)
}

fn event_row(mode: u64, nw: usize, busy: bool) {
    let name = format!("mode {mode}, NW {nw}, {}", if busy { "pulses" } else { "quiet" });
    let window = data::sparse_window(nw, busy);
    let mut lent =
        Lent { state: data::idle(mode, nw), words: vec![0; 2_500_000], ..data::in_block(mode, nw) };
    same(&name, &|side| {
        let mut lent = lent.clone();
        (write_block(side, &window, &mut lent), lent)
    });
    let measured = measure(processor, SIDES.len(), &mut |side, times| {
        for _ in 0..times {
            black_box(write_block(SIDES[side], &window, &mut lent));
        }
    });
    let recorded = 4e-9 * nw as f64 * f64::from(EVENTS_OF_BLOCK);
    row(name, &measured, &|seconds| seconds / recorded, &[]);
}

const FRAMES: usize = 4_096;
/// What the digitiser gives in a second, one every 4 ns.
const DIGITISED: f64 = 250e6;

/// The counts and what was over go on from call to call.
fn counting_row(busy: bool) {
    let (state, frames) = (data::idle(7, 100), data::frames(FRAMES, busy));
    let count = |side: &dyn Side, state: &mut [u64]| side.count(state, black_box(&frames));
    same(loudness(busy), &|side| {
        let mut state = state.clone();
        (count(side, &mut state), count(side, &mut state), state)
    });
    let mut used = state.clone();
    let measured = measure(processor, SIDES.len(), &mut |side, times| {
        for _ in 0..times {
            assert_eq!(count(SIDES[side], &mut used), 0);
        }
    });
    let speed = |seconds: f64| FRAMES as f64 / seconds;
    let share = number(speed(measured.seconds[0]) / DIGITISED);
    row(loudness(busy).to_string(), &measured, &|seconds| speed(seconds) / 1e6, &[share]);
}

/// Checks block after block to the end of the bytes, each of them this long.
fn check_all(side: &dyn Side, bytes: &[u8], length: usize) {
    for block in bytes.chunks(length) {
        black_box(side.check(black_box(block)));
    }
}

/// Reading and copying the same bytes are contenders too.
fn check_row(name: &str, block: &[u8], blocks: usize) {
    let bytes = block.repeat(blocks);
    let mut copy = bytes.clone();
    let measured = measure(processor, SIDES.len() + 2, &mut |contender, times| {
        for _ in 0..times {
            match SIDES.get(contender) {
                Some(side) => check_all(*side, &bytes, block.len()),
                None if contender == SIDES.len() => {
                    black_box(peers::read(black_box(&bytes)));
                }
                None => black_box(&mut copy).copy_from_slice(black_box(&bytes)),
            }
        }
    });
    let speed = |seconds: f64| bytes.len() as f64 / 1e9 / seconds;
    let limits = [4, 5].map(|limit| number(speed(measured.seconds[limit])));
    row(name.to_string(), &measured, &speed, &limits);
}

fn mixed() -> Vec<Vec<u32>> {
    vec![data::event(8, 101), data::event(7, 100), data::event(2, 60)]
}

/// Blocks of at most 4,096 words, all accepted; the rivals agree on each of them damaged.
fn blocks() -> Vec<(&'static str, Vec<u8>)> {
    let kinds = [
        ("integrals", vec![data::integrals(4_000)]),
        ("windows of 16", vec![data::event(1, 16)]),
        ("windows of 500", vec![data::event(1, 500)]),
        ("mode 7", vec![data::event(7, 100)]),
        ("mode 8", vec![data::event(8, 101)]),
        ("raw, mode 2", vec![data::event(2, 60)]),
        ("mixed", mixed()),
        ("empty events", vec![data::empty_event()]),
    ];
    let made = kinds.map(|(name, events)| (name, data::block(&events, 4_096)));
    for (name, block) in &made {
        assert_eq!(Library.check(block), block.len() as u64 / 4, "{name}");
        same(name, &|side| side.check(block));
        agree::damaged(block, name);
    }
    made.to_vec()
}

/// Runs a program on the input, its text read to the end.
fn list(program: &[String], bytes: &[u8]) -> Vec<u8> {
    let mut command = Command::new(&program[0]);
    command.args(&program[1..]).stdin(Stdio::piped()).stdout(Stdio::piped());
    let mut child = command.spawn().expect("the lister starts");
    let mut input = child.stdin.take().expect("a pipe");
    let bytes = bytes.to_vec();
    let writer = std::thread::spawn(move || input.write_all(&bytes));
    let output = child.wait_with_output().expect("the lister ends");
    let _ = writer.join();
    output.stdout
}

fn lister_row(ours: &str, theirs: &str) {
    let programs = [vec![ours.to_string()], vec![theirs.to_string(), "list".to_string()]];
    let bytes = data::block(&mixed(), 16_384);
    assert!(list(&programs[0], &bytes) == list(&programs[1], &bytes), "the listers differ");
    let measured = measure(passing, programs.len(), &mut |program, times| {
        for _ in 0..times {
            black_box(list(&programs[program], &bytes));
        }
    });
    let [low, ratio, high] = measured.ratios[1].map(number);
    let [ours, theirs] =
        [0, 1].map(|side| number(bytes.len() as f64 / 1e6 / measured.seconds[side]));
    line(&["a program on 64 KB".to_string(), ours, format!("{theirs}, {ratio} ({low}-{high})")]);
}

fn main() {
    let [_, lister, second] = &env::args().collect::<Vec<_>>()[..] else {
        panic!("usage: bench LISTER SECOND")
    };
    println!("The rivals in C answered as the library on {}.", agree::agree());
    const COLUMNS: [&str; 5] = ["job", "library", "second", "plain C", "SSE2"];
    table("Finder, ns a call", FINDER, &[&COLUMNS[..], &["searched"]].concat());
    for nw in [16, 100, 500] {
        finder_row(nw, false);
        finder_row(nw, true);
    }
    table("Calls of writing, ns a call", WRITING, &COLUMNS);
    writing_rows();
    table("Whole events, in recording times", EVENTS, &COLUMNS);
    modes().for_each(|(mode, nw, busy)| event_row(mode, nw, busy));
    table("Counting, million frames a second", COUNTING, &[&COLUMNS[..], &["digitiser"]].concat());
    counting_row(false);
    counting_row(true);
    let blocks = blocks();
    let columns = [&COLUMNS[..], &["read", "memcpy"]].concat();
    table("Check of a block of 16 KB, GB/s", CHECK, &columns);
    blocks.iter().for_each(|(name, block)| check_row(name, block, 1));
    table("Check of 16 MB, GB/s", "The same blocks, one behind the other.", &columns);
    blocks.iter().for_each(|(name, block)| check_row(name, block, 16_000_000 / block.len()));
    table("Lister, MB/s", "A process each time, its text read through a pipe.", &COLUMNS[..3]);
    lister_row(lister, second);
}

const FINDER: &str = "\
A rival's cell has its time, then that over the library's, the median of the rounds and in brackets its quarters:
above 1 the library is faster. `searched` is how many samples the search looks at, up to the third pulse or the end;
that none is over 8,191 is asked of all. To keep up with 16 channels a call would have NW / 4 ns: 4, 25 and 125.";
const WRITING: &str = "Sixteen channels are posted before a close. The cells are as above.";
const EVENTS: &str = "\
Open event, 16 posts and close, over the 4 ns a sample in which the windows were recorded: below 1 the calls keep up
with the digitiser. `pulses`: one in every hundred samples. A rival's second number is the ratio of times, as above.";
const COUNTING: &str = "\
4,096 frames a call. A rival's second number is the ratio of times, as above. `digitiser` is the library's speed over
the 250 million frames a second that the digitiser gives: above 1 the call keeps up with it. `quiet`: no channel is
ever over; `busy`: each is in about half of the frames, and comes to be over in every fourth.";
const CHECK: &str = "\
A rival's second number is the ratio of times, as above. `read` loads the same bytes, 16 at a time, `memcpy` copies
them. The digitiser's 16 samples every 4 ns, two bytes each, are 8.0 GB/s. The block of empty events has 3 KB.";
