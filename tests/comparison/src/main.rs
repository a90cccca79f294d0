//! Runs the library and the second program on the same cases and stops at the first difference.

mod reading;
mod table;
mod writing;

use second::cases::{LIMIT_CASES, SEED};
use second::scalers::SCALERS;
use std::collections::BTreeSet;
use std::fmt::{Debug, Display};
use std::process::ExitCode;
use std::sync::atomic::{AtomicBool, Ordering};
use table::{Call, Table};

const USAGE: &str = "tests/compare [--long] [--seed NUMBER]\ntests/replay KIND SEED NUMBER\n";

/// A kind of case: its name, how many there are, and the comparison of the one of a seed and number.
struct Kind {
    name: &'static str,
    count: u64,
    compare: fn(&mut Run, u64, u64) -> Result<(), String>,
}

static KINDS: [Kind; 7] = [
    Kind { name: "finder", count: 100_000, compare: writing::finder },
    Kind { name: "sequence", count: 3_000, compare: writing::sequence },
    Kind { name: "reader", count: 30_000, compare: reading::reader },
    Kind { name: "limit", count: LIMIT_CASES, compare: reading::limit },
    Kind { name: "scan", count: 40_000, compare: reading::scan },
    Kind { name: "samples", count: 20_000, compare: reading::part },
    Kind { name: "lister", count: 2_000, compare: reading::lister },
];

/// The cases of all kinds are taken in turns, a round of each, so that a difference shows early.
const ROUNDS: u64 = 50;

/// So many threads share the rounds.
const THREADS: usize = 2;

pub struct Run {
    /// Where the lister is.
    lister: String,
    met: Table,
    /// The most words of an event, and the most events of a block.
    longest_event: u64,
    most_events: u64,
    /// The counts that wrapped: of channels 0 to 15, the timer, the triggers.
    wrapped: BTreeSet<usize>,
    /// Whether a record of this kind was read; 0 is none.
    kinds: [bool; 19],
}

impl Run {
    fn new(lister: &str) -> Run {
        Run {
            lister: lister.to_string(),
            met: Table::new(),
            longest_event: 0,
            most_events: 0,
            wrapped: BTreeSet::new(),
            kinds: [false; 19],
        }
    }

    /// With what another thread met.
    fn join(&mut self, other: &Run) {
        self.met.join(&other.met);
        self.longest_event = self.longest_event.max(other.longest_event);
        self.most_events = self.most_events.max(other.most_events);
        self.wrapped.extend(&other.wrapped);
        self.kinds.iter_mut().zip(other.kinds).for_each(|(own, more)| *own |= more);
    }

    /// What never came: all channels with the most words and scalers behind them, a block of the most events, a count
    /// that wraps, a kind of record, an answer of the table.
    fn missing(&self) -> Result<(), String> {
        if self.longest_event <= 12_019 || self.most_events < 255 {
            return Err("no event of more than 12,019 words, or no block of 255 events".to_string());
        }
        if self.wrapped.len() < SCALERS {
            return Err(format!("of the counts only {:?} wrapped", self.wrapped));
        }
        if let Some(kind) = self.kinds.iter().skip(1).position(|read| !read) {
            return Err(format!("no record of the kind {} was read", kind + 1));
        }
        self.met.missing()
    }

    /// Counts a call's answer, 0 or its refusal, if what both sides gave is the same.
    fn same<T: PartialEq + Debug>(
        &mut self,
        what: &dyn Display,
        call: Call,
        answer: u64,
        ours: &T,
        theirs: &T,
    ) -> Result<(), String> {
        if ours != theirs {
            return Err(format!("{what}, {call:?}\n  library: {ours:?}\n  second:  {theirs:?}\n"));
        }
        self.met.note(call, answer).map_err(|why| format!("{what}: {why}\n"))
    }
}

/// Where two lists part, in a line; none if they are the same.
fn first_difference<T: PartialEq + Debug>(name: &str, ours: &[T], theirs: &[T]) -> String {
    let longer = ours.len().max(theirs.len());
    let differs = |&place: &usize| ours.get(place) != theirs.get(place);
    (0..longer).find(differs).map_or(String::new(), |place| {
        format!("  {name} {place}: library {:?}, second {:?}\n", ours.get(place), theirs.get(place))
    })
}

/// The cases of a round. The limit's have no seed: `--long` takes them once.
fn cases(round: u64, times: u64) -> impl Iterator<Item = (&'static Kind, u64)> {
    KINDS.iter().flat_map(move |kind| {
        let rounds = if kind.name == "limit" { ROUNDS * times } else { ROUNDS };
        let until = move |round: u64| kind.count * round / rounds;
        (until(round)..until(round + 1)).map(move |number| (kind, number))
    })
}

/// Every so many-th round from the first on, up to a difference here or in another thread.
fn share(
    run: &mut Run,
    first: usize,
    seed: u64,
    times: u64,
    stop: &AtomicBool,
) -> Result<(), String> {
    let rounds = (0..ROUNDS * times).skip(first).step_by(THREADS);
    for (kind, number) in rounds.flat_map(|round| cases(round, times)) {
        if stop.load(Ordering::Relaxed) {
            return Ok(());
        }
        one(run, kind, seed, number).inspect_err(|_| stop.store(true, Ordering::Relaxed))?;
    }
    Ok(())
}

fn compare(run: &mut Run, seed: u64, times: u64) -> Result<(), String> {
    let stop = &AtomicBool::new(false);
    let mut runs: [Run; THREADS] = std::array::from_fn(|_| Run::new(&run.lister));
    let results: Vec<Result<(), String>> = std::thread::scope(|scope| {
        let shares: Vec<_> = runs
            .iter_mut()
            .enumerate()
            .map(|(first, own)| scope.spawn(move || share(own, first, seed, times, stop)))
            .collect();
        shares.into_iter().map(|share| share.join().expect("a thread of the comparison")).collect()
    });
    runs.iter().for_each(|own| run.join(own));
    results.into_iter().collect::<Result<(), String>>()?;
    run.missing()
}

fn one(run: &mut Run, kind: &Kind, seed: u64, number: u64) -> Result<(), String> {
    let name = kind.name;
    (kind.compare)(run, seed, number)
        .map_err(|what| format!("{what}replay: tests/replay {name} {seed} {number}"))
}

fn said(run: &Run) -> String {
    use Call::*;
    let met = &run.met;
    let writing = met.made(&[SetUp, OpenBlock, OpenEvent, Post, Close, CloseWithScalers, Finish]);
    let calls = writing + met.made(&[Count, Latch, Reset]);
    let [windows, inputs, records] = [Find, Check, Next].map(|call| met.made(&[call]));
    let [parts, texts, listings] = [Samples, List, Lister].map(|call| met.made(&[call]));
    format!(
        "the same on {windows} windows, {calls} steps of calls, {inputs} inputs, \
         {records} records, {parts} raw parts, {texts} texts and {listings} listings"
    )
}

/// `--long` and `--seed`: how many times the cases are taken, and their seed.
fn options(arguments: &[&str]) -> Option<(u64, u64)> {
    match *arguments {
        [] => Some((1, SEED)),
        ["--long", ref rest @ ..] => options(rest).map(|(_, seed)| (20, seed)),
        ["--seed", number, ref rest @ ..] => {
            options(rest).and_then(|(times, _)| Some((times, number.parse().ok()?)))
        }
        _ => None,
    }
}

fn main() -> ExitCode {
    let arguments: Vec<String> = std::env::args().skip(1).collect();
    let arguments: Vec<&str> = arguments.iter().map(String::as_str).collect();
    let Some((lister, arguments)) = arguments.split_first() else { return usage() };
    let mut run = Run::new(lister);
    let result = match *arguments {
        ["--case", name, seed, number] => {
            let kind = KINDS.iter().find(|kind| kind.name == name);
            let (Some(kind), Ok(seed), Ok(number)) = (kind, seed.parse(), number.parse()) else {
                return usage();
            };
            one(&mut run, kind, seed, number).map(|()| seed)
        }
        ref arguments => {
            let Some((times, seed)) = options(arguments) else { return usage() };
            compare(&mut run, seed, times).map(|()| seed)
        }
    };
    print!("{}", run.met);
    if run.longest_event > 0 {
        println!("longest event {} words, most events {}", run.longest_event, run.most_events);
    }
    match result {
        Ok(seed) => {
            println!("seed {seed}: {}", said(&run));
            ExitCode::SUCCESS
        }
        Err(what) => {
            eprintln!("{what}");
            ExitCode::FAILURE
        }
    }
}

fn usage() -> ExitCode {
    eprint!("{USAGE}");
    ExitCode::from(2)
}
