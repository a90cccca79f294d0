//! The finder, and the calls that write a block and count.

use crate::table::Call;
use crate::{first_difference, Run};
use comparison::Library;
use second::cases::{FinderCase, Second, SequenceCase, Side, Step};

pub fn finder(run: &mut Run, seed: u64, number: u64) -> Result<(), String> {
    let case = FinderCase::new(seed, number);
    let (mut ours, mut theirs) = (case.out.clone(), case.out.clone());
    let a = Library.find(&case.settings, case.channel, &case.window, &mut ours);
    let b = Second.find(&case.settings, case.channel, &case.window, &mut theirs);
    run.same(&case, Call::Find, a.into(), &(a, ours), &(b, theirs))
}

/// The places in a state of the events closed, of the words written and of the running counts.
const CLOSED: usize = 6;
const WORDS: usize = 7;
const COUNTS: std::ops::Range<usize> = 8..26;

/// State, store and words are compared whole after each step.
pub fn sequence(run: &mut Run, seed: u64, number: u64) -> Result<(), String> {
    let case = SequenceCase::new(seed, number);
    let (mut ours, mut theirs) = (case.bench.clone(), case.bench.clone());
    let mut closed = 0;
    for (place, step) in case.steps.iter().enumerate() {
        let [events, words] = [CLOSED, WORDS].map(|place| ours.state.get(place).map_or(0, |n| *n));
        let counts = ours.state.get(COUNTS).map(<[u64]>::to_vec).unwrap_or_default();
        let (a, b) = (ours.apply(&Library, step), theirs.apply(&Second, step));
        if ours != theirs {
            let state = first_difference("state", &ours.state, &theirs.state);
            let store = first_difference("store", &ours.store, &theirs.store);
            let words = first_difference("words", &ours.words, &theirs.words);
            return Err(format!("{case}, step {place}: {step:?}\n{state}{store}{words}"));
        }
        let Some(call) = call(step) else { continue };
        let refusal = if call == Call::Finish { a >> 32 } else { a };
        run.same(&format_args!("{case}, step {place}: {step:?}"), call, refusal, &a, &b)?;
        match call {
            Call::OpenBlock if refusal == 0 => closed = 0,
            Call::Close | Call::CloseWithScalers if refusal == 0 => {
                closed += 1;
                run.longest_event = run.longest_event.max(ours.state[WORDS] - words);
            }
            // unless the count was forged
            Call::Finish if refusal == 0 && closed == events => {
                run.most_events = run.most_events.max(events);
            }
            Call::Count | Call::OpenEvent if refusal == 0 => {
                let pairs = counts.iter().zip(&ours.state[COUNTS]).enumerate();
                run.wrapped
                    .extend(pairs.filter(|(_, (old, new))| new < old).map(|(count, _)| count));
            }
            _ => {}
        }
    }
    Ok(())
}

/// The call that a step makes; none for a deed of the host.
fn call(step: &Step) -> Option<Call> {
    match step {
        Step::SetUp { .. } => Some(Call::SetUp),
        Step::OpenBlock { .. } => Some(Call::OpenBlock),
        Step::OpenEvent { .. } => Some(Call::OpenEvent),
        Step::Post { .. } => Some(Call::Post),
        Step::Close { scalers: false, .. } => Some(Call::Close),
        Step::Close { scalers: true, .. } => Some(Call::CloseWithScalers),
        Step::Finish { .. } => Some(Call::Finish),
        Step::Count { .. } => Some(Call::Count),
        Step::Latch => Some(Call::Latch),
        Step::Reset => Some(Call::Reset),
        _ => None,
    }
}
