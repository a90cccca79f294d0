//! Holds the rivals in C to the library on seeded cases, good and damaged: who answers differently is not timed.

use crate::peers::{Plain, Sse2};
use comparison::Library;
use second::cases::{
    every_cut, every_flip, limit_cases, FinderCase, ReaderCase, SequenceCase, Side, SEED,
};

const PEERS: [&dyn Side; 2] = [&Plain, &Sse2];

const WINDOWS: u64 = 20_000;
const SEQUENCES: u64 = 300;
const INPUTS: u64 = 3_000;
const DAMAGES: usize = 300;
/// A prime, so that the places have no pattern.
const DAMAGE_STEP: usize = 7_919;

fn finder(number: u64) {
    let case = FinderCase::new(SEED, number);
    let find = |side: &dyn Side| {
        let mut out = case.out.clone();
        (side.find(&case.settings, case.channel, &case.window, &mut out), out)
    };
    let wanted = find(&Library);
    for peer in PEERS {
        assert_eq!(find(peer), wanted, "{case}");
    }
}

/// Answers how many steps; the state, the store and the words are the same after each.
fn sequence(number: u64) -> usize {
    let case = SequenceCase::new(SEED, number);
    let mut wanted = case.bench.clone();
    let mut found = PEERS.map(|_| case.bench.clone());
    for step in &case.steps {
        let answer = wanted.apply(&Library, step);
        for (bench, peer) in found.iter_mut().zip(PEERS) {
            assert_eq!(bench.apply(peer, step), answer, "{case}: {step:?}");
            assert!(*bench == wanted, "{case}: {step:?}");
        }
    }
    case.steps.len()
}

fn check(bytes: &[u8], what: &str) {
    let wanted = Library.check(bytes);
    for peer in PEERS {
        assert_eq!(peer.check(bytes), wanted, "{what}");
    }
}

/// A block of the bench with single bits flipped all over it, and cut: longer than the seeded ones.
pub fn damaged(block: &[u8], what: &str) {
    let bits = block.len() * 8;
    for step in 1..=DAMAGES {
        let bit = step * DAMAGE_STEP % bits;
        let mut bytes = block.to_vec();
        bytes[bit / 8] ^= 0x80 >> (bit % 8);
        check(&bytes, what);
        check(&block[..bit / 8], what);
    }
}

/// An input, and of some short ones every cut and every flipped bit. Answers how many they were.
fn reader(number: u64) -> usize {
    let case = ReaderCase::new(SEED, number);
    let (bytes, name) = (&case.bytes, case.to_string());
    check(bytes, &name);
    if !number.is_multiple_of(16) || bytes.len() > 400 {
        return 1;
    }
    every_cut(bytes).for_each(|cut| check(cut, &name));
    every_flip(bytes).for_each(|flipped| check(&flipped, &name));
    2 + 9 * bytes.len()
}

/// Stops the bench at the first difference; says on how much there was none.
pub fn agree() -> String {
    (0..WINDOWS).for_each(finder);
    let steps: usize = (0..SEQUENCES).map(sequence).sum();
    let inputs: usize = (0..INPUTS).map(reader).sum();
    limit_cases().for_each(|case| check(&case.bytes, case.kind));
    format!(
        "{WINDOWS} windows, {steps} calls of writing and counting and {inputs} inputs of the check"
    )
}
