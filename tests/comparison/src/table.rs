//! How often each call gave each answer.

use std::fmt;

/// The calls, and the lister; a row each.
#[derive(Clone, Copy, Debug, PartialEq, Eq)]
pub enum Call {
    SetUp,
    OpenBlock,
    OpenEvent,
    Post,
    Close,
    CloseWithScalers,
    Finish,
    Count,
    Latch,
    Reset,
    Find,
    Check,
    Next,
    Samples,
    List,
    Lister,
}

/// Their names, and the answers that each can give by the paper and the header: 0 or a refusal.
const CALLS: [(&str, &[u64]); 16] = [
    ("set_up", &[0, 1, 64]),
    ("open_block", &[0, 7, 8, 9, 10]),
    ("open_event", &[0, 7, 8, 10]),
    ("post", &[0, 2, 3, 4, 5, 6, 7, 10]),
    ("close", &[0, 2, 3, 7, 9, 10]),
    ("close_with_scalers", &[0, 2, 3, 7, 9, 10]),
    ("finish", &[0, 7, 9, 10]),
    ("count", &[0, 3, 10, 19]),
    ("latch", &[0, 10]),
    ("reset", &[0, 10]),
    ("find", &[0, 1, 3, 4, 5, 64]),
    ("check", &[0, 11, 12, 13, 14, 15, 16]),
    ("next", &[0, 11, 12, 13, 14, 15, 64]),
    ("samples", &[0]),
    ("list", &[0, 11, 12, 13, 14, 15, 16]),
    ("lister", &[0, 11, 12, 13, 14, 15, 16]),
];

/// The answers that a column is printed for: first the calls that write, count and find, then those that read.
const PARTS: [(&[u64], std::ops::Range<usize>); 2] = [
    (&[0, 1, 2, 3, 4, 5, 6, 7, 8, 9, 10, 19, 64], 0..11),
    (&[0, 11, 12, 13, 14, 15, 16, 64], 11..16),
];

pub struct Table([[u64; 65]; CALLS.len()]);

impl Table {
    pub fn new() -> Table {
        Table([[0; 65]; CALLS.len()])
    }

    /// Counts an answer, if it can come.
    pub fn note(&mut self, call: Call, answer: u64) -> Result<(), String> {
        let (name, can) = CALLS[call as usize];
        if !can.contains(&answer) {
            return Err(format!("{name} answered {answer}, which it cannot"));
        }
        self.0[call as usize][answer as usize] += 1;
        Ok(())
    }

    /// Counts what another table has too.
    pub fn join(&mut self, other: &Table) {
        for (own, more) in self.0.iter_mut().flatten().zip(other.0.iter().flatten()) {
            *own += more;
        }
    }

    /// How often these calls were made.
    pub fn made(&self, calls: &[Call]) -> u64 {
        calls.iter().flat_map(|&call| self.0[call as usize]).sum()
    }

    fn row(&self, row: usize, answers: &[u64]) -> String {
        let (name, can) = CALLS[row];
        let cell = |answer: &u64| match can.contains(answer) {
            true => format!("{:>8}", self.0[row][*answer as usize]),
            false => format!("{:>8}", ""),
        };
        let cells: String = answers.iter().map(cell).collect();
        format!("{name:<18}{}\n", cells.trim_end())
    }

    /// The first answer that can come and did not.
    pub fn missing(&self) -> Result<(), String> {
        for ((name, can), met) in CALLS.iter().zip(&self.0) {
            if let Some(answer) = can.iter().find(|&&answer| met[answer as usize] == 0) {
                return Err(format!("{name} never answered {answer}, which it can"));
            }
        }
        Ok(())
    }
}

/// A call that was not made is left out, an answer that it cannot give is left blank.
impl fmt::Display for Table {
    fn fmt(&self, f: &mut fmt::Formatter) -> fmt::Result {
        for (answers, rows) in PARTS {
            let head: String = answers.iter().map(|answer| format!("{answer:>8}")).collect();
            let made = rows.filter(|&row| self.0[row].iter().sum::<u64>() > 0);
            let body: String = made.map(|row| self.row(row, answers)).collect();
            if !body.is_empty() {
                write!(f, "{:<18}{head}\n{body}", "answer")?;
            }
        }
        Ok(())
    }
}
