//! Runs many cases and counts what came out.

use std::fmt;

use crate::case::{Call, Case, Outcome};
use crate::make;
use crate::memory::{Slot, SLOTS};
use crate::sides;
use reference::sheet::NAMED;

/// One more than the highest number of a refusal.
const NUMBERS: usize = 20;

/// The refusals that are about a record.
const ABOUT_A_RECORD: [u8; 2] = [5, 16];

/// What the cases of one call came to.
#[derive(Clone, Copy, PartialEq, Eq, Debug)]
pub struct Tally {
    pub call: Call,
    /// How many were refused, by number.
    pub refused: [u64; NUMBERS],
    /// How many of these were about a record above 1.
    pub past_first: [u64; NUMBERS],
    /// How many were answered, and how many of these with a yes.
    pub answered: u64,
    pub yes: u64,
    /// How many were answered on no named sheet, on one and on two.
    pub named: [u64; 3],
}

impl Tally {
    /// What should have come out but did not; none if nothing is missing.
    pub fn missing(&self) -> Vec<String> {
        let mut missing: Vec<String> = self
            .call
            .refusals()
            .iter()
            .filter(|&&number| self.refused[usize::from(number)] == 0)
            .map(|number| format!("refusal {number}"))
            .collect();
        let mut want = |what: &str, count: u64| {
            if count == 0 {
                missing.push(what.to_string());
            }
        };
        for number in ABOUT_A_RECORD {
            let count = self.past_first[usize::from(number)];
            want(&format!("refusal {number} past record 1"), count);
        }
        for (named, &count) in self.named[..=self.call.sheets()].iter().enumerate() {
            want(&format!("an answer on {named} named sheets"), count);
        }
        if self.call.says_yes_or_no() {
            want("a yes", self.yes);
            want("a no", self.answered - self.yes);
        }
        missing
    }

    /// Counts one outcome.
    fn count(&mut self, outcome: &Outcome) {
        let sheets = &outcome.bytes[..self.call.sheets()];
        match &outcome.answer {
            Err(refusal) => {
                let number = usize::from(refusal.number);
                self.refused[number] += 1;
                self.past_first[number] += u64::from(refusal.record > 1);
            }
            Ok(values) => {
                self.answered += 1;
                self.named[sheets.iter().filter(|sheet| is_named(sheet)).count()] += 1;
                if self.call.says_yes_or_no() {
                    self.yes += values[0];
                }
            }
        }
    }
}

impl fmt::Display for Tally {
    fn fmt(&self, f: &mut fmt::Formatter<'_>) -> fmt::Result {
        write!(f, "{}: answered {}", self.call.name(), self.answered)?;
        if self.call.says_yes_or_no() {
            write!(f, " (yes {})", self.yes)?;
        }
        let named = &self.named[1..=self.call.sheets()];
        write!(f, "; on named sheets {named:?}; refused")?;
        for &number in self.call.refusals() {
            write!(f, " {number}:{}", self.refused[usize::from(number)])?;
        }
        Ok(())
    }
}

/// Is a readable sheet a named one?
fn is_named(sheet: &[u8]) -> bool {
    u16::from_le_bytes([sheet[0], sheet[1]]) & NAMED != 0
}

/// A case on which the two sides differ.
pub struct Difference {
    /// The seed of this very case.
    pub seed: u64,
    pub case: Case,
    pub archive: Outcome,
    pub expected: Outcome,
}

impl fmt::Display for Difference {
    fn fmt(&self, f: &mut fmt::Formatter<'_>) -> fmt::Result {
        let name = self.case.call.name();
        writeln!(
            f,
            "the sides differ; to repeat: differential {name} 1 {}",
            self.seed
        )?;
        writeln!(f, "given: {:?}", self.case)?;
        writeln!(f, "archive: {:?}", self.archive)?;
        write!(f, "independent program: {:?}", self.expected)
    }
}

/// Runs the cases of the seeds from `seed` on, with the archive's lent
/// buffers in the slots; stops at the first difference.
pub fn run<S: Slot>(
    call: Call,
    cases: u64,
    seed: u64,
    slots: &mut [S; SLOTS],
) -> Result<Tally, Box<Difference>> {
    let mut tally = Tally {
        call,
        refused: [0; NUMBERS],
        past_first: [0; NUMBERS],
        answered: 0,
        yes: 0,
        named: [0; 3],
    };
    for number in 0..cases {
        let seed = seed.wrapping_add(number);
        let case = make::case(call, seed);
        let archive = sides::archive(&case, slots);
        let expected = sides::expected(&case);
        let refused = expected.answer.is_err();
        assert!(
            !refused || expected.bytes == case.bytes,
            "the independent program wrote and refused"
        );
        if archive != expected {
            return Err(Box::new(Difference {
                seed,
                case,
                archive,
                expected,
            }));
        }
        tally.count(&archive);
    }
    Ok(tally)
}
