//! One call with its lent buffers, and what it comes to.

use reference::refusal::Refusal;
use std::fmt;

/// The exported calls.
#[derive(Clone, Copy, PartialEq, Eq, Debug)]
pub enum Call {
    Coarsest,
    Compare,
    Normalise,
    EndStart,
    TestSimulation,
    CheckPlan,
    WritePlan,
    HandPlay,
    Join,
    ToNamed,
    ToPlain,
    ReadyStart,
    CompareReady,
}

impl Call {
    /// All calls.
    pub const ALL: [Call; 13] = [
        Call::Coarsest,
        Call::Compare,
        Call::Normalise,
        Call::EndStart,
        Call::TestSimulation,
        Call::CheckPlan,
        Call::WritePlan,
        Call::HandPlay,
        Call::Join,
        Call::ToNamed,
        Call::ToPlain,
        Call::ReadyStart,
        Call::CompareReady,
    ];

    /// The documents' name, with _ for a blank.
    pub fn name(self) -> &'static str {
        match self {
            Call::Coarsest => "coarsest",
            Call::Compare => "compare",
            Call::Normalise => "normalise",
            Call::EndStart => "end_start",
            Call::TestSimulation => "test_simulation",
            Call::CheckPlan => "check_plan",
            Call::WritePlan => "write_plan",
            Call::HandPlay => "hand_play",
            Call::Join => "join",
            Call::ToNamed => "to_named",
            Call::ToPlain => "to_plain",
            Call::ReadyStart => "ready_start",
            Call::CompareReady => "compare_ready",
        }
    }

    /// The numbers of the refusals that the call can give, in the table's order.
    pub fn refusals(self) -> &'static [u8] {
        match self {
            Call::Coarsest => &[1, 2, 17, 3, 4, 5, 16, 6, 8, 9, 10, 15],
            Call::Compare | Call::CompareReady => &[1, 2, 17, 3, 4, 5, 16, 6, 7, 18],
            Call::Normalise | Call::EndStart | Call::ReadyStart | Call::ToNamed => {
                &[1, 2, 17, 3, 4, 5, 16, 6, 15]
            }
            Call::ToPlain => &[1, 2, 17, 3, 4, 5, 16, 6, 19, 15],
            Call::TestSimulation => &[1, 2, 17, 3, 4, 5, 16, 6, 8, 9, 10],
            Call::CheckPlan => &[1, 2, 17, 3, 4, 5, 16, 6, 8, 9, 10, 14],
            Call::WritePlan => &[1, 2, 17, 3, 4, 5, 16, 6, 8, 9, 10, 11, 13, 15],
            Call::HandPlay => &[1, 2, 17, 3, 4, 5, 16, 6, 8, 9, 10, 11, 12],
            Call::Join => &[1, 2, 17, 3, 4, 5, 16, 6, 7, 18, 15],
        }
    }

    /// How many sheets the call takes: its first buffers.
    pub fn sheets(self) -> usize {
        match self {
            Call::Compare | Call::CompareReady | Call::Join => 2,
            _ => 1,
        }
    }

    /// Is the answer's first value a yes or no?
    pub fn says_yes_or_no(self) -> bool {
        matches!(
            self,
            Call::Compare | Call::CompareReady | Call::TestSimulation | Call::HandPlay
        )
    }
}

/// One call with everything that it is given.
#[derive(Clone, PartialEq, Eq)]
pub struct Case {
    pub call: Call,
    /// The lent byte buffers, in the call's order.
    pub bytes: Vec<Vec<u8>>,
    /// p, q and rounds, as far as the call takes them.
    pub numbers: Vec<u64>,
}

/// What a call comes to: the answer's values in order, or the refusal with its
/// number and its record's; and every lent buffer afterwards, those only read
/// included.
#[derive(Clone, PartialEq, Eq)]
pub struct Outcome {
    pub answer: Result<Vec<u64>, Refusal>,
    pub bytes: Vec<Vec<u8>>,
}

impl fmt::Debug for Case {
    fn fmt(&self, f: &mut fmt::Formatter<'_>) -> fmt::Result {
        writeln!(f, "call {} numbers {:?}", self.call.name(), self.numbers)?;
        write_buffers(f, &self.bytes)
    }
}

impl fmt::Debug for Outcome {
    fn fmt(&self, f: &mut fmt::Formatter<'_>) -> fmt::Result {
        match &self.answer {
            Ok(values) => writeln!(f, "answer {values:?}")?,
            Err(refusal) => writeln!(f, "refused {} record {}", refusal.number, refusal.record)?,
        }
        write_buffers(f, &self.bytes)
    }
}

/// The buffers, in hexadecimal.
fn write_buffers(f: &mut fmt::Formatter<'_>, bytes: &[Vec<u8>]) -> fmt::Result {
    for (at, buffer) in bytes.iter().enumerate() {
        write!(f, "buffer {at}, {} bytes:", buffer.len())?;
        for byte in buffer {
            write!(f, " {byte:02x}")?;
        }
        writeln!(f)?;
    }
    Ok(())
}
