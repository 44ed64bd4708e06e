//! The two forms of compare that a verdict can come from.

use flow::{Compared, Refusal};

/// The form of compare that is asked.
#[derive(Clone, Copy, PartialEq, Eq, Debug)]
pub enum Form {
    /// Compare, which uses the end start.
    Older,
    /// Compare ready, which uses the ready start.
    Ready,
}

impl Form {
    /// What the form says of two sheets.
    pub fn compare(self, site: &[u8], rules: &[u8]) -> Result<Compared, Refusal> {
        match self {
            Form::Older => flow::compare(site, rules),
            Form::Ready => flow::compare_ready(site, rules),
        }
    }

    /// Writes the start that the form uses.
    pub fn write_start(self, sheet: &[u8], grid: &mut [u8]) -> Result<(), Refusal> {
        match self {
            Form::Older => flow::end_start(sheet, grid),
            Form::Ready => flow::ready_start(sheet, grid),
        }
    }

    /// The start's name.
    pub fn start_name(self) -> &'static str {
        match self {
            Form::Older => "end start",
            Form::Ready => "ready start",
        }
    }
}
