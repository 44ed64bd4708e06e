//! Unit and property tests.

mod chains;
mod convert;
mod depths;
mod document;
mod join;
mod names;
mod properties;
mod ready;
mod sheets;

use crate::plans::Checked;
use crate::refusal::Refusal;

/// The refusal of this number that names no record.
fn refused<T>(number: u8) -> Result<T, Refusal> {
    Err(Refusal::numbered(number))
}

/// What check plan gives for an accepted plan.
fn accepted(p: u16, q: u16, depth: usize) -> Result<Checked, Refusal> {
    Ok(Checked { p, q, depth })
}
