//! Join: the joined flow of two sheets, written as a sheet.

use crate::compare;
use crate::refusal::Refusal;
use crate::sheet;

/// Join: writes the normal sheet of the joined flow, of its own kind, at the
/// buffer's beginning and gives its length. Bytes past it stay, and a refusal
/// leaves them all.
pub fn join(first: &[u8], second: &[u8], out: &mut [u8]) -> Result<usize, Refusal> {
    let first = sheet::read_labelled(first)?;
    let second = sheet::read_labelled(second)?;
    let joined = sheet::write_labelled(&compare::join_labelled(&first, &second)?);
    let place = out.get_mut(..joined.len()).ok_or(Refusal::BUFFER)?;
    place.copy_from_slice(&joined);
    Ok(joined.len())
}
