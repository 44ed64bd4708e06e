//! Plain sheets to named ones and back, from request L3 of document 02.

use crate::labels::{decimal, Kind, LABEL};
use crate::refusal::Refusal;
use crate::sheet::{self, HEADER, NAMED};

/// To named: writes the sheet as a named one, a plain sheet with decimal
/// labels and a named one as it is. Page and move records stay as they stand.
/// A refusal leaves the buffer as it is.
pub fn to_named(sheet: &[u8], out: &mut [u8]) -> Result<(), Refusal> {
    let labelled = sheet::read_labelled(sheet)?;
    let named = match labelled.kind() {
        Kind::Plain => sheet::with_labels(sheet, &decimal(labelled.lts().actions())),
        Kind::Named => sheet.to_vec(),
    };
    fill(out, &named)
}

/// To plain: writes the sheet as a plain one, a named sheet only if each
/// action is named by its number, and a plain one as it is. Page and move
/// records stay as they stand. A refusal leaves the buffer as it is.
pub fn to_plain(sheet: &[u8], out: &mut [u8]) -> Result<(), Refusal> {
    let labelled = sheet::read_labelled(sheet)?;
    let m = labelled.lts().actions();
    let plain = match labelled.kind() {
        Kind::Plain => sheet.to_vec(),
        Kind::Named if labelled.labels() == decimal(m) => without_labels(sheet, m),
        Kind::Named => return Err(Refusal::NOT_DECIMAL),
    };
    fill(out, &plain)
}

/// The plain sheet with the records of a named one that has `m` labels.
fn without_labels(named: &[u8], m: usize) -> Vec<u8> {
    let first = u16::from_le_bytes([named[0], named[1]]) - NAMED;
    let (other_counts, records) = (&named[2..HEADER], &named[HEADER + LABEL * m..]);
    [&first.to_le_bytes(), other_counts, records].concat()
}

/// Fills a buffer with as many bytes; refused if it has another length.
fn fill(out: &mut [u8], bytes: &[u8]) -> Result<(), Refusal> {
    if out.len() != bytes.len() {
        return Err(Refusal::BUFFER);
    }
    out.copy_from_slice(bytes);
    Ok(())
}
