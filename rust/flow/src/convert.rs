//! Plain sheets to named ones, and back.

use crate::packing::Packed;
use crate::sheet::{actions_of, is_named, LABEL};
use crate::{archive, Refusal};

/// To named: a plain sheet as the named sheet with the names "1", "2" and so
/// on. Page and move records stay as they are, whatever their order, so that
/// [`to_plain`] gives the same bytes back. A named sheet is copied.
///
/// Refuses with 1 to 6, 16 and 17.
///
/// ```
/// // One page and two actions. Its chain goes from record 2 to record 1.
/// let (counts, page) = ([1, 0, 2, 0, 2, 0], [0, 0, 2, 0]);
/// let records = [1, 0, 0, 0, 0, 0, 2, 0, 0, 0, 1, 0];
/// let plain = [&counts[..], &page, &records].concat();
/// let named = flow::to_named(&plain)?;
/// assert_eq!(named[..6], [1, 128, 2, 0, 2, 0]); // 32,768 and one page
/// assert_eq!(named[6..22], *b"1\0\0\0\0\0\0\0\0\0\0\0\0\0\0\0");
/// assert_eq!(named[22..38], *b"2\0\0\0\0\0\0\0\0\0\0\0\0\0\0\0");
/// assert_eq!(named[38..], plain[6..]);
/// assert_eq!(flow::to_named(&named)?, named);
/// assert_eq!(flow::to_plain(&named)?, plain);
/// # Ok::<(), flow::Refusal>(())
/// ```
pub fn to_named(sheet: &[u8]) -> Result<Vec<u8>, Refusal> {
    let mut out = vec![0; named_length(sheet)];
    to_named_into(sheet, &mut out)?;
    Ok(out)
}

/// To plain: a named sheet whose action j is named by j's decimal digits, for
/// every j, as the plain sheet. Page and move records stay as they are. A plain
/// sheet is copied.
///
/// Refuses with 1 to 6, 16 and 17 for the sheet, then 19 for other names.
///
/// ```
/// // One page, one action, no moves. A name has 16 bytes.
/// let named = |name: &str| {
///     let name = format!("{name:\0<16}").into_bytes();
///     [vec![1, 128, 1, 0, 0, 0], name, vec![0; 4]].concat()
/// };
/// let plain = [1, 0, 1, 0, 0, 0, 0, 0, 0, 0];
/// assert_eq!(flow::to_plain(&named("1"))?, plain);
/// assert_eq!(flow::to_plain(&plain)?, plain);
/// for other in ["2", "01", "open"] {
///     assert_eq!(flow::to_plain(&named(other)), Err(flow::Refusal::NotDecimal));
/// }
/// # Ok::<(), flow::Refusal>(())
/// ```
pub fn to_plain(sheet: &[u8]) -> Result<Vec<u8>, Refusal> {
    let mut out = vec![0; plain_length(sheet)];
    to_plain_into(sheet, &mut out)?;
    Ok(out)
}

/// [`to_named`] into a lent buffer of the new length: 16 bytes an action more
/// than a plain sheet has.
///
/// Refuses with 1 to 6, 16 and 17 for the sheet, then 15 for another length.
///
/// ```
/// let plain = [1, 0, 1, 0, 0, 0, 0, 0, 0, 0]; // one page, one action
/// let mut out = [9; 26];
/// flow::to_named_into(&plain, &mut out)?;
/// assert_eq!(out[..7], [1, 128, 1, 0, 0, 0, b'1']);
/// assert_eq!(out[7..], [0; 19]);
/// assert_eq!(flow::to_named_into(&plain, &mut [9; 27]), Err(flow::Refusal::Buffer));
/// # Ok::<(), flow::Refusal>(())
/// ```
pub fn to_named_into(sheet: &[u8], out: &mut [u8]) -> Result<(), Refusal> {
    Packed::new("flow_to_named", archive::to_named(sheet, out))?.end(())
}

/// [`to_plain`] into a lent buffer of the new length: 16 bytes an action fewer
/// than a named sheet has.
///
/// Refuses with 1 to 6, 16 and 17 for the sheet, then 19 for its names, then 15
/// for another length.
///
/// ```
/// let no_actions = [1, 128, 0, 0, 0, 0, 0, 0, 0, 0]; // a named sheet of one page
/// let mut out = [9; 10];
/// flow::to_plain_into(&no_actions, &mut out)?;
/// assert_eq!(out, [1, 0, 0, 0, 0, 0, 0, 0, 0, 0]);
/// assert_eq!(flow::to_plain_into(&no_actions, &mut []), Err(flow::Refusal::Buffer));
/// # Ok::<(), flow::Refusal>(())
/// ```
pub fn to_plain_into(sheet: &[u8], out: &mut [u8]) -> Result<(), Refusal> {
    Packed::new("flow_to_plain", archive::to_plain(sheet, out))?.end(())
}

/// The length of a readable sheet as a named one. Of any other bytes the call
/// refuses the sheet, whatever the buffer.
fn named_length(sheet: &[u8]) -> usize {
    match is_named(sheet) {
        true => sheet.len(),
        false => sheet.len() + LABEL * actions_of(sheet),
    }
}

/// The same as a plain one.
fn plain_length(sheet: &[u8]) -> usize {
    match is_named(sheet) {
        true => sheet.len().saturating_sub(LABEL * actions_of(sheet)),
        false => sheet.len(),
    }
}
