//! What a sheet says of itself.

use crate::{normalise, Refusal};

/// The bytes of a header.
const HEADER: usize = 6;

/// The bytes of an action's name.
pub(crate) const LABEL: usize = 16;

/// The bytes of a page record.
const PAGE_RECORD: usize = 4;

/// The bytes of a move record.
const MOVE_RECORD: usize = 6;

/// What is added to the first number of a named sheet.
const NAMED: u16 = 32_768;

/// The length of the longest sheet: 64 names, 256 pages and 1,024 moves.
pub const LONGEST_SHEET: usize = HEADER + 64 * LABEL + 256 * PAGE_RECORD + 1_024 * MOVE_RECORD;

/// One move of a flow.
#[derive(Clone, Copy, PartialEq, Eq, Debug)]
pub struct Move {
    /// The page that it leaves.
    pub source: u16,
    /// Its action's number.
    pub action: u16,
    /// The page that it leads to.
    pub target: u16,
}

/// The number of pages of a sheet of either kind.
///
/// Refuses with 1 to 6, 16 and 17.
///
/// ```
/// assert_eq!(flow::pages(&[1, 0, 0, 0, 0, 0, 0, 0, 0, 0]), Ok(1)); // plain
/// assert_eq!(flow::pages(&[1, 128, 0, 0, 0, 0, 0, 0, 0, 0]), Ok(1)); // named
/// assert_eq!(flow::pages(&[0, 128, 0, 0, 0, 0]), Err(flow::Refusal::Counts));
/// ```
pub fn pages(sheet: &[u8]) -> Result<u16, Refusal> {
    Ok(pages_of(&normal(sheet)?))
}

/// The names of a sheet's actions, that of action 1 first: decimal numbers
/// where the sheet is plain.
///
/// Refuses with 1 to 6, 16 and 17.
///
/// ```
/// let plain = [1, 0, 2, 0, 0, 0, 0, 0, 0, 0]; // one page, two actions, no moves
/// assert_eq!(flow::labels(&plain)?, ["1", "2"]);
/// let named = [
///     [1, 128, 2, 0, 0, 0].as_slice(), // the same counts and 32,768
///     b"open\0\0\0\0\0\0\0\0\0\0\0\0",
///     b"close\0\0\0\0\0\0\0\0\0\0\0",
///     &[0, 0, 0, 0],
/// ]
/// .concat();
/// assert_eq!(flow::labels(&named)?, ["open", "close"]);
/// # Ok::<(), flow::Refusal>(())
/// ```
pub fn labels(sheet: &[u8]) -> Result<Vec<String>, Refusal> {
    let sheet = normal(sheet)?;
    if !is_named(&sheet) {
        let actions = 1..=actions_of(&sheet);
        return Ok(actions.map(|action| action.to_string()).collect());
    }
    let labels = &sheet[HEADER..page_records(&sheet)];
    Ok(labels.chunks_exact(LABEL).map(label).collect())
}

/// The moves of a sheet in normal order: by page, then action, then target.
/// They are read off the normal form that [`normalise`] writes.
///
/// Refuses with 1 to 6, 16 and 17.
///
/// ```
/// // Two pages, two actions. Page 1's chain goes from record 3 to record 1.
/// let sheet = [
///     2, 0, 2, 0, 3, 0, // two pages, two actions, three moves
///     0, 0, 2, 0, 0, 0, 3, 0, // the pages
///     2, 0, 0, 0, 0, 0, 1, 0, 1, 0, 0, 0, 1, 0, 1, 0, 1, 0, // the moves
/// ];
/// let moves = flow::moves(&sheet)?;
/// let numbers = moves.iter().map(|own| (own.source, own.action, own.target));
/// assert!(numbers.eq([(0, 1, 1), (1, 1, 1), (1, 2, 0)]));
/// # Ok::<(), flow::Refusal>(())
/// ```
pub fn moves(sheet: &[u8]) -> Result<Vec<Move>, Refusal> {
    let sheet = normal(sheet)?;
    let (pages, first) = (pages_of(&sheet), page_records(&sheet));
    let records = first + PAGE_RECORD * usize::from(pages);
    let mut moves = Vec::new();
    for source in 0..pages {
        let mut index = number(&sheet, first + PAGE_RECORD * usize::from(source) + 2);
        while index != 0 {
            let record = records + MOVE_RECORD * (usize::from(index) - 1);
            moves.push(Move {
                source,
                action: number(&sheet, record),
                target: number(&sheet, record + 2),
            });
            index = number(&sheet, record + 4);
        }
    }
    Ok(moves)
}

/// The normal form of a sheet.
fn normal(sheet: &[u8]) -> Result<Vec<u8>, Refusal> {
    let mut out = vec![0; sheet.len()];
    normalise(sheet, &mut out)?;
    Ok(out)
}

/// The number of pages that a header says.
fn pages_of(sheet: &[u8]) -> u16 {
    number(sheet, 0) & !NAMED
}

/// Where the page records of a readable sheet begin.
fn page_records(sheet: &[u8]) -> usize {
    match is_named(sheet) {
        true => HEADER + LABEL * actions_of(sheet),
        false => HEADER,
    }
}

/// Does a header say that the sheet is a named one?
pub(crate) fn is_named(sheet: &[u8]) -> bool {
    number(sheet, 0) & NAMED != 0
}

/// The number of actions that a header says.
pub(crate) fn actions_of(sheet: &[u8]) -> usize {
    number(sheet, 2).into()
}

/// The 16-bit number at a place; 0 where the bytes end before.
fn number(sheet: &[u8], at: usize) -> u16 {
    match sheet.get(at..at + 2) {
        Some(bytes) => u16::from_le_bytes([bytes[0], bytes[1]]),
        None => 0,
    }
}

/// A name without the zeros behind it.
fn label(bytes: &[u8]) -> String {
    let own = bytes.iter().take_while(|&&byte| byte != 0);
    own.map(|&byte| char::from(byte)).collect()
}
