//! The flow comparer of document 01, from Rust.
//!
//! Each function here is one exported call of the proved archive. Sheets,
//! grids, turn lists and names are bytes, low byte first, exactly as document
//! 01 lays them out; an entry of a plan is four 16-bit numbers, 8 bytes.
//! A refused call leaves every lent buffer as it was.
//!
//! ```
//! // Pages 0, 1, 2 with the moves 0 -1-> 1 and 2 -1-> 2.
//! let sheet = [
//!     3, 0, 1, 0, 2, 0, // three pages, one action, two moves
//!     0, 0, 1, 0, 0, 0, 0, 0, 0, 0, 2, 0, // the pages
//!     1, 0, 1, 0, 0, 0, 1, 0, 2, 0, 0, 0, // the moves
//! ];
//! let mut start = flow::Grid::new(3);
//! flow::end_start(&sheet, start.bytes_mut())?;
//! let mut grid = flow::Grid::new(3);
//! let mut names = [0; 6];
//! let counts = flow::coarsest(&sheet, start.bytes(), &[], grid.bytes_mut(), &mut names)?;
//! assert_eq!((counts.turns, counts.kept, counts.blocks), (2, 6, 3));
//! assert!(grid.holds(0, 2) && !grid.holds(2, 0));
//! # Ok::<(), flow::Refusal>(())
//! ```
//!
//! A sheet with a move record on no chain, or with one reached twice, is
//! refused with the lowest such record's number:
//!
//! ```
//! // The same pages, but the first record names itself as next.
//! let sheet = [
//!     3, 0, 1, 0, 2, 0, // three pages, one action, two moves
//!     0, 0, 1, 0, 0, 0, 0, 0, 0, 0, 2, 0, // the pages
//!     1, 0, 1, 0, 1, 0, 1, 0, 2, 0, 0, 0, // the moves
//! ];
//! let refusal = flow::end_start(&sheet, &mut [0; 24]).unwrap_err();
//! assert_eq!(refusal, flow::Refusal::ReachedTwice { record: 1 });
//! assert_eq!(refusal.to_string(), "refused 16: a record reached twice: record 1");
//! ```
//!
//! # Actions by name
//!
//! Every call takes plain sheets and document 02's named ones, whose first
//! number has 32,768 added and whose actions' names, 16 bytes each, stand
//! behind the header. A plain sheet's actions count as named "1", "2" and so
//! on. [`compare`] and [`join`] match actions by name; [`labels`] gives the
//! names of a sheet.
//!
//! [`to_named`] turns a plain sheet into the named one with decimal names, and
//! [`to_plain`] goes back; neither moves a record.
//!
//! # The same actions too
//!
//! Under the end start a page with more actions can follow a dead end. The ready
//! start relates only pages whose moves have the same set of actions:
//! [`ready_start`] writes it, and [`compare_ready`] compares with it.
//!
//! # Panics
//!
//! The archive packs an answer into one number. A number that stands for no
//! answer of the call can only come from another archive than this crate was
//! written for; then a call panics and names the symbol and the number.

#![deny(unsafe_code)]
#![warn(missing_docs)]

mod archive;
mod convert;
mod grid;
mod packing;
mod plan;
mod refusal;
mod sheet;

pub use convert::{to_named, to_named_into, to_plain, to_plain_into};
pub use grid::Grid;
pub use plan::{entries, Entry, ENTRY_BYTES};
pub use refusal::Refusal;
pub use sheet::{labels, moves, pages, Move, LONGEST_SHEET};

use packing::Packed;

/// What coarsest counts.
#[derive(Clone, Copy, PartialEq, Eq, Debug)]
pub struct Counts {
    /// The number of turns made.
    pub turns: u16,
    /// The number of kept pairs.
    pub kept: u32,
    /// The number of blocks.
    pub blocks: u16,
}

/// What compare finds, in either form.
#[derive(Clone, Copy, PartialEq, Eq, Debug)]
pub struct Compared {
    /// Is (page 0 of the first, page 0 of the second) kept?
    pub yes: bool,
    /// The number of turns made on the joined flow.
    pub turns: u16,
}

/// A pair of pages.
#[derive(Clone, Copy, PartialEq, Eq, Debug)]
pub struct Pair {
    /// The page that the challenger moves from.
    pub p: u16,
    /// The page that the defender replies from.
    pub q: u16,
}

/// What check plan finds.
#[derive(Clone, Copy, PartialEq, Eq, Debug)]
pub struct Accepted {
    /// The pair of the last entry.
    pub pair: Pair,
    /// The depth of the last entry: by the plan the challenger wins at the pair
    /// in this many rounds at most. The plan that [`write_plan`] writes has the
    /// least depth of all that end in its pair.
    pub depth: u16,
}

/// Coarsest: makes turns by the turn list until nothing is pending, writes
/// the kept pairs as a grid and each page's block name, two bytes a page.
///
/// Refuses with 1 to 6, 16 and 17 for the sheet, 8 to 10 for the start, then 15. A
/// turn list's odd last byte is ignored.
///
/// ```
/// let f1 = [1, 0, 0, 0, 0, 0, 0, 0, 0, 0]; // one page, no moves
/// let all = [1, 0, 0, 0, 0, 0, 0, 0];
/// let (mut grid, mut names) = ([9; 8], [9; 2]);
/// let counts = flow::coarsest(&f1, &all, &[], &mut grid, &mut names)?;
/// assert_eq!(counts, flow::Counts { turns: 0, kept: 1, blocks: 1 });
/// assert_eq!((grid, names), (all, [0; 2]));
/// # Ok::<(), flow::Refusal>(())
/// ```
pub fn coarsest(
    sheet: &[u8],
    start: &[u8],
    turn_list: &[u8],
    grid: &mut [u8],
    names: &mut [u8],
) -> Result<Counts, Refusal> {
    let result = archive::coarsest(sheet, start, turn_list, grid, names);
    let mut packed = Packed::new("flow_coarsest", result)?;
    let counts = Counts {
        turns: packed.number(16) as u16,
        kept: packed.number(24) as u32,
        blocks: packed.number(16) as u16,
    };
    packed.end(counts)
}

/// Compare: joins two sheets and says whether page 0 of the second can follow
/// page 0 of the first in everything, and the turns made. Actions are matched
/// by name.
///
/// Refuses with 1 to 6, 16 and 17 for the first sheet, then for the second,
/// then 7 and 18.
///
/// ```
/// let f1 = [1, 0, 0, 0, 0, 0, 0, 0, 0, 0]; // one page, no moves
/// let one_loop = [1, 0, 1, 0, 1, 0, 0, 0, 1, 0, 1, 0, 0, 0, 0, 0];
/// assert!(flow::compare(&f1, &one_loop)?.yes);
/// assert!(!flow::compare(&one_loop, &f1)?.yes);
/// assert_eq!(flow::compare(&f1, &[]), Err(flow::Refusal::Length));
/// # Ok::<(), flow::Refusal>(())
/// ```
///
/// Two named sheets that number their actions differently:
///
/// ```
/// // One page that loops with one of two actions. A name has 16 bytes.
/// let loops = |names: [&str; 2], action: u8| {
///     let name = |at: usize| format!("{:\0<16}", names[at]).into_bytes();
///     let counts = vec![1, 128, 2, 0, 1, 0]; // 32,768 and one page
///     let (page, record) = (vec![0, 0, 1, 0], vec![action, 0, 0, 0, 0, 0]);
///     [counts, name(0), name(1), page, record].concat()
/// };
/// let first = loops(["open", "close"], 1);
/// assert!(flow::compare(&first, &loops(["close", "open"], 2))?.yes);
/// assert!(!flow::compare(&first, &loops(["close", "open"], 1))?.yes);
/// # Ok::<(), flow::Refusal>(())
/// ```
pub fn compare(first: &[u8], second: &[u8]) -> Result<Compared, Refusal> {
    compared("flow_compare", archive::compare(first, second))
}

/// Compare ready: [`compare`] with the ready start of the joined flow in the
/// place of its end start. Says whether page 0 of the second can follow page 0
/// of the first in everything and always with the same set of actions, and the
/// turns made. A yes of this form is a yes of compare too.
///
/// Refuses as compare does: with 1 to 6, 16 and 17 for the first sheet, then
/// for the second, then 7 and 18.
///
/// ```
/// let f1 = [1, 0, 0, 0, 0, 0, 0, 0, 0, 0]; // one page, no moves
/// let one_loop = [1, 0, 1, 0, 1, 0, 0, 0, 1, 0, 1, 0, 0, 0, 0, 0];
/// // The loop has nothing to answer, but an action more than the dead end.
/// assert!(flow::compare(&f1, &one_loop)?.yes);
/// assert!(!flow::compare_ready(&f1, &one_loop)?.yes);
/// // Two pages that move to each other have the loop's action for ever.
/// let two = [
///     2, 0, 1, 0, 2, 0, // two pages, one action, two moves
///     0, 0, 1, 0, 0, 0, 2, 0, // the pages
///     1, 0, 1, 0, 0, 0, 1, 0, 0, 0, 0, 0, // the moves
/// ];
/// assert!(flow::compare(&one_loop, &two)?.yes);
/// assert!(flow::compare_ready(&one_loop, &two)?.yes);
/// # Ok::<(), flow::Refusal>(())
/// ```
pub fn compare_ready(first: &[u8], second: &[u8]) -> Result<Compared, Refusal> {
    compared("flow_compare_ready", archive::compare_ready(first, second))
}

/// What a result of compare says, in either form.
fn compared(symbol: &'static str, result: u64) -> Result<Compared, Refusal> {
    let mut packed = Packed::new(symbol, result)?;
    let compared = Compared {
        yes: packed.yes(),
        turns: packed.number(16) as u16,
    };
    packed.end(compared)
}

/// Join: writes the joined flow of two sheets as a normal sheet and gives its
/// length. The second's pages follow the first's. Actions are matched by name:
/// the first's keep their numbers, the second's new ones follow. The sheet is
/// plain where both are, and named otherwise. Bytes past the sheet stay as they
/// are; a buffer of [`LONGEST_SHEET`] bytes is long enough.
///
/// Refuses with 1 to 6, 16 and 17 for the first sheet, then for the second,
/// then 7 and 18, and with 15 where the buffer is shorter than the sheet.
///
/// ```
/// let marked = [1, 0, 0, 0, 0, 0, 1, 0, 0, 0]; // one page with the end mark
/// let one_loop = [1, 0, 1, 0, 1, 0, 0, 0, 1, 0, 1, 0, 0, 0, 0, 0];
/// let mut out = [9; 22];
/// assert_eq!(flow::join(&marked, &one_loop, &mut out), Ok(20));
/// assert_eq!(out[..6], [2, 0, 1, 0, 1, 0]); // two pages, one action, one move
/// assert_eq!(out[6..14], [1, 0, 0, 0, 0, 0, 1, 0]); // the pages
/// assert_eq!(out[14..20], [1, 0, 1, 0, 0, 0]); // the move 1 -1-> 1
/// assert_eq!(out[20..], [9, 9]);
/// assert_eq!(flow::join(&marked, &one_loop, &mut [9; 19]), Err(flow::Refusal::Buffer));
/// ```
///
/// With names:
///
/// ```
/// // One page, two actions, no moves. A name has 16 bytes.
/// let named = |names: [&str; 2]| {
///     let name = |at: usize| format!("{:\0<16}", names[at]).into_bytes();
///     [vec![1, 128, 2, 0, 0, 0], name(0), name(1), vec![0; 4]].concat()
/// };
/// let (first, second) = (named(["open", "close"]), named(["sell", "open"]));
/// let mut out = [0; flow::LONGEST_SHEET];
/// let length = flow::join(&first, &second, &mut out)?;
/// assert_eq!(flow::labels(&out[..length])?, ["open", "close", "sell"]);
/// # Ok::<(), flow::Refusal>(())
/// ```
pub fn join(first: &[u8], second: &[u8], out: &mut [u8]) -> Result<usize, Refusal> {
    let mut packed = Packed::new("flow_join", archive::join(first, second, out))?;
    let length = packed.number(16) as usize;
    packed.end(length)
}

/// Normalise: writes the sheet's normal form into a buffer of the sheet's own
/// length. A named sheet keeps its names, in their order.
///
/// Refuses with 1 to 6, 16 and 17 for the sheet, then 15.
///
/// ```
/// let f1 = [1, 0, 0, 0, 0, 0, 0, 0, 0, 0];
/// let mut out = [7; 10];
/// flow::normalise(&f1, &mut out)?;
/// assert_eq!(out, f1);
/// # Ok::<(), flow::Refusal>(())
/// ```
pub fn normalise(sheet: &[u8], out: &mut [u8]) -> Result<(), Refusal> {
    Packed::new("flow_normalise", archive::normalise(sheet, out))?.end(())
}

/// End start: writes the grid that holds (p, q) unless p has the end mark and
/// q has not.
///
/// Refuses with 1 to 6, 16 and 17 for the sheet, then 15.
///
/// ```
/// let marked = [1, 0, 0, 0, 0, 0, 1, 0, 0, 0]; // one page with the end mark
/// let mut grid = [7; 8];
/// flow::end_start(&marked, &mut grid)?;
/// assert_eq!(grid, [1, 0, 0, 0, 0, 0, 0, 0]);
/// # Ok::<(), flow::Refusal>(())
/// ```
pub fn end_start(sheet: &[u8], grid: &mut [u8]) -> Result<(), Refusal> {
    Packed::new("flow_end_start", archive::end_start(sheet, grid))?.end(())
}

/// Ready start: writes the grid that holds (p, q) if the end start does and the
/// actions of p's moves are exactly those of q's. Two pages without moves have
/// the same set, the empty one.
///
/// Refuses with 1 to 6, 16 and 17 for the sheet, then 15.
///
/// ```
/// // Pages 0 to 4. Page 0 has action 1, page 1 has 1 and 2, page 2 has 2, and
/// // the others have none.
/// let sheet = [
///     5, 0, 2, 0, 4, 0, // five pages, two actions, four moves
///     0, 0, 1, 0, 0, 0, 2, 0, 0, 0, 4, 0, 0, 0, 0, 0, 0, 0, 0, 0, // the pages
///     1, 0, 3, 0, 0, 0, // 0 -1-> 3
///     1, 0, 3, 0, 3, 0, 2, 0, 4, 0, 0, 0, // 1 -1-> 3, 1 -2-> 4
///     2, 0, 4, 0, 0, 0, // 2 -2-> 4
/// ];
/// let mut start = flow::Grid::new(5);
/// flow::ready_start(&sheet, start.bytes_mut())?;
/// assert!(!start.holds(0, 1) && !start.holds(1, 0)); // page 1 has one more
/// assert!(!start.holds(0, 2) && !start.holds(2, 0)); // as many, but others
/// assert!(start.holds(3, 4) && start.holds(4, 3)); // without moves
/// assert!((0..5).all(|page| start.holds(page, page)));
/// # Ok::<(), flow::Refusal>(())
/// ```
pub fn ready_start(sheet: &[u8], grid: &mut [u8]) -> Result<(), Refusal> {
    Packed::new("flow_ready_start", archive::ready_start(sheet, grid))?.end(())
}

/// Test simulation: is the claimed grid a simulation inside the start?
///
/// Refuses with 1 to 6, 16 and 17 for the sheet, then 8 to 10 for the start, then 8
/// for the claim.
///
/// ```
/// let f1 = [1, 0, 0, 0, 0, 0, 0, 0, 0, 0];
/// let (all, none) = ([1, 0, 0, 0, 0, 0, 0, 0], [0; 8]);
/// assert!(flow::test_simulation(&f1, &all, &none)?);
/// assert_eq!(flow::test_simulation(&f1, &none, &all), Err(flow::Refusal::NotReflexive));
/// # Ok::<(), flow::Refusal>(())
/// ```
pub fn test_simulation(sheet: &[u8], start: &[u8], claim: &[u8]) -> Result<bool, Refusal> {
    let result = archive::test_simulation(sheet, start, claim);
    let mut packed = Packed::new("flow_test_simulation", result)?;
    let yes = packed.yes();
    packed.end(yes)
}

/// Check plan: accepts a non-empty plan of sound entries and gives its last
/// pair and the depth of its last entry. An entry is 8 bytes; bytes past the
/// last whole one count for nothing.
///
/// An entry has depth 0 for a = 0 and depth 1 where q has no a-move. Any other
/// is one deeper than the deepest of its replies, each of which has the least
/// depth among the earlier entries with its pair.
///
/// Refuses with 1 to 6, 16 and 17 for the sheet, 8 to 10 for the start, then 14.
///
/// ```
/// // Document 01's F3: pages 0, 1, 2 with the moves 0 -1-> 1 and 2 -1-> 2.
/// let f3 = [
///     3, 0, 1, 0, 2, 0, // three pages, one action, two moves
///     0, 0, 1, 0, 0, 0, 0, 0, 0, 0, 2, 0, // the pages
///     1, 0, 1, 0, 0, 0, 1, 0, 2, 0, 0, 0, // the moves
/// ];
/// let all = [7, 0, 0, 0, 0, 0, 0, 0].repeat(3);
/// // Its F5: page 1 has no move, so the first two are at 1; page 0 replies with
/// // page 1 alone, so the last is one deeper than the second.
/// let f5 = [[0, 1, 1, 1], [2, 1, 1, 2], [2, 0, 1, 2]];
/// let entry = |[p, q, a, t]: [u16; 4]| flow::Entry { p, q, a, t }.bytes();
/// let pair = flow::Pair { p: 2, q: 0 };
/// let accepted = flow::check_plan(&f3, &all, &f5.map(entry).concat());
/// assert_eq!(accepted, Ok(flow::Accepted { pair, depth: 2 }));
/// ```
///
/// A pair inside the start is not won without a move:
///
/// ```
/// let f1 = [1, 0, 0, 0, 0, 0, 0, 0, 0, 0];
/// let all = [1, 0, 0, 0, 0, 0, 0, 0];
/// assert_eq!(flow::check_plan(&f1, &all, &[0; 8]), Err(flow::Refusal::Unsound));
/// ```
pub fn check_plan(sheet: &[u8], start: &[u8], plan: &[u8]) -> Result<Accepted, Refusal> {
    let result = archive::check_plan(sheet, start, plan);
    let mut packed = Packed::new("flow_check_plan", result)?;
    let pair = Pair {
        p: packed.number(16) as u16,
        q: packed.number(16) as u16,
    };
    let depth = packed.number(16) as u16;
    packed.end(Accepted { pair, depth })
}

/// Write plan: writes the plan for the dropped pair (p, q) and gives its
/// count of entries, 8 bytes each. Bytes past them stay as they are. At most
/// n · n entries are needed.
///
/// Refuses with 1 to 6, 16 and 17 for the sheet, 8 to 10 for the start, then 11, 13
/// and 15.
///
/// ```
/// let two = [2, 0, 0, 0, 0, 0, 0, 0, 0, 0, 0, 0, 0, 0]; // two pages, no moves
/// let diagonal = [1, 0, 0, 0, 0, 0, 0, 0, 2, 0, 0, 0, 0, 0, 0, 0];
/// let mut plan = [9; 9];
/// assert_eq!(flow::write_plan(&two, &diagonal, 0, 1, &mut plan), Ok(1));
/// assert_eq!(plan, [0, 0, 1, 0, 0, 0, 0, 0, 9]);
/// assert_eq!(flow::write_plan(&two, &diagonal, 1, 1, &mut plan), Err(flow::Refusal::Kept));
/// ```
pub fn write_plan(
    sheet: &[u8],
    start: &[u8],
    p: u64,
    q: u64,
    plan: &mut [u8],
) -> Result<usize, Refusal> {
    let result = archive::write_plan(sheet, start, p, q, plan);
    let mut packed = Packed::new("flow_write_plan", result)?;
    let count = packed.number(32) as usize;
    packed.end(count)
}

/// Hand play: does the challenger win at (p, q) within the given rounds?
///
/// Refuses with 1 to 6, 16 and 17 for the sheet, 8 to 10 for the start, then 11 and
/// 12.
///
/// ```
/// let f1 = [1, 0, 0, 0, 0, 0, 0, 0, 0, 0];
/// let all = [1, 0, 0, 0, 0, 0, 0, 0];
/// assert_eq!(flow::hand_play(&f1, &all, 0, 0, 6), Ok(false));
/// assert_eq!(flow::hand_play(&f1, &all, 0, 0, 7), Err(flow::Refusal::Rounds));
/// ```
pub fn hand_play(sheet: &[u8], start: &[u8], p: u64, q: u64, rounds: u64) -> Result<bool, Refusal> {
    let result = archive::hand_play(sheet, start, p, q, rounds);
    let mut packed = Packed::new("flow_hand_play", result)?;
    let wins = packed.yes();
    packed.end(wins)
}
