//! Building blocks for the cases: flows of document 01, raw sheets, buffers.

use crate::case::Case;
use reference::grid;
use reference::lts::Lts;
use reference::relation::{Preorder, Relation};
use reference::sheet;

/// The orders of three records.
pub const ORDERS: [[u16; 3]; 6] = [
    [1, 2, 3],
    [1, 3, 2],
    [2, 1, 3],
    [2, 3, 1],
    [3, 1, 2],
    [3, 2, 1],
];

/// F1 of document 01.
pub fn f1() -> Vec<u8> {
    sheet::write(&Lts::of(1, 0, &[]))
}

/// F2 of document 01.
pub fn f2() -> Vec<u8> {
    sheet::write(&Lts::of(2, 1, &[(0, 1, 1), (1, 1, 0)]))
}

/// F3 of document 01.
pub fn f3() -> Vec<u8> {
    sheet::write(&Lts::of(3, 1, &[(0, 1, 1), (2, 1, 2)]))
}

/// F4 of document 01.
pub fn f4() -> Vec<u8> {
    sheet::write(&chain(4))
}

/// F7: F3 with n = 0.
pub fn f7() -> Vec<u8> {
    with_byte(&f3(), 0, 0)
}

/// F8: F3 with one byte more.
pub fn f8() -> Vec<u8> {
    [f3(), vec![0]].concat()
}

/// F9: F3 whose first record names itself as next.
pub fn f9() -> Vec<u8> {
    with_byte(&f3(), 22, 1)
}

/// F3 with a label for its action.
pub fn named_f3() -> Vec<u8> {
    sheet::with_labels(&f3(), &["open-flock".to_string()])
}

/// One sheet for each refusal of a sheet, in their order: 1, 2, 17, 3 to 5, 16
/// and 6, with n = 3 where it can be.
pub fn refused_sheets() -> Vec<Vec<u8>> {
    let twice = RawSheet::of(1, &[1, 0, 0], &[(1, 1, 2), (1, 1, 0)]);
    vec![
        f8(),
        f7(),
        with_byte(&named_f3(), 10, b' '),
        with_byte(&f3(), 7, 1),
        with_byte(&f3(), 19, 1),
        with_byte(&f3(), 16, 0), // page 2 without its record, which is 2
        f9(),
        twice.bytes(),
    ]
}

/// All pairs of three pages as a start.
pub const F3_START: [u64; 3] = [7, 7, 7];

/// Starts that are refused for three pages: a wrong length, a stray bit, not
/// reflexive, not transitive, and several of these.
pub const BAD_STARTS: [&[u64]; 11] = [
    &[7, 7],
    &[],
    &[7, 7, 7, 0],
    &[15, 7, 7],
    &[7, 7, 1 << 63 | 7],
    &[6, 7, 7],
    &[7, 7, 3],
    &[0, 0, 0],
    &[3, 6, 4],
    &[1, 3, 6],
    &[6, 13, 0],
];

/// Cases of a call on a sheet and a start in which one or both are refused.
/// `with` makes those of one sheet and one start.
pub fn refused_inputs(cases: &mut Vec<Case>, with: impl Fn(&[u8], &[u64]) -> Vec<Case>) {
    for sheet in refused_sheets() {
        cases.extend(with(&sheet, &F3_START));
        cases.extend(with(&sheet, BAD_STARTS[0]));
    }
    for start in BAD_STARTS {
        cases.extend(with(&f3(), start));
    }
}

/// The flow of `n` pages in a row, each with one move to the next.
pub fn chain(n: usize) -> Lts {
    let moves: Vec<_> = (1..n).map(|p| (p - 1, 1, p)).collect();
    Lts::of(n, 1, &moves)
}

/// The bytes with one of them changed.
pub fn with_byte(bytes: &[u8], at: usize, byte: u8) -> Vec<u8> {
    let mut changed = bytes.to_vec();
    changed[at] = byte;
    changed
}

/// A page record as it stands.
#[derive(Clone)]
pub struct RawPage {
    /// The end mark.
    pub mark: u8,
    /// The byte that should be zero.
    pub spare: u8,
    /// The first index.
    pub first: u16,
}

/// A move record as it stands.
#[derive(Clone)]
pub struct RawMove {
    /// The action.
    pub action: u8,
    /// The byte that should be zero.
    pub spare: u8,
    /// The target page.
    pub target: u16,
    /// The next index.
    pub next: u16,
}

/// A sheet field by field, readable or not.
#[derive(Clone)]
pub struct RawSheet {
    /// The count of pages that the header gives.
    pub n: u16,
    /// The count of actions.
    pub m: u16,
    /// The count of move records that the header gives.
    pub k: u16,
    /// The page records that there are.
    pub pages: Vec<RawPage>,
    /// The move records that there are.
    pub moves: Vec<RawMove>,
}

impl RawSheet {
    /// A sheet from each page's first index and each record's action, target
    /// and next index.
    pub fn of(m: u16, firsts: &[u16], moves: &[(u8, u16, u16)]) -> RawSheet {
        RawSheet {
            n: firsts.len() as u16,
            m,
            k: moves.len() as u16,
            pages: firsts
                .iter()
                .map(|&first| RawPage {
                    mark: 0,
                    spare: 0,
                    first,
                })
                .collect(),
            moves: moves
                .iter()
                .map(|&(action, target, next)| RawMove {
                    action,
                    spare: 0,
                    target,
                    next,
                })
                .collect(),
        }
    }

    /// A copy with something changed.
    pub fn with(&self, change: impl FnOnce(&mut RawSheet)) -> RawSheet {
        let mut sheet = self.clone();
        change(&mut sheet);
        sheet
    }

    /// The bytes of the sheet.
    pub fn bytes(&self) -> Vec<u8> {
        let mut bytes = Vec::new();
        for count in [self.n, self.m, self.k] {
            bytes.extend(count.to_le_bytes());
        }
        for page in &self.pages {
            bytes.extend([page.mark, page.spare]);
            bytes.extend(page.first.to_le_bytes());
        }
        for record in &self.moves {
            bytes.extend([record.action, record.spare]);
            bytes.extend(record.target.to_le_bytes());
            bytes.extend(record.next.to_le_bytes());
        }
        bytes
    }
}

/// Bytes that a buffer holds at entry.
pub fn filled_bytes(length: usize) -> Vec<u8> {
    (0..length).map(|i| (i * 37 + 11) as u8).collect()
}

/// Words that a buffer holds at entry.
pub fn filled_words(length: usize) -> Vec<u64> {
    (0..length as u64)
        .map(|i| 0x9e37_79b9_7f4a_7c15_u64.wrapping_mul(i + 1))
        .collect()
}

/// 16-bit numbers that a buffer holds at entry.
pub fn filled_numbers(length: usize) -> Vec<u16> {
    (0..length).map(|i| (i * 4099 + 777) as u16).collect()
}

/// The grid of the end start of a flow.
pub fn end_words(lts: &Lts) -> Vec<u64> {
    grid::write(grid::end_start_of(lts).relation())
}

/// The grid of a preorder.
pub fn start_words(start: &Preorder) -> Vec<u64> {
    grid::write(start.relation())
}

/// The grid of the diagonal.
pub fn diagonal_words(n: usize) -> Vec<u64> {
    grid::write(&Relation::identity(n))
}

/// The grid of all pairs.
pub fn full_words(n: usize) -> Vec<u64> {
    grid::write(&Relation::full(n))
}

/// The grid with the bit of (p, q) turned over; q may be at or above n.
pub fn flipped(words: &[u64], n: usize, p: usize, q: usize) -> Vec<u64> {
    let mut changed = words.to_vec();
    changed[p * grid::words_per_row(n) + q / 64] ^= 1 << (q % 64);
    changed
}

/// The words without the last one.
pub fn shorter<T: Clone>(items: &[T]) -> Vec<T> {
    items[..items.len() - 1].to_vec()
}

/// The words with one more.
pub fn longer<T: Clone>(items: &[T], more: T) -> Vec<T> {
    [items, &[more]].concat()
}
