//! Named sheets with a bad or a repeated label, for which request L2 of
//! document 02 has refusal 17.

use crate::chain_faults::{self, Fault};
use crate::labels::{field, LABEL};
use crate::prng::Prng;
use crate::refusal::Refusal;
use crate::sheet::{self, HEADER, PAGE_RECORD};

/// What is wrong with a label.
#[derive(Clone, Copy, PartialEq, Eq, Debug)]
pub enum LabelFault {
    /// There is none: zeros alone.
    Empty,
    /// A byte from 01 to 20.
    Below,
    /// The byte 7F.
    Above,
    /// A byte from 80 to FF.
    HighBit,
    /// A zero, and the label after it.
    ZeroFirst,
    /// A zero between two bytes of the label.
    ZeroInside,
    /// A byte again at the field's end, after the zeros.
    AfterZeros,
    /// The last label is the first one.
    EndsEqual,
    /// Two labels side by side are the same.
    NeighboursEqual,
}

/// All faults.
pub const LABEL_FAULTS: [LabelFault; 9] = [
    LabelFault::Empty,
    LabelFault::Below,
    LabelFault::Above,
    LabelFault::HighBit,
    LabelFault::ZeroFirst,
    LabelFault::ZeroInside,
    LabelFault::AfterZeros,
    LabelFault::EndsEqual,
    LabelFault::NeighboursEqual,
];

impl LabelFault {
    /// Damages a readable named sheet, which is then refused with 17. False,
    /// and nothing done, if it is plain or has too few labels for the fault.
    pub fn damage(self, rng: &mut Prng, sheet: &mut [u8]) -> bool {
        let mut fields = fields_of(sheet);
        let needed = match self {
            LabelFault::EndsEqual | LabelFault::NeighboursEqual => 2,
            _ => 1,
        };
        if fields.len() < needed {
            return false;
        }
        self.apply(rng, &mut fields);
        sheet[HEADER..HEADER + LABEL * fields.len()].copy_from_slice(&fields.concat());
        true
    }

    /// Puts the fault into one of the fields, as many as it needs.
    fn apply(self, rng: &mut Prng, fields: &mut [[u8; LABEL]]) {
        let mut good = || rng.between(0x21, 0x7e) as u8;
        let bytes = [0; LABEL].map(|_| good());
        let (length, last) = (rng.between(3, LABEL), fields.len() - 1);
        let (at, place) = (rng.between(0, last), rng.below(length));
        fields[at] = field(&bytes[..length]);
        match self {
            LabelFault::Empty => fields[at] = [0; LABEL],
            LabelFault::Below => fields[at][place] = rng.between(0x01, 0x20) as u8,
            LabelFault::Above => fields[at][place] = 0x7f,
            LabelFault::HighBit => fields[at][place] = rng.between(0x80, 0xff) as u8,
            LabelFault::ZeroFirst => fields[at][0] = 0,
            LabelFault::ZeroInside => fields[at][rng.between(1, length - 2)] = 0,
            LabelFault::AfterZeros => fields[at][LABEL - 2..].copy_from_slice(&[0, bytes[0]]),
            LabelFault::EndsEqual => fields[last] = fields[0],
            LabelFault::NeighboursEqual => {
                let at = rng.between(1, last);
                fields[at] = fields[at - 1];
            }
        }
    }
}

/// The label fields of a readable sheet, none for a plain one.
fn fields_of(sheet: &[u8]) -> Vec<[u8; LABEL]> {
    let named = sheet[1] & 0x80 != 0;
    let m = if named { usize::from(sheet[2]) } else { 0 };
    let fields = sheet[HEADER..].chunks_exact(LABEL);
    fields.take(m).map(field).collect()
}

/// A named sheet with a bad label and no other fault, each time with one
/// fault more: those of the header and of the length come before 17, those of
/// page records, move records and chains after it.
pub fn other_faults(sheet: &[u8]) -> Vec<Fault> {
    let with = |at: usize, bytes: &[u8]| {
        let mut sheet = sheet.to_vec();
        sheet[at..at + bytes.len()].copy_from_slice(bytes);
        sheet
    };
    let n = usize::from(sheet[0]) + 256 * usize::from(sheet[1] & 0x7f);
    let pages = HEADER + LABEL * usize::from(sheet[2]);
    let moves = pages + PAGE_RECORD * n;
    let mut faults = vec![
        (sheet[..HEADER - 1].to_vec(), Refusal::LENGTH),
        (sheet[..sheet.len() - 1].to_vec(), Refusal::LENGTH),
        ([sheet, &[0]].concat(), Refusal::LENGTH),
        // Taken for a plain sheet, or with one label fewer.
        (with(1, &[sheet[1] & 0x7f]), Refusal::LENGTH),
        (with(2, &[sheet[2] - 1]), Refusal::LENGTH),
        // n = 0, n = 257, m = 65 and k = 1,025.
        (with(0, &[0, 0x80]), Refusal::RANGE),
        (with(0, &[1, 0x81]), Refusal::RANGE),
        (with(2, &[65, 0]), Refusal::RANGE),
        (with(4, &[1, 4]), Refusal::RANGE),
        // Page 0: end mark, spare byte, first index.
        (with(pages, &[2]), Refusal::LABEL),
        (with(pages + 1, &[1]), Refusal::LABEL),
        (with(pages + 2, &[255, 255]), Refusal::LABEL),
    ];
    if moves < sheet.len() {
        faults.extend([
            // Record 1: action, spare byte, target, next index; it names itself.
            (with(moves, &[0]), Refusal::LABEL),
            (with(moves + 1, &[1]), Refusal::LABEL),
            (with(moves + 2, &[255, 255]), Refusal::LABEL),
            (with(moves + 4, &[255, 255]), Refusal::LABEL),
            (with(moves + 4, &[1, 0]), Refusal::LABEL),
        ]);
    }
    let fault = |(sheet, refusal)| Fault { sheet, refusal };
    faults.into_iter().map(fault).collect()
}

/// The labels of a sheet with one, two or three of them, some bad.
const BAD: [&[&[u8]]; 47] = [
    // None.
    &[b""],
    &[b"", b"b", b"c"],
    &[b"a", b"", b"c"],
    &[b"a", b"b", b""],
    &[b"", b"", b""],
    // A byte from 01 to 20, in each place.
    &[b" "],
    &[b"\x20open", b"b", b"c"],
    &[b"a", b"open flock", b"c"],
    &[b"a", b"b", b"open "],
    &[b"a\x01", b"b", b"c"],
    &[b"a", b"\x1f", b"c"],
    &[b"a", b"b", b"0123456789abcde "],
    &[b"\x0abcdefghijklmnop", b"b", b"c"],
    &[b"a               ", b"b", b"c"],
    // The byte 7F.
    &[b"\x7f"],
    &[b"a", b"b\x7f", b"c"],
    &[b"a", b"b", b"0123456789abcde\x7f"],
    &[b"a", b"b", b"ab\x7fcd"],
    // A byte from 80 to FF; A1 is 21 with the highest bit.
    &[b"\x80"],
    &[b"\xa1", b"b", b"c"],
    &[b"a", b"caf\xc3\xa9", b"c"],
    &[b"a", b"b", b"c\xff"],
    &[b"a", b"b", b"0123456789abcde\xe1"],
    // A zero first, or inside.
    &[b"\0a"],
    &[b"\0a", b"b", b"c"],
    &[b"a", b"op\0en", b"c"],
    &[b"a", b"b", b"0123456789abcd\0e"],
    &[b"a\0a", b"b", b"c"],
    // A byte after the zeros, good by itself or not.
    &[b"a\0\0\0\0\0\0\0\0\0\0\0\0\0\0b"],
    &[b"a", b"b\0\0\0\0\0\0\0\0\0\0\0\0\0\0\x01", b"c"],
    &[b"a", b"b", b"\0\0\0\0\0\0\0\0\0\0\0\0\0\0\0c"],
    &[b"a\0\0 ", b"b", b"c"],
    &[b"a", b"b\0\0\xff", b"c"],
    // One twice: two of two, the first two, the last two, the ends, all.
    &[b"a", b"a"],
    &[b"a", b"a", b"c"],
    &[b"a", b"b", b"b"],
    &[b"a", b"b", b"a"],
    &[b"a", b"a", b"a"],
    &[b"1", b"2", b"1"],
    &[b"open_flock", b"b", b"open_flock"],
    &[b"0123456789abcdef", b"0123456789abcdef", b"c"],
    &[b"a", b"!~!~!~!~!~!~!~!~", b"!~!~!~!~!~!~!~!~"],
    // Several.
    &[b"", b""],
    &[b" ", b" ", b"\x7f"],
    &[b"a", b"a", b"\0a"],
    &[b"\x80", b"b", b"b"],
    &[b"a\0b", b"a\0c", b"a"],
];

/// Labels close to those that can be read.
const GOOD: [&[&[u8]]; 12] = [
    &[b"!"],
    &[b"~", b"!"],
    &[b"a", b"aa", b"aaa"],
    &[b"aaa", b"aa", b"a"],
    &[b"a", b"A", b"b"],
    &[b"1", b"01", b"001"],
    &[b"3", b"2", b"1"],
    &[b"0123456789abcdef", b"0123456789abcdeg", b"0123456789abcde"],
    &[b"0bcdefghijklmnop", b"1bcdefghijklmnop", b"bcdefghijklmnop"],
    &[b"ab", b"ba", b"b"],
    &[b"!~!~!~!~!~!~!~!~", b"~!~!~!~!~!~!~!~!", b"!~!~!~!~!~!~!~!"],
    &[b"open", b"close", b"open_flock"],
];

/// Sheets of three pages with these labels.
pub fn small() -> Vec<Fault> {
    let sheets = BAD.map(labelled).map(|sheet| Fault {
        sheet,
        refusal: Refusal::LABEL,
    });
    sheets.to_vec()
}

/// Readable sheets of three pages whose labels are close to bad ones.
pub fn near_misses() -> Vec<Vec<u8>> {
    GOOD.map(labelled).to_vec()
}

/// The sheet of three pages with one move for each label, to the next page or
/// from the last to itself, and these fields.
pub fn labelled(labels: &[&[u8]]) -> Vec<u8> {
    let moves = [(1, 1, 0), (2, 2, 0), (3, 2, 0)];
    let mut firsts = [1, 2, 3];
    firsts[labels.len()..].fill(0);
    let plain = chain_faults::raw(labels.len() as u16, &firsts, &moves[..labels.len()]);
    let fields: Vec<[u8; LABEL]> = labels.iter().map(|label| field(label)).collect();
    sheet::with_fields(&plain, &fields)
}
