//! The entries of a plan.

use std::fmt;

/// One entry: the pair (p, q) and the move p, a, t that beats it, or
/// a = t = 0 for a pair outside the start. Displayed as document 01 prints it.
#[derive(Clone, Copy, PartialEq, Eq, Debug)]
pub struct Entry {
    /// The page that the challenger moves from.
    pub p: u16,
    /// The page that the defender replies from.
    pub q: u16,
    /// The move's action, or 0.
    pub a: u16,
    /// The move's target, or 0.
    pub t: u16,
}

impl Entry {
    /// The bytes that carry the entry.
    ///
    /// ```
    /// let entry = flow::Entry { p: 0, q: 1, a: 2, t: 300 };
    /// assert_eq!(entry.bytes(), [0, 0, 1, 0, 2, 0, 44, 1]);
    /// assert_eq!(flow::entries(&entry.bytes()).collect::<Vec<_>>(), [entry]);
    /// ```
    pub fn bytes(self) -> [u8; ENTRY_BYTES] {
        let mut bytes = [0; ENTRY_BYTES];
        for (at, number) in [self.p, self.q, self.a, self.t].into_iter().enumerate() {
            bytes[2 * at..2 * at + 2].copy_from_slice(&number.to_le_bytes());
        }
        bytes
    }
}

impl fmt::Display for Entry {
    fn fmt(&self, f: &mut fmt::Formatter<'_>) -> fmt::Result {
        write!(f, "({},{},{},{})", self.p, self.q, self.a, self.t)
    }
}

/// The bytes of an entry: four 16-bit numbers, low byte first.
pub const ENTRY_BYTES: usize = 8;

/// The whole entries of a plan's bytes; what lies past the last is left out.
///
/// ```
/// let plan = [0, 0, 1, 0, 1, 0, 1, 0, 9];
/// let entries: Vec<String> = flow::entries(&plan).map(|e| e.to_string()).collect();
/// assert_eq!(entries, ["(0,1,1,1)"]);
/// ```
pub fn entries(plan: &[u8]) -> impl Iterator<Item = Entry> + '_ {
    plan.chunks_exact(ENTRY_BYTES).map(|entry| {
        let number = |at: usize| u16::from_le_bytes([entry[2 * at], entry[2 * at + 1]]);
        Entry {
            p: number(0),
            q: number(1),
            a: number(2),
            t: number(3),
        }
    })
}
