//! What a call gives instead of a result.

/// A refusal: its number from the table of document 01 or from document 02,
/// and the number of the move record that it is about, 0 for none.
#[derive(Clone, Copy, PartialEq, Eq, Debug)]
pub struct Refusal {
    /// The number of the refusal.
    pub number: u8,
    /// The record, from 1 to k; 0 for a refusal that names none.
    pub record: u16,
}

impl Refusal {
    /// Under 6 bytes, or another length than the counts say.
    pub const LENGTH: Refusal = Refusal::numbered(1);
    /// A count in the header is outside its range.
    pub const RANGE: Refusal = Refusal::numbered(2);
    /// A page record breaks a rule.
    pub const PAGE_RECORD: Refusal = Refusal::numbered(3);
    /// A move record breaks a rule.
    pub const MOVE_RECORD: Refusal = Refusal::numbered(4);
    /// The same action and target twice in one chain.
    pub const TWICE: Refusal = Refusal::numbered(6);
    /// The joined flow is too large.
    pub const JOIN: Refusal = Refusal::numbered(7);
    /// A grid that is read has a wrong length or a stray bit.
    pub const GRID: Refusal = Refusal::numbered(8);
    /// The start is not reflexive.
    pub const NOT_REFLEXIVE: Refusal = Refusal::numbered(9);
    /// The start is not transitive.
    pub const NOT_TRANSITIVE: Refusal = Refusal::numbered(10);
    /// A page argument is not below n.
    pub const PAGE_ARGUMENT: Refusal = Refusal::numbered(11);
    /// Hand play above 6 rounds.
    pub const ROUNDS: Refusal = Refusal::numbered(12);
    /// A plan is wanted for a kept pair.
    pub const KEPT_PAIR: Refusal = Refusal::numbered(13);
    /// The plan is empty or has an unsound entry.
    pub const UNSOUND: Refusal = Refusal::numbered(14);
    /// A result buffer has a wrong length.
    pub const BUFFER: Refusal = Refusal::numbered(15);
    /// A named sheet has a bad or a repeated label.
    pub const LABEL: Refusal = Refusal::numbered(17);
    /// The joined flow has more than 64 labels.
    pub const TOO_MANY_LABELS: Refusal = Refusal::numbered(18);
    /// Names that a plain sheet can't carry.
    pub const NOT_DECIMAL: Refusal = Refusal::numbered(19);

    /// The refusal of this number that names no record.
    pub const fn numbered(number: u8) -> Refusal {
        Refusal { number, record: 0 }
    }

    /// 5: the lowest move record that lies on no chain.
    pub const fn unreached(record: u16) -> Refusal {
        Refusal { number: 5, record }
    }

    /// 16: the lowest move record that two first or next indices name.
    pub const fn reached_twice(record: u16) -> Refusal {
        Refusal { number: 16, record }
    }
}
