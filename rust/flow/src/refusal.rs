//! What a call gives instead of a result.

use std::error::Error;
use std::fmt;

/// The refusals of document 01, with document 02's at their places, in the
/// order of the table. More may come. Whatever the refusal, every lent buffer
/// is as it was before the call.
///
/// The move records of a sheet are numbered from 1, as document 01 has it. A
/// refusal that is about one of them carries its number: the lowest, where
/// several have the fault.
///
/// ```
/// use flow::Refusal;
/// // One page, one action, three move records: the page's first is 1, record
/// // 1 ends the chain, and records 2 and 3 are on none.
/// let sheet = [
///     1, 0, 1, 0, 3, 0, 0, 0, 1, 0, // the counts, the page
///     1, 0, 0, 0, 0, 0, 1, 0, 0, 0, 3, 0, 1, 0, 0, 0, 0, 0, // the records
/// ];
/// match flow::normalise(&sheet, &mut [0; 28]) {
///     Err(Refusal::Unreached { record }) => assert_eq!(record, 2),
///     other => panic!("{other:?}"),
/// }
/// ```
#[derive(Clone, Copy, PartialEq, Eq, PartialOrd, Ord, Hash, Debug)]
#[non_exhaustive]
pub enum Refusal {
    /// 1: a sheet under 6 bytes, or of another length than its counts say.
    Length,
    /// 2: the number of pages, of actions or of moves is outside its range.
    Counts,
    /// 17: a named sheet with a bad or a repeated name.
    Label,
    /// 3: a page record's mark, spare byte or index.
    PageRecord,
    /// 4: a move record's action, spare byte, target or next index.
    MoveRecord,
    /// 5: a move record on no chain.
    Unreached {
        /// The lowest such record's number, 1 to 1,024.
        record: u16,
    },
    /// 16: a move record reached twice, that is, named by two first or next
    /// indices.
    ReachedTwice {
        /// The lowest such record's number, 1 to 1,024.
        record: u16,
    },
    /// 6: an action and target twice in one chain.
    Repeated,
    /// 7: a joined flow above 256 pages or 1,024 moves.
    Joined,
    /// 18: a joined flow with more than 64 names.
    TooManyLabels,
    /// 19: names that a plain sheet can't carry.
    NotDecimal,
    /// 8: a grid that is read has another length, or a bit at q ≥ n.
    Grid,
    /// 9: the start is not reflexive.
    NotReflexive,
    /// 10: the start is not transitive.
    NotTransitive,
    /// 11: a page argument is not below n.
    Page,
    /// 12: hand play above 6 rounds.
    Rounds,
    /// 13: a plan is wanted for a kept pair.
    Kept,
    /// 14: a plan is empty or has an unsound entry.
    Unsound,
    /// 15: a result buffer of another length than named; for a plan, shorter
    /// than its count of entries; for join, shorter than the sheet.
    Buffer,
}

/// The highest number of a record.
const MOST_RECORDS: u16 = 1_024;

impl Refusal {
    /// The numbers of all refusals, in the order of the table: 16 stands
    /// directly after 5, 17 after 2, 18 after 7 and 19 after 18.
    pub const NUMBERS: &'static [u8] = &[
        1, 2, 17, 3, 4, 5, 16, 6, 7, 18, 19, 8, 9, 10, 11, 12, 13, 14, 15,
    ];

    /// The refusal's number in the table.
    pub fn number(self) -> u8 {
        match self {
            Refusal::Length => 1,
            Refusal::Counts => 2,
            Refusal::Label => 17,
            Refusal::PageRecord => 3,
            Refusal::MoveRecord => 4,
            Refusal::Unreached { .. } => 5,
            Refusal::ReachedTwice { .. } => 16,
            Refusal::Repeated => 6,
            Refusal::Joined => 7,
            Refusal::TooManyLabels => 18,
            Refusal::NotDecimal => 19,
            Refusal::Grid => 8,
            Refusal::NotReflexive => 9,
            Refusal::NotTransitive => 10,
            Refusal::Page => 11,
            Refusal::Rounds => 12,
            Refusal::Kept => 13,
            Refusal::Unsound => 14,
            Refusal::Buffer => 15,
        }
    }

    /// The number of the move record that the refusal is about, 1 to 1,024;
    /// none where document 02 has the record number 0.
    ///
    /// ```
    /// use flow::Refusal;
    /// assert_eq!(Refusal::ReachedTwice { record: 2 }.record(), Some(2));
    /// assert_eq!(Refusal::Repeated.record(), None);
    /// ```
    pub fn record(self) -> Option<u16> {
        match self {
            Refusal::Unreached { record } | Refusal::ReachedTwice { record } => Some(record),
            _ => None,
        }
    }

    /// The refusal with this number and this record number, if there is one:
    /// 5 and 16 are about a record from 1 to 1,024, the others have 0.
    ///
    /// ```
    /// use flow::Refusal;
    /// assert_eq!(Refusal::from_numbers(5, 7), Some(Refusal::Unreached { record: 7 }));
    /// assert_eq!(Refusal::from_numbers(6, 0), Some(Refusal::Repeated));
    /// assert_eq!(Refusal::from_numbers(5, 0), None);
    /// assert_eq!(Refusal::from_numbers(6, 7), None);
    /// ```
    pub fn from_numbers(number: u8, record: u16) -> Option<Refusal> {
        let refusal = match number {
            1 => Refusal::Length,
            2 => Refusal::Counts,
            17 => Refusal::Label,
            3 => Refusal::PageRecord,
            4 => Refusal::MoveRecord,
            5 => Refusal::Unreached { record },
            16 => Refusal::ReachedTwice { record },
            6 => Refusal::Repeated,
            7 => Refusal::Joined,
            18 => Refusal::TooManyLabels,
            19 => Refusal::NotDecimal,
            8 => Refusal::Grid,
            9 => Refusal::NotReflexive,
            10 => Refusal::NotTransitive,
            11 => Refusal::Page,
            12 => Refusal::Rounds,
            13 => Refusal::Kept,
            14 => Refusal::Unsound,
            15 => Refusal::Buffer,
            _ => return None,
        };
        let fits = match refusal.record() {
            Some(record) => (1..=MOST_RECORDS).contains(&record),
            None => record == 0,
        };
        fits.then_some(refusal)
    }

    /// The table's sentence: when a call gives this number; and the record
    /// that it is about.
    ///
    /// ```
    /// use flow::Refusal;
    /// assert_eq!(Refusal::Counts.sentence(), "n, m or k outside its range");
    /// let unreached = Refusal::Unreached { record: 7 };
    /// assert_eq!(unreached.sentence(), "a record on no chain: record 7");
    /// assert_eq!(unreached.to_string(), "refused 5: a record on no chain: record 7");
    /// ```
    pub fn sentence(self) -> String {
        let words = self.words();
        match self.record() {
            Some(record) => format!("{words}: record {record}"),
            None => words.to_string(),
        }
    }

    /// The table's words.
    fn words(self) -> &'static str {
        match self {
            Refusal::Length => "under 6 bytes, or another length than the counts say",
            Refusal::Counts => "n, m or k outside its range",
            Refusal::Label => "a bad or repeated name",
            Refusal::PageRecord => "a page record: mark, spare byte or index",
            Refusal::MoveRecord => "a move record: action, spare byte, target or next index",
            Refusal::Unreached { .. } => "a record on no chain",
            Refusal::ReachedTwice { .. } => "a record reached twice",
            Refusal::Repeated => "an action and target twice in one chain",
            Refusal::Joined => "joined flow above 256 pages or 1,024 moves",
            Refusal::TooManyLabels => "more than 64 joined names",
            Refusal::NotDecimal => "names that a plain sheet can't carry",
            Refusal::Grid => "a grid read: length, or a bit at q ≥ n",
            Refusal::NotReflexive => "start not reflexive",
            Refusal::NotTransitive => "start not transitive",
            Refusal::Page => "a page argument ≥ n",
            Refusal::Rounds => "hand play above 6 rounds",
            Refusal::Kept => "plan wanted for a kept pair",
            Refusal::Unsound => "plan empty or with an unsound entry",
            Refusal::Buffer => "a result buffer of another length than named",
        }
    }
}

impl fmt::Display for Refusal {
    fn fmt(&self, f: &mut fmt::Formatter<'_>) -> fmt::Result {
        write!(f, "refused {}: {}", self.number(), self.sentence())
    }
}

impl Error for Refusal {}

#[cfg(test)]
mod tests {
    use super::{Refusal, MOST_RECORDS};

    /// Every refusal, those about a record with the record 7.
    fn all() -> Vec<Refusal> {
        let of = |&number: &u8| {
            Refusal::from_numbers(number, 0).or_else(|| Refusal::from_numbers(number, 7))
        };
        Refusal::NUMBERS
            .iter()
            .map(of)
            .map(Option::unwrap)
            .collect()
    }

    #[test]
    fn numbers_there_and_back() {
        for (&number, refusal) in Refusal::NUMBERS.iter().zip(all()) {
            assert_eq!(refusal.number(), number);
            assert_eq!(refusal.record(), [5, 16].contains(&number).then_some(7));
            let begin = format!("refused {number}: ");
            assert!(refusal.to_string().starts_with(&begin), "{refusal}");
        }
        for number in 0..=u8::MAX {
            for record in [0, 1, 2, 255, 256, MOST_RECORDS, 1_025, u16::MAX] {
                let fits = match number {
                    5 | 16 => record != 0 && record <= 1_024,
                    1..=15 | 17..=19 => record == 0,
                    _ => false,
                };
                let refusal = Refusal::from_numbers(number, record);
                assert_eq!(refusal.is_some(), fits, "{number} {record}");
                if let Some(refusal) = refusal {
                    assert_eq!(refusal.number(), number);
                    assert_eq!(refusal.record().unwrap_or(0), record);
                }
            }
        }
    }

    /// As the table has them, and so by number but for document 02's.
    #[test]
    fn the_order_of_the_table() {
        assert!(all().is_sorted());
        let mut numbers = Refusal::NUMBERS.to_vec();
        for (later, directly_after) in [(16, 5), (17, 2), (19, 18), (18, 7)] {
            let at = numbers.iter().position(|&n| n == later).unwrap();
            assert_eq!(numbers[at - 1], directly_after);
            numbers.remove(at);
        }
        assert_eq!(numbers, (1..=15).collect::<Vec<u8>>());
    }

    #[test]
    fn sentences_about_a_record() {
        let twice = Refusal::ReachedTwice { record: 2 };
        assert_eq!(twice.sentence(), "a record reached twice: record 2");
        assert_eq!(
            Refusal::Unreached { record: 1_024 }.to_string(),
            "refused 5: a record on no chain: record 1024"
        );
        for refusal in all() {
            let about = refusal.sentence().ends_with(": record 7");
            assert_eq!(about, refusal.record().is_some(), "{refusal}");
        }
    }
}
