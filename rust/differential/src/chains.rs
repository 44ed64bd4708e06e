//! Faults in the chains of a sheet, each at a record of choice.

use reference::prng::Prng;
use reference::refusal::Refusal;
use reference::sheet::{length, named_length, HEADER, NAMED, PAGE_RECORD};

/// What is wrong with the first and next indices that name a record.
#[derive(Clone, Copy, PartialEq, Eq, Debug)]
pub enum Fault {
    /// No index names the record.
    Lone,
    /// The record itself names it, and nothing else.
    LoneItself,
    /// The record is on a cycle with others that no page reaches.
    LoneCycle,
    /// No index names the record, and two name another.
    Both,
    /// Two pages name the record as first.
    TwoFirsts,
    /// A page names the record as first, another record as next.
    NextAtFirst,
    /// Two other records name the record as next.
    TwoNexts,
    /// The record is on a chain and names itself as next.
    Itself,
}

impl Fault {
    /// All faults.
    pub const ALL: [Fault; 8] = [
        Fault::Lone,
        Fault::LoneItself,
        Fault::LoneCycle,
        Fault::Both,
        Fault::TwoFirsts,
        Fault::NextAtFirst,
        Fault::TwoNexts,
        Fault::Itself,
    ];
}

/// Puts the fault at a record of the sheet. Gives the refusal of a sheet that
/// was readable; none, and the sheet as it was, where there is no room for it.
pub fn put(rng: &mut Prng, fault: Fault, record: usize, sheet: &mut [u8]) -> Option<Refusal> {
    let mut indices = Indices::of(sheet)?;
    if !(1..=indices.records()).contains(&record) {
        return None;
    }
    let (number, record) = indices.put(rng, fault, record)?;
    indices.write(sheet);
    Some(Refusal {
        number,
        record: record as u16,
    })
}

/// The first indices of a sheet's pages, and then the next indices of its
/// records.
struct Indices {
    pages: usize,
    /// The bytes of the labels.
    labels: usize,
    numbers: Vec<usize>,
}

impl Indices {
    /// None where the length is another than the counts say, or an index
    /// names no record.
    fn of(sheet: &[u8]) -> Option<Indices> {
        if sheet.len() < HEADER {
            return None;
        }
        let number = |at: usize| u16::from_le_bytes([sheet[at], sheet[at + 1]]);
        let records = usize::from(number(4));
        let pages = usize::from(number(0) & !NAMED);
        let labels = match number(0) & NAMED {
            0 => 0,
            _ => named_length(0, number(2).into(), 0) - HEADER,
        };
        if pages == 0 || sheet.len() != labels + length(pages, records) {
            return None;
        }
        let mut indices = Indices {
            pages,
            labels,
            numbers: vec![0; pages + records],
        };
        for at in 0..indices.numbers.len() {
            indices.numbers[at] = number(indices.place(at)).into();
        }
        let name_records = indices.numbers.iter().all(|&number| number <= records);
        name_records.then_some(indices)
    }

    fn write(&self, sheet: &mut [u8]) {
        for (at, &number) in self.numbers.iter().enumerate() {
            let place = self.place(at);
            sheet[place..place + 2].copy_from_slice(&(number as u16).to_le_bytes());
        }
    }

    /// Where an index stands in the bytes of the sheet.
    fn place(&self, at: usize) -> usize {
        let behind = match at.checked_sub(self.pages) {
            None => HEADER + PAGE_RECORD * at + 2,
            Some(record) => length(self.pages, record) + 4,
        };
        self.labels + behind
    }

    fn records(&self) -> usize {
        self.numbers.len() - self.pages
    }

    /// Where a record's next index stands.
    fn own(&self, record: usize) -> usize {
        self.pages + record - 1
    }

    /// Takes a record off its chain.
    fn unlink(&mut self, record: usize) {
        let own = self.own(record);
        let next = std::mem::take(&mut self.numbers[own]);
        for number in &mut self.numbers {
            if *number == record {
                *number = next;
            }
        }
    }

    /// Links a record behind a page or record.
    fn link(&mut self, record: usize, behind: usize) {
        let own = self.own(record);
        self.numbers[own] = std::mem::replace(&mut self.numbers[behind], record);
    }

    /// Any other record.
    fn other(&self, rng: &mut Prng, record: usize) -> Option<usize> {
        match self.records() {
            1 => None,
            records => Some((record - 1 + rng.between(1, records - 1)) % records + 1),
        }
    }

    /// Any place from `from` on where a chain ends, other than the one.
    fn end(&self, rng: &mut Prng, from: usize, but: usize) -> Option<usize> {
        let is_end = |&at: &usize| at != but && self.numbers[at] == 0;
        let ends: Vec<usize> = (from..self.numbers.len()).filter(is_end).collect();
        (!ends.is_empty()).then(|| ends[rng.below(ends.len())])
    }

    /// Where the chain ends that goes on behind a page or record.
    fn end_behind(&self, mut at: usize) -> Option<usize> {
        for _ in 0..=self.records() {
            match self.numbers[at] {
                0 => return Some(at),
                next => at = self.own(next),
            }
        }
        None
    }

    /// Puts the fault at a record; gives the refusal and its record.
    fn put(&mut self, rng: &mut Prng, fault: Fault, record: usize) -> Option<(u8, usize)> {
        let own = self.own(record);
        self.unlink(record);
        match fault {
            Fault::Lone => {}
            Fault::LoneItself => self.numbers[own] = record,
            Fault::LoneCycle => return self.lone_cycle(rng, record),
            Fault::Both => {
                let other = self.other(rng, record)?;
                let end = self.end(rng, 0, usize::MAX)?;
                self.numbers[end] = other;
            }
            Fault::TwoFirsts => return self.two_firsts(rng, record),
            Fault::NextAtFirst => {
                let page = rng.below(self.pages);
                self.link(record, page);
                return self.name_again(rng, record);
            }
            Fault::TwoNexts => {
                let behind = self.own(self.other(rng, record)?);
                self.link(record, behind);
                return self.name_again(rng, record);
            }
            Fault::Itself => {
                let end = self.end(rng, 0, own)?;
                self.numbers[end] = record;
                self.numbers[own] = record;
                return Some((16, record));
            }
        }
        Some((5, record))
    }

    /// Closes a cycle of the record, which is on no chain, and up to three
    /// others.
    fn lone_cycle(&mut self, rng: &mut Prng, record: usize) -> Option<(u8, usize)> {
        let own = self.own(record);
        self.numbers[own] = record;
        let mut lowest = record;
        for _ in 0..rng.between(1, 3) {
            let other = self.other(rng, record)?;
            if self.numbers[own] != other {
                self.unlink(other);
                self.link(other, own);
            }
            lowest = lowest.min(other);
        }
        Some((5, lowest))
    }

    /// Makes the record, which is on no chain, the first of two pages.
    fn two_firsts(&mut self, rng: &mut Prng, record: usize) -> Option<(u8, usize)> {
        if self.pages == 1 {
            return None;
        }
        let page = rng.below(self.pages);
        let second = (page + rng.between(1, self.pages - 1)) % self.pages;
        self.link(record, page);
        let end = self.end_behind(page)?;
        self.numbers[end] = std::mem::replace(&mut self.numbers[second], record);
        Some((16, record))
    }

    /// Lets a record at the end of a chain name the record as its next.
    fn name_again(&mut self, rng: &mut Prng, record: usize) -> Option<(u8, usize)> {
        let end = self.end(rng, self.pages, self.own(record))?;
        self.numbers[end] = record;
        Some((16, record))
    }
}

#[cfg(test)]
mod tests {
    use super::{put, Fault, Indices};
    use reference::prng::Prng;
    use reference::refusal::Refusal;
    use reference::{random, sheet};

    /// How many pages and how many other records name the record, and whether
    /// it names itself.
    fn names(sheet: &[u8], record: usize) -> (usize, usize, bool) {
        let indices = Indices::of(sheet).unwrap();
        let own = indices.own(record);
        let count = |from: usize, to: usize| {
            let names = |&at: &usize| at != own && indices.numbers[at] == record;
            (from..to).filter(names).count()
        };
        let (pages, all) = (indices.pages, indices.numbers.len());
        let itself = indices.numbers[own] == record;
        (count(0, pages), count(pages, all), itself)
    }

    /// Is the fault at the record what its name says?
    fn is_as_named(fault: Fault, names: (usize, usize, bool)) -> bool {
        match fault {
            Fault::Lone | Fault::Both => names == (0, 0, false),
            Fault::LoneItself => names == (0, 0, true),
            Fault::LoneCycle => names == (0, 1, false),
            Fault::TwoFirsts => names == (2, 0, false),
            Fault::NextAtFirst => names == (1, 1, false),
            Fault::TwoNexts => names == (0, 2, false),
            Fault::Itself => matches!(names, (1, 0, true) | (0, 1, true)),
        }
    }

    #[test]
    fn each_fault_is_as_named_and_refused() {
        let mut rng = Prng::new(20);
        for fault in Fault::ALL {
            let mut count = 0;
            for _ in 0..2_000 {
                let lts = random::small(&mut rng, 6, 3);
                let k = lts.transitions().len();
                let flow = random::labelled(&mut rng, &lts);
                let before = random::shuffled_labelled(&mut rng, &flow);
                let mut sheet = before.clone();
                let record = rng.between(1, k.max(1));
                match put(&mut rng, fault, record, &mut sheet) {
                    None => assert_eq!(sheet, before),
                    Some(refusal) => {
                        assert_eq!(sheet::read(&sheet), Err(refusal), "{fault:?} {sheet:?}");
                        let names = names(&sheet, record);
                        assert!(is_as_named(fault, names), "{fault:?} {names:?}");
                        count += 1;
                    }
                }
            }
            assert!(count > 500, "{fault:?}: {count}");
        }
    }

    /// A sheet that is damaged already is taken as it is.
    #[test]
    fn any_bytes_are_taken() {
        let mut rng = Prng::new(21);
        for _ in 0..20_000 {
            let lts = random::small(&mut rng, 4, 2);
            let flow = random::labelled(&mut rng, &lts);
            let mut sheet = random::shuffled_labelled(&mut rng, &flow);
            for _ in 0..rng.between(1, 3) {
                let at = rng.below(sheet.len());
                sheet[at] = rng.below(5) as u8;
                let fault = Fault::ALL[rng.below(Fault::ALL.len())];
                let record = rng.below(5);
                put(&mut rng, fault, record, &mut sheet);
            }
        }
    }

    /// The last of 1,024 records.
    #[test]
    fn the_last_record() {
        let mut rng = Prng::new(22);
        let lts = random::lts_exact(&mut rng, 24, 2, 1_024, 0);
        for fault in Fault::ALL {
            let mut sheet = random::shuffled_sheet(&mut rng, &lts);
            let refusal = put(&mut rng, fault, 1_024, &mut sheet);
            assert_eq!(sheet::read(&sheet), Err(refusal.unwrap()), "{fault:?}");
            if fault != Fault::LoneCycle {
                assert!(matches!(refusal, Some(Refusal { record: 1_024, .. })));
            }
        }
    }
}
