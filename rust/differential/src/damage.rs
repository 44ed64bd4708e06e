//! Sheets and lengths that break a rule.

use crate::chains::{self, Fault};
use reference::label_faults::LABEL_FAULTS;
use reference::labels::{Kind, LabelledLts};
use reference::lts::Lts;
use reference::prng::Prng;
use reference::random;
use reference::sheet::{
    length, named_length, read, write_labelled, HEADER, MOST_MOVES, MOVE_RECORD, NAMED, PAGE_RECORD,
};

/// A sheet of the flow: mostly readable, sometimes damaged.
pub fn sheet(rng: &mut Prng, flow: &LabelledLts, damaged: usize) -> Vec<u8> {
    let mut sheet = if rng.chance(30) {
        write_labelled(flow)
    } else {
        random::shuffled_labelled(rng, flow)
    };
    if rng.chance(damaged) {
        if rng.chance(4) {
            return last_record(rng);
        }
        damage(rng, flow, &mut sheet);
        if rng.chance(20) {
            damage(rng, flow, &mut sheet);
        }
    }
    sheet
}

/// Breaks some rule, most of the time.
fn damage(rng: &mut Prng, flow: &LabelledLts, sheet: &mut Vec<u8>) {
    let lts = flow.lts();
    let (n, k) = (lts.states(), lts.transitions().len());
    let pages = match flow.kind() {
        Kind::Plain => HEADER,
        Kind::Named => named_length(0, lts.actions(), 0),
    };
    let move_record = |at: usize| pages + PAGE_RECORD * n + MOVE_RECORD * at;
    let page = pages + PAGE_RECORD * rng.below(n);
    let record = move_record(rng.below(k.max(1)));
    match rng.below(18) {
        0 => {
            let wrong = wrong_length(rng, sheet.len(), 1);
            sheet.resize_with(wrong, || rng.bits() as u8);
        }
        1 => change_count(rng, sheet),
        2 if !sheet.is_empty() => {
            let at = rng.below(sheet.len());
            sheet[at] = rng.bits() as u8;
        }
        3 => change_number(rng, sheet, page, 2),
        4 => change_number(rng, sheet, page + 2, k + 1),
        5 => change_number(rng, sheet, record, lts.actions() + 1),
        6 => change_number(rng, sheet, record + 2, n),
        7 => change_number(rng, sheet, record + 4, k + 1),
        8..=11 if k > 0 => {
            let record = if rng.chance(20) { k } else { rng.between(1, k) };
            put_fault(rng, record, sheet);
        }
        12..=15 if flow.kind() == Kind::Named => damage_label(rng, sheet),
        _ if k > 1 => {
            // The action and target of one record, in another.
            let from = move_record(rng.below(k));
            if from.max(record) + 4 <= sheet.len() {
                sheet.copy_within(from..from + 4, record);
            }
        }
        _ => sheet.push(0),
    }
}

/// Puts some fault into a label; any byte where the sheet is unreadable
/// already.
fn damage_label(rng: &mut Prng, sheet: &mut [u8]) {
    let fault = LABEL_FAULTS[rng.below(LABEL_FAULTS.len())];
    if read(sheet).is_ok() {
        fault.damage(rng, sheet);
    } else if let Some(byte) = sheet.get_mut(HEADER) {
        *byte = rng.bits() as u8;
    }
}

/// Puts some fault of chains at a record, where there is room for it.
fn put_fault(rng: &mut Prng, record: usize, sheet: &mut [u8]) {
    let fault = Fault::ALL[rng.below(Fault::ALL.len())];
    chains::put(rng, fault, record, sheet);
}

/// A sheet of 1,024 records with some fault of chains at the last.
fn last_record(rng: &mut Prng) -> Vec<u8> {
    // A move from every page to every page.
    const PAGES: usize = 32;
    const { assert!(PAGES * PAGES == MOST_MOVES) };
    let moves: Vec<_> = (0..MOST_MOVES)
        .map(|at| (at / PAGES, 1, at % PAGES))
        .collect();
    let flow = random::labelled(rng, &Lts::of(PAGES, 1, &moves));
    let mut sheet = random::shuffled_labelled(rng, &flow);
    put_fault(rng, MOST_MOVES, &mut sheet);
    sheet
}

/// Puts a 16-bit number into the sheet, one around the edge or any.
fn change_number(rng: &mut Prng, sheet: &mut [u8], at: usize, edge: usize) {
    let number = match rng.below(4) {
        0 => edge,
        1 => rng.below(edge + 1),
        2 => edge.saturating_sub(1),
        _ => rng.bits() as usize,
    };
    if let Some(place) = sheet.get_mut(at..at + 2) {
        place.copy_from_slice(&(number as u16).to_le_bytes());
    }
}

/// Changes a count of the header or the kind, and often the length with it.
fn change_count(rng: &mut Prng, sheet: &mut Vec<u8>) {
    const COUNTS: [&[u16]; 3] = [
        &[
            0, 1, 256, 257, 258, 512, 32_768, 32_769, 33_024, 33_025, 65_535,
        ],
        &[0, 64, 65, 256],
        &[0, 1, 1024, 1025, 1026, u16::MAX],
    ];
    let which = rng.below(3);
    let count = COUNTS[which][rng.below(COUNTS[which].len())];
    if let Some(place) = sheet.get_mut(2 * which..2 * which + 2) {
        place.copy_from_slice(&count.to_le_bytes());
        if sheet.len() >= HEADER && rng.chance(60) {
            let fitting = fitting_length(sheet);
            sheet.resize(fitting.min(10_000), 0);
        }
    }
}

/// The length that a header says.
fn fitting_length(sheet: &[u8]) -> usize {
    let number = |at: usize| u16::from_le_bytes([sheet[at], sheet[at + 1]]);
    let [m, k] = [2, 4].map(|at| usize::from(number(at)));
    let n = usize::from(number(0) & !NAMED);
    if number(0) & NAMED == 0 {
        length(n, k)
    } else {
        named_length(n, m, k)
    }
}

/// A length near the right one, or far from it; rarely the right one.
pub fn wrong_length(rng: &mut Prng, right: usize, unit: usize) -> usize {
    match rng.below(12) {
        0 => 0,
        1 => 1,
        2 => right.saturating_sub(1),
        3 => right + 1,
        4 => right.saturating_sub(unit),
        5 => right + unit,
        6 => right + unit - 1,
        7 => 2 * right,
        8 => right / 2,
        9 => rng.below(right + 1),
        10 => HEADER - 1,
        _ => rng.below(9000),
    }
}

#[cfg(test)]
mod tests {
    use super::sheet;
    use crate::flows::{self, Sizes};
    use reference::prng::Prng;
    use reference::random;
    use reference::sheet::read;

    /// Every refusal of a sheet comes out; those about a record with many
    /// records, the first and the last of 1,024 among them.
    #[test]
    fn every_refusal_and_many_records() {
        let sizes = Sizes {
            large: 0,
            edges: 100,
        };
        let mut refused = [0; 18];
        let mut records = [[0; 1_025]; 18];
        for seed in 0..20_000 {
            let rng = &mut Prng::new(seed);
            let lts = flows::flow(rng, sizes);
            let flow = random::labelled(rng, &lts);
            if let Err(refusal) = read(&sheet(rng, &flow, 100)) {
                let number = usize::from(refusal.number);
                refused[number] += 1;
                records[number][usize::from(refusal.record)] += 1;
            }
        }
        for number in [1, 2, 17, 3, 4, 5, 16, 6] {
            assert!(refused[number] > 100, "{number}: {refused:?}");
            let about = [5, 16].contains(&number);
            assert_eq!(records[number][0] == 0, about);
        }
        for number in [5, 16] {
            let different = records[number].iter().filter(|&&count| count > 0).count();
            assert!(different > 20, "{number}: {different}");
            assert!(records[number][1] > 100 && records[number][1_024] > 100);
        }
    }
}
