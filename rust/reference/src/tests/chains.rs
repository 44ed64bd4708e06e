//! Tests of refusals 5 and 16: which record is off its chain.

use super::refused;
use crate::chain_faults::{last_of_most, linked, raw, small, two_bytes, Fault};
use crate::compare::{compare, compare_ready};
use crate::game::hand_play;
use crate::grid::{end_start, ready_start, test_simulation};
use crate::join::join;
use crate::lts::Lts;
use crate::plans::{check_plan, write_plan};
use crate::prng::Prng;
use crate::refusal::Refusal;
use crate::report::flowcheck;
use crate::sheet::{self, normalise, read};
use crate::turns::coarsest;

/// A start of three pages.
const START: [u64; 3] = [7, 7, 7];

#[test]
fn each_fault_has_its_number_and_its_record() {
    for fault in [small(), two_bytes(), last_of_most()].concat() {
        assert_eq!(read(&fault.sheet), Err(fault.refusal), "{:?}", fault.sheet);
    }
}

#[test]
fn lowest_of_most_records() {
    let on = |first: u16, nexts: Vec<u16>| {
        let mut firsts = [0; 16];
        firsts[15] = first;
        read(&linked(&firsts, &nexts))
    };
    let up: Vec<u16> = (2..=1024).chain([0]).collect();
    let down: Vec<u16> = (0..1024).collect();
    let ring: Vec<u16> = (2..=1024).chain([1]).collect();
    assert!(on(1, up.clone()).is_ok());
    assert!(on(1024, down.clone()).is_ok());
    // A page that comes in late: the records before it are on no chain.
    assert_eq!(on(2, up.clone()), Err(Refusal::unreached(1)));
    assert_eq!(on(1023, down), Err(Refusal::unreached(1024)));
    assert_eq!(on(0, up), Err(Refusal::unreached(1)));
    // A ring of all records: the one that the page names is named twice.
    assert_eq!(on(0, ring.clone()), Err(Refusal::unreached(1)));
    for first in [1, 2, 700, 1024] {
        assert_eq!(on(first, ring.clone()), Err(Refusal::reached_twice(first)));
    }
}

#[test]
fn two_firsts_at_the_last_of_most_records() {
    // 1,024 down to 1: the chains go through every record twice, and two
    // indices name 1,024 alone.
    let mut firsts = [0; 16];
    (firsts[3], firsts[9]) = (1024, 1024);
    let down: Vec<u16> = (0..1024).collect();
    assert_eq!(
        read(&linked(&firsts, &down)),
        Err(Refusal::reached_twice(1024))
    );
}

#[test]
fn every_call_passes_both_numbers_on() {
    for Fault { sheet, refusal } in [small(), two_bytes(), last_of_most()].concat() {
        let mut out = vec![9; sheet.len()];
        assert_eq!(normalise(&sheet, &mut out), Err(refusal));
        assert_eq!(normalise(&sheet, &mut []), Err(refusal));
        let (mut words, mut names, mut plan) = ([9; 3], [9; 3], [9; 12]);
        assert_eq!(end_start(&sheet, &mut words), Err(refusal));
        assert_eq!(end_start(&sheet, &mut []), Err(refusal));
        assert_eq!(ready_start(&sheet, &mut words), Err(refusal));
        assert_eq!(ready_start(&sheet, &mut []), Err(refusal));
        for start in [&START[..], &[]] {
            let coarsest = coarsest(&sheet, start, &[], &mut words, &mut names);
            assert_eq!(coarsest, Err(refusal));
            assert_eq!(test_simulation(&sheet, start, &START), Err(refusal));
            assert_eq!(check_plan(&sheet, start, &[0, 0, 0, 0]), Err(refusal));
            assert_eq!(write_plan(&sheet, start, 2, 0, &mut plan), Err(refusal));
            assert_eq!(hand_play(&sheet, start, 2, 300, 7), Err(refusal));
        }
        assert!(out.iter().all(|&byte| byte == 9));
        assert_eq!((words, names, plan), ([9; 3], [9; 3], [9; 12]));
        // The program prints the refusal number alone.
        assert_eq!(flowcheck(&sheet), format!("refused {}\n", refusal.number));
    }
}

/// Compare in either form and join give this refusal, and join leaves its
/// buffer.
fn both_refuse(first: &[u8], second: &[u8], refusal: Refusal) {
    assert_eq!(compare(first, second), Err(refusal));
    assert_eq!(compare_ready(first, second), Err(refusal));
    let mut out = [9; 70];
    assert_eq!(join(first, second, &mut out), Err(refusal));
    assert_eq!(out, [9; 70]);
}

#[test]
fn the_first_sheet_and_then_the_second() {
    let good = sheet::write(&Lts::of(3, 1, &[(0, 1, 1), (2, 1, 2)]));
    let large = sheet::write(&Lts::of(256, 0, &[]));
    let repeat = raw(1, &[1, 0, 0], &[(1, 1, 2), (1, 1, 0)]);
    let faults = small();
    for fault in &faults {
        both_refuse(&fault.sheet, &good, fault.refusal);
        both_refuse(&good, &fault.sheet, fault.refusal);
        // Before 7, which the pages would be too many for.
        both_refuse(&fault.sheet, &large, fault.refusal);
        both_refuse(&large, &fault.sheet, fault.refusal);
        // Any refusal of the first comes before those of the second.
        both_refuse(&repeat, &fault.sheet, Refusal::TWICE);
        both_refuse(&fault.sheet, &repeat, fault.refusal);
        for second in &faults {
            both_refuse(&fault.sheet, &second.sheet, fault.refusal);
        }
    }
}

#[test]
fn refusals_before_and_after() {
    let with = |sheet: &[u8], at: usize, byte: u8| {
        let mut sheet = sheet.to_vec();
        sheet[at] = byte;
        read(&sheet)
    };
    for Fault { sheet, refusal } in small() {
        // The header, a page record, a move record and the length are first.
        assert_eq!(with(&sheet, 2, 65), refused(2));
        assert_eq!(read(&[&sheet[..], &[0]].concat()), refused(1));
        assert_eq!(with(&sheet, 15, 1), refused(3));
        assert_eq!(with(&sheet, 19, 1), refused(4));
        // An end mark makes no difference.
        assert_eq!(with(&sheet, 10, 1), Err(refusal));
    }
}

/// The refusal of a sheet with these links, by the words of document 02 and
/// in another way than the reader's: what the chains hold grows from the
/// first indices until nothing more is added, and the indices that name a
/// record are counted for each record anew.
fn fault_of(firsts: &[u16], nexts: &[u16]) -> Option<Refusal> {
    let k = nexts.len() as u16;
    let mut held: Vec<u16> = Vec::new();
    loop {
        let more = (1..=k).find(|i| {
            let from_chain = held.iter().any(|&h| nexts[usize::from(h) - 1] == *i);
            !held.contains(i) && (firsts.contains(i) || from_chain)
        });
        match more {
            Some(i) => held.push(i),
            None => break,
        }
    }
    let names = |i: u16| firsts.iter().chain(nexts).filter(|&&j| j == i).count();
    let unreached = (1..=k).find(|i| !held.contains(i));
    let reached_twice = (1..=k).find(|&i| names(i) >= 2);
    unreached
        .map(Refusal::unreached)
        .or(reached_twice.map(Refusal::reached_twice))
}

/// Does each record lie on exactly one chain, once? Each chain is followed
/// for as many steps as there are records, and one more.
fn lie_on_one_chain_once(firsts: &[u16], nexts: &[u16]) -> bool {
    let mut visits = vec![0; nexts.len()];
    for &first in firsts {
        let mut index = first;
        for _ in 0..=nexts.len() {
            if index != 0 {
                visits[usize::from(index) - 1] += 1;
                index = nexts[usize::from(index) - 1];
            }
        }
    }
    visits.iter().all(|&times| times == 1)
}

/// Reads the sheet with these links, and compares; gives the refusal.
fn agree(firsts: &[u16], nexts: &[u16]) -> Option<Refusal> {
    let fault = fault_of(firsts, nexts);
    assert_eq!(read(&linked(firsts, nexts)).err(), fault);
    // Document 01's rule holds exactly if there is no such fault.
    assert_eq!(fault.is_none(), lie_on_one_chain_once(firsts, nexts));
    fault
}

#[test]
fn all_links_of_few_records() {
    for (n, k) in [(1, 4), (2, 3), (3, 3), (2, 4)] {
        let mut told = vec![[0; 17]; k + 1];
        let mut readable = 0;
        for code in 0..(k + 1).pow((n + k) as u32) {
            let digits: Vec<u16> = (0..n + k)
                .map(|place| (code / (k + 1).pow(place as u32) % (k + 1)) as u16)
                .collect();
            match agree(&digits[..n], &digits[n..]) {
                Some(fault) => told[usize::from(fault.record)][usize::from(fault.number)] += 1,
                None => readable += 1,
            }
        }
        // Every record is told with either number, and no sheet with record 0.
        assert!(readable > 0 && told[0] == [0; 17]);
        assert!(told[1..].iter().all(|times| times[5] > 0 && times[16] > 0));
    }
}

#[test]
fn random_links() {
    let mut rng = Prng::new(79);
    let (mut unreached, mut reached_twice, mut readable) = (0, 0, 0);
    for _ in 0..20_000 {
        let (n, k) = (rng.between(1, 5), rng.between(1, 24));
        // Chains that hold each record once, and then a few other links.
        let mut order: Vec<u16> = (1..=k as u16).collect();
        rng.shuffle(&mut order);
        let mut links = vec![0; n + k];
        let mut ends: Vec<usize> = (0..n).collect();
        for &index in &order {
            let end = rng.below(n);
            links[ends[end]] = index;
            ends[end] = n + usize::from(index) - 1;
        }
        for _ in 0..rng.below(4) {
            links[rng.below(n + k)] = rng.below(k + 1) as u16;
        }
        match agree(&links[..n], &links[n..]) {
            Some(Refusal { number: 5, .. }) => unreached += 1,
            Some(_) => reached_twice += 1,
            None => readable += 1,
        }
    }
    assert!(unreached > 1_000 && reached_twice > 1_000 && readable > 1_000);
}
