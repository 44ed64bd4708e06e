//! Tests of the sheet reader.

use super::document::F3;
use super::refused;
use crate::chain_faults::raw;
use crate::lts::Lts;
use crate::prng::Prng;
use crate::random;
use crate::sheet::{length, normalise, read, write};

#[test]
fn length_before_and_after_the_ranges() {
    for cut in 0..6 {
        assert_eq!(read(&vec![255; cut]), refused(1));
    }
    assert_eq!(read(&[255; 6]), refused(2));
    assert_eq!(read(&[1, 0, 0, 0, 0, 0]), refused(1));
    assert_eq!(read(&[0, 0, 0, 0, 0, 0]), refused(2));
    assert_eq!(read(&[1, 0, 65, 0, 0, 0, 0, 0, 0, 0]), refused(2));
    assert_eq!(
        read(&[1, 0, 64, 0, 0, 0, 0, 0, 0, 0]),
        Ok(Lts::of(1, 64, &[]))
    );
    assert_eq!(read(&raw(0, &[0; 257], &[])), refused(2));
    assert!(read(&raw(0, &[0; 256], &[])).is_ok());
    assert_eq!(read(&F3[..29]), refused(1));
}

#[test]
fn full_size() {
    let mut rng = Prng::new(5);
    let lts = random::lts_exact(&mut rng, 256, 64, 1024, 20);
    let sheet = random::shuffled_sheet(&mut rng, &lts);
    assert_eq!(sheet.len(), 7174);
    assert_eq!(read(&sheet), Ok(lts));
    let mut more = sheet.clone();
    more[4..6].copy_from_slice(&1025u16.to_le_bytes());
    assert_eq!(read(&more), refused(2));
    assert_eq!(length(256, 1024), 7174);
}

#[test]
fn chains() {
    // Chains in any order.
    assert_eq!(
        read(&raw(1, &[2, 0], &[(1, 0, 0), (1, 1, 1)])),
        Ok(Lts::of(2, 1, &[(0, 1, 0), (0, 1, 1)]))
    );
    // The same move twice in one chain, and in two.
    assert_eq!(read(&raw(1, &[1, 0], &[(1, 1, 2), (1, 1, 0)])), refused(6));
    assert!(read(&raw(1, &[1, 2], &[(1, 1, 0), (1, 1, 0)])).is_ok());
}

#[test]
fn records() {
    let good = raw(2, &[1, 0], &[(2, 1, 2), (1, 0, 0)]);
    assert!(read(&good).is_ok());
    let with = |at: usize, byte: u8| {
        let mut bytes = good.clone();
        bytes[at] = byte;
        read(&bytes).map(|_| ())
    };
    assert_eq!(with(6, 1), Ok(()));
    assert_eq!(with(6, 2), refused(3));
    assert_eq!(with(11, 1), refused(3));
    assert_eq!(with(8, 3), refused(3));
    assert_eq!(with(9, 1), refused(3));
    assert_eq!(with(14, 0), refused(4));
    assert_eq!(with(14, 3), refused(4));
    assert_eq!(with(15, 1), refused(4));
    assert_eq!(with(16, 2), refused(4));
    assert_eq!(with(17, 1), refused(4));
    assert_eq!(with(18, 3), refused(4));
    assert_eq!(with(19, 1), refused(4));
}

#[test]
fn normal_form_is_the_same_flow_and_stays() {
    let mut rng = Prng::new(77);
    for _ in 0..500 {
        let lts = random::small(&mut rng, 12, 5);
        let sheet = random::shuffled_sheet(&mut rng, &lts);
        assert_eq!(read(&sheet), Ok(lts.clone()));
        let mut once = vec![170; sheet.len()];
        assert_eq!(normalise(&sheet, &mut once), Ok(()));
        assert_eq!(once, write(&lts));
        assert_eq!(read(&once), Ok(lts));
        let mut twice = vec![170; once.len()];
        assert_eq!(normalise(&once, &mut twice), Ok(()));
        assert_eq!(once, twice);
        let mut longer = vec![170; sheet.len() + 1];
        assert_eq!(normalise(&sheet, &mut longer), refused(15));
        assert_eq!(longer, vec![170; sheet.len() + 1]);
    }
}

#[test]
fn any_bytes_are_read_or_refused() {
    let mut rng = Prng::new(78);
    for _ in 0..20_000 {
        let lts = random::small(&mut rng, 4, 3);
        let mut sheet = random::shuffled_sheet(&mut rng, &lts);
        for _ in 0..rng.between(1, 3) {
            let at = rng.below(sheet.len());
            sheet[at] = if rng.chance(70) {
                rng.below(6) as u8
            } else {
                rng.bits() as u8
            };
        }
        match read(&sheet) {
            // What is read has as many moves as records: none was lost.
            Ok(lts) => {
                let k = usize::from(sheet[4]) + 256 * usize::from(sheet[5]);
                assert_eq!(lts.transitions().len(), k);
                assert_eq!(write(&lts).len(), sheet.len());
            }
            Err(refusal) => match refusal.number {
                5 | 16 => assert!((1..=sheet[4].into()).contains(&refusal.record)),
                1..=6 => assert_eq!(refusal.record, 0),
                number => panic!("refusal {number}"),
            },
        }
    }
}
