//! Plain sheets to named ones and back, through the safe calls.

mod sheets;

use flow::{Refusal, LONGEST_SHEET};
use reference::lts::Lts;
use reference::prng::Prng;
use reference::{random, sheet};
use sheets::{named, F3};

/// "1", "2" and so on.
fn decimal(count: usize) -> Vec<String> {
    (1..=count).map(|number| number.to_string()).collect()
}

/// The named sheet with the records of a plain one and decimal names.
fn twin(plain: &[u8]) -> Vec<u8> {
    let labels = decimal(plain[2].into());
    let labels: Vec<&str> = labels.iter().map(String::as_str).collect();
    named(plain, &labels)
}

/// There and back, with a copy on either side.
fn goes_round(plain: &[u8]) {
    let named = twin(plain);
    assert_eq!(flow::to_named(plain).as_ref(), Ok(&named));
    assert_eq!(flow::to_named(&named).as_ref(), Ok(&named));
    assert_eq!(flow::to_plain(&named).as_deref(), Ok(plain));
    assert_eq!(flow::to_plain(plain).as_deref(), Ok(plain));
}

/// The sheet of one page that loops with actions 1, 2, 3 and 4, by records 1 to
/// 4, and whose chain goes through them in this order.
fn chained(order: [u8; 4]) -> Vec<u8> {
    let mut sheet = vec![1, 0, 4, 0, 4, 0, 0, 0, order[0], 0];
    for record in 1..=4 {
        let at = order.iter().position(|&number| number == record).unwrap();
        let next = order.get(at + 1).copied().unwrap_or(0);
        sheet.extend([record, 0, 0, 0, next, 0]);
    }
    sheet
}

#[test]
fn f3_there_and_back() {
    goes_round(&F3);
    let named = [
        3, 128, 1, 0, 2, 0, // 32,768 and three pages, one action, two moves
        b'1', 0, 0, 0, 0, 0, 0, 0, 0, 0, 0, 0, 0, 0, 0, 0, // the name
        0, 0, 1, 0, 0, 0, 0, 0, 0, 0, 2, 0, // the pages
        1, 0, 1, 0, 0, 0, 1, 0, 2, 0, 0, 0, // the moves
    ];
    assert_eq!(flow::to_named(&F3).as_deref(), Ok(&named[..]));
    assert_eq!(flow::labels(&named).unwrap(), ["1"]);
}

/// Every order of a chain of four; only one of them is the normal form.
#[test]
fn every_chain_order_is_kept() {
    let mut count = 0;
    for number in 0..256u16 {
        let order = [0, 2, 4, 6].map(|shift| 1 + (number >> shift & 3) as u8);
        if (1..=4).all(|record| order.contains(&record)) {
            goes_round(&chained(order));
            count += 1;
        }
    }
    assert_eq!(count, 24);
}

#[test]
fn random_sheets_there_and_back() -> Result<(), Refusal> {
    let mut rng = Prng::new(40);
    let mut moved = 0;
    for _ in 0..2_000 {
        let lts = random::small(&mut rng, 12, 64);
        let plain = random::shuffled_sheet(&mut rng, &lts);
        goes_round(&plain);
        let named = flow::to_named(&plain)?;
        assert_eq!(flow::labels(&named)?, decimal(lts.actions()));
        assert_eq!(flow::pages(&named), flow::pages(&plain));
        moved += usize::from(plain != sheet::write(&lts));
    }
    assert!(moved > 1_000, "{moved} not in normal form");
    Ok(())
}

/// No actions, 64 actions, the longest sheets.
#[test]
fn sheets_at_their_limits() {
    goes_round(&sheet::write(&Lts::of(1, 0, &[])));
    goes_round(&sheet::write(&Lts::of(256, 0, &[])));
    goes_round(&sheet::write(&Lts::of(1, 64, &[])));
    let mut rng = Prng::new(41);
    let lts = random::lts_exact(&mut rng, 256, 64, 1_024, 10);
    let plain = random::shuffled_sheet(&mut rng, &lts);
    goes_round(&plain);
    assert_eq!(twin(&plain).len(), LONGEST_SHEET);
}

/// A sheet that is named already is copied, whatever its names and its order.
#[test]
fn other_names_are_copied_and_do_not_go_back() {
    let labels = ["open", "close", "1", "sell"];
    let sheet = named(&chained([3, 1, 4, 2]), &labels);
    assert_eq!(flow::to_named(&sheet).as_ref(), Ok(&sheet));
    assert_eq!(flow::to_plain(&sheet), Err(Refusal::NotDecimal));
    assert_eq!(
        Refusal::NotDecimal.to_string(),
        "refused 19: names that a plain sheet can't carry"
    );
}

/// One name of 64 is another one: the first, a middle one, the last.
#[test]
fn one_name_is_not_decimal() {
    let plain = sheet::write(&Lts::of(2, 64, &[(0, 64, 1)]));
    for at in [0, 8, 9, 31, 62, 63] {
        let own = decimal(64)[at].clone();
        let others = ["0", "65", "100", "x", "~", "9999999999999999"].map(String::from);
        let near = [
            format!("0{own}"),
            format!("+{own}"),
            format!("{own}."),
            format!("{own}!"),
            format!("{own:0>16}"),
            format!("{}{own}", "!".repeat(16 - own.len())),
        ];
        for other in [others, near].concat() {
            let mut labels = decimal(64);
            labels[at] = other.clone();
            let labels: Vec<&str> = labels.iter().map(String::as_str).collect();
            let sheet = named(&plain, &labels);
            assert_eq!(flow::to_plain(&sheet), Err(Refusal::NotDecimal), "{other}");
            assert_eq!(flow::to_named(&sheet), Ok(sheet));
        }
    }
}

/// Decimal names in another order are another flow's.
#[test]
fn names_that_changed_places() {
    let plain = sheet::write(&Lts::of(1, 12, &[(0, 12, 0)]));
    for (one, other) in [(0, 1), (0, 11), (4, 7), (8, 9), (10, 11)] {
        let mut labels = decimal(12);
        labels.swap(one, other);
        let labels: Vec<&str> = labels.iter().map(String::as_str).collect();
        let refused = Err(Refusal::NotDecimal);
        assert_eq!(flow::to_plain(&named(&plain, &labels)), refused);
    }
}

/// F3 with the byte at a place changed.
fn f3_with(at: usize, byte: u8) -> Vec<u8> {
    let mut sheet = F3.to_vec();
    sheet[at] = byte;
    sheet
}

/// A refused sheet is refused by both calls alike, as either kind, with its
/// record.
#[test]
fn refusals_with_their_records() {
    let twice = [
        1, 0, 1, 0, 2, 0, 0, 0, 1, 0, 1, 0, 0, 0, 2, 0, 1, 0, 0, 0, 0, 0,
    ];
    let rows = [
        (F3[..29].to_vec(), Refusal::Length),
        ([&F3[..], &[0]].concat(), Refusal::Length),
        (f3_with(0, 0), Refusal::Counts),
        (f3_with(6, 2), Refusal::PageRecord),
        (f3_with(18, 2), Refusal::MoveRecord),
        (f3_with(8, 0), Refusal::Unreached { record: 1 }),
        (f3_with(16, 0), Refusal::Unreached { record: 2 }),
        (f3_with(22, 1), Refusal::ReachedTwice { record: 1 }),
        (f3_with(12, 2), Refusal::ReachedTwice { record: 2 }),
        (twice.to_vec(), Refusal::Repeated),
    ];
    for (plain, refusal) in rows {
        for sheet in [named(&plain, &["1"]), named(&plain, &["open"]), plain] {
            assert_eq!(flow::to_named(&sheet), Err(refusal), "{sheet:?}");
            assert_eq!(flow::to_plain(&sheet), Err(refusal), "{sheet:?}");
        }
    }
    for bad in ["", " ", "a b", "1\x7f"] {
        let sheet = named(&F3, &[bad]);
        assert_eq!(flow::to_named(&sheet), Err(Refusal::Label));
        assert_eq!(flow::to_plain(&sheet), Err(Refusal::Label));
    }
}

/// Bytes that are no sheet have the refusal that normalise gives, and none
/// breaks the sizing of the buffer.
#[test]
fn bytes_that_are_no_sheet() {
    let ends = |sheet: &[u8]| {
        let refusal = flow::normalise(sheet, &mut vec![0; sheet.len()]).unwrap_err();
        assert_eq!(flow::to_named(sheet), Err(refusal), "{sheet:?}");
        assert_eq!(flow::to_plain(sheet), Err(refusal), "{sheet:?}");
    };
    let named = twin(&F3);
    for length in 0..named.len() {
        ends(&named[..length]);
        ends(&vec![0xff; length]);
        ends(&vec![0x80; length]);
    }
    for length in 0..F3.len() {
        ends(&F3[..length]);
    }
    // More actions than there can be, and none of their names.
    for first in [0, 128] {
        for actions in [[65, 0], [0, 1], [255, 255]] {
            ends(&[1, first, actions[0], actions[1], 0, 0, 0, 0, 0, 0]);
        }
    }
    ends(&[1, 128, 64, 0, 0, 0, 0, 0, 0, 0]);
}

/// A lent buffer has the new length exactly; a refusal leaves it.
#[test]
fn lent_buffers() {
    let (plain, named) = (F3.to_vec(), twin(&F3));
    let other = self::named(&F3, &["open"]);
    let all = [0, 1, 29, 30, 31, 45, 46, 47, 62, 92];
    for length in all {
        let into = |call: fn(&[u8], &mut [u8]) -> Result<(), Refusal>, sheet: &[u8]| {
            let mut out = vec![0xa5; length];
            let answer = call(sheet, &mut out);
            match answer {
                Ok(()) => Ok(out),
                Err(refusal) => {
                    assert!(out.iter().all(|&byte| byte == 0xa5));
                    Err(refusal)
                }
            }
        };
        let of_length = |sheet: &Vec<u8>| match sheet.len() == length {
            true => Ok(sheet.clone()),
            false => Err(Refusal::Buffer),
        };
        for sheet in [&plain, &named] {
            assert_eq!(into(flow::to_named_into, sheet), of_length(&named));
            assert_eq!(into(flow::to_plain_into, sheet), of_length(&plain));
        }
        // 19 comes before the buffer.
        assert_eq!(into(flow::to_named_into, &other), of_length(&other));
        let refused = Err(Refusal::NotDecimal);
        assert_eq!(into(flow::to_plain_into, &other), refused);
    }
}
