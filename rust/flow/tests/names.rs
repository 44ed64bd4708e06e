//! Document 02's named sheets, through the safe calls.

mod sheets;

use flow::{Accepted, Grid, Pair, Refusal, LONGEST_SHEET};
use reference::lts::Lts;
use reference::prng::Prng;
use reference::{random, sheet};
use sheets::{named, F3};

/// The named sheet of a flow.
fn sheet_of(lts: &Lts, labels: &[&str]) -> Vec<u8> {
    named(&sheet::write(lts), labels)
}

/// Names that begin alike, from a number on.
fn many(from: usize, count: usize) -> Vec<String> {
    (from..from + count).map(|at| format!("a{at}")).collect()
}

/// A page without moves whose sheet has these names.
fn only_names(labels: &[String]) -> Vec<u8> {
    let labels: Vec<&str> = labels.iter().map(String::as_str).collect();
    sheet_of(&Lts::of(1, labels.len(), &[]), &labels)
}

fn yes(first: &[u8], second: &[u8]) -> Result<bool, Refusal> {
    flow::compare(first, second).map(|compared| compared.yes)
}

/// The joined sheet.
fn joined(first: &[u8], second: &[u8]) -> Result<Vec<u8>, Refusal> {
    let mut out = vec![0; LONGEST_SHEET];
    let length = flow::join(first, second, &mut out)?;
    out.truncate(length);
    Ok(out)
}

/// F3's answers in every call on one sheet.
#[test]
fn f3_named() -> Result<(), Refusal> {
    let sheet = named(&F3, &["open_flock"]);
    assert_eq!(sheet[..8], [3, 128, 1, 0, 2, 0, b'o', b'p']);
    assert_eq!(flow::labels(&sheet)?, ["open_flock"]);
    assert_eq!(flow::pages(&sheet), Ok(3));
    let mut start = Grid::new(3);
    flow::end_start(&sheet, start.bytes_mut())?;
    let (mut grid, mut names) = (Grid::new(3), [9; 6]);
    let counts = flow::coarsest(&sheet, start.bytes(), &[], grid.bytes_mut(), &mut names)?;
    assert_eq!((counts.turns, counts.kept, counts.blocks), (2, 6, 3));
    assert!(flow::test_simulation(&sheet, start.bytes(), grid.bytes())?);
    let mut plan = [9; 24];
    assert_eq!(
        flow::write_plan(&sheet, start.bytes(), 2, 0, &mut plan),
        Ok(3)
    );
    let numbers: [u16; 12] = [0, 1, 1, 1, 2, 1, 1, 2, 2, 0, 1, 2];
    assert_eq!(plan[..], numbers.map(u16::to_le_bytes).concat());
    let accepted = Accepted {
        pair: Pair { p: 2, q: 0 },
        depth: 2,
    };
    assert_eq!(flow::check_plan(&sheet, start.bytes(), &plan), Ok(accepted));
    let wins = |rounds| flow::hand_play(&sheet, start.bytes(), 2, 0, rounds);
    assert_eq!((wins(1), wins(2)), (Ok(false), Ok(true)));
    Ok(())
}

/// "open" is action 1 in one sheet and action 2 in the other.
#[test]
fn actions_are_matched_by_name() {
    let lts = |action| Lts::of(2, 2, &[(0, action, 1)]);
    let first = sheet_of(&lts(1), &["open", "sell"]);
    assert_eq!(yes(&first, &sheet_of(&lts(2), &["sell", "open"])), Ok(true));
    assert_eq!(
        yes(&first, &sheet_of(&lts(1), &["sell", "open"])),
        Ok(false)
    );
    // No name is the beginning of another for compare.
    for other in ["ope", "open!", "OPEN", "open-open-open-o"] {
        assert_eq!(yes(&first, &sheet_of(&lts(1), &[other, "sell"])), Ok(false));
    }
}

/// A plain sheet's actions are named by their decimal numbers.
#[test]
fn plain_against_named() {
    let twin = named(&F3, &["1"]);
    let answer = flow::compare(&F3, &F3);
    assert_eq!(answer.map(|compared| compared.yes), Ok(true));
    for (first, second) in [(&F3[..], &twin[..]), (&twin, &F3), (&twin, &twin)] {
        assert_eq!(flow::compare(first, second), answer);
    }
    assert_eq!(yes(&F3, &named(&F3, &["01"])), Ok(false));
    // The named sheet's action 2 is the plain one's action 1.
    let second = sheet_of(&Lts::of(1, 2, &[(0, 2, 0)]), &["2", "1"]);
    assert_eq!(yes(&F3, &second), Ok(true));
    let labels = |sheet: &[u8]| flow::labels(sheet).unwrap();
    assert_eq!(labels(&joined(&F3, &second).unwrap()), ["1", "2"]);
    assert_eq!(labels(&joined(&second, &F3).unwrap()), ["2", "1"]);
}

#[test]
fn join_writes_the_joined_names() -> Result<(), Refusal> {
    let first = sheet_of(&Lts::of(1, 2, &[(0, 1, 0), (0, 2, 0)]), &["in", "out"]);
    let second = sheet_of(
        &Lts::of(1, 3, &[(0, 1, 0), (0, 2, 0), (0, 3, 0)]),
        &["sell", "in", "buy"],
    );
    // The second's actions 1, 2, 3 are the joined 3, 1, 4.
    let moves = [(0, 1, 0), (0, 2, 0), (1, 3, 1), (1, 1, 1), (1, 4, 1)];
    let both = sheet_of(&Lts::of(2, 4, &moves), &["in", "out", "sell", "buy"]);
    assert_eq!(joined(&first, &second)?, both);
    // Two plain sheets give a plain one, any other two a named one.
    let plain = sheet::write(&Lts::of(1, 2, &[(0, 2, 0)]));
    let twice = Lts::of(2, 2, &[(0, 2, 0), (1, 2, 1)]);
    assert_eq!(joined(&plain, &plain)?, sheet::write(&twice));
    let twin = named(&plain, &["1", "2"]);
    for (first, second) in [(&plain, &twin), (&twin, &plain), (&twin, &twin)] {
        assert_eq!(joined(first, second)?, sheet_of(&twice, &["1", "2"]));
    }
    Ok(())
}

/// Names of 16 bytes and of one, with the first and the last sign.
#[test]
fn names_at_their_limits() {
    let labels = ["!", "~", "!~!~!~!~!~!~!~!~", "~!~!~!~!~!~!~!~!", "1"];
    let sheet = sheet_of(&Lts::of(1, 5, &[(0, 5, 0)]), &labels);
    assert_eq!(flow::labels(&sheet).unwrap(), labels);
    let none = sheet_of(&Lts::of(2, 0, &[]), &[]);
    assert_eq!(flow::labels(&none), Ok(Vec::new()));
    assert_eq!(none.len(), 14);
    assert_eq!(joined(&none, &none).map(|sheet| sheet[1]), Ok(128));
}

/// Sheets of the same counts with a bad name, or with one twice.
fn bad_names() -> Vec<Vec<u8>> {
    let good = sheet_of(&Lts::of(2, 3, &[(0, 3, 1)]), &["open", "close", "sell"]);
    let with = |at: usize, bytes: &[u8]| {
        let mut sheet = good.clone();
        sheet[at..at + bytes.len()].copy_from_slice(bytes);
        sheet
    };
    assert!(flow::labels(&good).is_ok());
    vec![
        with(6, &[0; 16]),    // no byte at all
        with(6, &[0]),        // a zero first
        with(6, b" "),        // below 21
        with(37, b"x"),       // the last byte, after zeros
        with(22, &[0x7f]),    // above 7E
        with(9, &[0xff]),     // the highest bit
        with(7, &[0]),        // a zero inside
        with(38, b"open\0"),  // the first and the last
        with(22, b"open\0"),  // neighbours
        with(38, b"close\0"), // the last two
    ]
}

#[test]
fn a_bad_name_is_refused_and_leaves_the_buffers() {
    let refused = Err(Refusal::Label);
    for sheet in bad_names() {
        let mut out = vec![0xa5; sheet.len()];
        assert_eq!(flow::normalise(&sheet, &mut out), refused, "{sheet:?}");
        assert_eq!(flow::end_start(&sheet, &mut out[..16]), refused);
        assert_eq!(flow::labels(&sheet), Err(Refusal::Label));
        assert_eq!(yes(&sheet, &F3), Err(Refusal::Label));
        assert_eq!(yes(&F3, &sheet), Err(Refusal::Label));
        assert_eq!(flow::join(&F3, &sheet, &mut out), Err(Refusal::Label));
        assert!(out.iter().all(|&byte| byte == 0xa5));
        // After the counts and the length, before the page records.
        let mut other = sheet.clone();
        other[6 + 16 * 3] = 2;
        assert_eq!(flow::labels(&other), Err(Refusal::Label));
        other.push(0);
        assert_eq!(flow::labels(&other), Err(Refusal::Length));
        other[2] = 65;
        assert_eq!(flow::labels(&other), Err(Refusal::Counts));
    }
    assert_eq!(
        Refusal::Label.to_string(),
        "refused 17: a bad or repeated name"
    );
}

/// 64 joined names are taken, 65 are not: after 7, and before the buffer.
#[test]
fn too_many_joined_names() {
    let first = only_names(&many(0, 64));
    let both =
        |from: usize, count: usize| flow::join(&first, &only_names(&many(from, count)), &mut []);
    assert_eq!(both(0, 64), Err(Refusal::Buffer));
    assert_eq!(both(60, 4), Err(Refusal::Buffer));
    assert_eq!(both(60, 5), Err(Refusal::TooManyLabels));
    assert_eq!(both(64, 64), Err(Refusal::TooManyLabels));
    assert_eq!(
        yes(&first, &only_names(&many(1, 64))),
        Err(Refusal::TooManyLabels)
    );
    assert_eq!(
        yes(&only_names(&many(0, 32)), &only_names(&many(32, 32))),
        Ok(true)
    );
    // A plain sheet's action counts without a move of it.
    assert_eq!(yes(&first, &F3), Err(Refusal::TooManyLabels));
    assert_eq!(yes(&F3, &first), Err(Refusal::TooManyLabels));
    let large = sheet::write(&Lts::of(256, 1, &[]));
    assert_eq!(yes(&first, &large), Err(Refusal::Joined));
    assert_eq!(
        Refusal::TooManyLabels.to_string(),
        "refused 18: more than 64 joined names"
    );
}

/// The normal form has the kind, the names and their order.
#[test]
fn normalise_keeps_kind_and_names() -> Result<(), Refusal> {
    let mut rng = Prng::new(30);
    for _ in 0..500 {
        let lts = random::small(&mut rng, 9, 4);
        let mut labels = ["sell", "buy", "1", "a-name-of-16-byt"];
        rng.shuffle(&mut labels);
        let shuffled = random::shuffled_sheet(&mut rng, &lts);
        let sheet = named(&shuffled, &labels[..lts.actions()]);
        let mut out = vec![0; sheet.len()];
        flow::normalise(&sheet, &mut out)?;
        assert_eq!(out, sheet_of(&lts, &labels[..lts.actions()]));
        let mut plain = vec![0; shuffled.len()];
        flow::normalise(&shuffled, &mut plain)?;
        assert_eq!(plain, sheet::write(&lts));
        let short = flow::normalise(&sheet, &mut out[1..]);
        assert_eq!(short, Err(Refusal::Buffer));
    }
    Ok(())
}

#[test]
fn the_longest_sheets() -> Result<(), Refusal> {
    let labels = many(1, 64);
    let labels: Vec<&str> = labels.iter().map(String::as_str).collect();
    let lts = random::lts_exact(&mut Prng::new(31), 256, 64, 1_024, 10);
    let sheet = sheet_of(&lts, &labels);
    assert_eq!((sheet.len(), LONGEST_SHEET), (8_198, 8_198));
    assert_eq!(flow::labels(&sheet)?, labels);
    assert_eq!(flow::pages(&sheet), Ok(256));
    // The plain sheet's names come in: longer than both sheets together.
    let plain = sheet::write(&Lts::of(1, 64, &[]));
    let none = sheet_of(&Lts::of(255, 0, &[]), &[]);
    let both = joined(&plain, &none)?;
    assert_eq!(both.len(), plain.len() + none.len() - 6 + 64 * 16);
    Ok(())
}
