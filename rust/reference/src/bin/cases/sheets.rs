//! Normalise (op 1), read (op 9) and the text of flowcheck (op 16).

use crate::case::Case;
use crate::make::{self, filled_bytes, with_byte, RawSheet, ORDERS};
use reference::lts::Lts;
use reference::prng::Prng;
use reference::random;
use reference::sheet;

/// The cases.
pub fn cases() -> Vec<Case> {
    let mut cases = Vec::new();
    document(&mut cases);
    lengths(&mut cases);
    ranges(&mut cases);
    page_records(&mut cases);
    move_records(&mut cases);
    chains(&mut cases);
    repeats(&mut cases);
    orders(&mut cases);
    single_bytes(&mut cases);
    links(&mut cases);
    random_flows(&mut cases);
    large(&mut cases);
    out_lengths(&mut cases);
    read(&mut cases);
    text(&mut cases);
    cases
}

/// A sheet with an out buffer of its own length, which is cut where a long
/// sheet is refused.
fn add(cases: &mut Vec<Case>, sheet: &[u8]) {
    let readable = sheet::read(sheet).is_ok();
    let length = if readable {
        sheet.len()
    } else {
        sheet.len().min(100)
    };
    cases.push(Case::normalise(sheet, &filled_bytes(length)));
}

/// A readable sheet that the record tests damage: 3 pages, 2 actions and 4
/// records, whose chains are 0: 3, 1 and 2: 4, 2.
pub fn base() -> RawSheet {
    RawSheet::of(2, &[3, 0, 4], &[(1, 2, 0), (2, 0, 0), (2, 1, 1), (1, 0, 2)])
}

/// The flows of document 01 that are sheets.
fn document(cases: &mut Vec<Case>) {
    for sheet in [
        make::f1(),
        make::f2(),
        make::f3(),
        make::f4(),
        make::f7(),
        make::f8(),
        make::f9(),
        base().bytes(),
    ] {
        add(cases, &sheet);
    }
}

/// Too short, too long, and other lengths than the counts say.
fn lengths(cases: &mut Vec<Case>) {
    for length in 0..6 {
        add(cases, &vec![0; length]);
        add(cases, &vec![255; length]);
    }
    let f3 = make::f3();
    for length in 0..f3.len() {
        add(cases, &f3[..length]);
    }
    for more in [1, 2, 4, 6, 12] {
        add(cases, &[f3.clone(), vec![0; more]].concat());
    }
    for good in [make::f1(), make::f4(), base().bytes()] {
        add(cases, &make::shorter(&good));
        add(cases, &make::longer(&good, 0));
    }
    // A page or a record too few or too many for the counts.
    add(cases, &base().with(|s| s.n = 2).bytes());
    add(cases, &base().with(|s| s.n = 4).bytes());
    add(cases, &base().with(|s| s.k = 3).bytes());
    add(cases, &base().with(|s| s.k = 5).bytes());
    // A header alone.
    add(cases, &[1, 0, 0, 0, 0, 0]);
    add(cases, &[0, 0, 0, 0, 0, 0]);
    add(cases, &[255; 6]);
    add(cases, &[0, 1, 64, 0, 0, 4]);
}

/// Each count at the edges of its range.
fn ranges(cases: &mut Vec<Case>) {
    // n, with the length that it says and with another.
    for n in [0, 1, 2, 255, 256, 257, 300] {
        let sheet = RawSheet::of(3, &vec![0; n], &[]).bytes();
        add(cases, &sheet);
        if n <= 1 || n >= 256 {
            add(cases, &make::longer(&sheet, 0));
            add(cases, &make::shorter(&sheet));
        }
    }
    for n in [512, 513, 0x8000, 0xffff] {
        add(cases, &RawSheet::of(1, &[0], &[]).with(|s| s.n = n).bytes());
    }
    // m
    for m in [0, 1, 63, 64, 65, 66, 128, 255, 256, 257, 0x4000, 0xffff] {
        let sheet = RawSheet::of(m, &[0, 0], &[]).bytes();
        add(cases, &sheet);
    }
    for m in [0, 63, 64, 65] {
        add(cases, &RawSheet::of(m, &[1], &[(64, 0, 0)]).bytes());
        add(cases, &make::longer(&RawSheet::of(m, &[0], &[]).bytes(), 9));
    }
    // k, where the counts need not agree with the length to be out of range.
    for k in [1025, 1026, 2048, 0x8000, 0xffff] {
        add(cases, &RawSheet::of(1, &[0], &[]).with(|s| s.k = k).bytes());
    }
    for k in [1, 1024] {
        add(cases, &RawSheet::of(1, &[0], &[]).with(|s| s.k = k).bytes());
    }
    // Several counts out of range.
    add(
        cases,
        &RawSheet::of(65, &[], &[]).with(|s| s.k = 1025).bytes(),
    );
    add(cases, &RawSheet::of(65, &[0; 257], &[]).bytes());
}

/// Each rule of a page record, at each page.
fn page_records(cases: &mut Vec<Case>) {
    for p in 0..3 {
        for mark in [1, 2, 3, 128, 255] {
            add(cases, &base().with(|s| s.pages[p].mark = mark).bytes());
        }
        for spare in [1, 2, 128, 255] {
            add(cases, &base().with(|s| s.pages[p].spare = spare).bytes());
        }
        for first in [5, 6, 256, 257, 1024, 1025, 0xffff] {
            add(cases, &base().with(|s| s.pages[p].first = first).bytes());
        }
    }
    // All end marks that can be.
    for marks in 0..8u8 {
        let marked = base().with(|s| {
            for (p, page) in s.pages.iter_mut().enumerate() {
                page.mark = marks >> p & 1;
            }
        });
        add(cases, &marked.bytes());
    }
    // Without records, an index can only be 0.
    add(cases, &RawSheet::of(1, &[1], &[]).bytes());
    add(cases, &RawSheet::of(1, &[0, 1], &[]).bytes());
}

/// Each rule of a move record, at each record.
fn move_records(cases: &mut Vec<Case>) {
    for i in 0..4 {
        for action in [0, 3, 64, 65, 128, 255] {
            add(cases, &base().with(|s| s.moves[i].action = action).bytes());
        }
        for spare in [1, 2, 128, 255] {
            add(cases, &base().with(|s| s.moves[i].spare = spare).bytes());
        }
        for target in [3, 4, 255, 256, 257, 0xffff] {
            add(cases, &base().with(|s| s.moves[i].target = target).bytes());
        }
        for next in [5, 6, 256, 257, 1024, 1025, 0xffff] {
            add(cases, &base().with(|s| s.moves[i].next = next).bytes());
        }
    }
    // With m = 0 no action is in range.
    for action in [0, 1] {
        add(cases, &RawSheet::of(0, &[1], &[(action, 0, 0)]).bytes());
    }
}

/// Chains of three records, readable and not.
fn chains(cases: &mut Vec<Case>) {
    let move_list: [(u8, u16); 3] = [(1, 0), (2, 0), (1, 1)];
    // One chain of three records in each of the six orders.
    for [first, second, third] in ORDERS {
        let mut next = [0; 3];
        next[usize::from(first) - 1] = second;
        next[usize::from(second) - 1] = third;
        let moves: Vec<_> = (0..3)
            .map(|i| (move_list[i].0, move_list[i].1, next[i]))
            .collect();
        add(cases, &RawSheet::of(2, &[first, 0], &moves).bytes());
        add(cases, &RawSheet::of(2, &[0, first], &moves).bytes());
    }
    let three = |firsts: &[u16], next: [u16; 3]| {
        let moves: Vec<_> = (0..3)
            .map(|i| (move_list[i].0, move_list[i].1, next[i]))
            .collect();
        RawSheet::of(2, firsts, &moves).bytes()
    };
    for sheet in [
        three(&[1, 0], [2, 0, 3]), // a one-record cycle that no page names
        three(&[0, 2], [1, 3, 0]), // the same with the record first
        three(&[1, 0], [0, 3, 2]), // a cycle of two that no page names
        three(&[0, 0], [2, 3, 1]), // a cycle of three that no page names
        three(&[0, 0], [1, 2, 3]), // three one-record cycles
        three(&[1, 1], [2, 3, 0]), // two firsts name one record
        three(&[3, 3], [2, 3, 0]), // the same, with records left over
        three(&[1, 3], [3, 0, 2]), // a chain that runs into another's first
        three(&[1, 2], [3, 3, 0]), // two chains that run together
        three(&[1, 2], [2, 3, 0]), // a chain that starts inside another
        three(&[1, 0], [2, 3, 1]), // a chain that closes on its first
        three(&[1, 0], [2, 3, 2]), // a chain that closes on its second
        three(&[1, 0], [2, 3, 3]), // a chain whose last record names itself
        three(&[1, 2], [1, 3, 0]), // a first record that names itself
        three(&[0, 0], [0, 0, 0]), // no record on a chain
        three(&[1, 2], [0, 0, 0]), // the last record on no chain
        three(&[2, 3], [0, 0, 0]), // the first record on no chain
        three(&[1, 0], [3, 0, 0]), // a record in the middle on no chain
        three(&[1, 0], [2, 0, 1]), // an unreached record that names a reached one
        three(&[1, 0], [3, 3, 0]), // an unreached record that shares a next
        three(&[3, 1], [2, 0, 0]), // readable
        three(&[2, 3], [0, 1, 0]), // readable
    ] {
        add(cases, &sheet);
    }
}

/// The same action and target twice, in one chain and in two.
fn repeats(cases: &mut Vec<Case>) {
    for sheet in [
        // In one chain, side by side and apart.
        RawSheet::of(1, &[1, 0], &[(1, 1, 2), (1, 1, 0)]),
        RawSheet::of(2, &[1, 0], &[(1, 1, 2), (2, 1, 3), (1, 1, 0)]),
        RawSheet::of(2, &[0, 3], &[(1, 1, 0), (2, 1, 1), (1, 1, 2)]),
        RawSheet::of(
            2,
            &[1, 4],
            &[(1, 1, 2), (2, 1, 3), (1, 0, 0), (1, 0, 5), (1, 0, 0)],
        ),
        // A self-move twice.
        RawSheet::of(1, &[1], &[(1, 0, 2), (1, 0, 0)]),
        // In two chains, which is allowed.
        RawSheet::of(1, &[1, 2], &[(1, 1, 0), (1, 1, 0)]),
        RawSheet::of(2, &[1, 3], &[(1, 1, 2), (2, 0, 0), (2, 0, 4), (1, 1, 0)]),
        RawSheet::of(2, &[4, 2], &[(1, 1, 0), (1, 1, 3), (2, 0, 0), (2, 0, 1)]),
        // Same target with another action, same action with another target.
        RawSheet::of(2, &[1, 0], &[(1, 1, 2), (2, 1, 0)]),
        RawSheet::of(2, &[1, 0], &[(1, 1, 2), (1, 0, 0)]),
        // Action and target changed over.
        RawSheet::of(2, &[1, 0, 0], &[(1, 2, 2), (2, 1, 0)]),
    ] {
        add(cases, &sheet.bytes());
    }
    // Page 0 with all its m moves to itself, and one record more.
    for extra in [0, 1] {
        let moves: Vec<_> = (1..=64 + extra)
            .map(|i: u16| {
                (
                    (i - 1) as u8 % 64 + 1,
                    0,
                    if i < 64 + extra { i + 1 } else { 0 },
                )
            })
            .collect();
        add(cases, &RawSheet::of(64, &[1], &moves).bytes());
    }
}

/// Refusals that would hold at the same time.
fn orders(cases: &mut Vec<Case>) {
    let bad_page = |s: &mut RawSheet| s.pages[2].spare = 1;
    let bad_move = |s: &mut RawSheet| s.moves[0].spare = 1;
    let lost = |s: &mut RawSheet| s.moves[2].next = 0;
    let twice = |s: &mut RawSheet| s.moves[0].next = 1;
    let repeat = |s: &mut RawSheet| s.moves[0].action = 2;
    let repeated = base().with(|s| {
        s.moves[0].target = 1;
        repeat(s);
    });
    let all = [
        base().with(|s| s.n = 0),
        base().with(|s| s.m = 65),
        base().with(|s| s.k = 1025),
        base(),
        base().with(bad_page),
        base().with(|s| (bad_page(s), bad_move(s)).0),
        base().with(|s| (bad_page(s), lost(s)).0),
        base().with(|s| (bad_page(s), twice(s)).0),
        base().with(bad_move),
        base().with(|s| (bad_move(s), lost(s)).0),
        base().with(|s| (bad_move(s), twice(s)).0),
        base().with(lost),
        base().with(twice),
        base().with(|s| (lost(s), s.pages[1].first = 4).0),
        repeated.clone(),
        repeated.with(|s| s.moves[3].next = 0),
        repeated.with(twice),
        repeated.with(bad_move),
        repeated.with(bad_page),
        repeated.with(|s| (bad_page(s), bad_move(s), twice(s)).0),
    ];
    for sheet in &all {
        let bytes = sheet.bytes();
        add(cases, &bytes);
        // The same with another length, and with another length of out.
        add(cases, &make::longer(&bytes, 0));
        add(cases, &make::shorter(&bytes));
        cases.push(Case::normalise(&bytes, &filled_bytes(bytes.len() + 1)));
    }
    // A bad action in the last record, a bad next in the first, and such.
    add(
        cases,
        &base()
            .with(|s| (s.moves[3].action = 0, s.moves[0].next = 5).0)
            .bytes(),
    );
    add(
        cases,
        &base()
            .with(|s| (s.pages[0].first = 5, s.pages[2].mark = 2).0)
            .bytes(),
    );
    // A repeat in the chain of page 0, and page 2 or 1 names one of its records.
    add(cases, &repeated.with(|s| s.pages[2].first = 1).bytes());
    add(cases, &repeated.with(|s| s.pages[1].first = 3).bytes());
}

/// Each byte of two sheets, changed in a few ways.
fn single_bytes(cases: &mut Vec<Case>) {
    for sheet in [make::f3(), base().bytes()] {
        for at in 0..sheet.len() {
            let old = sheet[at];
            let mut values = vec![old.wrapping_add(1), old.wrapping_sub(1), old ^ 3, 64];
            values.sort();
            values.dedup();
            for value in values.into_iter().filter(|&v| v != old) {
                add(cases, &with_byte(&sheet, at, value));
            }
        }
    }
}

/// Every way to link two records from two pages, and some for three records.
fn links(cases: &mut Vec<Case>) {
    for code in 0..81u16 {
        let digit = |place: u32| code / 3u16.pow(place) % 3;
        for second in [(2, 0), (1, 1)] {
            // The two moves are different, or the same.
            let moves = [(1, 1, digit(2)), (second.0, second.1, digit(3))];
            add(
                cases,
                &RawSheet::of(2, &[digit(0), digit(1)], &moves).bytes(),
            );
        }
    }
    let mut rng = Prng::new(101);
    for _ in 0..120 {
        let mut any = || rng.below(4) as u16;
        let firsts = [any(), any(), 0];
        let moves = [(1, 0, any()), (2, 1, any()), (1, 2, any())];
        add(cases, &RawSheet::of(2, &firsts, &moves).bytes());
    }
}

/// Random flows with shuffled records, as they are and damaged.
fn random_flows(cases: &mut Vec<Case>) {
    let mut rng = Prng::new(102);
    for _ in 0..80 {
        let lts = random::small(&mut rng, 9, 5);
        add(cases, &random::shuffled_sheet(&mut rng, &lts));
    }
    for n in [16, 63, 64, 65, 100] {
        let lts = random::lts(&mut rng, n, 64, 3 * n, 30);
        add(cases, &random::shuffled_sheet(&mut rng, &lts));
    }
    // Shuffled sheets with one or two bytes changed.
    for _ in 0..120 {
        let lts = random::small(&mut rng, 5, 3);
        let mut sheet = random::shuffled_sheet(&mut rng, &lts);
        for _ in 0..rng.between(1, 2) {
            let at = rng.between(6, sheet.len() - 1);
            sheet[at] = rng.below(5) as u8;
        }
        add(cases, &sheet);
    }
}

/// Sheets of the largest sizes, and one more.
fn large(cases: &mut Vec<Case>) {
    let mut rng = Prng::new(103);
    let full = random::lts_exact(&mut rng, 256, 64, 1024, 40);
    let sheet = random::shuffled_sheet(&mut rng, &full);
    add(cases, &sheet);
    // A second visit, a record on no chain, a repeat, far down the sheet.
    let at_record = |i: usize| 6 + 4 * 256 + 6 * (i - 1);
    add(
        cases,
        &with_byte(&sheet, at_record(1024) + 4, sheet[at_record(1024) + 4] ^ 1),
    );
    add(cases, &with_byte(&sheet, 6 + 4 * 255 + 1, 1));
    // One page with a chain of 1,024 records, linked from the last to the first.
    let backwards = |last: (u8, u16)| {
        let moves: Vec<_> = (0..1024u16)
            .map(|i| {
                let (action, target) = if i == 1023 {
                    last
                } else {
                    ((i / 256) as u8 + 1, i % 256)
                };
                (action, target, i)
            })
            .collect();
        let mut firsts = vec![0; 256];
        firsts[255] = 1024;
        RawSheet::of(4, &firsts, &moves)
    };
    add(cases, &backwards((4, 255)).bytes());
    add(cases, &backwards((1, 0)).bytes());
    // One page, 1,025 records and their length.
    let moves = vec![(1, 0, 0); 1025];
    add(cases, &RawSheet::of(1, &[1], &moves).bytes());
    // 16 pages, all with 64 moves to page 15.
    let lts = {
        let moves: Vec<_> = (0..1024).map(|i| (i / 64, i % 64 + 1, 15)).collect();
        Lts::of(16, 64, &moves)
    };
    add(cases, &random::shuffled_sheet(&mut rng, &lts));
}

/// Out buffers of other lengths.
fn out_lengths(cases: &mut Vec<Case>) {
    for sheet in [make::f1(), make::f3(), base().bytes()] {
        for length in [0, 1, 6, sheet.len() - 1, sheet.len() + 1, sheet.len() + 6] {
            cases.push(Case::normalise(&sheet, &filled_bytes(length)));
        }
    }
    cases.push(Case::normalise(&make::f3(), &filled_bytes(7180)));
    for sheet in make::refused_sheets() {
        cases.push(Case::normalise(&sheet, &filled_bytes(0)));
        cases.push(Case::normalise(&sheet, &filled_bytes(sheet.len() + 1)));
    }
    cases.push(Case::normalise(&[], &filled_bytes(3)));
}

/// The sheets above that are not large, read.
fn read(cases: &mut Vec<Case>) {
    let sheets: Vec<Vec<u8>> = cases.iter().map(|case| case.fields[0].clone()).collect();
    let (small, large): (Vec<_>, Vec<_>) = sheets.into_iter().partition(|s| s.len() <= 100);
    let large = large.iter().filter(|sheet| sheet.len() <= 3_000);
    for sheet in small.iter().step_by(2).chain(large.step_by(6)) {
        cases.push(Case::read(sheet));
    }
    // The most actions, pages and moves, and one more of each.
    for m in [64, 65] {
        cases.push(Case::read(&RawSheet::of(m, &[1], &[(64, 0, 0)]).bytes()));
    }
    for (n, k) in [(256, 1024), (257, 1023), (255, 1025)] {
        let moves: Vec<_> = (0..k).map(|i| (1 + (i / 255) as u8, i % 255, i)).collect();
        let mut firsts = vec![0; n];
        firsts[n - 1] = k;
        cases.push(Case::read(&RawSheet::of(64, &firsts, &moves).bytes()));
    }
}

/// Texts of refused sheets, of small flows and of the largest.
fn text(cases: &mut Vec<Case>) {
    let flows = [make::f1(), make::f2(), make::f3(), make::f4()];
    for sheet in flows.into_iter().chain(make::refused_sheets()) {
        cases.push(Case::text(&sheet));
    }
    let mut rng = Prng::new(104);
    for _ in 0..60 {
        let lts = random::small(&mut rng, 9, 3);
        cases.push(Case::text(&random::shuffled_sheet(&mut rng, &lts)));
    }
    for n in [10, 11, 64, 65, 100, 101, 256] {
        cases.push(Case::text(&sheet::write(&make::chain(n))));
        cases.push(Case::text(&sheet::write(&Lts::of(n, 1, &[]))));
    }
    let full = random::lts_exact(&mut rng, 256, 64, 1024, 40);
    let sheet = random::shuffled_sheet(&mut rng, &full);
    cases.push(Case::text(&sheet));
    cases.push(Case::text(&make::longer(&sheet, 0)));
}
