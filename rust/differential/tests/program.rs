//! The program flowcheck, run as a process, against document 01's text and
//! the independent program. It is taken from `FLOWCHECK`, or from where
//! `rt run` in its folder leaves it.

mod faults;

use differential::{damage, flows};
use reference::label_faults;
use reference::labels::LabelledLts;
use reference::lts::Lts;
use reference::prng::Prng;
use reference::random;
use reference::report::{flowcheck, MOST_BYTES};
use reference::sheet;
use std::io::{Read, Write};
use std::process::{Child, Command, Stdio};
use std::thread;
use std::time::{Duration, Instant};

/// Sheets of all kinds that are run.
const SHEETS: u64 = 2_500;

/// The longest that one run may take.
const PATIENCE: Duration = Duration::from_secs(20);

fn start() -> Child {
    let beside = concat!(env!("CARGO_MANIFEST_DIR"), "/../../crates/flowcheck/out/flowcheck");
    let program = std::env::var("FLOWCHECK").unwrap_or(beside.into());
    Command::new(&program)
        .stdin(Stdio::piped())
        .stdout(Stdio::piped())
        .spawn()
        .unwrap_or_else(|error| panic!("{program}: {error} (rt run in crates/flowcheck builds it)"))
}

/// What the program prints for an input that arrives in parts of this size.
/// A part that the program no longer reads is left.
fn printed_in_parts(input: &[u8], size: usize) -> String {
    let mut child = start();
    let mut pipe = child.stdin.take().unwrap();
    let parts: Vec<Vec<u8>> = input.chunks(size).map(<[u8]>::to_vec).collect();
    let writer = thread::spawn(move || {
        for part in parts {
            if pipe.write_all(&part).is_err() {
                break;
            }
        }
    });
    let mut text = String::new();
    let mut out = child.stdout.take().unwrap();
    out.read_to_string(&mut text).unwrap();
    writer.join().unwrap();
    ended(&mut child);
    text
}

fn printed(input: &[u8]) -> String {
    printed_in_parts(input, input.len().max(1))
}

/// Waits for the program's end.
fn ended(child: &mut Child) {
    let begin = Instant::now();
    while child.try_wait().unwrap().is_none() {
        assert!(begin.elapsed() < PATIENCE, "the program does not end");
        thread::sleep(Duration::from_millis(1));
    }
}

fn agrees(input: &[u8]) {
    assert_eq!(printed(input), flowcheck(input), "for {input:?}");
}

/// F3's sheet, as document 01 prints it.
const F3: [u8; 30] = [
    3, 0, 1, 0, 2, 0, 0, 0, 1, 0, 0, 0, 0, 0, 0, 0, 2, 0, 1, 0, 1, 0, 0, 0, 1, 0, 2, 0, 0, 0,
];

/// F3 with the byte at a place changed.
fn f3_with(at: usize, byte: u8) -> Vec<u8> {
    let mut sheet = F3.to_vec();
    sheet[at] = byte;
    sheet
}

#[test]
fn f1_to_f9() {
    let f1 = Lts::of(1, 0, &[]);
    let f2 = Lts::of(2, 1, &[(0, 1, 1), (1, 1, 0)]);
    let f4 = Lts::of(4, 1, &[(0, 1, 1), (1, 1, 2), (2, 1, 3)]);
    let f3 = "pages 3 turns 2 kept 6 classes 3\n0 0 0 2\n1 1 0 1 2\n2 2 2\n";
    assert_eq!(
        printed(&sheet::write(&f1)),
        "pages 1 turns 0 kept 1 classes 1\n0 0 0\n"
    );
    assert_eq!(
        printed(&sheet::write(&f2)),
        "pages 2 turns 0 kept 4 classes 1\n0 0 0 1\n1 0 0 1\n"
    );
    assert_eq!(printed(&F3), f3);
    assert_eq!(
        printed(&sheet::write(&f4)),
        "pages 4 turns 3 kept 10 classes 4\n0 0 0\n1 1 0 1\n2 2 0 1 2\n3 3 0 1 2 3\n"
    );
    assert_eq!(printed(&f3_with(0, 0)), "refused 2\n");
    assert_eq!(printed(&[&F3[..], &[0]].concat()), "refused 1\n");
    assert_eq!(printed(&f3_with(22, 1)), "refused 16\n");
}

#[test]
fn each_refusal_of_a_sheet() {
    let twice = [
        1, 0, 1, 0, 2, 0, 0, 0, 1, 0, 1, 0, 0, 0, 2, 0, 1, 0, 0, 0, 0, 0,
    ];
    let sheets = [
        (vec![], 1),
        (F3[..5].to_vec(), 1),
        (f3_with(2, 65), 2),
        (F3[..29].to_vec(), 1),
        (f3_with(6, 2), 3),
        (f3_with(18, 2), 4),
        (f3_with(8, 0), 5),
        (f3_with(12, 1), 16),
        (twice.to_vec(), 6),
    ];
    for (sheet, number) in sheets {
        assert_eq!(
            printed(&sheet),
            format!("refused {number}\n"),
            "for {sheet:?}"
        );
        agrees(&sheet);
    }
}

/// The number of the refusal alone, whatever the record.
#[test]
fn no_record_is_printed() {
    for fault in faults::all() {
        let text = format!("refused {}\n", fault.refusal.number);
        assert_eq!(printed(&fault.sheet), text, "{}", fault.about);
        agrees(&fault.sheet);
    }
}

/// The text has no names: it is the plain sheet's.
#[test]
fn named_sheets() {
    let name = *b"open_flock\0\0\0\0\0\0";
    let named = [&[3, 128, 1, 0, 2, 0], &name[..], &F3[6..]].concat();
    assert_eq!(printed(&named), printed(&F3));
    let mut bad = named.clone();
    bad[6] = b' ';
    assert_eq!(printed(&bad), "refused 17\n");
    let twice = [&[3, 128, 2, 0, 2, 0], &name[..], &name, &F3[6..]].concat();
    assert_eq!(printed(&twice), "refused 17\n");
    let no_names = [2, 128, 0, 0, 0, 0, 0, 0, 0, 0, 0, 0, 0, 0];
    assert_eq!(
        printed(&no_names),
        "pages 2 turns 0 kept 4 classes 1\n0 0 0 1\n1 0 0 1\n"
    );
    for fault in label_faults::small() {
        assert_eq!(printed(&fault.sheet), "refused 17\n");
    }
    for sheet in label_faults::near_misses() {
        assert!(printed(&sheet).starts_with("pages 3 "), "for {sheet:?}");
        agrees(&sheet);
    }
}

/// The longest sheet has 8,198 bytes, the longest plain one 7,174; the program
/// reads one byte more.
#[test]
fn lengths_around_the_most_that_is_read() {
    assert_eq!(MOST_BYTES, 8_199);
    let mut rng = Prng::new(4_000_000);
    let lts = random::lts_exact(&mut rng, 256, 64, 1_024, 10);
    let named = random::named(&mut rng, &lts);
    for (flow, length) in [(named, 8_198), (LabelledLts::plain(lts), 7_174)] {
        let longest = random::shuffled_labelled(&mut rng, &flow);
        assert_eq!(longest.len(), length);
        assert!(printed(&longest).starts_with("pages 256 "));
        agrees(&longest);
        for length in [length - 1, length + 1, 8_198, 8_199, 8_200, 9_000, 100_000] {
            let mut input = longest.clone();
            input.resize(length, 0);
            agrees(&input);
        }
    }
}

/// 256 pages without moves: every pair is kept.
#[test]
fn the_longest_text() {
    let sheet = sheet::write(&Lts::of(256, 0, &[]));
    let text = printed(&sheet);
    assert!(text.starts_with("pages 256 turns 0 kept 65536 classes 1\n"));
    assert_eq!(text.lines().count(), 257);
    agrees(&sheet);
}

#[test]
fn sheets_of_all_kinds() {
    let sizes = flows::Sizes {
        large: 200,
        edges: 300,
    };
    let mut refused = 0;
    for seed in 0..SHEETS {
        let mut rng = Prng::new(5_000_000 + seed);
        let lts = flows::flow(&mut rng, sizes);
        let flow = random::labelled(&mut rng, &lts);
        let sheet = damage::sheet(&mut rng, &flow, 40);
        refused += usize::from(sheet::read(&sheet).is_err());
        agrees(&sheet);
    }
    assert!(refused > 300 && refused < 2_000, "{refused} refused");
}

#[test]
fn input_that_arrives_in_parts() {
    let mut rng = Prng::new(6_000_000);
    let sheet = sheet::write(&random::lts(&mut rng, 40, 3, 90, 20));
    for size in [1, 2, 7, 64] {
        assert_eq!(printed_in_parts(&sheet, size), flowcheck(&sheet));
    }
}

/// Nobody reads what it prints: it ends all the same.
#[test]
fn a_closed_output() {
    let sheet = sheet::write(&Lts::of(256, 0, &[]));
    let mut child = start();
    drop(child.stdout.take());
    let mut pipe = child.stdin.take().unwrap();
    pipe.write_all(&sheet).unwrap();
    drop(pipe);
    ended(&mut child);
}
