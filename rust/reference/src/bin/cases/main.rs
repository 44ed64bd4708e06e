//! Makes the cases of the program `vectors`, and the lines that it must print.
//!
//! `cargo run --release --offline -p reference --bin cases -- ../crates/vectors`,
//! run in the folder `rust`, writes the two files `stdin` and `stdout` there.
//! The answers are those of this independent program alone.

mod case;
mod chains;
mod coarsest;
mod convert;
mod depths;
mod games;
mod labels;
mod make;
mod plans;
mod ready;
mod refused;
mod relations;
mod sheets;
mod wrong;

use case::Case;
use std::collections::{BTreeMap, BTreeSet};
use std::path::Path;
use std::process::ExitCode;

/// The most bytes of the two files together.
const MOST_BYTES: usize = 3_000_000;

/// The refusals that each operation meets, 0 for none.
const REFUSALS: [(u8, &[u8]); 20] = [
    (1, &[0, 1, 2, 3, 4, 5, 6, 15, 16, 17]),
    (2, STARTS),
    (3, &[0, 1, 2, 3, 4, 5, 6, 8, 9, 10, 16, 17]),
    (4, &[0, 1, 2, 3, 4, 5, 6, 8, 9, 10, 15, 16, 17]),
    (5, CHECKS),
    (6, WRITES),
    (7, &[0, 1, 2, 3, 4, 5, 6, 8, 9, 10, 11, 12, 16, 17]),
    (8, COMPARES),
    (9, &[0, 1, 2, 3, 4, 5, 6, 16, 17]),
    (10, CHECKS),
    (11, WRITES),
    (12, CHECKS),
    (13, WRITES),
    (14, &[0, 1, 2, 3, 4, 5, 6, 8, 9, 10, 15, 16, 17]),
    (15, &[0, 1, 2, 3, 4, 5, 6, 7, 15, 16, 17, 18]),
    (16, &[0]),
    (17, &[0, 1, 2, 3, 4, 5, 6, 15, 16, 17]),
    (18, &[0, 1, 2, 3, 4, 5, 6, 15, 16, 17, 19]),
    (19, STARTS),
    (20, COMPARES),
];
const STARTS: &[u8] = &[0, 1, 2, 3, 4, 5, 6, 15, 16, 17];
const CHECKS: &[u8] = &[0, 1, 2, 3, 4, 5, 6, 8, 9, 10, 14, 16, 17];
const WRITES: &[u8] = &[0, 1, 2, 3, 4, 5, 6, 8, 9, 10, 11, 13, 15, 16, 17];
const COMPARES: &[u8] = &[0, 1, 2, 3, 4, 5, 6, 7, 16, 17, 18];

/// Records that each operation meets with 5 and with 16.
const RECORDS: [u16; 3] = [1, 2, 3];

/// All cases.
fn cases() -> Vec<Case> {
    [
        sheets::cases(),
        relations::cases(),
        coarsest::cases(),
        plans::cases(),
        depths::cases(),
        games::cases(),
        chains::cases(),
        labels::cases(),
        convert::cases(),
        ready::cases(),
    ]
    .concat()
}

/// How often an operation meets each refusal number with each record number.
type Met = BTreeMap<(u8, u16), usize>;

/// The two files. Stops where a case is too long for its reader, where an
/// operation does not meet what it should, or where there is too much.
fn files() -> (Vec<u8>, String) {
    let (mut input, mut output) = (Vec::new(), String::new());
    let mut met: BTreeMap<u8, Met> = BTreeMap::new();
    for (i, case) in cases().iter().enumerate() {
        case.assert_limits();
        let answer = case.run();
        input.extend(case.encode());
        output += &answer.line(i + 1, case.op);
        let met = met.entry(case.op).or_default();
        *met.entry(answer.numbers()).or_default() += 1;
    }
    for (op, met) in &met {
        println!("operation {op}, cases of each refusal and record: {met:?}");
    }
    for (op, refusals) in REFUSALS {
        assert_met(op, refusals, &met[&op]);
    }
    assert_eq!(met.len(), REFUSALS.len());
    println!("{} and {} bytes", input.len(), output.len());
    assert!(input.len() + output.len() <= MOST_BYTES);
    (input, output)
}

/// Stops where the operation does not meet these refusals and no others, or
/// one of them with too few records.
fn assert_met(op: u8, refusals: &[u8], met: &Met) {
    let numbers: BTreeSet<u8> = met.keys().map(|&(refusal, _)| refusal).collect();
    assert!(numbers.iter().eq(refusals), "operation {op}");
    for &refusal in refusals {
        let records: &[u16] = if matches!(refusal, 5 | 16) {
            &RECORDS
        } else {
            &[0]
        };
        let meets = |&record: &u16| met.contains_key(&(refusal, record));
        assert!(records.iter().all(meets), "operation {op}, {refusal}");
    }
}

/// Writes the two files into the folder named.
fn main() -> ExitCode {
    let args: Vec<String> = std::env::args().skip(1).collect();
    let [folder] = &args[..] else {
        eprintln!("usage: cases FOLDER");
        return ExitCode::from(2);
    };
    let (input, output) = files();
    let folder = Path::new(folder);
    let written = std::fs::write(folder.join("stdin"), input)
        .and_then(|()| std::fs::write(folder.join("stdout"), output));
    match written {
        Ok(()) => ExitCode::SUCCESS,
        Err(error) => {
            eprintln!("{}: {error}", folder.display());
            ExitCode::FAILURE
        }
    }
}
