//! `differential CALL|all CASES SEED` runs cases of one call or of all against
//! the independent program and prints what came out, by call.

use differential::case::Call;
use differential::memory::Heap;
use differential::run::run;
use std::process::ExitCode;

fn main() -> ExitCode {
    let words: Vec<String> = std::env::args().skip(1).collect();
    let Some((calls, cases, seed)) = asked(&words) else {
        let names = Call::ALL.map(Call::name).join("|");
        eprintln!("usage: differential all|{names} CASES SEED");
        return ExitCode::from(2);
    };
    for call in calls {
        match run(call, cases, seed, &mut Heap::slots()) {
            Ok(tally) => println!("{tally}"),
            Err(difference) => {
                println!("{difference}");
                return ExitCode::FAILURE;
            }
        }
    }
    ExitCode::SUCCESS
}

/// The calls, the number of cases and the first seed; none if a word is wrong.
fn asked(words: &[String]) -> Option<(Vec<Call>, u64, u64)> {
    let [call, cases, seed] = words else {
        return None;
    };
    let calls: Vec<Call> = Call::ALL
        .into_iter()
        .filter(|known| call == "all" || call == known.name())
        .collect();
    if calls.is_empty() {
        return None;
    }
    Some((calls, cases.parse().ok()?, seed.parse().ok()?))
}
