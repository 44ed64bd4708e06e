//! Times the exported calls beside two Rust programs that do the same job,
//! and prints the tables of docs/BENCHMARK.md.
//!
//! `cargo run --release --offline -p bench [MILLISECONDS]` spends at least
//! that long on each row (default 200).

mod clock;
mod families;
mod rivals;

use std::time::Duration;

use families::{Family, FAMILIES};
use reference::lts::Lts;
use reference::prng::Prng;
use reference::relation::{Preorder, Relation};
use reference::{base, fixpoint, grid, random, sheet};
use rivals::Algorithm;

/// The fewest runs of each program that a median is taken of.
const FEWEST_RUNS: usize = 7;

/// The Rust programs, by name.
const RIVALS: [(&str, Algorithm); 2] = [("base", base::coarsest), ("fixpoint", fixpoint::coarsest)];

/// A program that does one job once.
type Job<'a> = Box<dyn FnMut() + 'a>;

fn main() {
    let budget = match std::env::args().nth(1) {
        None => 200,
        Some(text) => text.parse().expect("a number of milliseconds"),
    };
    let budget = Duration::from_millis(budget);
    coarsest_table(budget);
    println!();
    compare_table(budget);
    println!("\nFamilies:\n");
    for family in FAMILIES {
        println!("- {}: {}", family.name, family.about);
    }
}

/// The median time of each program, run in turn until the budget is used.
fn medians(budget: Duration, jobs: &mut [Job]) -> Vec<Duration> {
    let mut times = vec![Vec::new(); jobs.len()];
    let begin = clock::now();
    while times[0].len() < FEWEST_RUNS || clock::now() - begin < budget {
        for (job, times) in jobs.iter_mut().zip(&mut times) {
            let start = clock::now();
            job();
            times.push(clock::now() - start);
        }
    }
    times
        .iter_mut()
        .map(|times| {
            times.sort();
            times[times.len() / 2]
        })
        .collect()
}

/// A table that is printed row by row, and the ratios of its rows.
struct Table {
    call: &'static str,
    /// The rows' names, and the ratio of the call's time to each program's.
    ratios: Vec<(String, Vec<f64>)>,
}

impl Table {
    /// Prints the head of a table whose rows begin with the given columns.
    fn begin(first: &str, call: &'static str) -> Table {
        let mut head = format!("{first} {call} µs |");
        for (name, _) in RIVALS {
            head += &format!(" {name} µs |");
        }
        for (name, _) in RIVALS {
            head += &format!(" {call} / {name} |");
        }
        println!("{head}\n|{}", "---|".repeat(head.matches('|').count() - 1));
        Table {
            call,
            ratios: Vec::new(),
        }
    }

    /// Prints a row: its first columns, then times and ratios.
    fn row(&mut self, name: String, first: &str, times: &[Duration]) {
        let micros: Vec<f64> = times.iter().map(|t| t.as_nanos() as f64 / 1e3).collect();
        let ratios: Vec<f64> = micros[1..].iter().map(|time| micros[0] / time).collect();
        let mut row = first.to_string();
        for time in &micros {
            row += &format!(" {time:.1} |");
        }
        for ratio in &ratios {
            row += &format!(" {ratio:.2} |");
        }
        println!("{row}");
        self.ratios.push((name, ratios));
    }

    /// Prints the largest ratios and the geometric means.
    fn end(&self) {
        println!();
        for (at, (rival, _)) in RIVALS.iter().enumerate() {
            let (name, worst) = self
                .ratios
                .iter()
                .map(|(name, ratios)| (name, ratios[at]))
                .max_by(|a, b| a.1.total_cmp(&b.1))
                .expect("a table has rows");
            let logs: f64 = self.ratios.iter().map(|(_, ratios)| ratios[at].ln()).sum();
            let mean = (logs / self.ratios.len() as f64).exp();
            let slower = self.ratios.iter().filter(|(_, ratios)| ratios[at] > 1.0);
            println!(
                "{} / {rival}: largest {worst:.2} ({name}), geometric mean {mean:.2}, above 1 in {} of {} rows.",
                self.call,
                slower.count(),
                self.ratios.len()
            );
        }
    }
}

/// The words of a relation as bytes.
fn grid_bytes(relation: &Relation) -> Vec<u8> {
    let words = grid::write(relation);
    words.iter().flat_map(|word| word.to_le_bytes()).collect()
}

/// A start by name.
fn start_of(name: &str, lts: &Lts) -> Preorder {
    let n = lts.states();
    match name {
        "end start" => grid::end_start_of(lts),
        "all pairs" => Preorder::closure(&Relation::full(n)),
        _ => Preorder::closure(&Relation::from_fn(n, |p, q| p <= q)),
    }
}

/// A turn list by name, as bytes.
fn turn_list(name: &str) -> Vec<u8> {
    match name {
        "empty" => Vec::new(),
        _ => {
            let mut rng = Prng::new(11);
            (0..8192).map(|_| rng.bits() as u8).collect()
        }
    }
}

/// Coarsest on sheets at the limits.
fn coarsest_table(budget: Duration) {
    let head = "| Family | n | k | m | Start | Turn list | Turns | Blocks |";
    let mut table = Table::begin(head, "flow_coarsest");
    for family in FAMILIES {
        let lts = (family.build)(256, 1024);
        let mut ways = vec![
            ("end start", "empty"),
            ("end start", "random"),
            ("linear order", "empty"),
            ("linear order", "random"),
        ];
        if lts.end_marks().contains(&true) {
            ways.push(("all pairs", "empty"));
        }
        for (start, turns) in ways {
            coarsest_row(&mut table, budget, family, &lts, start, turns);
        }
    }
    table.end();
}

/// One row of it. All programs must give the same grid and names.
fn coarsest_row(
    table: &mut Table,
    budget: Duration,
    family: &Family,
    lts: &Lts,
    start: &str,
    turns: &str,
) {
    let n = lts.states();
    let sheet = random::shuffled_sheet(&mut Prng::new(1), lts);
    let start_bytes = grid_bytes(start_of(start, lts).relation());
    let list = turn_list(turns);
    let clear = || (vec![0u8; start_bytes.len()], vec![0u8; 2 * n]);

    let mut own = clear();
    let counts = flow::coarsest(&sheet, &start_bytes, &list, &mut own.0, &mut own.1)
        .expect("a readable sheet");
    let mut buffers = clear();
    let mut jobs: Vec<Job> = vec![Box::new(|| {
        buffers.0.fill(0);
        buffers.1.fill(0);
        let _ = flow::coarsest(&sheet, &start_bytes, &list, &mut buffers.0, &mut buffers.1);
    })];
    for (name, algorithm) in RIVALS {
        let mut buffers = clear();
        let (pairs, blocks) = rivals::coarsest(
            algorithm,
            &sheet,
            &start_bytes,
            &mut buffers.0,
            &mut buffers.1,
        )
        .expect("a readable sheet");
        assert_eq!(buffers, own, "{name} differs on {}", family.name);
        assert_eq!(
            (pairs, blocks),
            (counts.kept as usize, usize::from(counts.blocks))
        );
        let (sheet, start_bytes) = (&sheet, &start_bytes);
        jobs.push(Box::new(move || {
            buffers.0.fill(0);
            buffers.1.fill(0);
            let (grid, names) = (&mut buffers.0, &mut buffers.1);
            let _ = rivals::coarsest(algorithm, sheet, start_bytes, grid, names);
        }));
    }
    let times = medians(budget, &mut jobs);
    let first = format!(
        "| {} | {n} | {} | {} | {start} | {turns} | {} | {} |",
        family.name,
        lts.transitions().len(),
        lts.actions(),
        counts.turns,
        counts.blocks
    );
    table.row(format!("{}; {start}", family.name), &first, &times);
}

/// Compare on two sheets of half the size: each family with itself and with
/// the next one.
fn compare_table(budget: Duration) {
    let mut table = Table::begin("| First | Second | Answer | Turns |", "flow_compare");
    let built: Vec<(&str, Lts)> = FAMILIES
        .iter()
        .map(|family| (family.name, (family.build)(128, 512)))
        .collect();
    for (at, first) in built.iter().enumerate() {
        compare_row(&mut table, budget, first, first);
        compare_row(&mut table, budget, first, &built[(at + 1) % built.len()]);
    }
    table.end();
}

/// One row of it. All programs must give the same answer.
fn compare_row(table: &mut Table, budget: Duration, first: &(&str, Lts), second: &(&str, Lts)) {
    let names = format!("{} | {}", first.0, second.0);
    let (first, second) = (sheet::write(&first.1), sheet::write(&second.1));
    let own = flow::compare(&first, &second).expect("readable sheets");
    let mut jobs: Vec<Job> = vec![Box::new(|| {
        let _ = flow::compare(&first, &second);
    })];
    for (rival, algorithm) in RIVALS {
        let yes = rivals::compared(algorithm, &first, &second).expect("readable sheets");
        assert_eq!(yes, own.yes, "{rival} differs on {names}");
        let (first, second) = (&first, &second);
        jobs.push(Box::new(move || {
            let _ = rivals::compared(algorithm, first, second);
        }));
    }
    let times = medians(budget, &mut jobs);
    let answer = if own.yes { "yes" } else { "no" };
    let columns = format!("| {names} | {answer} | {} |", own.turns);
    table.row(names.replace(" |", ","), &columns, &times);
}
