//! Flows of many shapes and sizes.

use reference::labels::{decimal, LabelledLts};
use reference::lts::{Lts, State, Transition};
use reference::prng::Prng;
use reference::shapes::{cycle, loops, path, tree, Move};
use reference::sheet::{MOST_ACTIONS, MOST_MOVES, MOST_PAGES};
use reference::{random, ready_flows};

/// The sizes at which words and limits begin and end.
const EDGES: [usize; 6] = [31, 32, 63, 64, 65, 66];
const LARGE_EDGES: [usize; 8] = [127, 128, 129, 191, 192, 193, 255, 256];

/// How often a flow is large, in 10,000 cases: from 67 to 256 states, and
/// around the ends of words.
#[derive(Clone, Copy)]
pub struct Sizes {
    pub large: usize,
    pub edges: usize,
}

/// A number of states.
fn states(rng: &mut Prng, sizes: Sizes) -> usize {
    let choice = rng.below(10_000);
    if choice < sizes.large {
        match rng.below(2) {
            0 => LARGE_EDGES[rng.below(LARGE_EDGES.len())],
            _ => rng.between(67, MOST_PAGES),
        }
    } else if choice < sizes.large + sizes.edges {
        EDGES[rng.below(EDGES.len())]
    } else if rng.chance(15) {
        rng.between(1, 20)
    } else {
        rng.between(1, 8)
    }
}

/// A flow.
pub fn flow(rng: &mut Prng, sizes: Sizes) -> Lts {
    let n = states(rng, sizes);
    let m = if rng.chance(10) {
        rng.between(1, MOST_ACTIONS)
    } else {
        rng.between(1, 4)
    };
    if n <= 20 && rng.chance(40) {
        return random::small(rng, n, m);
    }
    let mut moves = shape(rng, n, m);
    if rng.chance(50) {
        for _ in 0..rng.between(1, 3) {
            moves.push((rng.below(n), rng.between(1, m), rng.below(n)));
        }
    }
    rng.shuffle(&mut moves);
    moves.truncate(MOST_MOVES);
    let marks = [0, 0, 5, 30, 50][rng.below(5)];
    marked(rng, n, m, &moves, marks)
}

/// A flow as above, or two cycles with a few moves more and a few end marks, on
/// which plans go deep.
pub fn for_plans(rng: &mut Prng, sizes: Sizes) -> Lts {
    if rng.chance(60) {
        return flow(rng, sizes);
    }
    let n = rng.between(3, 14);
    let first = rng.between(1, n);
    let mut moves = [cycle(0, first), cycle(first, n - first)].concat();
    for _ in 0..rng.below(4) {
        moves.push((rng.below(n), rng.between(1, 2), rng.below(n)));
    }
    marked(rng, n, 2, &moves, 15)
}

/// A flow as above, or one in which many states have the same set of actions.
pub fn for_ready(rng: &mut Prng, sizes: Sizes) -> Lts {
    if rng.chance(40) {
        return flow(rng, sizes);
    }
    let (n, m) = (states(rng, sizes), [1, 3, 5, MOST_ACTIONS][rng.below(4)]);
    let (sets, marks) = (rng.between(1, 6), [0, 5, 30, 50][rng.below(4)]);
    ready_flows::few_sets(rng, n, m, sets, marks)
}

/// The flow unfolded: some of its states come again, and all but the first in
/// another order. Each copy of a state has its moves, each to some copy of the
/// move's target. Where that makes too many moves it is the flow itself.
pub fn unfolded(rng: &mut Prng, lts: &Lts) -> Lts {
    let n = lts.states();
    let more = rng.between(0, n.min(MOST_PAGES - n));
    let mut copied: Vec<State> = (0..n).collect();
    copied.extend((0..more).map(|_| rng.below(n)));
    rng.shuffle(&mut copied[1..]);
    let mut transitions = Vec::new();
    for (source, &state) in copied.iter().enumerate() {
        transitions.extend(lts.moves_of(state).iter().map(|step| {
            let copies = (0..copied.len()).filter(|&at| copied[at] == step.target);
            let copies: Vec<State> = copies.collect();
            Transition {
                source,
                action: step.action,
                target: copies[rng.below(copies.len())],
            }
        }));
    }
    if transitions.len() > MOST_MOVES {
        return lts.clone();
    }
    let end_marks = copied.iter().map(|&state| lts.has_end_mark(state));
    Lts::new(lts.actions(), end_marks.collect(), transitions)
}

/// The flow with one end mark more or less.
pub fn other_mark(rng: &mut Prng, lts: &Lts) -> Lts {
    let mut end_marks = lts.end_marks().to_vec();
    let state = rng.below(end_marks.len());
    end_marks[state] = !end_marks[state];
    Lts::new(lts.actions(), end_marks, lts.transitions().to_vec())
}

/// The flow with these moves and with end marks in `marks` percent of the states.
fn marked(rng: &mut Prng, n: usize, m: usize, moves: &[Move], marks: usize) -> Lts {
    let end_marks = (0..n).map(|_| rng.chance(marks)).collect();
    let transition = |&(source, action, target): &Move| Transition {
        source,
        action,
        target,
    };
    Lts::new(m, end_marks, moves.iter().map(transition).collect())
}

/// Two flows with kinds and labels. One has its own, plain or not; those of the
/// other are its own too, partly the one's, or the one's as far as these go.
pub fn labelled(rng: &mut Prng, [first, second]: [Lts; 2]) -> [LabelledLts; 2] {
    if rng.chance(50) {
        let first = random::labelled(rng, &first);
        let second = labelled_beside(rng, second, first.labels());
        return [first, second];
    }
    let second = random::labelled(rng, &second);
    [labelled_beside(rng, first, second.labels()), second]
}

/// A flow with its kind and labels, beside one with these labels.
fn labelled_beside(rng: &mut Prng, lts: Lts, others: &[String]) -> LabelledLts {
    let m = lts.actions();
    match rng.below(10) {
        0..=2 => LabelledLts::plain(lts),
        3 => random::named(rng, &lts),
        4 | 5 => {
            let labels = random::labels_from(rng, others, m);
            LabelledLts::named(lts, labels)
        }
        choice => {
            let mut labels = others.to_vec();
            labels.truncate(m);
            labels.extend(other_labels(rng, others, m - labels.len()));
            let same = LabelledLts::named(lts, labels);
            match choice {
                6 | 7 => same,
                _ => random::renumbered(rng, &same),
            }
        }
    }
}

/// Two small flows with 64, 65 or 66 labels together.
pub fn labels_at_limit(rng: &mut Prng) -> [LabelledLts; 2] {
    let small = |rng: &mut Prng, m: usize| {
        let n = rng.between(1, 8);
        random::lts(rng, n, m, 2 * n, 10)
    };
    let together = MOST_ACTIONS + rng.below(3);
    let m = rng.between(together - MOST_ACTIONS, MOST_ACTIONS);
    let first = small(rng, m);
    let first = random::labelled(rng, &first);
    let mut labels = other_labels(rng, first.labels(), together - m);
    let shared = rng.between(0, m.min(MOST_ACTIONS - labels.len()));
    labels.extend_from_slice(&first.labels()[..shared]);
    rng.shuffle(&mut labels);
    let second = LabelledLts::named(small(rng, labels.len()), labels);
    match rng.below(2) {
        0 => [first, second],
        _ => [second, first],
    }
}

/// A flow to be converted: plain, or named by decimal numbers, by nearly these
/// or by any labels.
pub fn to_convert(rng: &mut Prng, lts: Lts) -> LabelledLts {
    let m = lts.actions();
    let mut labels = decimal(m);
    match rng.below(10) {
        0..=3 => return LabelledLts::plain(lts),
        4..=6 => {}
        7 if m > 0 => {
            let at = [0, m - 1, rng.below(m)][rng.below(3)];
            labels[at] = near_decimal(rng, at + 1, &labels);
        }
        8 if m > 1 => {
            let at = rng.below(m);
            labels.swap(at, (at + rng.between(1, m - 1)) % m);
        }
        _ => labels = random::labels(rng, m),
    }
    LabelledLts::named(lts, labels)
}

/// A label near a number's decimal one that is not among those taken.
fn near_decimal(rng: &mut Prng, number: usize, taken: &[String]) -> String {
    loop {
        let label = match rng.below(8) {
            0 => format!("0{number}"),
            1 => format!("+{number}"),
            2 => format!("{number}{}", rng.below(10)),
            3 => format!("{number}!"),
            4 => format!("{number:0>16}"),
            5 => number.saturating_sub(1).to_string(),
            6 => rng.below(100).to_string(),
            _ => random::label(rng),
        };
        if !taken.contains(&label) {
            return label;
        }
    }
}

/// As many different labels that are not among those taken.
fn other_labels(rng: &mut Prng, taken: &[String], count: usize) -> Vec<String> {
    let mut labels = Vec::new();
    while labels.len() < count {
        let label = random::label(rng);
        if !taken.contains(&label) && !labels.contains(&label) {
            labels.push(label);
        }
    }
    labels
}

/// Moves of some shape.
fn shape(rng: &mut Prng, n: usize, m: usize) -> Vec<Move> {
    let draw = |rng: &mut Prng, count: usize| -> Vec<Move> {
        (0..count)
            .map(|_| (rng.below(n), rng.between(1, m), rng.below(n)))
            .collect()
    };
    match rng.below(8) {
        0 => path(n),
        1 => cycle(0, n),
        2 => {
            let first = rng.between(1, n);
            [cycle(0, first), cycle(first, n - first)].concat()
        }
        3 => tree(n, m),
        4 => {
            let each = rng.between(0, m.min(4));
            loops(rng, n, m, each)
        }
        5 => {
            let mut moves = path(n);
            let each = rng.between(1, m);
            moves.extend(loops(rng, n.min(8), m, each));
            moves
        }
        6 => {
            let most = (n * n * m).min(MOST_MOVES);
            draw(rng, most)
        }
        _ => {
            let count = rng.between(0, 2 * n);
            draw(rng, count)
        }
    }
}
