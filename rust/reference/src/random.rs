//! Random flows, preorders, schedules, plans, labels and sheets for tests and
//! cases.

use crate::labels::{Kind, LabelledLts, LABEL};
use crate::lts::{Lts, Transition};
use crate::plans::{Entry, LeastDepths, Rounds, Strategy};
use crate::prng::Prng;
use crate::relation::{Preorder, Relation};
use crate::sheet;

/// A flow with about `k` random transitions and end marks in `marks` percent
/// of the states.
pub fn lts(rng: &mut Prng, n: usize, m: usize, k: usize, marks: usize) -> Lts {
    let mut transitions = Vec::new();
    if m > 0 {
        for _ in 0..k {
            let (source, action, target) = (rng.below(n), rng.between(1, m), rng.below(n));
            transitions.push(Transition {
                source,
                action,
                target,
            });
        }
    }
    let end_marks = (0..n).map(|_| rng.chance(marks)).collect();
    Lts::new(m, end_marks, transitions)
}

/// A flow with exactly `k` different random transitions.
pub fn lts_exact(rng: &mut Prng, n: usize, m: usize, k: usize, marks: usize) -> Lts {
    let mut transitions: Vec<Transition> = Vec::new();
    while transitions.len() < k {
        let (source, action, target) = (rng.below(n), rng.between(1, m), rng.below(n));
        let transition = Transition {
            source,
            action,
            target,
        };
        if !transitions.contains(&transition) {
            transitions.push(transition);
        }
    }
    let end_marks = (0..n).map(|_| rng.chance(marks)).collect();
    Lts::new(m, end_marks, transitions)
}

/// A flow that mostly goes forward from a page to a near later one, so that
/// pairs fall in many different rounds.
pub fn forward(rng: &mut Prng, n: usize, m: usize, marks: usize) -> Lts {
    let mut transitions = Vec::new();
    for source in 0..n {
        for _ in 0..rng.between(0, 3) {
            let target = if rng.chance(10) {
                rng.below(n)
            } else {
                source + rng.between(1, 3)
            };
            if target < n {
                transitions.push(Transition {
                    source,
                    action: rng.between(1, m),
                    target,
                });
            }
        }
    }
    let end_marks = (0..n).map(|_| rng.chance(marks)).collect();
    Lts::new(m, end_marks, transitions)
}

/// A small flow of one of several shapes.
pub fn small(rng: &mut Prng, most_states: usize, most_actions: usize) -> Lts {
    let n = rng.between(1, most_states);
    let m = rng.between(0, most_actions);
    let marks = [0, 0, 10, 30, 50][rng.below(5)];
    if m > 0 && rng.chance(30) {
        return forward(rng, n, m, marks);
    }
    let most = n * rng.between(1, 4);
    let k = rng.between(0, most);
    lts(rng, n, m, k, marks)
}

/// The flow without some of its transitions, `most` at most.
pub fn fewer(rng: &mut Prng, lts: &Lts, most: usize) -> Lts {
    let mut transitions = lts.transitions().to_vec();
    for _ in 0..rng.between(0, most) {
        if !transitions.is_empty() {
            transitions.swap_remove(rng.below(transitions.len()));
        }
    }
    Lts::new(lts.actions(), lts.end_marks().to_vec(), transitions)
}

/// A preorder of one of several shapes.
pub fn preorder(rng: &mut Prng, n: usize) -> Preorder {
    let relation = match rng.below(6) {
        0 => Relation::identity(n),
        1 => Relation::full(n),
        2 => {
            // Every state has a level; lower levels go to higher ones.
            let levels = rng.between(1, 4);
            let level: Vec<usize> = (0..n).map(|_| rng.below(levels)).collect();
            Relation::from_fn(n, |p, q| level[p] <= level[q])
        }
        3 => {
            // A few classes without pairs between them.
            let classes = rng.between(1, 3);
            let class: Vec<usize> = (0..n).map(|_| rng.below(classes)).collect();
            Relation::from_fn(n, |p, q| class[p] == class[q])
        }
        4 => {
            // Inclusion of random feature sets.
            let features: Vec<usize> = (0..n).map(|_| rng.below(8)).collect();
            Relation::from_fn(n, |p, q| features[p] & features[q] == features[p])
        }
        _ => {
            let pairs = rng.below(2 * n + 1);
            let mut relation = Relation::empty(n);
            for _ in 0..pairs {
                relation.insert(rng.below(n), rng.below(n));
            }
            relation
        }
    };
    Preorder::closure(&relation)
}

/// A schedule of any values.
pub fn schedule(rng: &mut Prng, most: usize) -> Vec<u16> {
    let length = rng.below(most + 1);
    match rng.below(4) {
        0 => vec![u16::MAX; length],
        1 => (0..length).map(|_| rng.below(4) as u16).collect(),
        2 => (0..length).map(|i| i as u16).collect(),
        _ => (0..length).map(|_| rng.bits() as u16).collect(),
    }
}

/// A plan of as many sound entries, seldom a written one: pairs come again at
/// other depths, and often the last entry is deeper than the round of its
/// pair. It has no entries if no pair is dropped.
pub fn sound_plan(rng: &mut Prng, lts: &Lts, start: &Preorder, entries: usize) -> Strategy {
    let rounds = Rounds::of(lts, start);
    let mut least = LeastDepths::default();
    let (mut sound, mut waiting) = (Vec::new(), entries_of(lts, start));
    let mut plan = Strategy::default();
    for _ in 0..entries {
        let ready = |entry: &Entry| least.depth(lts, entry).is_some();
        sound.extend(waiting.iter().copied().filter(ready));
        waiting.retain(|entry| !ready(entry));
        if sound.is_empty() {
            break;
        }
        let depth = |entry: &Entry| least.depth(lts, entry).expect("a sound entry");
        let entry = match rng.below(6) {
            0 => sound[rng.below(sound.len())],
            // One that holds its pair at another depth than before.
            1 | 2 => farthest(rng, &sound, |entry| {
                let before = least.of(entry.p, entry.q);
                before.map_or(0, |before| depth(entry).abs_diff(before))
            }),
            // One that is deeper than the round of its pair.
            _ => farthest(rng, &sound, |entry| {
                let round = rounds.falls_at(entry.p.into(), entry.q.into());
                depth(entry) - round.expect("a dropped pair")
            }),
        };
        let depth = depth(&entry);
        least.add(&entry, depth);
        plan.entries.push(entry);
    }
    plan
}

/// Of a few of the entries, the one that is the farthest.
fn farthest(rng: &mut Prng, entries: &[Entry], far: impl Fn(&Entry) -> usize) -> Entry {
    (0..16)
        .map(|_| entries[rng.below(entries.len())])
        .max_by_key(far)
        .expect("there are a few")
}

/// All entries that are sound where earlier ones hold their replies' pairs.
fn entries_of(lts: &Lts, start: &Preorder) -> Vec<Entry> {
    let entry = |numbers: [usize; 4]| {
        let [p, q, a, t] = numbers.map(|number| number as u16);
        Entry { p, q, a, t }
    };
    let mut entries = Vec::new();
    for q in 0..lts.states() {
        let outside = (0..lts.states()).filter(|&p| !start.contains(p, q));
        entries.extend(outside.map(|p| entry([p, q, 0, 0])));
        let moves = lts.transitions().iter();
        entries.extend(moves.map(|m| entry([m.source, q, m.action, m.target])));
    }
    entries
}

/// A label of one of several sorts, some of which often share their beginning.
pub fn label(rng: &mut Prng) -> String {
    let any = |rng: &mut Prng| rng.between(0x21, 0x7e) as u8 as char;
    let long = "open_the_gate_of_the_flock";
    match rng.below(6) {
        0 => any(rng).to_string(),
        1 => (0..LABEL).map(|_| any(rng)).collect(),
        2 => rng.between(0, 70).to_string(),
        // A beginning of the same text, and one letter more.
        3 => long[..rng.below(LABEL)].to_string() + ["a", "b", "~"][rng.below(3)],
        // 16 bytes, of which only the last differs.
        4 => format!("{}{}", &long[..LABEL - 1], any(rng)),
        _ => (0..rng.between(1, LABEL)).map(|_| any(rng)).collect(),
    }
}

/// As many different labels.
pub fn labels(rng: &mut Prng, m: usize) -> Vec<String> {
    labels_from(rng, &[], m)
}

/// As many different labels, about half of them from the pool.
pub fn labels_from(rng: &mut Prng, pool: &[String], m: usize) -> Vec<String> {
    let mut labels: Vec<String> = Vec::new();
    while labels.len() < m {
        let label = if !pool.is_empty() && rng.chance(50) {
            pool[rng.below(pool.len())].clone()
        } else {
            label(rng)
        };
        if !labels.contains(&label) {
            labels.push(label);
        }
    }
    labels
}

/// The flow with random labels.
pub fn named(rng: &mut Prng, lts: &Lts) -> LabelledLts {
    LabelledLts::named(lts.clone(), labels(rng, lts.actions()))
}

/// The flow as one of either kind.
pub fn labelled(rng: &mut Prng, lts: &Lts) -> LabelledLts {
    if rng.chance(50) {
        LabelledLts::plain(lts.clone())
    } else {
        named(rng, lts)
    }
}

/// The flow as a named one with its actions in a random order.
pub fn renumbered(rng: &mut Prng, labelled: &LabelledLts) -> LabelledLts {
    let mut numbers: Vec<usize> = (1..=labelled.labels().len()).collect();
    rng.shuffle(&mut numbers);
    labelled.renumbered(&numbers)
}

/// A readable sheet of the flow, of its own kind, with its records and chains
/// in a random order.
pub fn shuffled_labelled(rng: &mut Prng, labelled: &LabelledLts) -> Vec<u8> {
    let plain = shuffled_sheet(rng, labelled.lts());
    match labelled.kind() {
        Kind::Plain => plain,
        Kind::Named => sheet::with_labels(&plain, labelled.labels()),
    }
}

/// A readable plain sheet of the flow with its records in a random order and
/// its chains linked in a random order.
pub fn shuffled_sheet(rng: &mut Prng, lts: &Lts) -> Vec<u8> {
    let k = lts.transitions().len();
    let mut numbers: Vec<usize> = (1..=k).collect();
    rng.shuffle(&mut numbers);
    let mut chains: Vec<Vec<usize>> = vec![Vec::new(); lts.states()];
    let mut moves = vec![(0, 0); k];
    for (transition, &number) in lts.transitions().iter().zip(&numbers) {
        moves[number - 1] = (transition.action, transition.target);
        chains[transition.source].push(number);
    }
    for chain in &mut chains {
        rng.shuffle(chain);
    }
    let mut next = vec![0; k];
    for chain in &chains {
        for link in chain.windows(2) {
            next[link[0] - 1] = link[1];
        }
    }
    let mut bytes = Vec::with_capacity(sheet::length(lts.states(), k));
    let number = |bytes: &mut Vec<u8>, value: usize| bytes.extend((value as u16).to_le_bytes());
    for count in [lts.states(), lts.actions(), k] {
        number(&mut bytes, count);
    }
    for (p, chain) in chains.iter().enumerate() {
        bytes.extend([u8::from(lts.has_end_mark(p)), 0]);
        number(&mut bytes, chain.first().copied().unwrap_or(0));
    }
    for (place, &(action, target)) in moves.iter().enumerate() {
        bytes.extend([action as u8, 0]);
        number(&mut bytes, target);
        number(&mut bytes, next[place]);
    }
    bytes
}
