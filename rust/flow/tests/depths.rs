//! The depth that check plan gives, worked out by hand from request L8 of
//! document 02: 0 for a = 0, 1 where q has no a-move, else one more than the
//! largest, over the replies, of the least depth among earlier entries with
//! that pair.

use flow::{Accepted, Entry, Grid, Refusal, ENTRY_BYTES};

/// A move: source, action, target.
type Move = (u16, u16, u16);

/// A sheet and a start.
struct Flow {
    pages: u16,
    sheet: Vec<u8>,
    start: Grid,
}

impl Flow {
    /// A flow with its end marks and moves, those of a page side by side, and
    /// the end start.
    fn marked(marks: &[bool], moves: &[Move]) -> Flow {
        let sheet = sheet(marks, moves);
        let mut start = Grid::new(marks.len());
        flow::end_start(&sheet, start.bytes_mut()).expect("a readable sheet");
        let pages = marks.len() as u16;
        Flow {
            pages,
            sheet,
            start,
        }
    }

    /// The start holds every pair.
    fn all(pages: u16, moves: &[Move]) -> Flow {
        Flow::marked(&vec![false; pages.into()], moves)
    }

    /// The start holds each page with itself alone.
    fn diagonal(pages: u16, moves: &[Move]) -> Flow {
        let start = Grid::diagonal(pages.into());
        Flow {
            start,
            ..Flow::all(pages, moves)
        }
    }

    /// The depth of a plan, which is accepted with the pair of its last entry.
    fn depth(&self, plan: &[Entry]) -> u16 {
        let last = plan[plan.len() - 1];
        let Accepted { pair, depth } = self.check(plan).expect("a sound plan");
        assert_eq!((pair.p, pair.q), (last.p, last.q));
        depth
    }

    fn check(&self, plan: &[Entry]) -> Result<Accepted, Refusal> {
        let plan: Vec<u8> = plan.iter().copied().flat_map(Entry::bytes).collect();
        flow::check_plan(&self.sheet, self.start.bytes(), &plan)
    }

    /// The plan that write plan writes.
    fn written(&self, p: u16, q: u16) -> Result<Vec<Entry>, Refusal> {
        let pages = usize::from(self.pages);
        let mut plan = vec![0; ENTRY_BYTES * pages * pages];
        let (start, [p, q]) = (self.start.bytes(), [p, q].map(u64::from));
        let count = flow::write_plan(&self.sheet, start, p, q, &mut plan)?;
        Ok(flow::entries(&plan).take(count).collect())
    }

    /// Is hand play won in so many rounds?
    fn wins(&self, p: u16, q: u16, rounds: u16) -> bool {
        let [p, q, rounds] = [p, q, rounds].map(u64::from);
        flow::hand_play(&self.sheet, self.start.bytes(), p, q, rounds).expect("few rounds")
    }
}

/// The plain sheet of a flow.
fn sheet(marks: &[bool], moves: &[Move]) -> Vec<u8> {
    let actions = moves.iter().map(|own| own.1).max().unwrap_or(0);
    let mut numbers = vec![marks.len() as u16, actions, moves.len() as u16];
    for (p, &mark) in (0..).zip(marks) {
        let first = (1..).zip(moves).find(|(_, own)| own.0 == p);
        numbers.extend([mark.into(), first.map_or(0, |(record, _)| record)]);
    }
    for (record, &(p, a, t)) in (1..).zip(moves) {
        let next = moves.get(usize::from(record));
        let next = next.map_or(0, |next| if next.0 == p { record + 1 } else { 0 });
        numbers.extend([a, t, next]);
    }
    numbers.into_iter().flat_map(u16::to_le_bytes).collect()
}

const fn entry(p: u16, q: u16, a: u16, t: u16) -> Entry {
    Entry { p, q, a, t }
}

/// Pages 1 to 5 move by action 1, each to the page before it, and page 5 alone
/// moves by action 3. Page 7 replies with page 2 alone, page 9 with page 7, and
/// page 10 with the pages 1, 2 and 3.
const LADDER: [Move; 13] = [
    (1, 1, 0),
    (2, 1, 1),
    (3, 1, 2),
    (4, 1, 3),
    (5, 1, 4),
    (5, 3, 5),
    (6, 1, 5),
    (7, 1, 2),
    (8, 1, 6),
    (9, 1, 7),
    (10, 1, 1),
    (10, 1, 2),
    (10, 1, 3),
];

/// The pages of the ladder.
const RUNGS: u16 = 11;

/// (5, q), where page q has no 3-move: 1.
fn short(q: u16) -> Vec<Entry> {
    vec![entry(5, q, 3, 5)]
}

/// (5, q) down the ladder, where each page replies with the one before it and
/// page 0 has no 1-move: 1, 2 and so on to q + 1.
fn long(q: u16) -> Vec<Entry> {
    (0..=q).map(|r| entry(5 - q + r, r, 1, 4 - q + r)).collect()
}

/// (6, 7), where page 2 is the only reply: one more than (5, 2).
const ONE: [Entry; 1] = [entry(6, 7, 1, 5)];

/// (8, 9), where page 7 is the only reply: one more than (6, 7).
const TOP: [Entry; 1] = [entry(8, 9, 1, 6)];

/// (6, 10), where the replies are 1, 2 and 3: one more than the largest of
/// (5, 1), (5, 2) and (5, 3).
const THREE: [Entry; 1] = [entry(6, 10, 1, 5)];

#[test]
fn of_a_pair_that_comes_again_the_least_counts() {
    let flow = Flow::all(RUNGS, &LADDER);
    let depth = |parts: &[&[Entry]]| flow.depth(&parts.concat());
    let (short, long) = (short(2), long(2)); // (5, 2) at 1 and at 3
    assert_eq!(depth(&[&short, &ONE]), 2);
    assert_eq!(depth(&[&long, &ONE]), 4);
    assert_eq!(depth(&[&short, &long, &ONE]), 2);
    assert_eq!(depth(&[&long, &short, &ONE]), 2);
    // At the end the last entry's own depth counts.
    assert_eq!(depth(&[&short, &long]), 3);
    assert_eq!(depth(&[&long, &short]), 1);
    // It counts for no entry before it: (6, 7) is at 4, and then at 2 too.
    assert_eq!(depth(&[&long, &ONE, &short, &TOP]), 5);
    assert_eq!(depth(&[&long, &ONE, &short, &ONE]), 2);
    assert_eq!(depth(&[&long, &ONE, &short, &ONE, &TOP]), 3);
}

#[test]
fn deeper_than_the_written_plan() {
    let flow = Flow::all(RUNGS, &LADDER);
    // The written plan begins with (5, 2) at 1.
    let plan = [&long(2)[..], &ONE, &TOP].concat();
    for (entries, depth, round) in [(3, 3, 1), (4, 4, 2), (5, 5, 3)] {
        let Entry { p, q, .. } = plan[entries - 1];
        let written = flow.written(p, q).expect("a dropped pair");
        assert_eq!(flow.depth(&plan[..entries]), depth);
        assert_eq!(flow.depth(&written), round);
        assert!(flow.wins(p, q, round) && !flow.wins(p, q, round - 1));
    }
}

#[test]
fn of_several_replies_the_largest_counts() {
    let flow = Flow::all(RUNGS, &LADDER);
    let depth = |parts: &[&[Entry]]| flow.depth(&[&parts.concat()[..], &THREE].concat());
    // (5, 1), (5, 2) and (5, 3) at 1, or at 2, at 3 and at 4.
    let [s1, s2, s3] = [1, 2, 3].map(short);
    let [l1, l2, l3] = [1, 2, 3].map(long);
    assert_eq!(depth(&[&s1, &s2, &s3]), 2);
    assert_eq!(depth(&[&l1, &s2, &s3]), 3);
    assert_eq!(depth(&[&s1, &l2, &s3]), 4);
    assert_eq!(depth(&[&s1, &s2, &l3]), 5);
    assert_eq!(depth(&[&l1, &l2, &s3]), 4);
    assert_eq!(depth(&[&l3, &l2, &l1]), 5);
    // Of each of them the least, whatever comes first.
    assert_eq!(depth(&[&l1, &l2, &l3, &s3]), 4);
    assert_eq!(depth(&[&l1, &s3, &l2, &l3, &s2]), 3);
    assert_eq!(depth(&[&s1, &s2, &s3, &l1, &l2, &l3]), 2);
    assert!(flow.check(&[&l1[..], &l2, &THREE].concat()).is_err());
}

#[test]
fn outside_the_start_and_without_reply() {
    let flow = Flow::diagonal(RUNGS, &LADDER);
    let depth = |parts: &[&[Entry]]| flow.depth(&parts.concat());
    let (outside, short, long) = ([entry(5, 2, 0, 0)], short(2), long(2));
    assert_eq!(depth(&[&outside]), 0);
    assert_eq!(depth(&[&short]), 1);
    assert_eq!(depth(&[&outside, &short]), 1);
    assert_eq!(depth(&[&outside, &ONE]), 1);
    assert_eq!(depth(&[&short, &ONE]), 2);
    assert_eq!(depth(&[&long, &short, &outside, &ONE]), 1);
    assert_eq!(depth(&[&outside, &short, &long, &ONE]), 1);
    // The last entry counts, and not the deepest: 1, 2, 3, 4 and then less.
    assert_eq!(depth(&[&long, &ONE]), 4);
    assert_eq!(depth(&[&long, &ONE, &long[..1]]), 1);
    assert_eq!(depth(&[&long, &ONE, &long[1..2]]), 2);
    assert_eq!(depth(&[&long, &ONE, &outside]), 0);
    // Inside the start it is refused.
    let all = Flow::all(RUNGS, &LADDER);
    assert_eq!(all.check(&outside), Err(Refusal::Unsound));
}

/// Moves by action 1 through some pages and back to the first of them.
fn cycle(first: u16, length: u16) -> impl Iterator<Item = Move> {
    (0..length).map(move |p| (first + p, 1, first + (p + 1) % length))
}

/// Two cycles, of which the pair of their first pages is outside the start, and
/// no other pair of a page of the first and one of the second.
fn two_cycles(first: u16, second: u16) -> Flow {
    let marks: Vec<bool> = (0..first + second).map(|p| p == 0 || p > first).collect();
    let moves: Vec<Move> = cycle(0, first).chain(cycle(first, second)).collect();
    Flow::marked(&marks, &moves)
}

/// The depth of the written plan for a pair, none if the pair is kept. Hand play
/// is won with as many rounds, up to 6, and not with fewer.
fn played(flow: &Flow, p: u16, q: u16) -> Option<u16> {
    let depth = match flow.written(p, q) {
        Ok(plan) => Some(flow.depth(&plan)),
        Err(refusal) => {
            assert_eq!(refusal, Refusal::Kept);
            None
        }
    };
    for rounds in 0..=6 {
        let won = depth.is_some_and(|depth| depth <= rounds);
        assert_eq!(flow.wins(p, q, rounds), won, "{p} {q} {rounds}");
    }
    depth
}

#[test]
fn written_plans_are_as_deep_as_hand_play_takes() {
    let flows = [
        Flow::all(3, &[(0, 1, 1), (2, 1, 2)]),            // F3
        Flow::all(4, &[(0, 1, 1), (1, 1, 2), (2, 1, 3)]), // F4
        Flow::all(RUNGS, &LADDER),
        Flow::diagonal(RUNGS, &LADDER),
        two_cycles(2, 3),
        two_cycles(3, 4),
    ];
    let mut of_depth = [0; 12];
    for flow in &flows {
        for p in 0..flow.pages {
            for depth in (0..flow.pages).filter_map(|q| played(flow, p, q)) {
                of_depth[usize::from(depth)] += 1;
            }
        }
    }
    // Outside the start are 11 * 10 pairs of the diagonal, 3 * 2 and 4 * 3 of a
    // marked page and one that is not. The cycles of 3 and 4 pages have the
    // depths 0 to 11 across.
    assert_eq!(of_depth[0], 110 + 6 + 12);
    assert!(of_depth.iter().all(|&count| count > 0), "{of_depth:?}");
}

/// The pages of the two large cycles. They have no common divisor, so that the
/// way back around both has 127 * 129 = 16,383 pairs.
const FIRST: u16 = 127;
const SECOND: u16 = 129;

/// The page before a page of the two large cycles.
fn before(page: u16) -> u16 {
    match page {
        0 => FIRST - 1,
        FIRST => FIRST + SECOND - 1,
        _ => page - 1,
    }
}

/// So many entries back around the large cycles from a first one: each has one
/// reply, which the entry before it holds, and so is one deeper than that.
fn around(first: Entry, count: usize) -> Vec<Entry> {
    let next = |last: &Entry| Some(entry(before(last.p), before(last.q), 1, last.p));
    std::iter::successors(Some(first), next)
        .take(count)
        .collect()
}

/// The pairs of a page of the first large cycle and one of the second, from the
/// two first pages back: the last is (1, 128).
fn across(first: Entry) -> Vec<Entry> {
    let entries = around(first, 16_383);
    let last = entries[16_382];
    assert_eq!((last.p, last.q), (1, 128));
    entries
}

#[test]
fn around_two_cycles() {
    let flow = two_cycles(FIRST, SECOND);
    let plan = across(entry(0, FIRST, 0, 0));
    for entries in [1, 2, 256, 257, 16_383] {
        assert_eq!(flow.depth(&plan[..entries]), entries as u16 - 1);
    }
    // Both are at their first pages again after 16,382 moves, and not before:
    // that is the round of (1, 128).
    let written = flow.written(1, 128).expect("a dropped pair");
    assert_eq!(flow.depth(&written), 16_382);
}

/// An entry with a = 0 for each pair of different pages.
fn outside() -> impl Iterator<Item = Entry> {
    let pairs = (0..256).flat_map(|p| (0..256).map(move |q| entry(p, q, 0, 0)));
    pairs.filter(|own| own.p != own.q)
}

#[test]
fn more_entries_than_pairs() {
    let moves: Vec<Move> = cycle(0, FIRST).chain(cycle(FIRST, SECOND)).collect();
    let flow = Flow::diagonal(256, &moves);
    // All 65,280 pairs and the first 256 once more: 0. Then by moves, each with
    // its reply's pair at 0: 1.
    let mut plan: Vec<Entry> = outside().chain(outside().take(256)).collect();
    assert_eq!((plan.len(), flow.depth(&plan)), (65_536, 0));
    plan.extend(&across(entry(0, FIRST, 0, 0))[1..]);
    assert_eq!((plan.len(), flow.depth(&plan)), (81_918, 1));
    // Those across alone by moves, behind 65,536 others: 0, 1, 2 and so on.
    let is_across = |own: &Entry| own.p < FIRST && own.q >= FIRST;
    let others: Vec<Entry> = outside().filter(|own| !is_across(own)).collect();
    assert_eq!(others.len(), 65_280 - 16_383);
    let mut plan: Vec<Entry> = others.iter().cycle().take(65_536).copied().collect();
    plan.extend(across(entry(0, FIRST, 0, 0)));
    assert_eq!((plan.len(), flow.depth(&plan)), (81_919, 16_382));
    // The reply's pair at 0 too, and the last entry again.
    plan.extend([entry(2, 129, 0, 0), entry(1, 128, 1, 2)]);
    assert_eq!(flow.depth(&plan), 1);
}

/// The large cycles with moves from the last pair of each part below to the
/// first of the next one. Page 0 alone moves by action 4.
fn with_jumps() -> Vec<Move> {
    let mut moves: Vec<Move> = cycle(0, FIRST).chain(cycle(FIRST, SECOND)).collect();
    moves.extend([(0, 4, 0), (0, 2, 128), (1, 2, 1), (127, 2, 1), (128, 2, 0)]);
    moves.extend([(0, 3, 1), (127, 3, 128)]);
    moves.extend((2..127).chain(129..256).map(|q| (q, 3, q)));
    moves.sort();
    moves
}

/// Every pair of different pages once, each holding the only reply of the next.
fn every_pair() -> Vec<Entry> {
    // Across, from (0, 127), where page 127 has no 4-move: 1 to 16,383.
    let mut plan = across(entry(0, 127, 4, 0));
    // Back across, from (127, 0), whose only reply gives (1, 128), to (128, 1).
    plan.extend(around(entry(127, 0, 2, 1), 16_383));
    // In the first cycle: each class of pairs from (0, q) to (1, q + 1).
    plan.extend(around(entry(0, 1, 2, 128), 127));
    plan.extend((2..127).flat_map(|q| around(entry(0, q, 3, 1), 127)));
    // In the second cycle: from (127, q) to (128, q + 1).
    plan.extend(around(entry(127, 128, 2, 1), 129));
    plan.extend((129..256).flat_map(|q| around(entry(127, q, 3, 128), 129)));
    plan
}

/// No plan on 256 pages is deeper: there are 65,280 pairs of different pages,
/// and only the last entry can come on top of them.
#[test]
fn the_deepest_plan() {
    let flow = Flow::all(256, &with_jumps());
    let mut plan = every_pair();
    for entries in [1, 16_383, 16_384, 32_767, 32_768, 48_769, 65_280] {
        assert_eq!(flow.depth(&plan[..entries]), entries as u16);
    }
    assert_eq!(plan.len(), 65_280);
    // (127, 255) once more: page 127 is its only reply, and (128, 127) the last
    // pair before it.
    plan.push(entry(127, 255, 1, 128));
    assert_eq!(flow.depth(&plan), 65_281);
    // From the diagonal, with every pair at 0 first.
    let flow = Flow::diagonal(256, &with_jumps());
    let plan: Vec<Entry> = outside().chain(plan).collect();
    assert_eq!((plan.len(), flow.depth(&plan)), (130_561, 1));
}
