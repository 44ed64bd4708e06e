//! The base algorithm of document 004, section 4: Split, Init and Sim on
//! partition-relation pairs.
//!
//! One thing is added to the listings. Split gives the new block D a copy of
//! C's NotRel, but no line puts D into S, while the proof of Theorem 13 needs
//! that a block is in S exactly if its NotRel is not empty. So D is put into
//! S here when the NotRel that it inherits is not empty.

use crate::lts::{Lts, State};
use crate::relation::{Preorder, Relation};
use crate::state_set::StateSet;

/// A set of blocks, by number. There are never more blocks than states, so a
/// set of states serves.
type BlockSet = StateSet;

/// A block by its number.
type Block = usize;

/// The coarsest simulation inside the start, by function Sim.
pub fn coarsest(lts: &Lts, start: &Preorder) -> Relation {
    let index = Index::new(lts);
    let mut pair = Pair::new(start);
    pair.init(&index);
    pair.sim(&index);
    pair.relation()
}

/// A state with one of its actions, document 004's state-letter.
struct StateLetter {
    state: u32,
    letter: u32,
    /// Where its targets begin and end in the list of all targets.
    post: (u32, u32),
}

/// The transitions as the algorithm scans them, in flat lists.
struct Index {
    letters: usize,
    state_letters: Vec<StateLetter>,
    /// The targets of the transitions, by source, then action.
    targets: Vec<u32>,
    /// The state-letters with a transition into a state, by that state.
    entering: Vec<u32>,
    /// Per state, where its part of `entering` begins; and the end of the last.
    entering_from: Vec<usize>,
}

impl Index {
    /// The lists of a flow.
    fn new(lts: &Lts) -> Index {
        let mut state_letters: Vec<StateLetter> = Vec::new();
        let mut targets = Vec::new();
        let mut pre = vec![Vec::new(); lts.states()];
        // The transitions come by source, then action, then target.
        for (at, t) in lts.transitions().iter().enumerate() {
            let (state, letter, at) = (t.source as u32, t.action as u32, at as u32);
            let same = state_letters
                .last()
                .is_some_and(|last| last.state == state && last.letter == letter);
            if !same {
                state_letters.push(StateLetter {
                    state,
                    letter,
                    post: (at, at),
                });
            }
            let number = state_letters.len() - 1;
            state_letters[number].post.1 = at + 1;
            targets.push(t.target as u32);
            pre[t.target].push(number as u32);
        }
        let mut entering_from = vec![0];
        for list in &pre {
            entering_from.push(entering_from[entering_from.len() - 1] + list.len());
        }
        let letters = lts.actions() + 1;
        Index {
            letters,
            state_letters,
            targets,
            entering: pre.concat(),
            entering_from,
        }
    }

    /// The numbers of the state-letters with a transition into `state`.
    fn pre(&self, state: State) -> impl Iterator<Item = usize> + '_ {
        let range = self.entering_from[state]..self.entering_from[state + 1];
        self.entering[range].iter().map(|&number| number as usize)
    }

    /// Has the state-letter a transition into the set?
    fn enters(&self, sl: &StateLetter, set: &StateSet) -> bool {
        let range = sl.post.0 as usize..sl.post.1 as usize;
        self.targets[range]
            .iter()
            .any(|&t| set.contains(t as State))
    }
}

/// What Split gives back besides the new partition. One is used again and
/// again, so that its lists keep their space.
#[derive(Default)]
struct SplitResult {
    /// The blocks with a state in Remove, as they were before the split.
    touched: Vec<Block>,
    /// The blocks inside Remove.
    blocks_in_remove: Vec<Block>,
    /// Pairs (C, D): D was split off C.
    split_couples: Vec<(Block, Block)>,
}

/// A partition with Rel and NotRel for each block, and the set S.
struct Pair {
    /// The states, arranged so that each block is one stretch.
    order: Vec<State>,
    /// Where each state stands in `order`.
    place: Vec<usize>,
    /// q.block for each state.
    block_of: Vec<Block>,
    /// Where each block begins and ends in `order`.
    stretch: Vec<(usize, usize)>,
    /// Rel for each block.
    rel: Vec<BlockSet>,
    /// NotRel for each block, as a set of states.
    not_rel: Vec<StateSet>,
    /// S, with a mark for each block that is in it.
    s: Vec<Block>,
    in_s: Vec<bool>,
    /// How many states of each block Split has put first; 0 between calls.
    marked: Vec<usize>,
}

impl Pair {
    /// The partition-relation pair of the start.
    fn new(start: &Preorder) -> Pair {
        let n = start.relation().states();
        let blocks = start.relation().blocks();
        let mut pair = Pair {
            order: Vec::with_capacity(n),
            place: vec![0; n],
            block_of: vec![0; n],
            stretch: Vec::with_capacity(n),
            rel: Vec::with_capacity(n),
            not_rel: vec![StateSet::empty(); blocks.len()],
            s: Vec::new(),
            in_s: vec![false; blocks.len()],
            marked: vec![0; blocks.len()],
        };
        for (number, block) in blocks.iter().enumerate() {
            let from = pair.order.len();
            for q in block.iter() {
                pair.place[q] = pair.order.len();
                pair.block_of[q] = number;
                pair.order.push(q);
            }
            pair.stretch.push((from, pair.order.len()));
        }
        for block in &blocks {
            let q = block.first().expect("a block has a member");
            let rel = start
                .relation()
                .row(q)
                .iter()
                .map(|r| pair.block_of[r])
                .collect();
            pair.rel.push(rel);
        }
        pair
    }

    /// The number of blocks.
    fn blocks(&self) -> usize {
        self.stretch.len()
    }

    /// The states of a block.
    fn states(&self, block: Block) -> &[State] {
        let (from, to) = self.stretch[block];
        &self.order[from..to]
    }

    /// The union of the blocks of a set.
    fn union_of(&self, blocks: &BlockSet) -> StateSet {
        blocks
            .iter()
            .flat_map(|b| self.states(b).iter().copied())
            .collect()
    }

    /// Puts a block into S.
    fn push_s(&mut self, block: Block) {
        if !self.in_s[block] {
            self.in_s[block] = true;
            self.s.push(block);
        }
    }

    /// Function Split. `remove` holds no state twice.
    fn split(&mut self, remove: &[State], result: &mut SplitResult) {
        result.touched.clear();
        result.blocks_in_remove.clear();
        result.split_couples.clear();
        for &r in remove {
            let c = self.block_of[r];
            if self.marked[c] == 0 {
                result.touched.push(c);
            }
            // Move r to the front part of its block.
            let to = self.stretch[c].0 + self.marked[c];
            let from = self.place[r];
            let other = self.order[to];
            self.order.swap(from, to);
            self.place[r] = to;
            self.place[other] = from;
            self.marked[c] += 1;
        }
        for &c in &result.touched {
            let (from, to) = self.stretch[c];
            let middle = from + self.marked[c];
            self.marked[c] = 0;
            if middle == to {
                result.blocks_in_remove.push(c);
                continue;
            }
            let d = self.blocks();
            self.stretch[c] = (middle, to);
            self.stretch.push((from, middle));
            self.rel.push(self.rel[c]);
            self.not_rel.push(self.not_rel[c]);
            self.in_s.push(false);
            self.marked.push(0);
            for at in from..middle {
                self.block_of[self.order[at]] = d;
            }
            result.blocks_in_remove.push(d);
            result.split_couples.push((c, d));
        }
        for &(c, d) in &result.split_couples {
            for rel in &mut self.rel {
                if rel.contains(c) {
                    rel.insert(d);
                }
            }
        }
    }

    /// Function Init, from its line 5 on.
    fn init(&mut self, index: &Index) {
        let mut remove = vec![Vec::new(); index.letters];
        for sl in &index.state_letters {
            remove[sl.letter as usize].push(sl.state as State);
        }
        let mut result = SplitResult::default();
        for letter in remove.iter().filter(|r| !r.is_empty()) {
            self.split(letter, &mut result);
            let inside: BlockSet = result.blocks_in_remove.iter().copied().collect();
            for c in inside.iter() {
                self.rel[c] = self.rel[c].intersection(&inside);
            }
        }
        let all = StateSet::all(self.order.len());
        for c in 0..self.blocks() {
            self.not_rel[c] = all.without(&self.union_of(&self.rel[c]));
            if !self.not_rel[c].is_empty() {
                self.push_s(c);
            }
        }
    }

    /// Function Sim, from its line 2 on.
    fn sim(&mut self, index: &Index) {
        let mut remove: Vec<Vec<State>> = vec![Vec::new(); index.letters];
        let mut pre_b: Vec<Vec<State>> = vec![Vec::new(); index.letters];
        let mut alph: Vec<usize> = Vec::new();
        // Per state-letter, the last pass in which it was looked at.
        let mut seen = vec![0u32; index.state_letters.len()];
        let mut pass = 0;
        let mut result = SplitResult::default();
        while let Some(b) = self.s.pop() {
            self.in_s[b] = false;
            // Lines 7 to 9.
            pass += 1;
            let related = self.union_of(&self.rel[b]);
            for target in self.not_rel[b].iter() {
                for at in index.pre(target) {
                    if seen[at] == pass {
                        continue;
                    }
                    seen[at] = pass;
                    let sl = &index.state_letters[at];
                    if !index.enters(sl, &related) {
                        let letter = sl.letter as usize;
                        if remove[letter].is_empty() {
                            alph.push(letter);
                        }
                        remove[letter].push(sl.state as State);
                    }
                }
            }
            self.not_rel[b] = StateSet::empty();
            // Lines 11 and 12.
            pass += 1;
            for &target in self.states(b) {
                for at in index.pre(target) {
                    let sl = &index.state_letters[at];
                    let letter = sl.letter as usize;
                    if seen[at] != pass && !remove[letter].is_empty() {
                        seen[at] = pass;
                        pre_b[letter].push(sl.state as State);
                    }
                }
            }
            // Lines 13 to 24.
            for letter in alph.drain(..) {
                self.refine(&remove[letter], &pre_b[letter], &mut result);
                remove[letter].clear();
                pre_b[letter].clear();
            }
        }
    }

    /// Lines 14 to 22 of Sim, for one letter.
    fn refine(&mut self, remove: &[State], pre_b: &[State], result: &mut SplitResult) {
        self.split(remove, result);
        for &(c, d) in &result.split_couples {
            if !self.not_rel[d].is_empty() {
                self.push_s(d); // the added line
            }
            self.unrelate(c, d);
        }
        if pre_b.is_empty() {
            return;
        }
        let before_b: BlockSet = pre_b.iter().map(|&q| self.block_of[q]).collect();
        for &d in &result.blocks_in_remove {
            for c in before_b.iter() {
                if self.rel[c].contains(d) {
                    self.unrelate(c, d);
                }
            }
        }
    }

    /// Takes D out of C's Rel and puts its states into C's NotRel.
    fn unrelate(&mut self, c: Block, d: Block) {
        self.rel[c].remove(d);
        let (from, to) = self.stretch[d];
        for at in from..to {
            let state = self.order[at];
            self.not_rel[c].insert(state);
        }
        self.push_s(c);
    }

    /// The relation on states.
    fn relation(&self) -> Relation {
        let rows: Vec<StateSet> = self.rel.iter().map(|rel| self.union_of(rel)).collect();
        Relation::from_rows(self.block_of.iter().map(|&b| rows[b]).collect())
    }
}
