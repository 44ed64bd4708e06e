//! The turn rule of document 01, taken literally.

use crate::grid;
use crate::lts::{Action, Lts, State, Transition};
use crate::refusal::Refusal;
use crate::relation::{Preorder, Relation};
use crate::sheet;
use crate::state_set::StateSet;

/// A set of actions. No action is as large as 256, so a set of states serves.
type ActionSet = StateSet;

/// The two relations that the turns work on.
pub struct Turns {
    /// The transitions of each action; none has action 0.
    moves: Vec<Vec<Transition>>,
    /// K, the pairs still kept.
    k: Relation,
    /// V, what each state's block was last compared with.
    v: Relation,
}

/// What the turns come to.
#[derive(Clone, PartialEq, Eq, Debug)]
pub struct Outcome {
    /// The number of turns made.
    pub turns: usize,
    /// K at the end.
    pub kept: Relation,
}

impl Turns {
    /// The beginning: V is all pairs, K is the start without each (p, q)
    /// where p has an action that q has not.
    pub fn begin(lts: &Lts, start: &Preorder) -> Turns {
        let n = lts.states();
        let can = |p: State| lts.moves_of(p).iter().map(|step| step.action).collect();
        let actions: Vec<ActionSet> = (0..n).map(can).collect();
        let lacks = |p: State, q: State| !actions[p].is_subset(&actions[q]);
        let k = Relation::from_fn(n, |p, q| start.contains(p, q) && !lacks(p, q));
        let mut moves = vec![Vec::new(); lts.actions() + 1];
        for &t in lts.transitions() {
            moves[t.action].push(t);
        }
        Turns {
            moves,
            k,
            v: Relation::full(n),
        }
    }

    /// K as it is now.
    pub fn kept(&self) -> &Relation {
        &self.k
    }

    /// V as it is now.
    pub fn viewed(&self) -> &Relation {
        &self.v
    }

    /// The pending blocks, in order of name: those whose V row differs from
    /// their K row. The row of the name serves for the whole block.
    pub fn pending(&self) -> Vec<StateSet> {
        let is_pending = |block: &StateSet| {
            let name = block.first().expect("a block has a member");
            self.v.row(name) != self.k.row(name)
        };
        self.k.blocks().into_iter().filter(is_pending).collect()
    }

    /// Makes one turn with the turn-list number `e`; false, and nothing
    /// done, if nothing is pending.
    pub fn turn(&mut self, e: u16) -> bool {
        let pending = self.pending();
        if pending.is_empty() {
            return false;
        }
        let b = pending[usize::from(e) % pending.len()];
        let name = b.first().expect("a block has a member");
        let y = *self.k.row(name);
        let n = self.v.row(name).without(&y);
        for p in b.iter() {
            self.v.set_row(p, y);
        }
        for a in 1..self.moves.len() {
            self.act(a, &b, &y, &n);
        }
        true
    }

    /// The states with an `a`-transition into `targets`.
    fn sources(&self, a: Action, targets: &StateSet) -> StateSet {
        self.moves[a]
            .iter()
            .filter(|t| targets.contains(t.target))
            .map(|t| t.source)
            .collect()
    }

    /// Steps 1, 2 and 3 of a turn for one action.
    fn act(&mut self, a: Action, b: &StateSet, y: &StateSet, n: &StateSet) {
        // Step 1: an a-move into N and none into Y.
        let rem = self.sources(a, n).without(&self.sources(a, y));
        if rem.is_empty() {
            return; // steps 2 and 3 drop nothing
        }
        // Step 2: inside each block, from outside Rem to inside.
        for block in self.k.blocks() {
            for g in block.without(&rem).iter() {
                for h in block.intersection(&rem).iter() {
                    self.k.remove(g, h);
                }
            }
        }
        // Step 3: with blocks taken anew, whole products C × D.
        let into_b = self.sources(a, b);
        let blocks = self.k.blocks();
        for c in blocks.iter().filter(|c| c.meets(&into_b)) {
            for d in blocks.iter().filter(|d| d.is_subset(&rem)) {
                for p in c.iter() {
                    self.k.set_row(p, self.k.row(p).without(d));
                }
            }
        }
    }
}

/// Makes turns with the schedule until nothing is pending.
pub fn run(lts: &Lts, start: &Preorder, schedule: &[u16]) -> Outcome {
    let mut turns = Turns::begin(lts, start);
    let mut count = 0;
    while turns.turn(schedule.get(count).copied().unwrap_or(0)) {
        count += 1;
    }
    Outcome {
        turns: count,
        kept: turns.k,
    }
}

/// Coarsest: writes the kept pairs and each state's block name; gives the
/// number of turns, of kept pairs and of blocks. A refusal leaves both
/// buffers as they are.
pub fn coarsest(
    sheet: &[u8],
    start: &[u64],
    turn_list: &[u16],
    grid: &mut [u64],
    names: &mut [u16],
) -> Result<(usize, usize, usize), Refusal> {
    let lts = sheet::read(sheet)?;
    let n = lts.states();
    let start = grid::read_start(start, n)?;
    if grid.len() != grid::length(n) || names.len() != n {
        return Err(Refusal::BUFFER);
    }
    let outcome = run(&lts, &start, turn_list);
    grid.copy_from_slice(&grid::write(&outcome.kept));
    for (p, name) in names.iter_mut().enumerate() {
        *name = outcome.kept.representative(p) as u16;
    }
    let kept = grid.iter().map(|word| word.count_ones() as usize).sum();
    let blocks = outcome.kept.blocks().len();
    Ok((outcome.turns, kept, blocks))
}
