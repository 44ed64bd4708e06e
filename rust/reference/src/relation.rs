//! Relations on states and preorders.

use crate::lts::State;
use crate::refusal::Refusal;
use crate::state_set::StateSet;

/// A relation on the states below n, kept as one set of states per state.
#[derive(Clone, PartialEq, Eq, Debug)]
pub struct Relation {
    rows: Vec<StateSet>,
}

impl Relation {
    /// The relation without pairs, on `n` states.
    pub fn empty(n: usize) -> Relation {
        Relation {
            rows: vec![StateSet::empty(); n],
        }
    }

    /// The relation of all pairs, on `n` states.
    pub fn full(n: usize) -> Relation {
        Relation {
            rows: vec![StateSet::all(n); n],
        }
    }

    /// The diagonal, on `n` states.
    pub fn identity(n: usize) -> Relation {
        Relation::from_fn(n, |p, q| p == q)
    }

    /// The relation of the pairs for which `holds` says yes.
    pub fn from_fn(n: usize, holds: impl Fn(State, State) -> bool) -> Relation {
        let rows = (0..n)
            .map(|p| (0..n).filter(|&q| holds(p, q)).collect())
            .collect();
        Relation { rows }
    }

    /// The relation with the given rows.
    pub fn from_rows(rows: Vec<StateSet>) -> Relation {
        Relation { rows }
    }

    /// The number of states.
    pub fn states(&self) -> usize {
        self.rows.len()
    }

    /// Is (p, q) a pair of the relation?
    pub fn contains(&self, p: State, q: State) -> bool {
        self.rows[p].contains(q)
    }

    /// Adds (p, q).
    pub fn insert(&mut self, p: State, q: State) {
        self.rows[p].insert(q);
    }

    /// Drops (p, q).
    pub fn remove(&mut self, p: State, q: State) {
        self.rows[p].remove(q);
    }

    /// All q with (p, q) in the relation.
    pub fn row(&self, p: State) -> &StateSet {
        &self.rows[p]
    }

    /// Replaces all q with (p, q) in the relation.
    pub fn set_row(&mut self, p: State, row: StateSet) {
        self.rows[p] = row;
    }

    /// All pairs, by p, then q.
    pub fn pairs(&self) -> impl Iterator<Item = (State, State)> + '_ {
        self.rows
            .iter()
            .enumerate()
            .flat_map(|(p, row)| row.iter().map(move |q| (p, q)))
    }

    /// The number of pairs.
    pub fn len(&self) -> usize {
        self.rows.iter().map(StateSet::len).sum()
    }

    /// Has the relation no pairs?
    pub fn is_empty(&self) -> bool {
        self.rows.iter().all(StateSet::is_empty)
    }

    /// Is each pair also in the other relation?
    pub fn is_inside(&self, other: &Relation) -> bool {
        self.pairs().all(|(p, q)| other.contains(p, q))
    }

    /// Is each state related to itself?
    pub fn is_reflexive(&self) -> bool {
        (0..self.states()).all(|p| self.contains(p, p))
    }

    /// Is (p, r) a pair whenever (p, q) and (q, r) are?
    pub fn is_transitive(&self) -> bool {
        self.rows
            .iter()
            .all(|row| row.iter().all(|q| self.row(q).is_subset(row)))
    }

    /// The block of `p`: all r with (p, r) and (r, p) in the relation.
    pub fn block(&self, p: State) -> StateSet {
        self.row(p)
            .iter()
            .filter(|&r| self.contains(r, p))
            .collect()
    }

    /// The representative of the block of `p`, which is its lowest state.
    pub fn representative(&self, p: State) -> State {
        self.row(p)
            .iter()
            .find(|&r| self.contains(r, p))
            .expect("a reflexive relation")
    }

    /// The blocks, in the order of their representatives.
    pub fn blocks(&self) -> Vec<StateSet> {
        let mut seen = StateSet::empty();
        let mut blocks = Vec::new();
        for p in 0..self.states() {
            if !seen.contains(p) {
                let block = self.block(p);
                seen = seen.union(&block);
                blocks.push(block);
            }
        }
        blocks
    }
}

/// A reflexive and transitive relation, called a start in document 01.
#[derive(Clone, PartialEq, Eq, Debug)]
pub struct Preorder {
    relation: Relation,
}

impl Preorder {
    /// The relation as a preorder; refused if it is not reflexive, then if it
    /// is not transitive.
    pub fn new(relation: Relation) -> Result<Preorder, Refusal> {
        if !relation.is_reflexive() {
            return Err(Refusal::NOT_REFLEXIVE);
        }
        if !relation.is_transitive() {
            return Err(Refusal::NOT_TRANSITIVE);
        }
        Ok(Preorder { relation })
    }

    /// The preorder that holds (p, q) unless p has some mark and q has not.
    pub fn of_mark(n: usize, has: impl Fn(State) -> bool) -> Preorder {
        let all = StateSet::all(n);
        let marked = (0..n).filter(|&p| has(p)).collect();
        let rows = (0..n).map(|p| if has(p) { marked } else { all }).collect();
        Preorder {
            relation: Relation::from_rows(rows),
        }
    }

    /// The smallest preorder that holds the given relation.
    pub fn closure(relation: &Relation) -> Preorder {
        let n = relation.states();
        let mut closed = relation.clone();
        for p in 0..n {
            closed.insert(p, p);
        }
        for middle in 0..n {
            for p in 0..n {
                if closed.contains(p, middle) {
                    closed.set_row(p, closed.row(p).union(closed.row(middle)));
                }
            }
        }
        Preorder { relation: closed }
    }

    /// The preorder as a relation.
    pub fn relation(&self) -> &Relation {
        &self.relation
    }

    /// Is (p, q) a pair of the preorder?
    pub fn contains(&self, p: State, q: State) -> bool {
        self.relation.contains(p, q)
    }
}
