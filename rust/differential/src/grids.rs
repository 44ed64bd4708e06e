//! Grids as bytes: right ones, and ones that break a rule.

use crate::damage::wrong_length;
use crate::sides::carried;
use reference::grid;
use reference::lts::Lts;
use reference::prng::Prng;
use reference::random;
use reference::relation::{Preorder, Relation};

/// A start of one of many kinds.
pub fn preorder(rng: &mut Prng, lts: &Lts) -> Preorder {
    let n = lts.states();
    match rng.below(6) {
        0 => grid::end_start_of(lts),
        1 => grid::ready_start_of(lts),
        2 => Preorder::closure(&Relation::full(n)),
        3 => Preorder::closure(&Relation::from_fn(n, |p, q| p <= q)),
        _ => random::preorder(rng, n),
    }
}

/// The bytes of a start, now and then broken.
pub fn start(rng: &mut Prng, start: &Preorder, broken: usize) -> Vec<u8> {
    let mut relation = start.relation().clone();
    let n = relation.states();
    if rng.chance(broken) {
        match rng.below(3) {
            0 => {
                let p = rng.below(n);
                relation.remove(p, p);
            }
            1 => change_pair(rng, &mut relation),
            _ => return broken_bytes(rng, &relation),
        }
    }
    carried(&grid::write(&relation))
}

/// Turns one pair over.
pub fn change_pair(rng: &mut Prng, relation: &mut Relation) {
    let (p, q) = (rng.below(relation.states()), rng.below(relation.states()));
    if relation.contains(p, q) {
        relation.remove(p, q);
    } else {
        relation.insert(p, q);
    }
}

/// The bytes of a grid, with a wrong length, a bit for no page, or any bytes.
pub fn broken_bytes(rng: &mut Prng, relation: &Relation) -> Vec<u8> {
    let mut bytes = carried(&grid::write(relation));
    match rng.below(3) {
        0 => {
            let wrong = wrong_length(rng, bytes.len(), 8);
            bytes.resize_with(wrong, || rng.bits() as u8);
        }
        1 => {
            // The last bits of a row.
            let row = bytes.len() / relation.states();
            let at = row * rng.between(1, relation.states()) - 1;
            bytes[at] |= 128 >> rng.below(4);
        }
        _ => bytes.fill_with(|| rng.bits() as u8),
    }
    bytes
}
