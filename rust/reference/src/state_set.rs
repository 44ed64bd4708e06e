//! Sets of states, as 256 bits.

use crate::lts::State;

/// The largest number of states that a flow may have.
pub const MOST_STATES: usize = 256;

/// The words of a set.
const WORDS: usize = MOST_STATES / 64;

/// A set of states, each below [`MOST_STATES`].
#[derive(Clone, Copy, PartialEq, Eq, Debug, Default)]
pub struct StateSet {
    words: [u64; WORDS],
}

impl StateSet {
    /// The set without members.
    pub fn empty() -> StateSet {
        StateSet::default()
    }

    /// The set of all states below `n`.
    pub fn all(n: usize) -> StateSet {
        (0..n).collect()
    }

    /// The set whose first words are these; state s is bit s mod 64 of word
    /// s / 64.
    pub fn from_words(first: &[u64]) -> StateSet {
        let mut set = StateSet::empty();
        set.words[..first.len()].copy_from_slice(first);
        set
    }

    /// The words of the set.
    pub fn words(&self) -> &[u64] {
        &self.words
    }

    /// Is `s` a member?
    #[inline]
    pub fn contains(&self, s: State) -> bool {
        self.words[s / 64] >> (s % 64) & 1 == 1
    }

    /// Makes `s` a member.
    #[inline]
    pub fn insert(&mut self, s: State) {
        self.words[s / 64] |= 1 << (s % 64);
    }

    /// Takes `s` out.
    #[inline]
    pub fn remove(&mut self, s: State) {
        self.words[s / 64] &= !(1 << (s % 64));
    }

    /// Has the set no members?
    #[inline]
    pub fn is_empty(&self) -> bool {
        self.words.iter().all(|&w| w == 0)
    }

    /// The number of members.
    pub fn len(&self) -> usize {
        self.words.iter().map(|w| w.count_ones() as usize).sum()
    }

    /// The lowest member.
    pub fn first(&self) -> Option<State> {
        self.iter().next()
    }

    /// Members of this set or of the other.
    #[inline]
    pub fn union(&self, other: &StateSet) -> StateSet {
        self.combine(other, |a, b| a | b)
    }

    /// Members of this set that are also in the other.
    #[inline]
    pub fn intersection(&self, other: &StateSet) -> StateSet {
        self.combine(other, |a, b| a & b)
    }

    /// Members of this set that are not in the other.
    #[inline]
    pub fn without(&self, other: &StateSet) -> StateSet {
        self.combine(other, |a, b| a & !b)
    }

    /// Is each member also in the other set?
    #[inline]
    pub fn is_subset(&self, other: &StateSet) -> bool {
        self.without(other).is_empty()
    }

    /// Do the two sets share a member?
    #[inline]
    pub fn meets(&self, other: &StateSet) -> bool {
        !self.intersection(other).is_empty()
    }

    /// The members, ascending.
    pub fn iter(&self) -> Members {
        Members {
            words: self.words,
            word: 0,
        }
    }

    /// Puts the two sets together word by word.
    #[inline]
    fn combine(&self, other: &StateSet, f: impl Fn(u64, u64) -> u64) -> StateSet {
        let mut words = [0; WORDS];
        for (i, word) in words.iter_mut().enumerate() {
            *word = f(self.words[i], other.words[i]);
        }
        StateSet { words }
    }
}

impl FromIterator<State> for StateSet {
    fn from_iter<I: IntoIterator<Item = State>>(states: I) -> StateSet {
        let mut set = StateSet::empty();
        for s in states {
            set.insert(s);
        }
        set
    }
}

/// The members of a set, ascending.
pub struct Members {
    words: [u64; WORDS],
    word: usize,
}

impl Iterator for Members {
    type Item = State;

    #[inline]
    fn next(&mut self) -> Option<State> {
        while self.word < WORDS {
            let bits = self.words[self.word];
            if bits != 0 {
                self.words[self.word] = bits & (bits - 1);
                return Some(self.word * 64 + bits.trailing_zeros() as usize);
            }
            self.word += 1;
        }
        None
    }
}
