//! The replies of the rules to a move of the site, found by check plan.
//!
//! From the diagonal, where each page is related to itself alone, an entry
//! (t, r, 0, 0) with two different pages is sound: its pair is outside the
//! start. So where p, a, t is a move, a plan of such entries and then
//! (p, q, a, t) is accepted exactly if each move q, a, r has its entry (t, r):
//! if the pages r of these entries are enough to hold all replies of q by a.
//! The move's target t is a page of the site and the replies are pages of the
//! rules, hence different.

use crate::joined::Joined;
use flow::Entry;
use std::collections::hash_map::{self, HashMap};

/// The replies of the rules, each found once.
pub struct Replies<'a> {
    joined: &'a Joined,
    /// By page and action.
    known: HashMap<(u16, u16), Vec<u16>>,
}

impl Replies<'_> {
    pub fn new(joined: &Joined) -> Replies<'_> {
        Replies {
            joined,
            known: HashMap::new(),
        }
    }

    /// The pages that the rules can reply with to the entry's move, ascending.
    pub fn to(&mut self, entry: Entry) -> Result<Vec<u16>, String> {
        match self.known.entry((entry.q, entry.a)) {
            hash_map::Entry::Occupied(known) => Ok(known.get().clone()),
            hash_map::Entry::Vacant(place) => Ok(place.insert(find(self.joined, entry)?).clone()),
        }
    }
}

/// The replies to the entry's move.
fn find(joined: &Joined, entry: Entry) -> Result<Vec<u16>, String> {
    let first = joined.rules.start;
    let mut below = joined.rules.end;
    if !are_enough(joined, entry, below, &[])? {
        return Err(format!("{entry} is no move of the site"));
    }
    // At every turn the pages below `below` and the replies found are enough.
    let mut replies = Vec::new();
    while !are_enough(joined, entry, first, &replies)? {
        if below == first {
            return Err(format!(
                "check plan asks for more replies to {entry} than there are"
            ));
        }
        below = highest(joined, entry, below, &replies)?;
        replies.push(below);
    }
    replies.reverse();
    Ok(replies)
}

/// The highest reply below a page: those below it are enough with the replies
/// found, and alone the replies found are not.
fn highest(joined: &Joined, entry: Entry, below: u16, found: &[u16]) -> Result<u16, String> {
    // The pages below `few` are not enough, those below `many` are.
    let (mut few, mut many) = (joined.rules.start, below);
    while many - few > 1 {
        let middle = few + (many - few) / 2;
        if are_enough(joined, entry, middle, found)? {
            many = middle;
        } else {
            few = middle;
        }
    }
    Ok(many - 1)
}

/// Are all replies among the rules' pages below a page and those found?
fn are_enough(joined: &Joined, entry: Entry, below: u16, found: &[u16]) -> Result<bool, String> {
    let pages = (joined.rules.start..below).chain(found.iter().copied());
    let outside = pages.map(|r| Entry {
        p: entry.t,
        q: r,
        a: 0,
        t: 0,
    });
    joined.accepts(outside.chain([entry]))
}
