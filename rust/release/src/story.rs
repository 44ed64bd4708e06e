//! A plan told as a game: the site moves, the rules reply.

use crate::form::Form;
use crate::joined::{Action, Joined};
use crate::replies::Replies;
use crate::unlike::{Pages, Unlike};
use flow::Entry;
use std::collections::{HashMap, HashSet};

/// One step: a page of the site that a page of the rules cannot follow, each
/// numbered by its own sheet, and why. Steps are numbered from 1.
#[derive(Clone, PartialEq, Eq, Debug)]
pub struct Step {
    pub site: u16,
    pub rules: u16,
    pub why: Why,
}

/// Why a page of the rules cannot follow one of the site.
#[derive(Clone, PartialEq, Eq, Debug)]
pub enum Why {
    /// The older form: the pair is outside the end start. The site's page has
    /// the end mark, the rules' has not.
    EndMark,
    /// The ready form: the pair is outside the ready start.
    Unlike(Unlike),
    /// The site moves, and the rules lose with each reply.
    Move {
        action: Action,
        target: u16,
        replies: Vec<Reply>,
    },
}

/// A page that the rules can reply with, and the later step that beats it.
#[derive(Clone, Copy, PartialEq, Eq, Debug)]
pub struct Reply {
    pub page: u16,
    pub step: usize,
}

/// The part of an accepted plan that its last entry needs, last entry first.
/// An entry needs earlier entries alone, so each step needs later steps alone:
/// the game ends.
pub fn tell(joined: &Joined, plan: &[Entry]) -> Result<Vec<Step>, String> {
    let needed = needed(joined, plan)?;
    let number: HashMap<(u16, u16), usize> = needed
        .iter()
        .enumerate()
        .map(|(at, (entry, _))| ((entry.p, entry.q), at + 1))
        .collect();
    let first = joined.rules.start;
    let unlike = match joined.form {
        Form::Older => None,
        Form::Ready => Some(Pages::new(joined)?),
    };
    let why = |entry: Entry, pages: &[u16]| match entry.a {
        // The pair is outside the start that the form uses.
        0 => match &unlike {
            None => Ok(Why::EndMark),
            Some(pages) => pages.unlike(entry.p, entry.q).map(Why::Unlike),
        },
        action => Ok(Why::Move {
            action: joined.action(action),
            target: entry.t,
            replies: pages
                .iter()
                .map(|&r| Reply {
                    page: r - first,
                    step: number[&(entry.t, r)],
                })
                .collect(),
        }),
    };
    let step = |(entry, pages): &(Entry, Vec<u16>)| {
        Ok(Step {
            site: entry.p,
            rules: entry.q - first,
            why: why(*entry, pages)?,
        })
    };
    needed.iter().map(step).collect()
}

/// The entries that the last one needs, last first, each with its replies.
///
/// All of them are about a page of the site and one of the rules: the last is,
/// moves stay on their side of the joined flow, and so do replies. Entries
/// about two pages of one side are never needed.
fn needed(joined: &Joined, plan: &[Entry]) -> Result<Vec<(Entry, Vec<u16>)>, String> {
    let pair = joined.pair();
    let mut wanted = HashSet::from([(pair.p, pair.q)]);
    let mut replies = Replies::new(joined);
    let mut needed = Vec::new();
    for &entry in plan.iter().rev() {
        if !wanted.remove(&(entry.p, entry.q)) {
            continue;
        }
        let pages = match entry.a {
            0 => Vec::new(),
            _ => replies.to(entry)?,
        };
        wanted.extend(pages.iter().map(|&r| (entry.t, r)));
        needed.push((entry, pages));
    }
    match wanted.iter().next() {
        None => Ok(needed),
        Some((p, q)) => Err(format!("no earlier entry of the plan holds ({p},{q})")),
    }
}
