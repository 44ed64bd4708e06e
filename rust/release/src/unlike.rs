//! Why a pair is outside the ready start: by an end mark, by the actions of the
//! two pages, or by both.
//!
//! The end start says whether the end mark is a reason. Which actions a page has
//! is read off the moves of the joined sheet, and check plan confirms each
//! difference that is told: from the diagonal, where nothing is before it, an
//! entry (p, q, a, t) about two different pages is sound exactly if p, a, t is a
//! move and q has no move by a.

use crate::form::Form;
use crate::joined::{Action, Joined};
use flow::{Entry, Grid};
use std::collections::BTreeMap;

/// How two pages differ that the ready start does not relate.
#[derive(Clone, PartialEq, Eq, Debug)]
pub struct Unlike {
    /// The site's page has the end mark, the rules' has not.
    pub end_mark: bool,
    /// The actions that the rules' page has and the site's has not.
    pub also: Vec<Action>,
    /// The actions that the site's page has and the rules' has not.
    pub not: Vec<Action>,
}

/// The end marks and the actions of all pages.
pub struct Pages<'a> {
    joined: &'a Joined,
    end_start: Grid,
    /// By page, the actions of its moves, each with the target of one of them.
    actions: Vec<BTreeMap<u16, u16>>,
}

impl Pages<'_> {
    pub fn new(joined: &Joined) -> Result<Pages<'_>, String> {
        let mut actions = vec![BTreeMap::new(); joined.rules.end.into()];
        for own in joined.moves()? {
            actions[usize::from(own.source)].insert(own.action, own.target);
        }
        Ok(Pages {
            joined,
            end_start: joined.start_of(Form::Older)?,
            actions,
        })
    }

    /// How a page of the site and one of the rules differ.
    pub fn unlike(&self, site: u16, rules: u16) -> Result<Unlike, String> {
        let unlike = Unlike {
            end_mark: !self.end_start.holds(site.into(), rules.into()),
            also: self.alone(rules, site)?,
            not: self.alone(site, rules)?,
        };
        if !unlike.end_mark && unlike.also.is_empty() && unlike.not.is_empty() {
            return Err(format!("nothing tells ({site},{rules}) apart"));
        }
        Ok(unlike)
    }

    /// The actions that a page has and the other has not, ascending.
    fn alone(&self, page: u16, other: u16) -> Result<Vec<Action>, String> {
        let [own, others] = [page, other].map(|page| &self.actions[usize::from(page)]);
        let mut alone = Vec::new();
        for (&a, &t) in own.iter().filter(|(a, _)| !others.contains_key(a)) {
            let entry = Entry {
                p: page,
                q: other,
                a,
                t,
            };
            if !self.joined.accepts([entry].into_iter())? {
                return Err(format!("check plan does not confirm {entry}"));
            }
            alone.push(self.joined.action(a));
        }
        Ok(alone)
    }
}

#[cfg(test)]
mod tests {
    use super::{Form, Joined, Pages};
    use reference::lts::Lts;
    use reference::sheet;

    /// Pages whose moves are others than the sheet's are found out, whichever
    /// of the two pages it is.
    #[test]
    fn what_check_plan_does_not_confirm_is_a_failure() {
        let [site, rules] = [&[(0, 1, 0), (0, 2, 0)], &[(0, 2, 0), (0, 3, 0)]]
            .map(|moves| sheet::write(&Lts::of(1, 3, moves)));
        let joined = Joined::new(Form::Ready, &site, &rules).unwrap();
        let pages = || Pages::new(&joined).unwrap();
        assert!(pages().unlike(0, 1).is_ok());
        for page in 0..2 {
            // One that has action 2 in truth has it no more.
            let mut fewer = pages();
            fewer.actions[page].remove(&2);
            assert!(fewer.unlike(0, 1).is_err());
            // One has an action that no page has, or a move to another page.
            let mut more = pages();
            more.actions[page].insert(4, 0);
            assert!(more.unlike(0, 1).is_err());
            let mut moved = pages();
            let own = [1, 3][page];
            moved.actions[page].insert(own, 1 - page as u16);
            assert!(moved.unlike(0, 1).is_err());
        }
    }
}
