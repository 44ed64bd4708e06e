//! The joined flow of a site and its rules, and the proved calls on it.

use crate::form::Form;
use flow::{Compared, Entry, Grid, Move, Pair, Refusal, ENTRY_BYTES, LONGEST_SHEET};
use std::ops::Range;

/// The joined flow of two sheets that compare has read, in either form.
pub struct Joined {
    pub form: Form,
    sheet: Vec<u8>,
    /// The names of its actions, that of action 1 first.
    pub labels: Vec<String>,
    /// The start that the form uses.
    start: Grid,
    /// The start that holds each page with itself alone.
    diagonal: Grid,
    /// The pages that come from the rules' sheet, behind the site's.
    pub rules: Range<u16>,
}

/// An action of the joined flow.
#[derive(Clone, PartialEq, Eq, Debug)]
pub struct Action {
    pub number: u16,
    /// Its name.
    pub label: String,
}

/// What it means that a call refuses here.
fn unexpected(call: &'static str) -> impl Fn(Refusal) -> String {
    move |refusal| format!("{call} gives '{refusal}' on sheets that compare has read")
}

impl Joined {
    /// Joins two sheets.
    pub fn new(form: Form, site: &[u8], rules: &[u8]) -> Result<Joined, String> {
        let mut sheet = vec![0; LONGEST_SHEET];
        let length = flow::join(site, rules, &mut sheet).map_err(unexpected("join"))?;
        sheet.truncate(length);
        let pages = |sheet: &[u8]| flow::pages(sheet).map_err(unexpected("normalise"));
        let rules = pages(site)?..pages(&sheet)?;
        let labels = flow::labels(&sheet).map_err(unexpected("normalise"))?;
        let start = start_of(form, &sheet, rules.end)?;
        Ok(Joined {
            form,
            sheet,
            labels,
            start,
            diagonal: Grid::diagonal(rules.end.into()),
            rules,
        })
    }

    /// The start that a form uses.
    pub fn start_of(&self, form: Form) -> Result<Grid, String> {
        start_of(form, &self.sheet, self.rules.end)
    }

    /// Its moves, by page, action and target.
    pub fn moves(&self) -> Result<Vec<Move>, String> {
        flow::moves(&self.sheet).map_err(unexpected("normalise"))
    }

    /// The action with this number.
    pub fn action(&self, number: u16) -> Action {
        let label = self.labels[usize::from(number) - 1].clone();
        Action { number, label }
    }

    /// The pair that compare is about: page 0 of each sheet.
    pub fn pair(&self) -> Pair {
        Pair {
            p: 0,
            q: self.rules.start,
        }
    }

    /// Does coarsest on the joined sheet say what compare says?
    pub fn confirm(&self, compared: Compared) -> Result<(), String> {
        let pages = usize::from(self.rules.end);
        let (mut kept, mut names) = (Grid::new(pages), vec![0; 2 * pages]);
        let counts = flow::coarsest(
            &self.sheet,
            self.start.bytes(),
            &[],
            kept.bytes_mut(),
            &mut names,
        )
        .map_err(unexpected("coarsest"))?;
        let Pair { p, q } = self.pair();
        if kept.holds(p.into(), q.into()) != compared.yes || counts.turns != compared.turns {
            return Err("coarsest on the joined sheet does not confirm compare".to_string());
        }
        Ok(())
    }

    /// The plan for the pair, written by write plan and accepted by check plan,
    /// and the depth that check plan gives.
    pub fn plan(&self) -> Result<(Vec<Entry>, u16), String> {
        let (pages, pair) = (usize::from(self.rules.end), self.pair());
        let mut plan = vec![0; ENTRY_BYTES * pages * pages];
        let (p, q) = (pair.p.into(), pair.q.into());
        let count = flow::write_plan(&self.sheet, self.start.bytes(), p, q, &mut plan)
            .map_err(unexpected("write plan"))?;
        plan.truncate(ENTRY_BYTES * count);
        let accepted = flow::check_plan(&self.sheet, self.start.bytes(), &plan)
            .map_err(unexpected("check plan"))?;
        if accepted.pair != pair {
            return Err("check plan gives another pair than the plan is for".to_string());
        }
        Ok((flow::entries(&plan).collect(), accepted.depth))
    }

    /// Does check plan accept these entries from the diagonal?
    pub fn accepts(&self, entries: impl Iterator<Item = Entry>) -> Result<bool, String> {
        let plan: Vec<u8> = entries.flat_map(Entry::bytes).collect();
        match flow::check_plan(&self.sheet, self.diagonal.bytes(), &plan) {
            Ok(_) => Ok(true),
            Err(Refusal::Unsound) => Ok(false),
            Err(refusal) => Err(unexpected("check plan")(refusal)),
        }
    }
}

/// The start that a form uses, on a sheet of so many pages.
fn start_of(form: Form, sheet: &[u8], pages: u16) -> Result<Grid, String> {
    let mut start = Grid::new(pages.into());
    form.write_start(sheet, start.bytes_mut())
        .map_err(unexpected(form.start_name()))?;
    Ok(start)
}
