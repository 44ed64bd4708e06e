//! The verdict on a site and its rules.

use crate::form::Form;
use crate::joined::Joined;
use crate::story::{self, Step};
use flow::{Entry, Refusal};
use std::fmt;

/// What the calls say.
#[derive(Clone, PartialEq, Eq, Debug)]
pub enum Verdict {
    /// The yes of compare, in the form asked for.
    Open { turns: u16 },
    /// Its no, in how many rounds at most the rules lose, and why. The rounds
    /// are the depth that check plan gives for the plan.
    Closed {
        turns: u16,
        rounds: u16,
        reason: Reason,
    },
    /// Its refusal, and the sheet that this is about. None for a joined flow
    /// that is too large or has too many names.
    Refused {
        refusal: Refusal,
        sheet: Option<Sheet>,
    },
}

/// Why the rules cannot follow the site.
#[derive(Clone, PartialEq, Eq, Debug)]
pub enum Reason {
    /// The plan, told as a game.
    Story(Vec<Step>),
    /// The plan's entries, and the names of the joined flow's actions.
    Entries {
        labels: Vec<String>,
        entries: Vec<Entry>,
    },
}

/// One of the two sheets.
#[derive(Clone, Copy, PartialEq, Eq, Debug)]
pub enum Sheet {
    First,
    Second,
}

impl fmt::Display for Sheet {
    fn fmt(&self, f: &mut fmt::Formatter<'_>) -> fmt::Result {
        f.write_str(match self {
            Sheet::First => "first",
            Sheet::Second => "second",
        })
    }
}

/// Compares in the form asked for, and where the answer is no says in how many
/// rounds, and why: by the plan's entries, or by its story. An error is a line on
/// how the proved calls disagree.
pub fn judge(site: &[u8], rules: &[u8], form: Form, entries: bool) -> Result<Verdict, String> {
    let compared = match form.compare(site, rules) {
        Ok(compared) => compared,
        Err(refusal) => return refused(site, rules, refusal),
    };
    let joined = Joined::new(form, site, rules)?;
    joined.confirm(compared)?;
    let turns = compared.turns;
    if compared.yes {
        return Ok(Verdict::Open { turns });
    }
    let (plan, rounds) = joined.plan()?;
    let reason = if entries {
        Reason::Entries {
            labels: joined.labels,
            entries: plan,
        }
    } else {
        Reason::Story(story::tell(&joined, &plan)?)
    };
    Ok(Verdict::Closed {
        turns,
        rounds,
        reason,
    })
}

/// Which sheet a refusal of compare is about. In either form compare reads the
/// first sheet through, then the second; normalise reads one alone by the same
/// rules.
fn refused(site: &[u8], rules: &[u8], refusal: Refusal) -> Result<Verdict, String> {
    let alone = |sheet: &[u8]| flow::normalise(sheet, &mut vec![0; sheet.len()]).err();
    let sheet = match (alone(site), alone(rules)) {
        (Some(own), _) if own == refusal => Some(Sheet::First),
        (None, Some(own)) if own == refusal => Some(Sheet::Second),
        (None, None) if [Refusal::Joined, Refusal::TooManyLabels].contains(&refusal) => None,
        _ => return Err(format!("normalise does not confirm compare's '{refusal}'")),
    };
    Ok(Verdict::Refused { refusal, sheet })
}
