//! Compare: two flows joined into one.

use crate::grid;
use crate::labels::{Kind, LabelledLts};
use crate::lts::{Action, Lts, Transition};
use crate::refusal::Refusal;
use crate::relation::Preorder;
use crate::sheet;
use crate::turns;

/// The joined flow of two plain ones: actions are matched by number.
pub fn join(first: &Lts, second: &Lts) -> Result<Lts, Refusal> {
    refuse_size(first, second)?;
    let actions = first.actions().max(second.actions());
    Ok(side_by_side(first, second, actions, |action| action))
}

/// The joined flow: actions are matched by label, and are those of the
/// joined labels. It is plain where both flows are.
pub fn join_labelled(first: &LabelledLts, second: &LabelledLts) -> Result<LabelledLts, Refusal> {
    refuse_size(first.lts(), second.lts())?;
    let labels = joined_labels(first.labels(), second.labels());
    if labels.len() > sheet::MOST_ACTIONS {
        return Err(Refusal::TOO_MANY_LABELS);
    }
    let number_of = |action: Action| {
        let label = &second.labels()[action - 1];
        1 + labels
            .iter()
            .position(|joined| joined == label)
            .expect("each label is among the joined ones")
    };
    let lts = side_by_side(first.lts(), second.lts(), labels.len(), number_of);
    if [first.kind(), second.kind()] == [Kind::Plain; 2] {
        return Ok(LabelledLts::plain(lts));
    }
    Ok(LabelledLts::named(lts, labels))
}

/// The first's labels in order, then the second's new ones in theirs.
pub fn joined_labels(first: &[String], second: &[String]) -> Vec<String> {
    let new = second.iter().filter(|label| !first.contains(label));
    first.iter().chain(new).cloned().collect()
}

/// Refuses two flows with too many pages or moves together.
fn refuse_size(first: &Lts, second: &Lts) -> Result<(), Refusal> {
    let pages = first.states() + second.states();
    let moves = first.transitions().len() + second.transitions().len();
    if pages > sheet::MOST_PAGES || moves > sheet::MOST_MOVES {
        return Err(Refusal::JOIN);
    }
    Ok(())
}

/// The flow in which the second's states follow the first's, and the second's
/// actions have other numbers.
fn side_by_side(
    first: &Lts,
    second: &Lts,
    actions: usize,
    number_of: impl Fn(Action) -> Action,
) -> Lts {
    let shift = first.states();
    let end_marks = [first.end_marks(), second.end_marks()].concat();
    let shifted = second.transitions().iter().map(|t| Transition {
        source: t.source + shift,
        action: number_of(t.action),
        target: t.target + shift,
    });
    let transitions = first.transitions().iter().copied().chain(shifted).collect();
    Lts::new(actions, end_marks, transitions)
}

/// Compare: does page 0 of the second flow simulate page 0 of the first, and
/// in how many turns is that found?
pub fn compare(first: &[u8], second: &[u8]) -> Result<(bool, usize), Refusal> {
    compare_from(first, second, grid::end_start_of)
}

/// Compare ready: the same with the ready start of the joined flow, so that
/// only pages with the same actions are related.
pub fn compare_ready(first: &[u8], second: &[u8]) -> Result<(bool, usize), Refusal> {
    compare_from(first, second, grid::ready_start_of)
}

/// Is page 0 of the second flow kept for page 0 of the first under the start
/// that the joined flow has, and after how many turns?
fn compare_from(
    first: &[u8],
    second: &[u8],
    start_of: fn(&Lts) -> Preorder,
) -> Result<(bool, usize), Refusal> {
    let first = sheet::read_labelled(first)?;
    let second = sheet::read_labelled(second)?;
    let joined = join_labelled(&first, &second)?;
    let joined = joined.lts();
    let outcome = turns::run(joined, &start_of(joined), &[]);
    let kept = outcome.kept.contains(0, first.lts().states());
    Ok((kept, outcome.turns))
}
