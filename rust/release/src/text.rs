//! A verdict in lines of text.

use crate::joined::Action;
use crate::story::{Reply, Step, Why};
use crate::unlike::Unlike;
use crate::verdict::{Reason, Verdict};

/// The lines that the tool prints.
pub fn lines(verdict: &Verdict) -> String {
    match verdict {
        Verdict::Open { .. } => "open\n".to_string(),
        Verdict::Closed { rounds, reason, .. } => format!("closed\n{}", why(*rounds, reason)),
        Verdict::Refused { refusal, sheet } => match sheet {
            Some(sheet) => format!("{refusal} ({sheet} sheet)\n"),
            None => format!("{refusal}\n"),
        },
    }
}

/// The rounds and the story, or the entries alone, one a line.
fn why(rounds: u16, reason: &Reason) -> String {
    match reason {
        Reason::Story(steps) => {
            let steps = (1..).zip(steps).map(|(number, step)| told(number, step));
            let steps: String = steps.collect();
            format!("the rules lose in {rounds} rounds at most\n{steps}")
        }
        Reason::Entries { entries, .. } => {
            entries.iter().map(|entry| format!("{entry}\n")).collect()
        }
    }
}

/// One step.
fn told(number: usize, step: &Step) -> String {
    let Step { site, rules, why } = step;
    let begin = format!("step {number} (site at page {site}, rules at page {rules}): ");
    let text = match why {
        Why::EndMark => end_mark(step),
        Why::Unlike(unlike) => outside(step, unlike),
        Why::Move {
            action: Action { label, .. },
            target,
            replies,
        } => {
            let begin = format!("the site moves {site} -{label}-> {target}; ");
            begin + &answers(step, label, replies)
        }
    };
    format!("{begin}{text}\n")
}

/// The sentence about an end mark.
fn end_mark(step: &Step) -> String {
    let Step { site, rules, .. } = step;
    format!("page {site} of the site has the end mark, page {rules} of the rules has not")
}

/// The sentences about a pair outside the ready start.
fn outside(step: &Step, unlike: &Unlike) -> String {
    let mut sentences = Vec::new();
    if unlike.end_mark {
        sentences.push(end_mark(step));
    }
    let mut lists = Vec::new();
    for (word, actions) in [("also", &unlike.also), ("not", &unlike.not)] {
        let labels: Vec<&str> = actions.iter().map(|own| own.label.as_str()).collect();
        if !labels.is_empty() {
            lists.push(format!("{word} {}", labels.join(", ")));
        }
    }
    if !lists.is_empty() {
        let lists = lists.join("; ");
        sentences.push(format!(
            "the rules' page has another set of actions: {lists}"
        ));
    }
    sentences.join("; ")
}

/// What the rules can answer to a move by an action with this name.
fn answers(step: &Step, label: &str, replies: &[Reply]) -> String {
    let rules = step.rules;
    if replies.is_empty() {
        return format!("the rules at page {rules} have no move {label}");
    }
    let reply = |reply: &Reply| format!("\n  page {}: see step {}", reply.page, reply.step);
    let replies: String = replies.iter().map(reply).collect();
    format!("whatever the rules answer from page {rules} by action {label}:{replies}")
}
