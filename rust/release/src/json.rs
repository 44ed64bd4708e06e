//! A verdict as one JSON object on one line.

use crate::joined::Action;
use crate::story::{Reply, Step, Why};
use crate::unlike::Unlike;
use crate::verdict::{Reason, Verdict};
use flow::Entry;

/// The object, and the line's end.
pub fn line(found: &Result<Verdict, String>) -> String {
    let fields = match found {
        Ok(Verdict::Open { turns }) => {
            vec![("result", string("open")), ("turns", turns.to_string())]
        }
        Ok(Verdict::Closed {
            turns,
            rounds,
            reason,
        }) => {
            let mut fields = vec![
                ("result", string("closed")),
                ("turns", turns.to_string()),
                ("rounds", rounds.to_string()),
            ];
            fields.extend(why(reason));
            fields
        }
        Ok(Verdict::Refused { refusal, sheet }) => vec![
            ("result", string("refused")),
            ("number", refusal.number().to_string()),
            (
                "record",
                or_null(refusal.record(), |record| record.to_string()),
            ),
            ("sheet", or_null(*sheet, |sheet| string(&sheet.to_string()))),
            ("sentence", string(&refusal.sentence())),
        ],
        Err(message) => vec![("result", string("error")), ("message", string(message))],
    };
    object(&fields) + "\n"
}

/// The story, or the entries with the names of all actions, in order.
fn why(reason: &Reason) -> Vec<(&'static str, String)> {
    match reason {
        Reason::Story(steps) => vec![("steps", array(steps.iter().enumerate().map(step)))],
        Reason::Entries { labels, entries } => vec![
            ("labels", array(labels.iter().map(|label| string(label)))),
            ("entries", array(entries.iter().map(entry))),
        ],
    }
}

/// A value that may be missing.
fn or_null<T>(value: Option<T>, written: impl Fn(T) -> String) -> String {
    value.map_or("null".to_string(), written)
}

/// A step with its number.
fn step((at, step): (usize, &Step)) -> String {
    let mut fields = vec![
        ("step", (at + 1).to_string()),
        ("site", step.site.to_string()),
        ("rules", step.rules.to_string()),
    ];
    match &step.why {
        Why::EndMark => fields.push(("why", string("end mark"))),
        Why::Unlike(Unlike {
            end_mark,
            also,
            not,
        }) => {
            let actions = |actions: &[Action]| array(actions.iter().map(|own| object(&named(own))));
            fields.extend([
                ("why", string("outside the ready start")),
                ("end mark", end_mark.to_string()),
                ("also", actions(also)),
                ("not", actions(not)),
            ]);
        }
        Why::Move {
            action,
            target,
            replies,
        } => {
            fields.push(("why", string("move")));
            fields.extend(named(action));
            fields.extend([
                ("target", target.to_string()),
                ("replies", array(replies.iter().map(reply))),
            ]);
        }
    }
    object(&fields)
}

/// An action's number and name.
fn named(action: &Action) -> [(&'static str, String); 2] {
    [
        ("action", action.number.to_string()),
        ("label", string(&action.label)),
    ]
}

fn reply(reply: &Reply) -> String {
    object(&[
        ("page", reply.page.to_string()),
        ("step", reply.step.to_string()),
    ])
}

fn entry(entry: &Entry) -> String {
    array(
        [entry.p, entry.q, entry.a, entry.t]
            .iter()
            .map(u16::to_string),
    )
}

/// An object of fields whose values are written already.
fn object(fields: &[(&str, String)]) -> String {
    let field = |(name, value): &(&str, String)| format!("{}:{value}", string(name));
    format!(
        "{{{}}}",
        fields.iter().map(field).collect::<Vec<_>>().join(",")
    )
}

/// An array of values that are written already.
fn array(values: impl Iterator<Item = String>) -> String {
    format!("[{}]", values.collect::<Vec<_>>().join(","))
}

/// A string, with the signs that JSON does not take as they are escaped.
fn string(text: &str) -> String {
    let mut written = String::from('"');
    for sign in text.chars() {
        match sign {
            '"' | '\\' => written.extend(['\\', sign]),
            '\0'..='\x1f' => written += &format!("\\u{:04x}", u32::from(sign)),
            _ => written.push(sign),
        }
    }
    written + "\""
}
