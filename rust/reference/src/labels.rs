//! Labels: the names of actions, from request L2 of document 02.

use crate::lts::{Lts, Transition};
use crate::refusal::Refusal;

/// Bytes of a label's field in a sheet.
pub const LABEL: usize = 16;

/// The kind of a sheet.
#[derive(Clone, Copy, PartialEq, Eq, Debug)]
pub enum Kind {
    /// Its actions count as named by their numbers.
    Plain,
    /// It carries a label for each action.
    Named,
}

/// "1", "2" and so on up to m.
pub fn decimal(m: usize) -> Vec<String> {
    (1..=m).map(|action| action.to_string()).collect()
}

/// Has the text 1 to 16 bytes, all from 21 to 7E?
pub fn is_label(text: &str) -> bool {
    (1..=LABEL).contains(&text.len()) && text.bytes().all(|byte| (0x21..=0x7e).contains(&byte))
}

/// The field with these bytes, good or bad, and zeros after them.
pub fn field(bytes: &[u8]) -> [u8; LABEL] {
    let mut field = [0; LABEL];
    field[..bytes.len()].copy_from_slice(bytes);
    field
}

/// The label in a field: what stands before the zeros that end the field.
/// Refused if that is no label; a zero that a byte follows is inside it.
pub fn read(field: &[u8]) -> Result<String, Refusal> {
    let length = field
        .iter()
        .rposition(|&byte| byte != 0)
        .map_or(0, |last| last + 1);
    match std::str::from_utf8(&field[..length]) {
        Ok(text) if is_label(text) => Ok(text.to_string()),
        _ => Err(Refusal::LABEL),
    }
}

/// Does no label come twice?
pub fn all_differ(labels: &[String]) -> bool {
    (0..labels.len()).all(|i| !labels[..i].contains(&labels[i]))
}

/// A labelled transition system with the kind of its sheet and a label for
/// each action.
#[derive(Clone, PartialEq, Eq, Debug)]
pub struct LabelledLts {
    lts: Lts,
    kind: Kind,
    labels: Vec<String>,
}

impl LabelledLts {
    /// A flow whose actions are named by their numbers.
    pub fn plain(lts: Lts) -> LabelledLts {
        LabelledLts {
            kind: Kind::Plain,
            labels: decimal(lts.actions()),
            lts,
        }
    }

    /// A flow with these labels, one for each action.
    pub fn named(lts: Lts, labels: Vec<String>) -> LabelledLts {
        assert_eq!(labels.len(), lts.actions(), "a label for each action");
        assert!(labels.iter().all(|label| is_label(label)), "a bad label");
        assert!(all_differ(&labels), "a label twice");
        LabelledLts {
            lts,
            kind: Kind::Named,
            labels,
        }
    }

    /// The flow alone.
    pub fn lts(&self) -> &Lts {
        &self.lts
    }

    /// The kind of its sheet.
    pub fn kind(&self) -> Kind {
        self.kind
    }

    /// The labels of the actions 1 to m.
    pub fn labels(&self) -> &[String] {
        &self.labels
    }

    /// The same flow and labels as a named one.
    pub fn as_named(&self) -> LabelledLts {
        LabelledLts::named(self.lts.clone(), self.labels.clone())
    }

    /// The same flow as a named one with the actions in another order: action
    /// a has the number `numbers[a - 1]`, and its label goes along.
    pub fn renumbered(&self, numbers: &[usize]) -> LabelledLts {
        let mut labels = vec![String::new(); self.labels.len()];
        for (label, &number) in self.labels.iter().zip(numbers) {
            labels[number - 1] = label.clone();
        }
        let renumber = |t: &Transition| Transition {
            action: numbers[t.action - 1],
            ..*t
        };
        let transitions = self.lts.transitions().iter().map(renumber).collect();
        let marks = self.lts.end_marks().to_vec();
        LabelledLts::named(Lts::new(self.lts.actions(), marks, transitions), labels)
    }
}
