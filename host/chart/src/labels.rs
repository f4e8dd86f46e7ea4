//! What stands beside a lifeline at an event: its name in words, and the numbers that it changed.

use crate::changes::{Changes, Entry, EntryChange};
use crate::flights::Flight;
use crate::measures::{bold_width, text_width, LABEL_SIZE};
use crate::run::Step;
use crate::words::{event_words, refusal_name};
use field_model::events::{CLEAR, COLLECT, DROP, LOAD, MOVE, NEW, RECEIVE, SEND, SETTLE, STORE};
use field_model::table::{Load, Remote};

#[derive(Clone, Copy, PartialEq, Eq)]
pub enum Style {
    Event,
    Numbers,
    Reclaimed,
    Refused,
}

pub struct LabelLine {
    pub words: String,
    pub style: Style,
}

/// The lines of an event, the first of them its name.
pub fn event_label(step: &Step, changes: &Changes) -> Vec<LabelLine> {
    if step.is_refused() {
        let words = [numbered(step, refused_words(step)), format!("refused: {}", refusal_name(step.answer))];
        return words.map(|words| LabelLine { words, style: Style::Refused }).into();
    }
    let mut lines = vec![LabelLine { words: numbered(step, accepted_words(step)), style: Style::Event }];
    let reclaimed = changes.reclaimed.iter().map(|object| LabelLine { words: format!("o{object} reclaimed"), style: Style::Reclaimed });
    lines.extend(reclaimed);
    let numbers = changes.entries.iter().filter(|entry| !changes.reclaimed.contains(&entry.object)).flat_map(entry_words);
    lines.extend(numbers.map(|words| LabelLine { words, style: Style::Numbers }));
    lines
}

impl LabelLine {
    /// The room that it takes at most, from side to side.
    pub fn width(&self) -> i64 {
        match self.style {
            Style::Event | Style::Reclaimed => bold_width(&self.words, LABEL_SIZE),
            Style::Numbers | Style::Refused => text_width(&self.words, LABEL_SIZE),
        }
    }
}

/// What stands on the arrow of a message.
pub fn message_label(flight: &Flight) -> String {
    let object = flight.message.object;
    let carried = match flight.message.load {
        Load::Reference => format!("o{object}"),
        Load::Decrement { returns, weight } => format!("o{object}: m {returns}, n {weight}"),
    };
    match flight.arrived {
        Some(_) => carried,
        None => format!("{carried}, in the air"),
    }
}

fn numbered(step: &Step, words: String) -> String {
    format!("{}: {words}", step.number)
}

/// Arrows tell where a message goes to and comes from, so that words needn't.
fn accepted_words(step: &Step) -> String {
    let root = step.event.operands[1];
    match step.event.kind {
        NEW => format!("NEW o{} in root {root}", step.value),
        SEND => format!("SEND root {root}"),
        RECEIVE => format!("RECEIVE to root {root}"),
        SETTLE => "SETTLE".to_string(),
        _ => operand_words(step),
    }
}

/// The numbers of an event that isn't one have no meaning, so they stay as they came.
fn refused_words(step: &Step) -> String {
    const EVENT: u8 = 2;
    match step.answer {
        EVENT => event_words(&step.event),
        _ => operand_words(step),
    }
}

/// The event with its operands named. Its node isn't: the label stands there.
fn operand_words(step: &Step) -> String {
    let [a, b, c, d] = step.event.operands;
    match step.event.kind {
        NEW => format!("NEW in root {b}"),
        MOVE => format!("MOVE root {c} to root {b}"),
        CLEAR => format!("CLEAR root {b}"),
        LOAD => format!("LOAD root {c} field {d} to root {b}"),
        STORE => format!("STORE root {d} to root {b} field {c}"),
        SEND => format!("SEND root {b} to node {c}"),
        RECEIVE => format!("RECEIVE place {a} to root {b}"),
        SETTLE => format!("SETTLE place {a}"),
        COLLECT => "COLLECT".to_string(),
        DROP => format!("DROP o{b}"),
        _ => event_words(&step.event),
    }
}

/// An entry's numbers after the event, those that changed.
fn entry_words(change: &EntryChange) -> Vec<String> {
    let object = change.object;
    let Some(after) = &change.after else {
        let sort = if matches!(change.before, Some(Entry::Directory(_))) { "directory" } else { "entry" };
        return vec![format!("o{object}: {sort} gone")];
    };
    let mut words = Vec::new();
    let counts = after.counts();
    if change.before.as_ref().map(Entry::counts) != Some(counts) {
        words.push(format!("o{object}: RC {}, MsgCtr {}", counts.0, counts.1));
    }
    if let Entry::Remote(after) = after {
        let before = change.before.as_ref().and_then(|entry| match entry {
            Entry::Remote(remote) => Some(remote),
            Entry::Directory(_) => None,
        });
        words.extend(remote_words(object, before, after));
    }
    words
}

/// What only a remote entry has. A new one is in use, so its Presence needs no words.
fn remote_words(object: u8, before: Option<&Remote>, after: &Remote) -> Vec<String> {
    let Some(before) = before else {
        return vec![format!("o{object}: Parent {}, RefWeight {}", after.parent, after.ref_weight)];
    };
    let mut words = Vec::new();
    if before.ref_weight != after.ref_weight {
        words.push(format!("o{object}: RefWeight {}", after.ref_weight));
    }
    if before.presence != after.presence {
        words.push(format!("o{object}: Presence {}", after.presence));
    }
    words
}
