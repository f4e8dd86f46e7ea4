//! A run as text: a line for each event, and below it a line for each thing that the event changed.

use crate::changes::{changes, Changes, Entry, EntryChange, SlotChange};
use crate::run::Step;
use crate::words::{event_words, refusal_meaning, refusal_name};
use field_model::table::{Load, Message};

pub fn text(title: &str, steps: &[Step]) -> String {
    let mut lines = vec![title.to_string(), String::new()];
    for step in steps {
        lines.push(event_line(step));
        lines.extend(change_lines(&changes(step)).into_iter().map(|line| format!("    {line}")));
    }
    lines.extend(end_lines(steps));
    lines.join("\n") + "\n"
}

fn event_line(step: &Step) -> String {
    let place = step.node().map_or(String::new(), |node| format!(" at node {node}"));
    let refusal = match step.answer {
        0 => String::new(),
        answer => format!(" refused, {} ({}),", refusal_name(answer), refusal_meaning(answer)),
    };
    format!("{}: {}{place}:{refusal} value {}", step.number, event_words(&step.event), step.value)
}

fn change_lines(changes: &Changes) -> Vec<String> {
    let mut lines = Vec::new();
    lines.extend(changes.arrived.iter().map(|(place, message)| format!("{} arrives from place {place}", message_words(message))));
    lines.extend(changes.born.iter().map(|object| format!("object {object} is born")));
    lines.extend(changes.reclaimed.iter().map(|object| format!("object {object} is reclaimed")));
    lines.extend(changes.roots.iter().map(|root| format!("root {} of node {} {}", root.index, root.holder, holding(root))));
    lines.extend(changes.fields.iter().map(|field| format!("field {} of object {} {}", field.index, field.holder, holding(field))));
    lines.extend(changes.entries.iter().map(entry_line));
    lines.extend(changes.sent.iter().map(|(place, message)| format!("{} is sent, in place {place}", message_words(message))));
    lines
}

fn holding(slot: &SlotChange) -> String {
    slot.after.map_or("is empty".to_string(), |object| format!("holds object {object}"))
}

fn entry_line(change: &EntryChange) -> String {
    let sort = match change.before.as_ref().or(change.after.as_ref()) {
        Some(Entry::Directory(_)) => "directory",
        _ => "entry",
    };
    let whose = format!("{sort} of object {} at node {}", change.object, change.node);
    match (&change.before, &change.after) {
        (None, Some(entry)) => format!("{whose}, made: {}", entry_numbers(entry)),
        (_, Some(entry)) => format!("{whose}: {}", entry_numbers(entry)),
        (_, None) => format!("{whose}: gone"),
    }
}

fn entry_numbers(entry: &Entry) -> String {
    let (rc, msg_ctr) = entry.counts();
    let both = format!("RC {rc}, MsgCtr {msg_ctr}");
    match entry {
        Entry::Directory(_) => both,
        Entry::Remote(remote) => {
            format!("{both}, Parent {}, RefWeight {}, Presence {}", remote.parent, remote.ref_weight, remote.presence)
        }
    }
}

fn message_words(message: &Message) -> String {
    let Message { from, to, object, load } = message;
    match load {
        Load::Reference => format!("reference to object {object} from node {from} to node {to}"),
        Load::Decrement { returns, weight } => {
            format!("decrement of object {object} from node {from} to node {to} (m {returns}, n {weight})")
        }
    }
}

/// The field at the end, in numbers, and the messages that didn't arrive.
fn end_lines(steps: &[Step]) -> Vec<String> {
    let refused = steps.iter().filter(|step| step.is_refused()).count();
    let counts = format!("end: {} events accepted, {refused} refused", steps.len() - refused);
    let Some(Step { after, .. }) = steps.last() else {
        return vec![counts];
    };
    let entries = after.directories.len() + after.remotes.len();
    let (live, in_the_air) = (after.live.len(), after.messages.len());
    let mut lines = vec![format!("{counts}; {live} objects live, {entries} entries, {in_the_air} messages in the air")];
    lines.extend(after.messages.iter().map(|(place, message)| format!("    {} is in the air, in place {place}", message_words(message))));
    lines
}
