//! The names of events and refusals.

use field_model::events::Event;

/// The kinds from 1 on, each with its name and the number of operands that it lists.
const KINDS: [(&str, usize); 10] = [
    ("NEW", 2),
    ("MOVE", 3),
    ("CLEAR", 2),
    ("LOAD", 4),
    ("STORE", 4),
    ("SEND", 3),
    ("RECEIVE", 2),
    ("SETTLE", 1),
    ("COLLECT", 1),
    ("DROP", 2),
];

/// The refusals from 1 on that an event can meet, each with its name and its meaning.
const REFUSALS: [(&str, &str); 13] = [
    ("SHAPE", "the table holds numbers out of range"),
    ("EVENT", "there is no such event, or an operand is out of its range"),
    ("ENDED", "the field has had its last event"),
    ("NOMSG", "no message of that sort is in this place"),
    ("SELF", "a node can't send to itself"),
    ("EMPTY", "the root holds nothing"),
    ("AWAY", "the object belongs to another node"),
    ("ROOT", "the root already holds something"),
    ("NOROOM", "all eight objects of the node are live"),
    ("NOENTRY", "the node has no entry of this object"),
    ("BUSY", "the entry is still in use, or counts of it are still out"),
    ("TORN", "the table contradicts itself"),
    ("FULL", "64 messages are in the air, none fits in"),
];

/// The event's name and the operands that it lists; all four if one that isn't listed is not 0.
pub fn event_words(event: &Event) -> String {
    let known = usize::from(event.kind).checked_sub(1).and_then(|index| KINDS.get(index));
    let (name, listed) = known.map_or((format!("kind {}", event.kind), event.operands.len()), |(name, listed)| (name.to_string(), *listed));
    let shown = if event.operands[listed..].iter().all(|operand| *operand == 0) { listed } else { event.operands.len() };
    event.operands[..shown].iter().fold(name, |words, operand| format!("{words} {operand}"))
}

pub fn refusal_name(answer: u8) -> &'static str {
    refusal(answer).0
}

pub fn refusal_meaning(answer: u8) -> &'static str {
    refusal(answer).1
}

fn refusal(answer: u8) -> (&'static str, &'static str) {
    REFUSALS[usize::from(answer) - 1]
}
