//! One event: what its numbers mean, and the refusals that come before all others.

use crate::limits::{FIELDS, LIMIT, NODES, OBJECTS, PLACES, ROOTS};
use crate::refusal::Refusal;
use crate::shape::in_shape;
use crate::table::Table;
use crate::{collect, heap_events, message_events};

pub const NEW: u16 = 1;
pub const MOVE: u16 = 2;
pub const CLEAR: u16 = 3;
pub const LOAD: u16 = 4;
pub const STORE: u16 = 5;
pub const SEND: u16 = 6;
pub const RECEIVE: u16 = 7;
pub const SETTLE: u16 = 8;
pub const COLLECT: u16 = 9;
pub const DROP: u16 = 10;

/// An event as it comes: any kind, any operands.
#[derive(Clone, Copy, Debug, PartialEq, Eq)]
pub struct Event {
    pub kind: u16,
    pub operands: [u8; 4],
}

/// An event whose numbers are all in range.
#[derive(Clone, Copy, Debug, PartialEq, Eq)]
enum Act {
    New { node: u8, root: u8 },
    Move { node: u8, into: u8, from: u8 },
    Clear { node: u8, root: u8 },
    Load { node: u8, into: u8, holder: u8, field: u8 },
    Store { node: u8, holder: u8, field: u8, from: u8 },
    Send { node: u8, root: u8, to: u8 },
    Receive { place: u8, root: u8 },
    Settle { place: u8 },
    Collect { node: u8 },
    Drop { node: u8, object: u8 },
}

/// Applies an event and gives its value. Refused, the table is as it was.
pub fn step(table: &mut Table, event: Event) -> Result<u8, Refusal> {
    if !in_shape(table) {
        return Err(Refusal::Shape);
    }
    let act = understood(event).ok_or(Refusal::Event)?;
    if table.count == LIMIT {
        return Err(Refusal::Ended);
    }
    let value = perform(table, act)?;
    table.count += 1;
    Ok(value)
}

/// Names the operands in the order that document 01 lists them; `None` for an unknown kind, an operand outside its range, or an unused
/// operand that isn't 0.
fn understood(event: Event) -> Option<Act> {
    let node = |number: u8| number < NODES;
    let root = |number: u8| number < ROOTS;
    let field = |number: u8| number < FIELDS;
    let place = |number: u8| number < PLACES;
    let object = |number: u8| number < OBJECTS;
    match (event.kind, event.operands) {
        (NEW, [p, r, 0, 0]) if node(p) && root(r) => Some(Act::New { node: p, root: r }),
        (MOVE, [p, r, q, 0]) if node(p) && root(r) && root(q) => Some(Act::Move { node: p, into: r, from: q }),
        (CLEAR, [p, r, 0, 0]) if node(p) && root(r) => Some(Act::Clear { node: p, root: r }),
        (LOAD, [p, r, q, f]) if node(p) && root(r) && root(q) && field(f) => Some(Act::Load { node: p, into: r, holder: q, field: f }),
        (STORE, [p, q, f, r]) if node(p) && root(q) && field(f) && root(r) => Some(Act::Store { node: p, holder: q, field: f, from: r }),
        (SEND, [p, r, q, 0]) if node(p) && root(r) && node(q) => Some(Act::Send { node: p, root: r, to: q }),
        (RECEIVE, [s, r, 0, 0]) if place(s) && root(r) => Some(Act::Receive { place: s, root: r }),
        (SETTLE, [s, 0, 0, 0]) if place(s) => Some(Act::Settle { place: s }),
        (COLLECT, [p, 0, 0, 0]) if node(p) => Some(Act::Collect { node: p }),
        (DROP, [p, o, 0, 0]) if node(p) && object(o) => Some(Act::Drop { node: p, object: o }),
        _ => None,
    }
}

fn perform(table: &mut Table, act: Act) -> Result<u8, Refusal> {
    match act {
        Act::New { node, root } => heap_events::new(table, node, root),
        Act::Move { node, into, from } => heap_events::move_root(table, node, into, from),
        Act::Clear { node, root } => heap_events::clear(table, node, root),
        Act::Load { node, into, holder, field } => heap_events::load(table, node, into, holder, field),
        Act::Store { node, holder, field, from } => heap_events::store(table, node, holder, field, from),
        Act::Send { node, root, to } => message_events::send(table, node, root, to),
        Act::Receive { place, root } => message_events::receive(table, place, root),
        Act::Settle { place } => message_events::settle(table, place),
        Act::Collect { node } => collect::collect(table, node),
        Act::Drop { node, object } => message_events::drop_entry(table, node, object),
    }
}
