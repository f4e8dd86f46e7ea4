//! Random events: likely ones, which a table at hand would accept or nearly accept, and wild ones.

use crate::random::Random;
use field_model::events::{CLEAR, COLLECT, DROP, LOAD, MOVE, NEW, RECEIVE, SEND, SETTLE, STORE};
use field_model::limits::{owner_of, FIELDS, NODES, OBJECTS, PLACES, ROOTS};
use field_model::table::{Load, Table};

pub const KINDS: [u16; 10] = [NEW, MOVE, CLEAR, LOAD, STORE, SEND, RECEIVE, SETTLE, COLLECT, DROP];

/// Bytes at and around the limits of operands.
pub const EDGE_BYTES: [u8; 14] = [0, 1, 3, 4, 5, 7, 8, 9, 62, 63, 64, 127, 128, 255];

/// How often each kind is chosen. Drawn anew for each run, so that one run fills the air, another one the objects.
pub struct Weights {
    kinds: Vec<u16>,
}

impl Weights {
    pub fn drawn(random: &mut Random) -> Weights {
        let mut kinds = Vec::new();
        for kind in KINDS {
            let times = random.pick(&[1, 3, 6, 12]);
            kinds.extend(std::iter::repeat_n(kind, times));
        }
        Weights { kinds }
    }

    pub fn even() -> Weights {
        Weights { kinds: KINDS.to_vec() }
    }

    pub fn kind(&self, random: &mut Random) -> u16 {
        random.pick(&self.kinds)
    }
}

pub fn record(kind: u16, operands: [u8; 4]) -> [u8; 8] {
    let [low, high] = kind.to_le_bytes();
    let [a, b, c, d] = operands;
    [4, 0, low, high, a, b, c, d]
}

/// An event of a kind with operands in range that fit the table, where something fits.
pub fn likely_event(random: &mut Random, table: &Table, kind: u16) -> [u8; 8] {
    let node = random.byte_below(NODES);
    let root = random.byte_below(ROOTS);
    let (filled_node, filled_root) = filled_root(random, table);
    let operands = match kind {
        NEW => [node, empty_root(random, table, node), 0, 0],
        MOVE => [node, root, random.byte_below(ROOTS), 0],
        CLEAR => [filled_node, filled_root, 0, 0],
        LOAD => [filled_node, root, filled_root, random.byte_below(FIELDS)],
        STORE => [filled_node, filled_root, random.byte_below(FIELDS), root],
        SEND => [filled_node, filled_root, destination(random, table, filled_node, filled_root), 0],
        RECEIVE => {
            let place = place_with(random, table, true);
            let to = table.messages.get(&place).map_or(node, |message| message.to);
            [place, empty_root(random, table, to), 0, 0]
        }
        SETTLE => [place_with(random, table, false), 0, 0, 0],
        COLLECT => [node, 0, 0, 0],
        _ => {
            let (at, object) = some_entry(random, table);
            [at, object, 0, 0]
        }
    };
    record(kind, operands)
}

/// Eight bytes that may or may not be an event.
pub fn wild_event(random: &mut Random) -> [u8; 8] {
    let kind = random.pick(&[0, 1, 2, 3, 4, 5, 6, 7, 8, 9, 10, 11, 255, 0x0100, 0x0101, 0x010A, 0x01FF, 0xFF01]);
    let mut event = record(kind, [0; 4]);
    for operand in &mut event[4..] {
        *operand = if random.chance(50) { random.byte_below(9) } else { random.pick(&EDGE_BYTES) };
    }
    if random.chance(10) {
        event[random.below(8)] = random.byte();
    }
    event
}

fn empty_root(random: &mut Random, table: &Table, node: u8) -> u8 {
    let start = random.byte_below(ROOTS);
    let turned = (0..ROOTS).map(|root| (start + root) % ROOTS);
    turned.into_iter().find(|root| table.root(node, *root).is_none()).unwrap_or(start)
}

/// A node and a root of it, one that holds something if there is any.
fn filled_root(random: &mut Random, table: &Table) -> (u8, u8) {
    let all = (0..NODES).flat_map(|node| (0..ROOTS).map(move |root| (node, root)));
    let filled: Vec<(u8, u8)> = all.filter(|(node, root)| table.root(*node, *root).is_some()).collect();
    if filled.is_empty() {
        return (random.byte_below(NODES), random.byte_below(ROOTS));
    }
    random.pick(&filled)
}

/// Where to send: often to the owner, sometimes to the sender itself, which is refused.
fn destination(random: &mut Random, table: &Table, node: u8, root: u8) -> u8 {
    match table.root(node, root) {
        Some(object) if random.chance(30) => owner_of(object),
        _ => random.byte_below(NODES),
    }
}

fn place_with(random: &mut Random, table: &Table, reference: bool) -> u8 {
    let fits = |load: &Load| matches!(load, Load::Reference) == reference;
    let places: Vec<u8> = table.messages.iter().filter(|(_, message)| fits(&message.load)).map(|(place, _)| *place).collect();
    if places.is_empty() {
        return random.byte_below(PLACES);
    }
    random.pick(&places)
}

fn some_entry(random: &mut Random, table: &Table) -> (u8, u8) {
    let remotes = table.remotes.keys().copied();
    let directories = table.directories.keys().map(|object| (owner_of(*object), *object));
    let entries: Vec<(u8, u8)> = remotes.chain(directories).collect();
    if entries.is_empty() || random.chance(5) {
        return (random.byte_below(NODES), random.byte_below(OBJECTS));
    }
    random.pick(&entries)
}
