//! Fields of four sizes, each grown from the fresh one by events that were accepted.

use field_model::events::{step, Event, CLEAR, NEW, RECEIVE, SEND, STORE};
use field_model::limits::{FIELDS, NODES, OBJECTS_OF_A_NODE, PLACES};
use field_model::table::Table;
use field_model::writer::write;

pub const LARGEST: usize = 11_508;

/// The root that a node receives into while a field is grown.
const LANDING_ROOT: u8 = 7;

/// The image of a table in shape.
pub fn image_of(table: &Table) -> Vec<u8> {
    let mut out = vec![0; LARGEST];
    let length = write(table, &mut out).expect("a table in shape fits into the largest image");
    out.truncate(length);
    out
}

/// Two programs on node 0, each known to one other node.
pub fn small() -> Table {
    let mut table = Table::fresh();
    for (root, to) in [(0, 3), (1, 5)] {
        apply(&mut table, NEW, [0, root, 0, 0]);
        hand_over(&mut table, 0, root, to, 0);
    }
    table
}

/// Two programs on each node, each known to the next two nodes; a reference and two decrements in the air.
pub fn typical() -> Table {
    let mut table = Table::fresh();
    for node in 0..NODES {
        for root in 0..2 {
            apply(&mut table, NEW, [node, root, 0, 0]);
        }
    }
    for node in 0..NODES {
        for root in 0..2 {
            hand_over(&mut table, node, root, (node + 1) % NODES, 2 + root);
            hand_over(&mut table, node, root, (node + 2) % NODES, 4 + root);
        }
    }
    // The next node holds node 0's programs in roots 2 and 3, and the one after it knows them from node 0 already.
    hand_over(&mut table, 1, 2, 2, 6);
    hand_over(&mut table, 1, 3, 2, LANDING_ROOT);
    apply(&mut table, SEND, [0, 0, 4, 0]);
    table
}

/// All that a field can hold: every object lives, every node has an entry for every object, and every place a decrement.
pub fn full() -> Table {
    let mut table = Table::fresh();
    for number in 0..OBJECTS_OF_A_NODE {
        for owner in 0..NODES {
            make_known_everywhere(&mut table, owner, number);
        }
    }
    // Node 2 has known node 0's first object from its owner: each reference that comes from node 1 is answered with a decrement.
    apply(&mut table, SEND, [0, 0, 1, 0]);
    apply(&mut table, RECEIVE, [0, LANDING_ROOT, 0, 0]);
    for _ in 0..PLACES {
        hand_over(&mut table, 1, LANDING_ROOT, 2, LANDING_ROOT);
        apply(&mut table, CLEAR, [2, LANDING_ROOT, 0, 0]);
    }
    table
}

/// A new object of a node, sent to all others. The first two stay in roots 0 and 1, the rest in fields of these.
fn make_known_everywhere(table: &mut Table, owner: u8, number: u8) {
    let root = number.min(2);
    apply(table, NEW, [owner, root, 0, 0]);
    for other in (0..NODES).filter(|other| *other != owner) {
        hand_over(table, owner, root, other, LANDING_ROOT);
        apply(table, CLEAR, [other, LANDING_ROOT, 0, 0]);
    }
    if root == 2 {
        let slot = number - root;
        apply(table, STORE, [owner, slot / FIELDS, slot % FIELDS, root]);
        apply(table, CLEAR, [owner, root, 0, 0]);
    }
}

/// A reference goes from a root of one node to a root of another.
fn hand_over(table: &mut Table, from: u8, root: u8, to: u8, into: u8) {
    let place = apply(table, SEND, [from, root, to, 0]);
    apply(table, RECEIVE, [place, into, 0, 0]);
}

fn apply(table: &mut Table, kind: u16, operands: [u8; 4]) -> u8 {
    step(table, Event { kind, operands }).unwrap_or_else(|refusal| panic!("kind {kind} {operands:?} is refused: {refusal:?}"))
}
