//! Random tables: ones that events led to, and ones made by hand that no events lead to.

use crate::choose::{likely_event, Weights};
use crate::compare::LARGEST;
use crate::random::Random;
use field_model::events::step;
use field_model::host::event_of_record;
use field_model::limits::{owner_of, FIELDS, LIMIT, NODES, OBJECTS, OBJECTS_OF_A_NODE, PLACES, ROOTS};
use field_model::table::{Directory, Load, Message, Remote, Slot, Table};
use field_model::writer::write;

/// The image of a table in shape.
pub fn image_of(table: &Table) -> Vec<u8> {
    let mut out = vec![0; LARGEST];
    let length = write(table, &mut out).expect("a table in shape fits into the largest image");
    out.truncate(length);
    out
}

/// The table after a number of tried events from the fresh state.
pub fn grown(random: &mut Random, events: usize) -> Table {
    let mut table = Table::fresh();
    let weights = Weights::drawn(random);
    for _ in 0..events {
        let kind = weights.kind(random);
        let record = likely_event(random, &table, kind);
        let event = event_of_record(&record).expect("a record of eight bytes");
        // A refused event leaves the table as it was, which is as good a table as any.
        let _ = step(&mut table, event);
    }
    table
}

/// A table in shape whose parts know nothing of each other. `percent` tells how much of what could be there is there.
pub fn made_by_hand(random: &mut Random, percent: usize) -> Table {
    let mut table = Table { count: random.pick(&[0, 1, 77, LIMIT - 1, LIMIT - 2]), ..Table::fresh() };
    if random.chance(3) {
        table.count = LIMIT;
    }
    for node in 0..NODES {
        for root in 0..ROOTS {
            let slot = some_slot(random, node, percent);
            table.set_root(node, root, slot);
        }
    }
    for object in 0..OBJECTS {
        if random.chance(percent.max(50)) {
            let fields = [(); FIELDS as usize].map(|()| some_slot(random, owner_of(object), percent));
            table.live.insert(object, fields);
        }
        if random.chance(percent) {
            table.directories.insert(object, some_directory(random));
        }
        for node in (0..NODES).filter(|node| *node != owner_of(object)) {
            if random.chance(percent) {
                table.remotes.insert((node, object), some_remote(random, node));
            }
        }
    }
    put_messages(random, &mut table, percent);
    table
}

/// Some tables have every place taken, since what is refused for want of a place is seen only there.
fn put_messages(random: &mut Random, table: &mut Table, percent: usize) {
    let percent = if random.chance(20) { 100 } else { percent };
    let remotes: Vec<(u8, u8)> = table.remotes.keys().copied().collect();
    for place in 0..PLACES {
        if random.chance(percent) {
            let mut message = some_message(random);
            // Half of the messages are about an entry that is there, and from its parent.
            if !remotes.is_empty() && random.chance(50) {
                let (node, object) = random.pick(&remotes);
                message = Message { from: table.remotes[&(node, object)].parent, to: node, object, ..message };
            }
            table.messages.insert(place, message);
        }
    }
}

/// For every object a chain through all nodes, the owner at its end; here and there the directory or a link is missing, or a link turned
/// so that a ring may come of it.
pub fn chained(random: &mut Random) -> Table {
    let mut table = Table::fresh();
    for object in 0..OBJECTS {
        let step = random.pick(&[1, 3, 5, 7]);
        let mut node = owner_of(object);
        if random.chance(90) {
            table.directories.insert(object, some_directory(random));
        }
        for _ in 1..NODES {
            let parent = node;
            node = (node + step) % NODES;
            let mut remote = Remote { parent, ..some_remote(random, node) };
            if random.chance(3) {
                remote.parent = another_node(random, node);
            }
            if random.chance(98) {
                table.remotes.insert((node, object), remote);
            }
        }
    }
    table
}

/// Every record that an image can have.
pub fn largest(random: &mut Random) -> Table {
    let mut table = made_by_hand(random, 100);
    for message in table.messages.values_mut() {
        message.load = Load::Decrement { returns: some_count(random), weight: some_weight(random) };
    }
    table
}

/// A slot at a node: mostly the node's own objects, whose fields are then walked.
fn some_slot(random: &mut Random, node: u8, percent: usize) -> Slot {
    if !random.chance(percent) {
        return None;
    }
    if random.chance(70) {
        return Some(node * OBJECTS_OF_A_NODE + random.byte_below(OBJECTS_OF_A_NODE));
    }
    Some(random.byte_below(OBJECTS))
}

/// A count from 0 to the limit: mostly at one end.
fn some_count(random: &mut Random) -> i64 {
    let anywhere = random.below(LIMIT as usize) as i64;
    random.pick(&[0, 0, 0, 1, 1, 2, 3, 255, 256, 65_536, LIMIT - 1, LIMIT, anywhere])
}

fn some_weight(random: &mut Random) -> i64 {
    some_count(random).max(1)
}

fn some_directory(random: &mut Random) -> Directory {
    let sign = random.pick(&[1, 1, -1]);
    Directory { rc: some_count(random), msg_ctr: sign * some_count(random) }
}

fn some_remote(random: &mut Random, node: u8) -> Remote {
    Remote {
        rc: some_count(random),
        parent: another_node(random, node),
        presence: random.chance(70),
        msg_ctr: some_count(random),
        ref_weight: some_weight(random),
    }
}

fn some_message(random: &mut Random) -> Message {
    let from = random.byte_below(NODES);
    let load =
        if random.chance(50) { Load::Reference } else { Load::Decrement { returns: some_count(random), weight: some_weight(random) } };
    Message { from, to: another_node(random, from), object: random.byte_below(OBJECTS), load }
}

fn another_node(random: &mut Random, node: u8) -> u8 {
    (node + 1 + random.byte_below(NODES - 1)) % NODES
}
