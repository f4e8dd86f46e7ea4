//! The shape: the ranges that every number of a table keeps, whatever happened before.
//!
//! Each part has its own test, because the image's reader asks the same of a single record.

use crate::limits::{owner_of, COUNT_RANGE, DIRECTORY_MSG_CTR_RANGE, NODES, OBJECTS, PLACES, WEIGHT_RANGE};
use crate::table::{Directory, Load, Message, Remote, Slot, Table};

pub fn slots_in_shape(slots: &[Slot]) -> bool {
    slots.iter().flatten().all(|object| *object < OBJECTS)
}

pub fn live_in_shape(object: u8, fields: &[Slot]) -> bool {
    object < OBJECTS && slots_in_shape(fields)
}

pub fn directory_in_shape(object: u8, directory: &Directory) -> bool {
    object < OBJECTS && COUNT_RANGE.contains(&directory.rc) && DIRECTORY_MSG_CTR_RANGE.contains(&directory.msg_ctr)
}

pub fn remote_in_shape(node: u8, object: u8, remote: &Remote) -> bool {
    node < NODES
        && object < OBJECTS
        && owner_of(object) != node
        && COUNT_RANGE.contains(&remote.rc)
        && remote.parent < NODES
        && remote.parent != node
        && COUNT_RANGE.contains(&remote.msg_ctr)
        && WEIGHT_RANGE.contains(&remote.ref_weight)
}

pub fn message_in_shape(place: u8, message: &Message) -> bool {
    let load_in_shape = match message.load {
        Load::Reference => true,
        Load::Decrement { returns, weight } => COUNT_RANGE.contains(&returns) && WEIGHT_RANGE.contains(&weight),
    };
    place < PLACES && message.from < NODES && message.to < NODES && message.from != message.to && message.object < OBJECTS && load_in_shape
}

pub fn in_shape(table: &Table) -> bool {
    COUNT_RANGE.contains(&table.count)
        && table.live.iter().all(|(object, fields)| live_in_shape(*object, fields))
        && table.roots.iter().all(|roots| slots_in_shape(roots))
        && table.directories.iter().all(|(object, directory)| directory_in_shape(*object, directory))
        && table.remotes.iter().all(|((node, object), remote)| remote_in_shape(*node, *object, remote))
        && table.messages.iter().all(|(place, message)| message_in_shape(*place, message))
}
