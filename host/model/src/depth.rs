//! The depth report: how far an entry is from its owner along Parent.

use crate::limits::{owner_of, NODES, NOTHING, OBJECTS};
use crate::shape::in_shape;
use crate::table::Table;

/// 0 at a directory, the number of steps at a remote entry, 255 wherever there is no answer.
pub fn depth(table: &Table, node: u8, object: u8) -> u8 {
    if node >= NODES || object >= OBJECTS || !in_shape(table) {
        return NOTHING;
    }
    let owner = owner_of(object);
    let mut at = node;
    // Eight nodes without a ring are at most seven steps apart.
    for steps in 0..NODES {
        if at == owner {
            return if table.directories.contains_key(&object) { steps } else { NOTHING };
        }
        match table.remotes.get(&(at, object)) {
            None => return NOTHING,
            Some(remote) => at = remote.parent,
        }
    }
    NOTHING
}
