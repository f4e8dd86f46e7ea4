//! COLLECT: one node's local collection.

use crate::limits::owner_of;
use crate::refusal::Refusal;
use crate::table::Table;
use std::collections::BTreeSet;

/// Gives the number of objects reclaimed.
pub fn collect(table: &mut Table, node: u8) -> Result<u8, Refusal> {
    let kept = reached(table, node);
    if kept.iter().any(|object| !table.is_live(*object)) {
        return Err(Refusal::Torn);
    }
    let held = held_of_others(table, node, &kept);
    if held.iter().any(|object| !table.has_presence(node, *object)) {
        return Err(Refusal::Torn);
    }
    let mut reclaimed = 0;
    for object in table.live_of(node) {
        if !kept.contains(&object) {
            table.live.remove(&object);
            table.directories.remove(&object);
            reclaimed += 1;
        }
    }
    for ((_, object), remote) in table.remotes.range_mut((node, 0)..=(node, u8::MAX)) {
        if !held.contains(object) {
            remote.presence = false;
        }
    }
    Ok(reclaimed)
}

/// The node's own objects that it starts from or comes to through fields, live or not.
fn reached(table: &Table, node: u8) -> BTreeSet<u8> {
    let in_roots = table.roots[usize::from(node)].iter().flatten().copied();
    let known_elsewhere =
        table.directories.iter().filter(|(_, directory)| directory.rc > 0 || directory.msg_ctr != 0).map(|(object, _)| *object);
    let mut to_visit: Vec<u8> = in_roots.chain(known_elsewhere).collect();
    let mut visited = BTreeSet::new();
    while let Some(object) = to_visit.pop() {
        if owner_of(object) == node && visited.insert(object) {
            let fields = table.live.get(&object).into_iter().flatten();
            to_visit.extend(fields.flatten());
        }
    }
    visited
}

/// Other nodes' objects that a root of the node or one of its kept objects holds.
fn held_of_others(table: &Table, node: u8, kept: &BTreeSet<u8>) -> BTreeSet<u8> {
    let in_roots = table.roots[usize::from(node)].iter();
    let in_fields = kept.iter().filter_map(|object| table.live.get(object)).flatten();
    in_roots.chain(in_fields).flatten().copied().filter(|object| owner_of(*object) != node).collect()
}
