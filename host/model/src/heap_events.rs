//! The events on one node's roots and objects: NEW, MOVE, CLEAR, LOAD, STORE.
//!
//! Each function tests its refusals in the order of their numbers and changes nothing before the last of them.

use crate::limits::{owner_of, FIELDS, OBJECTS_OF_A_NODE};
use crate::refusal::Refusal;
use crate::table::Table;

pub fn new(table: &mut Table, node: u8, root: u8) -> Result<u8, Refusal> {
    if table.root(node, root).is_some() {
        return Err(Refusal::Root);
    }
    let first = node * OBJECTS_OF_A_NODE;
    let object = (first..first + OBJECTS_OF_A_NODE).find(|object| !table.is_live(*object)).ok_or(Refusal::NoRoom)?;
    if table.directories.contains_key(&object) {
        return Err(Refusal::Torn);
    }
    table.live.insert(object, [None; FIELDS as usize]);
    table.set_root(node, root, Some(object));
    Ok(object)
}

pub fn move_root(table: &mut Table, node: u8, into: u8, from: u8) -> Result<u8, Refusal> {
    table.set_root(node, into, table.root(node, from));
    Ok(0)
}

pub fn clear(table: &mut Table, node: u8, root: u8) -> Result<u8, Refusal> {
    table.set_root(node, root, None);
    Ok(0)
}

pub fn load(table: &mut Table, node: u8, into: u8, holder: u8, field: u8) -> Result<u8, Refusal> {
    let object = own_live_object(table, node, holder)?;
    let taken = table.live[&object][usize::from(field)];
    table.set_root(node, into, taken);
    Ok(0)
}

pub fn store(table: &mut Table, node: u8, holder: u8, field: u8, from: u8) -> Result<u8, Refusal> {
    let object = own_live_object(table, node, holder)?;
    let stored = table.root(node, from);
    if let Some(fields) = table.live.get_mut(&object) {
        fields[usize::from(field)] = stored;
    }
    Ok(0)
}

/// The object in a root whose fields the node is about to use.
fn own_live_object(table: &Table, node: u8, holder: u8) -> Result<u8, Refusal> {
    let object = table.root(node, holder).ok_or(Refusal::Empty)?;
    if owner_of(object) != node {
        return Err(Refusal::Away);
    }
    if !table.is_live(object) {
        return Err(Refusal::Torn);
    }
    Ok(object)
}
