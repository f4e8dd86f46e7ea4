//! The events that send, deliver and settle: SEND, RECEIVE, SETTLE, DROP.
//!
//! Each function tests its refusals in the order of their numbers and changes nothing before the last of them.

use crate::limits::{owner_of, COUNT_RANGE, DIRECTORY_MSG_CTR_RANGE, NOTHING, WEIGHT_RANGE};
use crate::refusal::Refusal;
use crate::table::{Directory, Load, Message, Remote, Table};
use std::ops::RangeInclusive;

pub fn send(table: &mut Table, node: u8, root: u8, to: u8) -> Result<u8, Refusal> {
    if node == to {
        return Err(Refusal::ToSelf);
    }
    let object = table.root(node, root).ok_or(Refusal::Empty)?;
    let place;
    if owner_of(object) == node {
        let directory = sent_by_owner(table, object)?;
        place = table.lowest_empty_place()?;
        table.directories.insert(object, directory);
    } else {
        let remote = sent_by_another(table, node, object, to)?;
        place = table.lowest_empty_place()?;
        table.remotes.insert((node, object), remote);
    }
    table.messages.insert(place, Message { from: node, to, object, load: Load::Reference });
    Ok(place)
}

pub fn receive(table: &mut Table, place: u8, root: u8) -> Result<u8, Refusal> {
    let Some(Message { from, to, object, load: Load::Reference }) = table.messages.get(&place).cloned() else {
        return Err(Refusal::NoMessage);
    };
    if table.root(to, root).is_some() {
        return Err(Refusal::Root);
    }
    let decrement_sent = if owner_of(object) == to {
        came_home(table, object)?;
        table.messages.remove(&place);
        false
    } else {
        received_away(table, place, from, to, object)?
    };
    table.set_root(to, root, Some(object));
    Ok(if decrement_sent { place } else { NOTHING })
}

pub fn settle(table: &mut Table, place: u8) -> Result<u8, Refusal> {
    let Some(Message { to, object, load: Load::Decrement { returns, weight }, .. }) = table.messages.get(&place).cloned() else {
        return Err(Refusal::NoMessage);
    };
    if owner_of(object) == to {
        let directory = table.directories.get_mut(&object).ok_or(Refusal::Torn)?;
        let rc = moved(directory.rc, -weight, COUNT_RANGE)?;
        let msg_ctr = moved(directory.msg_ctr, returns, DIRECTORY_MSG_CTR_RANGE)?;
        *directory = Directory { rc, msg_ctr };
    } else {
        let remote = table.remotes.get_mut(&(to, object)).ok_or(Refusal::Torn)?;
        let rc = moved(remote.rc, -weight, COUNT_RANGE)?;
        let msg_ctr = moved(remote.msg_ctr, returns, COUNT_RANGE)?;
        *remote = Remote { rc, msg_ctr, ..remote.clone() };
    }
    table.messages.remove(&place);
    Ok(0)
}

pub fn drop_entry(table: &mut Table, node: u8, object: u8) -> Result<u8, Refusal> {
    if owner_of(object) == node {
        let directory = table.directories.get(&object).ok_or(Refusal::NoEntry)?;
        if directory.rc != 0 || directory.msg_ctr != 0 {
            return Err(Refusal::Busy);
        }
        table.directories.remove(&object);
        return Ok(NOTHING);
    }
    let remote = table.remotes.get(&(node, object)).cloned().ok_or(Refusal::NoEntry)?;
    if remote.presence || remote.rc != 0 {
        return Err(Refusal::Busy);
    }
    let place = table.lowest_empty_place()?;
    let load = Load::Decrement { returns: remote.msg_ctr, weight: remote.ref_weight };
    table.messages.insert(place, Message { from: node, to: remote.parent, object, load });
    table.remotes.remove(&(node, object));
    Ok(place)
}

fn sent_by_owner(table: &Table, object: u8) -> Result<Directory, Refusal> {
    if !table.is_live(object) {
        return Err(Refusal::Torn);
    }
    match table.directories.get(&object) {
        None => Ok(Directory { rc: 1, msg_ctr: 0 }),
        Some(directory) => Ok(Directory { rc: moved(directory.rc, 1, COUNT_RANGE)?, ..directory.clone() }),
    }
}

/// A reference sent home is a return; one sent elsewhere makes this node a parent.
fn sent_by_another(table: &Table, node: u8, object: u8, to: u8) -> Result<Remote, Refusal> {
    if !table.has_presence(node, object) {
        return Err(Refusal::Torn);
    }
    let mut remote = table.remotes[&(node, object)].clone();
    if owner_of(object) == to {
        remote.msg_ctr = moved(remote.msg_ctr, 1, COUNT_RANGE)?;
    } else {
        remote.rc = moved(remote.rc, 1, COUNT_RANGE)?;
    }
    Ok(remote)
}

fn came_home(table: &mut Table, object: u8) -> Result<(), Refusal> {
    if !table.is_live(object) {
        return Err(Refusal::Torn);
    }
    let directory = table.directories.get_mut(&object).ok_or(Refusal::Torn)?;
    directory.msg_ctr = moved(directory.msg_ctr, -1, DIRECTORY_MSG_CTR_RANGE)?;
    Ok(())
}

/// A reference in `place` reaches a node that doesn't own the object. Tells whether a decrement went out for it.
fn received_away(table: &mut Table, place: u8, from: u8, to: u8, object: u8) -> Result<bool, Refusal> {
    let made = Remote { rc: 0, parent: from, presence: true, msg_ctr: 0, ref_weight: 1 };
    let Some(remote) = table.remotes.get_mut(&(to, object)) else {
        table.remotes.insert((to, object), made);
        table.messages.remove(&place);
        return Ok(false);
    };
    if remote.parent == from {
        remote.ref_weight = moved(remote.ref_weight, 1, WEIGHT_RANGE)?;
        remote.presence = true;
        table.messages.remove(&place);
        return Ok(false);
    }
    remote.presence = true;
    let load = Load::Decrement { returns: 0, weight: 1 };
    table.messages.insert(place, Message { from: to, to: from, object, load });
    Ok(true)
}

/// A count after a change, or TORN if it would leave its range.
fn moved(count: i64, by: i64, range: RangeInclusive<i64>) -> Result<i64, Refusal> {
    let changed = count + by;
    if range.contains(&changed) {
        Ok(changed)
    } else {
        Err(Refusal::Torn)
    }
}
