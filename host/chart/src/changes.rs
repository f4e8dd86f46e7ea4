//! What one event changed: the difference between the field before it and the field after it.

use crate::run::Step;
use field_model::limits::{owner_of, PLACES};
use field_model::table::{Directory, Message, Remote, Slot, Table};
use std::collections::{BTreeMap, BTreeSet};

#[derive(Clone, PartialEq, Eq)]
pub enum Entry {
    Directory(Directory),
    Remote(Remote),
}

impl Entry {
    /// RC and MsgCtr, which both sorts have.
    pub fn counts(&self) -> (i64, i64) {
        match self {
            Entry::Directory(directory) => (directory.rc, directory.msg_ctr),
            Entry::Remote(remote) => (remote.rc, remote.msg_ctr),
        }
    }
}

/// An entry that was made, amended or deleted.
pub struct EntryChange {
    pub node: u8,
    pub object: u8,
    pub before: Option<Entry>,
    pub after: Option<Entry>,
}

/// A root of a node, or a field of an object, that holds something else than before.
pub struct SlotChange {
    /// The node or the object.
    pub holder: u8,
    pub index: usize,
    pub after: Slot,
}

pub struct Changes {
    pub born: Vec<u8>,
    pub reclaimed: Vec<u8>,
    pub roots: Vec<SlotChange>,
    pub fields: Vec<SlotChange>,
    pub entries: Vec<EntryChange>,
    /// The message that reached its node, with its place.
    pub arrived: Option<(u8, Message)>,
    /// The message that was sent, with its place. It may be the place of the message that arrived.
    pub sent: Option<(u8, Message)>,
}

pub fn changes(step: &Step) -> Changes {
    let (before, after) = (&step.before, &step.after);
    let moved = (0..PLACES).find(|place| before.messages.get(place) != after.messages.get(place));
    let message_in = |table: &Table| moved.and_then(|place| table.messages.get(&place).map(|message| (place, message.clone())));
    Changes {
        born: after.live.keys().copied().filter(|object| !before.is_live(*object)).collect(),
        reclaimed: before.live.keys().copied().filter(|object| !after.is_live(*object)).collect(),
        roots: changed_roots(before, after),
        fields: changed_fields(before, after),
        entries: changed_entries(before, after),
        arrived: message_in(before),
        sent: message_in(after),
    }
}

fn changed_roots(before: &Table, after: &Table) -> Vec<SlotChange> {
    let nodes = before.roots.iter().zip(&after.roots).enumerate();
    nodes.flat_map(|(node, (before, after))| changed_slots(node as u8, before, after)).collect()
}

/// Fields of objects that are live on both sides; those of the others are empty.
fn changed_fields(before: &Table, after: &Table) -> Vec<SlotChange> {
    let kept = before.live.iter().filter_map(|(object, fields)| after.live.get(object).map(|later| (*object, fields, later)));
    kept.flat_map(|(object, fields, later)| changed_slots(object, fields, later)).collect()
}

fn changed_slots(holder: u8, before: &[Slot], after: &[Slot]) -> Vec<SlotChange> {
    let slots = before.iter().zip(after).enumerate();
    slots.filter(|(_, (old, new))| old != new).map(|(index, (_, new))| SlotChange { holder, index, after: *new }).collect()
}

fn changed_entries(before: &Table, after: &Table) -> Vec<EntryChange> {
    let (old, new) = (entries_of(before), entries_of(after));
    let keys: BTreeSet<(u8, u8)> = old.keys().chain(new.keys()).copied().collect();
    let changed = keys.into_iter().filter(|key| old.get(key) != new.get(key));
    changed.map(|key| EntryChange { node: key.0, object: key.1, before: old.get(&key).cloned(), after: new.get(&key).cloned() }).collect()
}

/// All entries, by node and object.
fn entries_of(table: &Table) -> BTreeMap<(u8, u8), Entry> {
    let directories =
        table.directories.iter().map(|(object, directory)| ((owner_of(*object), *object), Entry::Directory(directory.clone())));
    let remotes = table.remotes.iter().map(|(key, remote)| (*key, Entry::Remote(remote.clone())));
    directories.chain(remotes).collect()
}
