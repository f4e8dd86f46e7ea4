//! The field table: what is live, who holds what, the entries and the messages in the air.
//!
//! Whatever may be absent is a key that may be missing from a map, so that nothing absent has numbers. The maps run in the order of their
//! keys, which is the order of the saved image.

use crate::limits::{owner_of, FIELDS, NODES, PLACES, ROOTS};
use crate::refusal::Refusal;
use std::collections::BTreeMap;

/// What a root or a field holds: an object's number, or nothing.
pub type Slot = Option<u8>;

pub type Fields = [Slot; FIELDS as usize];
pub type Roots = [Slot; ROOTS as usize];

/// The owner's entry. `msg_ctr` is the return count.
#[derive(Clone, Debug, PartialEq, Eq)]
pub struct Directory {
    pub rc: i64,
    pub msg_ctr: i64,
}

/// Another node's entry.
#[derive(Clone, Debug, PartialEq, Eq)]
pub struct Remote {
    pub rc: i64,
    pub parent: u8,
    pub presence: bool,
    pub msg_ctr: i64,
    pub ref_weight: i64,
}

/// What a message carries beside its sender, its receiver and its object.
#[derive(Clone, Debug, PartialEq, Eq)]
pub enum Load {
    Reference,
    Decrement { returns: i64, weight: i64 },
}

#[derive(Clone, Debug, PartialEq, Eq)]
pub struct Message {
    pub from: u8,
    pub to: u8,
    pub object: u8,
    pub load: Load,
}

#[derive(Clone, Debug, PartialEq, Eq)]
pub struct Table {
    /// The events accepted so far.
    pub count: i64,
    /// The live objects, each with its fields.
    pub live: BTreeMap<u8, Fields>,
    pub roots: [Roots; NODES as usize],
    /// By object: the owner is known from it.
    pub directories: BTreeMap<u8, Directory>,
    /// By node, then object.
    pub remotes: BTreeMap<(u8, u8), Remote>,
    /// By place.
    pub messages: BTreeMap<u8, Message>,
}

impl Table {
    pub fn fresh() -> Table {
        Table {
            count: 0,
            live: BTreeMap::new(),
            roots: [[None; ROOTS as usize]; NODES as usize],
            directories: BTreeMap::new(),
            remotes: BTreeMap::new(),
            messages: BTreeMap::new(),
        }
    }

    pub fn root(&self, node: u8, root: u8) -> Slot {
        self.roots[usize::from(node)][usize::from(root)]
    }

    pub fn set_root(&mut self, node: u8, root: u8, slot: Slot) {
        self.roots[usize::from(node)][usize::from(root)] = slot;
    }

    pub fn is_live(&self, object: u8) -> bool {
        self.live.contains_key(&object)
    }

    /// Whether `node`, which doesn't own the object, has an entry of it that is in use.
    pub fn has_presence(&self, node: u8, object: u8) -> bool {
        self.remotes.get(&(node, object)).is_some_and(|remote| remote.presence)
    }

    /// The objects of `node` that are live, rising.
    pub fn live_of(&self, node: u8) -> Vec<u8> {
        self.live.keys().copied().filter(|object| owner_of(*object) == node).collect()
    }

    /// Where the next message goes.
    pub fn lowest_empty_place(&self) -> Result<u8, Refusal> {
        (0..PLACES).find(|place| !self.messages.contains_key(place)).ok_or(Refusal::Full)
    }
}
