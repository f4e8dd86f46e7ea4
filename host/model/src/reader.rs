//! The saved image's reader. The first record that fails decides.

use crate::limits::{COUNT_RANGE, NODES, NOTHING};
use crate::record::{first_record, Kind};
use crate::refusal::Refusal;
use crate::shape::{directory_in_shape, live_in_shape, message_in_shape, remote_in_shape, slots_in_shape};
use crate::table::{Directory, Load, Message, Remote, Slot, Table};

/// Reads a whole image. Where document 01 hands back the fresh state beside a refusal, this hands back the refusal alone.
pub fn read(image: &[u8]) -> Result<Table, Refusal> {
    let mut table = Table::fresh();
    let mut order = Order::default();
    let mut left = image;
    loop {
        let (kind, payload, rest) = first_record(left)?;
        if !order.admits(kind, payload) {
            return Err(Refusal::Order);
        }
        if !take_in(&mut table, kind, payload) {
            return Err(Refusal::Value);
        }
        left = rest;
        if kind == Kind::End {
            return if left.is_empty() { Ok(table) } else { Err(Refusal::Trail) };
        }
    }
}

/// What has been read so far, as far as it limits what may come next.
#[derive(Default)]
struct Order {
    last: Option<(u8, u16)>,
    roots_read: u8,
}

impl Order {
    /// Whether a record may stand here; if so, it is noted.
    fn admits(&mut self, kind: Kind, payload: &[u8]) -> bool {
        let position = (kind.section(), key(kind, payload));
        let begun = self.last.is_some();
        let rises = self.last < Some(position);
        let admitted = match kind {
            Kind::Count => !begun,
            Kind::Live => begun && rises,
            Kind::Roots => begun && self.roots_read < NODES && payload[0] == self.roots_read,
            _ => self.roots_read == NODES && rises,
        };
        if admitted {
            self.last = Some(position);
            self.roots_read += u8::from(kind == Kind::Roots);
        }
        admitted
    }
}

/// What rises within a section: the first byte, or for remote entries node and object.
fn key(kind: Kind, payload: &[u8]) -> u16 {
    match kind {
        Kind::Count | Kind::End => 0,
        Kind::Remote => u16::from_be_bytes([payload[0], payload[1]]),
        _ => u16::from(payload[0]),
    }
}

/// Puts a record into the table; `false` if it holds a value that the shape forbids.
fn take_in(table: &mut Table, kind: Kind, payload: &[u8]) -> bool {
    match kind {
        Kind::Count => take_count(table, payload),
        Kind::Live => take_live(table, payload),
        Kind::Roots => take_roots(table, payload),
        Kind::Directory => take_directory(table, payload),
        Kind::Remote => take_remote(table, payload),
        Kind::Reference => take_message(table, payload, Load::Reference),
        Kind::Decrement => {
            let load = Load::Decrement { returns: unsigned(payload, 4), weight: unsigned(payload, 8) };
            take_message(table, payload, load)
        }
        Kind::End => true,
    }
}

fn take_count(table: &mut Table, payload: &[u8]) -> bool {
    table.count = unsigned(payload, 0);
    COUNT_RANGE.contains(&table.count)
}

fn take_live(table: &mut Table, payload: &[u8]) -> bool {
    let object = payload[0];
    let fields = [slot(payload[1]), slot(payload[2]), slot(payload[3]), slot(payload[4])];
    table.live.insert(object, fields);
    live_in_shape(object, &fields)
}

/// The order has already made sure of the node.
fn take_roots(table: &mut Table, payload: &[u8]) -> bool {
    let roots = &mut table.roots[usize::from(payload[0])];
    for (root, byte) in roots.iter_mut().zip(&payload[1..]) {
        *root = slot(*byte);
    }
    slots_in_shape(roots)
}

fn take_directory(table: &mut Table, payload: &[u8]) -> bool {
    let object = payload[0];
    let directory = Directory { rc: unsigned(payload, 1), msg_ctr: signed(payload, 5) };
    let good = directory_in_shape(object, &directory);
    table.directories.insert(object, directory);
    good
}

fn take_remote(table: &mut Table, payload: &[u8]) -> bool {
    let (node, object) = (payload[0], payload[1]);
    let remote = Remote {
        rc: unsigned(payload, 2),
        parent: payload[6],
        presence: payload[7] == 1,
        msg_ctr: signed(payload, 8),
        ref_weight: unsigned(payload, 12),
    };
    let good = payload[7] <= 1 && remote_in_shape(node, object, &remote);
    table.remotes.insert((node, object), remote);
    good
}

fn take_message(table: &mut Table, payload: &[u8], load: Load) -> bool {
    let place = payload[0];
    let message = Message { from: payload[1], to: payload[2], object: payload[3], load };
    let good = message_in_shape(place, &message);
    table.messages.insert(place, message);
    good
}

fn slot(byte: u8) -> Slot {
    (byte != NOTHING).then_some(byte)
}

fn four_bytes(payload: &[u8], at: usize) -> [u8; 4] {
    [payload[at], payload[at + 1], payload[at + 2], payload[at + 3]]
}

fn unsigned(payload: &[u8], at: usize) -> i64 {
    i64::from(u32::from_le_bytes(four_bytes(payload, at)))
}

fn signed(payload: &[u8], at: usize) -> i64 {
    i64::from(i32::from_le_bytes(four_bytes(payload, at)))
}
