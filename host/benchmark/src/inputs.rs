//! The inputs by name: accepted ones of each size, and refused ones of each class.

use crate::damage;
use crate::fields::{full, image_of, small, typical, LARGEST};
use field_model::events::{COLLECT, MOVE, NEW, SEND, SETTLE};
use field_model::table::Table;

pub struct Input {
    pub image: Vec<u8>,
    pub event: Vec<u8>,
    /// The length of the buffer that is lent for the new image.
    pub room: usize,
}

/// A name, how the input is made, and the answer that it must get. An input is made only when it is asked for.
pub struct Named {
    pub name: &'static str,
    pub make: fn() -> Input,
    pub answer: u8,
}

pub const INPUTS: [Named; 19] = [
    Named { name: "fresh-new", make: || on(Table::fresh(), NEW, [0, 0, 0, 0]), answer: 0 },
    Named { name: "small-send", make: || on(small(), SEND, [0, 0, 5, 0]), answer: 0 },
    Named { name: "typical-send", make: || on(typical(), SEND, [0, 1, 4, 0]), answer: 0 },
    Named { name: "typical-settle", make: || on(typical(), SETTLE, [0, 0, 0, 0]), answer: 0 },
    Named { name: "typical-collect", make: || on(typical(), COLLECT, [2, 0, 0, 0]), answer: 0 },
    Named { name: "full-settle", make: || on(full(), SETTLE, [0, 0, 0, 0]), answer: 0 },
    Named { name: "full-collect", make: || on(full(), COLLECT, [0, 0, 0, 0]), answer: 0 },
    Named { name: "image-empty", make: || damaged(damage::nothing_left), answer: 20 },
    Named { name: "image-short", make: || damaged(damage::last_byte_gone), answer: 20 },
    Named { name: "image-kind", make: || damaged(damage::unknown_kind), answer: 21 },
    Named { name: "image-length", make: || damaged(damage::another_length), answer: 22 },
    Named { name: "image-order", make: || damaged(damage::record_twice), answer: 23 },
    Named { name: "image-value", make: || damaged(damage::own_parent), answer: 24 },
    Named { name: "image-trail", make: || damaged(damage::one_byte_more), answer: 25 },
    Named { name: "event-record", make: || Input { event: vec![4, 0, 3, 0, 0, 0, 0], ..a_move() }, answer: 2 },
    Named { name: "event-kind", make: || on(typical(), 11, [0, 0, 0, 0]), answer: 2 },
    Named { name: "event-root", make: || on(typical(), NEW, [0, 0, 0, 0]), answer: 8 },
    Named { name: "event-full", make: || on(full(), SEND, [0, 0, 1, 0]), answer: 13 },
    Named { name: "buffer-room", make: no_room, answer: 26 },
];

fn on(table: Table, kind: u16, operands: [u8; 4]) -> Input {
    let [low, high] = kind.to_le_bytes();
    let [a, b, c, d] = operands;
    Input { image: image_of(&table), event: vec![4, 0, low, high, a, b, c, d], room: LARGEST }
}

/// An event that the typical field accepts, and that leaves the image as long as it was.
fn a_move() -> Input {
    on(typical(), MOVE, [0, 0, 1, 0])
}

fn damaged(damage: fn(&[u8]) -> Vec<u8>) -> Input {
    let sound = a_move();
    Input { image: damage(&sound.image), ..sound }
}

/// One byte less than the new image has.
fn no_room() -> Input {
    let sound = a_move();
    Input { room: sound.image.len() - 1, ..sound }
}
