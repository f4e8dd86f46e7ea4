//! The sizes of the field and the ranges of its numbers.

use std::ops::RangeInclusive;

pub const NODES: u8 = 8;
pub const OBJECTS: u8 = 64;
pub const OBJECTS_OF_A_NODE: u8 = 8;
pub const ROOTS: u8 = 8;
pub const FIELDS: u8 = 4;
pub const PLACES: u8 = 64;

/// The largest count of any sort, and the number of events after which the field has ended.
pub const LIMIT: i64 = 1_000_000_000;

/// The byte that stands for an empty root or field, for "no decrement was sent" and for "no depth".
pub const NOTHING: u8 = 255;

pub const COUNT_RANGE: RangeInclusive<i64> = 0..=LIMIT;
pub const WEIGHT_RANGE: RangeInclusive<i64> = 1..=LIMIT;

/// A directory counts down at each receipt, and the matching count up may come later.
pub const DIRECTORY_MSG_CTR_RANGE: RangeInclusive<i64> = -LIMIT..=LIMIT;

/// The node that an object belongs to.
pub fn owner_of(object: u8) -> u8 {
    object / OBJECTS_OF_A_NODE
}
