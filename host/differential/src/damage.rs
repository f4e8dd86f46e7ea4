//! Images that went wrong: records out of order, twice or missing, and bytes that only look like records.

use crate::random::Random;

/// Payload length and kind of every record that an image may have.
const RECORDS: [(u8, u8); 8] = [(4, 0x00), (5, 0x01), (9, 0x02), (9, 0x03), (16, 0x04), (4, 0x05), (12, 0x06), (0, 0xFF)];

/// An image cut into its records.
pub fn records_of(image: &[u8]) -> Vec<Vec<u8>> {
    let mut records = Vec::new();
    let mut left = image;
    while !left.is_empty() {
        let (record, rest) = left.split_at(4 + usize::from(left[0]));
        records.push(record.to_vec());
        left = rest;
    }
    records
}

/// The image with two of its records in each other's place.
pub fn swapped(records: &[Vec<u8>], one: usize, other: usize) -> Vec<u8> {
    let mut changed = records.to_vec();
    changed.swap(one, other);
    changed.concat()
}

/// The image with a record put in.
pub fn with_record(records: &[Vec<u8>], at: usize, record: &[u8]) -> Vec<u8> {
    let mut changed = records.to_vec();
    changed.insert(at, record.to_vec());
    changed.concat()
}

/// The image without one of its records.
pub fn without_record(records: &[Vec<u8>], at: usize) -> Vec<u8> {
    let mut changed = records.to_vec();
    changed.remove(at);
    changed.concat()
}

/// A record whose header is good and whose payload is anything, mostly small numbers.
pub fn some_record(random: &mut Random) -> Vec<u8> {
    let (length, kind) = random.pick(&RECORDS);
    let mut record = vec![length, 0, kind, 1];
    for _ in 0..length {
        let byte = if random.chance(70) { random.byte_below(9) } else { random.byte() };
        record.push(byte);
    }
    record
}

/// A few records in any order, behind a count or not.
pub fn some_records(random: &mut Random) -> Vec<u8> {
    let mut image = if random.chance(70) { vec![4, 0, 0, 1, 1, 0, 0, 0] } else { Vec::new() };
    for _ in 0..random.below(6) {
        image.extend(some_record(random));
    }
    image
}
