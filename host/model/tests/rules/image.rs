//! The saved image: one image for each table, and every refusal of the reader.

use field_model::events::{COLLECT, NEW, SEND};
use field_model::limits::LIMIT;
use field_model::reader::read;
use field_model::table::{Directory, Load, Message, Remote, Table};
use field_model::writer::write;
use std::slice;

use crate::common::after;

/// Room for the largest image.
const ROOM: usize = 11_508;

fn image_of(table: &Table) -> Vec<u8> {
    let mut out = vec![0; ROOM];
    let length = write(table, &mut out).expect("a table in shape");
    out.truncate(length);
    out
}

fn refusal_of(image: &[u8]) -> u8 {
    read(image).map_or_else(|refusal| refusal.number(), |_| 0)
}

/// The header of a record and its payload.
fn record(kind: u16, payload: &[u8]) -> Vec<u8> {
    let mut bytes = vec![payload.len() as u8, 0];
    bytes.extend(kind.to_le_bytes());
    bytes.extend(payload);
    bytes
}

/// An image with these records between the roots and the end.
fn image_with(records: &[Vec<u8>]) -> Vec<u8> {
    let fresh = image_of(&Table::fresh());
    let (before_the_end, end) = fresh.split_at(fresh.len() - 4);
    [before_the_end, &records.concat(), end].concat()
}

fn largest() -> Table {
    let mut table = Table { count: LIMIT, ..Table::fresh() };
    for object in 0..64 {
        table.live.insert(object, [Some(63 - object), None, Some(object), Some(0)]);
        table.directories.insert(object, Directory { rc: LIMIT, msg_ctr: -LIMIT });
        for node in (0..8).filter(|node| *node != object / 8) {
            let remote = Remote { rc: LIMIT, parent: (node + 1) % 8, presence: object % 2 == 0, msg_ctr: LIMIT, ref_weight: 1 };
            table.remotes.insert((node, object), remote);
        }
        let load = Load::Decrement { returns: 0, weight: LIMIT };
        table.messages.insert(object, Message { from: 7, to: 0, object, load });
    }
    table
}

#[test]
fn the_fresh_image_has_116_bytes_and_the_largest_11508() {
    assert_eq!(image_of(&Table::fresh()).len(), 116);
    assert_eq!(image_of(&largest()).len(), 11_508);
}

#[test]
fn a_table_comes_back_from_its_image() {
    for table in [Table::fresh(), largest(), after(&[(NEW, [3, 1, 0, 0]), (SEND, [3, 1, 0, 0]), (COLLECT, [3, 0, 0, 0])])] {
        assert_eq!(read(&image_of(&table)), Ok(table));
    }
}

#[test]
fn a_refused_write_leaves_the_buffer() {
    let mut out = [7; 115];
    assert_eq!(write(&Table::fresh(), &mut out).map_err(|refusal| refusal.number()), Err(26));
    let broken = Table { count: -1, ..Table::fresh() };
    assert_eq!(write(&broken, &mut out).map_err(|refusal| refusal.number()), Err(1));
    assert_eq!(out, [7; 115]);
}

#[test]
fn an_accepted_write_leaves_what_is_past_the_image() {
    let mut out = [7; 120];
    assert_eq!(write(&Table::fresh(), &mut out), Ok(116));
    assert_eq!(out[116..], [7; 4]);
}

#[test]
fn a_cut_image_is_short_and_a_longer_one_trails() {
    let image = image_of(&largest());
    for cut in 0..image.len() {
        assert_eq!(refusal_of(&image[..cut]), 20, "cut after {cut}");
    }
    for byte in [0, 1, 255] {
        assert_eq!(refusal_of(&[&image[..], &[byte]].concat()), 25);
    }
}

#[test]
fn kind_is_looked_at_before_length_and_length_before_the_cut() {
    assert_eq!(refusal_of(&[9, 9, 1, 0]), 21);
    assert_eq!(refusal_of(&[9, 9, 0, 1]), 22);
    assert_eq!(refusal_of(&[4, 0, 0, 1]), 20);
    assert_eq!(refusal_of(&[0, 0, 0xFF, 1]), 23);
}

#[test]
fn records_keep_their_order() {
    let directory = |object| record(0x0103, &[object, 1, 0, 0, 0, 0, 0, 0, 0]);
    let remote = |node, object| record(0x0104, &[node, object, 0, 0, 0, 0, 3, 1, 0, 0, 0, 0, 1, 0, 0, 0]);
    let reference = |place| record(0x0105, &[place, 0, 1, 5]);
    let decrement = |place| record(0x0106, &[place, 0, 1, 5, 0, 0, 0, 0, 1, 0, 0, 0]);
    let good = [directory(1), directory(2), remote(1, 40), remote(2, 7), reference(3), decrement(4), reference(5)];
    assert_eq!(refusal_of(&image_with(&good)), 0);
    for at in 0..good.len() {
        let mut doubled = good.to_vec();
        doubled.insert(at, good[at].clone());
        assert_eq!(refusal_of(&image_with(&doubled)), 23, "record {at} twice");
        let mut swapped = good.to_vec();
        swapped.swap(at, (at + 1) % good.len());
        assert_eq!(refusal_of(&image_with(&swapped)), 23, "record {at} after the next");
    }
    assert_eq!(refusal_of(&image_with(&[remote(2, 10), remote(1, 200)])), 23);
    assert_eq!(refusal_of(&image_with(&[remote(2, 10), remote(2, 200)])), 24);
    assert_eq!(refusal_of(&image_with(&[decrement(3), reference(3)])), 23);
    assert_eq!(refusal_of(&image_with(&[record(0x0102, &[8; 9])])), 23, "a ninth roots record");
    assert_eq!(refusal_of(&image_with(&[record(0x0100, &[0; 4])])), 23, "a second count");
    assert_eq!(refusal_of(&image_with(&[record(0x0101, &[5, 255, 255, 255, 255])])), 23, "a live object after the roots");
}

#[test]
fn roots_records_come_in_turn() {
    let fresh = image_of(&Table::fresh());
    for node in [1, 7, 8, 255] {
        let mut image = fresh.clone();
        image[12] = node;
        assert_eq!(refusal_of(&image), 23, "node {node} where node 0 belongs");
    }
    let seven = [&fresh[..fresh.len() - 17], &fresh[fresh.len() - 4..]].concat();
    assert_eq!(refusal_of(&seven), 23);
}

#[test]
fn values_that_the_shape_forbids() {
    let directory = |object, rc: u32, msg_ctr: i32| record(0x0103, &[&[object][..], &rc.to_le_bytes(), &msg_ctr.to_le_bytes()].concat());
    let limit = LIMIT as u32;
    for (answer, directory) in [
        (0, directory(63, limit, -(limit as i32))),
        (0, directory(0, 0, limit as i32)),
        (24, directory(64, 0, 0)),
        (24, directory(0, limit + 1, 0)),
        (24, directory(0, 0, limit as i32 + 1)),
        (24, directory(0, 0, -(limit as i32) - 1)),
    ] {
        assert_eq!(refusal_of(&image_with(slice::from_ref(&directory))), answer, "{directory:?}");
    }
    let remote = [1, 0, 0, 0, 0, 0, 3, 1, 0, 0, 0, 0, 1, 0, 0, 0];
    for (at, byte) in [(0, 8), (0, 0), (1, 64), (1, 8), (5, 128), (6, 8), (6, 1), (7, 2), (11, 128), (12, 0), (15, 128)] {
        let mut bad = remote;
        bad[at] = byte;
        assert_eq!(refusal_of(&image_with(&[record(0x0104, &bad)])), 24, "byte {at} of a remote entry is {byte}");
    }
    let decrement = [0, 0, 1, 5, 0, 0, 0, 0, 1, 0, 0, 0];
    for (at, byte) in [(0, 64), (1, 8), (1, 1), (2, 8), (3, 64), (7, 128), (8, 0), (11, 128)] {
        let mut bad = decrement;
        bad[at] = byte;
        assert_eq!(refusal_of(&image_with(&[record(0x0106, &bad)])), 24, "byte {at} of a decrement is {byte}");
    }
}
