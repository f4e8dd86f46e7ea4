//! COLLECT: what is kept, what goes, what is torn.

use crate::common::{after, apply};
use field_model::events::{COLLECT, NEW, STORE};
use field_model::table::{Directory, Remote, Table};

fn remote(presence: bool) -> Remote {
    Remote { rc: 0, parent: 1, presence, msg_ctr: 0, ref_weight: 1 }
}

/// Objects 0 to 3 of node 0 in roots 0 to 3; 0 holds 1 in field 3, 1 holds 2 in field 0, 2 holds 0 in field 1.
fn ring_and_one_more() -> Table {
    let mut events: Vec<(u16, [u8; 4])> = (0..4).map(|root| (NEW, [0, root, 0, 0])).collect();
    events.extend([(STORE, [0, 0, 3, 1]), (STORE, [0, 1, 0, 2]), (STORE, [0, 2, 1, 0])]);
    after(&events)
}

fn keep_roots(table: &mut Table, kept: &[u8]) {
    for root in 0..8 {
        if !kept.contains(&root) {
            table.set_root(0, root, None);
        }
    }
}

#[test]
fn one_root_keeps_a_whole_ring() {
    let mut table = ring_and_one_more();
    keep_roots(&mut table, &[1]);
    assert_eq!(apply(&mut table, COLLECT, [0; 4]), (0, 1));
    assert_eq!(table.live_of(0), [0, 1, 2]);
}

#[test]
fn a_ring_that_nobody_holds_goes() {
    let mut table = ring_and_one_more();
    keep_roots(&mut table, &[3]);
    assert_eq!(apply(&mut table, COLLECT, [0; 4]), (0, 3));
    assert_eq!(table.live_of(0), [3]);
}

#[test]
fn a_directory_in_use_keeps_and_a_clear_one_goes_with_its_object() {
    let mut table = ring_and_one_more();
    keep_roots(&mut table, &[]);
    table.directories.insert(3, Directory { rc: 1, msg_ctr: -1 });
    table.directories.insert(0, Directory { rc: 0, msg_ctr: 0 });
    assert_eq!(apply(&mut table, COLLECT, [0; 4]), (0, 3));
    assert_eq!(table.directories.keys().copied().collect::<Vec<u8>>(), [3]);
}

#[test]
fn a_clear_directory_of_a_kept_or_dead_object_stays() {
    let mut table = ring_and_one_more();
    table.directories.insert(0, Directory { rc: 0, msg_ctr: 0 });
    table.directories.insert(7, Directory { rc: 0, msg_ctr: 0 });
    assert_eq!(apply(&mut table, COLLECT, [0; 4]), (0, 0));
    assert_eq!(table.directories.len(), 2);
}

#[test]
fn starting_from_a_dead_object_is_torn() {
    let mut by_root = Table::fresh();
    by_root.set_root(0, 0, Some(5));
    assert_eq!(apply(&mut by_root, COLLECT, [0; 4]), (12, 0));
    let mut by_directory = Table::fresh();
    by_directory.directories.insert(5, Directory { rc: 0, msg_ctr: -1 });
    assert_eq!(apply(&mut by_directory, COLLECT, [0; 4]), (12, 0));
    assert_eq!(apply(&mut by_directory, COLLECT, [1, 0, 0, 0]), (0, 0));
}

#[test]
fn reaching_a_dead_object_is_torn_only_from_a_kept_one() {
    let mut table = after(&[(NEW, [0, 0, 0, 0])]);
    table.live.insert(0, [None, Some(6), None, None]);
    assert_eq!(apply(&mut table, COLLECT, [0; 4]), (12, 0));
    keep_roots(&mut table, &[]);
    assert_eq!(apply(&mut table, COLLECT, [0; 4]), (0, 1));
}

#[test]
fn what_is_held_needs_an_entry_in_use() {
    let mut table = after(&[(NEW, [0, 0, 0, 0])]);
    table.live.insert(0, [None, None, Some(9), None]);
    assert_eq!(apply(&mut table, COLLECT, [0; 4]), (12, 0), "no entry");
    table.remotes.insert((0, 9), remote(false));
    assert_eq!(apply(&mut table, COLLECT, [0; 4]), (12, 0), "entry not in use");
    table.remotes.insert((0, 9), remote(true));
    assert_eq!(apply(&mut table, COLLECT, [0; 4]), (0, 0));
    assert!(table.remotes[&(0, 9)].presence);
}

#[test]
fn what_only_a_reclaimed_object_held_is_set_unused() {
    let mut table = after(&[(NEW, [0, 0, 0, 0])]);
    table.live.insert(0, [Some(9), Some(10), None, None]);
    table.remotes.insert((0, 9), remote(true));
    table.remotes.insert((2, 9), remote(true));
    keep_roots(&mut table, &[]);
    assert_eq!(apply(&mut table, COLLECT, [0; 4]), (0, 1));
    assert!(!table.remotes[&(0, 9)].presence);
    assert!(table.remotes[&(2, 9)].presence, "another node's entry");
}

#[test]
fn fields_of_another_nodes_objects_are_not_followed() {
    let mut table = after(&[(NEW, [0, 0, 0, 0]), (NEW, [1, 0, 0, 0])]);
    table.live.insert(8, [Some(0), None, None, None]);
    table.remotes.insert((0, 8), remote(true));
    table.set_root(0, 0, Some(8));
    assert_eq!(apply(&mut table, COLLECT, [0; 4]), (0, 1));
    assert_eq!(table.live_of(0), []);
}
