//! Every refusal of an event, and that the lowest number is given where several apply.

use crate::common::{after, apply};
use field_model::events::{CLEAR, COLLECT, DROP, LOAD, MOVE, NEW, RECEIVE, SEND, SETTLE, STORE};
use field_model::limits::LIMIT;
use field_model::table::{Directory, Load, Message, Remote, Table};

const EVERY_OPERAND_USED: [(u16, [u8; 4]); 10] = [
    (NEW, [7, 7, 0, 0]),
    (MOVE, [7, 7, 7, 0]),
    (CLEAR, [7, 7, 0, 0]),
    (LOAD, [7, 7, 7, 3]),
    (STORE, [7, 7, 3, 7]),
    (SEND, [7, 7, 7, 0]),
    (RECEIVE, [63, 7, 0, 0]),
    (SETTLE, [63, 0, 0, 0]),
    (COLLECT, [7, 0, 0, 0]),
    (DROP, [7, 63, 0, 0]),
];

fn remote(parent: u8) -> Remote {
    Remote { rc: 0, parent, presence: true, msg_ctr: 0, ref_weight: 1 }
}

fn decrement(to: u8, object: u8, returns: i64, weight: i64) -> Message {
    Message { from: if to == 7 { 6 } else { 7 }, to, object, load: Load::Decrement { returns, weight } }
}

/// A table with every message place taken.
fn full_air(mut table: Table) -> Table {
    for place in 0..64 {
        table.messages.insert(place, decrement(0, 0, 0, 1));
    }
    table
}

#[test]
fn a_broken_shape_comes_before_everything() {
    let mut table = Table { count: LIMIT + 1, ..Table::fresh() };
    assert_eq!(apply(&mut table, 77, [9; 4]), (1, 0));
}

#[test]
fn each_operand_has_its_own_range() {
    for (kind, highest) in EVERY_OPERAND_USED {
        assert_ne!(apply(&mut Table::fresh(), kind, highest).0, 2, "event {kind} {highest:?}");
        for operand in 0..4 {
            let mut past = highest;
            past[operand] += 1;
            assert_eq!(apply(&mut Table::fresh(), kind, past), (2, 0), "event {kind} {past:?}");
        }
    }
}

#[test]
fn other_kinds_are_unknown_whatever_their_low_byte() {
    for kind in [0, 11, 255, 0x0101, 0x0100, 0x01FF, 0xFF01] {
        assert_eq!(apply(&mut Table::fresh(), kind, [0; 4]), (2, 0), "kind {kind}");
    }
}

#[test]
fn the_last_event_is_the_one_that_reaches_the_limit() {
    let mut table = Table { count: LIMIT - 1, ..Table::fresh() };
    assert_eq!(apply(&mut table, CLEAR, [0, 0, 0, 0]), (0, 0));
    assert_eq!(apply(&mut table, CLEAR, [0, 0, 0, 0]), (3, 0));
    assert_eq!(apply(&mut table, CLEAR, [8, 0, 0, 0]), (2, 0));
}

#[test]
fn a_place_must_hold_the_right_sort() {
    let mut table = after(&[(NEW, [0, 0, 0, 0]), (SEND, [0, 0, 1, 0])]);
    table.messages.insert(1, decrement(0, 0, 0, 1));
    assert_eq!(apply(&mut table, SETTLE, [0, 0, 0, 0]), (4, 0));
    assert_eq!(apply(&mut table, RECEIVE, [1, 0, 0, 0]), (4, 0));
    assert_eq!(apply(&mut table, RECEIVE, [2, 0, 0, 0]), (4, 0));
    assert_eq!(apply(&mut table, SETTLE, [2, 0, 0, 0]), (4, 0));
}

#[test]
fn sending_to_oneself_comes_before_an_empty_root() {
    let mut table = Table::fresh();
    assert_eq!(apply(&mut table, SEND, [1, 0, 1, 0]), (5, 0));
    assert_eq!(apply(&mut table, SEND, [1, 0, 2, 0]), (6, 0));
    assert_eq!(apply(&mut table, LOAD, [1, 0, 0, 0]), (6, 0));
    assert_eq!(apply(&mut table, STORE, [1, 0, 0, 0]), (6, 0));
}

#[test]
fn fields_are_used_at_home_only_and_only_of_live_objects() {
    let mut table = Table::fresh();
    table.set_root(0, 0, Some(8));
    table.set_root(0, 1, Some(7));
    for kind in [LOAD, STORE] {
        let holder = |root: u8| if kind == LOAD { [0, 2, root, 0] } else { [0, root, 0, 2] };
        assert_eq!(apply(&mut table, kind, holder(0)), (7, 0));
        assert_eq!(apply(&mut table, kind, holder(1)), (12, 0));
    }
}

#[test]
fn new_and_receive_need_an_empty_root() {
    let mut table = after(&[(NEW, [0, 0, 0, 0]), (NEW, [1, 0, 0, 0]), (SEND, [0, 0, 1, 0])]);
    assert_eq!(apply(&mut table, NEW, [0, 0, 0, 0]), (8, 0));
    assert_eq!(apply(&mut table, RECEIVE, [0, 0, 0, 0]), (8, 0));
    assert_eq!(apply(&mut table, RECEIVE, [0, 1, 0, 0]), (0, 255));
}

#[test]
fn new_takes_no_second_choice_when_a_directory_was_left() {
    let mut table = Table::fresh();
    table.directories.insert(0, Directory { rc: 0, msg_ctr: 0 });
    assert_eq!(apply(&mut table, NEW, [0, 0, 0, 0]), (12, 0));
    assert_eq!(apply(&mut table, NEW, [1, 0, 0, 0]), (0, 8));
}

#[test]
fn send_is_torn_before_it_is_full() {
    let mut table = full_air(Table::fresh());
    table.set_root(0, 0, Some(0));
    table.set_root(0, 1, Some(8));
    assert_eq!(apply(&mut table, SEND, [0, 0, 1, 0]), (12, 0), "own object not live");
    assert_eq!(apply(&mut table, SEND, [0, 1, 2, 0]), (12, 0), "no entry");
    table.remotes.insert((0, 8), Remote { presence: false, ..remote(1) });
    assert_eq!(apply(&mut table, SEND, [0, 1, 2, 0]), (12, 0), "entry not in use");
    table.remotes.insert((0, 8), remote(1));
    assert_eq!(apply(&mut table, SEND, [0, 1, 2, 0]), (13, 0));
    table.messages.remove(&5);
    assert_eq!(apply(&mut table, SEND, [0, 1, 2, 0]), (0, 5));
}

#[test]
fn only_the_count_that_moves_can_be_torn() {
    let mut table = after(&[(NEW, [1, 0, 0, 0])]);
    table.set_root(0, 0, Some(8));
    table.remotes.insert((0, 8), Remote { rc: LIMIT, ..remote(1) });
    assert_eq!(apply(&mut table, SEND, [0, 0, 2, 0]), (12, 0));
    assert_eq!(apply(&mut table, SEND, [0, 0, 1, 0]), (0, 0));
    table.remotes.insert((0, 8), Remote { msg_ctr: LIMIT, ..remote(1) });
    assert_eq!(apply(&mut table, SEND, [0, 0, 1, 0]), (12, 0));
    assert_eq!(apply(&mut table, SEND, [0, 0, 2, 0]), (0, 1));
    table.directories.insert(8, Directory { rc: LIMIT, msg_ctr: 0 });
    assert_eq!(apply(&mut table, SEND, [1, 0, 2, 0]), (12, 0));
}

#[test]
fn coming_home_needs_a_live_object_with_a_directory_in_range() {
    let mut table = Table::fresh();
    table.messages.insert(9, Message { from: 1, to: 0, object: 0, load: Load::Reference });
    assert_eq!(apply(&mut table, RECEIVE, [9, 0, 0, 0]), (12, 0), "not live, no directory");
    table.directories.insert(0, Directory { rc: 0, msg_ctr: 1 });
    assert_eq!(apply(&mut table, RECEIVE, [9, 0, 0, 0]), (12, 0), "not live");
    table.live.insert(0, [None; 4]);
    table.directories.insert(0, Directory { rc: 0, msg_ctr: -LIMIT });
    assert_eq!(apply(&mut table, RECEIVE, [9, 0, 0, 0]), (12, 0), "count at its lowest");
    table.directories.insert(0, Directory { rc: 0, msg_ctr: 1 - LIMIT });
    assert_eq!(apply(&mut table, RECEIVE, [9, 0, 0, 0]), (0, 255));
}

#[test]
fn receiving_again_asks_only_for_the_weight() {
    let mut table = Table::fresh();
    table.messages.insert(9, Message { from: 1, to: 0, object: 8, load: Load::Reference });
    table.remotes.insert((0, 8), Remote { ref_weight: LIMIT, presence: false, ..remote(1) });
    assert_eq!(apply(&mut table, RECEIVE, [9, 0, 0, 0]), (12, 0));
    table.remotes.insert((0, 8), Remote { ref_weight: LIMIT, presence: false, ..remote(2) });
    assert_eq!(apply(&mut table, RECEIVE, [9, 0, 0, 0]), (0, 9));
    assert!(table.remotes[&(0, 8)].presence);
}

#[test]
fn settling_needs_an_entry_and_counts_in_range() {
    let mut table = Table::fresh();
    table.messages.insert(0, decrement(0, 0, 1, 5));
    table.messages.insert(1, decrement(1, 0, 1, 5));
    assert_eq!(apply(&mut table, SETTLE, [0, 0, 0, 0]), (12, 0));
    assert_eq!(apply(&mut table, SETTLE, [1, 0, 0, 0]), (12, 0));
    table.directories.insert(0, Directory { rc: 4, msg_ctr: 0 });
    table.remotes.insert((1, 0), Remote { rc: 5, msg_ctr: LIMIT, ..remote(0) });
    assert_eq!(apply(&mut table, SETTLE, [0, 0, 0, 0]), (12, 0), "weight above RC");
    assert_eq!(apply(&mut table, SETTLE, [1, 0, 0, 0]), (12, 0), "return count past its limit");
    table.directories.insert(0, Directory { rc: 5, msg_ctr: -1 });
    table.remotes.insert((1, 0), Remote { rc: 6, msg_ctr: LIMIT - 1, ..remote(0) });
    assert_eq!(apply(&mut table, SETTLE, [0, 0, 0, 0]), (0, 0));
    assert_eq!(apply(&mut table, SETTLE, [1, 0, 0, 0]), (0, 0));
    assert_eq!(table.directories[&0], Directory { rc: 0, msg_ctr: 0 });
    assert_eq!((table.remotes[&(1, 0)].rc, table.remotes[&(1, 0)].msg_ctr), (1, LIMIT));
}

#[test]
fn dropping_is_refused_in_the_order_no_entry_busy_full() {
    let mut table = full_air(Table::fresh());
    assert_eq!(apply(&mut table, DROP, [1, 0, 0, 0]), (10, 0));
    table.remotes.insert((1, 0), remote(2));
    assert_eq!(apply(&mut table, DROP, [1, 0, 0, 0]), (11, 0), "in use");
    table.remotes.insert((1, 0), Remote { presence: false, rc: 1, ..remote(2) });
    assert_eq!(apply(&mut table, DROP, [1, 0, 0, 0]), (11, 0), "a parent");
    table.remotes.insert((1, 0), Remote { presence: false, ..remote(2) });
    assert_eq!(apply(&mut table, DROP, [1, 0, 0, 0]), (13, 0));
}

#[test]
fn a_directory_needs_no_place_to_go() {
    let mut table = full_air(Table::fresh());
    assert_eq!(apply(&mut table, DROP, [0, 0, 0, 0]), (10, 0));
    for (rc, msg_ctr) in [(1, 0), (0, 1), (0, -1)] {
        table.directories.insert(0, Directory { rc, msg_ctr });
        assert_eq!(apply(&mut table, DROP, [0, 0, 0, 0]), (11, 0));
    }
    table.directories.insert(0, Directory { rc: 0, msg_ctr: 0 });
    assert_eq!(apply(&mut table, DROP, [0, 0, 0, 0]), (0, 255));
}
