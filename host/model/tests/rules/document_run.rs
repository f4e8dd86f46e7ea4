//! Document 01's run in full, its edges, and the errors that it names.

use crate::common::{after, apply};
use field_model::events::{CLEAR, COLLECT, DROP, MOVE, NEW, RECEIVE, SEND, SETTLE};
use field_model::table::{Directory, Load, Message, Table};

/// Each event of the run with its value; all are accepted.
const RUN: [(u16, [u8; 4], u8); 12] = [
    (NEW, [0, 0, 0, 0], 0),
    (SEND, [0, 0, 3, 0], 0),
    (RECEIVE, [0, 0, 0, 0], 255),
    (SEND, [3, 0, 0, 0], 0),
    (RECEIVE, [0, 1, 0, 0], 255),
    (CLEAR, [3, 0, 0, 0], 0),
    (COLLECT, [3, 0, 0, 0], 0),
    (DROP, [3, 0, 0, 0], 0),
    (SETTLE, [0, 0, 0, 0], 0),
    (CLEAR, [0, 0, 0, 0], 0),
    (CLEAR, [0, 1, 0, 0], 0),
    (COLLECT, [0, 0, 0, 0], 1),
];

fn after_first(events: usize) -> Table {
    let events: Vec<_> = RUN[..events].iter().map(|(kind, operands, _)| (*kind, *operands)).collect();
    after(&events)
}

#[test]
fn the_twelve_events_give_their_values_and_leave_nothing() {
    let mut table = Table::fresh();
    for (kind, operands, value) in RUN {
        assert_eq!(apply(&mut table, kind, operands), (0, value), "event {kind} {operands:?}");
    }
    assert_eq!(table, Table { count: 12, ..Table::fresh() });
}

#[test]
fn the_directory_counts_below_zero_until_the_decrement_settles() {
    assert_eq!(after_first(5).directories[&0], Directory { rc: 1, msg_ctr: -1 });
    assert_eq!(after_first(9).directories[&0], Directory { rc: 0, msg_ctr: 0 });
}

#[test]
fn dropping_before_the_collection_is_busy() {
    assert_eq!(apply(&mut after_first(6), DROP, [3, 0, 0, 0]), (11, 0));
}

#[test]
fn the_decrement_carries_the_return_count_and_the_weight() {
    let decrement = Message { from: 3, to: 0, object: 0, load: Load::Decrement { returns: 1, weight: 1 } };
    assert_eq!(after_first(8).messages[&0], decrement);
}

#[test]
fn the_sixty_fifth_message_waits_for_a_place() {
    let mut table = after(&[(NEW, [0, 0, 0, 0]), (SEND, [0, 0, 1, 0]), (RECEIVE, [0, 0, 0, 0])]);
    apply(&mut table, CLEAR, [1, 0, 0, 0]);
    apply(&mut table, COLLECT, [1, 0, 0, 0]);
    assert_eq!(apply(&mut table, DROP, [1, 0, 0, 0]), (0, 0));
    for place in 1..64 {
        assert_eq!(apply(&mut table, SEND, [0, 0, 1, 0]), (0, place));
    }
    assert_eq!(apply(&mut table, SEND, [0, 0, 1, 0]), (13, 0));
    assert_eq!(apply(&mut table, SETTLE, [0, 0, 0, 0]), (0, 0));
    assert_eq!(apply(&mut table, SEND, [0, 0, 1, 0]), (0, 0));
}

#[test]
fn a_reclaimed_number_serves_again() {
    let mut table = Table::fresh();
    for root in 0..8 {
        assert_eq!(apply(&mut table, NEW, [2, root, 0, 0]), (0, 16 + root));
    }
    apply(&mut table, MOVE, [2, 5, 4, 0]);
    assert_eq!(apply(&mut table, CLEAR, [2, 0, 0, 0]), (0, 0));
    assert_eq!(apply(&mut table, NEW, [2, 0, 0, 0]), (9, 0));
    assert_eq!(apply(&mut table, COLLECT, [2, 0, 0, 0]), (0, 2));
    assert_eq!(apply(&mut table, NEW, [2, 0, 0, 0]), (0, 16));
    assert_eq!(apply(&mut table, CLEAR, [2, 5, 0, 0]), (0, 0));
    assert_eq!(apply(&mut table, NEW, [2, 5, 0, 0]), (0, 21));
}

#[test]
fn a_return_in_the_air_keeps_the_object() {
    let mut table = after_first(4);
    for (kind, operands) in [(CLEAR, [3, 0, 0, 0]), (COLLECT, [3, 0, 0, 0]), (DROP, [3, 0, 0, 0]), (SETTLE, [1, 0, 0, 0])] {
        apply(&mut table, kind, operands);
    }
    assert_eq!(table.directories[&0], Directory { rc: 0, msg_ctr: 1 });
    assert_eq!(apply(&mut table, DROP, [0, 0, 0, 0]), (11, 0));
    apply(&mut table, CLEAR, [0, 0, 0, 0]);
    assert_eq!(apply(&mut table, COLLECT, [0, 0, 0, 0]), (0, 0));
    assert!(table.is_live(0));
}

#[test]
fn a_return_count_below_zero_starts_the_collection() {
    let mut table = after(&[(NEW, [0, 0, 0, 0]), (CLEAR, [0, 0, 0, 0])]);
    table.directories.insert(0, Directory { rc: 0, msg_ctr: -1 });
    assert_eq!(apply(&mut table, COLLECT, [0, 0, 0, 0]), (0, 0));
    assert!(table.is_live(0));
}

/// Node 1 and node 2 both hold object 0; node 2's entry came from the owner.
fn two_holders() -> Table {
    after(&[
        (NEW, [0, 0, 0, 0]),
        (SEND, [0, 0, 1, 0]),
        (SEND, [0, 0, 2, 0]),
        (RECEIVE, [0, 0, 0, 0]),
        (RECEIVE, [1, 0, 0, 0]),
        (SEND, [1, 0, 2, 0]),
    ])
}

#[test]
fn a_second_sender_gets_a_decrement_and_no_child() {
    let mut table = two_holders();
    assert_eq!(apply(&mut table, RECEIVE, [0, 1, 0, 0]), (0, 0));
    assert_eq!((table.remotes[&(2, 0)].parent, table.remotes[&(2, 0)].ref_weight), (0, 1));
    let decrement = Message { from: 2, to: 1, object: 0, load: Load::Decrement { returns: 0, weight: 1 } };
    assert_eq!(table.messages[&0], decrement);
    assert_eq!(table.remotes[&(1, 0)].rc, 1);
    apply(&mut table, SETTLE, [0, 0, 0, 0]);
    assert_eq!(table.remotes[&(1, 0)].rc, 0);
}

#[test]
fn a_merged_receipt_is_given_back_whole() {
    let mut table = after(&[(NEW, [0, 0, 0, 0]), (SEND, [0, 0, 1, 0]), (SEND, [0, 0, 1, 0])]);
    assert_eq!(apply(&mut table, RECEIVE, [0, 0, 0, 0]), (0, 255));
    assert_eq!(apply(&mut table, RECEIVE, [1, 1, 0, 0]), (0, 255));
    for (kind, operands) in [(CLEAR, [1, 0, 0, 0]), (CLEAR, [1, 1, 0, 0]), (COLLECT, [1, 0, 0, 0]), (DROP, [1, 0, 0, 0])] {
        assert_eq!(apply(&mut table, kind, operands), (0, 0));
    }
    assert_eq!(table.messages[&0].load, Load::Decrement { returns: 0, weight: 2 });
    apply(&mut table, SETTLE, [0, 0, 0, 0]);
    assert_eq!(table.directories[&0], Directory { rc: 0, msg_ctr: 0 });
}
