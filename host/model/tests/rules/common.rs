//! What the tests share: events as five numbers, and runs of them from the fresh state.

use field_model::events::{step, Event};
use field_model::table::Table;

/// The answer and the value of one event. A refused one must leave the table as it was.
pub fn apply(table: &mut Table, kind: u16, operands: [u8; 4]) -> (u8, u8) {
    let before = table.clone();
    match step(table, Event { kind, operands }) {
        Ok(value) => {
            assert_eq!(table.count, before.count + 1, "an accepted event is counted");
            (0, value)
        }
        Err(refusal) => {
            assert_eq!(*table, before, "a refused event changes nothing");
            (refusal.number(), 0)
        }
    }
}

/// The table after events that must all be accepted.
pub fn after(events: &[(u16, [u8; 4])]) -> Table {
    let mut table = Table::fresh();
    for (kind, operands) in events {
        let (answer, _) = apply(&mut table, *kind, *operands);
        assert_eq!(answer, 0, "event {kind} {operands:?}");
    }
    table
}
