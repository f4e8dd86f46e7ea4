//! The way of each message: the event that sent it and the event at which it arrived.

use crate::changes::Changes;
use field_model::table::{Load, Message};
use std::collections::BTreeMap;

pub struct Flight {
    pub message: Message,
    /// The row of the event that sent it, counted from 0.
    pub sent: usize,
    /// The row of the event at which it arrived; none if it is in the air at the end.
    pub arrived: Option<usize>,
}

impl Flight {
    pub fn is_decrement(&self) -> bool {
        matches!(self.message.load, Load::Decrement { .. })
    }
}

/// All flights, in the order in which they were sent.
pub fn flights(rows: &[Changes]) -> Vec<Flight> {
    let mut flights: Vec<Flight> = Vec::new();
    let mut by_place: BTreeMap<u8, usize> = BTreeMap::new();
    for (row, changes) in rows.iter().enumerate() {
        if let Some(flight) = changes.arrived.as_ref().and_then(|(place, _)| by_place.remove(place)) {
            flights[flight].arrived = Some(row);
        }
        if let Some((place, message)) = &changes.sent {
            by_place.insert(*place, flights.len());
            flights.push(Flight { message: message.clone(), sent: row, arrived: None });
        }
    }
    flights
}
