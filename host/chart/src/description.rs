//! The words for those who can't see the picture: the run event by event, shortened, and what is still in the air.

use crate::flights::Flight;
use crate::layout::{Layout, Row};
use field_model::table::Load;

pub fn description(layout: &Layout) -> String {
    let mut lines = vec![format!("A message chart of {} events at {} nodes. Time runs down.", layout.rows.len(), layout.lanes.len())];
    let flights: Vec<&Flight> = layout.arrows.iter().map(|arrow| &arrow.flight).collect();
    lines.extend(layout.rows.iter().enumerate().map(|(place, row)| row_words(place, row, &flights)));
    let in_the_air = flights.iter().filter(|flight| flight.arrived.is_none());
    lines.extend(in_the_air.map(|flight| format!("At the end the {} of event {} is in the air.", sort(flight), flight.sent + 1)));
    lines.join("\n")
}

fn row_words(place: usize, row: &Row, flights: &[&Flight]) -> String {
    let at_node = row.node.map_or(String::new(), |node| format!(" at node {node}"));
    let mut parts = vec![format!("{}{at_node}", row.label[0].words)];
    let arrived = flights.iter().filter(|flight| flight.arrived == Some(place));
    parts.extend(arrived.map(|flight| format!("the {} of event {}", sort(flight), flight.sent + 1)));
    parts.extend(row.label[1..].iter().map(|line| line.words.clone()));
    parts.extend(flights.iter().filter(|flight| flight.sent == place).map(|flight| sent_words(flight)));
    parts.join("; ") + "."
}

fn sent_words(flight: &Flight) -> String {
    let (object, to) = (flight.message.object, flight.message.to);
    match flight.message.load {
        Load::Reference => format!("reference to o{object} for node {to}"),
        Load::Decrement { returns, weight } => format!("decrement of o{object} for node {to}, m {returns}, n {weight}"),
    }
}

fn sort(flight: &Flight) -> &'static str {
    if flight.is_decrement() {
        "decrement"
    } else {
        "reference"
    }
}
