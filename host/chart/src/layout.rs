//! Where everything stands: a lifeline for each node that takes part, a row for each event, and the arrows between them.
//!
//! An event's label stands beside its lifeline where fewest arrows cross it. As each row has one event, labels never meet.

use crate::arrow_labels::{label_areas, Obstacles};
use crate::changes::Changes;
use crate::flights::{flights, Flight};
use crate::geometry::{Area, Line, Point};
use crate::labels::{event_label, message_label, LabelLine};
use crate::measures::{text_width, ARROW_LABEL_SIZE, BESIDE, DOT, FIRST_ROW, LINE_STEP, LOWER, ROW_GAP};
use crate::run::Step;
use std::collections::{BTreeMap, BTreeSet};

/// A lifeline's middle, by its node.
pub type Lanes = BTreeMap<u8, i64>;

#[derive(Clone, Copy, PartialEq, Eq)]
pub enum Side {
    Left,
    Right,
}

pub struct Row {
    /// None for a refused event that has no node.
    pub node: Option<u8>,
    pub label: Vec<LabelLine>,
    pub y: i64,
    pub side: Side,
    /// The room of each line of the label.
    pub areas: Vec<Area>,
}

pub struct Arrow {
    pub flight: Flight,
    pub line: Line,
    pub label: String,
    pub label_area: Area,
}

pub struct Layout {
    pub lanes: Lanes,
    pub rows: Vec<Row>,
    pub arrows: Vec<Arrow>,
    /// Where the lifelines end.
    pub bottom: i64,
}

pub fn layout(steps: &[Step], changes: &[Changes]) -> Layout {
    let labels: Vec<Vec<LabelLine>> = steps.iter().zip(changes).map(|(step, changes)| event_label(step, changes)).collect();
    let flights = flights(changes);
    let lanes = lanes(steps, lane_width(&labels, &flights));
    let (row_ys, rows_end) = row_ys(&labels);
    let bottom = if flights.iter().all(|flight| flight.arrived.is_some()) { rows_end } else { rows_end + 2 * ROW_GAP };
    let lines = arrow_lines(&flights, &lanes, &row_ys, bottom);
    let placed = steps.iter().zip(labels).zip(&row_ys);
    let rows: Vec<Row> = placed.map(|((step, label), y)| place_row(step.node(), label, *y, &lanes, &lines)).collect();
    let words: Vec<String> = flights.iter().map(message_label).collect();
    let texts = rows.iter().flat_map(|row| row.areas.clone()).collect();
    let areas = label_areas(&words, &Obstacles { arrows: &lines, lanes: &lanes, texts });
    let placed = flights.into_iter().zip(lines).zip(words).zip(areas);
    let arrows = placed.map(|(((flight, line), label), label_area)| Arrow { flight, line, label, label_area }).collect();
    Layout { lanes, rows, arrows, bottom }
}

/// A label beside one lifeline stays clear of the next one, and words on an arrow leave half of it for other arrows to cross.
fn lane_width(labels: &[Vec<LabelLine>], flights: &[Flight]) -> i64 {
    let beside = labels.iter().flatten().map(|line| line.width() + 2 * BESIDE);
    let on_arrows = flights.iter().map(|flight| 2 * text_width(&message_label(flight), ARROW_LABEL_SIZE) + 8 * BESIDE);
    beside.chain(on_arrows).max().unwrap_or(0)
}

fn lanes(steps: &[Step], width: i64) -> Lanes {
    let receivers = steps.iter().flat_map(|step| step.after.messages.values().map(|message| message.to));
    let nodes: BTreeSet<u8> = steps.iter().filter_map(Step::node).chain(receivers).collect();
    nodes.into_iter().zip(1..).map(|(node, place)| (node, place * width)).collect()
}

/// How far down each row is, and where the rows end.
fn row_ys(labels: &[Vec<LabelLine>]) -> (Vec<i64>, i64) {
    let mut end = FIRST_ROW;
    let mut ys = Vec::new();
    for label in labels {
        ys.push(end);
        end += label.len() as i64 * LINE_STEP + ROW_GAP;
    }
    (ys, end)
}

/// Arrows of messages that don't arrive end at the bottom, each at a place of its own between the two lifelines.
fn arrow_lines(flights: &[Flight], lanes: &Lanes, row_ys: &[i64], bottom: i64) -> Vec<Line> {
    let in_the_air = flights.iter().filter(|flight| flight.arrived.is_none()).count() as i64;
    // The one that was sent first gets farthest, so that they don't cross.
    let mut still_to_end = in_the_air;
    let mut line_of = |flight: &Flight| {
        let (from, to) = (lanes[&flight.message.from], lanes[&flight.message.to]);
        let away = if from < to { DOT } else { -DOT };
        let whole = |y: i64| Line { from: Point { x: from + away, y: row_ys[flight.sent] }, to: Point { x: to - away, y } };
        let Some(row) = flight.arrived else {
            let way = whole(bottom);
            let end = way.along(30 + 60 * still_to_end / (in_the_air + 1));
            still_to_end -= 1;
            return Line { to: Point { x: end.x, y: bottom }, ..way };
        };
        whole(row_ys[row])
    };
    flights.iter().map(&mut line_of).collect()
}

fn place_row(node: Option<u8>, label: Vec<LabelLine>, y: i64, lanes: &Lanes, arrows: &[Line]) -> Row {
    let lane = node.map(|node| lanes[&node]);
    let outer = node.map_or(Side::Right, |node| outer_side(node, lanes));
    let inner = if outer == Side::Left { Side::Right } else { Side::Left };
    // An arrow that arrives comes from above, so a little lower there may be room.
    let spots = [(outer, y), (inner, y), (outer, y + LOWER), (inner, y + LOWER)];
    let crossings = |(side, y): &(Side, i64)| {
        let areas = line_areas(&label, lane, *y, *side);
        arrows.iter().filter(|arrow| areas.iter().any(|area| area.is_crossed_by(arrow))).count()
    };
    let (side, label_y) = spots.into_iter().min_by_key(crossings).expect("there are spots to choose from");
    let areas = line_areas(&label, lane, label_y, side);
    Row { node, label, y, side, areas }
}

/// The rooms of a label's lines beside a lifeline, or left of all lifelines.
fn line_areas(label: &[LabelLine], lane: Option<i64>, y: i64, side: Side) -> Vec<Area> {
    let lines = label.iter().zip(0..).map(|(line, place)| {
        let left = match (lane, side) {
            (Some(lane), Side::Left) => lane - BESIDE - line.width(),
            (Some(lane), Side::Right) => lane + BESIDE,
            (None, _) => BESIDE,
        };
        Area { left, top: y - LINE_STEP / 2 + place * LINE_STEP, width: line.width(), height: LINE_STEP }
    });
    lines.collect()
}

/// The side that looks away from most of the other lifelines.
fn outer_side(node: u8, lanes: &Lanes) -> Side {
    let before = lanes.range(..node).count();
    if 2 * before + 1 < lanes.len() {
        Side::Left
    } else {
        Side::Right
    }
}
