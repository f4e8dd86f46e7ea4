//! Where the words on an arrow stand: on the arrow itself, near its middle, where they meet no other text and as few lines as can be.

use crate::geometry::{Area, Line};
use crate::layout::Lanes;
use crate::measures::{text_width, ARROW_LABEL_SIZE, LINE_STEP};

/// Between the words and the ends of the arrow's two parts.
const PADDING: i64 = 2;
/// Between the words and other things, where there is room for it.
const CLEARANCE: i64 = 6;
/// So much more between the words and a lifeline, where an arrow has its head.
const HEAD_ROOM: i64 = 16;

/// What the words on arrows have to keep clear of.
pub struct Obstacles<'a> {
    pub arrows: &'a [Line],
    pub lanes: &'a Lanes,
    pub texts: Vec<Area>,
}

/// The room for the words on each arrow, in the order of the arrows.
pub fn label_areas(words: &[String], obstacles: &Obstacles) -> Vec<Area> {
    let mut texts = obstacles.texts.clone();
    let mut areas = Vec::new();
    for (index, words) in words.iter().enumerate() {
        let area = best_area(words, index, obstacles, &texts);
        texts.push(area);
        areas.push(area);
    }
    areas
}

fn best_area(words: &str, index: usize, obstacles: &Obstacles, texts: &[Area]) -> Area {
    let cost = |hundredths: i64| {
        let area = area_at(words, &obstacles.arrows[index], hundredths).widened(CLEARANCE);
        let meets_text = texts.iter().filter(|text| area.overlaps(text)).count();
        let near_lane = area.left - HEAD_ROOM..=area.right() + HEAD_ROOM;
        let meets_lane = obstacles.lanes.values().filter(|lane| near_lane.contains(*lane)).count();
        let others = obstacles.arrows.iter().enumerate().filter(|(other, _)| *other != index);
        let meets_arrow = others.filter(|(_, arrow)| area.is_crossed_by(arrow)).count();
        // In this order of weight; the distance from the middle decides between equals.
        (meets_text, meets_lane, meets_arrow, (hundredths - 50).abs())
    };
    let best = (10..=90).step_by(5).min_by_key(|hundredths| cost(*hundredths)).expect("there are places to choose from");
    area_at(words, &obstacles.arrows[index], best)
}

fn area_at(words: &str, arrow: &Line, hundredths: i64) -> Area {
    let middle = arrow.along(hundredths);
    let width = text_width(words, ARROW_LABEL_SIZE) + 2 * PADDING;
    Area { left: middle.x - width / 2, top: middle.y - LINE_STEP / 2, width, height: LINE_STEP }
}
