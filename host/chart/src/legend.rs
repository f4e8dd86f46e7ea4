//! What the signs on a picture mean, below it: only those that occur.

use crate::geometry::{Line, Point};
use crate::labels::Style;
use crate::layout::Layout;
use crate::measures::{wrapped, ARROW_LABEL_SIZE, LINE_STEP};
use crate::signs::{arrow, cross, refused_dot};
use crate::svg;

const SAMPLE_WIDTH: i64 = 44;
const BEFORE_WORDS: i64 = 56;

type Sample = fn(Point) -> String;

/// The legend from a corner on, no wider than told, and where it ends.
pub fn legend(layout: &Layout, corner: Point, width: i64) -> (Vec<String>, i64) {
    let mut elements = Vec::new();
    let mut y = corner.y;
    for (sample, words) in items(layout) {
        elements.push(sample(Point { x: corner.x, y }));
        for line in wrapped(words, ARROW_LABEL_SIZE, width - BEFORE_WORDS) {
            let at = Point { x: corner.x + BEFORE_WORDS, y: y + 4 };
            elements.push(svg::text(at, &format!("font-size=\"{ARROW_LABEL_SIZE}\""), &line));
            y += LINE_STEP;
        }
        y += 4;
    }
    (elements, y)
}

fn items(layout: &Layout) -> Vec<(Sample, &'static str)> {
    let has_style = |style: Style| layout.rows.iter().flat_map(|row| &row.label).any(|line| line.style == style);
    let all: [(bool, Sample, &str); 5] = [
        (has_style(Style::Numbers), object_sample, "an object; the numbers are its entry at the node, after the event"),
        (layout.arrows.iter().any(|arrow| !arrow.flight.is_decrement()), |at| arrow(&sample_line(at), false), "a reference to the object"),
        (
            layout.arrows.iter().any(|arrow| arrow.flight.is_decrement()),
            |at| arrow(&sample_line(at), true),
            "a decrement: return count m, weight n",
        ),
        (has_style(Style::Reclaimed), |at| cross(middle(at)), "reclaimed: the object's place may be used again"),
        (has_style(Style::Refused), |at| refused_dot(middle(at)), "a refused event, which changes nothing"),
    ];
    all.into_iter().filter(|(occurs, ..)| *occurs).map(|(_, sample, words)| (sample, words)).collect()
}

fn object_sample(at: Point) -> String {
    svg::text(Point { x: middle(at).x, y: at.y + 4 }, &format!("font-size=\"{ARROW_LABEL_SIZE}\" text-anchor=\"middle\""), "o0")
}

fn sample_line(at: Point) -> Line {
    Line { from: at, to: Point { x: at.x + SAMPLE_WIDTH, y: at.y } }
}

fn middle(at: Point) -> Point {
    Point { x: at.x + SAMPLE_WIDTH / 2, y: at.y }
}
