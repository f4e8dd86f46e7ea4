//! The signs on a picture: arrows, dots, and the cross of what is reclaimed. They differ in form, so that they can be told apart without
//! colors.

use crate::geometry::{Line, Point};
use crate::svg;

pub const RECLAIMED_COLOR: &str = "#b00020";
pub const REFUSED_COLOR: &str = "#767676";

/// The heads of the arrows, to stand before the first of them.
pub const ARROW_HEADS: &str = concat!(
    "<defs>\n",
    "<marker id=\"reference\" refX=\"10\" refY=\"5\" markerUnits=\"userSpaceOnUse\" markerWidth=\"11\" markerHeight=\"10\" orient=\"auto\">",
    "<path d=\"M0 0 L11 5 L0 10 z\"/></marker>\n",
    "<marker id=\"decrement\" refX=\"10\" refY=\"5\" markerUnits=\"userSpaceOnUse\" markerWidth=\"11\" markerHeight=\"10\" orient=\"auto\">",
    "<path d=\"M0 0 L11 5 L0 10 z\" fill=\"#1f4e8c\"/></marker>\n",
    "</defs>"
);

/// Solid for a reference, dashed for a decrement.
pub fn arrow(line: &Line, is_decrement: bool) -> String {
    let attributes = if is_decrement {
        "stroke=\"#1f4e8c\" stroke-width=\"1.6\" stroke-dasharray=\"7 4\" marker-end=\"url(#decrement)\""
    } else {
        "stroke=\"#000\" stroke-width=\"1.6\" marker-end=\"url(#reference)\""
    };
    svg::line(line, attributes)
}

pub fn cross(at: Point) -> String {
    svg::cross(at, &format!("stroke=\"{RECLAIMED_COLOR}\" stroke-width=\"3\""))
}

pub fn accepted_dot(at: Point) -> String {
    svg::dot(at, "")
}

pub fn refused_dot(at: Point) -> String {
    svg::dot(at, &format!("fill=\"#fff\" stroke=\"{REFUSED_COLOR}\" stroke-width=\"1.5\""))
}
