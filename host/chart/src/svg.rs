//! The few elements of SVG that the picture is made of, each as a line of text.

use crate::geometry::{Area, Line, Point};

/// Text inside an element or an attribute.
pub fn escaped(words: &str) -> String {
    words.replace('&', "&amp;").replace('<', "&lt;").replace('>', "&gt;").replace('"', "&quot;")
}

/// `attributes` are the further ones, as they stand in the file.
pub fn text(at: Point, attributes: &str, words: &str) -> String {
    format!("<text x=\"{}\" y=\"{}\"{}>{}</text>", at.x, at.y, spaced(attributes), escaped(words))
}

pub fn line(line: &Line, attributes: &str) -> String {
    let Line { from, to } = line;
    format!("<line x1=\"{}\" y1=\"{}\" x2=\"{}\" y2=\"{}\"{}/>", from.x, from.y, to.x, to.y, spaced(attributes))
}

pub fn dot(at: Point, attributes: &str) -> String {
    format!("<circle cx=\"{}\" cy=\"{}\" r=\"4\"{}/>", at.x, at.y, spaced(attributes))
}

pub fn cross(at: Point, attributes: &str) -> String {
    format!("<path d=\"M{} {} l14 14 m0 -14 l-14 14\"{}/>", at.x - 7, at.y - 7, spaced(attributes))
}

pub fn white(area: &Area) -> String {
    format!("<rect x=\"{}\" y=\"{}\" width=\"{}\" height=\"{}\" fill=\"#fff\"/>", area.left, area.top, area.width, area.height)
}

fn spaced(attributes: &str) -> String {
    if attributes.is_empty() {
        String::new()
    } else {
        format!(" {attributes}")
    }
}
