//! A run as an SVG message chart. Time runs down.

use crate::changes::changes;
use crate::description::description;
use crate::geometry::{Area, Line, Point};
use crate::labels::Style;
use crate::layout::{layout, Arrow, Layout, Row, Side};
use crate::legend::legend;
use crate::measures::{wrapped, ARROW_LABEL_SIZE, BESIDE, LABEL_SIZE, LINE_STEP, MARGIN, TITLE_SIZE, TITLE_STEP};
use crate::run::Step;
use crate::signs::{accepted_dot, arrow, cross, refused_dot, ARROW_HEADS, RECLAIMED_COLOR, REFUSED_COLOR};
use crate::svg;

/// A title needs some room even where the run needs little.
const LEAST_WIDTH: i64 = 480;

pub fn picture(title: &str, steps: &[Step]) -> String {
    let changes: Vec<_> = steps.iter().map(changes).collect();
    let layout = layout(steps, &changes);
    let (left, width) = extent(&layout);
    let inside = width - 2 * MARGIN;
    let title_lines = wrapped(title, TITLE_SIZE, inside);
    let title_height = title_lines.len() as i64 * TITLE_STEP;
    let top = -(title_height + 2 * TITLE_STEP);
    let corner = Point { x: left + MARGIN, y: layout.bottom + 2 * LINE_STEP };
    let (legend, end) = legend(&layout, corner, inside);
    let whole = Area { left, top, width, height: end + MARGIN - top };

    let mut elements = vec![opening(&whole), format!("<title id=\"title\">{}</title>", svg::escaped(title))];
    elements.push(format!("<desc id=\"description\">{}</desc>", svg::escaped(&description(&layout))));
    elements.push(ARROW_HEADS.to_string());
    elements.push(svg::white(&whole));
    elements.extend(title_lines.iter().zip(1..).map(|(line, place)| title_line(line, Point { x: corner.x, y: top + place * TITLE_STEP })));
    elements.extend(layout.lanes.iter().flat_map(|(node, x)| lifeline(*node, *x, layout.bottom)));
    elements.extend(layout.arrows.iter().map(|one| arrow(&one.line, one.flight.is_decrement())));
    elements.extend(layout.rows.iter().flat_map(row_label));
    elements.extend(layout.arrows.iter().flat_map(arrow_label));
    elements.extend(layout.rows.iter().filter_map(|row| row_sign(row, &layout)));
    elements.extend(legend);
    elements.push("</svg>".to_string());
    elements.join("\n") + "\n"
}

/// The left edge and the width of all that stands on the picture.
fn extent(layout: &Layout) -> (i64, i64) {
    let texts = layout.rows.iter().flat_map(|row| row.areas.clone()).chain(layout.arrows.iter().map(|arrow| arrow.label_area));
    let heads = layout.lanes.values().map(|x| Area { left: x - 4 * BESIDE, top: 0, width: 8 * BESIDE, height: 0 });
    let areas: Vec<Area> = texts.chain(heads).collect();
    let left = areas.iter().map(|area| area.left).min().unwrap_or(0) - MARGIN;
    let right = areas.iter().map(Area::right).max().unwrap_or(0) + MARGIN;
    (left, (right - left).max(LEAST_WIDTH))
}

fn opening(whole: &Area) -> String {
    let Area { left, top, width, height } = whole;
    format!(
        "<svg xmlns=\"http://www.w3.org/2000/svg\" viewBox=\"{left} {top} {width} {height}\" width=\"{width}\" height=\"{height}\" \
         font-family=\"sans-serif\" font-size=\"{LABEL_SIZE}\" role=\"img\" aria-labelledby=\"title description\">"
    )
}

fn title_line(words: &str, at: Point) -> String {
    svg::text(at, &format!("font-size=\"{TITLE_SIZE}\" font-weight=\"bold\""), words)
}

fn lifeline(node: u8, x: i64, bottom: i64) -> [String; 2] {
    let line = Line { from: Point { x, y: 8 }, to: Point { x, y: bottom } };
    let head = svg::text(Point { x, y: 0 }, "font-weight=\"bold\" text-anchor=\"middle\"", &format!("node {node}"));
    [head, svg::line(&line, "stroke=\"#888\" stroke-width=\"1.5\"")]
}

/// An event's lines, on white, so that an arrow behind them leaves them readable.
fn row_label(row: &Row) -> Vec<String> {
    let lines = row.label.iter().zip(&row.areas).map(|(line, area)| {
        let (x, anchor) = match row.side {
            Side::Left => (area.right(), "text-anchor=\"end\" "),
            Side::Right => (area.left, ""),
        };
        let at = Point { x, y: area.top + LINE_STEP / 2 + 4 };
        [svg::white(area), svg::text(at, &format!("{anchor}{}", style_attributes(line.style)), &line.words)]
    });
    lines.flatten().collect()
}

fn style_attributes(style: Style) -> String {
    match style {
        Style::Event => "font-weight=\"bold\"".to_string(),
        Style::Numbers => "fill=\"#000\"".to_string(),
        Style::Reclaimed => format!("font-weight=\"bold\" fill=\"{RECLAIMED_COLOR}\""),
        Style::Refused => format!("fill=\"{REFUSED_COLOR}\""),
    }
}

fn arrow_label(arrow: &Arrow) -> [String; 2] {
    let area = &arrow.label_area;
    let at = Point { x: area.left + area.width / 2, y: area.top + LINE_STEP / 2 + 4 };
    let attributes = format!("font-size=\"{ARROW_LABEL_SIZE}\" font-style=\"italic\" text-anchor=\"middle\"");
    [svg::white(area), svg::text(at, &attributes, &arrow.label)]
}

/// The sign on the lifeline; none where the event has no node.
fn row_sign(row: &Row, layout: &Layout) -> Option<String> {
    let at = Point { x: layout.lanes[&row.node?], y: row.y };
    let has_style = |style: Style| row.label.iter().any(|line| line.style == style);
    Some(if has_style(Style::Refused) {
        refused_dot(at)
    } else if has_style(Style::Reclaimed) {
        cross(at)
    } else {
        accepted_dot(at)
    })
}
