//! Boxes and lines on the picture, in whole units, so that the same run gives the same picture on every machine.

#[derive(Clone, Copy)]
pub struct Point {
    pub x: i64,
    pub y: i64,
}

#[derive(Clone, Copy)]
pub struct Line {
    pub from: Point,
    pub to: Point,
}

impl Line {
    /// The point that is so many hundredths of the way along the line.
    pub fn along(&self, hundredths: i64) -> Point {
        let part = |from: i64, to: i64| from + (to - from) * hundredths / 100;
        Point { x: part(self.from.x, self.to.x), y: part(self.from.y, self.to.y) }
    }
}

#[derive(Clone, Copy)]
pub struct Area {
    pub left: i64,
    pub top: i64,
    pub width: i64,
    pub height: i64,
}

impl Area {
    pub fn right(&self) -> i64 {
        self.left + self.width
    }

    pub fn bottom(&self) -> i64 {
        self.top + self.height
    }

    /// The same with so much more on every side.
    pub fn widened(&self, by: i64) -> Area {
        Area { left: self.left - by, top: self.top - by, width: self.width + 2 * by, height: self.height + 2 * by }
    }

    pub fn overlaps(&self, other: &Area) -> bool {
        self.left < other.right() && other.left < self.right() && self.top < other.bottom() && other.top < self.bottom()
    }

    /// Whether a line passes through: it comes near enough, and not all corners are on one side of it.
    pub fn is_crossed_by(&self, line: &Line) -> bool {
        let around = Area {
            left: line.from.x.min(line.to.x),
            top: line.from.y.min(line.to.y),
            width: (line.from.x - line.to.x).abs() + 1,
            height: (line.from.y - line.to.y).abs() + 1,
        };
        let side = |x: i64, y: i64| {
            let along = Point { x: line.to.x - line.from.x, y: line.to.y - line.from.y };
            (along.x * (y - line.from.y) - along.y * (x - line.from.x)).signum()
        };
        let sides =
            [side(self.left, self.top), side(self.right(), self.top), side(self.left, self.bottom()), side(self.right(), self.bottom())];
        self.overlaps(&around) && sides.iter().any(|side| *side != sides[0])
    }
}
