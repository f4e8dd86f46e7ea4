//! Sizes on the picture.

pub const LABEL_SIZE: i64 = 13;
pub const ARROW_LABEL_SIZE: i64 = 12;
pub const TITLE_SIZE: i64 = 16;

/// From one line of a text to the next.
pub const LINE_STEP: i64 = 16;
pub const TITLE_STEP: i64 = 22;

/// Between a lifeline and the text beside it.
pub const BESIDE: i64 = 14;
/// Between a lifeline and the end of an arrow, where the event's dot is.
pub const DOT: i64 = 5;
/// How far a label may stand below its event.
pub const LOWER: i64 = 12;
/// Between the label of one event and the next event; a label that stands lower still fits.
pub const ROW_GAP: i64 = 18;
pub const MARGIN: i64 = 16;

/// The heads of the lifelines stand at 0; the first event follows below.
pub const FIRST_ROW: i64 = 40;

/// The room that a text takes at most. No font is at hand to ask, so a wide one is taken for granted.
pub fn text_width(words: &str, size: i64) -> i64 {
    words.chars().count() as i64 * size * 57 / 100
}

/// The same for bold letters.
pub fn bold_width(words: &str, size: i64) -> i64 {
    words.chars().count() as i64 * size * 64 / 100
}

/// Cuts a text into lines that fit a width in bold letters, and so in others.
pub fn wrapped(words: &str, size: i64, width: i64) -> Vec<String> {
    let mut lines: Vec<String> = Vec::new();
    for word in words.split_whitespace() {
        match lines.last_mut() {
            Some(line) if bold_width(&format!("{line} {word}"), size) <= width => *line = format!("{line} {word}"),
            _ => lines.push(word.to_string()),
        }
    }
    lines
}
