//! Records: how bytes are cut into them, and which kinds an image may hold.

use crate::refusal::Refusal;

/// Payload length (2 bytes) and kind (2 bytes).
pub const HEADER_BYTES: usize = 4;

/// The kinds of an image's records, in the order in which they stand there. References and decrements share one place in that order, so
/// they are one section: see `Kind::section`.
#[derive(Clone, Copy, Debug, PartialEq, Eq)]
pub enum Kind {
    Count,
    Live,
    Roots,
    Directory,
    Remote,
    Reference,
    Decrement,
    End,
}

/// Kind, number in the record, payload length, section.
const KINDS: [(Kind, u16, usize, u8); 8] = [
    (Kind::Count, 0x0100, 4, 0),
    (Kind::Live, 0x0101, 5, 1),
    (Kind::Roots, 0x0102, 9, 2),
    (Kind::Directory, 0x0103, 9, 3),
    (Kind::Remote, 0x0104, 16, 4),
    (Kind::Reference, 0x0105, 4, 5),
    (Kind::Decrement, 0x0106, 12, 5),
    (Kind::End, 0x01FF, 0, 6),
];

impl Kind {
    pub fn from_number(number: u16) -> Option<Kind> {
        KINDS.iter().find(|row| row.1 == number).map(|row| row.0)
    }

    pub fn number(self) -> u16 {
        self.row().1
    }

    pub fn payload_bytes(self) -> usize {
        self.row().2
    }

    /// Sections follow one another in an image; records of one section are ordered by their keys.
    pub fn section(self) -> u8 {
        self.row().3
    }

    fn row(self) -> (Kind, u16, usize, u8) {
        KINDS[self as usize]
    }
}

/// Cuts the first record off `bytes`: its kind, its payload, and what is left.
pub fn first_record(bytes: &[u8]) -> Result<(Kind, &[u8], &[u8]), Refusal> {
    if bytes.len() < HEADER_BYTES {
        return Err(Refusal::Short);
    }
    let (header, rest) = bytes.split_at(HEADER_BYTES);
    let kind = Kind::from_number(u16::from_le_bytes([header[2], header[3]])).ok_or(Refusal::Kind)?;
    let stated = usize::from(u16::from_le_bytes([header[0], header[1]]));
    if stated != kind.payload_bytes() {
        return Err(Refusal::Length);
    }
    if rest.len() < stated {
        return Err(Refusal::Short);
    }
    let (payload, rest) = rest.split_at(stated);
    Ok((kind, payload, rest))
}
