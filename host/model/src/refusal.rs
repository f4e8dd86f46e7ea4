//! The refusals and their numbers. The names are document 01's, written out.

/// Why an event, a read or a write was refused.
#[derive(Clone, Copy, Debug, PartialEq, Eq)]
#[repr(u8)]
pub enum Refusal {
    Shape = 1,
    Event = 2,
    Ended = 3,
    NoMessage = 4,
    ToSelf = 5,
    Empty = 6,
    Away = 7,
    Root = 8,
    NoRoom = 9,
    NoEntry = 10,
    Busy = 11,
    Torn = 12,
    Full = 13,
    Short = 20,
    Kind = 21,
    Length = 22,
    Order = 23,
    Value = 24,
    Trail = 25,
    Room = 26,
}

impl Refusal {
    /// The number that document 01 gives it.
    pub fn number(self) -> u8 {
        self as u8
    }
}
