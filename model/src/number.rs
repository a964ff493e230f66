//! The numbers given back (document 01, "Numbers given back"; document 02, W-204).

/// Why a call ended; `as u8` is the number of the table, 0 where the call did all it was asked for.
#[derive(Clone, Copy, Debug, PartialEq, Eq)]
#[repr(u8)]
pub enum Number {
    Done = 0,
    Device = 1,
    Cells = 2,
    Identification = 3,
    Latch = 4,
    State = 5,
    Cut = 6,
    Kind = 7,
    Length = 8,
    Pin = 9,
    Answers = 10,
    Power = 11,
    Input = 12,
    Address = 13,
    Counts = 14,
    Miscounted = 15,
}
