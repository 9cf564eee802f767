//! Document 01's refusals by number, with document 02's, as far as a run file can meet them; and
//! where in a record one is found.

pub const DONE: u8 = 0;
pub const CELL: u8 = 1;
pub const CUT: u8 = 2;
pub const KIND: u8 = 3;
/// A length field that is too long; `SHORT` is one that is too short.
pub const LENGTH: u8 = 4;
pub const HOST: u8 = 5;
pub const TICK: u8 = 6;
pub const WAITING: u8 = 9;
pub const SAME_TICK: u8 = 10;
pub const DURATION: u8 = 11;
pub const SLOT: u8 = 12;
pub const FULL: u8 = 13;
pub const SPREAD: u8 = 14;
pub const CLOCK: u8 = 15;
pub const LONG: u8 = 16;
pub const SHORT: u8 = 17;
pub const NOT_HOLDER: u8 = 18;

/// One more than the highest number, for tables by number.
pub const NUMBERS: usize = 19;

/// Why a run file stops.
#[derive(Clone, Copy, Debug, PartialEq, Eq)]
pub struct Fault {
    pub number: u8,
    /// Document 02's offset 'of the first field giving its number', 'counted from its record's
    /// start'.
    pub offset: usize,
}
