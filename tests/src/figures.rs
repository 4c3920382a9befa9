//! The limits of the paper and the small types the calls answer with.

use std::fmt;

/// "whole units 0 to 16,000"
pub const MOST_COORDINATE: u16 = 16_000;
/// "An outline is 3 to 64 vertices"
pub const FEWEST_VERTICES: usize = 3;
pub const MOST_VERTICES: usize = 64;
/// "The turn mask is 1 to 15"
pub const MOST_MASK: u16 = 15;
/// "Turn t (0 to 3)"
pub const MOST_TURN: u16 = 3;
/// "Resolution R is 1 to 400 units."
pub const MOST_RESOLUTION: u16 = 400;
/// "Width W is 1 to 16,000 units, columns N 1 to 4,096, records Q 1 to 16,000."
pub const MOST_WIDTH: u16 = 16_000;
pub const MOST_COLUMNS: u16 = 4_096;
pub const MOST_RECORDS: usize = 16_000;
/// S-4: "a gap g of 0 to 400 units"
pub const MOST_GAP: u16 = 400;
/// "end within 200 pieces"
pub const MOST_PIECES: usize = 200;
/// "at most 65,536"
pub const MOST_SHEET_BYTES: usize = 65_536;

/// The numbers, by S-1 to S-4 up to 21, and 0 for granted: for counts by number.
pub const NUMBERS: usize = 22;

/// "'No' gives the number and the piece's ordinal"
#[derive(Clone, Copy, Debug, PartialEq, Eq)]
pub struct Refusal {
    pub number: u16,
    pub ordinal: u16,
}

/// "a refused job only `job refused 10 2` (number, ordinal or 0)"
impl fmt::Display for Refusal {
    fn fmt(&self, to: &mut fmt::Formatter) -> fmt::Result {
        write!(to, "job refused {} {}", self.number, self.ordinal)
    }
}

/// "A position is turn, column c, height y"
#[derive(Clone, Copy, Debug, PartialEq, Eq)]
pub struct Position {
    pub turn: u16,
    pub column: u16,
    pub height: u16,
}

/// S-5: "Ask and place report the tries made over all allowed turns", granted or
/// refused.
#[derive(Clone, Copy, Debug, PartialEq, Eq)]
pub struct Tried {
    pub answer: Result<Position, Refusal>,
    pub tries: u32,
}

/// A sheet's W, R and N.
#[derive(Clone, Copy, Debug, PartialEq, Eq)]
pub struct Figures {
    pub width: u16,
    pub resolution: u16,
    pub columns: u16,
}

/// "The answer adds pieces placed and" used length, which by S-7 "replaces used columns
/// in the answer": "Used length, of 32 bits, is the greatest right edge, 0 if none"
#[derive(Clone, Copy, Debug, PartialEq, Eq)]
pub struct Totals {
    pub placed: u16,
    pub used: u32,
}

/// One piece of a cut list: its outline as words x, y, x, y and its turn mask.
#[derive(Clone, Debug, PartialEq, Eq)]
pub struct Piece {
    pub outline: Vec<u16>,
    pub mask: u16,
}

/// A refusal with its number and ordinal.
pub fn no(number: u16, ordinal: u16) -> Refusal {
    Refusal { number, ordinal }
}
