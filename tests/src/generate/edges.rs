//! Jobs for what S-7 says of right edges: pieces whose turns end in one column or at
//! one edge, and strips so long that the used length is over 16 bits.

use super::{Job, Random};
use crate::figures::{Figures, Piece, MOST_COLUMNS, MOST_COORDINATE, MOST_RESOLUTION};

/// Masks of two turns and more, of which one lies across the other.
const ACROSS: [u16; 9] = [3, 6, 9, 12, 7, 11, 13, 14, 15];

/// A job of small pieces, all of which pass questions 7 to 11, where the turns of a
/// piece often end in the same column, and often at the same right edge.
pub fn tied_job(random: &mut Random) -> Job {
    let resolution = random.word(2, 6);
    let figures = Figures {
        width: random.word(6, 20),
        resolution,
        columns: random.word(3, 12),
    };
    let count = random.between(1, 10);
    let pieces = (0..count).map(|_| tied_piece(random, resolution)).collect();
    Job { figures, pieces }
}

fn tied_piece(random: &mut Random, r: u16) -> Piece {
    let (w, h) = match random.index(4) {
        // In as many columns across as along.
        0 | 1 => {
            let whole = random.word(0, 1) * r;
            (whole + random.word(1, r), whole + random.word(1, r))
        }
        // Columns further to the left, the longer turn ends where the other does.
        2 => {
            let least = random.word(1, 4);
            (least + random.word(1, 2) * r, least)
        }
        _ => (random.word(1, 9), random.word(1, 9)),
    };
    Piece {
        outline: outline_in(random, w, h),
        mask: random.pick(&ACROSS),
    }
}

/// A rectangle, or one without a corner, or half of one, of this extent.
fn outline_in(random: &mut Random, w: u16, h: u16) -> Vec<u16> {
    match random.index(4) {
        0 if w > 1 && h > 1 => {
            let (x, y) = (random.word(1, w - 1), random.word(1, h - 1));
            vec![0, 0, w, 0, w, y, x, y, x, h, 0, h]
        }
        1 => vec![0, 0, w, 0, 0, h],
        _ => vec![0, 0, w, 0, w, h, 0, h],
    }
}

/// A job of few pieces, up to the longest there are, which pass questions 7 to 11, on a
/// strip so narrow that few lie above each other.
pub fn long_job(random: &mut Random) -> Job {
    let width = random.word(1, 6);
    let figures = Figures {
        width,
        resolution: random.word(MOST_RESOLUTION / 4, MOST_RESOLUTION),
        columns: random.word(MOST_COLUMNS / 8, MOST_COLUMNS),
    };
    let count = random.between(1, 12);
    let pieces = (0..count).map(|_| long_piece(random, width)).collect();
    Job { figures, pieces }
}

fn long_piece(random: &mut Random, width: u16) -> Piece {
    let w = match random.index(3) {
        0 => MOST_COORDINATE,
        _ => random.word(MOST_COORDINATE / 2, MOST_COORDINATE),
    };
    let h = match random.index(4) {
        0 => random.word(1, width),
        _ => width - random.word(0, (width - 1) / 2),
    };
    Piece {
        outline: outline_in(random, w, h),
        mask: random.pick(&[1, 1, 4, 4, 5, 5, 15]),
    }
}
