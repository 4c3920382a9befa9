//! Random jobs of small pieces on small strips.

use super::outlines::is_sound;
use super::{small_figures, sound_mask, sound_outline, Random, SheetPlan};
use crate::figures::{Figures, Piece};

#[derive(Clone, Debug)]
pub struct Job {
    pub figures: Figures,
    pub pieces: Vec<Piece>,
}

impl Job {
    /// The job as a sheet, with its records in list order.
    pub fn sheet(&self) -> Vec<u8> {
        SheetPlan::in_order(self.figures, &self.pieces).bytes()
    }
}

/// A job of up to ten small pieces, all of which pass questions 7 to 11.
pub fn job(random: &mut Random) -> Job {
    let count = random.index(11);
    let size = random.word(2, 10);
    Job {
        figures: small_figures(random),
        pieces: sound_pieces(random, count, size),
    }
}

/// Pieces that pass questions 7 to 11. Some have the outline of a piece before
/// them, whole or all but its first vertex.
pub fn sound_pieces(random: &mut Random, count: usize, size: u16) -> Vec<Piece> {
    let mut pieces: Vec<Piece> = Vec::new();
    for _ in 0..count {
        let mask = sound_mask(random);
        let mut outline = sound_outline(random, mask, size);
        if !pieces.is_empty() && random.once_in(3) {
            let mut related = pieces[random.index(pieces.len())].outline.clone();
            if random.once_in(2) {
                related[0] = random.word(0, size);
            }
            if is_sound(&related, mask) {
                outline = related;
            }
        }
        pieces.push(Piece { outline, mask });
    }
    pieces
}

/// A piece of just so many vertices (3 to 64) that passes questions 7 to 11:
/// a triangle or a rectangle, some of whose vertices are said oftener.
pub fn sound_piece_of(random: &mut Random, vertices: usize, size: u16) -> Piece {
    let (left, bottom) = (random.word(0, size - 1), random.word(0, size - 1));
    let (right, top) = (random.word(left + 1, size), random.word(bottom + 1, size));
    let mut corners = vec![[left, bottom], [right, bottom], [right, top], [left, top]];
    corners.truncate(vertices.min(random.between(3, 4) as usize));
    while corners.len() < vertices {
        let place = random.index(corners.len());
        corners.insert(place, corners[place]);
    }
    let piece = Piece {
        outline: corners.concat(),
        mask: sound_mask(random),
    };
    assert!(is_sound(&piece.outline, piece.mask));
    piece
}

/// Pieces that pass questions 7 to 11 and have so many vertices in all, which
/// is 3 to 64 for each.
pub fn sound_pieces_of(random: &mut Random, count: usize, vertices: usize) -> Vec<Piece> {
    let mut pieces = Vec::new();
    let mut left = vertices;
    for others in (0..count).rev() {
        let least = left.saturating_sub(64 * others).max(3);
        let most = (left - 3 * others).min(64);
        let own = random.between(least as i64, most as i64) as usize;
        pieces.push(sound_piece_of(random, own, 6));
        left -= own;
    }
    assert_eq!(left, 0);
    pieces
}
