//! Cut lists, sound and damaged.

use super::{outline, sound_pieces, OutlineKind, Random};
use crate::figures::{no, Piece, Refusal};
use crate::sheet::list_words;

/// A cut list of small pieces that passes questions 6 to 11, now and then with
/// words after its last piece.
pub fn sound_list(random: &mut Random) -> Vec<u16> {
    let count = random.index(6);
    let mut words = list_words(&sound_pieces(random, count, 8));
    if random.once_in(3) {
        words.extend((0..random.index(5)).map(|_| random.word(0, 65_535)));
    }
    words
}

/// A way in which a cut list fails one of the questions 6 to 11.
#[derive(Clone, Copy, Debug, PartialEq, Eq)]
pub enum ListDamage {
    NoWords,
    CountOver,
    NoVertices,
    TwoVertices,
    SixtyFiveVertices,
    CountWordMissing,
    MaskMissing,
    CoordinatesMissing,
    CoordinateOver,
    MaskZero,
    MaskOver,
    Crossed,
    Uncovered,
}

impl ListDamage {
    pub const ALL: [ListDamage; 13] = [
        ListDamage::NoWords,
        ListDamage::CountOver,
        ListDamage::NoVertices,
        ListDamage::TwoVertices,
        ListDamage::SixtyFiveVertices,
        ListDamage::CountWordMissing,
        ListDamage::MaskMissing,
        ListDamage::CoordinatesMissing,
        ListDamage::CoordinateOver,
        ListDamage::MaskZero,
        ListDamage::MaskOver,
        ListDamage::Crossed,
        ListDamage::Uncovered,
    ];
}

#[derive(Clone, Debug)]
pub struct DamagedList {
    pub words: Vec<u16>,
    /// What write has to answer, with W, R and N in their limits.
    pub refusal: Refusal,
}

/// A list with nothing wrong but this damage, at any of its pieces.
pub fn damaged_list(random: &mut Random, damage: ListDamage) -> DamagedList {
    let count = random.between(1, 4) as usize;
    let place = random.index(count);
    damaged_list_at(random, damage, count, place)
}

/// The same, of so many pieces, at the piece at this place, counted from 0.
pub fn damaged_list_at(
    random: &mut Random,
    damage: ListDamage,
    count: usize,
    place: usize,
) -> DamagedList {
    let mut pieces = sound_pieces(random, count, 8);
    let ordinal = place as u16 + 1;
    // Where the piece's words begin.
    let start = list_words(&pieces[..place]).len();
    let whole = list_words(&pieces);
    let piece = &mut pieces[place];
    let (words, number) = match damage {
        ListDamage::NoWords => (Vec::new(), 6),
        ListDamage::CountOver => {
            let over = random.pick(&[201, 256, 65_535]);
            (with_word(whole, 0, over), 6)
        }
        ListDamage::NoVertices => (with_word(whole, start, 0), 7),
        ListDamage::TwoVertices => (with_word(whole, start, random.word(1, 2)), 7),
        ListDamage::SixtyFiveVertices => {
            let vertices = random.pick(&[65, 66, 32_768, 65_535]);
            // Enough words for 65 vertices, so that only the count is wrong.
            let mut words = with_word(whole, start, vertices);
            words.extend(vec![1; 130]);
            (words, 7)
        }
        ListDamage::CountWordMissing => (whole[..start].to_vec(), 7),
        ListDamage::MaskMissing => (whole[..start + 1].to_vec(), 7),
        ListDamage::CoordinatesMissing => {
            let given = random.index(piece.outline.len());
            (whole[..start + 2 + given].to_vec(), 7)
        }
        ListDamage::CoordinateOver => {
            piece.outline = outline(random, OutlineKind::OverLimit, 8);
            (list_words(&pieces), 8)
        }
        ListDamage::MaskZero => (with_word(whole, start + 1, 0), 9),
        ListDamage::MaskOver => {
            let mask = random.pick(&[16, 17, 256, 65_535]);
            (with_word(whole, start + 1, mask), 9)
        }
        ListDamage::Crossed => {
            *piece = crossed_piece(random);
            (list_words(&pieces), 10)
        }
        ListDamage::Uncovered => {
            piece.outline = outline(random, OutlineKind::Flat, 8);
            (list_words(&pieces), 11)
        }
    };
    let ordinal = if number == 6 { 0 } else { ordinal };
    DamagedList {
        words,
        refusal: no(number, ordinal),
    }
}

fn with_word(mut words: Vec<u16>, place: usize, word: u16) -> Vec<u16> {
    words[place] = word;
    words
}

/// A piece that fails question 10: its outline crosses itself between whole x
/// in turn 0, which the mask allows.
pub fn crossed_piece(random: &mut Random) -> Piece {
    Piece {
        outline: outline(random, OutlineKind::BowTieBetween, 8),
        mask: random.pick(&[1, 3, 5, 9, 15]),
    }
}
