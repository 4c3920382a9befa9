//! Inputs of every kind, good and bad, made from a seed.
//!
//! "Sound" is said of what passes its questions, "damaged" of what does not.

pub mod calls;
pub mod edges;
pub mod jobs;
pub mod lists;
pub mod outlines;
pub mod paths;
pub mod random;
pub mod sheets;
pub mod strips;
pub mod strokes;
pub mod texts;

pub use calls::{commit_position, place_calls, Call, CommitCall, CommitKind, MixedList, PlaceCall};
pub use edges::{long_job, tied_job};
pub use jobs::{job, sound_piece_of, sound_pieces, sound_pieces_of, Job};
pub use lists::{damaged_list, damaged_list_at, sound_list, DamagedList, ListDamage};
pub use outlines::{any_outline, any_size, outline, sound_outline, OutlineKind};
pub use paths::{any_path, damaged_path, sound_path, CoordinateDamage, PathDamage, ShapeDamage};
pub use random::Random;
pub use sheets::{
    damaged_sheet, damaged_sheet_at, round_of_pieces, round_of_vertices, sound_sheet, DamagedSheet,
    SheetDamage, SheetPlan,
};
pub use strips::{
    change_words, damaged_strip, empty_strip, random_runs, sound_strip, strip_with, Damage,
    StripFigures,
};
pub use strokes::{stroke_outline, stroke_pieces, StrokeKind};
pub use texts::{any_job, damaged_text, text_at_limit, text_of_job, text_with_gap, TextDamage};

use crate::figures::Figures;

/// A mask of 1 to 15.
pub fn sound_mask(random: &mut Random) -> u16 {
    random.word(1, 15)
}

/// Any mask, most of them 1 to 15.
pub fn any_mask(random: &mut Random) -> u16 {
    match random.index(8) {
        0 => random.pick(&[0, 16, 17, 31, 32, 240, 255, 256, 257, 4_096, 32_768, 65_535]),
        1 => random.word(0, 65_535),
        _ => sound_mask(random),
    }
}

/// Any turn, most of them 0 to 3.
pub fn any_turn(random: &mut Random) -> u16 {
    match random.index(8) {
        0 => random.pick(&[4, 5, 7, 8, 255, 256, 32_768, 65_535]),
        _ => random.word(0, 3),
    }
}

/// W, R and N of a small strip.
pub fn small_figures(random: &mut Random) -> Figures {
    Figures {
        width: random.word(1, 20),
        resolution: random.word(1, 5),
        columns: random.word(1, 12),
    }
}

/// W, R and N in and out of their limits, most of them at an edge of these.
pub fn any_figures(random: &mut Random) -> Figures {
    Figures {
        width: any_figure(random, 16_000),
        resolution: any_figure(random, 400),
        columns: any_figure(random, 4_096),
    }
}

fn any_figure(random: &mut Random, most: u16) -> u16 {
    match random.index(8) {
        0 => random.pick(&[0, most + 1, 65_535]),
        1 => random.word(0, 65_535),
        2 => random.pick(&[1, most - 1, most]),
        _ => random.word(1, most),
    }
}

/// A gap in its limits: none, small, around R, the largest, and any.
pub fn sound_gap(random: &mut Random, r: u16) -> u16 {
    match random.index(8) {
        0 => 0,
        1 => random.word(1, 2),
        2 => r.saturating_sub(1).min(400),
        3 => r.min(400),
        4 => r.saturating_add(1).min(400),
        5 => 400,
        6 => random.word(0, 12),
        _ => random.word(0, 400),
    }
}

/// A gap for small strips, on which there is room beside it most often.
pub fn small_gap(random: &mut Random, r: u16) -> u16 {
    match random.index(32) {
        0 => sound_gap(random, r),
        1..=9 => 0,
        10..=15 => 1,
        16..=21 => random.word(r - 1, r + 1).min(400),
        _ => random.word(0, 6),
    }
}

/// Any gap, most of them in the limits.
pub fn any_gap(random: &mut Random, r: u16) -> u16 {
    match random.index(8) {
        0 => random.pick(&[401, 402, 512, 16_000, 65_535]),
        1 => random.word(0, 65_535),
        _ => sound_gap(random, r),
    }
}

/// An R, most of them small and in the limits.
pub fn any_resolution(random: &mut Random) -> u16 {
    match random.index(8) {
        0 => any_figure(random, 400),
        _ => random.word(1, 6),
    }
}
