//! S-7: right edges, the order of turns by them, and the used length, on many jobs.

mod common;
use common::cells::*;
use common::*;
use reference::generate::outlines::is_sound;
use reference::generate::{job, long_job, random_runs, sound_outline, strip_with, tied_job};
use reference::generate::{Job, Random, StripFigures};
use reference::outline::{columns_wide, turned, vertices};
use reference::placing::{board_of, is_free_plain, right_edge, turned_piece, Steps};
use reference::same_strip;

/// "Last column is c + (w/R rounded up) − 1"
fn last_column(c: i64, w: i64, r: i64) -> i64 {
    c + columns_wide(w, r) - 1
}

/// Of all free positions of a piece, two with equal right edges have equal last columns,
/// and one with a lesser right edge never has a greater last column: the least right edge
/// is one of those that the last column left.
#[test]
fn equal_right_edges_are_in_one_column() {
    let (mut equal, mut same_column) = (0, 0);
    for seed in 0..400 {
        let mut random = Random::new(60_000 + seed);
        let figures = StripFigures {
            w: random.word(4, 12),
            r: random.word(1, 7),
            n: random.word(2, 9),
            g: random.word(0, 2),
            q: 30,
        };
        let runs = random_runs(&mut random, figures.w, figures.n, 12);
        let strip = strip_with(&mut random, figures, &runs);
        let board = board_of(&strip);
        let outline = sound_outline(&mut random, 15, 8);
        let mut ends = Vec::new();
        for turn in 0..4 {
            let piece = turned_piece(&outline, turn, board.r, board.g);
            for c in 0..=board.n - columns_wide(piece.w, board.r) {
                if (0..=board.w - piece.h).any(|y| is_free_plain(&board, &piece, (c, y))) {
                    let edge = right_edge(c, piece.w, board.r);
                    ends.push((turn, edge, last_column(c, piece.w, board.r)));
                }
            }
        }
        for &(turn, edge, last) in &ends {
            for &(other_turn, other_edge, other_last) in &ends {
                if turn < other_turn && edge == other_edge {
                    assert_eq!(last, other_last, "{outline:?} on {figures:?}");
                    equal += 1;
                }
                if edge < other_edge {
                    assert!(last <= other_last, "{outline:?} on {figures:?}");
                    same_column += usize::from(last == other_last);
                }
            }
        }
    }
    println!("equal right edges {equal}, others in one column {same_column}");
    assert!(equal > 2_000 && same_column > 500);
}

/// A job placed piece by piece, each against the plain search over cells.
fn place_all(job: &Job, g: u16, steps: &mut Steps) {
    let figures = StripFigures {
        w: job.figures.width,
        r: job.figures.resolution,
        n: job.figures.columns,
        g,
        q: 200,
    };
    let mut strip = opened_as(figures);
    for piece in &job.pieces {
        steps.count(&strip, &piece.outline, piece.mask);
        let occupied = cells_of_strip(&strip);
        let expected = expected(&occupied, figures, &piece.outline, piece.mask, 900);
        let answer = check_place(&mut strip, &piece.outline, piece.mask, 900);
        assert_eq!(answer.map_err(|refusal| refusal.number), expected);
    }
}

/// Jobs whose turns end in one column or at one edge: each step of the order decides
/// often, and the plain search over all positions says the same.
#[test]
fn tied_jobs() {
    let mut steps = Steps::default();
    let mut pieces = 0;
    for seed in 0..600 {
        let mut random = Random::new(61_000 + seed);
        let job = tied_job(&mut random);
        assert!(job.pieces.iter().all(|of| is_sound(&of.outline, of.mask)));
        let g = random.word(0, 3).saturating_sub(1);
        place_all(&job, g, &mut steps);
        pieces += job.pieces.len() as u32;
    }
    println!("{pieces} pieces: {steps:?}");
    assert!(steps.edge > pieces / 10 && steps.top > pieces / 100 && steps.turn > pieces / 10);
}

/// The jobs of the other tests have such pieces too.
#[test]
fn other_jobs_have_ties() {
    let mut steps = Steps::default();
    for seed in 0..600 {
        let mut random = Random::new(62_000 + seed);
        let job = job(&mut random);
        place_all(&job, 0, &mut steps);
    }
    println!("{steps:?}");
    assert!(steps.edge > 50 && steps.top > 5 && steps.turn > 50);
}

/// Long strips: laid as by open and place, and the used length is the greatest x of a
/// placed vertex.
#[test]
fn long_jobs() {
    let mut over = 0;
    for seed in 0..60 {
        let mut random = Random::new(63_000 + seed);
        let job = long_job(&mut random);
        let (w, r, n) = (
            job.figures.width,
            job.figures.resolution,
            job.figures.columns,
        );
        let g = random.pick(&[0, 0, 0, 1, 2, 40]);
        let mut strip = opened_with_gap(w, r, n, g, 4_000);
        let mut used = 0;
        for piece in &job.pieces {
            let (outline, mask) = (&piece.outline, piece.mask);
            let tried = reference::place(&mut strip, outline, mask, &mut [0; 9_000]);
            if let Ok(at) = tried.answer {
                let moved = u32::from(at.column) * u32::from(r);
                for (x, _) in turned(&vertices(outline), at.turn) {
                    used = used.max(moved + x as u32);
                }
            }
        }
        let lengths = [strip.len(), 4 * job.pieces.len(), 9_000];
        let laid = check_lay_with_gap(&job.sheet(), g, lengths).unwrap();
        assert_eq!(laid.totals.used, used);
        assert!(same_strip(&laid.strip, &strip));
        over += u32::from(used > 65_535);
    }
    println!("over 65,535: {over}");
    assert!(over > 20);
}
