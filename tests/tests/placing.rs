//! Placing: demand 3 over lists of place calls, and single place calls on any
//! well-formed strip, against the plain search over cells of the tests.

mod common;
use common::cells::*;
use common::*;
use reference::generate::outlines::is_sound;
use reference::generate::{
    place_calls, random_runs, sound_mask, sound_outline, strip_with, Random, StripFigures,
};
use reference::placing::{best, board_of, least_free, least_free_plain, turned_piece};
use reference::strip_runs;

/// "All of demand 3 is one claim about the whole list": what is placed is told
/// by the calls alone.
#[test]
fn lists_of_place_calls() {
    let mut numbers = [0; 16];
    for seed in 0..700 {
        let mut random = Random::new(10_000 + seed);
        let figures = small_strip(&mut random);
        let mut strip = opened_as(figures);
        let mut placed: Vec<Cells> = Vec::new();
        let mut occupied = Cells::new();
        let count = random.between(1, 12) as usize;
        for call in place_calls(&mut random, count, 7) {
            let (outline, mask, work) = (call.outline, call.mask, call.work);
            let answer = check_place(&mut strip, &outline, mask, work);
            let number = answer.map_or_else(|refusal| refusal.number, |_| 0);
            numbers[usize::from(number)] += 1;
            // The plain search is for small outlines only.
            let is_small = outline.iter().all(|&word| word <= 12);
            if is_small && is_sound(&outline, mask) {
                let expected = expected(&occupied, figures, &outline, mask, work);
                assert_eq!(answer.map_err(|refusal| refusal.number), expected);
            }
            if let Ok(position) = answer {
                let (r, g) = (figures.r.into(), figures.g.into());
                let cells = cells_of(&outline, position.turn, r, g);
                let cells = moved(&cells, position.column.into(), position.height.into());
                let cells = on_strip(cells, figures);
                assert!(!cells.is_empty());
                assert!(placed.iter().all(|earlier| earlier.is_disjoint(&cells)));
                occupied.extend(&cells);
                placed.push(cells);
            }
            assert_eq!(cells_of_strip(&strip), occupied);
        }
    }
    // Each number that may come has come, and 5 has not.
    for number in [0, 7, 8, 9, 10, 11, 12, 13, 14] {
        assert!(numbers[number] > 10, "{number}: {numbers:?}");
    }
    assert_eq!(numbers[5], 0);
}

/// "For one place call alone, a cell is occupied if a run of the lent strip
/// holds it."
#[test]
fn single_calls_on_any_strip() {
    let mut numbers = [0; 16];
    for seed in 0..3_000 {
        let mut random = Random::new(20_000 + seed);
        let figures = small_strip(&mut random);
        let runs = random_runs(&mut random, figures.w, figures.n, figures.q);
        let mut strip = strip_with(&mut random, figures, &runs);
        let occupied = cells_of_strip(&strip);
        let (mask, size) = (sound_mask(&mut random), random.word(2, 6));
        let outline = sound_outline(&mut random, mask, size);
        let answer = check_place(&mut strip, &outline, mask, 900);
        let number = answer.map_or_else(|refusal| refusal.number, |_| 0);
        numbers[usize::from(number)] += 1;
        let expected = expected(&occupied, figures, &outline, mask, 900);
        assert_eq!(answer.map_err(|refusal| refusal.number), expected);
        if let Ok(position) = answer {
            let (r, g) = (figures.r.into(), figures.g.into());
            let cells = cells_of(&outline, position.turn, r, g);
            let cells = moved(&cells, position.column.into(), position.height.into());
            let cells = on_strip(cells, figures);
            assert_eq!(cells_of_strip(&strip), &occupied | &cells);
        }
    }
    for number in [0, 13, 14] {
        assert!(numbers[number] > 50, "{number}: {numbers:?}");
    }
}

/// The two forms of the search, on strips too large for the cells above.
#[test]
fn forms_of_the_search_agree() {
    for seed in 0..150 {
        let mut random = Random::new(30_000 + seed);
        let figures = StripFigures {
            w: random.word(10, 80),
            r: random.word(1, 6),
            n: random.word(5, 60),
            g: random.word(0, 20).saturating_sub(8),
            q: 600,
        };
        let runs = random_runs(&mut random, figures.w, figures.n, 400);
        let strip = strip_with(&mut random, figures, &runs);
        let board = board_of(&strip);
        let size = random.word(3, 30);
        let outline = sound_outline(&mut random, 15, size);
        let pieces: Vec<_> = (0..4)
            .map(|turn| turned_piece(&outline, turn, board.r, board.g))
            .collect();
        for piece in &pieces {
            let quick = least_free(&board, piece);
            assert_eq!(quick, least_free_plain(&board, piece));
        }
        let spot = |search| best(&board, &pieces, search).map(|(piece, spot)| (piece.turn, spot));
        assert_eq!(spot(least_free), spot(least_free_plain));
    }
}

/// Q exactly enough passes, one record fewer gives 14, and nothing else.
#[test]
fn records_exactly_enough() {
    let mut exact = 0;
    for seed in 0..500 {
        let mut random = Random::new(40_000 + seed);
        let (w, r, n) = (random.word(4, 14), random.word(1, 3), random.word(2, 9));
        let runs = random_runs(&mut random, w, n, 12);
        let before: usize = runs.iter().map(Vec::len).sum();
        let outline = sound_outline(&mut random, 15, 5);
        let (g, q) = (random.word(0, 4), 400);
        let roomy = StripFigures { w, r, n, g, q };
        let mut strip = strip_with(&mut random, roomy, &runs);
        let Ok(position) = check_place(&mut strip, &outline, 15, 900) else {
            continue;
        };
        let after: usize = strip_runs(&strip).iter().map(Vec::len).sum();
        if after >= before.max(1) {
            let mut enough = strip_with(&mut random, StripFigures { q: after, ..roomy }, &runs);
            assert_eq!(check_place(&mut enough, &outline, 15, 900), Ok(position));
            assert_eq!(strip_runs(&enough), strip_runs(&strip));
        }
        if after > before.max(1) {
            let q = after - 1;
            let mut short = strip_with(&mut random, StripFigures { q, ..roomy }, &runs);
            assert_eq!(check_place(&mut short, &outline, 15, 900), Err(no(14, 1)));
            exact += 1;
        }
    }
    assert!(exact > 100, "{exact}");
}

/// A work buffer exactly big enough passes, one word fewer gives 12.
#[test]
fn work_exactly_enough() {
    for seed in 0..500 {
        let mut random = Random::new(50_000 + seed);
        let (mask, r) = (sound_mask(&mut random), random.word(1, 4));
        let g = random.word(0, 5);
        let outline = sound_outline(&mut random, mask, 8);
        let most_runs = (0..4)
            .filter(|turn| mask & (1 << turn) != 0)
            .map(|turn| count_runs(&cells_of(&outline, turn, r.into(), g.into())))
            .max()
            .unwrap();
        let mut strip = opened_with_gap(20, r, 20, g, 100);
        let short = check_place(&mut strip, &outline, mask, 3 * most_runs - 1);
        assert_eq!(short, Err(no(12, 1)));
        assert!(check_place(&mut strip, &outline, mask, 3 * most_runs).is_ok());
    }
}

/// The same outline twice makes two pieces.
#[test]
fn the_same_outline_twice() {
    let mut strip = opened(4, 1, 20, 40);
    assert_eq!(check_place(&mut strip, &T, 1, 90), Ok(at(0, 0, 0)));
    assert_eq!(check_place(&mut strip, &T, 1, 90), Ok(at(0, 0, 2)));
    // T covers 0–1, 0–2, 0–2: no room is left in columns 1 and 2. The next T
    // begins in column 3.
    assert_eq!(check_place(&mut strip, &T, 1, 90), Ok(at(0, 3, 0)));
    assert_eq!(
        strip_runs(&strip)[..6],
        [
            vec![(0, 1), (2, 3)],
            vec![(0, 4)],
            vec![(0, 4)],
            vec![(0, 1)],
            vec![(0, 2)],
            vec![(0, 2)]
        ]
    );
}

/// "After a clash the height moves to the occupied run's high less the piece
/// run's own low; without the subtraction holes are skipped."
#[test]
fn a_piece_sinks_by_its_own_low() {
    // U is 0–2, 0–2, 1–2. Row 0 of column 2 is taken: no clash.
    let mut strip = strip_of(5, 1, 20, &[&[], &[], &[(0, 1)]]);
    assert_eq!(check_place(&mut strip, &U, 1, 90), Ok(at(0, 0, 0)));
    assert_eq!(strip_runs(&strip), [[(0, 2)], [(0, 2)], [(0, 2)]]);
    // Rows 0 and 1 are taken: U rises by 1, not by 2.
    let mut strip = strip_of(5, 1, 20, &[&[], &[], &[(0, 2)]]);
    assert_eq!(check_place(&mut strip, &U, 1, 90), Ok(at(0, 0, 1)));
    assert_eq!(strip_runs(&strip), [[(1, 3)], [(1, 3)], [(0, 3)]]);
}

#[test]
fn a_hole_under_an_overhang_is_used() {
    // A flag: a pole at the left, rows 0 to 3, and an arm in row 3.
    let flag = [0, 0, 1, 0, 1, 3, 3, 3, 3, 4, 0, 4];
    let mut strip = opened(4, 1, 4, 40);
    assert_eq!(check_place(&mut strip, &flag, 1, 90), Ok(at(0, 0, 0)));
    let block = rectangle(2, 3);
    assert_eq!(check_place(&mut strip, &block, 1, 90), Ok(at(0, 1, 0)));
    assert_eq!(
        strip_runs(&strip),
        [vec![(0, 4)], vec![(0, 4)], vec![(0, 4)], vec![]]
    );
}

/// A hole in the middle of a column, closed above and below.
#[test]
fn a_hole_between_runs_is_used() {
    let mut strip = strip_of(10, 2, 4, &[&[(0, 3), (5, 10)], &[]]);
    let block = rectangle(2, 2);
    assert_eq!(check_place(&mut strip, &block, 1, 90), Ok(at(0, 0, 3)));
    assert_eq!(strip_runs(&strip), [vec![(0, 10)], vec![]]);
    // Too low a hole is passed by.
    let mut strip = strip_of(10, 2, 4, &[&[(0, 3), (4, 10)], &[]]);
    assert_eq!(check_place(&mut strip, &block, 1, 90), Ok(at(0, 1, 0)));
}
