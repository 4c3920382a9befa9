//! S-5, how much looking was done: the tries of place and ask worked by hand, the two
//! forms of the walk against each other and against sets of cells, and the bound.

mod common;
use common::cells::*;
use common::*;
use reference::figures::NUMBERS;
use reference::generate::{
    place_calls, random_runs, small_gap, sound_outline, strip_with, Random, StripFigures,
};
use reference::outline::{columns_wide, extent, turned, vertices};
use reference::placing::{
    board_of, count_tries, least_free_plain, most_tries, next_height, next_height_plain,
    turned_piece, walk, Board, TurnedPiece,
};
use reference::questions::turns_of_mask;
use reference::strip_runs;

/// 6 by 2.
const BAR: [u16; 8] = [0, 0, 6, 0, 6, 2, 0, 2];
const UNIT: [u16; 8] = [0, 0, 1, 0, 1, 1, 0, 1];

// ------------------------------------------------------------------- by hand

/// The numbers (0 for granted) and tries of place calls, one after another.
fn told(strip: &mut [u16], calls: &[(&[u16], u16, usize)]) -> Vec<(u16, u32)> {
    calls
        .iter()
        .map(|&(outline, mask, work)| {
            let tried = check_place_tries(strip, outline, mask, work);
            let number = tried.answer.map_or_else(|refusal| refusal.number, |_| 0);
            (number, tried.tries)
        })
        .collect()
}

/// The second is tried on the first one's place and then above it. The third finds no
/// room above them: past the top is no try, so one try in each of three columns.
#[test]
fn three_squares() {
    let squares = [(&S[..], 1, 6); 3];
    let granted = told(&mut opened(10, 2, 10, 6), &squares);
    assert_eq!(granted, [(0, 1), (0, 2), (0, 3)]);
    // The third has the same walk where 14 refuses it.
    let short = told(&mut opened(10, 2, 10, 3), &squares);
    assert_eq!(short, [(0, 1), (0, 2), (14, 3)]);
}

/// With a gap of 1 a square has three columns of 0–5: the third is tried in one column
/// more. With a gap of 3 its cells fill the strip of four columns and reach past its end
/// and its top: there is one try in each column in which the outline is on the strip.
#[test]
fn squares_with_gaps() {
    let squares = [(&S[..], 1, 30); 3];
    let mut strip = opened_with_gap(10, 2, 10, 1, 40);
    assert_eq!(told(&mut strip, &squares), [(0, 1), (0, 2), (0, 4)]);
    let mut strip = opened_with_gap(4, 2, 4, 3, 40);
    assert_eq!(told(&mut strip, &squares[..2]), [(0, 1), (13, 3)]);
}

/// The cells of the gap clash as others do. With a gap of 2 a square has three columns of
/// 0–6, so a run in column 2 sends it up, past the top, or on to column 3.
#[test]
fn cells_of_the_gap_clash() {
    for (run, w, g, expected) in [
        ((0, 4), 4, 0, (0, 1)),
        ((0, 4), 4, 2, (0, 4)),
        ((4, 6), 6, 0, (0, 1)),
        ((4, 6), 6, 2, (0, 4)),
        ((6, 7), 10, 2, (0, 1)),
        ((5, 6), 10, 2, (0, 2)),
    ] {
        let (r, n, q) = (2, 10, 9);
        let mut columns = vec![vec![]; usize::from(n)];
        columns[2] = vec![run];
        let figures = StripFigures { w, r, n, g, q };
        let mut strip = strip_with(&mut Random::new(1), figures, &columns);
        assert_eq!(told(&mut strip, &[(&S, 1, 30)]), [expected], "{run:?} {g}");
    }
}

/// "0 where a check before 13 refuses": the last call would be granted.
#[test]
fn none_before_13() {
    let mut strip = opened(10, 2, 10, 6);
    let calls = [
        (&S[..5], 1, 6),
        (&FAR, 1, 6),
        (&S, 0, 6),
        (&S, 16, 6),
        (&CROSSED, 1, 6),
        (&FLAT, 1, 6),
        (&S, 1, 5),
        (&S, 1, 6),
    ];
    let numbers = [7, 8, 9, 9, 10, 11, 12].map(|number| (number, 0));
    assert_eq!(told(&mut strip, &calls), [&numbers[..], &[(0, 1)]].concat());
    strip[1] = 0;
    assert_eq!(told(&mut strip, &calls[7..]), [(5, 0)]);
}

/// "A height past the top, even height 0, is no try"; "columns off the strip are not
/// tried".
#[test]
fn past_the_top_and_off_the_strip() {
    for (w, n, mask, expected) in [
        // W too small even for height 0, in both turns or in one.
        (1, 10, 3, (13, 0)),
        (4, 10, 3, (0, 1)),
        (4, 10, 2, (13, 0)),
        // Too wide in both turns or in one.
        (10, 2, 1, (13, 0)),
        (10, 2, 3, (0, 1)),
        (10, 10, 3, (0, 2)),
    ] {
        let mut strip = opened(w, 2, n, 6);
        assert_eq!(told(&mut strip, &[(&BAR, mask, 30)]), [expected]);
    }
}

/// All allowed turns are walked to their end. The first bar stands in column 0 in turn
/// 1. The second does so in column 1, after one try in column 0; turn 0, which loses,
/// has two tries as well.
#[test]
fn turns_that_lose() {
    let mut strip = opened(6, 2, 10, 6);
    assert_eq!(told(&mut strip, &[(&BAR[..], 3, 30); 2]), [(0, 2), (0, 4)]);
    assert_eq!(check_ask(&strip, &BAR, 3, 30), Ok(at(1, 2, 0)));
}

/// The heights in each column, in both forms, of an outline at R 1 without a gap.
fn heights(w: u16, columns: &[Vec<(u16, u16)>], outline: &[u16], turn: u16) -> Vec<Vec<i64>> {
    let figures = StripFigures {
        w,
        r: 1,
        n: columns.len() as u16,
        g: 0,
        q: 20,
    };
    let strip = strip_with(&mut Random::new(1), figures, columns);
    let (board, piece) = (board_of(&strip), turned_piece(outline, turn, 1, 0));
    let plain = walk(&board, &piece, next_height_plain);
    assert_eq!(plain, walk(&board, &piece, next_height));
    plain
}

/// T in turn 1 is 1–3, 0–3. Its first column goes from 0 to the high 2 less its own low
/// 1, and there its second column clashes.
#[test]
fn a_jump_takes_off_the_runs_own_low() {
    let columns = [vec![(0, 2)], vec![(0, 5)]];
    assert_eq!(heights(9, &columns, &T, 1), [[0, 1, 5]]);
    // The last of these heights is past the top.
    assert_eq!(heights(7, &columns, &T, 1), [[0, 1]]);
    assert_eq!(
        heights(9, &[vec![(0, 2)], vec![(1, 2)]], &T, 1),
        [[0, 1, 2]]
    );
}

/// The lowest of the occupied runs that a run meets.
#[test]
fn the_lowest_run_that_is_met() {
    let bar = [0, 0, 1, 0, 1, 6, 0, 6];
    let columns = [vec![(1, 2), (3, 4), (5, 6)]];
    assert_eq!(heights(12, &columns, &bar, 0), [[0, 2, 4, 6]]);
}

/// "It meets" is of the piece's first clashing run, not of the whole piece: column 0
/// decides, 4–6 on 5–7, although column 1 meets a lower run. And of two runs in one
/// column it is the lower one: 0–1 on 0–7, not 4–5.
#[test]
fn the_first_clashing_run() {
    let step = [0, 4, 1, 4, 1, 0, 2, 0, 2, 6, 0, 6];
    let columns = [vec![(5, 7)], vec![(0, 1)]];
    assert_eq!(heights(12, &columns, &step, 0), [[0, 3]]);
    let fork = [0, 0, 2, 0, 2, 1, 1, 1, 1, 4, 2, 4, 2, 5, 0, 5];
    let columns = [vec![], vec![(0, 7)]];
    assert_eq!(heights(12, &columns, &fork, 0), [[0, 7]]);
}

/// The walk ends at the first free position, though there are others.
#[test]
fn the_walk_ends_at_the_first_free_position() {
    let columns = [vec![(0, 3)], vec![(0, 1)], vec![]];
    assert_eq!(heights(3, &columns, &UNIT, 0), [vec![0], vec![0, 1]]);
}

/// Every second row of nine columns is taken, so a piece of two rows is tried at 0, 1, 3
/// and so on up to 15,997: 8,000 heights in each column.
#[test]
fn more_tries_than_16_bits_hold() {
    let taken: Vec<(u16, u16)> = (0..8_000).map(|row| (2 * row, 2 * row + 1)).collect();
    let (w, r, n, g) = (16_000, 1, 9, 0);
    let columns = vec![taken; 9];
    let board = Board {
        w,
        r,
        n,
        g,
        columns,
    };
    let pieces = turned_pieces(&board, &[0, 0, 1, 0, 1, 2, 0, 2], 1);
    assert_eq!(count_tries(&board, &pieces), 72_000);
}

// ------------------------------------------------------------------ the forms

/// The walk from S-5's words by sets of cells. In the order of column and then row the
/// first of the piece's cells that is occupied is in its first clashing run, and in the
/// lowest run that this meets.
fn walk_by_cells(strip: &[u16], outline: &[u16], turn: u16) -> Vec<Vec<i64>> {
    let (top, r, n, g) = (strip[0].into(), strip[1].into(), strip[2], strip[4].into());
    let (w, h) = extent(&turned(&vertices(outline), turn));
    let (piece, occupied) = (cells_of(outline, turn, r, g), cells_of_strip(strip));
    let mut columns = Vec::new();
    for c in 0..=i64::from(n) - columns_wide(w, r) {
        let (mut tried, mut y) = (Vec::new(), 0);
        while y + h <= top {
            tried.push(y);
            let clashes = |&&(column, row): &&(i64, i64)| occupied.contains(&(c + column, y + row));
            let Some(&(column, row)) = piece.iter().find(clashes) else {
                columns.push(tried);
                return columns;
            };
            let own = |&row: &i64| piece.contains(&(column, row));
            let low = (0..=row).rev().take_while(own).last().expect("its row");
            let taken = |&row: &i64| occupied.contains(&(c + column, row));
            let last = (y + row..).take_while(taken).last().expect("its row");
            y = last + 1 - low;
        }
        columns.push(tried);
    }
    columns
}

fn turned_pieces(board: &Board, outline: &[u16], mask: u16) -> Vec<TurnedPiece> {
    let turns = turns_of_mask(mask).expect("1 to 15");
    turns
        .iter()
        .map(|&turn| turned_piece(outline, turn, board.r, board.g))
        .collect()
}

/// Both forms and the sets of cells, on strips with any runs and gaps; the walk ends
/// where the search over all positions does.
#[test]
fn forms_of_the_walk_agree() {
    let mut random = Random::new(90_000);
    let (mut most, mut ended, mut past) = (0, [0; 2], 0);
    for _ in 0..3_000 {
        let (w, r, n) = (random.word(1, 16), random.word(1, 3), random.word(1, 8));
        let g = random.word(0, 6).saturating_sub(3);
        let count = random.index(20);
        let runs = random_runs(&mut random, w, n, count);
        let strip = strip_with(&mut random, StripFigures { w, r, n, g, q: 30 }, &runs);
        let size = random.word(2, 7);
        let outline = sound_outline(&mut random, 15, size);
        let board = board_of(&strip);
        for piece in turned_pieces(&board, &outline, 15) {
            let heights = walk(&board, &piece, next_height_plain);
            assert_eq!(heights, walk(&board, &piece, next_height));
            assert_eq!(heights, walk_by_cells(&strip, &outline, piece.turn));
            let free = least_free_plain(&board, &piece);
            let last = heights.last().and_then(|tried| tried.last());
            let spot = last.map(|&y| (heights.len() as i64 - 1, y));
            assert!(free.is_none() || free == spot);
            ended[usize::from(free.is_some())] += 1;
            most = most.max(heights.iter().map(Vec::len).max().unwrap_or(0));
            let reach = piece.runs.iter().map(|run| run.0 + 1).max();
            past += u32::from(reach.is_some_and(|reach| reach > columns_wide(piece.w, board.r)));
        }
    }
    println!("most heights in a column {most}, ended nowhere, at a free position {ended:?}");
    assert!(most >= 6 && ended.iter().all(|&times| times > 2_000) && past > 1_000);
}

/// Lists of place calls, good and bad: each reports the walks of all of its allowed
/// turns on the strip as it was, granted or refused with 13 or 14.
#[test]
fn lists_of_calls() {
    let mut numbers = [0; NUMBERS];
    for seed in 0..1_500 {
        let mut random = Random::new(91_000 + seed);
        let r = random.word(1, 3);
        let figures = StripFigures {
            w: random.word(3, 14),
            r,
            n: random.word(2, 9),
            g: small_gap(&mut random, r).min(4),
            q: random.between(1, 20) as usize,
        };
        let StripFigures { w, r, n, g, q } = figures;
        let mut strip = opened_with_gap(w, r, n, g, q);
        for call in place_calls(&mut random, 6, 6) {
            let before = strip.clone();
            let tried = check_place_tries(&mut strip, &call.outline, call.mask, call.work);
            let number = tried.answer.map_or_else(|refusal| refusal.number, |_| 0);
            numbers[usize::from(number)] += 1;
            if [0, 13, 14].contains(&number) && call.outline.iter().all(|&x| x <= 30) {
                let turns = turns_of_mask(call.mask).expect("9 was passed");
                let walks = turns
                    .iter()
                    .flat_map(|&turn| walk_by_cells(&before, &call.outline, turn));
                let tries: usize = walks.map(|heights| heights.len()).sum();
                assert_eq!(tried.tries as usize, tries, "{number} {call:?}");
            }
        }
    }
    for number in [0, 9, 12, 13, 14] {
        assert!(numbers[number] > 50, "{number}: {numbers:?}");
    }
}

// ------------------------------------------------------------------- the bound

/// The third square has three pairs, two runs and two runs on the strip; a unit square
/// on another has one of each, and its tries are the bound.
#[test]
fn the_bound_by_hand() {
    let mut strip = opened(10, 2, 10, 6);
    told(&mut strip, &[(&S[..], 1, 6); 2]);
    let board = board_of(&strip);
    let pieces = turned_pieces(&board, &S, 1);
    assert_eq!(
        (count_tries(&board, &pieces), most_tries(&board, &pieces, 3)),
        (3, 15)
    );
    let mut strip = opened(10, 1, 1, 6);
    told(&mut strip, &[(&UNIT, 1, 6)]);
    let board = board_of(&strip);
    let pieces = turned_pieces(&board, &UNIT, 1);
    assert_eq!(
        (count_tries(&board, &pieces), most_tries(&board, &pieces, 1)),
        (2, 2)
    );
    // A piece of 494,000 runs on a strip of 16,000, in all pairs: over 32 bits.
    let mut board = board;
    board.columns = vec![vec![(0, 1); 16_000]];
    let mut pieces = pieces;
    pieces[0].runs = vec![(0, 0, 1); 494_000];
    assert_eq!(most_tries(&board, &pieces, 16_384), 16_384 * 7_904_000_001);
}

/// p is of all allowed turns and counts the runs as cover gives them, past the strip's
/// end too; q counts the runs on the strip.
#[test]
fn the_bound_on_any_strip() {
    let mut random = Random::new(92_000);
    let mut attained = 0;
    for _ in 0..3_000 {
        let (w, r, n) = (random.word(1, 12), random.word(1, 3), random.word(1, 6));
        let g = random.word(0, 5).saturating_sub(2);
        let count = random.index(4);
        let runs = random_runs(&mut random, w, n, count);
        let strip = strip_with(&mut random, StripFigures { w, r, n, g, q: 30 }, &runs);
        let size = random.word(2, 4);
        let (outline, mask) = (sound_outline(&mut random, 15, size), random.word(1, 15));
        let turns = turns_of_mask(mask).expect("1 to 15");
        let walks: Vec<Vec<i64>> = turns
            .iter()
            .flat_map(|&turn| walk_by_cells(&strip, &outline, turn))
            .collect();
        let tries: usize = walks.iter().map(Vec::len).sum();
        let pairs = walks.iter().filter(|tried| !tried.is_empty()).count();
        let p = turns
            .iter()
            .map(|&turn| reference::runs(&outline, turn, r, g).len())
            .max()
            .expect("a turn");
        let q: usize = strip_runs(&strip).iter().map(Vec::len).sum();
        let bound = pairs * (1 + p * q);
        assert!(tries <= bound, "{tries} tries, at most {bound}");
        let board = board_of(&strip);
        let pieces = turned_pieces(&board, &outline, mask);
        assert_eq!(most_tries(&board, &pieces, pairs), bound as u64);
        attained += u32::from(tries == bound && q > 0 && tries > pairs);
    }
    println!("attained with a clash {attained} times");
    assert!(attained > 0);
}
