//! S-4, a gap for the knife: cells and runs with a gap in the quicker form against
//! the plain one and against others, what a gap does to positions, worked by hand,
//! strips on which it reaches past the top and the end, and that a gap of 0 is the
//! rule before. Lists with gaps are in placing.rs, asking.rs and laying.rs, too;
//! distances without cells in distances.rs.

mod common;
use common::cells::*;
use common::*;
use reference::cells::{covered_plain, covered_with_gap_plain, runs_of, runs_with_gap, stretches};
use reference::figures::NUMBERS;
use reference::generate::outlines::is_sound;
use reference::generate::{
    outline, random_runs, sound_gap, sound_mask, sound_outline, strip_with, Call, MixedList,
    OutlineKind, PlaceCall, Random, StripFigures,
};
use reference::outline::{columns_wide, extent, turned, vertices, Vertex};
use reference::{strip_runs, Position};

type Runs = Vec<(i64, i64, i64)>;

// ----------------------------------------------------------------- the forms

/// The runs by the plain form, cell by cell, a column and a row more than a gap
/// can reach.
fn runs_plain(outline: &[Vertex], r: i64, g: i64) -> Runs {
    let (w, h) = extent(outline);
    let mut runs = Vec::new();
    for column in 0..=columns_wide(w + g, r) {
        let rows: Vec<bool> = (0..=h + g)
            .map(|row| covered_with_gap_plain(outline, r, g, column, row))
            .collect();
        runs.extend(
            stretches(&rows)
                .iter()
                .map(|&(low, high)| (column, low, high)),
        );
    }
    runs
}

#[test]
fn the_quicker_form_is_the_plain_one() {
    let mut random = Random::new(1);
    for kind in &OutlineKind::ALL[..16] {
        let full = matches!(kind, OutlineKind::FullStar | OutlineKind::FullRandomWalk);
        for _ in 0..if full { 2 } else { 60 } {
            let size = random.word(2, 5);
            let words = outline(&mut random, *kind, size);
            let outline = turned(&vertices(&words), random.word(0, 3));
            let (r, g) = (random.between(1, 4), random.between(0, 3));
            let quick = runs_with_gap(&outline, r, g);
            assert_eq!(quick, runs_plain(&outline, r, g), "{outline:?} R {r} g {g}");
        }
    }
}

/// The runs of a set of cells.
fn runs_of_cells(cells: &Cells) -> Runs {
    let mut runs: Runs = Vec::new();
    for &(column, row) in cells {
        match runs.last_mut() {
            Some(last) if last.0 == column && last.2 == row => last.2 += 1,
            _ => runs.push((column, row, row + 1)),
        }
    }
    runs
}

fn some_column_has_fewer(runs: &Runs, before: &Runs) -> bool {
    let count = |runs: &Runs, column| runs.iter().filter(|run| run.0 == column).count();
    before
        .iter()
        .any(|run| count(runs, run.0) < count(before, run.0))
}

/// Each unit cell with all that it covers, as a set.
#[test]
fn the_quicker_form_is_the_set_of_cells() {
    let mut random = Random::new(2);
    let mut joined = 0;
    for _ in 0..2_000 {
        let kind = random.pick(&OutlineKind::MOSTLY_SOUND);
        let size = random.word(2, 12);
        let words = outline(&mut random, kind, size);
        let (turn, r) = (random.word(0, 3), random.word(1, 6));
        let g = sound_gap(&mut random, r).min(30);
        let outline = turned(&vertices(&words), turn);
        let quick = runs_with_gap(&outline, r.into(), g.into());
        let cells = cells_of(&words, turn, r.into(), g.into());
        assert_eq!(quick, runs_of_cells(&cells), "{words:?} {turn} R {r} g {g}");
        let before = runs_of(&outline, r.into());
        joined += usize::from(some_column_has_fewer(&quick, &before));
    }
    assert!(joined > 50, "{joined}");
}

/// From the runs of the unit columns whose cells reach the column: raised and joined.
fn runs_by_windows(outline: &[Vertex], r: i64, g: i64) -> Runs {
    let units = runs_of(outline, 1);
    let (w, _) = extent(outline);
    let mut runs: Runs = Vec::new();
    for column in 0..columns_wide(w + g, r) {
        let from = units.partition_point(|run| run.0 < column * r - g);
        let to = units.partition_point(|run| run.0 < (column + 1) * r);
        let mut rows: Vec<(i64, i64)> = units[from..to]
            .iter()
            .map(|&(_, low, high)| (low, high + g))
            .collect();
        rows.sort();
        let first = runs.len();
        for (low, high) in rows {
            match runs[first..].last_mut() {
                Some(last) if low <= last.2 => last.2 = last.2.max(high),
                _ => runs.push((column, low, high)),
            }
        }
    }
    runs
}

#[test]
fn the_quicker_form_on_large_outlines() {
    let mut random = Random::new(3);
    let sizes = [(100, 60), (600, 20), (16_000, 3)];
    for (size, times) in sizes {
        for _ in 0..times {
            let kind = random.pick(&OutlineKind::ALL[..16]);
            let words = outline(&mut random, kind, size);
            let outline = turned(&vertices(&words), random.word(0, 3));
            let r = match size {
                16_000 => random.word(40, 400),
                _ => random.word(1, 60),
            };
            let g = sound_gap(&mut random, r).into();
            let quick = runs_with_gap(&outline, r.into(), g);
            assert_eq!(quick, runs_by_windows(&outline, r.into(), g), "{words:?}");
        }
    }
}

/// "rows up to 16,400": the largest outline with the largest gap at R 1.
#[test]
fn the_farthest_cells() {
    let far = [15_999, 15_999, 16_000, 15_999, 16_000, 0, 0, 16_000];
    let runs = check_cover_with_gap(&far, 0, 1, 400, 100_000).unwrap();
    assert_eq!(runs.last().unwrap()[0], 16_399);
    assert_eq!(runs.iter().map(|run| run[2]).max(), Some(16_400));
}

// -------------------------------------------------------------- by hand: runs

/// Square S, R 2: 0–7 in four columns with gap 3.
#[test]
fn square_s_with_gaps() {
    assert_eq!(columns_with_gap(&S, 0, 2, 3), [[(0, 7)]; 4]);
    assert_eq!(columns_with_gap(&S, 0, 2, 0), columns_of(&S, 0, 2));
    assert_eq!(columns_with_gap(&S, 0, 1, 400), vec![[(0, 404)]; 404]);
    assert_eq!(columns_with_gap(&S, 0, 400, 400), [[(0, 404)]; 2]);
}

/// "A unit cell (one unit by one) is covered [...] Columns of R units are then
/// formed": the gap is not counted in columns and not rounded to them.
#[test]
fn a_gap_is_taken_in_units() {
    // Unit columns 0 to 4: three columns of 2, two of 3.
    assert_eq!(columns_with_gap(&S, 0, 2, 1), [[(0, 5)]; 3]);
    assert_eq!(columns_with_gap(&S, 0, 3, 1), [[(0, 5)]; 2]);
    // 0 to 5: three columns of 2, two of 3, two of 4.
    assert_eq!(columns_with_gap(&S, 0, 2, 2), [[(0, 6)]; 3]);
    assert_eq!(columns_with_gap(&S, 0, 3, 2), [[(0, 6)]; 2]);
    assert_eq!(columns_with_gap(&S, 0, 4, 2), [[(0, 6)]; 2]);
    // 0 to 6: four columns of 2.
    assert_eq!(columns_with_gap(&S, 0, 2, 3), [[(0, 7)]; 4]);
}

/// T is 0–1, 0–2, 0–2. A frame open to the right, R 3: 0–5, then 0–1 and 4–5.
#[test]
fn gaps_that_join_runs() {
    let t = [vec![(0, 2)], vec![(0, 3)], vec![(0, 3)], vec![(0, 3)]];
    assert_eq!(columns_with_gap(&T, 0, 1, 1), t);
    let frame = [0, 0, 6, 0, 6, 1, 3, 1, 3, 4, 6, 4, 6, 5, 0, 5];
    let two = [vec![(0, 7)], vec![(0, 7)], vec![(0, 3), (4, 7)]];
    assert_eq!(columns_with_gap(&frame, 0, 3, 2), two);
    assert_eq!(columns_with_gap(&frame, 0, 3, 3), [[(0, 8)]; 3]);
}

/// The gap is to the right and up in each turn, not turned with the outline.
#[test]
fn a_gap_does_not_turn() {
    // T turned: 1–3, 0–3; T the other way round: 1–2, 0–2 and so on.
    assert_eq!(
        columns_with_gap(&T, 1, 1, 1),
        [vec![(1, 4)], vec![(0, 4)], vec![(0, 4)]]
    );
    assert_eq!(
        columns_with_gap(&T, 2, 1, 1),
        [vec![(0, 3)], vec![(0, 3)], vec![(0, 3)], vec![(1, 3)]]
    );
}

/// A spur has no inside, so no gap: it may lie over another piece's gap.
#[test]
fn a_spur_has_no_gap() {
    // A bar 2 by 2 with a spur to (6, 0).
    let spur = [0, 0, 2, 0, 6, 0, 2, 0, 2, 2, 0, 2];
    assert_eq!(columns_with_gap(&spur, 0, 1, 1), [[(0, 3)]; 3]);
    let mut strip = opened_with_gap(9, 1, 9, 1, 40);
    // Its extent is 6 columns all the same.
    assert_eq!(
        check_commit(&mut strip, &spur, at(0, 4, 0), 90),
        Err(no(18, 0))
    );
    assert_eq!(check_commit(&mut strip, &spur, at(0, 3, 0), 90), Ok(()));
    let unit = rectangle(1, 1);
    // On the spur beside the bar's gap; not in the gap.
    assert_eq!(
        check_commit(&mut strip, &unit, at(0, 5, 0), 90),
        Err(no(18, 0))
    );
    assert_eq!(check_commit(&mut strip, &unit, at(0, 6, 0), 90), Ok(()));
}

// --------------------------------------------------------- by hand: positions

/// Square S, R 2, g 3 on a strip of 2 columns: "12 words wanted, 2 records used".
#[test]
fn twelve_is_asked_of_the_uncut_runs() {
    let mut strip = opened_with_gap(4, 2, 2, 3, 2);
    assert_eq!(check_place(&mut strip, &S, 1, 11), Err(no(12, 1)));
    assert_eq!(check_ask(&strip, &S, 1, 11), Err(no(12, 1)));
    assert_eq!(
        check_commit(&mut strip, &S, at(0, 0, 0), 11),
        Err(no(12, 1))
    );
    assert_eq!(check_place(&mut strip, &S, 1, 12), Ok(at(0, 0, 0)));
    assert_eq!(strip, [4, 2, 2, 0, 3, 1, 2, 0, 0, 4, 0, 1, 0, 4, 0]);
}

/// "Covered cells past the strip's top or end don't count": one record less is too
/// few, and cells on the strip do count.
#[test]
fn fourteen_is_asked_of_the_cut_runs() {
    // Columns 1 to 4 of 3, rows to 8 of 6.
    let mut strip = opened_with_gap(6, 2, 3, 3, 2);
    let second = at(0, 1, 1);
    assert_eq!(check_commit(&mut strip, &S, second, 12), Ok(()));
    assert_eq!(strip_runs(&strip), [vec![], vec![(1, 6)], vec![(1, 6)]]);
    let mut strip = opened_with_gap(6, 2, 3, 3, 1);
    assert_eq!(check_commit(&mut strip, &S, second, 12), Err(no(14, 1)));
    // At column 0 the gap lies on column 2.
    let mut strip = opened_with_gap(6, 2, 3, 3, 2);
    assert_eq!(check_place(&mut strip, &S, 1, 12), Err(no(14, 1)));
    let mut strip = opened_with_gap(6, 2, 3, 3, 3);
    assert_eq!(check_place(&mut strip, &S, 1, 12), Ok(at(0, 0, 0)));
    assert_eq!(strip_runs(&strip), [[(0, 6)]; 3]);
}

/// Cells past the end clash with nothing, and there is no gap to the strip's edges:
/// "extents stay those of the outline".
#[test]
fn there_is_no_gap_to_the_edges() {
    let mut strip = opened_with_gap(4, 2, 4, 400, 8);
    assert_eq!(check_place(&mut strip, &S, 15, 9_000), Ok(at(0, 0, 0)));
    assert_eq!(check_place(&mut strip, &S, 15, 9_000), Err(no(13, 1)));
    let mut strip = opened_with_gap(4, 2, 4, 3, 8);
    assert_eq!(check_place(&mut strip, &S, 1, 12), Ok(at(0, 0, 0)));
    assert_eq!(check_place(&mut strip, &S, 1, 12), Err(no(13, 1)));
    let mut strip = opened_with_gap(4, 2, 6, 3, 8);
    assert_eq!(check_place(&mut strip, &S, 1, 12), Ok(at(0, 0, 0)));
    assert_eq!(check_place(&mut strip, &S, 1, 12), Ok(at(0, 4, 0)));
    // Taken cells at the far end clash with cells on the strip only.
    let mut strip = strip_with_gap(4, 2, 3, 8, &[&[(0, 1)], &[], &[]]);
    assert_eq!(check_place(&mut strip, &S, 1, 12), Ok(at(0, 1, 0)));
    assert_eq!(strip_runs(&strip), [[(0, 1)], [(0, 4)], [(0, 4)]]);
}

/// Three squares with gap 1, placed and laid; T then U needs a column more.
#[test]
fn trial_pieces_with_a_gap() {
    let mut strip = opened_with_gap(10, 2, 10, 1, 40);
    for position in [at(0, 0, 0), at(0, 0, 5), at(0, 3, 0)] {
        assert_eq!(check_place(&mut strip, &S, 1, 9), Ok(position));
    }
    // Used length is the outline's: 3 columns of 2, and 4.
    let job = sheet(10, 2, 10, &[(&S, 1), (&S, 1), (&S, 1)]);
    let laid = check_lay_with_gap(&job, 1, [strip_length(10, 40), 12, 9]).unwrap();
    assert_eq!(laid.output, [0, 0, 0, 0, 0, 0, 0, 5, 0, 0, 3, 0]);
    assert_eq!((laid.totals.placed, laid.totals.used), (3, 10));
    assert_eq!(laid.strip, strip);
    for (n, answer) in [(7, Ok(at(0, 4, 0))), (6, Err(no(13, 1)))] {
        let mut strip = opened_with_gap(2, 1, n, 1, 40);
        assert_eq!(check_place(&mut strip, &T, 1, 90), Ok(at(0, 0, 0)));
        assert_eq!(check_place(&mut strip, &U, 1, 90), answer);
    }
}

/// The gap is kept on all four sides of a placed piece.
#[test]
fn on_all_four_sides() {
    // S takes columns 4 and 5, rows 5 to 8.
    let mut strip = opened_with_gap(20, 2, 10, 1, 80);
    assert_eq!(check_commit(&mut strip, &S, at(0, 4, 5), 9), Ok(()));
    let granted = |column, height| {
        let answer = check_commit(&mut strip.clone(), &S, at(0, column, height), 9);
        assert!(answer.is_ok() || answer == Err(no(18, 0)));
        answer.is_ok()
    };
    assert!(granted(1, 5) && !granted(2, 5), "left");
    assert!(granted(7, 5) && !granted(6, 5), "right");
    assert!(granted(4, 0) && !granted(4, 1), "below");
    assert!(granted(4, 10) && !granted(4, 9), "above");
}

/// Pieces up and left of each other: neither has the other's inside in its gap, and
/// they meet in the cell at the one's row and the other's column.
#[test]
fn pieces_up_and_left_of_each_other() {
    let unit = rectangle(1, 1);
    let mut strip = opened_with_gap(20, 1, 20, 2, 80);
    assert_eq!(check_commit(&mut strip, &unit, at(0, 5, 5), 9), Ok(()));
    for (column, height) in [(7, 3), (3, 7), (7, 4), (4, 7), (3, 3), (7, 7)] {
        let answer = check_commit(&mut strip, &unit, at(0, column, height), 9);
        assert_eq!(answer, Err(no(18, 0)), "{column} {height}");
    }
    for (column, height) in [(8, 3), (7, 2), (2, 7), (3, 8)] {
        let answer = check_commit(&mut strip.clone(), &unit, at(0, column, height), 9);
        assert_eq!(answer, Ok(()), "{column} {height}");
    }
}

/// Place, ask and commit take the gap that the strip holds, whatever it held before.
#[test]
fn the_gap_is_the_strips() {
    let mut strip = opened_with_gap(20, 1, 30, 0, 200);
    assert_eq!(check_place(&mut strip, &S, 1, 900), Ok(at(0, 0, 0)));
    for (g, height) in [(0, 4), (3, 4), (12, 4), (16, 4)] {
        strip[4] = g;
        assert_eq!(check_ask(&strip, &S, 1, 900), Ok(at(0, 0, height)));
    }
    // The first S now has a gap of 2 around it, the second one of 5.
    let mut strip = opened_with_gap(30, 1, 30, 2, 200);
    assert_eq!(check_place(&mut strip, &S, 1, 900), Ok(at(0, 0, 0)));
    strip[4] = 5;
    assert_eq!(check_place(&mut strip, &S, 1, 900), Ok(at(0, 0, 6)));
    strip[4] = 0;
    assert_eq!(check_place(&mut strip, &S, 1, 900), Ok(at(0, 0, 15)));
}

// ------------------------------------------------------ past the top and the end

/// Single calls on narrow, low and short strips with gaps around R, around the
/// strip's own size, and the largest.
#[test]
fn strips_that_a_gap_reaches_past() {
    let mut numbers = [0; NUMBERS];
    for seed in 0..1_500 {
        let mut random = Random::new(30_000 + seed);
        let (w, n, r) = (random.word(1, 8), random.word(1, 4), random.word(1, 4));
        let g = random.pick(&[0, 1, 2, r - 1, r, r + 1, w, n * r, 12]);
        let q = random.between(1, 9) as usize;
        let figures = StripFigures { w, r, n, g, q };
        let most = random.index(3);
        let runs = random_runs(&mut random, w, n, most.min(q));
        let mut strip = strip_with(&mut random, figures, &runs);
        let occupied = cells_of_strip(&strip);
        let (mask, size) = (sound_mask(&mut random), random.word(2, 5));
        let outline = sound_outline(&mut random, mask, size);
        let answer = check_place(&mut strip, &outline, mask, 900);
        let number = answer.map_or_else(|refusal| refusal.number, |_| 0);
        numbers[usize::from(number)] += 1;
        let expected = expected(&occupied, figures, &outline, mask, 900);
        assert_eq!(answer.map_err(|refusal| refusal.number), expected);
        if let Ok(Position {
            turn,
            column,
            height,
        }) = answer
        {
            let cells = cells_of(&outline, turn, r.into(), g.into());
            let cells = moved(&cells, column.into(), height.into());
            let entered = on_strip(cells.clone(), figures);
            // "A piece always keeps a run".
            assert!(!entered.is_empty());
            assert_eq!(cells_of_strip(&strip), &occupied | &entered);
        }
    }
    for number in [0, 13, 14] {
        assert!(numbers[number] > 100, "{number}: {numbers:?}");
    }
}

// --------------------------------------------------------- no gap: as it was before

/// The rule before S-4: cells of R units each, and all of them on the strip.
fn former_cells(outline: &[u16], turn: u16, r: i64) -> Cells {
    let outline = turned(&vertices(outline), turn);
    let (w, h) = extent(&outline);
    let all = (0..columns_wide(w, r)).flat_map(|i| (0..h).map(move |j| (i, j)));
    all.filter(|&(i, j)| covered_plain(&outline, r, i, j))
        .collect()
}

/// The rule before S-4, with S-7's order of turns: the position, or 12, 13 or 14.
fn former_answer(
    occupied: &Cells,
    of: StripFigures,
    outline: &[u16],
    mask: u16,
    work: usize,
) -> Result<Position, u16> {
    let (w, r, n) = (i64::from(of.w), i64::from(of.r), i64::from(of.n));
    let (mut most_runs, mut found) = (0, Vec::new());
    for turn in (0..4).filter(|turn| mask & (1 << turn) != 0) {
        let cells = former_cells(outline, turn, r);
        most_runs = most_runs.max(count_runs(&cells));
        let (pw, ph) = extent(&turned(&vertices(outline), turn));
        let wide = columns_wide(pw, r);
        let spots = (0..=n - wide).flat_map(|c| (0..=w - ph).map(move |y| (c, y)));
        let mut free = spots.filter(|&(c, y)| moved(&cells, c, y).is_disjoint(occupied));
        if let Some((c, y)) = free.next() {
            found.push(((c * r + pw, y + ph, turn), (c, y), moved(&cells, c, y)));
        }
    }
    if work < 3 * most_runs {
        return Err(12);
    }
    let least = found.into_iter().min_by_key(|candidate| candidate.0);
    let (key, (c, y), cells) = least.ok_or(13u16)?;
    if count_runs(&(occupied | &cells)) > of.q {
        return Err(14);
    }
    Ok(at(key.2, c as u16, y as u16))
}

/// A list on a strip without a gap, beside the rule before S-4.
struct Former {
    figures: StripFigures,
    strip: Vec<u16>,
    occupied: Cells,
    /// How often each number came; 0 is granted.
    numbers: [usize; NUMBERS],
}

impl Former {
    /// The cells of a placed piece are the former ones.
    fn put(&mut self, outline: &[u16], position: Position) {
        let cells = former_cells(outline, position.turn, self.figures.r.into());
        let runs = reference::runs(outline, position.turn, self.figures.r, 0);
        assert_eq!(runs.len(), count_runs(&cells));
        let entered = moved(&cells, position.column.into(), position.height.into());
        assert!(entered.is_disjoint(&self.occupied));
        self.occupied.extend(entered);
        assert_eq!(cells_of_strip(&self.strip), self.occupied);
    }

    /// The position is the former one. The plain search is for small outlines only.
    fn place(&mut self, call: &PlaceCall) -> Option<Position> {
        let (outline, mask, work) = (&call.outline, call.mask, call.work);
        let small = outline.iter().all(|&word| word <= 12);
        if !small || !is_sound(outline, mask) {
            return None;
        }
        let former = former_answer(&self.occupied, self.figures, outline, mask, work);
        let answer = check_place(&mut self.strip, outline, mask, work);
        assert_eq!(answer.map_err(|refusal| refusal.number), former);
        self.numbers[usize::from(former.err().unwrap_or(0))] += 1;
        self.put(outline, answer.ok()?);
        answer.ok()
    }
}

/// "With g = 0 every position is the former one", and every cell.
#[test]
fn without_a_gap_all_is_as_before() {
    let mut numbers = [0; NUMBERS];
    for seed in 0..800 {
        let mut random = Random::new(40_000 + seed);
        let figures = StripFigures {
            g: 0,
            q: random.between(1, 12) as usize,
            ..small_strip(&mut random)
        };
        let mut former = Former {
            figures,
            strip: opened_as(figures),
            occupied: Cells::new(),
            numbers,
        };
        let mut list = MixedList::new(&mut random, 6);
        for _ in 0..random.between(1, 12) {
            match list.next_call(&mut random, &former.strip) {
                Call::Place(call) | Call::Ask(call) => {
                    if let Some(position) = former.place(&call) {
                        list.found(&call, position);
                    }
                }
                Call::Commit(call) => {
                    let (outline, at) = (&call.outline, call.position);
                    if check_commit(&mut former.strip, outline, at, call.work).is_ok() {
                        former.put(outline, at);
                    }
                }
            }
        }
        numbers = former.numbers;
    }
    for number in [0, 12, 13, 14] {
        assert!(numbers[number] > 50, "{number}: {numbers:?}");
    }
}
