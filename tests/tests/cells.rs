//! Inside, covered cells and runs: the quicker form against the plain one, the
//! plain one against points, and both against what must hold in every turn.

mod common;
use common::*;
use reference::cells::{a_cell_is_covered, covered_plain, runs_of, stretches};
use reference::generate::{outline, OutlineKind, Random};
use reference::outline::{
    columns_wide, edges, extent, inside, some_edges_change_order, turned, vertices, Edge, Vertex,
};

/// The kinds that pass 7 and 8.
fn kind(random: &mut Random) -> OutlineKind {
    random.pick(&OutlineKind::ALL[..16])
}

fn random_vertices(random: &mut Random, kind: OutlineKind, size: u16) -> Vec<Vertex> {
    let words = outline(random, kind, size);
    turned(&vertices(&words), random.word(0, 3))
}

/// The runs by the plain form, cell by cell.
fn runs_plain(outline: &[Vertex], r: i64) -> Vec<(i64, i64, i64)> {
    let (w, h) = extent(outline);
    let mut runs = Vec::new();
    for column in 0..columns_wide(w, r) {
        let rows: Vec<bool> = (0..h)
            .map(|row| covered_plain(outline, r, column, row))
            .collect();
        for (low, high) in stretches(&rows) {
            runs.push((column, low, high));
        }
    }
    runs
}

fn compare_forms(seed: u64, times: usize, kinds: &[OutlineKind], most_size: u16) {
    let mut random = Random::new(seed);
    for _ in 0..times {
        let kind = random.pick(kinds);
        let size = random.word(2, most_size);
        let r = random.between(1, 4);
        let outline = random_vertices(&mut random, kind, size);
        assert_eq!(
            runs_of(&outline, r),
            runs_plain(&outline, r),
            "{kind:?} {outline:?} R {r}"
        );
    }
}

#[test]
fn forms_agree_on_small_outlines_of_every_kind() {
    for (seed, kind) in OutlineKind::ALL[..16].iter().enumerate() {
        let full = matches!(kind, OutlineKind::FullStar | OutlineKind::FullRandomWalk);
        let times = if full { 20 } else { 2_000 };
        compare_forms(1_000 + seed as u64, times, &[*kind], 6);
    }
}

#[test]
fn forms_agree_on_outlines_of_middle_size() {
    compare_forms(1_900, 1_000, &OutlineKind::MOSTLY_SOUND, 20);
    compare_forms(1_901, 60, &OutlineKind::ALL[..16], 20);
}

/// Few vertices close together: crossings of every sort, doubled edges,
/// repeated vertices.
#[test]
fn forms_agree_on_walks_in_a_little_square() {
    compare_forms(2_000, 20_000, &[OutlineKind::RandomWalk], 4);
    compare_forms(2_001, 10_000, &[OutlineKind::LatticeWalk], 4);
    compare_forms(2_002, 10_000, &[OutlineKind::Spur], 4);
}

/// Steep and flat edges: the extent is large one way and small the other.
#[test]
fn forms_agree_on_steep_and_flat_edges() {
    let mut random = Random::new(3_000);
    for round in 0..4_000 {
        let count = random.between(3, 6);
        let (across, along) = (random.between(1, 3), random.between(10, 60));
        let (w, h) = if round % 2 == 0 {
            (across, along)
        } else {
            (along, across)
        };
        let walk: Vec<Vertex> = (0..count)
            .map(|_| (random.between(0, w), random.between(0, h)))
            .collect();
        let outline = turned(&walk, 0);
        let r = random.between(1, 5);
        assert_eq!(runs_of(&outline, r), runs_plain(&outline, r), "{outline:?}");
    }
}

/// On large outlines, the plain form is asked about the cells at the ends of
/// some runs and the cells just outside them.
#[test]
fn forms_agree_at_the_ends_of_runs_of_large_outlines() {
    let mut random = Random::new(4_000);
    for round in 0..120 {
        let size = random.pick(&[40, 200, 1_000, 16_000]);
        let kind = kind(&mut random);
        let outline = random_vertices(&mut random, kind, size);
        let (_, h) = extent(&outline);
        let r = if size > 1_000 {
            100
        } else {
            random.between(1, 3)
        };
        let runs = runs_of(&outline, r);
        if runs.is_empty() {
            continue;
        }
        for _ in 0..4 {
            let (column, low, high) = runs[random.index(runs.len())];
            let row = random.between(low, high - 1);
            for covered in [low, row, high - 1] {
                assert!(
                    covered_plain(&outline, r, column, covered),
                    "round {round}, {kind:?} {outline:?} R {r} cell {column} {covered}"
                );
            }
            for open in [low - 1, high] {
                assert!(
                    open < 0 || open >= h || !covered_plain(&outline, r, column, open),
                    "round {round}, {kind:?} {outline:?} R {r} cell {column} {open}"
                );
            }
        }
    }
}

/// A point inside is in a covered cell, if its y is not whole.
#[test]
fn points_inside_are_in_covered_cells() {
    let mut random = Random::new(5_000);
    let mut found = 0;
    for _ in 0..400 {
        let size = random.pick(&[4, 10, 50, 300]);
        let kind = kind(&mut random);
        let outline = random_vertices(&mut random, kind, size);
        let (w, h) = extent(&outline);
        let r = random.between(1, 5);
        let runs = runs_of(&outline, r);
        for _ in 0..200 {
            let d = random.between(1, 50);
            let (p, q) = (random.between(0, w * d), random.between(0, h * d));
            if q % d == 0 || !inside(&outline, p.into(), q.into(), d.into()) {
                continue;
            }
            found += 1;
            let (column, row) = (p / (d * r), q / d);
            assert!(
                runs.iter()
                    .any(|run| run.0 == column && run.1 <= row && row < run.2),
                "{outline:?} R {r} point {p} {q} {d}"
            );
        }
    }
    assert!(found > 5_000, "{found}");
}

/// At R 1 a turn turns the cells with the outline: (x, y) goes to (h − y, x).
#[test]
fn cells_turn_with_the_outline() {
    let mut random = Random::new(6_000);
    for _ in 0..2_000 {
        let size = random.word(2, 12);
        let kind = kind(&mut random);
        let outline = random_vertices(&mut random, kind, size);
        let (_, h) = extent(&outline);
        let mut expected: Vec<(i64, i64)> = cells(&runs_of(&outline, 1))
            .iter()
            .map(|&(column, row)| (h - 1 - row, column))
            .collect();
        expected.sort();
        let turned = runs_of(&turned(&outline, 1), 1);
        assert_eq!(cells(&turned), expected, "{kind:?} {outline:?}");
    }
}

fn cells(runs: &[(i64, i64, i64)]) -> Vec<(i64, i64)> {
    runs.iter()
        .flat_map(|&(column, low, high)| (low..high).map(move |row| (column, row)))
        .collect()
}

/// Question 11 names no turn and no R: an outline covers a cell in all of them
/// or in none.
#[test]
fn question_11_is_the_same_in_every_turn_and_at_every_r() {
    let mut random = Random::new(7_000);
    let mut without = 0;
    for _ in 0..500 {
        let size = random.word(2, 12);
        let kind = kind(&mut random);
        let outline = random_vertices(&mut random, kind, size);
        let covered = a_cell_is_covered(&outline);
        without += usize::from(!covered);
        for turn in 0..4 {
            let outline = turned(&outline, turn);
            assert_eq!(a_cell_is_covered(&outline), covered);
            for r in [1, 3, 400] {
                assert_eq!(!runs_of(&outline, r).is_empty(), covered);
            }
        }
    }
    assert!(without > 50 && without < 250, "{without}");
}

/// Two edges change order exactly when they cross strictly between whole x's, in
/// a column both span. Turns 0 and 2 agree, 1 and 3 too, and 0 and 1 do not.
#[test]
fn question_10_is_a_crossing_between_whole_x() {
    let mut random = Random::new(8_000);
    let (mut differ, mut crossed) = (0, 0);
    for _ in 0..10_000 {
        let size = random.word(2, 8);
        let kind = kind(&mut random);
        let outline = random_vertices(&mut random, kind, size);
        let change: Vec<bool> = (0..4)
            .map(|turn| some_edges_change_order(&turned(&outline, turn)))
            .collect();
        assert_eq!(change[0], change[2]);
        assert_eq!(change[1], change[3]);
        assert_eq!(change[0], some_cross_between_whole_x(&outline));
        differ += usize::from(change[0] != change[1]);
        crossed += usize::from(change[0]);
    }
    assert!(differ > 200, "{differ}");
    assert!(crossed > 2_000 && crossed < 8_000, "{crossed}");
}

fn some_cross_between_whole_x(outline: &[Vertex]) -> bool {
    let edges = edges(outline);
    edges
        .iter()
        .any(|e| edges.iter().any(|f| cross_between_whole_x(e, f)))
}

/// With y·dx = a + dy·x on each edge's line, the lines meet at
/// x = (a_f·dx_e − a_e·dx_f) / (dy_e·dx_f − dy_f·dx_e).
fn cross_between_whole_x(e: &Edge, f: &Edge) -> bool {
    let under = e.dy() * f.dx() - f.dy() * e.dx();
    if under == 0 {
        return false;
    }
    let start = |edge: &Edge| edge.left.1 * edge.dx() - edge.left.0 * edge.dy();
    let over = start(f) * e.dx() - start(e) * f.dx();
    let (over, under) = (over * under.signum(), under.abs());
    let k = over.div_euclid(under);
    over.rem_euclid(under) != 0 && e.spans(k) && f.spans(k)
}

#[test]
fn runs_are_sorted_and_do_not_touch() {
    let mut random = Random::new(9_000);
    for _ in 0..500 {
        let size = random.word(2, 60);
        let kind = kind(&mut random);
        let outline = random_vertices(&mut random, kind, size);
        for r in [1, 2, 7] {
            for pair in runs_of(&outline, r).windows(2) {
                let apart = pair[0].0 == pair[1].0 && pair[0].2 < pair[1].1;
                assert!(pair[0].0 < pair[1].0 || apart);
            }
        }
    }
}

/// A point on an edge, on a doubled edge or at a whole x is not inside.
#[test]
fn points_that_are_not_inside() {
    let square = [(0, 0), (4, 0), (4, 4), (0, 4)];
    assert!(inside(&square, 5, 2, 2));
    assert!(inside(&square, 5, 4, 2), "whole y");
    assert!(!inside(&square, 4, 2, 2), "whole x");
    assert!(!inside(&square, 5, 0, 2), "on the lower edge");
    assert!(!inside(&square, 5, 8, 2), "on the upper edge");
    assert!(!inside(&square, 5, 9, 2), "above");
    assert!(!inside(&square, 9, 5, 2), "to the right");
    assert!(!inside(&square, -1, 5, 2), "to the left");
    // A spur from (4,2) to (0,2) and back.
    let spur = [(0, 0), (4, 0), (4, 2), (0, 2), (4, 2), (4, 4), (0, 4)];
    assert!(!inside(&spur, 5, 4, 2), "on the doubled edge");
    assert!(inside(&spur, 5, 3, 2) && inside(&spur, 5, 5, 2));
}

/// R need not divide w: the last column is narrower.
#[test]
fn r_that_does_not_divide_w() {
    assert_eq!(columns_of(&rectangle(5, 2), 0, 3), [[(0, 2)], [(0, 2)]]);
    assert_eq!(columns_of(&rectangle(6, 2), 0, 4), [[(0, 2)], [(0, 2)]]);
    assert_eq!(columns_of(&rectangle(6, 2), 0, 400), [[(0, 2)]]);
    // (0,0) (7,0) (7,7): column 0 is x 0 to 3, column 2 is x 6 to 7.
    let slope = [0, 0, 7, 0, 7, 7];
    assert_eq!(columns_of(&slope, 0, 3), [[(0, 3)], [(0, 6)], [(0, 7)]]);
}

/// Cells are open: a corner that only touches a row line covers nothing beyond.
#[test]
fn touching_a_cell_does_not_cover_it() {
    // A square on its tip: (2,0) (4,2) (2,4) (0,2).
    let tip = [2, 0, 4, 2, 2, 4, 0, 2];
    assert_eq!(
        columns_of(&tip, 0, 1),
        [[(1, 3)], [(0, 4)], [(0, 4)], [(1, 3)]]
    );
    // Two squares that meet in a corner: (0,0) (1,0) (1,2) (2,2) (2,1) (0,1).
    let corners = [0, 0, 1, 0, 1, 2, 2, 2, 2, 1, 0, 1];
    assert_eq!(columns_of(&corners, 0, 1), [[(0, 1)], [(1, 2)]]);
    assert_eq!(columns_of(&corners, 0, 2), [[(0, 2)]]);
}

/// Several runs in one column, and stretches that meet at a row line are one.
#[test]
fn several_runs_in_a_column() {
    // A U on its side: open to the right between rows 1 and 3.
    let jaws = [0, 0, 4, 0, 4, 1, 1, 1, 1, 3, 4, 3, 4, 4, 0, 4];
    assert_eq!(
        columns_of(&jaws, 0, 1),
        [
            vec![(0, 4)],
            vec![(0, 1), (3, 4)],
            vec![(0, 1), (3, 4)],
            vec![(0, 1), (3, 4)]
        ]
    );
    // Jaws that touch: the doubled edge at y = 2 parts nothing.
    let shut = [0, 0, 4, 0, 4, 2, 1, 2, 4, 2, 4, 4, 0, 4];
    assert_eq!(columns_of(&shut, 0, 1), [[(0, 4)]; 4]);
}

/// A band, 1 or 2 units thick, that goes to and fro between x = 0 and 16,000 and
/// rises 500 units each time: up along its lower edge, down along its upper one.
/// It crosses itself near each bend, 16 or 32 units away, a whole x.
fn band(thickness: u16) -> Vec<u16> {
    let side = |level: u16| if level.is_multiple_of(2) { 0 } else { 16_000 };
    let up = (0..32).flat_map(|level| [side(level), 500 * level]);
    let down = (0..32)
        .rev()
        .flat_map(|level| [side(level), 500 * level + thickness]);
    up.chain(down).collect()
}

/// The band has 31 legs, so 31 runs in most columns.
///
/// A leg rises or falls a unit in 32. In a column d to d+1 away from a bend at
/// height y, the lower leg ends at row ceil(y + thickness − d/32) and the upper
/// one begins with row floor(y + d/32): with thickness 1 there is an empty row
/// between them from d = 32 on, with thickness 2 from d = 64 on. Nearer to the
/// bend they are one run. There are 30 bends with a leg below and one above.
#[test]
fn the_extreme_outline() {
    for (thickness, expected) in [(1, 31 * 16_000 - 30 * 32), (2, 31 * 16_000 - 30 * 64)] {
        let outline = band(thickness);
        assert_eq!(outline.len(), 128);
        let runs = check_cover(&outline, 0, 1, 3 * expected).unwrap();
        assert_eq!(runs.len(), expected);
        let one_word_short = check_cover(&outline, 0, 1, 3 * expected - 1);
        assert_eq!(one_word_short, Err(no(12, 1)));
        // At x = 8,000 each leg is at 500 times its level and 250 more. The
        // column from 8,000 to 8,001 has a row more above or below that.
        let middle: Vec<[u16; 3]> = runs.into_iter().filter(|run| run[0] == 8_000).collect();
        assert_eq!(middle.len(), 31);
        for (level, run) in middle.into_iter().enumerate() {
            let low = 500 * level as u16 + 250 - (level % 2) as u16;
            assert_eq!(run, [8_000, low, low + thickness + 1]);
        }
    }
}

/// The same in the plain form: the cells at the ends of runs near a bend.
#[test]
fn the_extreme_outline_near_a_bend() {
    for thickness in [1, 2] {
        let outline = vertices(&band(thickness));
        // The bend at x = 16,000 and y = 500, seen from the left.
        for (d, rows) in [
            (0, vec![499, 500, 501]),
            (15, vec![499, 500, 501]),
            (16, vec![499, 500, 501]),
            (31, vec![499, 500, 501]),
            (32, vec![498, 499, 501, 502]),
            (63, vec![498, 499, 501, 502]),
            (64, vec![497, 498, 502, 503]),
        ] {
            let mut expected = rows;
            if thickness == 2 {
                // A row more at the top of each leg.
                let more: Vec<i64> = expected.iter().map(|row| row + 1).collect();
                expected.extend(more);
                expected.sort();
                expected.dedup();
            }
            let column = 16_000 - 1 - d;
            let covered: Vec<i64> = (490..510)
                .filter(|&row| covered_plain(&outline, 1, column, row))
                .collect();
            assert_eq!(covered, expected, "{thickness} {d}");
        }
    }
}
