//! What place, ask and commit answer, by sets of cells: a plain search, for small
//! strips and outlines.

use super::{at, opened_with_gap};
use reference::cells::covered_plain;
use reference::generate::{Random, StripFigures};
use reference::outline::{extent, turned, vertices};
use reference::{strip_runs, Position};
use std::collections::BTreeSet;

pub type Cells = BTreeSet<(i64, i64)>;

/// The unit cells that hold an inside point, in a turn, by the plain form.
pub fn unit_cells_of(outline: &[u16], turn: u16) -> Cells {
    let outline = turned(&vertices(outline), turn);
    let (w, h) = extent(&outline);
    let all = (0..w).flat_map(|k| (0..h).map(move |j| (k, j)));
    all.filter(|&(k, j)| covered_plain(&outline, 1, k, j))
        .collect()
}

/// The covered cells of an outline in a turn with a gap: the unit cells 0 to g
/// columns right of one that holds an inside point and 0 to g rows above it, then
/// columns of R units.
pub fn cells_of(outline: &[u16], turn: u16, r: i64, g: i64) -> Cells {
    let mut cells = Cells::new();
    for (k, j) in unit_cells_of(outline, turn) {
        for right in 0..=g {
            cells.extend((0..=g).map(|above| ((k + right) / r, j + above)));
        }
    }
    cells
}

/// Those of the cells that lie on a strip: none "past the strip's top or end".
pub fn on_strip(cells: Cells, figures: StripFigures) -> Cells {
    let (w, n) = (i64::from(figures.w), i64::from(figures.n));
    let on = |&(column, row): &(i64, i64)| column < n && row < w;
    cells.into_iter().filter(on).collect()
}

pub fn moved(cells: &Cells, c: i64, y: i64) -> Cells {
    cells
        .iter()
        .map(|&(column, row)| (column + c, row + y))
        .collect()
}

pub fn cells_of_strip(strip: &[u16]) -> Cells {
    let mut cells = Cells::new();
    for (column, runs) in strip_runs(strip).into_iter().enumerate() {
        for (low, high) in runs {
            cells.extend((low..high).map(|row| (column as i64, i64::from(row))));
        }
    }
    cells
}

/// A cell begins a run when it is covered and the one below it is not.
pub fn count_runs(cells: &Cells) -> usize {
    cells
        .iter()
        .filter(|&&(column, row)| !cells.contains(&(column, row - 1)))
        .count()
}

/// What a place call answers whose outline passes 7 to 11: the position, or 12,
/// 13 or 14. All positions of all allowed turns are tried, and the least
/// (right edge, top, turn) of the free ones is taken.
pub fn expected(
    occupied: &Cells,
    figures: StripFigures,
    outline: &[u16],
    mask: u16,
    work: usize,
) -> Result<Position, u16> {
    let StripFigures { w, r, n, g, .. } = figures;
    let [w, r, n, g] = [w, r, n, g].map(i64::from);
    let mut most_runs = 0;
    let mut found: Option<((i64, i64, u16), Position, Cells)> = None;
    for turn in (0..4).filter(|turn| mask & (1 << turn) != 0) {
        let cells = cells_of(outline, turn, r, g);
        most_runs = most_runs.max(count_runs(&cells));
        let (pw, ph) = extent(&turned(&vertices(outline), turn));
        let wide = (pw + r - 1) / r;
        for c in 0..=n - wide {
            for y in 0..=w - ph {
                let cells = on_strip(moved(&cells, c, y), figures);
                let key = (c * r + pw, y + ph, turn);
                let better = found.as_ref().is_none_or(|least| key < least.0);
                if better && cells.is_disjoint(occupied) {
                    found = Some((key, at(turn, c as u16, y as u16), cells));
                }
            }
        }
    }
    if work < 3 * most_runs {
        return Err(12);
    }
    let Some((_, position, cells)) = found else {
        return Err(13);
    };
    if count_runs(&(occupied | &cells)) > figures.q {
        return Err(14);
    }
    Ok(position)
}

/// What a commit answers whose outline passes 7 to 11 in its turn: granted with
/// the cells it enters, or 12, 18 or 14.
pub fn expected_commit(
    occupied: &Cells,
    figures: StripFigures,
    outline: &[u16],
    position: Position,
    work: usize,
) -> Result<Cells, u16> {
    let r = i64::from(figures.r);
    let (c, y) = (i64::from(position.column), i64::from(position.height));
    let cells = cells_of(outline, position.turn, r, figures.g.into());
    if work < 3 * count_runs(&cells) {
        return Err(12);
    }
    let (pw, ph) = extent(&turned(&vertices(outline), position.turn));
    let off_strip = c + (pw + r - 1) / r > i64::from(figures.n) || y + ph > i64::from(figures.w);
    let cells = on_strip(moved(&cells, c, y), figures);
    if off_strip || !cells.is_disjoint(occupied) {
        return Err(18);
    }
    if count_runs(&(occupied | &cells)) > figures.q {
        return Err(14);
    }
    Ok(cells)
}

/// A strip of these figures just opened.
pub fn opened_as(figures: StripFigures) -> Vec<u16> {
    let StripFigures { w, r, n, g, q } = figures;
    opened_with_gap(w, r, n, g, q)
}

/// Figures of a strip that is small enough for all this.
pub fn small_strip(random: &mut Random) -> StripFigures {
    StripFigures {
        w: random.word(1, 14),
        r: random.word(1, 4),
        n: random.word(1, 9),
        g: random.word(0, 5).saturating_sub(2),
        q: random.between(1, 30) as usize,
    }
}
