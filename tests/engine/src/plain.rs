//! A plain, quick Rust version of cover, to measure the engine against: the same
//! job, with vectors and the usual means. It is no reference for answers.

use reference::Refusal;

struct Edge {
    xl: i64,
    yl: i64,
    xr: i64,
    yr: i64,
}

impl Edge {
    fn dx(&self) -> i64 {
        self.xr - self.xl
    }

    /// The height at x, times dx.
    fn height(&self, x: i64) -> i64 {
        self.yl * (self.xr - x) + self.yr * (x - self.xl)
    }
}

fn turned(outline: &[u16], turn: u16) -> Vec<(i64, i64)> {
    let mut vertices: Vec<(i64, i64)> = outline
        .chunks_exact(2)
        .map(|v| {
            let (x, y) = (i64::from(v[0]), i64::from(v[1]));
            match turn {
                0 => (x, y),
                1 => (-y, x),
                2 => (-x, -y),
                _ => (y, -x),
            }
        })
        .collect();
    let left = vertices.iter().map(|v| v.0).min().unwrap_or(0);
    let foot = vertices.iter().map(|v| v.1).min().unwrap_or(0);
    for v in &mut vertices {
        *v = (v.0 - left, v.1 - foot);
    }
    vertices
}

fn edges(vertices: &[(i64, i64)]) -> Vec<Edge> {
    let n = vertices.len();
    (0..n)
        .map(|i| (vertices[i], vertices[(i + 1) % n]))
        .filter(|(a, b)| a.0 != b.0)
        .map(|(a, b)| {
            let (l, r) = if a.0 < b.0 { (a, b) } else { (b, a) };
            Edge {
                xl: l.0,
                yl: l.1,
                xr: r.0,
                yr: r.1,
            }
        })
        .collect()
}

/// Whether two edges change order in some unit column.
fn change_order(e: &Edge, f: &Edge) -> bool {
    let (a, b) = (e.xl.max(f.xl), e.xr.min(f.xr));
    if a >= b {
        return false;
    }
    let difference = |x| e.height(x) * f.dx() - f.height(x) * e.dx();
    let (p, q) = (difference(a), difference(b));
    if p.signum() * q.signum() >= 0 {
        return false;
    }
    (b - a) * p.abs() % (p.abs() + q.abs()) != 0
}

/// Whether some pair of edges is ordered one way at a and the other way at b.
fn crossed(spanning: &[&Edge], a: i64, b: i64) -> bool {
    spanning.windows(2).any(|pair| {
        let (e, f) = (pair[0], pair[1]);
        e.height(b) * f.dx() > f.height(b) * e.dx() || e.height(a) * f.dx() > f.height(a) * e.dx()
    })
}

/// Rows of the slab from a to b, as stretches added to `rows`.
fn slab(spanning: &[&Edge], a: i64, b: i64, rows: &mut Vec<(i64, i64)>) {
    for pair in spanning.chunks_exact(2) {
        let (e, g) = (pair[0], pair[1]);
        let meet = |x| e.height(x) * g.dx() == g.height(x) * e.dx();
        if meet(a) && meet(b) {
            continue;
        }
        let low = e.height(a).min(e.height(b)) / e.dx();
        let top = g.height(a).max(g.height(b));
        let high = (top + g.dx() - 1) / g.dx();
        if low < high {
            rows.push((low, high));
        }
    }
}

/// The stretches of the unit columns from the one to the other, joined and rising,
/// each g rows higher.
fn column(all: &[Edge], cuts: &[i64], (from, to): (i64, i64), g: i64, rows: &mut Vec<(i64, i64)>) {
    rows.clear();
    let mut a = from;
    while a < to {
        let next = cuts.partition_point(|&x| x <= a);
        let mut b = cuts.get(next).map_or(to, |&x| x.min(to));
        let mut spanning: Vec<&Edge> = all.iter().filter(|e| e.xl <= a && a < e.xr).collect();
        spanning.sort_by(|e, f| {
            let at = |x| (e.height(x) * f.dx()).cmp(&(f.height(x) * e.dx()));
            at(a).then_with(|| at(b))
        });
        if crossed(&spanning, a, b) {
            b = a + 1;
            spanning.sort_by(|e, f| {
                let at = |x| (e.height(x) * f.dx()).cmp(&(f.height(x) * e.dx()));
                at(a).then_with(|| at(b))
            });
        }
        slab(&spanning, a, b, rows);
        a = b;
    }
    rows.sort_unstable();
    let mut kept = 0;
    for i in 0..rows.len() {
        let (low, high) = (rows[i].0, rows[i].1 + g);
        if kept > 0 && low <= rows[kept - 1].1 {
            rows[kept - 1].1 = rows[kept - 1].1.max(high);
        } else {
            rows[kept] = (low, high);
            kept += 1;
        }
    }
    rows.truncate(kept);
}

/// An outline in a turn.
pub struct Turned {
    edges: Vec<Edge>,
    /// The x's of its vertices, rising.
    cuts: Vec<i64>,
    h: i64,
}

impl Turned {
    pub fn new(outline: &[u16], turn: u16) -> Turned {
        let vertices = turned(outline, turn);
        let mut cuts: Vec<i64> = vertices.iter().map(|v| v.0).collect();
        cuts.sort_unstable();
        cuts.dedup();
        Turned {
            edges: edges(&vertices),
            cuts,
            h: vertices.iter().map(|v| v.1).max().unwrap_or(0),
        }
    }

    /// The greatest x and y.
    pub fn extent(&self) -> (i64, i64) {
        (*self.cuts.last().unwrap_or(&0), self.h)
    }

    /// Question 10 of this turn.
    pub fn keeps_order(&self) -> bool {
        let all = &self.edges;
        (0..all.len()).all(|i| !all[..i].iter().any(|f| change_order(&all[i], f)))
    }

    /// Whether a cell is covered: all of it as one column has a run.
    pub fn covers_a_cell(&self) -> bool {
        let mut rows = Vec::new();
        let all = (0, self.extent().0);
        column(&self.edges, &self.cuts, all, 0, &mut rows);
        !rows.is_empty()
    }

    /// The runs (column, low, high) with a gap, by column then low: those of the
    /// unit columns in each column and of the g before it.
    pub fn runs(&self, r: u16, g: u16) -> Vec<[u16; 3]> {
        let (w, r, g) = (self.extent().0, i64::from(r), i64::from(g));
        let mut runs = Vec::new();
        let mut rows = Vec::new();
        for i in 0..(w + g + r - 1) / r {
            let window = ((i * r - g).max(0), ((i + 1) * r).min(w));
            column(&self.edges, &self.cuts, window, g, &mut rows);
            runs.extend(
                rows.iter()
                    .map(|&(low, high)| [i as u16, low as u16, high as u16]),
            );
        }
        runs
    }
}

pub fn no(number: u16, ordinal: u16) -> Refusal {
    Refusal { number, ordinal }
}

/// Questions 7 and 8.
pub fn ask_7_and_8(outline: &[u16]) -> Result<(), Refusal> {
    if !outline.len().is_multiple_of(2) || !(6..=128).contains(&outline.len()) {
        return Err(no(7, 1));
    }
    if outline.iter().any(|&x| x > 16_000) {
        return Err(no(8, 1));
    }
    Ok(())
}

pub fn cover(
    outline: &[u16],
    turn: u16,
    r: u16,
    g: u16,
    output: &mut [u16],
) -> Result<u32, Refusal> {
    if !(1..=400).contains(&r) {
        return Err(no(16, 0));
    }
    if g > 400 {
        return Err(no(21, 0));
    }
    ask_7_and_8(outline)?;
    if turn > 3 {
        return Err(no(9, 1));
    }
    let piece = Turned::new(outline, turn);
    if !piece.keeps_order() {
        return Err(no(10, 1));
    }
    let runs = piece.runs(r, g);
    if runs.is_empty() {
        return Err(no(11, 1));
    }
    if 3 * runs.len() > output.len() {
        return Err(no(12, 1));
    }
    for (place, run) in output.chunks_exact_mut(3).zip(&runs) {
        place.copy_from_slice(run);
    }
    Ok(runs.len() as u32)
}
