//! Whether placed pieces keep their distance, from their edges alone: no cell is
//! looked at. S-4: "Two points inside different pieces must then differ by at least
//! g in x or in y." For g = 0: "No point may lie inside two pieces".

use crate::figures::Position;
use crate::outline::{edges, turned, vertices, Edge, Vertex};

/// The points between two edges, from one whole x to another, where no edge passes
/// between them. All are inside.
struct Band {
    from: i64,
    to: i64,
    lower: Edge,
    upper: Edge,
}

/// The inside of a placed piece, but for points at some whole x, which are inside
/// nothing, and points on edges that go out and come back.
pub struct Shape {
    bands: Vec<Band>,
}

/// The height of an edge at x, as (dy·x + start) / dx.
fn start(edge: &Edge) -> i64 {
    edge.left.1 * edge.dx() - edge.dy() * edge.left.0
}

/// How much higher the one edge is at x than the other, times both dx.
fn above(e: &Edge, f: &Edge, x: i64) -> i64 {
    (e.dy() * x + start(e)) * f.dx() - (f.dy() * x + start(f)) * e.dx()
}

/// The x at which two edges cross in the span they share, if they do. An outline
/// that passes question 10 has no crossing at another x than a whole one.
fn crossing(e: &Edge, f: &Edge) -> Option<i64> {
    let (from, to) = (e.left.0.max(f.left.0), e.right.0.min(f.right.0));
    if from >= to {
        return None;
    }
    let (before, after) = (above(e, f, from), above(e, f, to));
    if before.signum() * after.signum() >= 0 {
        return None;
    }
    let (over, under) = ((to - from) * before, before - after);
    assert_eq!(over % under, 0, "question 10 says no");
    Some(from + over / under)
}

/// The x's at which an edge begins, ends or crosses another, rising.
fn cuts(edges: &[Edge]) -> Vec<i64> {
    let mut cuts: Vec<i64> = edges.iter().flat_map(|e| [e.left.0, e.right.0]).collect();
    for (place, e) in edges.iter().enumerate() {
        cuts.extend(edges[..place].iter().filter_map(|f| crossing(e, f)));
    }
    cuts.sort();
    cuts.dedup();
    cuts
}

impl Shape {
    /// An outline that passes questions 7 to 11 in the position's turn, there.
    pub fn new(outline: &[u16], position: Position, r: u16) -> Shape {
        let right = i64::from(position.column) * i64::from(r);
        let up = i64::from(position.height);
        let moved = turned(&vertices(outline), position.turn)
            .iter()
            .map(|&(x, y)| (x + right, y + up))
            .collect::<Vec<Vertex>>();
        let mut edges = edges(&moved);
        edges.retain(|edge| edge.dx() > 0);
        let mut bands = Vec::new();
        for pair in cuts(&edges).windows(2) {
            bands.extend(bands_between(&edges, pair[0], pair[1]));
        }
        Shape { bands }
    }

    /// Whether a point p/d, q/d is in it: for a test of this form.
    pub fn holds(&self, p: i64, q: i64, d: i64) -> bool {
        let below = |edge: &Edge| edge.dy() * p + start(edge) * d < q * edge.dx();
        let above = |edge: &Edge| edge.dy() * p + start(edge) * d > q * edge.dx();
        self.bands.iter().any(|band| {
            band.from * d < p && p < band.to * d && below(&band.lower) && above(&band.upper)
        })
    }
}

/// Between neighbouring cuts no two edges cross: they lie above each other in one
/// order, and the points with an odd number of them below are inside.
fn bands_between(edges: &[Edge], from: i64, to: i64) -> Vec<Band> {
    let spans = |edge: &&Edge| edge.left.0 <= from && to <= edge.right.0;
    let mut spanning: Vec<Edge> = edges.iter().filter(spans).copied().collect();
    // Of two lines that do not cross, the higher one has the greater sum of heights.
    let both_ends = |e: &Edge, f: &Edge| above(e, f, from) + above(e, f, to);
    spanning.sort_by(|e, f| both_ends(e, f).cmp(&0));
    spanning
        .chunks_exact(2)
        .filter(|pair| both_ends(&pair[1], &pair[0]) > 0)
        .map(|pair| Band {
            from,
            to,
            lower: pair[0],
            upper: pair[1],
        })
        .collect()
}

/// a·x + b·x' < c
#[derive(Clone, Copy)]
struct Less {
    a: i128,
    b: i128,
    c: i128,
}

fn less(a: i64, b: i64, c: i64) -> Less {
    Less {
        a: a.into(),
        b: b.into(),
        c: c.into(),
    }
}

/// The edge e at x is less than g higher than the edge f at x'.
fn less_than_g_above(e: &Edge, f: &Edge, g: i64) -> Less {
    let (e_dx, f_dx) = (i128::from(e.dx()), i128::from(f.dx()));
    Less {
        a: i128::from(e.dy()) * f_dx,
        b: -i128::from(f.dy()) * e_dx,
        c: i128::from(g) * e_dx * f_dx - i128::from(start(e)) * f_dx + i128::from(start(f)) * e_dx,
    }
}

/// The sum of two of them, so many times each, that x' falls out of.
fn without_b(upper: &Less, lower: &Less) -> Less {
    Less {
        a: upper.a * -lower.b + lower.a * upper.b,
        b: 0,
        c: upper.c * -lower.b + lower.c * upper.b,
    }
}

/// Whether some x and x' fulfil all of them: x' is eliminated, then x.
fn have_a_solution(all: &[Less]) -> bool {
    let mut of_x: Vec<Less> = all.iter().filter(|less| less.b == 0).copied().collect();
    for upper in all.iter().filter(|less| less.b > 0) {
        let lowers = all.iter().filter(|less| less.b < 0);
        of_x.extend(lowers.map(|lower| without_b(upper, lower)));
    }
    let never = |less: &Less| less.a == 0 && less.c <= 0;
    let uppers = || of_x.iter().filter(|less| less.a > 0);
    let mut lowers = of_x.iter().filter(|less| less.a < 0);
    // lower.c / lower.a < x < upper.c / upper.a
    !of_x.iter().any(never)
        && lowers.all(|lower| uppers().all(|upper| lower.c * upper.a > upper.c * lower.a))
}

/// Whether some point x, y of the one band and some point x', y' of the other differ
/// by less than g in x and by less than g in y; for g = 0, whether they share one.
///
/// Given x and x', there are such y and y' when each band's lower edge is less than
/// g above the other's upper edge.
fn bands_too_close(a: &Band, b: &Band, g: i64) -> bool {
    if a.from - b.to >= g || b.from - a.to >= g {
        return false;
    }
    let mut all = vec![
        less(-1, 0, -a.from),
        less(1, 0, a.to),
        less(0, -1, -b.from),
        less(0, 1, b.to),
        less_than_g_above(&a.lower, &b.upper, g),
    ];
    let other = less_than_g_above(&b.lower, &a.upper, g);
    all.push(Less {
        a: other.b,
        b: other.a,
        c: other.c,
    });
    if g > 0 {
        all.extend([less(1, -1, g), less(-1, 1, g)]);
    } else {
        // x and x' are one.
        for less in &mut all {
            (less.a, less.b) = (less.a + less.b, 0);
        }
    }
    have_a_solution(&all)
}

/// Whether two points inside the two pieces differ by less than g in x and in y; for
/// g = 0, whether a point is inside both. Exact.
pub fn too_close(a: &Shape, b: &Shape, g: u16) -> bool {
    let g = i64::from(g);
    let close = |one: &Band| b.bands.iter().any(|other| bands_too_close(one, other, g));
    a.bands.iter().any(close)
}
