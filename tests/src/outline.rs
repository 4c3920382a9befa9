//! Outlines, their edges, the turns, inside, and the order of edges.

use std::cmp::Ordering;

/// A vertex x, y. Turning makes coordinates negative for a while.
pub type Vertex = (i64, i64);

/// An edge with its ends in rising x. Vertical edges keep the order walked.
#[derive(Clone, Copy, Debug, PartialEq, Eq)]
pub struct Edge {
    pub left: Vertex,
    pub right: Vertex,
}

/// "An outline is lent as 16-bit words x, y, x, y and so on."
pub fn vertices(words: &[u16]) -> Vec<Vertex> {
    words
        .chunks_exact(2)
        .map(|pair| (i64::from(pair[0]), i64::from(pair[1])))
        .collect()
}

/// "closed from last to first"
pub fn edges(outline: &[Vertex]) -> Vec<Edge> {
    (0..outline.len())
        .map(|place| {
            let from = outline[place];
            let to = outline[(place + 1) % outline.len()];
            Edge::between(from, to)
        })
        .collect()
}

impl Edge {
    pub fn between(from: Vertex, to: Vertex) -> Edge {
        if from.0 <= to.0 {
            Edge {
                left: from,
                right: to,
            }
        } else {
            Edge {
                left: to,
                right: from,
            }
        }
    }

    pub fn dx(&self) -> i64 {
        self.right.0 - self.left.0
    }

    pub fn dy(&self) -> i64 {
        self.right.1 - self.left.1
    }

    /// "An edge spans it if its ends lie at x ≤ k and x ≥ k+1; vertical edges
    /// span none."
    pub fn spans(&self, k: i64) -> bool {
        self.left.0 <= k && self.right.0 > k
    }

    /// The edge's height at a whole x, times its dx. The edge is not vertical.
    fn height_times_dx(&self, x: i64) -> i64 {
        self.left.1 * self.dx() + self.dy() * (x - self.left.0)
    }
}

/// "A point is three whole numbers p, q and d, d at least 1, standing for
/// x = p/d and y = q/d; points and heights of edges are compared by products of
/// whole numbers. A point with x not whole is inside when an odd number of the
/// edges spanning its unit column pass strictly below it and none passes
/// through it."
///
/// A point with whole x is not inside.
pub fn inside(outline: &[Vertex], p: i128, q: i128, d: i128) -> bool {
    assert!(d >= 1);
    if p.rem_euclid(d) == 0 {
        return false;
    }
    let k = p.div_euclid(d) as i64;
    let mut below = 0;
    for edge in edges(outline).iter().filter(|edge| edge.spans(k)) {
        match edge_against_point(edge, p, q, d) {
            Ordering::Less => below += 1,
            Ordering::Equal => return false,
            Ordering::Greater => {}
        }
    }
    below % 2 == 1
}

/// How the edge's height at x = p/d compares with y = q/d. Both sides are
/// multiplied by d and by the edge's dx, which are above zero.
fn edge_against_point(edge: &Edge, p: i128, q: i128, d: i128) -> Ordering {
    let (x, y) = (i128::from(edge.left.0), i128::from(edge.left.1));
    let (dx, dy) = (i128::from(edge.dx()), i128::from(edge.dy()));
    (y * d * dx + dy * (p - x * d)).cmp(&(q * dx))
}

/// "Two edges change order in a column they both span if one is strictly lower
/// at k and strictly higher at k+1."
pub fn change_order(e: &Edge, f: &Edge) -> bool {
    let first = e.left.0.max(f.left.0);
    let end = e.right.0.min(f.right.0);
    (first..end).any(|k| {
        let before = compare_heights(e, f, k);
        let after = compare_heights(e, f, k + 1);
        before != Ordering::Equal && after == before.reverse()
    })
}

/// How the heights of two edges at a whole x compare. With 16-bit coordinates
/// each product stays below 2 to the power of 50.
fn compare_heights(e: &Edge, f: &Edge, x: i64) -> Ordering {
    (e.height_times_dx(x) * f.dx()).cmp(&(f.height_times_dx(x) * e.dx()))
}

/// Some two edges of the outline change order in some column.
pub fn some_edges_change_order(outline: &[Vertex]) -> bool {
    let edges = edges(outline);
    (0..edges.len()).any(|i| (0..i).any(|j| change_order(&edges[i], &edges[j])))
}

/// "Turn t (0 to 3) sends (x, y) t times to (−y, x), then shifts so that least
/// x and least y are 0. [...] Turn 0 is shifted too."
pub fn turned(outline: &[Vertex], turn: u16) -> Vec<Vertex> {
    let mut result = outline.to_vec();
    for _ in 0..turn {
        for vertex in result.iter_mut() {
            *vertex = (-vertex.1, vertex.0);
        }
    }
    shifted(&result)
}

fn shifted(outline: &[Vertex]) -> Vec<Vertex> {
    let least_x = outline.iter().map(|vertex| vertex.0).min().unwrap_or(0);
    let least_y = outline.iter().map(|vertex| vertex.1).min().unwrap_or(0);
    outline
        .iter()
        .map(|vertex| (vertex.0 - least_x, vertex.1 - least_y))
        .collect()
}

/// "Its extent w, h is then the greatest x and y."
pub fn extent(outline: &[Vertex]) -> (i64, i64) {
    let w = outline.iter().map(|vertex| vertex.0).max().unwrap_or(0);
    let h = outline.iter().map(|vertex| vertex.1).max().unwrap_or(0);
    (w, h)
}

/// "w/R rounded up"
pub fn columns_wide(w: i64, r: i64) -> i64 {
    (w + r - 1) / r
}
