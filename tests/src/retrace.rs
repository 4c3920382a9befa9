//! What an outline draws twice: two of its edges lie along each other. Not of the
//! papers; it is what a knife should be warned of.

use crate::figures::*;
use crate::outline::{vertices, Vertex};
use crate::questions::ask_7_of_lent_outline;

/// The numbers of two edges, from 1 on: edge 1 goes from the first vertex to the
/// second.
pub type EdgePair = (u16, u16);

/// From one vertex to another that comes after it, by x and then by y.
pub type Stretch = (Vertex, Vertex);

/// The first two edges that share a stretch, if there are such.
pub fn retrace(outline: &[u16]) -> Result<Option<EdgePair>, Refusal> {
    ask_7_of_lent_outline(outline)?;
    if outline.iter().any(|&word| word > MOST_COORDINATE) {
        return Err(no(8, 1));
    }
    let edges = stretches_of(&vertices(outline));
    let pairs = (0..edges.len()).flat_map(|i| (i + 1..edges.len()).map(move |j| (i, j)));
    Ok(pairs
        .into_iter()
        .find(|&(i, j)| shared(edges[i], edges[j]).is_some())
        .map(|(i, j)| (i as u16 + 1, j as u16 + 1)))
}

/// The stretch that the two edges of a pair share.
pub fn shared_by(outline: &[u16], pair: EdgePair) -> Option<Stretch> {
    let edges = stretches_of(&vertices(outline));
    let edge = |number: u16| edges[usize::from(number) - 1];
    shared(edge(pair.0), edge(pair.1))
}

/// For each edge the longest stretch from its start on that another edge shares,
/// if there is one.
pub fn drawn_twice(outline: &[Vertex]) -> Vec<Stretch> {
    let edges = stretches_of(outline);
    let longest = |i: usize| {
        (0..edges.len())
            .filter(|&j| j != i)
            .filter_map(|j| shared(edges[i], edges[j]))
            .filter(|stretch| stretch.0 == edges[i].0)
            .max_by_key(|stretch| stretch.1)
    };
    (0..edges.len()).filter_map(longest).collect()
}

/// The edges, each with its earlier vertex first.
fn stretches_of(outline: &[Vertex]) -> Vec<Stretch> {
    let next = outline.iter().cycle().skip(1);
    outline
        .iter()
        .zip(next)
        .map(|(&from, &to)| (from.min(to), from.max(to)))
        .collect()
}

/// On one line, from the later start to the earlier end.
fn shared(e: Stretch, f: Stretch) -> Option<Stretch> {
    let stretch = (e.0.max(f.0), e.1.min(f.1));
    let on_line = |edge: Stretch, point: Vertex| {
        let (dx, dy) = (edge.1 .0 - edge.0 .0, edge.1 .1 - edge.0 .1);
        let (px, py) = (point.0 - edge.0 .0, point.1 - edge.0 .1);
        dx * py == dy * px
    };
    (stretch.0 < stretch.1 && on_line(e, f.0) && on_line(e, f.1)).then_some(stretch)
}
