//! Outlines that draw a stretch twice, and some that nearly do.

use super::outlines::{is_sound, random_vertex, repeated_vertices, simple, words};
use super::{sound_mask, Random};
use crate::figures::Piece;
use crate::outline::Vertex;

#[derive(Clone, Copy, Debug, PartialEq, Eq)]
pub enum StrokeKind {
    /// A ring with a way out and back, from a vertex or from within an edge.
    Spur,
    /// Two rings, and a way from one to the other and back.
    Bridge,
    /// A ring with an edge that goes to, fro and to again.
    Doubled,
    /// Two edges on one line that have a part in common.
    Partial,
    /// The same with an end of an edge one unit away.
    Nearly,
    /// Edges on one line, one after another, which share no more than their ends.
    Touching,
    /// Edges on two parallel lines close together.
    SideBySide,
    /// A ring with vertices said twice or oftener, some with a spur.
    Repeated,
    /// A ring walked twice or three times.
    Again,
    /// Up to 64 vertices on a few points.
    Crowded,
}

impl StrokeKind {
    pub const ALL: [StrokeKind; 10] = [
        StrokeKind::Spur,
        StrokeKind::Bridge,
        StrokeKind::Doubled,
        StrokeKind::Partial,
        StrokeKind::Nearly,
        StrokeKind::Touching,
        StrokeKind::SideBySide,
        StrokeKind::Repeated,
        StrokeKind::Again,
        StrokeKind::Crowded,
    ];
}

/// An outline of the kind as words x, y, x, y, 3 to 64 vertices up to `size` (3 to
/// 16,000), begun anywhere and walked either way.
pub fn stroke_outline(random: &mut Random, kind: StrokeKind, size: u16) -> Vec<u16> {
    let size = i64::from(size);
    assert!((3..=16_000).contains(&size));
    let mut walk = match kind {
        StrokeKind::Spur => with_spurs(random, size),
        StrokeKind::Bridge => bridge(random, size),
        StrokeKind::Doubled => doubled(random, size),
        StrokeKind::Partial => partial(random, 0, size),
        StrokeKind::Nearly => nearly(random, size),
        StrokeKind::Touching => touching(random, size),
        StrokeKind::SideBySide => side_by_side(random, size),
        StrokeKind::Repeated => repeated(random, size),
        StrokeKind::Again => again(random, size),
        StrokeKind::Crowded => crowded(random, size),
    };
    let first = random.index(walk.len());
    walk.rotate_left(first);
    if random.once_in(2) {
        walk.reverse();
    }
    words(&walk)
}

/// Pieces that pass questions 7 to 11, most of which draw something twice.
pub fn stroke_pieces(random: &mut Random, count: usize, size: u16) -> Vec<Piece> {
    let mut pieces = Vec::new();
    while pieces.len() < count {
        let kind = random.pick(&StrokeKind::ALL);
        let outline = stroke_outline(random, kind, size);
        let mask = sound_mask(random);
        if is_sound(&outline, mask) {
            pieces.push(Piece { outline, mask });
        }
    }
    pieces
}

/// A rectangle or a star.
fn ring(random: &mut Random, size: i64) -> Vec<Vertex> {
    let few = random.between(3, 8) as usize;
    simple(random, few, size)
}

/// Another vertex, above, beside or anywhere.
fn other_vertex(random: &mut Random, than: Vertex, size: i64) -> Vertex {
    loop {
        let (x, y) = random_vertex(random, size);
        let other = random.pick(&[(x, than.1), (than.0, y), (x, y)]);
        if other != than {
            return other;
        }
    }
}

/// From a vertex out over one to three others and back to it, without the vertex
/// itself at the start.
fn out_and_back(random: &mut Random, root: Vertex, size: i64) -> Vec<Vertex> {
    let mut out = vec![root];
    for _ in 0..random.between(1, 3) {
        out.push(other_vertex(random, out[out.len() - 1], size));
    }
    let back: Vec<Vertex> = out.iter().rev().skip(1).copied().collect();
    [&out[1..], &back[..]].concat()
}

fn with_spurs(random: &mut Random, size: i64) -> Vec<Vertex> {
    let mut walk = ring(random, size);
    for _ in 0..random.between(1, 3) {
        let place = random.index(walk.len());
        let (from, to) = (walk[place], walk[(place + 1) % walk.len()]);
        let middle = ((from.0 + to.0) / 2, (from.1 + to.1) / 2);
        // The middle need not be on the edge; then the walk bends there.
        let root = random.pick(&[from, middle]);
        let mut spur = out_and_back(random, root, size);
        if root != from {
            spur.insert(0, root);
        }
        walk.splice(place + 1..place + 1, spur);
    }
    walk
}

fn bridge(random: &mut Random, size: i64) -> Vec<Vertex> {
    let (one, other) = (ring(random, size), ring(random, size));
    // Each ring ends where it began; from the end of the second the walk closes to the start of the first.
    [&one[..], &one[..1], &other, &other[..1]].concat()
}

fn doubled(random: &mut Random, size: i64) -> Vec<Vertex> {
    let mut walk = ring(random, size);
    let place = random.index(walk.len());
    let (from, to) = (walk[place], walk[(place + 1) % walk.len()]);
    walk.splice(place + 1..place + 1, [to, from]);
    walk
}

/// So many points on one line, each as far from the one before. The line is level,
/// upright or any.
fn row(random: &mut Random, count: i64, size: i64) -> Vec<Vertex> {
    let most = size / (count - 1);
    let (dx, dy) = loop {
        let (dx, dy) = (random.between(-most, most), random.between(-most, most));
        let step = random.pick(&[(dx, 0), (0, dy), (dx, dy)]);
        if step != (0, 0) {
            break step;
        }
    };
    let mut start = |step: i64| {
        let far = step * (count - 1);
        random.between(0.max(-far), size.min(size - far))
    };
    let (x, y) = (start(dx), start(dy));
    (0..count).map(|k| (x + k * dx, y + k * dy)).collect()
}

/// Three points or more on one line, as many as there is room for.
fn some_row(random: &mut Random, size: i64) -> Vec<Vertex> {
    let count = random.between(3, 8).min(size + 1);
    row(random, count, size)
}

/// Two different points of a row, in either order.
fn two_of(random: &mut Random, row: &[Vertex]) -> [usize; 2] {
    let one = random.index(row.len());
    let other = (one + 1 + random.index(row.len() - 1)) % row.len();
    [one, other]
}

/// The vertices between two edges.
fn detour(random: &mut Random, least: i64, size: i64) -> Vec<Vertex> {
    (0..random.between(least, 3))
        .map(|_| random_vertex(random, size))
        .collect()
}

/// With so many vertices at least between the two edges.
fn partial(random: &mut Random, least: i64, size: i64) -> Vec<Vertex> {
    let row = some_row(random, size);
    let first = two_of(random, &row);
    let second = loop {
        let second = two_of(random, &row);
        let start = first.iter().min().max(second.iter().min());
        let end = first.iter().max().min(second.iter().max());
        if start < end {
            break second;
        }
    };
    let mut walk = Vec::new();
    for edge in [first, second] {
        walk.extend(edge.map(|place| row[place]));
        walk.extend(detour(random, least, size));
    }
    walk
}

fn nearly(random: &mut Random, size: i64) -> Vec<Vertex> {
    let mut walk = partial(random, 1, size);
    // An end of the first edge.
    let place = random.index(2);
    let (x, y) = walk[place];
    let beside = |number: i64| if number == 0 { 1 } else { number - 1 };
    walk[place] = random.pick(&[(beside(x), y), (x, beside(y))]);
    walk
}

fn touching(random: &mut Random, size: i64) -> Vec<Vertex> {
    let row = some_row(random, size);
    let mut edges: Vec<[Vertex; 2]> = row.windows(2).map(|two| [two[0], two[1]]).collect();
    if random.once_in(2) {
        random.shuffle(&mut edges);
    }
    let mut walk: Vec<Vertex> = Vec::new();
    for mut edge in edges {
        if random.once_in(4) {
            edge.reverse();
        }
        // On from where the last edge ended, or there after a detour; two vertices, as one alone would be a spur.
        if walk.last() != Some(&edge[0]) || random.once_in(3) {
            if !walk.is_empty() {
                walk.extend(detour(random, 2, size));
            }
            walk.push(edge[0]);
        }
        walk.push(edge[1]);
    }
    walk.extend(detour(random, 2, size));
    walk
}

fn side_by_side(random: &mut Random, size: i64) -> Vec<Vertex> {
    let row = some_row(random, size - 1);
    let level = row[0].1 == row[1].1;
    let beside = row
        .iter()
        .map(|&(x, y)| if level { (x, y + 1) } else { (x + 1, y) });
    let rows = [row.clone(), beside.collect()];
    let mut walk = Vec::new();
    for row in rows {
        walk.extend(two_of(random, &row).map(|place| row[place]));
        walk.extend(detour(random, 0, size));
    }
    walk
}

fn repeated(random: &mut Random, size: i64) -> Vec<Vertex> {
    let mut walk = repeated_vertices(random, 5, size);
    if random.once_in(2) {
        let place = random.index(walk.len());
        let spur = out_and_back(random, walk[place], size);
        walk.splice(place + 1..place + 1, spur);
    }
    walk
}

fn again(random: &mut Random, size: i64) -> Vec<Vertex> {
    let ring = ring(random, size);
    let mut walk = ring.clone();
    for _ in 0..random.between(1, 2) {
        let mut next = ring.clone();
        if random.once_in(2) {
            next.reverse();
        }
        next.rotate_left(random.index(ring.len()));
        walk.extend(next);
    }
    walk
}

fn crowded(random: &mut Random, size: i64) -> Vec<Vertex> {
    let points: Vec<Vertex> = (0..random.between(3, 9))
        .map(|_| random_vertex(random, size))
        .collect();
    let count = random.between(3, 64).min(random.between(3, 64));
    (0..count).map(|_| random.pick(&points)).collect()
}
