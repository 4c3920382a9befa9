//! Outlines of every kind.

use super::Random;
use crate::outline::Vertex;
use crate::questions::{ask_8_to_11, turns_of_mask};
use std::cmp::Ordering;

#[derive(Clone, Copy, Debug, PartialEq, Eq)]
pub enum OutlineKind {
    Triangle,
    Rectangle,
    /// A star-shaped polygon of few vertices.
    Star,
    /// A star-shaped polygon of 64 vertices.
    FullStar,
    /// A closed walk by level, upright and rising diagonal edges. Its edges
    /// cross at whole x only, in every turn.
    LatticeWalk,
    /// A few vertices anywhere.
    RandomWalk,
    /// 64 vertices anywhere.
    FullRandomWalk,
    /// A star with some vertices said twice or oftener.
    RepeatedVertices,
    /// A star or rectangle with an edge that goes out and comes back.
    Spur,
    /// No inside.
    WalkedTwice,
    WalkedThrice,
    /// A walk that goes back the way it came. No inside.
    ThereAndBack,
    /// Two edges cross in the middle of a unit column, in turn 0.
    BowTieBetween,
    /// Two edges cross at a whole x, in turn 0.
    BowTieWhole,
    /// All vertices on one line. No inside.
    Flat,
    /// A band that goes to and fro, 64 vertices if there is room.
    Zigzag,
    /// Touches x = 16,000 and y = 16,000.
    AtLimit,
    /// Has a coordinate above 16,000.
    OverLimit,
    /// Not an even length of 6 to 128 words.
    WrongLength,
}

impl OutlineKind {
    pub const ALL: [OutlineKind; 19] = [
        OutlineKind::Triangle,
        OutlineKind::Rectangle,
        OutlineKind::Star,
        OutlineKind::FullStar,
        OutlineKind::LatticeWalk,
        OutlineKind::RandomWalk,
        OutlineKind::FullRandomWalk,
        OutlineKind::RepeatedVertices,
        OutlineKind::Spur,
        OutlineKind::WalkedTwice,
        OutlineKind::WalkedThrice,
        OutlineKind::ThereAndBack,
        OutlineKind::BowTieBetween,
        OutlineKind::BowTieWhole,
        OutlineKind::Flat,
        OutlineKind::Zigzag,
        OutlineKind::AtLimit,
        OutlineKind::OverLimit,
        OutlineKind::WrongLength,
    ];

    /// The kinds that often pass questions 7 to 11.
    pub const MOSTLY_SOUND: [OutlineKind; 9] = [
        OutlineKind::Triangle,
        OutlineKind::Rectangle,
        OutlineKind::Star,
        OutlineKind::LatticeWalk,
        OutlineKind::RandomWalk,
        OutlineKind::RepeatedVertices,
        OutlineKind::Spur,
        OutlineKind::WalkedThrice,
        OutlineKind::BowTieWhole,
    ];
}

/// An outline of the kind as words x, y, x, y, with coordinates up to `size`
/// (2 to 16,000), but for the kinds that say otherwise.
pub fn outline(random: &mut Random, kind: OutlineKind, size: u16) -> Vec<u16> {
    let size = i64::from(size);
    assert!((2..=16_000).contains(&size));
    let few = random.between(3, 8) as usize;
    match kind {
        OutlineKind::Triangle => words(&random_vertices(random, 3, size)),
        OutlineKind::Rectangle => words(&rectangle(random, size)),
        OutlineKind::Star => words(&star(random, few, size)),
        OutlineKind::FullStar => words(&star(random, 64, size)),
        OutlineKind::LatticeWalk => {
            let steps = random.between(3, 14) as usize;
            words(&lattice_walk(random, steps, size))
        }
        OutlineKind::RandomWalk => words(&random_vertices(random, few, size)),
        OutlineKind::FullRandomWalk => words(&random_vertices(random, 64, size)),
        OutlineKind::RepeatedVertices => words(&repeated_vertices(random, few, size)),
        OutlineKind::Spur => words(&spur(random, few, size)),
        OutlineKind::WalkedTwice => words(&simple(random, few, size).repeat(2)),
        OutlineKind::WalkedThrice => words(&simple(random, few, size).repeat(3)),
        OutlineKind::ThereAndBack => words(&there_and_back(random, few, size)),
        OutlineKind::BowTieBetween => words(&bow_tie(random, size, true)),
        OutlineKind::BowTieWhole => words(&bow_tie(random, size, false)),
        OutlineKind::Flat => words(&flat(random, few, size)),
        OutlineKind::Zigzag => words(&zigzag(random, size)),
        OutlineKind::AtLimit => words(&at_limit(random, few, size)),
        OutlineKind::OverLimit => over_limit(random, few, size),
        OutlineKind::WrongLength => wrong_length(random, size),
    }
}

/// An outline of any kind and size.
pub fn any_outline(random: &mut Random) -> Vec<u16> {
    let kind = random.pick(&OutlineKind::ALL);
    let size = any_size(random);
    outline(random, kind, size)
}

/// A size, most of them small.
pub fn any_size(random: &mut Random) -> u16 {
    match random.index(32) {
        0 => 16_000,
        1 => random.word(100, 1_000),
        2..=5 => random.word(30, 100),
        _ => random.word(2, 12),
    }
}

/// An outline that passes questions 7 to 11 with the mask.
pub fn sound_outline(random: &mut Random, mask: u16, size: u16) -> Vec<u16> {
    for _ in 0..100 {
        let kind = random.pick(&OutlineKind::MOSTLY_SOUND);
        let outline = outline(random, kind, size);
        if is_sound(&outline, mask) {
            return outline;
        }
    }
    vec![0, 0, size, 0, size, size, 0, size]
}

/// Passes questions 7 to 11 with the mask.
pub fn is_sound(outline: &[u16], mask: u16) -> bool {
    outline.len().is_multiple_of(2)
        && (6..=128).contains(&outline.len())
        && ask_8_to_11(outline, turns_of_mask(mask), 1).is_ok()
}

pub(super) fn words(vertices: &[Vertex]) -> Vec<u16> {
    vertices
        .iter()
        .flat_map(|&(x, y)| [x, y])
        .map(|number| u16::try_from(number).expect("a coordinate fits in 16 bits"))
        .collect()
}

pub(super) fn random_vertex(random: &mut Random, size: i64) -> Vertex {
    (random.between(0, size), random.between(0, size))
}

fn random_vertices(random: &mut Random, count: usize, size: i64) -> Vec<Vertex> {
    (0..count).map(|_| random_vertex(random, size)).collect()
}

/// An axis-parallel rectangle, begun at any corner and walked either way.
fn rectangle(random: &mut Random, size: i64) -> Vec<Vertex> {
    let (left, bottom) = (random.between(0, size - 1), random.between(0, size - 1));
    let (right, top) = (
        random.between(left + 1, size),
        random.between(bottom + 1, size),
    );
    let mut corners = vec![(left, bottom), (right, bottom), (right, top), (left, top)];
    corners.rotate_left(random.index(4));
    if random.once_in(2) {
        corners.reverse();
    }
    corners
}

/// Random vertices sorted by their direction from one point.
fn star(random: &mut Random, count: usize, size: i64) -> Vec<Vertex> {
    let centre = random_vertex(random, size);
    let mut vertices = random_vertices(random, count, size);
    vertices.sort_by(|&a, &b| compare_directions(away(centre, a), away(centre, b)));
    vertices
}

fn away(centre: Vertex, vertex: Vertex) -> Vertex {
    (vertex.0 - centre.0, vertex.1 - centre.1)
}

/// Counter-clockwise from the positive x axis, then by distance.
fn compare_directions(a: Vertex, b: Vertex) -> Ordering {
    let lower_half = |v: Vertex| v.1 < 0 || (v.1 == 0 && v.0 < 0);
    let length = |v: Vertex| v.0 * v.0 + v.1 * v.1;
    lower_half(a)
        .cmp(&lower_half(b))
        .then((b.0 * a.1).cmp(&(a.0 * b.1)))
        .then(length(a).cmp(&length(b)))
}

/// A star or a rectangle.
pub(super) fn simple(random: &mut Random, count: usize, size: i64) -> Vec<Vertex> {
    if random.once_in(2) {
        rectangle(random, size)
    } else {
        star(random, count, size)
    }
}

fn lattice_walk(random: &mut Random, steps: usize, size: i64) -> Vec<Vertex> {
    let start = random_vertex(random, size);
    let mut walk = vec![start];
    let (mut x, mut y) = start;
    for _ in 0..steps {
        match random.index(3) {
            0 => x = random.between(0, size),
            1 => y = random.between(0, size),
            _ => {
                let step = random.between(-x.min(y), size - x.max(y));
                x += step;
                y += step;
            }
        }
        walk.push((x, y));
    }
    // Level to below or above the start; the closing edge is upright.
    walk.push((start.0, y));
    walk
}

pub(super) fn repeated_vertices(random: &mut Random, count: usize, size: i64) -> Vec<Vertex> {
    let mut vertices = Vec::new();
    for vertex in simple(random, count, size) {
        for _ in 0..random.between(1, 3) {
            vertices.push(vertex);
        }
    }
    vertices
}

fn spur(random: &mut Random, count: usize, size: i64) -> Vec<Vertex> {
    let mut vertices = simple(random, count, size);
    for _ in 0..random.between(1, 2) {
        let place = random.index(vertices.len());
        let root = vertices[place];
        let tip = match random.index(3) {
            0 => (root.0, random.between(0, size)),
            1 => (random.between(0, size), root.1),
            _ => random_vertex(random, size),
        };
        vertices.insert(place + 1, tip);
        vertices.insert(place + 2, root);
    }
    vertices
}

fn there_and_back(random: &mut Random, count: usize, size: i64) -> Vec<Vertex> {
    let there = random_vertices(random, count, size);
    let mut walk = there.clone();
    walk.extend(there[1..count - 1].iter().rev());
    walk
}

/// The edges cross in the middle of the width, which is odd or even.
fn bow_tie(random: &mut Random, size: i64, odd: bool) -> Vec<Vertex> {
    let most = if odd { (size - 1) / 2 } else { size / 2 };
    let half = random.between(if odd { 0 } else { 1 }, most);
    let width = 2 * half + i64::from(odd);
    let height = random.between(1, size);
    let (left, bottom) = (
        random.between(0, size - width),
        random.between(0, size - height),
    );
    let (right, top) = (left + width, bottom + height);
    vec![(left, bottom), (right, top), (right, bottom), (left, top)]
}

fn flat(random: &mut Random, count: usize, size: i64) -> Vec<Vertex> {
    let side = random.between(0, size);
    let direction = random.index(3);
    (0..count)
        .map(|_| {
            let along = random.between(0, size);
            match direction {
                0 => (along, side),
                1 => (side, along),
                _ => (along, along),
            }
        })
        .collect()
}

fn zigzag(random: &mut Random, size: i64) -> Vec<Vertex> {
    let levels = (size / 2).clamp(2, 32);
    let inset = random.between(1, (size / 4).max(1));
    zigzag_of(levels, size / levels, inset, size)
}

/// A band that goes to and fro between x = 0 and `width`, `step` higher each
/// time. One of 32 levels has 64 vertices. One side of the band goes up, with
/// its left vertices inset, the other comes down, with its right ones inset, so
/// that the two sides are parallel and nothing crosses, in any turn.
pub fn zigzag_of(levels: i64, step: i64, inset: i64, width: i64) -> Vec<Vertex> {
    let is_left = |level: i64| level % 2 == 0;
    let up = (0..levels).map(|level| {
        let x = if is_left(level) { inset } else { width };
        (x, level * step)
    });
    let down = (0..levels).rev().map(|level| {
        let x = if is_left(level) { 0 } else { width - inset };
        (x, level * step)
    });
    up.chain(down).collect()
}

fn at_limit(random: &mut Random, count: usize, size: i64) -> Vec<Vertex> {
    let vertices = simple(random, count, size);
    let most_x = vertices.iter().map(|vertex| vertex.0).max().unwrap_or(0);
    let most_y = vertices.iter().map(|vertex| vertex.1).max().unwrap_or(0);
    vertices
        .iter()
        .map(|&(x, y)| (x + 16_000 - most_x, y + 16_000 - most_y))
        .collect()
}

fn over_limit(random: &mut Random, count: usize, size: i64) -> Vec<u16> {
    let mut outline = words(&simple(random, count, size));
    let place = random.index(outline.len());
    outline[place] = match random.index(3) {
        0 => 16_001,
        1 => 65_535,
        _ => random.word(16_001, 65_535),
    };
    outline
}

fn wrong_length(random: &mut Random, size: i64) -> Vec<u16> {
    let length = random.pick(&[0, 1, 2, 3, 4, 5, 7, 9, 127, 129, 130, 131, 256]);
    (0..length).map(|_| random.word(0, size as u16)).collect()
}
