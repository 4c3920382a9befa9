//! What an outline draws twice: some outlines by hand, and many beside a plainer
//! way. An edge is walked from whole point to whole point; two edges share a
//! stretch if they have two of these points in common, since a stretch that two
//! edges share ends at vertices. The test of the reference program compares
//! products, and this walk has none.

mod common;
use common::*;
use reference::generate::{any_outline, stroke_outline, Random, StrokeKind};
use reference::outline::{turned, vertices, Vertex};
use reference::retrace::{drawn_twice, shared_by, EdgePair, Stretch};
use reference::{retrace, Refusal};
use std::collections::{BTreeMap, BTreeSet};

// The plainer way

fn greatest_common_divisor(a: i64, b: i64) -> i64 {
    if b == 0 {
        a.abs()
    } else {
        greatest_common_divisor(b, a % b)
    }
}

fn edges(outline: &[u16]) -> Vec<[Vertex; 2]> {
    let all = vertices(outline);
    (0..all.len())
        .map(|place| [all[place], all[(place + 1) % all.len()]])
        .collect()
}

/// The points of an edge whose coordinates are whole numbers of such parts of a
/// unit, by x and then by y.
fn points(edge: [Vertex; 2], parts: i64) -> BTreeSet<Vertex> {
    let [(x, y), (to_x, to_y)] = edge;
    let (far_x, far_y) = (parts * (to_x - x), parts * (to_y - y));
    let steps = greatest_common_divisor(far_x, far_y);
    let (dx, dy) = match steps {
        0 => (0, 0),
        steps => (far_x / steps, far_y / steps),
    };
    (0..=steps)
        .map(|step| (parts * x + step * dx, parts * y + step * dy))
        .collect()
}

/// From the first to the last of the points that two edges have in common, if
/// these are two.
fn common_stretch(e: [Vertex; 2], f: [Vertex; 2], parts: i64) -> Option<Stretch> {
    let both: Vec<Vertex> = points(e, parts)
        .intersection(&points(f, parts))
        .copied()
        .collect();
    (both.len() >= 2).then(|| (both[0], both[both.len() - 1]))
}

/// The first two edges with a common stretch, and the stretch.
fn plain_retrace(outline: &[u16], parts: i64) -> Option<(EdgePair, Stretch)> {
    let edges = edges(outline);
    for (i, &e) in edges.iter().enumerate() {
        for (j, &f) in edges.iter().enumerate().skip(i + 1) {
            if let Some(stretch) = common_stretch(e, f, parts) {
                return Some(((i as u16 + 1, j as u16 + 1), stretch));
            }
        }
    }
    None
}

/// The steps of an edge from one whole point to the next.
fn steps(edge: [Vertex; 2]) -> Vec<Stretch> {
    let points: Vec<Vertex> = points(edge, 1).into_iter().collect();
    points.windows(2).map(|two| (two[0], two[1])).collect()
}

/// The steps that two edges or more go along.
fn steps_drawn_twice(outline: &[u16]) -> BTreeSet<Stretch> {
    let mut times: BTreeMap<Stretch, u32> = BTreeMap::new();
    for step in edges(outline).into_iter().flat_map(steps) {
        *times.entry(step).or_default() += 1;
    }
    times.retain(|_, times| *times > 1);
    times.into_keys().collect()
}

/// The reference program against the plainer way, on an outline in the limits;
/// whether something is drawn twice.
fn check(outline: &[u16], parts: i64) -> bool {
    let pair = retrace(outline).expect("in the limits");
    let times = |(x, y): Vertex| (parts * x, parts * y);
    let stretch = pair.map(|pair| {
        let (from, to) = shared_by(outline, pair).expect("they share it");
        (pair, (times(from), times(to)))
    });
    assert_eq!(stretch, plain_retrace(outline, parts), "{outline:?}");
    let stretches = drawn_twice(&vertices(outline));
    let dashed = stretches.iter().flat_map(|&(from, to)| steps([from, to]));
    let dashed: BTreeSet<Stretch> = dashed.collect();
    assert_eq!(dashed, steps_drawn_twice(outline), "{outline:?}");
    assert_eq!(dashed.is_empty(), pair.is_none(), "{outline:?}");
    // A stretch for an edge at most, from one vertex to another that comes after it.
    assert!(stretches.len() <= outline.len() / 2);
    assert!(stretches.iter().all(|(from, to)| from < to));
    pair.is_some()
}

/// Every outline of so many vertices on a grid with so many points on a side.
fn every_outline(vertices: usize, side: u16, mut of: impl FnMut(&[u16])) {
    let points: Vec<[u16; 2]> = (0..side)
        .flat_map(|x| (0..side).map(move |y| [x, y]))
        .collect();
    for number in 0..points.len().pow(vertices as u32) {
        let mut rest = number;
        let mut outline = Vec::new();
        for _ in 0..vertices {
            outline.extend(points[rest % points.len()]);
            rest /= points.len();
        }
        of(&outline);
    }
}

#[test]
fn every_small_outline() {
    for (vertices, side) in [(3, 5), (4, 4), (5, 3)] {
        let mut came = [0; 2];
        every_outline(vertices, side, |outline| {
            came[usize::from(check(outline, 1))] += 1;
        });
        println!("{vertices} vertices: nothing, something twice {came:?}");
        assert!(came.iter().all(|&times| times > 2_000));
    }
}

/// Of each kind, with points at every part of a unit up to a sixth.
#[test]
fn outlines_of_each_kind() {
    for kind in StrokeKind::ALL {
        let mut came = [0; 2];
        for seed in 0..600 {
            let mut random = Random::new(seed);
            let most = random.pick(&[3, 6, 12, 40]);
            let size = random.word(3, most);
            let outline = stroke_outline(&mut random, kind, size);
            came[usize::from(check(&outline, 1 + seed as i64 % 6))] += 1;
        }
        println!("{kind:?}: nothing, something twice {came:?}");
        let (least_nothing, least_twice) = match kind {
            StrokeKind::Spur | StrokeKind::Bridge | StrokeKind::Doubled => (0, 500),
            StrokeKind::Partial | StrokeKind::Again => (0, 590),
            StrokeKind::Touching | StrokeKind::SideBySide => (200, 0),
            _ => (30, 200),
        };
        assert!(came[0] >= least_nothing && came[1] >= least_twice);
    }
}

/// Of any size, up to 16,000 units.
#[test]
fn outlines_of_any_size() {
    let mut came = [0; 2];
    for seed in 0..2_000 {
        let mut random = Random::new(seed);
        let outline = match random.index(3) {
            0 => any_outline(&mut random),
            1 => {
                let kind = random.pick(&StrokeKind::ALL);
                stroke_outline(&mut random, kind, 16_000)
            }
            _ => {
                let kind = random.pick(&StrokeKind::ALL);
                let size = random.word(3, 1_000);
                stroke_outline(&mut random, kind, size)
            }
        };
        if retrace(&outline).is_ok() {
            came[usize::from(check(&outline, 1))] += 1;
        }
    }
    println!("nothing, something twice {came:?}");
    assert!(came.iter().all(|&times| times > 500));
}

/// Whatever two edges share they share in each turn.
#[test]
fn turns_keep_it() {
    for seed in 0..3_000 {
        let mut random = Random::new(seed);
        let kind = random.pick(&StrokeKind::ALL);
        let size = random.word(3, 30);
        let outline = stroke_outline(&mut random, kind, size);
        let answer = retrace(&outline);
        for turn in 0..4 {
            let turned: Vec<u16> = turned(&vertices(&outline), turn)
                .into_iter()
                .flat_map(|(x, y)| [x as u16, y as u16])
                .collect();
            assert_eq!(retrace(&turned), answer, "{outline:?} in turn {turn}");
            check(&turned, 1);
        }
    }
}

// By hand

/// The first two edges that share a stretch, this stretch, and all that is drawn
/// twice, a stretch from the start of each edge that begins one.
fn shares(outline: &[u16], pair: EdgePair, stretch: Stretch, all: &[Stretch]) {
    assert_eq!(retrace(outline), Ok(Some(pair)), "{outline:?}");
    assert_eq!(shared_by(outline, pair), Some(stretch), "{outline:?}");
    assert_eq!(drawn_twice(&vertices(outline)), all, "{outline:?}");
}

fn shares_nothing(outline: &[u16]) {
    assert_eq!(retrace(outline), Ok(None), "{outline:?}");
    assert_eq!(drawn_twice(&vertices(outline)), [], "{outline:?}");
}

#[test]
fn nothing_twice() {
    shares_nothing(&S);
    shares_nothing(&T);
    shares_nothing(&CROSSED);
    shares_nothing(&sixty_four_vertices());
    // A side in three parts, which touch.
    shares_nothing(&[0, 0, 2, 0, 3, 0, 4, 0, 4, 4, 0, 4]);
    // A vertex said twice, and one said three times: edges without length.
    shares_nothing(&[0, 0, 0, 0, 4, 0, 4, 4, 4, 4, 4, 4]);
    // A point.
    shares_nothing(&[3, 3, 3, 3, 3, 3]);
    // Two squares that touch in a vertex, which the walk crosses.
    shares_nothing(&[0, 0, 2, 0, 2, 4, 4, 4, 4, 2, 0, 2]);
    // Two sides on one line with a gap between.
    shares_nothing(&[0, 0, 2, 0, 2, 1, 3, 1, 3, 0, 5, 0, 5, 4, 0, 4]);
}

#[test]
fn spurs() {
    let level = ((4, 4), (8, 4));
    shares(
        &[0, 0, 4, 0, 4, 4, 8, 4, 4, 4, 0, 4],
        (3, 4),
        level,
        &[level; 2],
    );
    // Up from where a side ends: the side only touches it.
    let up = ((4, 4), (4, 8));
    shares(&[0, 0, 4, 0, 4, 4, 4, 8, 4, 4, 0, 4], (3, 4), up, &[up; 2]);
    // Back down along that side: three edges, of which the side begins lower.
    let down = ((4, 1), (4, 4));
    shares(
        &[0, 0, 4, 0, 4, 4, 4, 1, 4, 4, 0, 4],
        (2, 3),
        down,
        &[down; 2],
    );
    // Slanted, and back to where the walk began: the last edge is one of them.
    let slanted = ((1, 0), (4, 6));
    shares(
        &[4, 6, 1, 0, 9, 0, 9, 9, 1, 0],
        (1, 5),
        slanted,
        &[slanted; 2],
    );
}

#[test]
fn parts_of_edges() {
    // 0 to 6, and 4 of them back: the first of the two begins outside what they share.
    let level = ((2, 0), (6, 0));
    shares(&[0, 0, 6, 0, 2, 0, 2, 4], (1, 2), level, &[level]);
    // Slanted, with other edges between.
    let slanted = ((4, 2), (6, 3));
    shares(
        &[0, 0, 6, 3, 6, 0, 4, 2, 8, 4, 0, 9],
        (1, 4),
        slanted,
        &[slanted],
    );
    // The same with a vertex one unit away.
    shares_nothing(&[0, 0, 6, 3, 6, 0, 4, 2, 8, 5, 0, 9]);
    // One edge within another.
    let within = ((0, 2), (0, 5));
    shares(
        &[0, 0, 0, 9, 3, 5, 0, 5, 0, 2, 3, 2],
        (1, 4),
        within,
        &[within],
    );
    // Of two that share something with the first edge, the lesser number counts; of pairs, the lesser first edge.
    let half = ((0, 0), (4, 2));
    let rest = ((4, 2), (8, 4));
    shares(
        &[0, 0, 4, 2, 8, 4, 4, 2],
        (1, 4),
        half,
        &[half, rest, rest, half],
    );
}

#[test]
fn a_bridge_between_two_squares() {
    let bridge = ((2, 0), (4, 0));
    shares(
        &[0, 0, 2, 0, 4, 0, 6, 0, 6, 2, 4, 2, 4, 0, 2, 0, 2, 2, 0, 2],
        (2, 7),
        bridge,
        &[bridge; 2],
    );
}

#[test]
fn walked_twice() {
    let sides = [
        ((0, 0), (4, 0)),
        ((4, 0), (4, 4)),
        ((0, 4), (4, 4)),
        ((0, 0), (0, 4)),
    ];
    shares(&S.repeat(2), (1, 5), sides[0], &sides.repeat(2));
}

/// 7 and 8 are asked as of any outline that is lent, and 7 first.
#[test]
fn refusals() {
    let refused = |outline: &[u16], refusal: Refusal| {
        assert_eq!(retrace(outline), Err(refusal), "{outline:?}");
    };
    for length in (0..=5).chain([7, 9, 127, 129, 130, 200]) {
        refused(&vec![1; length], no(7, 1));
        refused(&vec![16_001; length], no(7, 1));
    }
    refused(&FAR, no(8, 1));
    for place in 0..8 {
        let mut outline = S;
        outline[place] = 16_001;
        refused(&outline, no(8, 1));
        outline[place] = 65_535;
        refused(&outline, no(8, 1));
        outline[place] = 16_000;
        assert!(retrace(&outline).is_ok());
    }
    assert_eq!(retrace(&[1; 6]), Ok(None));
    assert_eq!(retrace(&[1; 128]), Ok(None));
}
