//! "Two points inside different pieces must then differ by at least g in x or in y":
//! lists of calls judged by the edges of what is placed, without cells. The judge is
//! exact; it is tried on points, on rectangles and on triangles first.

mod common;
use common::cells::opened_as;
use common::*;
use reference::distance::{too_close, Shape};
use reference::generate::{
    job, small_gap, sound_outline, Call, MixedList, OutlineKind, Random, StripFigures,
};
use reference::generate::{outline, outlines::is_sound};
use reference::outline::{extent, inside, turned, vertices};
use reference::Position;

fn shape(outline: &[u16], turn: u16, column: u16, height: u16) -> Shape {
    Shape::new(outline, at(turn, column, height), 1)
}

// ----------------------------------------------------------------- the judge

/// A shape holds the points that are inside, but for those at a whole x.
#[test]
fn a_shape_holds_what_is_inside() {
    let mut random = Random::new(1);
    let mut held = [0; 2];
    for _ in 0..1_500 {
        let kind = random.pick(&OutlineKind::ALL[..16]);
        let size = random.word(2, 12);
        let words = outline(&mut random, kind, size);
        let turn = random.word(0, 3);
        if !is_sound(&words, 1 << turn) {
            continue;
        }
        let shape = Shape::new(&words, at(turn, 0, 0), 1);
        let outline = turned(&vertices(&words), turn);
        let (w, h) = extent(&outline);
        for _ in 0..100 {
            let d = random.between(2, 30);
            let (p, q) = (random.between(0, w * d), random.between(0, h * d));
            if p % d == 0 {
                continue;
            }
            let is_inside = inside(&outline, p.into(), q.into(), d.into());
            assert_eq!(shape.holds(p, q, d), is_inside, "{words:?} {p} {q} {d}");
            held[usize::from(is_inside)] += 1;
        }
    }
    assert!(held.iter().all(|&times| times > 20_000), "{held:?}");
}

/// Two boxes are too close when they are less than g apart both ways.
#[test]
fn boxes() {
    let (a, b) = (rectangle(3, 2), rectangle(2, 4));
    let first = shape(&a, 0, 10, 10);
    for column in 0..22 {
        for height in 0..22 {
            let second = shape(&b, 0, column, height);
            let (column, height) = (i32::from(column), i32::from(height));
            let x = (column - 13).max(10 - (column + 2));
            let y = (height - 12).max(10 - (height + 4));
            for g in 0..8 {
                let expected = x.max(y) < i32::from(g);
                assert_eq!(
                    too_close(&first, &second, g),
                    expected,
                    "{column} {height} {g}"
                );
                assert_eq!(too_close(&second, &first, g), expected);
            }
        }
    }
}

/// Slopes: a triangle over another along their long sides, and two that meet with
/// their tips.
#[test]
fn triangles() {
    // (0,0) (8,0) (0,8), and above it (8,0) (8,8) (0,8), moved right by d: their
    // sides are d apart in x or in y, d/2 in both at once.
    let (lower, upper) = ([0, 0, 8, 0, 0, 8], [8, 0, 8, 8, 0, 8]);
    for d in 0..10 {
        let (a, b) = (shape(&lower, 0, 0, 0), shape(&upper, 0, d, 0));
        for g in 0..12 {
            // Points (x, 8 − x) and (x + d/2, 8 − x + d/2) are nearest.
            assert_eq!(too_close(&a, &b, g), 2 * g > d, "{d} {g}");
        }
    }
    // A tip that ends at (4, 3) on the left of one that begins at (4 + d, 3).
    let (left, right) = ([0, 0, 4, 3, 0, 6], [4, 0, 4, 6, 0, 3]);
    for d in 0..6 {
        let (a, b) = (shape(&left, 0, 0, 0), shape(&right, 0, 4 + d, 0));
        for g in 0..8 {
            assert_eq!(too_close(&a, &b, g), g > d, "{d} {g}");
        }
    }
}

/// The points of a shape at x and y in parts of 1/d, x not whole.
fn points(outline: &[u16], position: Position, d: i64) -> Vec<(i64, i64)> {
    let shape = Shape::new(outline, position, 1);
    let (w, h) = extent(&turned(&vertices(outline), position.turn));
    let (right, up) = (i64::from(position.column), i64::from(position.height));
    let all =
        (right * d..(right + w) * d).flat_map(|p| (up * d..(up + h) * d).map(move |q| (p, q)));
    all.filter(|&(p, q)| p % d != 0 && shape.holds(p, q, d))
        .collect()
}

/// Where two points are seen to be too close the judge says so, and where it says so
/// two points are most often seen.
#[test]
fn points_that_are_too_close() {
    let (d, mut seen) = (6, [0; 2]);
    for seed in 0..800 {
        let mut random = Random::new(seed);
        let (a, b) = (
            sound_outline(&mut random, 15, 4),
            sound_outline(&mut random, 15, 4),
        );
        let (left, right) = (
            at(random.word(0, 3), 4, 4),
            at(random.word(0, 3), random.word(0, 9), random.word(0, 9)),
        );
        let g = random.word(0, 4);
        let judged = too_close(&Shape::new(&a, left, 1), &Shape::new(&b, right, 1), g);
        let (first, second) = (points(&a, left, d), points(&b, right, d));
        // Two points of the grid that are one count for g = 0.
        let near = |one: i64, other: i64| (one - other).abs() < (i64::from(g) * d).max(1);
        let close = first
            .iter()
            .any(|p| second.iter().any(|q| near(p.0, q.0) && near(p.1, q.1)));
        assert!(judged || !close, "{a:?} {left:?} {b:?} {right:?} {g}");
        if judged {
            seen[usize::from(close)] += 1;
        }
    }
    println!("judged too close: not seen, seen {seen:?}");
    assert!(seen[1] > 200 && seen[0] * 20 < seen[1], "{seen:?}");
}

// --------------------------------------------------------------------- lists

/// The pairs of placed pieces: none too close for g, some for one unit more.
struct Judged {
    r: u16,
    g: u16,
    shapes: Vec<Shape>,
    pairs: usize,
    tight: usize,
}

impl Judged {
    fn new(r: u16, g: u16) -> Judged {
        Judged {
            r,
            g,
            shapes: Vec::new(),
            pairs: 0,
            tight: 0,
        }
    }

    fn put(&mut self, outline: &[u16], position: Position) {
        let g = self.g;
        let shape = Shape::new(outline, position, self.r);
        for other in &self.shapes {
            assert!(!too_close(&shape, other, g), "{outline:?} {position:?} {g}");
            self.pairs += 1;
            self.tight += usize::from(too_close(&shape, other, g + 1));
        }
        self.shapes.push(shape);
    }

    /// One call of a list.
    fn next(&mut self, list: &mut MixedList, strip: &mut [u16], call: Call) {
        match call {
            Call::Ask(call) => {
                let answer = check_ask(strip, &call.outline, call.mask, call.work);
                if let Ok(position) = answer {
                    list.found(&call, position);
                }
            }
            Call::Place(call) => {
                let answer = check_place(strip, &call.outline, call.mask, call.work);
                if let Ok(position) = answer {
                    self.put(&call.outline, position);
                }
            }
            Call::Commit(call) => {
                let (outline, position) = (&call.outline, call.position);
                if check_commit(strip, outline, position, call.work).is_ok() {
                    self.put(outline, position);
                }
            }
        }
    }
}

/// "No point may lie inside two pieces after any list", and with a gap they keep it.
#[test]
fn pieces_of_lists_keep_their_distance() {
    let (mut pairs, mut tight) = ([0; 2], [0; 2]);
    for seed in 0..2_000 {
        let mut random = Random::new(seed);
        let r = random.word(1, 5);
        let figures = StripFigures {
            w: random.word(4, 40),
            r,
            n: random.word(2, 24),
            g: small_gap(&mut random, r),
            q: random.between(20, 200) as usize,
        };
        let mut strip = opened_as(figures);
        let mut list = MixedList::new(&mut random, 8);
        let mut judged = Judged::new(r, figures.g);
        for _ in 0..random.between(1, 25) {
            let call = list.next_call(&mut random, &strip);
            judged.next(&mut list, &mut strip, call);
        }
        let with_gap = usize::from(figures.g > 0);
        pairs[with_gap] += judged.pairs;
        tight[with_gap] += judged.tight;
    }
    println!("pairs without a gap, with one: {pairs:?}; tight {tight:?}");
    assert!(pairs.iter().all(|&times| times > 2_000), "{pairs:?}");
    assert!(tight.iter().all(|&times| times > 300), "{tight:?}");
}

#[test]
fn pieces_of_jobs_keep_their_distance() {
    let (mut pairs, mut tight) = (0, 0);
    for seed in 0..600 {
        let mut random = Random::new(50_000 + seed);
        let job = job(&mut random);
        let r = job.figures.resolution;
        let g = small_gap(&mut random, r);
        let room = [strip_length(job.figures.columns, 300), 40, 9_000];
        let laid = check_lay_with_gap(&job.sheet(), g, room).unwrap();
        let mut judged = Judged::new(r, g);
        for (piece, entry) in job.pieces.iter().zip(laid.output.chunks_exact(4)) {
            if entry[0] == 0 {
                let position = at(entry[1], entry[2], entry[3]);
                judged.put(&piece.outline, position);
            }
        }
        pairs += judged.pairs;
        tight += judged.tight;
    }
    println!("pairs {pairs}, tight {tight}");
    assert!(pairs > 1_000 && tight > 300, "{pairs} {tight}");
}
