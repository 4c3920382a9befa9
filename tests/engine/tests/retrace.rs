//! Retrace against the reference program: the two edges or the refusal, on each
//! outline directly before and directly after a page that cannot be read. An
//! outline is also lent in each turn: the edges that share a stretch stay the same.

use engine::data;
use engine::guard::{End, Room};
use reference::generate::{
    any_outline, any_size, outline, stroke_outline, OutlineKind, Random, StrokeKind,
};
use reference::outline::{turned, vertices};
use reference::retrace::EdgePair;
use reference::Refusal;

/// The engine beside the reference program, on one outline after another.
struct Both {
    room: Room,
    outlines: u32,
    /// How often nothing was drawn twice, and something.
    answers: [u32; 2],
    /// How often each number came.
    numbers: [u32; 9],
    /// Of two edges: the one follows the other, the last edge is one of them, and
    /// neither.
    pairs: [u32; 3],
}

impl Both {
    fn new() -> Both {
        Both {
            room: Room::new(1_000),
            outlines: 0,
            answers: [0; 2],
            numbers: [0; 9],
            pairs: [0; 3],
        }
    }

    fn retrace(&mut self, outline: &[u16]) -> Result<Option<EdgePair>, Refusal> {
        let answer = reference::retrace(outline);
        for end in [End::Before, End::After] {
            let lent = self.room.lend_at(end, outline);
            assert_eq!(engine::retrace(lent), answer, "{outline:?}");
            assert!(*lent == *outline, "written to: {outline:?}");
            assert!(self.room.kept_at(end, outline.len()), "{outline:?}");
        }
        self.outlines += 1;
        match answer {
            Err(refusal) => self.numbers[usize::from(refusal.number)] += 1,
            Ok(None) => self.answers[0] += 1,
            Ok(Some((first, second))) => {
                self.answers[1] += 1;
                let edges = outline.len() / 2;
                let kind = if first + 1 == second {
                    0
                } else if usize::from(second) == edges {
                    1
                } else {
                    2
                };
                self.pairs[kind] += 1;
            }
        }
        answer
    }

    /// In each turn: an outline in the limits stays so, and the answer is the same.
    fn retrace_in_each_turn(&mut self, outline: &[u16]) {
        let answer = self.retrace(outline);
        if answer.is_err() {
            return;
        }
        for turn in 0..4 {
            let words: Vec<u16> = turned(&vertices(outline), turn)
                .into_iter()
                .flat_map(|(x, y)| [x as u16, y as u16])
                .collect();
            assert_eq!(self.retrace(&words), answer, "{outline:?} in turn {turn}");
        }
    }

    /// Each answer and each kind of pair came at least so often, and these numbers.
    fn came(&self, least: u32, numbers: &[usize]) {
        println!(
            "outlines {}: nothing, something twice {:?}, pairs {:?}, numbers {:?}",
            self.outlines, self.answers, self.pairs, self.numbers
        );
        let refusals = numbers.iter().map(|&number| self.numbers[number]);
        let all = self.answers.into_iter().chain(self.pairs).chain(refusals);
        for times in all {
            assert!(times >= least, "one came {times} times");
        }
    }
}

/// A size from the least that an outline takes to the greatest.
fn some_size(random: &mut Random) -> u16 {
    match random.index(8) {
        0 => 16_000,
        1 => random.word(15_900, 16_000),
        2 => random.word(1_000, 16_000),
        3 => random.word(30, 1_000),
        _ => random.word(3, 12),
    }
}

/// The outline with a coordinate over 16,000, or without its last words, or with
/// words more.
fn damaged(random: &mut Random, mut outline: Vec<u16>) -> Vec<u16> {
    match random.index(4) {
        0 => outline.truncate(random.index(outline.len())),
        1 => {
            let more = random.between(1, 140);
            outline.extend((0..more).map(|_| random.word(0, 9)));
        }
        _ => {
            let place = random.index(outline.len());
            outline[place] = random.pick(&[16_001, 16_001, 16_384, 32_768, 65_535]);
        }
    }
    outline
}

/// Each kind of outline with something drawn twice or nearly, of any size, in each
/// turn; then damaged.
#[test]
fn outlines_that_draw_something_twice() {
    let mut both = Both::new();
    let mut random = Random::new(401);
    for kind in StrokeKind::ALL {
        for _ in 0..10_000 {
            let size = some_size(&mut random);
            let outline = stroke_outline(&mut random, kind, size);
            both.retrace_in_each_turn(&outline);
            both.retrace(&damaged(&mut random, outline)).ok();
        }
    }
    both.came(20_000, &[7, 8]);
}

/// Outlines of every kind that the other calls are tried with.
#[test]
fn outlines_of_every_kind() {
    let mut both = Both::new();
    let mut random = Random::new(402);
    for kind in OutlineKind::ALL {
        for _ in 0..600 {
            let size = any_size(&mut random);
            both.retrace_in_each_turn(&outline(&mut random, kind, size));
        }
    }
    both.came(500, &[7, 8]);
}

/// Every outline of four vertices on a grid of 16 points, and of five on one of 9.
#[test]
fn every_small_outline() {
    let mut both = Both::new();
    for (count, side) in [(4, 4), (5, 3)] {
        let points = side * side;
        for number in 0..u32::pow(points, count) {
            let place = |vertex: u32| number / u32::pow(points, vertex) % points;
            let outline: Vec<u16> = (0..count)
                .flat_map(|vertex| [place(vertex) / side, place(vertex) % side])
                .map(|number| number as u16)
                .collect();
            both.retrace(&outline).expect("in the limits");
        }
    }
    assert_eq!(both.outlines, 16 * 16 * 16 * 16 + 9 * 9 * 9 * 9 * 9);
    both.came(3_000, &[]);
}

/// Every length from 0 to 200 words: with words in the limits, with one word over
/// 16,000 anywhere, and with any words.
#[test]
fn every_length() {
    let mut both = Both::new();
    let mut random = Random::new(403);
    for length in 0..=200 {
        for round in 0..40 {
            let most = random.pick(&[1, 3, 9, 100, 16_000]);
            let mut words: Vec<u16> = (0..length).map(|_| random.word(0, most)).collect();
            both.retrace(&words).ok();
            if length > 0 {
                let place = random.index(length);
                words[place] = random.pick(&[16_001, 65_535]);
                both.retrace(&words).ok();
            }
            if round % 8 == 0 {
                let words: Vec<u16> = (0..length).map(|_| random.word(0, 65_535)).collect();
                both.retrace(&words).ok();
                both.retrace(&vec![random.word(0, 16_002); length]).ok();
            }
        }
    }
    both.came(10, &[7, 8]);
}

/// Any two edges of 4 to 64 as the first that share a stretch; then with others after
/// them that do.
#[test]
fn every_two_edges() {
    let mut both = Both::new();
    for count in [4, 5, 17, 63, 64] {
        for first in 0..count {
            for second in first + 1..count {
                let mut vertices = with_shared(count, first, second);
                let pair = (first as u16 + 1, second as u16 + 1);
                let outline = vertices.concat();
                assert_eq!(both.retrace(&outline), Ok(Some(pair)), "{outline:?}");
                for place in second + 2..count {
                    vertices[place] = vertices[place % 3];
                }
                both.retrace(&vertices.concat()).expect("in the limits");
            }
        }
    }
    println!("outlines {}, pairs {:?}", both.outlines, both.pairs);
    assert!(both.answers[1] == both.outlines && both.outlines > 8_000);
}

/// So many vertices on a curve where no three are on a line, but that the ends of edge
/// `second` are moved so that it shares a stretch with edge `first`, and no edge before
/// it does. Edges are counted from 0.
fn with_shared(count: usize, first: usize, second: usize) -> Vec<[u16; 2]> {
    let on_curve = |k: usize| [4 * k as u16, 2 * (k * k) as u16];
    let mut vertices: Vec<[u16; 2]> = (0..count).map(on_curve).collect();
    let after = (second + 1) % count;
    let (from, to) = (vertices[first], vertices[first + 1]);
    let middle = [from[0].midpoint(to[0]), from[1].midpoint(to[1])];
    if second == first + 1 {
        vertices[after] = middle;
    } else if after == first {
        // The first edge begins where the last one ends: that one begins beyond its end.
        vertices[second] = [2 * to[0] - from[0], 2 * to[1] - from[1]];
    } else if after + 1 == first {
        // The edge between has no length.
        (vertices[second], vertices[after]) = (to, from);
    } else {
        (vertices[second], vertices[after]) = (to, middle);
    }
    vertices
}

#[test]
fn public_outlines() {
    let mut both = Both::new();
    for outline in data::all() {
        both.retrace_in_each_turn(&outline);
    }
    println!("nothing, something twice {:?}", both.answers);
    assert!(both.outlines > 500);
}

#[test]
fn outlines_of_any_size() {
    let mut both = Both::new();
    let mut random = Random::new(404);
    for _ in 0..5_000 {
        both.retrace_in_each_turn(&any_outline(&mut random));
    }
    both.came(100, &[7, 8]);
}
