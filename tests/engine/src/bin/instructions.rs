//! Calls on 50 public outlines, for `tests/instructions`, which counts what the
//! engine's functions take of them.
//!
//!     instructions CALL R MASK GAP    CALL is cover, place, ask, commit or lay
//!
//! Ask and commit stand for the same list of calls: each piece is asked for, and
//! committed where it would go.

use engine::data;
use reference::figures::Piece;
use reference::generate::Job;
use reference::Figures;

const WIDTH: u16 = 8_000;
/// As many words as the program `lay` has.
const WORK: usize = 9_000;

/// Columns and records that are enough for the pieces, as in the benchmarks.
fn room(r: u16) -> (u16, usize) {
    match r {
        100 => (300, 4_000),
        20 => (1_500, 16_000),
        _ => panic!("R is 100 or 20"),
    }
}

fn cover_all(outlines: &[Vec<u16>], r: u16, mask: u16, g: u16) {
    let mut output = vec![0; WORK];
    for outline in outlines {
        for turn in (0..4).filter(|turn| mask >> turn & 1 == 1) {
            assert!(engine::cover(outline, turn, r, g, &mut output).is_ok());
        }
    }
}

/// A strip just opened.
fn opened(r: u16, g: u16) -> Vec<u16> {
    let (n, q) = room(r);
    let mut strip = vec![0; 5 + usize::from(n) + 4 * q];
    assert!(engine::open(WIDTH, r, n, g, &mut strip).is_ok());
    strip
}

fn place_all(outlines: &[Vec<u16>], r: u16, mask: u16, g: u16) {
    let (mut strip, mut work) = (opened(r, g), vec![0; WORK]);
    for outline in outlines {
        let tried = engine::place(&mut strip, outline, mask, &mut work);
        assert!(tried.answer.is_ok());
    }
}

fn ask_and_commit_all(outlines: &[Vec<u16>], r: u16, mask: u16, g: u16) {
    let (mut strip, mut work) = (opened(r, g), vec![0; WORK]);
    for outline in outlines {
        let tried = engine::ask(&strip, outline, mask, &mut work);
        let position = tried.answer.expect("room");
        assert!(engine::commit(&mut strip, outline, position, &mut work).is_ok());
    }
}

fn lay_all(outlines: &[Vec<u16>], r: u16, mask: u16, g: u16) {
    let (columns, q) = room(r);
    let outlines = outlines.iter().cloned();
    let job = Job {
        figures: Figures {
            width: WIDTH,
            resolution: r,
            columns,
        },
        pieces: outlines.map(|outline| Piece { outline, mask }).collect(),
    };
    let mut strip = vec![0; 5 + usize::from(columns) + 4 * q];
    let mut output = vec![0; 4 * job.pieces.len()];
    let totals = engine::lay(&job.sheet(), g, &mut strip, &mut output, &mut vec![0; WORK]);
    assert!(totals.is_ok_and(|totals| usize::from(totals.placed) == job.pieces.len()));
}

fn main() {
    let arguments: Vec<String> = std::env::args().skip(1).collect();
    let [call, r, mask, g] = &arguments[..] else {
        panic!("instructions CALL R MASK GAP");
    };
    let (r, mask) = (r.parse().expect("R"), mask.parse().expect("a mask"));
    let g = g.parse().expect("a gap");
    let outlines = data::sound_outlines(data::NC_COUNTIES, 1, 50);
    match call.as_str() {
        "cover" => cover_all(&outlines, r, mask, g),
        "place" => place_all(&outlines, r, mask, g),
        "ask" | "commit" => ask_and_commit_all(&outlines, r, mask, g),
        "lay" => lay_all(&outlines, r, mask, g),
        _ => panic!("no call is called {call}"),
    }
}
