//! Times of cover per call beside those of a plain Rust version of the same job,
//! on the same outlines, in one run, without a gap and with one. Output buffers are
//! not cleared between calls.

use engine::{data, plain};
use reference::generate::{outline, OutlineKind, Random};
use std::hint::black_box;
use std::time::Instant;

type Cover = fn(&[u16], u16, u16, u16, &mut [u16]) -> Result<u32, reference::Refusal>;

/// Microseconds per call over all outlines and turns, in one round of some milliseconds.
fn round(cover: Cover, outlines: &[Vec<u16>], (r, g): (u16, u16), output: &mut [u16]) -> f64 {
    let start = Instant::now();
    let mut calls = 0;
    while start.elapsed().as_millis() < 10 {
        for words in outlines {
            for turn in 0..4 {
                let _ = black_box(cover(black_box(words), turn, r, g, output));
                calls += 1;
            }
        }
    }
    1e6 * start.elapsed().as_secs_f64() / f64::from(calls)
}

fn row(name: &str, outlines: &[Vec<u16>], r: u16, g: u16) {
    let mut output = vec![0; 200_000];
    let columns: u32 = outlines
        .iter()
        .map(|o| u32::from(*o.iter().step_by(2).max().unwrap_or(&0)).div_ceil(u32::from(r)))
        .sum::<u32>()
        / outlines.len() as u32;
    // The rounds of the two take turns, so that what else the machine does falls on both; the least of each counts.
    let (mut engine, mut plain) = (f64::MAX, f64::MAX);
    let (start, mut rounds) = (Instant::now(), 0);
    while rounds < 4 || (rounds < 25 && start.elapsed().as_millis() < 2_000) {
        engine = engine.min(round(engine::cover, outlines, (r, g), &mut output));
        plain = plain.min(round(plain::cover, outlines, (r, g), &mut output));
        rounds += 1;
    }
    println!("{name:34} R {r:3} gap {g:3}  columns {columns:4}  engine {engine:8.2} us  plain {plain:8.2} us  ratio {:.2}", engine / plain);
}

/// Star-shaped outlines of so many vertices, as wide as so many columns of R.
fn stars(vertices: usize, columns: u16, r: u16) -> Vec<Vec<u16>> {
    let mut random = Random::new(7);
    let mut found = Vec::new();
    while found.len() < 20 {
        let kind = if vertices == 64 {
            OutlineKind::FullStar
        } else {
            OutlineKind::Star
        };
        let words = outline(&mut random, kind, columns * r);
        let sound =
            (0..4).all(|turn| reference::cover(&words, turn, r, 0, &mut vec![0; 100_000]).is_ok());
        if sound && (vertices == 64 || words.len() / 2 >= vertices.min(8)) {
            found.push(words);
        }
    }
    found
}

fn main() {
    for r in [4, 40, 400] {
        row("few vertices, 40 columns", &stars(8, 40, r), r, 0);
    }
    row("64 vertices, 40 columns", &stars(64, 40, 40), 40, 0);
    let counties = data::outlines(data::NC_COUNTIES);
    let twelve: Vec<Vec<u16>> = counties
        .iter()
        .filter(|o| (20..=28).contains(&o.len()))
        .cloned()
        .collect();
    row("counties of 10 to 14 vertices", &twelve, 20, 0);
    row("all counties", &counties, 20, 0);
    row("all counties", &counties, 100, 0);
    row("countries", &data::outlines(data::NATURAL_EARTH), 4, 0);
    for r in [1, 4, 40, 400] {
        for g in [0, 40, 400] {
            row("counties of 10 to 14 vertices", &twelve, r, g);
        }
    }
}
