//! Times per call of question 5 with the runs read from the strip, of a strip
//! written anew and of open, beside those of a plain Rust version of the same job
//! on the same strips, in one run. About half the records are in use.

use engine::plain_strip;
use reference::generate::{strip_with, Random, StripFigures};
use reference::strip::{put_runs, Stretch};
use std::hint::black_box;
use std::time::Instant;

const WIDTH: u16 = 8_000;
const RESOLUTION: u16 = 20;

/// Runs for half of the records, each in some column, one above the other.
fn half_full(random: &mut Random, n: u16, q: usize) -> Vec<Vec<Stretch>> {
    let mut columns = vec![Vec::new(); usize::from(n)];
    for _ in 0..q / 2 {
        let column: &mut Vec<Stretch> = &mut columns[random.index(usize::from(n))];
        let low = column.last().map_or(0, |run| run.1) + random.word(1, 200);
        column.push((low, low + random.word(1, 300)));
    }
    columns
}

/// Some strips, with their records in order or numbered at random.
fn strips(n: u16, q: usize, shuffled: bool) -> Vec<Vec<u16>> {
    let mut random = Random::new(31);
    (0..4)
        .map(|_| {
            let runs = half_full(&mut random, n, q);
            let figures = StripFigures {
                w: WIDTH,
                r: RESOLUTION,
                n,
                g: 0,
                q,
            };
            let mut strip = strip_with(&mut random, figures, &runs);
            if !shuffled {
                put_runs(&mut strip, WIDTH, RESOLUTION, n, 0, &runs);
            }
            assert!(reference::well_formed(&strip));
            strip
        })
        .collect()
}

/// Microseconds per call over all strips, in one round of some milliseconds.
fn round(call: &mut dyn FnMut(&[u16]), strips: &[Vec<u16>]) -> f64 {
    let start = Instant::now();
    let mut calls = 0;
    while start.elapsed().as_millis() < 10 {
        for strip in strips {
            call(black_box(strip));
            calls += 1;
        }
    }
    1e6 * start.elapsed().as_secs_f64() / f64::from(calls)
}

/// The rounds of the two take turns, so that what else the machine does falls on
/// both; the least of each counts.
fn row(
    name: &str,
    strips: &[Vec<u16>],
    engine: &mut dyn FnMut(&[u16]),
    plain: &mut dyn FnMut(&[u16]),
) {
    let (mut least_engine, mut least_plain) = (f64::MAX, f64::MAX);
    for _ in 0..25 {
        least_engine = least_engine.min(round(engine, strips));
        least_plain = least_plain.min(round(plain, strips));
    }
    println!(
        "{name:50} engine {least_engine:8.2} us  plain {least_plain:8.2} us  ratio {:.2}",
        least_engine / least_plain
    );
}

fn rows(n: u16, q: usize, shuffled: bool) {
    let strips = strips(n, q, shuffled);
    let order = if shuffled { "shuffled" } else { "in order" };
    let name = |what: &str| format!("{what}, N {n} Q {q}, {order}");
    for strip in &strips {
        let runs = plain_strip::decode(strip).map(|table| table.count() as u32);
        assert_eq!(engine::decoded(strip), runs);
    }
    row(
        &name("question 5 and runs"),
        &strips,
        &mut |strip| {
            black_box(engine::decoded(strip));
        },
        &mut |strip| {
            black_box(plain_strip::decode(strip));
        },
    );
    // Both times have the copy in them that puts the strip back in its order.
    let (mut ours, mut theirs) = (strips[0].clone(), strips[0].clone());
    row(
        &name("copied and written anew"),
        &strips,
        &mut |strip| {
            ours.copy_from_slice(strip);
            assert!(engine::rewrite(&mut ours).is_ok());
        },
        &mut |strip| {
            theirs.copy_from_slice(strip);
            assert!(plain_strip::rewrite(&mut theirs));
        },
    );
    for strip in &strips {
        ours.copy_from_slice(strip);
        theirs.copy_from_slice(strip);
        assert!(engine::rewrite(&mut ours).is_ok() && plain_strip::rewrite(&mut theirs));
        assert!(ours == theirs);
    }
}

fn open_row(n: u16, q: usize) {
    let strips = strips(n, q, false);
    let (mut ours, mut theirs) = (strips[0].clone(), strips[0].clone());
    row(
        &format!("open, N {n} Q {q}"),
        &strips,
        &mut |_| assert!(engine::open(WIDTH, RESOLUTION, n, 0, &mut ours).is_ok()),
        &mut |_| assert!(plain_strip::open(WIDTH, RESOLUTION, n, 0, &mut theirs)),
    );
    assert!(ours == theirs);
}

fn main() {
    for (n, q) in [(1_000, 4_000), (4_096, 16_000)] {
        rows(n, q, false);
        rows(n, q, true);
        open_row(n, q);
    }
}
