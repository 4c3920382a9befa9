//! Bytes of a path read and written per second, beside a plain Rust version of the
//! same job with floats and beside the reference program, on the same paths, in one
//! run.

use engine::plain_path;
use reference::generate::paths::{any_vertices, bits_of_units, path_of, STEP};
use reference::generate::Random;
use std::hint::black_box;
use std::time::Instant;

/// Bytes per microsecond in one round: a millisecond or two.
fn round(call: &mut dyn FnMut(), bytes: usize) -> f64 {
    let start = Instant::now();
    let mut done = 0;
    while start.elapsed().as_millis() < 2 {
        for _ in 0..100 {
            call();
        }
        done += 100 * bytes;
    }
    done as f64 / (1e6 * start.elapsed().as_secs_f64())
}

/// The rounds take turns, so that what else the machine does falls on all; the
/// best of each counts.
fn row(name: &str, bytes: usize, calls: [&mut dyn FnMut(); 3]) {
    let [engine, plain, reference] = calls;
    let mut best = [0.0_f64; 3];
    for _ in 0..80 {
        best[0] = best[0].max(round(engine, bytes));
        best[1] = best[1].max(round(plain, bytes));
        best[2] = best[2].max(round(reference, bytes));
    }
    let [engine, plain, reference] = best;
    println!(
        "{name:42} {bytes:5} bytes  engine {engine:7.1} MB/s  plain {plain:7.1} MB/s  ratio {:.2}  reference {reference:7.2} MB/s  ratio {:.3}",
        plain / engine,
        reference / engine,
    );
}

/// A path read, and its outline written.
fn rows(name: &str, outline: &[u16]) {
    let pairs = outline.chunks_exact(2);
    let points: Vec<[u32; 2]> = pairs
        .map(|pair| [pair[0], pair[1]].map(bits_of_units))
        .collect();
    let path = path_of(&points);
    assert_eq!(path.len(), STEP * points.len() + 1);
    let mut words = [0; 3].map(|_| vec![0; outline.len()]);
    let [ours, plain, theirs] = &mut words;
    row(
        &format!("read {name}"),
        path.len(),
        [
            &mut || assert!(engine::read_path(black_box(&path), ours).is_ok()),
            &mut || assert!(plain_path::read(black_box(&path), plain).is_ok()),
            &mut || assert!(reference::read_path(black_box(&path), theirs).is_ok()),
        ],
    );
    assert!(words.iter().all(|read| *read == outline));
    let mut bytes = [0; 3].map(|_| vec![0; path.len()]);
    let [ours, plain, theirs] = &mut bytes;
    row(
        &format!("write {name}"),
        path.len(),
        [
            &mut || assert!(engine::write_path(black_box(outline), ours).is_ok()),
            &mut || assert!(plain_path::write(black_box(outline), plain).is_ok()),
            &mut || assert!(reference::write_path(black_box(outline), theirs).is_ok()),
        ],
    );
    assert!(bytes.iter().all(|written| *written == path));
}

fn main() {
    let mut random = Random::new(61);
    rows("a triangle", &any_vertices(&mut random, 3));
    rows("64 vertices", &any_vertices(&mut random, 64));
    rows("64 vertices at 0", &[0; 128]);
}
