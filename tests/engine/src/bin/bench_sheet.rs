//! Bytes of a sheet read and written per second, beside a plain Rust version of
//! the same job and beside the reference program, on the same sheets, in one run.
//! Read and write ask of each piece what place asks, and that takes their time.

use engine::{data, plain_sheet};
use reference::figures::Piece;
use reference::generate::{Random, SheetPlan};
use reference::sheet::list_words;
use reference::Figures;
use std::hint::black_box;
use std::time::Instant;

const FIGURES: Figures = Figures {
    width: 8_000,
    resolution: 20,
    columns: 1_000,
};
/// The records of the longest sheet.
const MOST_RECORDS: usize = 10_920;

/// Bytes per microsecond in one round: a millisecond or two, or one call.
fn round(call: &mut dyn FnMut(), bytes: usize) -> f64 {
    let start = Instant::now();
    let mut done = 0;
    while done == 0 || start.elapsed().as_millis() < 2 {
        call();
        done += bytes;
    }
    done as f64 / (1e6 * start.elapsed().as_secs_f64())
}

/// The rounds take turns, so that what else the machine does falls on all; the
/// best of each counts. The reference program is slow and has fewer rounds.
fn row(name: &str, bytes: usize, calls: [&mut dyn FnMut(); 3]) {
    let [engine, plain, reference] = calls;
    let mut best = [0.0_f64; 3];
    for turn in 0..80 {
        best[0] = best[0].max(round(engine, bytes));
        best[1] = best[1].max(round(plain, bytes));
        if turn % 4 == 0 {
            best[2] = best[2].max(round(reference, bytes));
        }
    }
    let [engine, plain, reference] = best;
    println!(
        "{name:42} {bytes:5} bytes  engine {engine:7.3} MB/s  plain {plain:7.3} MB/s  ratio {:.2}  reference {reference:8.4} MB/s  ratio {:.3}",
        plain / engine,
        reference / engine,
    );
}

/// A job's sheet, read, and its list, written.
fn rows(name: &str, pieces: &[Piece], shuffled: bool) {
    let sheet = match shuffled {
        false => SheetPlan::in_order(FIGURES, pieces),
        true => SheetPlan::shuffled(&mut Random::new(51), FIGURES, pieces, false),
    }
    .bytes();
    let list = list_words(pieces);
    let mut words = [0; 3].map(|_| vec![0; list.len()]);
    let [ours, plain, theirs] = &mut words;
    row(
        &format!("read {name}"),
        sheet.len(),
        [
            &mut || assert!(engine::read(black_box(&sheet), ours).is_ok()),
            &mut || assert!(plain_sheet::read(black_box(&sheet), plain).is_ok()),
            &mut || assert!(reference::read(black_box(&sheet), theirs).is_ok()),
        ],
    );
    assert!(words.iter().all(|read| *read == list));
    if !shuffled {
        write_row(name, &list, &sheet);
    }
}

fn write_row(name: &str, list: &[u16], sheet: &[u8]) {
    let Figures {
        width: w,
        resolution: r,
        columns: n,
    } = FIGURES;
    let mut bytes = [0; 3].map(|_| vec![0; sheet.len()]);
    let [ours, plain, theirs] = &mut bytes;
    row(
        &format!("write {name}"),
        sheet.len(),
        [
            &mut || assert!(engine::write(FIGURES, black_box(list), ours).is_ok()),
            &mut || assert!(plain_sheet::write(FIGURES, black_box(list), plain).is_ok()),
            &mut || assert!(reference::write(w, r, n, black_box(list), theirs).is_ok()),
        ],
    );
    assert!(bytes.iter().all(|written| *written == sheet));
}

/// Pieces with these outlines, one after another and again from the first, as
/// many as a sheet holds but at most so many. Each may take every turn in which
/// none of its edges cross.
fn job(outlines: &[Vec<u16>], most: usize) -> Vec<Piece> {
    let mut pieces = Vec::new();
    let mut records = 0;
    for outline in outlines.iter().cycle() {
        records += outline.len() / 2 + 1;
        if pieces.len() == most || records > MOST_RECORDS {
            return pieces;
        }
        pieces.push(Piece {
            outline: outline.clone(),
            mask: mask_of(outline),
        });
    }
    pieces
}

fn mask_of(outline: &[u16]) -> u16 {
    let allowed = |mask: u16| {
        let list = [&[1, outline.len() as u16 / 2, mask], outline].concat();
        plain_sheet::write(FIGURES, &list, &mut [0; 1_000]).is_ok()
    };
    [15, 5, 1, 2]
        .into_iter()
        .find(|&mask| allowed(mask))
        .expect("a turn for each outline")
}

fn main() {
    let square = vec![0, 0, 4, 0, 4, 4, 0, 4];
    rows("3 squares", &job(&[square], 3), false);
    let counties = data::outlines(data::NC_COUNTIES);
    rows("100 counties", &job(&counties, 100), false);
    rows("100 counties, shuffled", &job(&counties, 100), true);
    let mut largest = counties;
    largest.extend(data::outlines(data::NATURAL_EARTH));
    largest.sort_by_key(|outline| std::cmp::Reverse(outline.len()));
    largest.retain(|outline| outline.len() >= 2 * 50);
    rows("the largest sheet", &job(&largest, 200), false);
    rows("the largest sheet, shuffled", &job(&largest, 200), true);
}
