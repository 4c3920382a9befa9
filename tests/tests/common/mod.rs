//! Shared by the tests: short names, and each call with the paper's buffer
//! rules checked around it. Buffers come in full of other words, so that a word
//! written or kept shows.
//!
//! "Strip and output keep their words at a refusal. A work buffer is zero after
//! each call. Bytes past the output stay."

#![allow(dead_code)]

pub mod cells;

use reference::generate::SheetPlan;
use reference::{Figures, Piece, Position, Refusal, Totals, Tried};

/// Square S, 4 by 4.
pub const S: [u16; 8] = [0, 0, 4, 0, 4, 4, 0, 4];
/// T = (0,0) (3,0) (3,2)
pub const T: [u16; 6] = [0, 0, 3, 0, 3, 2];
/// U = (0,0) (3,2) (0,2)
pub const U: [u16; 6] = [0, 0, 3, 2, 0, 2];
/// (0,0) (1,2) (1,0) (0,2): fails question 10 in turns 0 and 2.
pub const CROSSED: [u16; 8] = [0, 0, 1, 2, 1, 0, 0, 2];
/// (0,0) (4,0) (2,0): fails question 11.
pub const FLAT: [u16; 6] = [0, 0, 4, 0, 2, 0];
/// A coordinate of 16,001: fails question 8.
pub const FAR: [u16; 6] = [0, 0, 16_001, 0, 0, 4];

pub fn no(number: u16, ordinal: u16) -> Refusal {
    Refusal { number, ordinal }
}

pub fn at(turn: u16, column: u16, height: u16) -> Position {
    Position {
        turn,
        column,
        height,
    }
}

pub fn rectangle(width: u16, height: u16) -> Vec<u16> {
    vec![0, 0, width, 0, width, height, 0, height]
}

/// A rectangle 31 by 1 of 64 vertices.
pub fn sixty_four_vertices() -> Vec<u16> {
    let bottom = (0..32).flat_map(|x| [x, 0]);
    let top = (0..32).rev().flat_map(|x| [x, 1]);
    bottom.chain(top).collect()
}

/// A rectangle 32 by 1 of 65 vertices.
pub fn sixty_five_vertices() -> Vec<u16> {
    let bottom = (0..33).flat_map(|x| [x, 0]);
    let top = (0..32).rev().flat_map(|x| [x, 1]);
    bottom.chain(top).collect()
}

pub fn figures(width: u16, resolution: u16, columns: u16) -> Figures {
    Figures {
        width,
        resolution,
        columns,
    }
}

pub fn pieces(of: &[(&[u16], u16)]) -> Vec<Piece> {
    of.iter()
        .map(|&(outline, mask)| Piece {
            outline: outline.to_vec(),
            mask,
        })
        .collect()
}

/// A sheet of these outlines and masks, records in list order.
pub fn sheet(w: u16, r: u16, n: u16, of: &[(&[u16], u16)]) -> Vec<u8> {
    plan(w, r, n, of).bytes()
}

pub fn plan(w: u16, r: u16, n: u16, of: &[(&[u16], u16)]) -> SheetPlan {
    SheetPlan::in_order(figures(w, r, n), &pieces(of))
}

/// A cut list of these outlines and masks.
pub fn list(of: &[(&[u16], u16)]) -> Vec<u16> {
    let mut words = vec![of.len() as u16];
    for (outline, mask) in of {
        words.push(outline.len() as u16 / 2);
        words.push(*mask);
        words.extend(*outline);
    }
    words
}

/// Words that no call would write by chance, different at each place.
pub fn other_words(length: usize) -> Vec<u16> {
    (0..length)
        .map(|place| 0xA000 + (place % 0x5000) as u16)
        .collect()
}

pub fn other_bytes(length: usize) -> Vec<u8> {
    (0..length)
        .map(|place| 0x80 + (place % 0x7F) as u8)
        .collect()
}

pub fn strip_length(n: u16, q: usize) -> usize {
    5 + usize::from(n) + 4 * q
}

/// A strip just opened, without a gap.
pub fn opened(w: u16, r: u16, n: u16, q: usize) -> Vec<u16> {
    opened_with_gap(w, r, n, 0, q)
}

pub fn opened_with_gap(w: u16, r: u16, n: u16, g: u16, q: usize) -> Vec<u16> {
    check_open_with_gap(w, r, n, g, strip_length(n, q)).expect("open is granted")
}

/// A strip with these runs, records in order, without a gap.
pub fn strip_of(w: u16, r: u16, q: usize, columns: &[&[(u16, u16)]]) -> Vec<u16> {
    strip_with_gap(w, r, 0, q, columns)
}

pub fn strip_with_gap(w: u16, r: u16, g: u16, q: usize, columns: &[&[(u16, u16)]]) -> Vec<u16> {
    let n = columns.len() as u16;
    let mut strip = vec![0; strip_length(n, q)];
    let columns: Vec<Vec<(u16, u16)>> = columns.iter().map(|runs| runs.to_vec()).collect();
    reference::strip::put_runs(&mut strip, w, r, n, g, &columns);
    assert!(reference::well_formed(&strip));
    strip
}

/// Cover without a gap, with an output of this length; the runs it wrote.
pub fn check_cover(
    outline: &[u16],
    turn: u16,
    r: u16,
    length: usize,
) -> Result<Vec<[u16; 3]>, Refusal> {
    check_cover_with_gap(outline, turn, r, 0, length)
}

pub fn check_cover_with_gap(
    outline: &[u16],
    turn: u16,
    r: u16,
    g: u16,
    length: usize,
) -> Result<Vec<[u16; 3]>, Refusal> {
    let before = other_words(length);
    let mut output = before.clone();
    let answer = reference::cover(outline, turn, r, g, &mut output);
    match answer {
        Ok(count) => {
            let written = 3 * count as usize;
            assert_eq!(output[written..], before[written..], "the rest is kept");
            Ok(output[..written]
                .chunks_exact(3)
                .map(|run| [run[0], run[1], run[2]])
                .collect())
        }
        Err(refusal) => {
            assert_eq!(output, before, "output is kept at a refusal");
            Err(refusal)
        }
    }
}

/// The runs (low, high) column by column of an outline that is covered, from
/// column 0 to the last that has a run.
pub fn columns_of(outline: &[u16], turn: u16, r: u16) -> Vec<Vec<(u16, u16)>> {
    columns_with_gap(outline, turn, r, 0)
}

pub fn columns_with_gap(outline: &[u16], turn: u16, r: u16, g: u16) -> Vec<Vec<(u16, u16)>> {
    let mut columns = Vec::new();
    let runs = check_cover_with_gap(outline, turn, r, g, 2_000_000).expect("cover is granted");
    for [column, low, high] in runs {
        columns.resize(columns.len().max(usize::from(column) + 1), Vec::new());
        columns[usize::from(column)].push((low, high));
    }
    columns
}

/// Open without a gap on a strip of this length; the strip.
pub fn check_open(w: u16, r: u16, n: u16, length: usize) -> Result<Vec<u16>, Refusal> {
    check_open_with_gap(w, r, n, 0, length)
}

pub fn check_open_with_gap(
    w: u16,
    r: u16,
    n: u16,
    g: u16,
    length: usize,
) -> Result<Vec<u16>, Refusal> {
    let before = other_words(length);
    let mut strip = before.clone();
    match reference::open(w, r, n, g, &mut strip) {
        Ok(()) => {
            assert!(reference::well_formed(&strip));
            assert_eq!((&strip[..3], strip[4]), (&[w, r, n][..], g));
            assert!(reference::strip_runs(&strip).iter().all(Vec::is_empty));
            Ok(strip)
        }
        Err(refusal) => {
            assert_eq!(strip, before, "the strip is kept at a refusal");
            Err(refusal)
        }
    }
}

/// Runs a call with a work buffer of this length.
fn with_work<T>(length: usize, call: impl FnOnce(&mut [u16]) -> T) -> T {
    let mut work = other_words(length);
    let answer = call(&mut work);
    assert!(
        work.iter().all(|&word| word == 0),
        "the work buffer is zero"
    );
    answer
}

/// Runs a call that lays a piece, with a work buffer of this length.
fn check_laying<T>(
    strip: &mut [u16],
    length: usize,
    call: impl FnOnce(&mut [u16], &mut [u16]) -> T,
    granted: impl FnOnce(&T) -> bool,
) -> T {
    let before = strip.to_vec();
    let answer = with_work(length, |work| call(strip, work));
    if granted(&answer) {
        assert!(reference::well_formed(strip));
        assert_eq!((&strip[..3], strip[4]), (&before[..3], before[4]));
    } else {
        assert_eq!(strip, before, "the strip is kept at a refusal");
    }
    answer
}

/// Place with a work buffer of this length. "Place stays as ask and commit
/// together": an ask with the same arguments has its answer and its tries, and a
/// commit there leaves its runs.
pub fn check_place_tries(strip: &mut [u16], outline: &[u16], mask: u16, length: usize) -> Tried {
    let asked = check_ask_tries(strip, outline, mask, length);
    let mut committed = strip.to_vec();
    let place = |strip: &mut [u16], work: &mut [u16]| reference::place(strip, outline, mask, work);
    let tried = check_laying(strip, length, place, |tried| tried.answer.is_ok());
    assert_eq!(asked, tried, "ask answers what place does");
    if let Ok(position) = tried.answer {
        let commit = check_commit(&mut committed, outline, position, length);
        assert_eq!(commit, Ok(()));
        assert!(reference::same_strip(&committed, strip));
    }
    tried
}

pub fn check_place(
    strip: &mut [u16],
    outline: &[u16],
    mask: u16,
    length: usize,
) -> Result<Position, Refusal> {
    check_place_tries(strip, outline, mask, length).answer
}

/// Ask with a work buffer of this length. The strip is lent to be read only. "0 where
/// a check before 13 refuses."
pub fn check_ask_tries(strip: &[u16], outline: &[u16], mask: u16, length: usize) -> Tried {
    let tried = with_work(length, |work| reference::ask(strip, outline, mask, work));
    if tried.answer.is_err_and(|refusal| refusal.number < 13) {
        assert_eq!(tried.tries, 0);
    }
    if tried.answer.is_ok() {
        assert!(tried.tries > 0, "the free position was tried");
    }
    tried
}

pub fn check_ask(
    strip: &[u16],
    outline: &[u16],
    mask: u16,
    length: usize,
) -> Result<Position, Refusal> {
    check_ask_tries(strip, outline, mask, length).answer
}

/// Commit with a work buffer of this length.
pub fn check_commit(
    strip: &mut [u16],
    outline: &[u16],
    position: Position,
    length: usize,
) -> Result<(), Refusal> {
    let commit =
        |strip: &mut [u16], work: &mut [u16]| reference::commit(strip, outline, position, work);
    check_laying(strip, length, commit, Result::is_ok)
}

/// Read with an output of this length; W, R, N and the list.
pub fn check_read(sheet: &[u8], length: usize) -> Result<(Figures, Vec<u16>), Refusal> {
    let before = other_words(length);
    let mut output = before.clone();
    match reference::read(sheet, &mut output) {
        Ok(figures) => {
            let written = list_length(&output);
            assert_eq!(output[written..], before[written..], "the rest is kept");
            output.truncate(written);
            Ok((figures, output))
        }
        Err(refusal) => {
            assert_eq!(output, before, "output is kept at a refusal");
            Err(refusal)
        }
    }
}

/// The words of a complete list up to its last piece.
pub fn list_length(list: &[u16]) -> usize {
    let mut length = 1;
    for _ in 0..list[0] {
        length += 2 + 2 * usize::from(list[length]);
    }
    length
}

/// Write with an output of this length; the sheet.
pub fn check_write(
    (w, r, n): (u16, u16, u16),
    list: &[u16],
    length: usize,
) -> Result<Vec<u8>, Refusal> {
    written(other_bytes(length), |output| {
        reference::write(w, r, n, list, output)
    })
}

/// Read a path with an output of this length; the outline.
pub fn check_read_path(path: &[u8], length: usize) -> Result<Vec<u16>, Refusal> {
    written(other_words(length), |output| {
        reference::read_path(path, output)
    })
}

/// Write a path with an output of this length; the path.
pub fn check_write_path(outline: &[u16], length: usize) -> Result<Vec<u8>, Refusal> {
    written(other_bytes(length), |output| {
        reference::write_path(outline, output)
    })
}

/// What a call that answers its size has written; the rest of the output, or at a
/// refusal all of it, is kept.
fn written<T: Clone + PartialEq + std::fmt::Debug>(
    before: Vec<T>,
    call: impl FnOnce(&mut [T]) -> Result<u32, Refusal>,
) -> Result<Vec<T>, Refusal> {
    let mut output = before.clone();
    match call(&mut output) {
        Ok(size) => {
            let size = size as usize;
            assert_eq!(output[size..], before[size..], "the rest is kept");
            output.truncate(size);
            Ok(output)
        }
        Err(refusal) => {
            assert_eq!(output, before, "output is kept at a refusal");
            Err(refusal)
        }
    }
}

/// What a granted lay call left.
#[derive(Debug, PartialEq)]
pub struct Laid {
    pub totals: Totals,
    pub strip: Vec<u16>,
    /// All of the output buffer.
    pub output: Vec<u16>,
}

/// Lay without a gap, with a strip, an output and a work buffer of these lengths.
pub fn check_lay(sheet: &[u8], lengths: [usize; 3]) -> Result<Laid, Refusal> {
    check_lay_with_gap(sheet, 0, lengths)
}

pub fn check_lay_with_gap(sheet: &[u8], g: u16, lengths: [usize; 3]) -> Result<Laid, Refusal> {
    let (strip_before, output_before) = (other_words(lengths[0]), other_words(lengths[1]));
    let (mut strip, mut output) = (strip_before.clone(), output_before.clone());
    let mut work = other_words(lengths[2]);
    let answer = reference::lay(sheet, g, &mut strip, &mut output, &mut work);
    assert!(
        work.iter().all(|&word| word == 0),
        "the work buffer is zero"
    );
    match answer {
        Ok(totals) => {
            assert!(reference::well_formed(&strip));
            assert_eq!(strip[4], g);
            Ok(Laid {
                totals,
                strip,
                output,
            })
        }
        Err(refusal) => {
            assert_eq!(strip, strip_before, "the strip is kept at a refusal");
            assert_eq!(output, output_before, "output is kept at a refusal");
            Err(refusal)
        }
    }
}
