//! The calls of the C control program on buffers of bytes.
//!
//! "The cutter's C control program calls open, place and lay on numbers and
//! buffers. There a buffer may be passed as bytes, two to a word, low byte
//! first; an odd last byte is no part of it and stays."
//!
//! Ask and commit of S-2 are calls beside place and take bytes as it does.
//!
//! A sheet is bytes by its own definition, so every byte of it counts.

use crate::figures::{Position, Refusal, Totals, Tried};

fn words(bytes: &[u8]) -> Vec<u16> {
    bytes
        .chunks_exact(2)
        .map(|pair| u16::from_le_bytes([pair[0], pair[1]]))
        .collect()
}

fn put_back(bytes: &mut [u8], words: &[u16]) {
    for (pair, word) in bytes.chunks_exact_mut(2).zip(words) {
        pair.copy_from_slice(&word.to_le_bytes());
    }
}

pub fn open_bytes(w: u16, r: u16, n: u16, g: u16, strip: &mut [u8]) -> Result<(), Refusal> {
    let mut strip_words = words(strip);
    let answer = crate::open(w, r, n, g, &mut strip_words);
    put_back(strip, &strip_words);
    answer
}

pub fn place_bytes(strip: &mut [u8], outline: &[u8], mask: u16, work: &mut [u8]) -> Tried {
    let (mut strip_words, mut work_words) = (words(strip), words(work));
    let tried = crate::place(&mut strip_words, &words(outline), mask, &mut work_words);
    put_back(strip, &strip_words);
    put_back(work, &work_words);
    tried
}

pub fn ask_bytes(strip: &[u8], outline: &[u8], mask: u16, work: &mut [u8]) -> Tried {
    let mut work_words = words(work);
    let tried = crate::ask(&words(strip), &words(outline), mask, &mut work_words);
    put_back(work, &work_words);
    tried
}

pub fn commit_bytes(
    strip: &mut [u8],
    outline: &[u8],
    position: Position,
    work: &mut [u8],
) -> Result<(), Refusal> {
    let (mut strip_words, mut work_words) = (words(strip), words(work));
    let answer = crate::commit(&mut strip_words, &words(outline), position, &mut work_words);
    put_back(strip, &strip_words);
    put_back(work, &work_words);
    answer
}

pub fn lay_bytes(
    sheet: &[u8],
    g: u16,
    strip: &mut [u8],
    output: &mut [u8],
    work: &mut [u8],
) -> Result<Totals, Refusal> {
    let mut strip_words = words(strip);
    let mut output_words = words(output);
    let mut work_words = words(work);
    let answer = crate::lay(
        sheet,
        g,
        &mut strip_words,
        &mut output_words,
        &mut work_words,
    );
    put_back(strip, &strip_words);
    put_back(output, &output_words);
    put_back(work, &work_words);
    answer
}
