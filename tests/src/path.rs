//! Paths of the drawing program, of change request S-3: read and write.
//!
//! A coordinate stays the 32 bits that it is in a path. What number they stand for
//! is worked out with whole numbers; nothing here is a float.

use crate::figures::*;
use crate::questions::ask_7_of_lent_outline;

/// "2 to 63 lines"
const FEWEST_LINES: usize = FEWEST_VERTICES - 1;
const MOST_LINES: usize = MOST_VERTICES - 1;

/// The bits of x and y.
pub type Point = [u32; 2];

/// "Each step is a move or a line with its two coordinates, or the close."
#[derive(Clone, Copy, Debug, PartialEq, Eq)]
pub enum Step {
    Move(Point),
    Line(Point),
    Close,
}

/// "A path is a list of steps, each one byte: 1 move, 2 line, 3 close; move and line
/// carry x and y in millimetres as IEEE 754 binary32, low byte first."
///
/// Nothing where the bytes are no list of steps.
pub fn steps_of(path: &[u8]) -> Option<Vec<Step>> {
    let mut steps = Vec::new();
    let mut rest = path;
    while let Some((&kind, after)) = rest.split_first() {
        let (step, after) = match kind {
            1 => first_point(after).map(|(point, after)| (Step::Move(point), after))?,
            2 => first_point(after).map(|(point, after)| (Step::Line(point), after))?,
            3 => (Step::Close, after),
            _ => return None,
        };
        steps.push(step);
        rest = after;
    }
    Some(steps)
}

/// The x and y that the bytes begin with, and the bytes after them.
fn first_point(bytes: &[u8]) -> Option<(Point, &[u8])> {
    let (x, rest) = bytes.split_first_chunk()?;
    let (y, rest) = rest.split_first_chunk()?;
    Some(([x, y].map(|four| u32::from_le_bytes(*four)), rest))
}

/// "A path is one move, 2 to 63 lines, one close, and nothing after it."
///
/// The points of these steps; nothing where they are no path.
fn points_of(steps: &[Step]) -> Option<Vec<Point>> {
    let [Step::Move(first), lines @ .., Step::Close] = steps else {
        return None;
    };
    if !(FEWEST_LINES..=MOST_LINES).contains(&lines.len()) {
        return None;
    }
    let mut points = vec![*first];
    for step in lines {
        match step {
            Step::Line(point) => points.push(*point),
            Step::Move(_) | Step::Close => return None,
        }
    }
    Some(points)
}

/// "A coordinate is accepted when eight times it is a whole number from 0 to 16,000;
/// minus zero counts as 0"
///
/// That whole number; nothing for other coordinates.
///
/// IEEE 754 binary32 is a bit of sign, 8 bits of exponent and 23 bits of fraction.
/// With exponent 255 it is no number or an infinity. With another exponent E it is
/// 2^23 and the fraction, times 2^(E - 150); with 0 it is the fraction alone, times
/// 2^-149, as with 1.
pub fn units_of(bits: u32) -> Option<u16> {
    let is_minus = bits >> 31 == 1;
    let fraction = bits & 0x7F_FFFF;
    let (mut eight_times, exponent) = match bits >> 23 & 0xFF {
        255 => return None,
        0 => (fraction, 1),
        exponent => (0x80_0000 + fraction, exponent),
    };
    if eight_times == 0 {
        return Some(0);
    }
    if is_minus {
        return None;
    }
    // Eight is 2^3: 147 - E times to be halved. From E 147 on it would be doubled, and is over 16,000 as it is.
    for _ in exponent..147 {
        if eight_times % 2 == 1 {
            return None;
        }
        eight_times /= 2;
    }
    let units = u16::try_from(eight_times).ok()?;
    (units <= MOST_COORDINATE).then_some(units)
}

/// The bits of so many eighths of a millimetre. Minus zero "is never written".
pub fn bits_of(units: u16) -> u32 {
    if units == 0 {
        return 0;
    }
    // As in `units_of`, the other way: doubled until 2^23 is in it.
    let (mut mantissa, mut exponent) = (u32::from(units), 147);
    while mantissa < 0x80_0000 {
        mantissa *= 2;
        exponent -= 1;
    }
    (exponent << 23) + (mantissa - 0x80_0000)
}

/// Reads the outline that a path gives and answers its number of words.
///
/// "New numbers: 19 for a path of another shape, 20 for a coordinate not accepted, the
/// shape of the whole path first." Then 15.
pub fn read_path(path: &[u8], output: &mut [u16]) -> Result<u32, Refusal> {
    let steps = steps_of(path).ok_or(no(19, 0))?;
    let points = points_of(&steps).ok_or(no(19, 0))?;
    let words: Option<Vec<u16>> = points.into_iter().flatten().map(units_of).collect();
    let words = words.ok_or(no(20, 0))?;
    // "15. Does the output buffer hold the output?"
    if output.len() < words.len() {
        return Err(no(15, 0));
    }
    output[..words.len()].copy_from_slice(&words);
    Ok(words.len() as u32)
}

/// Writes a path and answers its number of bytes.
///
/// "Writing a path from an outline, once 7 and 8 pass, gives one that reads back as
/// that outline, with the first vertex as the move." Then 15.
pub fn write_path(outline: &[u16], output: &mut [u8]) -> Result<u32, Refusal> {
    ask_7_of_lent_outline(outline)?;
    if outline.iter().any(|&word| word > MOST_COORDINATE) {
        return Err(no(8, 1));
    }
    let mut steps = Vec::new();
    for pair in outline.chunks_exact(2) {
        let point = [bits_of(pair[0]), bits_of(pair[1])];
        steps.push(match steps.is_empty() {
            true => Step::Move(point),
            false => Step::Line(point),
        });
    }
    steps.push(Step::Close);
    let path: Vec<u8> = steps.into_iter().flat_map(bytes_of).collect();
    if output.len() < path.len() {
        return Err(no(15, 0));
    }
    output[..path.len()].copy_from_slice(&path);
    Ok(path.len() as u32)
}

fn bytes_of(step: Step) -> Vec<u8> {
    let with = |kind: u8, [x, y]: Point| [&[kind][..], &x.to_le_bytes(), &y.to_le_bytes()].concat();
    match step {
        Step::Move(point) => with(1, point),
        Step::Line(point) => with(2, point),
        Step::Close => vec![3],
    }
}
