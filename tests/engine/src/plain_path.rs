//! A plain, quick Rust version of read_path and write_path, to measure the engine
//! against: the same questions, with floats. It is no reference for answers.

use crate::plain::{ask_7_and_8, no};
use reference::Refusal;

const STEP: usize = 9;

/// The bytes of a move or a line, in which coordinates stand at 1 and at 5.
fn coordinate(step: &[u8], at: usize) -> f32 {
    f32::from_le_bytes([step[at], step[at + 1], step[at + 2], step[at + 3]])
}

fn units(millimetres: f32) -> Option<u16> {
    let eight_times = 8.0 * millimetres;
    // What is no number becomes 0, what is out of range the nearest that is in it.
    let units = eight_times as u16;
    (f32::from(units) == eight_times && units <= 16_000).then_some(units)
}

pub fn read(path: &[u8], output: &mut [u16]) -> Result<u32, Refusal> {
    let Some((3, steps)) = path.split_last() else {
        return Err(no(19, 0));
    };
    let vertices = steps.len() / STEP;
    if steps.len() % STEP != 0 || !(3..=64).contains(&vertices) {
        return Err(no(19, 0));
    }
    let kind = |place| if place == 0 { 1 } else { 2 };
    let mut kinds = steps.iter().step_by(STEP).enumerate();
    if kinds.any(|(place, &byte)| byte != kind(place)) {
        return Err(no(19, 0));
    }
    let mut words = [0; 128];
    for (two, step) in words.chunks_exact_mut(2).zip(steps.chunks_exact(STEP)) {
        two[0] = units(coordinate(step, 1)).ok_or(no(20, 0))?;
        two[1] = units(coordinate(step, 5)).ok_or(no(20, 0))?;
    }
    let place = output.get_mut(..2 * vertices).ok_or(no(15, 0))?;
    place.copy_from_slice(&words[..2 * vertices]);
    Ok(2 * vertices as u32)
}

pub fn write(outline: &[u16], output: &mut [u8]) -> Result<u32, Refusal> {
    ask_7_and_8(outline)?;
    let size = STEP * (outline.len() / 2) + 1;
    let place = output.get_mut(..size).ok_or(no(15, 0))?;
    for (step, two) in place.chunks_exact_mut(STEP).zip(outline.chunks_exact(2)) {
        step[0] = 2;
        step[1..5].copy_from_slice(&(f32::from(two[0]) / 8.0).to_le_bytes());
        step[5..].copy_from_slice(&(f32::from(two[1]) / 8.0).to_le_bytes());
    }
    place[0] = 1;
    place[size - 1] = 3;
    Ok(size as u32)
}
