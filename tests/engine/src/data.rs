//! The public outlines under tests/data. A line is an outline: vertex count, then
//! x y pairs; a line that begins with # is a comment.

use reference::generate::outlines::is_sound;
use reference::generate::Random;

pub const NATURAL_EARTH: &str = include_str!("../../data/natural-earth.txt");
pub const NC_COUNTIES: &str = include_str!("../../data/nc-counties.txt");
pub const SHAPES_2: &str = include_str!("../../data/shapes2.txt");

/// The outlines of a file, as words x, y, x, y.
pub fn outlines(file: &str) -> Vec<Vec<u16>> {
    let lines = file
        .lines()
        .filter(|line| !line.starts_with('#') && !line.trim().is_empty());
    lines
        .map(|line| {
            let mut numbers = line
                .split_whitespace()
                .map(|n| n.parse::<u16>().expect("a number"));
            let count = usize::from(numbers.next().expect("a vertex count"));
            let words: Vec<u16> = numbers.collect();
            assert_eq!(words.len(), 2 * count, "{line}");
            words
        })
        .collect()
}

pub fn all() -> Vec<Vec<u16>> {
    [NATURAL_EARTH, NC_COUNTIES, SHAPES_2]
        .iter()
        .flat_map(|file| outlines(file))
        .collect()
}

/// So many outlines of a file, some times as large, that pass questions 7 to 11 with
/// every mask, in any order: what the benchmarks lay.
pub fn sound_outlines(file: &str, times: u16, count: usize) -> Vec<Vec<u16>> {
    let larger = |outline: Vec<u16>| -> Vec<u16> { outline.iter().map(|x| times * x).collect() };
    let mut outlines: Vec<Vec<u16>> = outlines(file)
        .into_iter()
        .map(larger)
        .filter(|outline| is_sound(outline, 15))
        .collect();
    Random::new(51).shuffle(&mut outlines);
    assert!(outlines.len() >= count, "{}", outlines.len());
    outlines.truncate(count);
    outlines
}
