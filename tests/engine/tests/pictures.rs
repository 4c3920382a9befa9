//! Program `draw` as it is run: every byte of its picture beside that of the
//! reference program.

use engine::data;
use engine::programs::DRAW;
use reference::figures::{Figures, Piece};
use reference::generate::outlines::is_sound;
use reference::generate::{
    any_figures, damaged_sheet, job, long_job, sound_pieces, sound_sheet, stroke_pieces, tied_job,
    Job, Random, SheetDamage, SheetPlan,
};
use reference::picture::draw;
use reference::text::gap_and_sheet;
use std::path::{Path, PathBuf};

/// The pictures of some sheets.
#[derive(Default)]
struct Pictures {
    pictures: Vec<String>,
    /// How many were written larger, as they are, and smaller than their strip.
    scales: [usize; 3],
}

impl Pictures {
    fn draw(&mut self, sheet: &[u8]) -> &str {
        let picture = DRAW.text(sheet);
        let expected = draw(sheet);
        if let Some((drawn, wanted)) = first_difference(&picture, &expected) {
            panic!("{drawn}\n{wanted}\n{:?}", &sheet[..sheet.len().min(400)]);
        }
        if !picture.contains(">job refused ") {
            self.scales[scale(sheet, &picture)] += 1;
        }
        self.pictures.push(picture);
        &self.pictures[self.pictures.len() - 1]
    }

    /// So many pictures have this in them.
    fn with(&self, words: &str) -> usize {
        let has = |picture: &&String| picture.contains(words);
        self.pictures.iter().filter(has).count()
    }
}

fn first_difference<'a>(one: &'a str, other: &'a str) -> Option<(&'a str, &'a str)> {
    if one == other {
        return None;
    }
    let mut pairs = one.split('\n').zip(other.split('\n'));
    Some(pairs.find(|(a, b)| a != b).unwrap_or((one, other)))
}

/// By how the picture says the strip's width, which it does in 100 times as
/// many units, in units or in hundredths of them.
fn scale(input: &[u8], picture: &str) -> usize {
    let (_, sheet) = gap_and_sheet(input);
    let width = u32::from(u16::from_le_bytes([sheet[4], sheet[5]]));
    let says = |width: u32| picture.contains(&format!("<rect class='board' y='-{width}' "));
    if says(100 * width) {
        0
    } else if says(width) {
        1
    } else {
        2
    }
}

fn figures(width: u16, resolution: u16, columns: u16) -> Figures {
    Figures {
        width,
        resolution,
        columns,
    }
}

fn pieces(outlines: &[&[u16]], mask: u16) -> Vec<Piece> {
    let with_mask = |outline: &&[u16]| Piece {
        outline: outline.to_vec(),
        mask,
    };
    outlines.iter().map(with_mask).collect()
}

fn sheets_in(folder: &str) -> Vec<PathBuf> {
    let folder = Path::new(env!("CARGO_MANIFEST_DIR"))
        .join("../..")
        .join(folder);
    let files = std::fs::read_dir(folder).expect("a folder");
    let mut paths: Vec<PathBuf> = files.map(|file| file.expect("a file").path()).collect();
    paths.retain(|path| path.extension().is_some_and(|kind| kind == "sheet"));
    paths.sort();
    paths
}

#[test]
fn samples_and_seeds() {
    let mut pictures = Pictures::default();
    for folder in ["samples", "samples/bad", "tests/fuzz/seeds"] {
        for path in sheets_in(folder) {
            pictures.draw(&std::fs::read(path).expect("a sheet"));
        }
    }
    assert!(pictures.pictures.len() >= 34);
    assert!(pictures.with(">job refused ") >= 17);
    let wallets = include_str!("../../../docs/wallets.svg");
    assert_eq!(pictures.with(wallets), 1);
}

#[test]
fn small_jobs() {
    let mut pictures = Pictures::default();
    let mut random = Random::new(301);
    for _ in 0..250 {
        pictures.draw(&job(&mut random).sheet());
        pictures.draw(&sound_sheet(&mut random));
    }
    assert_eq!(pictures.scales, [500, 0, 0]);
    assert!(pictures.with("<polygon") > 250 && pictures.with(" refused 13<") > 100);
    println!("{} of 500 with dashes", pictures.with(DASHES));
    assert!(pictures.with(DASHES) > 150);
}

/// The used part ends within a column as often as not; of long strips it is over 16 bits.
#[test]
fn used_lengths() {
    let mut pictures = Pictures::default();
    let mut random = Random::new(310);
    for _ in 0..300 {
        pictures.draw(&tied_job(&mut random).sheet());
    }
    for _ in 0..30 {
        pictures.draw(&long_job(&mut random).sheet());
    }
    let used: Vec<f64> = pictures.pictures.iter().map(|p| used_units(p)).collect();
    for eighths in 0..8 {
        let some = used.iter().filter(|&used| used % 8.0 == f64::from(eighths));
        assert!(some.count() > 10, "{eighths}");
    }
    assert!(used.iter().filter(|&&used| used > 65_535.0).count() > 5);
}

/// The used length below the strip, in units.
fn used_units(picture: &str) -> f64 {
    let after = picture.split_once(">used ").expect("a used length").1;
    let millimetres = after.split_once(" mm").expect("millimetres").0;
    8.0 * millimetres.parse::<f64>().expect("a number")
}

/// Gaps of every size in front of the sheet, small and large ones alike.
#[test]
fn gaps() {
    let mut pictures = Pictures::default();
    let mut random = Random::new(309);
    for _ in 0..300 {
        let most = random.pick(&[1, 8, 40, 400]);
        let line = format!("gap {}\n", f64::from(random.word(1, most)) / 8.0);
        pictures.draw(&[line.as_bytes(), &job(&mut random).sheet()].concat());
        let size = random.pick(&[30, 300, 3_000]);
        let count = random.index(9);
        let job = Job {
            figures: figures(16_000, random.pick(&[8, 40, 400]), 4_096),
            pieces: stroke_pieces(&mut random, count, size),
        };
        pictures.draw(&[line.as_bytes(), &job.sheet()].concat());
    }
    assert_eq!(pictures.with(">shaded: gap of "), 600);
    assert_eq!(pictures.with("<path clip-path='url(#strip)' "), 600);
    assert_eq!(pictures.scales, [300, 300, 0]);
}

/// What is drawn twice, and what says so.
const DASHES: &str = "<path class='twice' ";
const LEGEND: &str = ">dashed: drawn twice<";

/// Pieces most of which draw something twice, in each turn, at each scale.
#[test]
fn pieces_with_dashes() {
    let mut pictures = Pictures::default();
    let mut random = Random::new(306);
    for _ in 0..400 {
        let width = of_any_size(&mut random, 3, 16_000);
        let resolution = of_any_size(&mut random, 1, 400);
        let columns = of_any_size(&mut random, 1, 4_096);
        let count = random.index(7);
        let size = of_any_size(&mut random, 3, width.min(1_000));
        let job = Job {
            figures: figures(width, resolution, columns),
            pieces: stroke_pieces(&mut random, count, size),
        };
        let picture = pictures.draw(&job.sheet());
        assert_eq!(picture.contains(DASHES), picture.contains(LEGEND));
    }
    let dashed = pictures.with(DASHES);
    println!("{dashed} of 400 with dashes, scales {:?}", pictures.scales);
    assert!(dashed > 150 && dashed < 390);
    assert!(pictures.scales[0] > 50 && pictures.scales[1] > 50);
}

/// The most dashes: 60 edges to and fro, in each turn.
#[test]
fn the_most_dashes() {
    let mut pictures = Pictures::default();
    // A square, and 30 spurs from its last corner.
    let mut outline = vec![0, 0, 40, 0, 40, 40];
    for spur in 0..30 {
        outline.extend([0, 40, spur, 39 - spur]);
    }
    outline.extend([0, 40]);
    assert_eq!(outline.len(), 128);
    for turn in 0..4 {
        let figures = figures(100, 1, 100);
        let pieces = pieces(&[&outline], 1 << turn);
        let picture = pictures.draw(&Job { figures, pieces }.sheet());
        let (_, dashes) = picture.split_once(DASHES).expect("dashes");
        let (dashes, _) = dashes.split_once('/').expect("the end of the element");
        assert!(dashes.matches('L').count() >= 60);
    }
}

/// A number up to `most`, as often small as large.
fn of_any_size(random: &mut Random, least: u16, most: u16) -> u16 {
    let halvings = random.index(12);
    random.word(least, (most >> halvings).max(least))
}

#[test]
fn jobs_of_every_size() {
    let mut pictures = Pictures::default();
    let mut random = Random::new(302);
    for _ in 0..600 {
        let width = of_any_size(&mut random, 1, 16_000);
        let resolution = of_any_size(&mut random, 1, 400);
        let columns = of_any_size(&mut random, 1, 4_096);
        let figures = figures(width, resolution, columns);
        let count = random.index(13);
        let most = (width + width / 8).clamp(2, 1_000);
        let size = of_any_size(&mut random, 2, most);
        let pieces = sound_pieces(&mut random, count, size);
        pictures.draw(&Job { figures, pieces }.sheet());
    }
    assert_eq!(pictures.with(">job refused "), 0);
    assert!(pictures.scales[0] > 100 && pictures.scales[1] > 100);
    let open = pictures.with("class='more' d");
    assert!(open > 100 && open < 500);
}

/// Pieces up to 2 m long on strips up to 200 m long.
#[test]
fn long_strips() {
    let mut pictures = Pictures::default();
    let mut random = Random::new(303);
    for count in [3, 8, 14, 15, 16] {
        let long = random.word(15_000, 16_000);
        let high = random.word(1, 3_000);
        // It goes back along a part of its last edge but one.
        let bar = [0, 0, long, 0, long - 7, high, 3, high, 1_234, high, 3, high];
        let width = random.word(high, 2 * high - 1);
        let figures = figures(width, random.word(390, 400), random.word(1_000, 4_096));
        let pieces = pieces(&vec![&bar[..]; count], 1);
        pictures.draw(&Job { figures, pieces }.sheet());
    }
    assert_eq!(pictures.scales, [0, 2, 3]);
    assert_eq!(pictures.with(DASHES), 5);
}

/// A spur as long as the piece, whose cells are all in its last column.
#[test]
fn cells_at_the_far_end() {
    let mut pictures = Pictures::default();
    for long in 1..200 {
        let spur = [0, 0, long, 0, long, 1, long - 1, 0];
        let figures = figures(100, 1, 200);
        let pieces = pieces(&[&spur], 1);
        let picture = pictures.draw(&Job { figures, pieces }.sheet());
        assert!(!picture.contains("font-size='0'"));
    }
}

#[test]
fn damaged_sheets() {
    let mut pictures = Pictures::default();
    let mut random = Random::new(304);
    for damage in SheetDamage::ALL {
        for _ in 0..5 {
            let damaged = damaged_sheet(&mut random, damage);
            let picture = pictures.draw(&damaged.bytes);
            assert!(picture.contains(&format!(">{}<", damaged.refusal)));
        }
    }
    for number in [1, 2, 3, 16, 17, 6, 7, 8, 9, 10, 11] {
        assert!(pictures.with(&format!(">job refused {number} ")) >= 5);
    }
    for _ in 0..50 {
        let figures = any_figures(&mut random);
        let pieces = sound_pieces(&mut random, 3, 8);
        pictures.draw(&SheetPlan::shuffled(&mut random, figures, &pieces, true).bytes());
    }
    assert!(pictures.with("<polygon") > 10);
}

/// Of each fate: a piece of 3,001 runs, strips of 4,001 runs, pieces too large.
#[test]
fn each_fate() {
    let mut pictures = Pictures::default();
    let bar = |columns: u16| [0, 0, columns, 0, columns, 1, 0, 1];
    let bars = [bar(3_000), bar(3_001), bar(3)];
    let arms = |c: u16| [0, 0, c, 0, c, 1, 1, 1, 1, 2, c, 2, c, 3, 0, 3];
    let block = |c: u16| [0, 0, c, 0, c, 3, 0, 3];
    let half = arms(1_000);
    for (figures, outlines) in [
        (figures(2, 1, 4_096), vec![&bars[0][..], &bars[1], &bars[2]]),
        (
            figures(3, 1, 2_003),
            vec![&half, &half, &block(3), &block(4), &block(2)],
        ),
    ] {
        let pieces = pieces(&outlines, 1);
        pictures.draw(&Job { figures, pieces }.sheet());
    }
    for number in [12, 13, 14] {
        assert_eq!(pictures.with(&format!(" refused {number}<")), 1);
    }
}

/// 200 pieces: the ordinals have three digits, and refused ones many rows.
#[test]
fn the_most_pieces() {
    let mut pictures = Pictures::default();
    let mut random = Random::new(305);
    for _ in 0..30 {
        let size = random.word(2, 30);
        let pieces = sound_pieces(&mut random, 200, size);
        let width = of_any_size(&mut random, 1, 200);
        let figures = figures(width, random.word(1, 8), random.word(1, 400));
        pictures.draw(&Job { figures, pieces }.sheet());
    }
    assert!(pictures.with(">200</text>") >= 5 && pictures.with(">200 refused 13<") >= 5);
}

/// The longest picture: 200 pieces of 64 vertices, which share their vertices, on
/// a strip so long that lengths have decimals.
#[test]
fn the_longest_picture() {
    let bottom = (0..32).flat_map(|place| [25 * place + place % 2, 17 * (place % 3)]);
    let top = (0..32).rev().flat_map(|place| [26 * place, 15_999 - place]);
    let outline: Vec<u16> = bottom.chain(top).collect();
    let pieces = pieces(&[&outline[..]], 1);
    let mut plan = SheetPlan::in_order(figures(16_000, 399, 4_096), &pieces);
    plan.pieces = (2..202).map(|next| [1, 1, next % 201]).collect();
    let mut pictures = Pictures::default();
    let picture = pictures.draw(&plan.bytes());
    assert_eq!(picture.matches("<polygon").count(), 200);
    assert!(picture.len() > 200_000, "{}", picture.len());
    assert_eq!(pictures.scales, [0, 0, 1]);
}

/// The longest picture with dashes: 200 pieces of 21 vertices walked three times, so
/// that each of 63 edges is drawn twice; nearly all of their lengths have as many
/// digits as a length can have.
#[test]
fn the_longest_dashes() {
    let top = (0..19).flat_map(|place| [7_979 - 333 * place, 15_999 - 99 * place]);
    let ring: Vec<u16> = [0, 0, 7_979, 10_001].into_iter().chain(top).collect();
    let outline = [&ring[..2], &ring.repeat(3)].concat();
    assert_eq!(outline.len(), 128);
    let pieces = pieces(&[&outline], 1);
    let mut plan = SheetPlan::in_order(figures(16_000, 399, 4_096), &pieces);
    plan.pieces = (2..202).map(|next| [1, 1, next % 201]).collect();
    let mut pictures = Pictures::default();
    let picture = pictures.draw(&plan.bytes());
    assert_eq!(picture.matches("<polygon").count(), 200);
    let dashes: Vec<&str> = picture.split(DASHES).skip(1).collect();
    assert_eq!(dashes.len(), 200);
    for dashes in dashes {
        let (dashes, _) = dashes.split_once('/').expect("the end of the element");
        assert_eq!(dashes.matches('L').count(), 63);
    }
    println!("{} bytes", picture.len());
    assert!(picture.len() > 620_000, "{}", picture.len());
    // With a gap its vertices are there once more.
    let picture = pictures.draw(&[b"gap 0.125\n", &plan.bytes()[..]].concat());
    assert_eq!(picture.matches("<polygon").count(), 200);
    println!("{} bytes", picture.len());
    assert!(picture.len() > 800_000, "{}", picture.len());
    assert_eq!(pictures.scales, [0, 0, 2]);
}

/// Public outlines, as many as a sheet takes, coarse and fine.
#[test]
fn public_jobs() {
    let mut pictures = Pictures::default();
    for (file, figures) in [
        (data::NC_COUNTIES, figures(8_000, 100, 300)),
        (data::NATURAL_EARTH, figures(500, 4, 200)),
        (data::SHAPES_2, figures(15, 1, 40)),
    ] {
        for mask in [1, 15] {
            let mut outlines = data::outlines(file);
            outlines.retain(|outline| is_sound(outline, mask));
            outlines.truncate(200);
            let outlines: Vec<&[u16]> = outlines.iter().map(Vec::as_slice).collect();
            let pieces = pieces(&outlines, mask);
            pictures.draw(&Job { figures, pieces }.sheet());
        }
    }
    assert_eq!(pictures.with("<polygon"), 6);
}
