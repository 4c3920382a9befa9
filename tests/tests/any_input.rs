//! Every call on any input at all: it answers, and the buffer rules hold (they
//! are checked around each call).

mod common;
use common::*;
use reference::figures::NUMBERS;
use reference::generate::*;

/// Words most of which are small, so that chains and counts often make sense.
fn any_words(random: &mut Random, most_length: usize) -> Vec<u16> {
    let length = random.index(most_length + 1);
    (0..length)
        .map(|_| match random.index(8) {
            0 => random.word(0, 65_535),
            1 => random.word(0, 200),
            _ => random.word(0, 6),
        })
        .collect()
}

fn any_strip(random: &mut Random) -> Vec<u16> {
    match random.index(4) {
        0 => any_words(random, 60),
        1 => {
            let damage = random.pick(&Damage::ALL);
            damaged_strip(random, damage)
        }
        2 => {
            let mut strip = sound_strip(random);
            let place = random.index(strip.len());
            strip[place] = random.word(0, 8);
            strip
        }
        _ => sound_strip(random),
    }
}

/// Outlines of any kind, not often large ones.
fn some_outline(random: &mut Random) -> Vec<u16> {
    match random.index(4) {
        0 => any_words(random, 20),
        1 => any_words(random, 140),
        _ => {
            let kind = random.pick(&OutlineKind::ALL);
            let size = random.word(2, 20);
            outline(random, kind, size)
        }
    }
}

fn any_sheet(random: &mut Random) -> Vec<u8> {
    match random.index(5) {
        0 => {
            let length = random.index(100);
            (0..length).map(|_| random.word(0, 255) as u8).collect()
        }
        1 => {
            // The right first bytes and length, any words in the records.
            let mut plan = plan(10, 2, 10, &[]);
            let record = |random: &mut Random| [(); 3].map(|()| random.word(0, 9));
            plan.figures = small_figures(random);
            plan.first_piece = random.word(0, 4);
            plan.vertices = (0..random.index(12)).map(|_| record(random)).collect();
            plan.pieces = (0..random.index(5)).map(|_| record(random)).collect();
            plan.bytes()
        }
        2 => {
            let damage = random.pick(&SheetDamage::ALL);
            damaged_sheet(random, damage).bytes
        }
        3 => {
            let mut bytes = sound_sheet(random);
            let place = random.index(bytes.len());
            bytes[place] = random.word(0, 255) as u8;
            bytes
        }
        _ => sound_sheet(random),
    }
}

/// Asserts that each of these numbers, 0 for granted, came up.
fn all_came_up(numbers: &[usize; NUMBERS], expected: &[usize]) {
    for (number, &times) in numbers.iter().enumerate() {
        assert_eq!(
            times > 0,
            expected.contains(&number),
            "{number}: {numbers:?}"
        );
    }
}

fn number<T>(answer: &Result<T, reference::Refusal>) -> usize {
    match answer {
        Ok(_) => 0,
        Err(refusal) => usize::from(refusal.number),
    }
}

#[test]
fn cover_on_any_input() {
    let mut numbers = [0; NUMBERS];
    for seed in 0..4_000 {
        let mut random = Random::new(seed);
        let outline = some_outline(&mut random);
        let (turn, r) = (any_turn(&mut random), any_resolution(&mut random));
        let g = any_gap(&mut random, r);
        let length = random.index(600);
        let answer = check_cover_with_gap(&outline, turn, r, g, length);
        numbers[number(&answer)] += 1;
    }
    all_came_up(&numbers, &[0, 16, 21, 7, 8, 9, 10, 11, 12]);
}

#[test]
fn open_on_any_input() {
    let mut numbers = [0; NUMBERS];
    for seed in 0..2_000 {
        let mut random = Random::new(seed);
        let of = any_figures(&mut random);
        let length = match random.index(3) {
            0 => random.index(70_000),
            _ => strip_length(of.columns, random.index(200)),
        };
        let g = any_gap(&mut random, of.resolution);
        let answer = check_open_with_gap(of.width, of.resolution, of.columns, g, length);
        numbers[number(&answer)] += 1;
    }
    all_came_up(&numbers, &[0, 3, 16, 17, 21, 4]);
}

#[test]
fn place_on_any_input() {
    let mut numbers = [0; NUMBERS];
    for seed in 0..10_000 {
        let mut random = Random::new(seed);
        let mut strip = any_strip(&mut random);
        let outline = some_outline(&mut random);
        let mask = any_mask(&mut random);
        let length = random.index(150);
        let answer = check_place(&mut strip, &outline, mask, length);
        numbers[number(&answer)] += 1;
    }
    all_came_up(&numbers, &[0, 5, 7, 8, 9, 10, 11, 12, 13, 14]);
}

/// (Ask is asked beside each place call: see `check_place`.)
#[test]
fn commit_on_any_input() {
    let mut numbers = [0; NUMBERS];
    for seed in 0..20_000 {
        let mut random = Random::new(seed);
        let mut strip = any_strip(&mut random);
        let outline = some_outline(&mut random);
        let kind = random.pick(&CommitKind::ALL);
        let position = commit_position(&mut random, kind, &strip, &outline);
        let length = random.index(150);
        let answer = check_commit(&mut strip, &outline, position, length);
        numbers[number(&answer)] += 1;
    }
    all_came_up(&numbers, &[0, 5, 7, 8, 9, 10, 11, 12, 18, 14]);
}

#[test]
fn read_and_lay_on_any_input() {
    let (mut read, mut laid) = ([0; NUMBERS], [0; NUMBERS]);
    for seed in 0..6_000 {
        let mut random = Random::new(seed);
        let sheet = any_sheet(&mut random);
        let output = random.index(100);
        read[number(&check_read(&sheet, output))] += 1;
        let n = sheet.get(8).copied().unwrap_or(1);
        let strip = match random.index(4) {
            0 => random.index(100),
            _ => strip_length(n.into(), random.between(1, 40) as usize),
        };
        let lengths = [strip, random.index(40), random.index(200)];
        let g = any_gap(&mut random, 2);
        laid[number(&check_lay_with_gap(&sheet, g, lengths))] += 1;
        let text = reference::lay_text(&sheet);
        assert!(text.starts_with("strip ") || text.starts_with("job refused "));
    }
    all_came_up(&read, &[0, 1, 2, 3, 16, 17, 6, 7, 8, 9, 10, 11, 15]);
    all_came_up(&laid, &[0, 1, 2, 3, 16, 17, 21, 4, 6, 7, 8, 9, 10, 11, 15]);
}

#[test]
fn write_on_any_input() {
    let mut numbers = [0; NUMBERS];
    for seed in 0..6_000 {
        let mut random = Random::new(seed);
        let words = match random.index(4) {
            0 => any_words(&mut random, 60),
            1 => {
                let damage = random.pick(&ListDamage::ALL);
                damaged_list(&mut random, damage).words
            }
            _ => sound_list(&mut random),
        };
        let of = if random.once_in(8) {
            any_figures(&mut random)
        } else {
            small_figures(&mut random)
        };
        let wrn = (of.width, of.resolution, of.columns);
        let length = random.index(400);
        numbers[number(&check_write(wrn, &words, length))] += 1;
    }
    all_came_up(&numbers, &[0, 3, 16, 17, 6, 7, 8, 9, 10, 11, 15]);
}

#[test]
fn empty_buffers() {
    assert_eq!(check_cover(&[], 0, 1, 0), Err(no(7, 1)));
    assert_eq!(check_open(1, 1, 1, 0), Err(no(4, 0)));
    assert_eq!(check_place(&mut [], &[], 0, 0), Err(no(5, 0)));
    assert_eq!(check_ask(&[], &[], 0, 0), Err(no(5, 0)));
    assert_eq!(check_commit(&mut [], &[], at(0, 0, 0), 0), Err(no(5, 0)));
    assert_eq!(check_read(&[], 0), Err(no(1, 0)));
    assert_eq!(check_write((1, 1, 1), &[], 0), Err(no(6, 0)));
    assert_eq!(check_lay(&[], [0, 0, 0]), Err(no(1, 0)));
}

/// `runs` answers nothing where R, gap, turn or a coordinate is out of its limits.
#[test]
fn runs_out_of_limits() {
    assert_eq!(reference::runs(&S, 0, 2, 0), [(0, 0, 4), (1, 0, 4)]);
    assert_eq!(reference::runs(&S, 0, 400, 400).len(), 2);
    assert!(reference::runs(&S, 0, 0, 0).is_empty());
    assert!(reference::runs(&S, 0, 401, 0).is_empty());
    assert!(reference::runs(&S, 0, 2, 401).is_empty());
    assert!(reference::runs(&S, 4, 2, 0).is_empty());
    assert!(reference::runs(&FAR, 0, 2, 0).is_empty());
    assert!(reference::runs(&[], 0, 2, 3).is_empty());
    assert!(reference::runs(&[5], 0, 2, 3).is_empty());
}

#[test]
fn read_path_on_any_input() {
    let mut numbers = [0; NUMBERS];
    for seed in 0..6_000 {
        let mut random = Random::new(seed);
        let path = match random.index(4) {
            0 => any_bytes_of_path(&mut random),
            1 => {
                let mut path = sound_path(&mut random);
                let place = random.index(path.len());
                path[place] = random.word(0, 255) as u8;
                path
            }
            _ => any_path(&mut random),
        };
        let length = random.index(140);
        numbers[number(&check_read_path(&path, length))] += 1;
    }
    all_came_up(&numbers, &[0, 19, 20, 15]);
}

/// Bytes many of which are steps.
fn any_bytes_of_path(random: &mut Random) -> Vec<u8> {
    let length = random.index(600);
    (0..length)
        .map(|_| match random.index(3) {
            0 => random.word(0, 255) as u8,
            _ => random.word(0, 4) as u8,
        })
        .collect()
}

#[test]
fn write_path_on_any_input() {
    let mut numbers = [0; NUMBERS];
    for seed in 0..6_000 {
        let mut random = Random::new(seed);
        let outline = some_outline(&mut random);
        let length = random.index(600);
        numbers[number(&check_write_path(&outline, length))] += 1;
    }
    all_came_up(&numbers, &[0, 7, 8, 15]);
}
