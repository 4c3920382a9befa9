//! Paths of the drawing program: each byte of one by hand, each coordinate beside
//! floats, every shape and every damage.

mod common;
use common::*;
use reference::generate::paths::{
    any_count, any_vertices, bits_of_units, is_accepted, path_of, sound_path_of, step, CLOSE, LINE,
    MOVE, STEP,
};
use reference::generate::{
    any_path, damaged_path, sound_path, CoordinateDamage, PathDamage, Random, ShapeDamage,
};
use reference::path::{bits_of, steps_of, units_of, Step};

/// The triangle (0,0) (2000,0) (0.125,20.5) in millimetres, each byte written out.
const TRIANGLE: [u8; 28] = [
    1, 0, 0, 0, 0, 0, 0, 0, 0, //
    2, 0, 0, 0xFA, 0x44, 0, 0, 0, 0, //
    2, 0, 0, 0, 0x3E, 0, 0, 0xA4, 0x41, //
    3,
];
const ITS_WORDS: [u16; 6] = [0, 0, 16_000, 0, 1, 164];

/// The bits of minus zero.
const MINUS_ZERO: u32 = 0x8000_0000;

/// The triangle with other bits for one of its six coordinates.
fn with_bits(place: usize, bits: u32) -> Vec<u8> {
    let mut path = TRIANGLE.to_vec();
    let start = STEP * (place / 2) + 1 + 4 * (place % 2);
    path[start..start + 4].copy_from_slice(&bits.to_le_bytes());
    path
}

#[test]
fn each_byte_of_a_triangle() {
    assert_eq!(check_read_path(&TRIANGLE, 6), Ok(ITS_WORDS.to_vec()));
    assert_eq!(check_read_path(&TRIANGLE, 9), Ok(ITS_WORDS.to_vec()));
    assert_eq!(check_read_path(&TRIANGLE, 5), Err(no(15, 0)));
    assert_eq!(check_write_path(&ITS_WORDS, 28), Ok(TRIANGLE.to_vec()));
    assert_eq!(check_write_path(&ITS_WORDS, 40), Ok(TRIANGLE.to_vec()));
    assert_eq!(check_write_path(&ITS_WORDS, 27), Err(no(15, 0)));
    let bits = f32::to_bits;
    let steps = [
        Step::Move([0, 0]),
        Step::Line([bits(2_000.0), 0]),
        Step::Line([bits(0.125), bits(20.5)]),
        Step::Close,
    ];
    assert_eq!(steps_of(&TRIANGLE), Some(steps.to_vec()));
}

/// Every number of units is written as the float that it is an eighth of, and read
/// from it; the next floats on either side and those below zero are not accepted.
#[test]
fn every_number_of_units() {
    for units in 0..=16_000 {
        let bits = (f32::from(units) / 8.0).to_bits();
        assert_eq!(bits_of(units), bits, "{units}");
        assert_eq!(units_of(bits), Some(units));
        assert_eq!(units_of(bits + 1), None, "above {units}");
        if units > 0 {
            assert_eq!(units_of(bits - 1), None, "below {units}");
            assert_eq!(units_of(bits | MINUS_ZERO), None, "minus {units}");
        }
    }
    assert_eq!(units_of(MINUS_ZERO), Some(0));
    assert_eq!(units_of(MINUS_ZERO + 1), None);
    assert_eq!(units_of((f32::from(16_001u16) / 8.0).to_bits()), None);
}

/// All patterns with the lower ten bits 0, where every accepted one is, and any others:
/// beside floats.
#[test]
fn patterns_beside_floats() {
    let mut accepted = 0;
    let mut random = Random::new(1);
    for high in 0..1 << 22 {
        let bits = high << 10;
        accepted += u32::from(units_of(bits).is_some());
        for bits in [bits, bits + random.between(1, 1_023) as u32] {
            let eight_times = 8.0 * f64::from(f32::from_bits(bits));
            let units = is_accepted(bits).then_some(eight_times as u16);
            assert_eq!(units_of(bits), units, "{bits:#010x}");
        }
    }
    assert_eq!(accepted, 16_002, "0 to 16,000 and minus zero");
}

#[test]
fn coordinates_by_hand() {
    for (bits, units) in [
        (0, Some(0)),
        (MINUS_ZERO, Some(0)),
        // 1/8, 1/16, 3/16
        (0x3E00_0000, Some(1)),
        (0x3D80_0000, None),
        (0x3E40_0000, None),
        // 2,000, the next ones, 2,000 1/8
        (0x44FA_0000, Some(16_000)),
        (0x44F9_FFFF, None),
        (0x44FA_0001, None),
        (0x44FA_0400, None),
        // Minus 1/8, and 1/8 with the high byte first
        (0xBE00_0000, None),
        (0x0000_003E, None),
        // 2^16, 2^20 and the greatest
        (0x4780_0000, None),
        (0x4980_0000, None),
        (0x7F7F_FFFF, None),
        // Infinite, and no numbers
        (0x7F80_0000, None),
        (0xFF80_0000, None),
        (0x7F80_0001, None),
        (0x7FC0_0000, None),
        (0xFFC0_0000, None),
        (0xFFFF_FFFF, None),
        // Subnormal: the least, the greatest, and the least that is not
        (0x0000_0001, None),
        (0x0040_0000, None),
        (0x007F_FFFF, None),
        (0x0080_0000, None),
        (0x8000_0001, None),
    ] {
        assert_eq!(units_of(bits), units, "{bits:#010x}");
        for place in 0..6 {
            let mut words = ITS_WORDS.to_vec();
            let read = check_read_path(&with_bits(place, bits), 6);
            match units {
                Some(units) => {
                    words[place] = units;
                    assert_eq!(read, Ok(words));
                }
                None => assert_eq!(read, Err(no(20, 0))),
            }
        }
    }
}

/// "Minus zero [...] is never written."
#[test]
fn minus_zero_is_not_written() {
    let path = path_of(&[[MINUS_ZERO; 2]; 3]);
    assert_eq!(check_read_path(&path, 6), Ok(vec![0; 6]));
    let written = check_write_path(&[0; 6], 28);
    assert_eq!(written, Ok(path_of(&[[0; 2]; 3])));
}

/// Every number of lines from 0 to 70.
#[test]
fn every_number_of_lines() {
    for lines in 0..=70 {
        let path = path_of(&vec![[0; 2]; lines + 1]);
        let words = 2 * (lines + 1);
        let read = check_read_path(&path, words);
        match lines {
            2..=63 => assert_eq!(read, Ok(vec![0; words])),
            _ => assert_eq!(read, Err(no(19, 0))),
        }
    }
}

/// Every length of an outline from 0 to 140 words.
#[test]
fn every_length_of_an_outline() {
    for length in 0..=140 {
        let written = check_write_path(&vec![8; length], 700);
        let one = bits_of_units(8);
        match length {
            6..=128 if length % 2 == 0 => {
                assert_eq!(written, Ok(path_of(&vec![[one; 2]; length / 2])));
            }
            _ => assert_eq!(written, Err(no(7, 1))),
        }
    }
}

/// Every step byte in every place of a step, and every cut: only the triangle itself
/// is a path.
#[test]
fn every_step_and_every_cut() {
    for place in [0, 9, 18, 27] {
        for byte in 0..=255 {
            let mut path = TRIANGLE;
            path[place] = byte;
            let read = check_read_path(&path, 6);
            if path == TRIANGLE {
                assert_eq!(read, Ok(ITS_WORDS.to_vec()));
            } else {
                assert_eq!(read, Err(no(19, 0)), "{byte} at {place}");
            }
        }
    }
    for length in 0..TRIANGLE.len() {
        let read = check_read_path(&TRIANGLE[..length], 6);
        assert_eq!(read, Err(no(19, 0)), "{length}");
    }
}

#[test]
fn shapes_by_hand() {
    let [to_move, line, close] = [&TRIANGLE[..9], &TRIANGLE[9..18], &TRIANGLE[27..]];
    for steps in [
        vec![],
        vec![close],
        vec![to_move, close],
        vec![to_move, line, close],
        vec![line, line, line, close],
        vec![to_move, line, line],
        vec![to_move, to_move, line, line, close],
        vec![to_move, line, to_move, line, close],
        vec![to_move, line, line, to_move, close],
        vec![to_move, close, line, line, close],
        vec![to_move, line, line, close, close],
        vec![to_move, line, line, close, line],
        vec![to_move, line, line, close, line, line, close],
        vec![to_move, line, line, close, to_move, line, line, close],
        vec![close, to_move, line, line, close],
        vec![to_move, line, line, close, &[0]],
        vec![to_move, line, line, close, &[0; 9]],
        vec![to_move, line, &line[..5], close],
        vec![to_move, line, line, &[2]],
    ] {
        let path = steps.concat();
        assert_eq!(check_read_path(&path, 200), Err(no(19, 0)), "{path:?}");
    }
    assert!(check_read_path(&[to_move, line, line, close].concat(), 6).is_ok());
}

/// "Gives one that reads back as that outline, with the first vertex as the move." A
/// last vertex at the first stays.
#[test]
fn a_written_path_reads_back() {
    let mut closed = 0;
    for seed in 0..3_000 {
        let mut random = Random::new(seed);
        let vertices = any_count(&mut random);
        let outline = any_vertices(&mut random, vertices);
        closed += usize::from(outline[..2] == outline[2 * vertices - 2..]);
        let path = check_write_path(&outline, 9 * vertices + 1).unwrap();
        let first = [outline[0], outline[1]].map(bits_of_units);
        assert_eq!(path[..STEP], step(MOVE, first));
        assert_eq!(check_read_path(&path, 2 * vertices), Ok(outline));
    }
    assert!(closed > 200, "{closed}");
}

/// Sound paths pass; what is written from their outline reads the same.
#[test]
fn sound_paths_pass() {
    let mut minus = 0;
    for seed in 0..3_000 {
        let mut random = Random::new(seed);
        let path = sound_path(&mut random);
        let outline = check_read_path(&path, 128).expect("a sound path");
        let written = check_write_path(&outline, path.len()).unwrap();
        minus += usize::from(written != path);
        assert_eq!(check_read_path(&written, 128), Ok(outline));
        let vertices = random.between(3, 64) as usize;
        let path = sound_path_of(&mut random, vertices);
        assert_eq!(path.len(), STEP * vertices + 1);
        assert_eq!((path[0], path[STEP]), (MOVE, LINE));
        assert_eq!(path.last(), Some(&CLOSE));
    }
    // With a minus zero.
    assert!((500..2_500).contains(&minus), "{minus}");
}

/// Each damage gets its number, whatever room there is; both get that of the shape.
#[test]
fn damaged_paths_get_their_number() {
    let mut random = Random::new(2);
    let mut check = |damage: PathDamage, number: u16| {
        for _ in 0..100 {
            let damaged = damaged_path(&mut random, damage);
            assert_eq!(damaged.refusal, no(number, 0));
            let length = random.pick(&[0, 5, 128, 900]);
            let read = check_read_path(&damaged.bytes, length);
            assert_eq!(read, Err(damaged.refusal), "{damage:?}");
        }
    };
    for shape in ShapeDamage::ALL {
        check(PathDamage::Shape(shape), 19);
        for coordinate in CoordinateDamage::ALL {
            check(PathDamage::Both(shape, coordinate), 19);
        }
    }
    for coordinate in CoordinateDamage::ALL {
        check(PathDamage::Coordinate(coordinate), 20);
    }
}

#[test]
fn any_paths_are_of_every_fate() {
    let mut numbers = [0; 21];
    let mut random = Random::new(3);
    for _ in 0..3_000 {
        let path = any_path(&mut random);
        let length = random.index(140);
        let number = check_read_path(&path, length).map_or_else(|no| no.number, |_| 0);
        numbers[usize::from(number)] += 1;
    }
    println!("{numbers:?}");
    for number in [0, 15, 19, 20] {
        assert!(numbers[number] > 50, "{number}: {numbers:?}");
    }
}
