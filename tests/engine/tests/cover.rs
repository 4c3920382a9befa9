//! The engine's cover against the reference program's: answer and every word of
//! the output, with each buffer directly before a page that cannot be read.

use engine::guard::Guarded;
use engine::{data, plain};
use reference::figures::NUMBERS;
use reference::generate::{
    any_gap, any_outline, any_resolution, any_turn, outline, small_gap, sound_gap, OutlineKind,
    Random,
};

/// One call on both, with an output of so many words; the number it answers, 0
/// for granted.
fn same(words: &[u16], turn: u16, r: u16, g: u16, room: usize) -> usize {
    let case = format!("{words:?} turn {turn} R {r} gap {g} room {room}");
    let before: Vec<u16> = (0..room).map(|i| i as u16 ^ 0x5A5A).collect();
    let mut expected = before.clone();
    let answer = reference::cover(words, turn, r, g, &mut expected);
    let lent = Guarded::new(words);
    let mut output = Guarded::new(&before);
    let ours = engine::cover(&lent, turn, r, g, &mut output);
    assert_eq!(ours, answer, "{case}");
    assert!(*output == *expected, "output of {case}");
    assert!(*lent == *words, "the outline was written");
    let mut quick = before;
    let plain = plain::cover(words, turn, r, g, &mut quick);
    assert_eq!(plain, answer, "plain: {case}");
    assert_eq!(quick, expected, "plain");
    answer.map_or_else(|refusal| usize::from(refusal.number), |_| 0)
}

/// Rooms that are right, short by one, longer, and any; the number answered.
fn rooms(random: &mut Random, words: &[u16], turn: u16, r: u16, g: u16) -> usize {
    let mut large = vec![0; if g == 0 { 6_000 } else { 60_000 }];
    let needed = match reference::cover(words, turn, r, g, &mut large) {
        Ok(runs) => 3 * runs as usize,
        Err(_) => 9,
    };
    let room = match random.index(5) {
        0 => needed - 1,
        1 => needed + random.index(5),
        2 => random.index(needed + 1),
        _ => needed,
    };
    same(words, turn, r, g, room)
}

#[test]
fn small_outlines_of_every_kind() {
    let mut random = Random::new(11);
    let mut numbers = [0; NUMBERS];
    for i in 0..110_000 {
        let kind = OutlineKind::ALL[i % OutlineKind::ALL.len()];
        if kind == OutlineKind::AtLimit {
            continue;
        }
        let size = if i % 50 == 0 {
            random.word(13, 60)
        } else {
            random.word(2, 12)
        };
        let words = outline(&mut random, kind, size);
        let (turn, r) = (any_turn(&mut random), any_resolution(&mut random));
        let g = match random.index(12) {
            0 => any_gap(&mut random, r),
            1..=4 => small_gap(&mut random, r.clamp(1, 400)),
            _ => 0,
        };
        numbers[rooms(&mut random, &words, turn, r, g)] += 1;
    }
    println!("numbers {numbers:?}");
    for number in [0, 16, 21, 7, 8, 9, 10, 11, 12] {
        assert!(numbers[number] > 1_000, "{number}: {numbers:?}");
    }
}

#[test]
fn every_resolution() {
    let mut random = Random::new(12);
    for r in 1..=400 {
        for _ in 0..8 {
            let kind = random.pick(&OutlineKind::MOSTLY_SOUND);
            let size = random.word(20, 500);
            let words = outline(&mut random, kind, size);
            let turn = random.word(0, 3);
            let g = if random.once_in(2) {
                sound_gap(&mut random, r)
            } else {
                0
            };
            rooms(&mut random, &words, turn, r, g);
        }
    }
}

/// Each gap from 0 to 400, at R 1, around the gap and any; then gaps over 400, which
/// come after 16 and before all that is wrong with the outline.
#[test]
fn every_gap() {
    let mut random = Random::new(16);
    for g in 0..=400u16 {
        let near = random.word(g.saturating_sub(2).max(1), (g + 2).min(400));
        for r in [1, near, random.word(1, 400)] {
            let kind = random.pick(&OutlineKind::MOSTLY_SOUND);
            let size = random.word(2, 90);
            let words = outline(&mut random, kind, size);
            let turn = random.word(0, 3);
            rooms(&mut random, &words, turn, r, g);
        }
    }
    for g in (401..2_000).chain([32_768, 65_534, 65_535]) {
        let words = any_outline(&mut random);
        let turn = any_turn(&mut random);
        assert_eq!(same(&words, turn, random.word(1, 400), g, 9), 21);
        assert_eq!(same(&words, turn, 0, g, 9), 16);
    }
}

#[test]
fn outlines_of_any_size() {
    let mut random = Random::new(13);
    for _ in 0..400 {
        let words = any_outline(&mut random);
        let (turn, r) = (random.word(0, 3), random.word(1, 400));
        let g = sound_gap(&mut random, r);
        rooms(&mut random, &words, turn, r, g);
    }
}

#[test]
fn outlines_at_the_limit() {
    let mut random = Random::new(14);
    for kind in [
        OutlineKind::AtLimit,
        OutlineKind::FullStar,
        OutlineKind::Spur,
        OutlineKind::Zigzag,
    ] {
        for _ in 0..2 {
            let words = outline(&mut random, kind, 16_000);
            let (turn, r) = (random.word(0, 3), random.word(40, 400));
            for g in [0, random.word(1, 399), 400] {
                rooms(&mut random, &words, turn, r, g);
            }
        }
    }
}

#[test]
fn public_outlines() {
    let mut random = Random::new(15);
    for words in data::all() {
        for turn in 0..4 {
            let r = random.word(1, 100);
            let g = if turn % 2 == 1 {
                sound_gap(&mut random, r)
            } else {
                0
            };
            rooms(&mut random, &words, turn, r, g);
        }
    }
}

/// A band of 64 vertices that goes to and fro over 16,000 by 15,500 units: 495,010 runs, more than 16 bits hold.
#[test]
fn the_largest_number_of_runs() {
    let vertices = reference::generate::outlines::zigzag_of(32, 500, 1, 16_000);
    let words: Vec<u16> = vertices
        .iter()
        .flat_map(|&(x, y)| [x as u16, y as u16])
        .collect();
    let mut small = Guarded::new(&[7; 3]);
    let refused = engine::cover(&words, 0, 1, 0, &mut small);
    assert_eq!(refused.map_err(|no| no.number), Err(12));
    assert_eq!(*small, [7; 3]);
    let mut expected = vec![7; 1_536_001];
    let runs = reference::cover(&words, 0, 1, 0, &mut expected).expect("covered");
    assert_eq!(runs, 495_010);
    let mut output = Guarded::new(&vec![7; 1_536_001]);
    assert_eq!(engine::cover(&words, 0, 1, 0, &mut output), Ok(runs));
    assert!(*output == *expected);
    // With gaps, up to row 15,901 and column 16,400.
    for g in [1, 40, 400] {
        let needed = 3 * reference::runs(&words, 0, 1, g).len();
        assert!(needed > 900_000, "{needed}");
        assert_eq!(same(&words, 0, 1, g, needed - 1), 12);
        assert_eq!(same(&words, 0, 1, g, needed), 0);
    }
}
