//! The strip: well formed or not, its runs, and open.

mod common;
use common::*;
use reference::generate::{random_runs, strip_with, Damage, Random, StripFigures};
use reference::{same_strip, strip_runs, well_formed};

/// W 10, R 2, N 2, gap 1, Q 3: runs 0–4 and 6–8 in column 0, record 3 free.
const SMALL: [u16; 19] = [
    10, 2, 2, 3, 1, // W, R, N, first free record, gap
    1, 0, // each column's first record
    0, 0, 4, 2, // column, low, high, next
    0, 6, 8, 0, //
    2, 0, 0, 0,
];

/// For each word of SMALL, the values it can have in a well-formed strip while
/// the others stay.
const VALUES: [std::ops::RangeInclusive<u16>; 19] = [
    8..=16_000, // W is at least the greatest high
    1..=400,    // R
    2..=2,      // N
    3..=3,      // first free
    0..=400,    // gap
    1..=1,      // column 0
    0..=0,      // column 1
    0..=0,      // record 1: column
    0..=3,      // low < high
    1..=5,      // high > low, and less than the next low
    2..=2,      // next
    0..=0,      // record 2: column
    5..=7,      // low greater than the high before it
    7..=10,     // high ≤ W
    0..=0,      // next
    2..=2,      // record 3: "A free record has column N"
    0..=0,      // "low
    0..=0,      // and high 0"
    0..=0,      // next
];

#[test]
fn one_word_changed_in_every_way() {
    for (place, values) in VALUES.iter().enumerate() {
        for value in 0..=65_535 {
            let mut strip = SMALL;
            strip[place] = value;
            assert_eq!(
                well_formed(&strip),
                values.contains(&value),
                "{place} {value}"
            );
        }
    }
}

#[test]
fn lengths() {
    for length in 0..19 {
        assert!(!well_formed(&SMALL[..length]), "{length}");
    }
    for longer in 1..=20 {
        let strip = [&SMALL[..], &vec![0; longer]].concat();
        assert!(!well_formed(&strip), "{longer}");
    }
    // A fourth record in the free chain.
    let mut strip = [&SMALL[..], &[2, 0, 0, 0]].concat();
    assert!(!well_formed(&strip), "in no chain");
    strip[18] = 4;
    assert!(well_formed(&strip));
    // Q 16,000 and 16,001, all free, in a chain.
    for (q, expected) in [(16_000, true), (16_001, false)] {
        let mut strip = vec![10, 2, 1, 1, 400, 0];
        for number in 1..=q {
            strip.extend([1, 0, 0, if number == q { 0 } else { number + 1 }]);
        }
        assert_eq!(well_formed(&strip), expected);
    }
    // Q 0.
    assert!(!well_formed(&[10, 2, 1, 0, 0, 0]));
    // The form before S-4: without the gap.
    let former = [&SMALL[..4], &SMALL[5..]].concat();
    assert!(!well_formed(&former));
}

#[test]
fn chains_that_meet_or_loop() {
    let with = |changes: &[(usize, u16)]| {
        let mut strip = SMALL;
        for &(place, word) in changes {
            strip[place] = word;
        }
        well_formed(&strip)
    };
    assert!(!with(&[(14, 1)]), "column 0 loops");
    assert!(!with(&[(14, 2)]), "record 2 after itself");
    assert!(!with(&[(18, 3)]), "the free chain loops");
    assert!(!with(&[(6, 2), (11, 1)]), "record 2 in two columns");
    assert!(!with(&[(3, 0)]), "record 3 in no chain");
    assert!(!with(&[(5, 2)]), "record 1 in no chain");
    // Record 2 moved to column 1, properly.
    assert!(with(&[(10, 0), (6, 2), (11, 1)]));
    // Record 2 freed, properly: at either place of the free chain.
    assert!(with(&[(10, 0), (11, 2), (12, 0), (13, 0), (18, 2)]));
    assert!(with(&[(10, 0), (11, 2), (12, 0), (13, 0), (14, 3), (3, 2)]));
    // Record 3 used, no record free.
    assert!(with(&[(3, 0), (6, 3), (15, 1), (16, 0), (17, 10)]));
    // The two runs in the other order of record numbers.
    assert!(with(&[
        (5, 2),
        (8, 6),
        (9, 8),
        (10, 0),
        (12, 0),
        (13, 4),
        (14, 1)
    ]));
}

#[test]
fn the_runs_of_a_strip() {
    assert_eq!(strip_runs(&SMALL), [vec![(0, 4), (6, 8)], vec![]]);
    assert!(strip_runs(&[]).is_empty());
}

#[test]
fn every_damage_makes_a_strip_ill_formed() {
    for damage in Damage::ALL {
        for seed in 0..100 {
            let mut random = Random::new(seed);
            let mut strip = reference::generate::damaged_strip(&mut random, damage);
            assert!(!well_formed(&strip), "{damage:?} {seed}");
            assert!(strip_runs(&strip).is_empty());
            assert_eq!(check_place(&mut strip, &S, 1, 90), Err(no(5, 0)));
        }
    }
}

/// "Which record number carries which run, and the order of the free chain, is
/// left open"
#[test]
fn record_numbers_are_left_open() {
    let mut differ = 0;
    for seed in 0..500 {
        let mut random = Random::new(seed);
        let figures = StripFigures {
            w: random.word(1, 20),
            r: random.word(1, 5),
            n: random.word(1, 8),
            g: random.word(0, 3),
            q: random.between(1, 20) as usize,
        };
        let runs = random_runs(&mut random, figures.w, figures.n, figures.q);
        let a = strip_with(&mut random, figures, &runs);
        let b = strip_with(&mut random, figures, &runs);
        assert!(well_formed(&a) && well_formed(&b));
        assert_eq!(strip_runs(&a), runs);
        assert!(same_strip(&a, &b));
        differ += usize::from(a != b);
        // The same call on both gives the same runs and the same answer.
        let (mut a, mut b) = (a, b);
        let outline = reference::generate::sound_outline(&mut random, 15, 5);
        let answer = check_place(&mut a, &outline, 15, 300);
        assert_eq!(check_place(&mut b, &outline, 15, 300), answer);
        assert!(same_strip(&a, &b));
    }
    assert!(differ > 300, "{differ}");
}

#[test]
fn strips_that_are_not_the_same() {
    let strip = strip_of(10, 2, 4, &[&[(0, 4), (6, 8)], &[]]);
    assert!(same_strip(&strip, &strip));
    for other in [
        strip_of(11, 2, 4, &[&[(0, 4), (6, 8)], &[]]),
        strip_of(10, 3, 4, &[&[(0, 4), (6, 8)], &[]]),
        strip_of(10, 2, 5, &[&[(0, 4), (6, 8)], &[]]),
        strip_of(10, 2, 4, &[&[(0, 4), (6, 8)], &[], &[]]),
        strip_of(10, 2, 4, &[&[(0, 4), (6, 9)], &[]]),
        strip_of(10, 2, 4, &[&[(0, 4)], &[(6, 8)]]),
        strip_of(10, 2, 4, &[&[], &[]]),
        strip_with_gap(10, 2, 1, 4, &[&[(0, 4), (6, 8)], &[]]),
        strip_with_gap(10, 2, 400, 4, &[&[(0, 4), (6, 8)], &[]]),
        Vec::new(),
    ] {
        assert!(!same_strip(&strip, &other));
        assert!(!same_strip(&other, &strip));
    }
    assert!(!same_strip(&[], &[]), "neither is well formed");
}

/// "Opening makes all columns empty", whatever the words were.
#[test]
fn open_makes_all_columns_empty() {
    let mut strip = strip_of(10, 2, 4, &[&[(0, 4), (6, 8)], &[(1, 2)]]);
    reference::open(7, 3, 2, 0, &mut strip).unwrap();
    assert!(same_strip(&strip, &strip_of(7, 3, 4, &[&[], &[]])));
    reference::open(7, 3, 2, 400, &mut strip).unwrap();
    let with_gap = strip_with_gap(7, 3, 400, 4, &[&[], &[]]);
    assert!(same_strip(&strip, &with_gap));
    // A length that is right for another N too.
    let mut strip = vec![9; 5 + 6 + 4];
    reference::open(7, 3, 6, 0, &mut strip).unwrap();
    assert!(same_strip(&strip, &opened(7, 3, 6, 1)));
    let mut strip = vec![9; 5 + 2 + 8];
    reference::open(7, 3, 2, 0, &mut strip).unwrap();
    assert!(same_strip(&strip, &opened(7, 3, 2, 2)));
}
