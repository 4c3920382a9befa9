//! Question 5, the runs read from a strip, the strip written anew, and open: the
//! engine against the reference program, each buffer directly before a page that
//! cannot be read. The order of the records is the engine's choice, and it is
//! compared too: 1, 2, 3 by column then low, the free ones after them, rising.

use engine::guard::Room;
use engine::plain_strip;
use reference::figures::NUMBERS;
use reference::generate::{
    any_figures, any_gap, change_words, damaged_strip, empty_strip, random_runs, sound_strip,
    strip_with, Damage, Random, StripFigures,
};
use reference::strip::put_runs;
use reference::{strip_runs, well_formed, Refusal};

/// More than the longest strip of question 4 has.
const MOST_WORDS: usize = 69_000;

/// The engine beside the reference program, on one strip after another.
struct Both {
    room: Room,
    strips: u32,
    ill_formed: u32,
}

impl Both {
    fn new() -> Both {
        Both {
            room: Room::new(MOST_WORDS),
            strips: 0,
            ill_formed: 0,
        }
    }

    /// Question 5.
    fn ask(&mut self, strip: &[u16]) -> bool {
        let sound = well_formed(strip);
        self.strips += 1;
        self.ill_formed += u32::from(!sound);
        let lent = self.room.lend(strip);
        assert_eq!(engine::well_formed(lent), sound, "{:?}", shown(strip));
        let plain = plain_strip::decode(strip).is_some();
        assert_eq!(plain, sound, "plain: {:?}", shown(strip));
        sound
    }

    /// The number of runs and the strip written anew.
    fn read_on(&mut self, strip: &[u16], sound: bool) {
        let lent = self.room.lend(strip);
        let runs = sound.then(|| strip_runs(strip));
        let count = runs
            .as_ref()
            .map(|runs| runs.iter().map(Vec::len).sum::<usize>() as u32);
        assert_eq!(engine::decoded(lent), count, "runs of {:?}", shown(strip));
        assert!(*lent == *strip, "reading wrote to {:?}", shown(strip));
        let refused = Err(Refusal {
            number: 5,
            ordinal: 0,
        });
        let answer = if sound { Ok(()) } else { refused };
        assert_eq!(engine::rewrite(lent), answer, "{:?}", shown(strip));
        let expected = runs.map_or(strip.to_vec(), |runs| written(strip, &runs));
        assert!(*lent == *expected, "words of {:?} anew", shown(strip));
        assert!(self.room.kept_before(strip.len()), "{:?}", shown(strip));
        let mut plain = strip.to_vec();
        assert_eq!(plain_strip::rewrite(&mut plain), sound);
        assert!(plain == expected, "plain: {:?} anew", shown(strip));
    }

    /// All of it; the answer is question 5's.
    fn read(&mut self, strip: &[u16]) -> bool {
        let sound = self.ask(strip);
        self.read_on(strip, sound);
        sound
    }

    /// Where strips are many: question 5 of all, the rest of those that are well
    /// formed and of some others.
    fn skim(&mut self, strip: &[u16]) {
        let sound = self.ask(strip);
        if sound || self.strips.is_multiple_of(16) {
            self.read_on(strip, sound);
        }
    }

    /// Open on a strip of so many other words; its answer.
    fn open(&mut self, w: u16, r: u16, n: u16, g: u16, words: usize) -> Result<(), Refusal> {
        let before: Vec<u16> = (0..words).map(|place| !place as u16).collect();
        let (mut expected, mut plain) = (before.clone(), before.clone());
        let answer = reference::open(w, r, n, g, &mut expected);
        let lent = self.room.lend(&before);
        let case = format!("open W {w} R {r} N {n} gap {g} of {words} words");
        assert_eq!(engine::open(w, r, n, g, lent), answer, "{case}");
        assert!(*lent == *expected, "words after {case}");
        assert!(self.room.kept_before(words), "before {case}");
        assert_eq!(plain_strip::open(w, r, n, g, &mut plain), answer.is_ok());
        assert!(plain == expected, "plain: {case}");
        answer
    }
}

/// What a message shows of a strip.
fn shown(strip: &[u16]) -> &[u16] {
    &strip[..strip.len().min(200)]
}

/// The strip of the same figures with these runs.
fn written(strip: &[u16], runs: &[Vec<(u16, u16)>]) -> Vec<u16> {
    let mut anew = strip.to_vec();
    put_runs(&mut anew, strip[0], strip[1], strip[2], strip[4], runs);
    anew
}

#[test]
fn strips_of_every_kind() {
    let mut both = Both::new();
    let mut random = Random::new(21);
    let mut damaged = [0; Damage::ALL.len()];
    let (mut sound, mut changed) = (0, [0; 2]);
    for round in 0..3_200 {
        for (place, damage) in Damage::ALL.into_iter().enumerate() {
            // Strips of 64,000 words are for few rounds.
            if damage == Damage::TooManyRecords && round % 40 != 0 {
                continue;
            }
            let strip = damaged_strip(&mut random, damage);
            assert!(!both.read(&strip), "{damage:?}");
            damaged[place] += 1;
        }
        for _ in 0..13 {
            let mut strip = sound_strip(&mut random);
            assert!(both.read(&strip));
            sound += 1;
            change_words(&mut random, &mut strip);
            changed[usize::from(both.read(&strip))] += 1;
        }
    }
    println!("damaged {damaged:?}, sound {sound}, changed: ill formed, well formed {changed:?}");
    println!("strips {}, ill formed {}", both.strips, both.ill_formed);
    assert!(damaged.iter().all(|&times| times >= 80), "{damaged:?}");
    assert!(changed[0] > 20_000 && changed[1] > 2_000, "{changed:?}");
    assert!(both.strips > 210_000 && both.ill_formed > 160_000 && sound > 40_000);
}

/// Every strip of W 3, N 1, gap 400, Q 2 whose other words go one past what they may
/// be.
#[test]
fn every_small_strip() {
    let mut both = Both::new();
    let numbers = 0..=3;
    let mut records = Vec::new();
    for column in 0..=2 {
        for low in 0..=4 {
            for high in 0..=4 {
                records.extend(numbers.clone().map(|next| [column, low, high, next]));
            }
        }
    }
    for free in numbers.clone() {
        for head in numbers.clone() {
            for first in &records {
                for second in &records {
                    let leading = [3, 1, 1, free, 400, head];
                    both.skim(&[&leading[..], first, second].concat());
                }
            }
        }
    }
    assert_eq!(both.strips, 1_440_000);
    // Both records free, in 2 orders; one of 6 runs in either record; the runs 0–1 and 2–3 in 2 orders.
    assert_eq!(both.strips - both.ill_formed, 2 + 12 + 2);
}

/// W 10, R 2, N 2, gap 7, Q 4: runs 0–4 and 6–8 in column 0, 1–2 in column 1, in an
/// order other than the engine's.
const SMALL: [u16; 23] = [
    10, 2, 2, 3, 7, // W, R, N, first free record, gap
    4, 1, // each column's first record
    1, 1, 2, 0, // column, low, high, next
    0, 6, 8, 0, //
    2, 0, 0, 0, //
    0, 0, 4, 2,
];

#[test]
fn the_order_of_the_records() {
    let mut strip = SMALL;
    assert_eq!(engine::rewrite(&mut strip), Ok(()));
    assert_eq!(
        strip,
        [
            10, 2, 2, 4, 7, //
            1, 3, //
            0, 0, 4, 2, //
            0, 6, 8, 0, //
            1, 1, 2, 0, //
            2, 0, 0, 0,
        ]
    );
}

#[test]
fn one_word_changed_in_every_way() {
    let mut both = Both::new();
    for place in 0..SMALL.len() {
        for word in 0..=65_535 {
            let mut strip = SMALL;
            strip[place] = word;
            both.skim(&strip);
        }
    }
    let sound = both.strips - both.ill_formed;
    println!("strips {}, well formed {sound}", both.strips);
    // W 8 to 16,000, R 1 to 400 and the gaps 0 to 400 alone give 16,794.
    assert!(sound > 16_794 && both.ill_formed > 1_400_000);
}

#[test]
fn every_length() {
    let mut both = Both::new();
    let mut random = Random::new(22);
    for _ in 0..300 {
        let strip = sound_strip(&mut random);
        for words in 0..strip.len() {
            assert!(!both.read(&strip[..words]));
        }
        for more in 1..=12 {
            let longer = [&strip[..], &vec![0; more]].concat();
            assert!(!both.read(&longer));
        }
        for words in 0..20 {
            let zeros = vec![0; words];
            assert!(!both.read(&zeros));
        }
    }
    println!("strips {}", both.strips);
    assert!(both.strips > 15_000);
}

fn with_most(random: &mut Random, w: u16, n: u16, q: usize, most: usize) -> Vec<u16> {
    let (r, g) = (20, random.word(0, 400));
    let figures = StripFigures { w, r, n, g, q };
    let runs = random_runs(random, w, n, most);
    strip_with(random, figures, &runs)
}

/// Strips up to the limits: empty, half full and full, each also with a few words
/// changed anywhere.
#[test]
fn large_strips() {
    let mut both = Both::new();
    let mut random = Random::new(23);
    let (mut changed, mut full) = ([0; 2], 0);
    for (w, n, q) in [
        (8_000, 1_000, 4_000),
        (16_000, 4_096, 16_000),
        (16_000, 1, 16_000),
        (16_000, 4_096, 1),
        (1, 4_096, 4_096),
        (16_000, 4_095, 15_999),
    ] {
        for most in [0, 1, q / 2, q - 1, q] {
            let strip = with_most(&mut random, w, n, q, most);
            assert!(both.read(&strip), "W {w} N {n} Q {q}");
            let runs = strip_runs(&strip);
            assert!(both.read(&written(&strip, &runs)));
            // As many records as runs.
            let q = runs.iter().map(Vec::len).sum();
            if q > 0 {
                let (r, g) = (400, 400);
                let figures = StripFigures { w, r, n, g, q };
                let strip = strip_with(&mut random, figures, &runs);
                assert_eq!(strip[3], 0);
                assert!(both.read(&strip));
                full += 1;
            }
            for _ in 0..12 {
                let mut strip = strip.clone();
                change_words(&mut random, &mut strip);
                changed[usize::from(both.read(&strip))] += 1;
            }
        }
    }
    println!("full {full}, changed: ill formed, well formed {changed:?}");
    assert!(full >= 20 && changed[0] > 100 && changed[1] > 5);
}

/// W, R, N and gap at and past their limits, with lengths at and past those of
/// question 4.
#[test]
fn open_at_every_limit() {
    let mut both = Both::new();
    let mut numbers = [0; NUMBERS];
    for w in [0, 1, 2, 15_999, 16_000, 16_001, 32_768, 65_535] {
        for r in [0, 1, 2, 399, 400, 401, 65_535] {
            for n in [0, 1, 2, 4_095, 4_096, 4_097, 65_535] {
                for q in [0, 1, 2, 15_999, 16_000, 16_001] {
                    // The longest strips, once for each N.
                    if q > 2 && (r, w) != (1, 16_000) && (r, w) != (401, 1) {
                        continue;
                    }
                    let least = 5 + usize::from(n.min(4_096)) + 4 * q;
                    let gaps = match q {
                        1 => &[0, 1, 400, 401, 402, 65_535][..],
                        _ => &[0],
                    };
                    for words in least - 3..=least + 3 {
                        for &g in gaps {
                            let answer = both.open(w, r, n, g, words);
                            numbers[answer.map_or_else(|no| usize::from(no.number), |()| 0)] += 1;
                        }
                    }
                }
            }
        }
    }
    println!("granted, 3, 4, 16, 17 and 21: {numbers:?}");
    // Four each of W, R and N in their limits with Q 1, thrice, and 2; four N with Q 15,999 and 16,000.
    assert_eq!(numbers[0], 4 * 4 * 4 * 4 + 4 * 2);
    assert!(numbers[3] > 4_000 && numbers[16] > 1_800 && numbers[17] > 1_000);
    // Each of seven lengths with three gaps over the limit.
    assert_eq!(numbers[21], 4 * 4 * 4 * 7 * 3);
    assert!(numbers[4] > 1_200);
}

#[test]
fn open_with_every_length() {
    let mut both = Both::new();
    let mut granted = 0;
    for n in 1..=40 {
        for words in 0..=200 {
            granted += u32::from(both.open(100, 10, n, 40, words).is_ok());
        }
    }
    // From 9 + N words on, each fourth length.
    let expected: u32 = (1..=40).map(|n| (200 - 9 - n) / 4 + 1).sum();
    assert_eq!(granted, expected);
}

#[test]
fn open_with_any_figures() {
    let mut both = Both::new();
    let mut random = Random::new(24);
    let mut numbers = [0; NUMBERS];
    for _ in 0..20_000 {
        let figures = any_figures(&mut random);
        let (w, r, n) = (figures.width, figures.resolution, figures.columns);
        let q = random.index(60);
        let words = match random.index(4) {
            0 => random.index(300),
            _ => 5 + usize::from(n.min(4_097)) + 4 * q,
        };
        let g = any_gap(&mut random, r);
        let answer = both.open(w, r, n, g, words);
        numbers[answer.map_or_else(|no| usize::from(no.number), |()| 0)] += 1;
    }
    println!("granted, 3, 4, 16, 17 and 21: {numbers:?}");
    assert!(numbers[0] > 2_000);
    for number in [3, 16, 17, 21, 4] {
        assert!(numbers[number] > 1_500, "{number}");
    }
}

/// An opened strip is well formed and has no run, whatever words it had.
#[test]
fn what_open_leaves() {
    let mut random = Random::new(25);
    for (n, q) in [(1, 1), (7, 30), (1_000, 4_000), (4_096, 16_000)] {
        let mut strip = empty_strip(&mut random, n, q);
        assert_eq!(engine::open(16_000, 400, n, 400, &mut strip), Ok(()));
        assert!(engine::well_formed(&strip));
        assert_eq!(engine::decoded(&strip), Some(0));
        let opened = strip.clone();
        assert_eq!(engine::rewrite(&mut strip), Ok(()));
        assert!(strip == opened);
    }
}
