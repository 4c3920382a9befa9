//! Paths read and written against the reference program: answer and every word or
//! byte of the output and of the input. Each buffer stands at a page that cannot be
//! read or one unit from it, so bytes at even and at odd addresses; now and then what
//! is lent to be read cannot be written. What is granted goes the round through the
//! engine: a path read, written and read, an outline written and read.

use engine::guard::{End, Room};
use reference::figures::NUMBERS;
use reference::generate::paths::{
    any_count, any_vertices, bits_of_units, path_of, sound_path_of, step, CLOSE, LINE, MOVE, STEP,
};
use reference::generate::{
    any_outline, damaged_path, sound_path, CoordinateDamage, PathDamage, Random, ShapeDamage,
};
use reference::path::units_of;
use reference::Refusal;

/// The words of the longest outline.
const ENOUGH: usize = 128;
/// The bytes of its path.
const LONGEST: usize = STEP * 64 + 1;

const MINUS: u32 = 0x8000_0000;

/// How often each number came; 0 is granted.
type Numbers = [u32; NUMBERS];

/// The engine beside the reference program, on one call after another.
struct Both {
    random: Random,
    path: Room<u8>,
    words: Room<u16>,
    outline: Room<u16>,
    bytes: Room<u8>,
    reads: Numbers,
    writes: Numbers,
    rounds: u32,
    /// What the last read and the last write left in their outputs.
    left_words: Vec<u16>,
    left_bytes: Vec<u8>,
    /// How often bytes stood at an even and at an odd address: those of a path that
    /// was read, and those of one that was written.
    addresses: [[u32; 2]; 2],
}

/// What an output holds before a call: no byte and no word is 0, so that one cleared
/// shows.
fn other_words(count: usize) -> Vec<u16> {
    (0..count).map(|place| 0xA5C3 ^ place as u16).collect()
}

fn other_bytes(count: usize) -> Vec<u8> {
    (0..count).map(|place| 5 + (place % 251) as u8).collect()
}

fn number<T>(answer: &Result<T, Refusal>) -> usize {
    answer.as_ref().map_or_else(|no| no.number.into(), |_| 0)
}

fn at<T>(buffer: &[T]) -> usize {
    buffer.as_ptr().addr() % 2
}

impl Both {
    fn new(seed: u64) -> Both {
        Both {
            random: Random::new(seed),
            path: Room::new(4_000),
            words: Room::new(1_000),
            outline: Room::new(1_000),
            bytes: Room::new(2_000),
            reads: [0; NUMBERS],
            writes: [0; NUMBERS],
            rounds: 0,
            left_words: Vec::new(),
            left_bytes: Vec::new(),
            addresses: [[0; 2]; 2],
        }
    }

    /// One read with an output of so many words.
    fn read(&mut self, path: &[u8], words: usize) -> Result<u32, Refusal> {
        let case = || format!("{words} words for {path:02x?}");
        let [path_end, end] = [(); 2].map(|()| self.random.pick(&End::ALL));
        let mut after = other_words(words);
        let output = self.words.lend_at(end, &after);
        let answer = reference::read_path(path, &mut after);
        let mut call = |lent: &[u8]| (at(lent), engine::read_path(lent, output));
        let (odd, ours) = match self.random.once_in(16) {
            true => self.path.lend_to_read(path_end, path, call),
            false => call(self.path.lend_at(path_end, path)),
        };
        assert_eq!(ours, answer, "{}", case());
        assert!(self.words.held_at(end, words) == after, "{}", case());
        let lent_path = self.path.held_at(path_end, path.len());
        assert!(lent_path == path, "path: {}", case());
        let kept = self.words.kept_at(end, words) && self.path.kept_at(path_end, path.len());
        assert!(kept, "beside a buffer: {}", case());
        self.left_words = after;
        self.addresses[0][odd] += 1;
        self.reads[number(&answer)] += 1;
        answer
    }

    /// One write with an output of so many bytes.
    fn write(&mut self, outline: &[u16], bytes: usize) -> Result<u32, Refusal> {
        let case = || format!("{bytes} bytes for {outline:?}");
        let [outline_end, end] = [(); 2].map(|()| self.random.pick(&End::ALL));
        let mut after = other_bytes(bytes);
        let output = self.bytes.lend_at(end, &after);
        self.addresses[1][at(output)] += 1;
        let answer = reference::write_path(outline, &mut after);
        let mut call = |lent: &[u16]| engine::write_path(lent, output);
        let ours = match self.random.once_in(16) {
            true => self.outline.lend_to_read(outline_end, outline, call),
            false => call(self.outline.lend_at(outline_end, outline)),
        };
        assert_eq!(ours, answer, "{}", case());
        assert!(self.bytes.held_at(end, bytes) == after, "{}", case());
        let lent_outline = self.outline.held_at(outline_end, outline.len());
        assert!(lent_outline == outline, "outline: {}", case());
        let kept =
            self.bytes.kept_at(end, bytes) && self.outline.kept_at(outline_end, outline.len());
        assert!(kept, "beside a buffer: {}", case());
        self.left_bytes = after;
        self.writes[number(&answer)] += 1;
        answer
    }

    /// The engine's own path of an outline that passes, read back.
    fn go_round(&mut self, outline: &[u16]) {
        let size = STEP * (outline.len() / 2) + 1;
        assert_eq!(self.write(outline, size), Ok(size as u32));
        let path = self.left_bytes.clone();
        let read = self.read(&path, outline.len());
        assert_eq!(read, Ok(outline.len() as u32));
        assert_eq!(self.left_words, outline);
        self.rounds += 1;
    }

    /// A path: with words enough; if it is granted, with other outputs too, and its
    /// outline goes the round.
    fn take_path(&mut self, path: &[u8]) -> Result<u32, Refusal> {
        let answer = self.read(path, ENOUGH);
        let Ok(words) = answer else {
            let few = self.random.pick(&[0, 1, 5, 6, 900]);
            assert_eq!(self.read(path, few), answer, "whatever room there is");
            return answer;
        };
        let length = words as usize;
        let outline = self.left_words[..length].to_vec();
        let short = self.read(path, length - 1);
        assert_eq!(number(&short), 15);
        let other = match self.random.index(3) {
            0 => length,
            1 => length + self.random.index(9),
            _ => self.random.index(length),
        };
        self.read(path, other).ok();
        self.go_round(&outline);
        answer
    }

    /// An outline: with bytes enough; if it is granted, with other outputs too, and
    /// it goes the round.
    fn take_outline(&mut self, outline: &[u16]) -> Result<u32, Refusal> {
        let answer = self.write(outline, LONGEST);
        let Ok(size) = answer else {
            let few = self.random.pick(&[0, 1, 27, 28, 1_500]);
            assert_eq!(self.write(outline, few), answer, "whatever room there is");
            return answer;
        };
        let size = size as usize;
        let short = self.write(outline, size - 1);
        assert_eq!(number(&short), 15);
        let other = match self.random.index(2) {
            0 => size + self.random.index(12),
            _ => self.random.index(size),
        };
        self.write(outline, other).ok();
        self.go_round(outline);
        answer
    }

    /// Each of these numbers came so often, and no other.
    fn came(&self, least: u32, reads: &[usize], writes: &[usize]) {
        println!("read {:?}, write {:?}", self.reads, self.writes);
        let calls: u32 = self.reads.iter().chain(&self.writes).sum();
        let odd = self.addresses;
        println!("{calls} calls, {} rounds, addresses {odd:?}", self.rounds);
        for (name, counts, numbers) in [
            ("read", &self.reads, reads),
            ("write", &self.writes, writes),
        ] {
            for (number, &times) in counts.iter().enumerate() {
                if numbers.contains(&number) {
                    assert!(times >= least, "{name} has {number} {times} times");
                } else {
                    assert_eq!(times, 0, "{name} has {number}");
                }
            }
        }
    }
}

/// A path of three vertices with these bits in one of its six coordinates.
fn with_bits(place: usize, bits: u32) -> Vec<u8> {
    let mut coordinates = [0, 8, 16_000, 1, 4_095, 1_000].map(bits_of_units);
    coordinates[place] = bits;
    let [a, b, c, d, e, f] = coordinates;
    path_of(&[[a, b], [c, d], [e, f]])
}

/// Paths to be changed systematically: the shortest, the longest and some between.
fn some_paths(random: &mut Random) -> Vec<Vec<u8>> {
    [3, 3, 4, 11, 40, 63, 64]
        .map(|vertices| sound_path_of(random, vertices))
        .to_vec()
}

/// 0 to 16,000 units with the next numbers on both sides, with plus and with minus, in
/// x and y of the move and of each line.
#[test]
fn every_coordinate_that_is_accepted() {
    let mut both = Both::new(801);
    for units in 0..=16_000 {
        let bits = bits_of_units(units);
        for near in [bits, bits + 1, bits.saturating_sub(1)] {
            for near in [near, near | MINUS] {
                let accepted = near == bits || near == MINUS;
                for place in 0..6 {
                    let answer = both.read(&with_bits(place, near), 6);
                    assert_eq!(answer.is_ok(), accepted, "{near:#010x}");
                }
            }
        }
    }
    // Below 0 there is 0 once more; each time it has its minus.
    assert_eq!(both.reads[0], 6 * (16_001 + 1 + 2));
    assert_eq!(both.reads[20], 6 * (6 * 16_001 - 16_001 - 1 - 2));
    both.came(90_000, &[0, 20], &[]);
}

/// Each coordinate is written as the float it is an eighth of, and read from it, in x
/// and y of the move and of each line.
#[test]
fn every_coordinate_is_written() {
    let mut both = Both::new(802);
    for units in 0..=16_000 {
        for place in 0..6 {
            let mut outline = [0, 8, 16_000, 1, 4_095, 1_000];
            outline[place] = units;
            both.go_round(&outline);
            let path = with_bits(place, bits_of_units(units));
            assert_eq!(both.left_bytes, path);
        }
    }
    both.came(90_000, &[0], &[0]);
}

/// Two million patterns of 32 bits as a coordinate: half of them any, half with an
/// exponent near those that are accepted and a fraction that ends in zeros. Then each
/// exponent with fractions that begin with a one or with ones.
#[test]
fn patterns_as_a_coordinate() {
    let mut both = Both::new(803);
    let mut random = Random::new(804);
    for round in 0..2_000_000 {
        let any = random.number();
        let bits = match round % 2 {
            0 => any as u32,
            _ => {
                let exponent = 120 + (any >> 32) as u32 % 20;
                let zeros = (any >> 40) as u32 % 24;
                exponent << 23 | (any as u32 & 0x7F_FFFF) >> zeros << zeros
            }
        };
        let place = (any >> 48) as usize % 6;
        let answer = both.read(&with_bits(place, bits), 6);
        assert_eq!(answer.is_ok(), units_of(bits).is_some());
    }
    for high in 0..512 {
        for bit in 0..=23 {
            let one = (1 << bit) & 0x7F_FFFF;
            let ones = 0x7F_FFFF >> bit << bit;
            for fraction in [one, ones, 0x7F_FFFF ^ ones] {
                both.take_path(&with_bits(bit % 6, high << 23 | fraction))
                    .ok();
            }
        }
    }
    both.came(200, &[0, 15, 20], &[0]);
}

#[test]
fn sound_paths() {
    let mut both = Both::new(805);
    let mut random = Random::new(806);
    for _ in 0..60_000 {
        let path = sound_path(&mut random);
        both.take_path(&path).expect("a sound path");
    }
    both.came(60_000, &[0, 15], &[0]);
    let odd = both
        .addresses
        .iter()
        .all(|&[even, odd]| even.min(odd) > 20_000);
    assert!(odd, "{:?}", both.addresses);
}

/// Paths with something wrong, of every kind, with the answer that the damage was made
/// for: the shape, a coordinate, and both.
#[test]
fn damaged_paths() {
    let mut both = Both::new(807);
    let mut random = Random::new(808);
    let shapes = ShapeDamage::ALL.map(PathDamage::Shape);
    let coordinates = CoordinateDamage::ALL.map(PathDamage::Coordinate);
    let pairs = ShapeDamage::ALL
        .map(|shape| CoordinateDamage::ALL.map(|coordinate| PathDamage::Both(shape, coordinate)));
    for (damages, times) in [
        (&shapes[..], 2_500),
        (&coordinates, 4_500),
        (pairs.as_flattened(), 300),
    ] {
        for &damage in damages {
            for _ in 0..times {
                let damaged = damaged_path(&mut random, damage);
                let answer = both.take_path(&damaged.bytes);
                assert_eq!(answer, Err(damaged.refusal), "{damage:?}");
            }
        }
    }
    assert_eq!(both.reads[19], 2 * (18 * 2_500 + 180 * 300));
    both.came(90_000, &[19, 20], &[]);
}

/// Paths cut off after each of their bytes, and with one byte left out.
#[test]
fn every_cut() {
    let mut both = Both::new(809);
    let mut random = Random::new(810);
    for path in some_paths(&mut random) {
        for length in 0..path.len() {
            let cut = both.take_path(&path[..length]);
            assert_eq!(number(&cut), 19, "{length} bytes");
            let left_out = [&path[..length], &path[length + 1..]].concat();
            assert_eq!(number(&both.take_path(&left_out)), 19, "without {length}");
        }
        both.take_path(&path).expect("a sound path");
    }
    both.came(7, &[0, 15, 19], &[0]);
}

/// Every byte in the place of each step.
#[test]
fn every_byte_as_each_step() {
    let mut both = Both::new(811);
    let mut random = Random::new(812);
    for path in some_paths(&mut random) {
        for place in (0..path.len()).step_by(STEP) {
            for byte in 0..=255 {
                let mut changed = path.clone();
                changed[place] = byte;
                let answer = both.take_path(&changed);
                let expected = if byte == path[place] { 0 } else { 19 };
                assert_eq!(number(&answer), expected, "{byte} at {place}");
            }
        }
    }
    both.came(190, &[0, 15, 19], &[0]);
}

/// Every bit of a path the other way, and every byte of a short one as any other.
#[test]
fn every_bit_and_every_byte() {
    let mut both = Both::new(813);
    let mut random = Random::new(814);
    for path in some_paths(&mut random) {
        for place in 0..path.len() {
            let flips: Vec<u8> = match path.len() {
                28 => (0..=255).collect(),
                _ => (0..8).map(|bit| 1 << bit).collect(),
            };
            for flip in flips {
                let mut changed = path.clone();
                changed[place] ^= flip;
                both.take_path(&changed).ok();
            }
        }
    }
    both.came(100, &[0, 15, 19, 20], &[0]);
}

/// After the close: every byte alone, each number of bytes up to 600, each step, and a
/// second path.
#[test]
fn after_the_close() {
    let mut both = Both::new(815);
    let mut random = Random::new(816);
    let mut check = |path: &[u8], after: &[u8]| {
        let answer = both.take_path(&[path, after].concat());
        assert_eq!(number(&answer), 19, "{path:?} and {after:?}");
    };
    for path in some_paths(&mut random) {
        for byte in 0..=255 {
            check(&path, &[byte]);
            check(&path, &[byte; STEP]);
        }
        for count in 1..=600 {
            let any: Vec<u8> = (0..count).map(|_| random.word(0, 255) as u8).collect();
            check(&path, &any);
            check(&path, &vec![0; count]);
            check(&path, &vec![CLOSE; count]);
        }
        for kind in [MOVE, LINE] {
            check(&path, &step(kind, [0, 0]));
            check(&path, &[&step(kind, [0, 0])[..], &[CLOSE]].concat());
        }
        check(&path, &path);
        check(&path, &path[STEP..]);
    }
    both.came(10_000, &[19], &[]);
}

/// 0 to 400 lines, with words enough for them.
#[test]
fn every_number_of_lines() {
    let mut both = Both::new(817);
    for lines in 0..=400 {
        for bits in [0, MINUS, bits_of_units(16_000), f32::NAN.to_bits()] {
            let path = path_of(&vec![[bits; 2]; lines + 1]);
            let answer = both.read(&path, 2 * (lines + 1));
            let expected = match lines {
                2..=63 if bits == f32::NAN.to_bits() => 20,
                2..=63 => 0,
                _ => 19,
            };
            assert_eq!(number(&answer), expected, "{lines} lines");
        }
    }
    both.came(62, &[0, 19, 20], &[]);
}

/// Outputs of every length up to more than enough.
#[test]
fn every_room() {
    let mut both = Both::new(818);
    let mut random = Random::new(819);
    for path in some_paths(&mut random) {
        let words = 2 * (path.len() / STEP);
        both.read(&path, words).expect("a sound path");
        let outline = both.left_words.clone();
        for room in 0..words + 20 {
            let answer = both.read(&path, room);
            assert_eq!(number(&answer), if room < words { 15 } else { 0 });
        }
        for room in 0..path.len() + 20 {
            let answer = both.write(&outline, room);
            assert_eq!(number(&answer), if room < path.len() { 15 } else { 0 });
        }
    }
    both.came(140, &[0, 15], &[0, 15]);
}

/// Outlines in the limits, anywhere and as the other calls are tried with.
#[test]
fn outlines() {
    let mut both = Both::new(820);
    let mut random = Random::new(821);
    for _ in 0..40_000 {
        let vertices = any_count(&mut random);
        let outline = any_vertices(&mut random, vertices);
        both.take_outline(&outline).expect("in the limits");
    }
    for _ in 0..5_000 {
        both.take_outline(&any_outline(&mut random)).ok();
    }
    both.came(40, &[0], &[0, 7, 8, 15]);
}

/// Every length from 0 to 200 words; with one word over 16,000 anywhere; with any words.
#[test]
fn damaged_outlines() {
    let mut both = Both::new(822);
    let mut random = Random::new(823);
    for length in 0..=200 {
        let is_right = length % 2 == 0 && (6..=128).contains(&length);
        for _ in 0..20 {
            let mut words: Vec<u16> = (0..length).map(|_| random.word(0, 16_000)).collect();
            let answer = both.take_outline(&words);
            assert_eq!(number(&answer), if is_right { 0 } else { 7 });
            let any: Vec<u16> = (0..length).map(|_| random.word(0, 65_535)).collect();
            both.take_outline(&any).ok();
            if length > 0 {
                let place = random.index(length);
                words[place] = random.pick(&[16_001, 16_002, 16_384, 32_768, 65_535]);
                let answer = both.take_outline(&words);
                assert_eq!(number(&answer), if is_right { 8 } else { 7 });
            }
        }
    }
    // Each word of an outline over the limit, alone.
    for length in [6, 8, 64, 126, 128] {
        for place in 0..length {
            for word in [16_001, 65_535] {
                let mut words = vec![16_000; length];
                words[place] = word;
                assert_eq!(number(&both.take_outline(&words)), 8, "{word} at {place}");
            }
        }
    }
    both.came(1_000, &[0], &[0, 7, 8, 15]);
}
