//! Paths of the drawing program, sound and damaged. Coordinates are made with floats,
//! of which the reference program has none.

use super::Random;
use crate::figures::{no, Refusal};

/// The bytes of the steps.
pub const MOVE: u8 = 1;
pub const LINE: u8 = 2;
pub const CLOSE: u8 = 3;

/// The bytes of a move or a line: step, x and y.
pub const STEP: usize = 9;

const MINUS: u32 = 0x8000_0000;

/// The bits of x and y.
pub type Bits = [u32; 2];

/// The bits of so many eighths of a millimetre.
pub fn bits_of_units(units: u16) -> u32 {
    (f32::from(units) / 8.0).to_bits()
}

pub fn is_accepted(bits: u32) -> bool {
    let eight_times = 8.0 * f64::from(f32::from_bits(bits));
    eight_times.fract() == 0.0 && (0.0..=16_000.0).contains(&eight_times)
}

/// 0 to 16,000 units, many of them where the exponent changes or at a limit.
pub fn any_units(random: &mut Random) -> u16 {
    match random.index(8) {
        0 => random.pick(&[0, 1, 2, 3, 15_999, 16_000]),
        1 => {
            let power = 1 << random.index(14);
            random.pick(&[power - 1, power, power + 1])
        }
        2 => 8 * random.word(0, 2_000),
        3 => random.word(0, 40),
        _ => random.word(0, 16_000),
    }
}

/// The words of an outline of so many vertices, anywhere in the limits. Now and then
/// the last vertex is the first.
pub fn any_vertices(random: &mut Random, vertices: usize) -> Vec<u16> {
    let mut words: Vec<u16> = (0..2 * vertices).map(|_| any_units(random)).collect();
    if random.once_in(8) {
        words.copy_within(..2, 2 * vertices - 2);
    }
    words
}

/// The bits of the coordinates of an outline, some zeros with a minus.
fn any_points(random: &mut Random, outline: &[u16]) -> Vec<Bits> {
    let mut bits = |units: u16| match units {
        0 if random.once_in(3) => MINUS,
        _ => bits_of_units(units),
    };
    let pairs = outline.chunks_exact(2);
    pairs.map(|pair| [bits(pair[0]), bits(pair[1])]).collect()
}

pub fn step(kind: u8, [x, y]: Bits) -> [u8; STEP] {
    let mut bytes = [kind; STEP];
    bytes[1..5].copy_from_slice(&x.to_le_bytes());
    bytes[5..].copy_from_slice(&y.to_le_bytes());
    bytes
}

/// A move to the first of these points, lines to the others, and the close.
pub fn path_of(points: &[Bits]) -> Vec<u8> {
    let kinds = [MOVE].into_iter().chain(std::iter::repeat(LINE));
    let steps = kinds.zip(points).flat_map(|(kind, &to)| step(kind, to));
    steps.chain([CLOSE]).collect()
}

/// 3 to 64, the ends of this more often.
pub fn any_count(random: &mut Random) -> usize {
    match random.index(6) {
        0 => random.pick(&[3, 4, 63, 64]),
        1 | 2 => random.between(3, 64) as usize,
        _ => random.between(3, 9) as usize,
    }
}

/// A path that passes.
pub fn sound_path(random: &mut Random) -> Vec<u8> {
    let vertices = any_count(random);
    sound_path_of(random, vertices)
}

/// The same with so many vertices.
pub fn sound_path_of(random: &mut Random, vertices: usize) -> Vec<u8> {
    let outline = any_vertices(random, vertices);
    path_of(&any_points(random, &outline))
}

/// A way in which a path is of another shape.
#[derive(Clone, Copy, Debug, PartialEq, Eq)]
pub enum ShapeDamage {
    NoBytes,
    /// The close alone, or a move and the close.
    NoLines,
    OneLine,
    /// 64 or more.
    TooManyLines,
    NoMove,
    LineFirst,
    /// A line is a move.
    SecondMove,
    /// A move more, after any step.
    MoveBetween,
    /// A close before a line, or instead of one.
    EarlyClose,
    NoClose,
    /// Another step than the close at the end, without coordinates.
    OtherEnd,
    UnknownStep,
    /// Cut off after any byte.
    Cut,
    /// Some bytes of a step missing.
    BytesMissing,
    /// Some bytes too many before any byte.
    BytesBetween,
    /// 1 to 10 bytes after the close, of which the first is a step, or any.
    BytesAfter,
    /// A line and a close after the close.
    LineAfter,
    /// Another path after the close.
    SecondPath,
}

impl ShapeDamage {
    pub const ALL: [ShapeDamage; 18] = [
        ShapeDamage::NoBytes,
        ShapeDamage::NoLines,
        ShapeDamage::OneLine,
        ShapeDamage::TooManyLines,
        ShapeDamage::NoMove,
        ShapeDamage::LineFirst,
        ShapeDamage::SecondMove,
        ShapeDamage::MoveBetween,
        ShapeDamage::EarlyClose,
        ShapeDamage::NoClose,
        ShapeDamage::OtherEnd,
        ShapeDamage::UnknownStep,
        ShapeDamage::Cut,
        ShapeDamage::BytesMissing,
        ShapeDamage::BytesBetween,
        ShapeDamage::BytesAfter,
        ShapeDamage::LineAfter,
        ShapeDamage::SecondPath,
    ];
}

/// A coordinate that is not accepted.
#[derive(Clone, Copy, Debug, PartialEq, Eq)]
pub enum CoordinateDamage {
    /// The next number above one that is accepted, or below.
    NextAbove,
    NextBelow,
    /// Some units and a half, a quarter or less.
    PartOfUnit,
    /// Below zero by some units.
    Minus,
    NotANumber,
    Infinite,
    /// Above zero or below by less than any number with a whole fraction.
    Subnormal,
    /// 2,000.125 or more, up to the greatest of all.
    TooFar,
    HighByteFirst,
    AnyBits,
}

impl CoordinateDamage {
    pub const ALL: [CoordinateDamage; 10] = [
        CoordinateDamage::NextAbove,
        CoordinateDamage::NextBelow,
        CoordinateDamage::PartOfUnit,
        CoordinateDamage::Minus,
        CoordinateDamage::NotANumber,
        CoordinateDamage::Infinite,
        CoordinateDamage::Subnormal,
        CoordinateDamage::TooFar,
        CoordinateDamage::HighByteFirst,
        CoordinateDamage::AnyBits,
    ];
}

/// What is wrong with a path.
#[derive(Clone, Copy, Debug, PartialEq, Eq)]
pub enum PathDamage {
    Shape(ShapeDamage),
    Coordinate(CoordinateDamage),
    Both(ShapeDamage, CoordinateDamage),
}

impl PathDamage {
    pub fn any(random: &mut Random) -> PathDamage {
        let shape = random.pick(&ShapeDamage::ALL);
        let coordinate = random.pick(&CoordinateDamage::ALL);
        random.pick(&[
            PathDamage::Shape(shape),
            PathDamage::Coordinate(coordinate),
            PathDamage::Both(shape, coordinate),
        ])
    }
}

#[derive(Clone, Debug)]
pub struct DamagedPath {
    pub bytes: Vec<u8>,
    /// What reading has to answer, whatever room there is.
    pub refusal: Refusal,
}

/// A path with nothing wrong but this.
pub fn damaged_path(random: &mut Random, damage: PathDamage) -> DamagedPath {
    let vertices = any_count(random);
    let outline = any_vertices(random, vertices);
    let mut points = any_points(random, &outline);
    if let PathDamage::Coordinate(damage) | PathDamage::Both(_, damage) = damage {
        for _ in 0..random.pick(&[1, 1, 2, 5]) {
            let place = random.index(vertices);
            points[place][random.index(2)] = refused_bits(random, damage);
        }
    }
    let (bytes, number) = match damage {
        PathDamage::Shape(damage) | PathDamage::Both(damage, _) => {
            (of_other_shape(random, points, damage), 19)
        }
        PathDamage::Coordinate(_) => (path_of(&points), 20),
    };
    DamagedPath {
        bytes,
        refusal: no(number, 0),
    }
}

/// A path that passes, or with something wrong.
pub fn any_path(random: &mut Random) -> Vec<u8> {
    if random.once_in(3) {
        return sound_path(random);
    }
    let damage = PathDamage::any(random);
    damaged_path(random, damage).bytes
}

/// Bits of this kind that are not accepted.
pub fn refused_bits(random: &mut Random, damage: CoordinateDamage) -> u32 {
    loop {
        let bits = bits_of_kind(random, damage);
        if !is_accepted(bits) {
            return bits;
        }
    }
}

fn bits_of_kind(random: &mut Random, damage: CoordinateDamage) -> u32 {
    let accepted = bits_of_units(any_units(random));
    let minus = random.pick(&[0, MINUS]);
    match damage {
        CoordinateDamage::NextAbove => accepted + 1,
        // Below 0 there are the numbers with a minus.
        CoordinateDamage::NextBelow if accepted == 0 => MINUS + 1,
        CoordinateDamage::NextBelow => accepted - 1,
        CoordinateDamage::PartOfUnit => {
            let part = random.pick(&[0.5, 0.25, 0.75, 0.0625, 0.001]);
            ((f32::from(any_units(random)) + part) / 8.0).to_bits()
        }
        CoordinateDamage::Minus => MINUS | accepted,
        CoordinateDamage::NotANumber => {
            // The first bit of the fraction tells a quiet one from one that signals.
            let signals = random.between(1, 0x3F_FFFF) as u32;
            let quiet = 0x40_0000 + random.between(0, 0x3F_FFFF) as u32;
            minus | 0x7F80_0000 | random.pick(&[1, signals, 0x40_0000, quiet, 0x7F_FFFF])
        }
        CoordinateDamage::Infinite => minus | 0x7F80_0000,
        CoordinateDamage::Subnormal => {
            let any = random.between(1, 0x7F_FFFF) as u32;
            minus | random.pick(&[1, 2, 0x40_0000, any, 0x7F_FFFF])
        }
        CoordinateDamage::TooFar => {
            let next = f32::from(random.word(16_001, 65_535)) / 8.0;
            let any = f32::from_bits(random.between(0x44FA_0001, 0x7F7F_FFFF) as u32);
            random
                .pick(&[2_000.125, next, next.powi(2), any, 65_536.0, f32::MAX])
                .to_bits()
        }
        CoordinateDamage::HighByteFirst => accepted.swap_bytes(),
        CoordinateDamage::AnyBits => random.number() as u32,
    }
}

/// The bytes of a path through these points, but of another shape.
fn of_other_shape(random: &mut Random, mut points: Vec<Bits>, damage: ShapeDamage) -> Vec<u8> {
    let mut path = path_of(&points);
    let close = path.len() - 1;
    let line = STEP * random.between(1, points.len() as i64 - 1) as usize;
    let any_step = STEP * random.index(points.len());
    let mut any_byte = || random.word(0, 255) as u8;
    let more: Vec<u8> = (0..10).map(|_| any_byte()).collect();
    match damage {
        ShapeDamage::NoBytes => path.clear(),
        ShapeDamage::NoLines => {
            points.truncate(random.index(2));
            path = path_of(&points);
        }
        ShapeDamage::OneLine => {
            points.truncate(2);
            path = path_of(&points);
        }
        ShapeDamage::TooManyLines => {
            let vertices = random.pick(&[65, 65, 66, 100, 128, 256, 400]);
            let all = points.into_iter().cycle().take(vertices);
            path = path_of(&all.collect::<Vec<_>>());
        }
        ShapeDamage::NoMove => path = path.split_off(STEP),
        ShapeDamage::LineFirst => path[0] = LINE,
        ShapeDamage::SecondMove => path[line] = MOVE,
        ShapeDamage::MoveBetween => {
            let place = any_step + STEP;
            path.splice(place..place, step(MOVE, points[0]));
        }
        ShapeDamage::EarlyClose => {
            let end = line + random.pick(&[0, 1, STEP]);
            path.splice(line..end, [CLOSE]);
        }
        ShapeDamage::NoClose => path.truncate(close),
        ShapeDamage::OtherEnd => path[close] = random.pick(&[MOVE, LINE]),
        ShapeDamage::UnknownStep => {
            let place = random.pick(&[any_step, any_step, close]);
            let other = random.word(4, 255) as u8;
            path[place] = random.pick(&[0, 4, other]);
        }
        ShapeDamage::Cut => path.truncate(random.index(close + 1)),
        ShapeDamage::BytesMissing => {
            let missing = random.between(1, 8) as usize;
            path.drain(any_step + 1..any_step + 1 + missing);
        }
        ShapeDamage::BytesBetween => {
            let place = random.index(close + 1);
            let count = random.between(1, 8) as usize;
            path.splice(place..place, more[..count].iter().copied());
        }
        ShapeDamage::BytesAfter => {
            let count = random.between(1, 10) as usize;
            path.extend(&more[..count]);
            let step = random.pick(&[MOVE, LINE, CLOSE, 0, more[0]]);
            path[close + 1] = step;
        }
        ShapeDamage::LineAfter => {
            path.extend(step(LINE, points[0]));
            path.push(CLOSE);
        }
        ShapeDamage::SecondPath => path.extend(path.clone()),
    }
    path
}
