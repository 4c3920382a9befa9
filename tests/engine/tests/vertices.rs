//! Each vertex as the engine reads it through a turn (S-6), against the reference
//! program's turned outline, with the outline between pages that cannot be read.

use engine::guard::{End, Room};
use reference::generate::{any_outline, Random};
use reference::outline::{turned, vertices};

/// The turns, and some that are none.
const TURNS: [u16; 8] = [0, 1, 2, 3, 4, 5, 32_768, 65_535];

/// Places at the end and past it, also where twice the place has no room in 16 bits.
fn past(count: usize) -> Vec<u16> {
    let near = (count..count + 3).filter_map(|i| u16::try_from(i).ok());
    let far = [128, 255, 256, 32_767, 32_768, 65_534, 65_535];
    near.chain(far.into_iter().filter(|&i| usize::from(i) >= count))
        .collect()
}

/// All vertices of the outline in all turns. Answers how many there are.
fn same(room: &mut Room, end: End, outline: &[u16]) -> usize {
    let corners = vertices(outline);
    let expected: Vec<_> = (0..4).map(|turn| turned(&corners, turn)).collect();
    room.lend_to_read(end, outline, |lent| {
        for turn in TURNS {
            let vertex = |i: usize| expected.get(usize::from(turn))?.get(i);
            for i in (0..corners.len() as u16).chain(past(corners.len())) {
                let wanted = vertex(i.into()).map(|&(x, y)| (x as u16, y as u16));
                let read = engine::vertex(lent, turn, i);
                assert_eq!(read, wanted, "vertex {i} in turn {turn} of {outline:?}");
            }
        }
    });
    assert!(room.kept_at(end, outline.len()), "beside the outline");
    corners.len()
}

/// Words up to a limit, or near one of two.
fn any_words(random: &mut Random, length: usize) -> Vec<u16> {
    let most = random.pick(&[1, 9, 500, 16_000, 65_535]);
    let at_ends = random.once_in(4);
    let mut word = || match at_ends {
        true if random.once_in(2) => random.word(0, 2),
        true => random.word(65_533, 65_535),
        false => random.word(0, most),
    };
    (0..length).map(|_| word()).collect()
}

#[test]
fn outlines_of_any_words() {
    let mut random = Random::new(67);
    let mut room = Room::new(401);
    let mut all = 0;
    for length in 0..=401 {
        for end in End::ALL {
            let outline = any_words(&mut random, length);
            all += same(&mut room, end, &outline);
        }
    }
    assert_eq!(all, 4 * 2 * (200 * 201) / 2);
}

#[test]
fn outlines_of_every_kind() {
    let mut random = Random::new(68);
    let mut room = Room::new(256);
    for _ in 0..4_000 {
        let outline = any_outline(&mut random);
        let end = random.pick(&End::ALL);
        same(&mut room, end, &outline);
    }
}

/// More vertices than 16 bits can number.
#[test]
fn a_long_outline() {
    let mut random = Random::new(69);
    let outline: Vec<u16> = (0..140_001).map(|_| random.word(5, 65_000)).collect();
    for turn in 0..4 {
        let expected = turned(&vertices(&outline), turn);
        for i in [0, 1, 32_767, 32_768, 65_534, 65_535] {
            let (x, y) = expected[usize::from(i)];
            assert_eq!(
                engine::vertex(&outline, turn, i),
                Some((x as u16, y as u16))
            );
        }
    }
}
