//! Each call with each number its order allows, and each limit from both sides.
//!
//! "read asks 1, 2, 3, 6 to 11, 15; write 3, 6 to 11, then 2 (size), 15; open
//! 3, 4; cover 3, 7 to 12; place 5, 7 to 14; lay 1 to 4, 6 to 11, 15, and 12 to
//! 14 only as a piece's fate." Changed by S-1: "Number 3 now means the width
//! only. Cover asks only about the resolution. New numbers: 16 when the
//! resolution is outside its limits, then 17 when the column count is, both
//! directly after 3 wherever 3 is asked." By S-2 ask asks what place does, and
//! commit "what place asks with that turn alone allowed", with 18 "when a commit's
//! position is off the strip or not free, asked instead of 13, which no commit
//! answers". S-4: "Cover and lay take g as well", and open; "21 when g is over 400,
//! directly after 16 and 17".
//!
//! The ordinal is "0 for questions 1 to 6 and 15, for the size in write [...],
//! else the piece's place in chain or list, 1 where one outline is lent". For 16,
//! 17, 18 and 21 it is 0: "0 [...] for each number above 15 unless its request gives an
//! ordinal".

mod common;
use common::*;
use reference::generate::SheetPlan;

/// W, R and N in their limits, at both ends.
const IN_LIMITS: [(u16, u16, u16); 3] = [(1, 1, 1), (10, 2, 10), (16_000, 400, 4_096)];
/// One of them out of its limits, and the number for it.
const OUT_OF_LIMITS: [((u16, u16, u16), u16); 9] = [
    ((0, 2, 10), 3),
    ((16_001, 2, 10), 3),
    ((65_535, 2, 10), 3),
    ((10, 0, 10), 16),
    ((10, 401, 10), 16),
    ((10, 65_535, 10), 16),
    ((10, 2, 0), 17),
    ((10, 2, 4_097), 17),
    ((10, 2, 65_535), 17),
];

/// Gaps out of their limits.
const OVER_400: [u16; 5] = [401, 402, 512, 32_768, 65_535];

/// Outlines of a wrong length: "an even length of 6 to 128 words".
fn wrong_lengths() -> Vec<Vec<u16>> {
    let long = sixty_five_vertices();
    [0, 1, 2, 3, 4, 5, 7, 9, 127, 129, 130]
        .iter()
        .map(|&length| long[..length].to_vec())
        .collect()
}

/// The masks 0 and 16 up.
const BAD_MASKS: [u16; 7] = [0, 16, 17, 31, 256, 32_768, 65_535];

// --------------------------------------------------------------------- cover

#[test]
fn cover_16() {
    assert_eq!(check_cover(&S, 0, 0, 90), Err(no(16, 0)));
    assert_eq!(check_cover(&S, 0, 401, 90), Err(no(16, 0)));
    assert_eq!(check_cover(&S, 0, 65_535, 90), Err(no(16, 0)));
    assert_eq!(check_cover(&S, 0, 400, 90), Ok(vec![[0, 0, 4]]));
    assert_eq!(check_cover(&S, 0, 1, 90).unwrap().len(), 4);
}

#[test]
fn cover_21() {
    for g in OVER_400 {
        assert_eq!(check_cover_with_gap(&S, 0, 2, g, 90), Err(no(21, 0)));
    }
    let runs = check_cover_with_gap(&S, 0, 400, 400, 90);
    assert_eq!(runs, Ok(vec![[0, 0, 404], [1, 0, 404]]));
}

#[test]
fn cover_7() {
    for outline in wrong_lengths() {
        assert_eq!(check_cover(&outline, 0, 2, 90), Err(no(7, 1)));
    }
    assert!(check_cover(&T, 0, 2, 90).is_ok());
    assert!(check_cover(&sixty_four_vertices(), 0, 2, 90).is_ok());
}

#[test]
fn cover_8() {
    for word in 0..8 {
        let mut outline = S;
        outline[word] = 16_001;
        assert_eq!(check_cover(&outline, 0, 2, 90), Err(no(8, 1)));
    }
    let outline = [15_990, 0, 16_000, 0, 16_000, 4];
    assert!(check_cover(&outline, 0, 2, 90).is_ok());
}

#[test]
fn cover_9() {
    for turn in [4, 5, 8, 256, 65_535] {
        assert_eq!(check_cover(&S, turn, 2, 90), Err(no(9, 1)));
    }
    for turn in 0..=3 {
        assert!(check_cover(&S, turn, 2, 90).is_ok());
    }
}

#[test]
fn cover_10() {
    for turn in [0, 2] {
        assert_eq!(check_cover(&CROSSED, turn, 2, 90), Err(no(10, 1)));
    }
    for turn in [1, 3] {
        assert!(check_cover(&CROSSED, turn, 2, 90).is_ok());
    }
}

#[test]
fn cover_11() {
    for turn in 0..=3 {
        assert_eq!(check_cover(&FLAT, turn, 2, 90), Err(no(11, 1)));
    }
}

#[test]
fn cover_12() {
    assert_eq!(check_cover(&S, 0, 2, 0), Err(no(12, 1)));
    assert_eq!(check_cover(&S, 0, 2, 5), Err(no(12, 1)));
    assert_eq!(check_cover(&S, 0, 2, 6), Ok(vec![[0, 0, 4], [1, 0, 4]]));
    assert_eq!(check_cover(&S, 0, 2, 7), Ok(vec![[0, 0, 4], [1, 0, 4]]));
}

// ---------------------------------------------------------------------- open

#[test]
fn open_3_16_17() {
    for ((w, r, n), number) in OUT_OF_LIMITS {
        let answer = check_open(w, r, n, strip_length(n, 6));
        assert_eq!(answer, Err(no(number, 0)));
    }
    for (w, r, n) in IN_LIMITS {
        assert!(check_open(w, r, n, strip_length(n, 6)).is_ok());
    }
}

#[test]
fn open_21() {
    for (w, r, n) in IN_LIMITS {
        for g in OVER_400 {
            let answer = check_open_with_gap(w, r, n, g, strip_length(n, 6));
            assert_eq!(answer, Err(no(21, 0)));
        }
        for g in [0, 1, 399, 400] {
            let strip = check_open_with_gap(w, r, n, g, strip_length(n, 6)).unwrap();
            assert_eq!(strip[4], g);
        }
    }
}

#[test]
fn open_4() {
    for length in [0, 1, 4, 5, 14, 15, 16, 17, 18, 20, 15 + 64_001, 15 + 64_004] {
        assert_eq!(check_open(10, 2, 10, length), Err(no(4, 0)), "{length}");
    }
    // The form before S-4, of four leading words.
    for q in [1, 2, 4_000, 16_000] {
        let length = 4 + 10 + 4 * q;
        assert_eq!(check_open(10, 2, 10, length), Err(no(4, 0)), "{length}");
    }
    for q in [1, 2, 4_000, 16_000] {
        assert!(check_open(10, 2, 10, strip_length(10, q)).is_ok());
    }
}

// --------------------------------------------------------------------- place

#[test]
fn place_5() {
    let mut strip = opened(10, 2, 10, 6);
    strip[5] = 7;
    assert_eq!(check_place(&mut strip, &S, 1, 90), Err(no(5, 0)));
    assert_eq!(check_place(&mut [], &S, 1, 90), Err(no(5, 0)));
    strip[5] = 0;
    assert_eq!(check_place(&mut strip, &S, 1, 90), Ok(at(0, 0, 0)));
}

/// "A strip is opened with a gap g of 0 to 400 units": a lent one with another is
/// ill formed, in each call that is lent one.
#[test]
fn five_for_a_gap_over_400() {
    let mut strip = opened(10, 2, 10, 6);
    for g in OVER_400 {
        strip[4] = g;
        assert_eq!(check_place(&mut strip, &S, 1, 90), Err(no(5, 0)));
        assert_eq!(check_ask(&strip, &S, 1, 90), Err(no(5, 0)));
        assert_eq!(check_commit(&mut strip, &S, at(0, 0, 0), 90), Err(no(5, 0)));
    }
    strip[4] = 400;
    // 202 columns with a run, five of which are on the strip.
    assert_eq!(check_place(&mut strip, &S, 1, 605), Err(no(12, 1)));
    assert_eq!(check_place(&mut strip, &S, 1, 606), Err(no(14, 1)));
}

#[test]
fn place_7() {
    let mut strip = opened(10, 2, 16, 40);
    for outline in wrong_lengths() {
        assert_eq!(check_place(&mut strip, &outline, 1, 90), Err(no(7, 1)));
    }
    assert!(check_place(&mut strip, &T, 1, 90).is_ok());
    assert!(check_place(&mut strip, &sixty_four_vertices(), 1, 90).is_ok());
}

#[test]
fn place_8() {
    let mut strip = opened(10, 2, 10, 6);
    for word in 0..8 {
        let mut outline = S;
        outline[word] = 16_001;
        assert_eq!(check_place(&mut strip, &outline, 1, 90), Err(no(8, 1)));
    }
    let outline = [15_990, 0, 16_000, 0, 16_000, 4];
    assert!(check_place(&mut strip, &outline, 1, 90).is_ok());
}

#[test]
fn place_9() {
    let mut strip = opened(10, 2, 10, 40);
    for mask in BAD_MASKS {
        assert_eq!(check_place(&mut strip, &S, mask, 90), Err(no(9, 1)));
    }
    for mask in 1..=10 {
        assert!(check_place(&mut strip, &rectangle(2, 2), mask, 90).is_ok());
    }
}

#[test]
fn place_10() {
    let mut strip = opened(10, 2, 10, 6);
    for mask in 1..=15 {
        let answer = check_place(&mut strip, &CROSSED, mask, 90);
        // Only the masks 2, 8 and 10 allow neither turn 0 nor turn 2.
        if [2, 8, 10].contains(&mask) {
            assert!(answer.is_ok());
        } else {
            assert_eq!(answer, Err(no(10, 1)));
        }
    }
}

#[test]
fn place_11() {
    let mut strip = opened(10, 2, 10, 6);
    assert_eq!(check_place(&mut strip, &FLAT, 1, 90), Err(no(11, 1)));
}

#[test]
fn place_12() {
    let mut strip = opened(10, 2, 10, 6);
    assert_eq!(check_place(&mut strip, &S, 1, 0), Err(no(12, 1)));
    assert_eq!(check_place(&mut strip, &S, 1, 5), Err(no(12, 1)));
    assert_eq!(check_place(&mut strip, &S, 1, 6), Ok(at(0, 0, 0)));
}

#[test]
fn place_13() {
    // Too wide, too high.
    let mut strip = opened(3, 2, 10, 6);
    assert_eq!(check_place(&mut strip, &S, 15, 90), Err(no(13, 1)));
    let mut strip = opened(10, 2, 1, 6);
    assert_eq!(check_place(&mut strip, &S, 15, 90), Err(no(13, 1)));
    // Room for one only.
    let mut strip = opened(4, 2, 3, 6);
    assert_eq!(check_place(&mut strip, &S, 1, 90), Ok(at(0, 0, 0)));
    assert_eq!(check_place(&mut strip, &S, 1, 90), Err(no(13, 1)));
}

#[test]
fn place_14() {
    let mut strip = opened(10, 2, 10, 1);
    assert_eq!(check_place(&mut strip, &S, 1, 90), Err(no(14, 1)));
    let mut strip = opened(10, 2, 10, 2);
    assert_eq!(check_place(&mut strip, &S, 1, 90), Ok(at(0, 0, 0)));
}

// ----------------------------------------------------------------------- ask

/// Ask with each number. (In all of these tests it is compared with place, too: see
/// `check_place`.)
#[test]
fn ask_5_and_7_to_14() {
    let strip = opened(10, 2, 10, 2);
    let mut bad = strip.clone();
    bad[5] = 3;
    assert_eq!(check_ask(&bad, &S, 1, 6), Err(no(5, 0)));
    assert_eq!(check_ask(&[], &S, 1, 6), Err(no(5, 0)));
    assert_eq!(check_ask(&strip, &S, 1, 6), Ok(at(0, 0, 0)));
    for outline in wrong_lengths() {
        assert_eq!(check_ask(&strip, &outline, 1, 90), Err(no(7, 1)));
    }
    assert_eq!(check_ask(&strip, &FAR, 1, 90), Err(no(8, 1)));
    for mask in BAD_MASKS {
        assert_eq!(check_ask(&strip, &S, mask, 90), Err(no(9, 1)));
    }
    assert_eq!(check_ask(&strip, &CROSSED, 3, 90), Err(no(10, 1)));
    assert_eq!(check_ask(&strip, &CROSSED, 2, 90), Ok(at(1, 0, 0)));
    assert_eq!(check_ask(&strip, &FLAT, 1, 90), Err(no(11, 1)));
    assert_eq!(check_ask(&strip, &S, 1, 5), Err(no(12, 1)));
    assert_eq!(check_ask(&strip, &rectangle(2, 11), 1, 90), Err(no(13, 1)));
    assert_eq!(check_ask(&strip, &rectangle(6, 2), 1, 90), Err(no(14, 1)));
    assert_eq!(check_ask(&strip, &rectangle(6, 2), 3, 90), Ok(at(1, 0, 0)));
}

// -------------------------------------------------------------------- commit

#[test]
fn commit_5() {
    let mut strip = opened(10, 2, 10, 6);
    strip[5] = 7;
    assert_eq!(check_commit(&mut strip, &S, at(0, 0, 0), 90), Err(no(5, 0)));
    assert_eq!(check_commit(&mut [], &S, at(0, 0, 0), 90), Err(no(5, 0)));
    strip[5] = 0;
    assert_eq!(check_commit(&mut strip, &S, at(0, 0, 0), 90), Ok(()));
}

#[test]
fn commit_7() {
    let mut strip = opened(10, 2, 16, 40);
    for outline in wrong_lengths() {
        let answer = check_commit(&mut strip, &outline, at(0, 0, 0), 90);
        assert_eq!(answer, Err(no(7, 1)));
    }
    assert_eq!(check_commit(&mut strip, &T, at(0, 0, 1), 90), Ok(()));
    let most = sixty_four_vertices();
    assert_eq!(check_commit(&mut strip, &most, at(0, 0, 0), 90), Ok(()));
}

#[test]
fn commit_8() {
    let mut strip = opened(10, 2, 10, 6);
    for word in 0..8 {
        let mut outline = S;
        outline[word] = 16_001;
        let answer = check_commit(&mut strip, &outline, at(0, 0, 0), 90);
        assert_eq!(answer, Err(no(8, 1)));
    }
    let outline = [15_990, 0, 16_000, 0, 16_000, 4];
    assert_eq!(check_commit(&mut strip, &outline, at(0, 0, 0), 90), Ok(()));
}

#[test]
fn commit_9() {
    let mut strip = opened(10, 2, 10, 40);
    for turn in [4, 5, 8, 15, 16, 256, 65_532, 65_535] {
        let answer = check_commit(&mut strip, &S, at(turn, 0, 0), 90);
        assert_eq!(answer, Err(no(9, 1)), "{turn}");
    }
    for turn in 0..=3 {
        let answer = check_commit(&mut strip, &S, at(turn, 2 * turn, 0), 90);
        assert_eq!(answer, Ok(()), "{turn}");
    }
}

/// With "that turn alone allowed".
#[test]
fn commit_10() {
    let mut strip = opened(10, 2, 10, 6);
    for turn in [0, 2] {
        let answer = check_commit(&mut strip, &CROSSED, at(turn, turn, 0), 90);
        assert_eq!(answer, Err(no(10, 1)));
    }
    for turn in [1, 3] {
        let answer = check_commit(&mut strip, &CROSSED, at(turn, turn, 0), 90);
        assert_eq!(answer, Ok(()));
    }
}

#[test]
fn commit_11() {
    let mut strip = opened(10, 2, 10, 6);
    for turn in 0..=3 {
        let answer = check_commit(&mut strip, &FLAT, at(turn, 0, 0), 90);
        assert_eq!(answer, Err(no(11, 1)));
    }
}

/// 6 by 2 has three runs in turns 0 and 2, one in 1 and 3.
#[test]
fn commit_12() {
    let bar = rectangle(6, 2);
    for (turn, needed) in [(0, 9), (1, 3), (2, 9), (3, 3)] {
        let mut strip = opened(10, 2, 10, 6);
        for words in 0..needed {
            let answer = check_commit(&mut strip, &bar, at(turn, 0, 0), words);
            assert_eq!(answer, Err(no(12, 1)), "{turn} {words}");
        }
        assert_eq!(check_ask(&strip, &bar, 15, needed).is_ok(), needed == 9);
        let answer = check_commit(&mut strip, &bar, at(turn, 0, 0), needed);
        assert_eq!(answer, Ok(()), "{turn}");
    }
}

/// S is two columns wide and four rows high.
#[test]
fn commit_18() {
    let mut strip = opened(10, 2, 10, 40);
    let off = [
        (9, 0),
        (10, 0),
        (0, 7),
        (0, 10),
        (9, 7),
        (65_535, 0),
        (65_534, 0),
        (0, 65_535),
        (0, 65_532),
        (65_535, 65_535),
    ];
    for (column, height) in off {
        for turn in 0..=3 {
            let answer = check_commit(&mut strip, &S, at(turn, column, height), 6);
            assert_eq!(answer, Err(no(18, 0)), "{column} {height}");
        }
    }
    assert_eq!(check_commit(&mut strip, &S, at(0, 8, 6), 6), Ok(()));
    assert_eq!(check_commit(&mut strip, &S, at(0, 4, 3), 6), Ok(()));
    // One cell in common, then none.
    for (column, height) in [(4, 3), (3, 0), (3, 6), (5, 0), (5, 6), (8, 6), (7, 3)] {
        let answer = check_commit(&mut strip, &S, at(0, column, height), 6);
        assert_eq!(answer, Err(no(18, 0)), "{column} {height}");
    }
    for (column, height) in [(2, 0), (6, 6), (6, 2), (8, 2)] {
        let answer = check_commit(&mut strip, &S, at(0, column, height), 6);
        assert_eq!(answer, Ok(()), "{column} {height}");
    }
}

/// A strip with no position for S at all: 18, and never 13.
#[test]
fn commit_never_13() {
    let mut strip = opened(3, 2, 3, 40);
    assert_eq!(check_ask(&strip, &S, 15, 6), Err(no(13, 1)));
    for turn in 0..=3 {
        let answer = check_commit(&mut strip, &S, at(turn, 0, 0), 6);
        assert_eq!(answer, Err(no(18, 0)));
    }
}

#[test]
fn commit_14() {
    let mut strip = opened(10, 2, 10, 1);
    assert_eq!(check_commit(&mut strip, &S, at(0, 0, 0), 6), Err(no(14, 1)));
    let mut strip = opened(10, 2, 10, 2);
    assert_eq!(check_commit(&mut strip, &S, at(0, 3, 1), 6), Ok(()));
    // Two runs more beside it, none more where it touches.
    assert_eq!(check_commit(&mut strip, &S, at(0, 6, 1), 6), Err(no(14, 1)));
    assert_eq!(check_commit(&mut strip, &S, at(0, 3, 6), 6), Err(no(14, 1)));
    assert_eq!(check_commit(&mut strip, &S, at(0, 3, 5), 6), Ok(()));
}

// ---------------------------------------------------------------------- read

/// Sound pieces, and one of these at place 2.
fn at_place_2(bad: &[u16], mask: u16) -> [(&[u16], u16); 3] {
    [(&S, 1), (bad, mask), (&T, 1)]
}

/// Sheets that begin wrongly or are too short, for question 1.
fn sheets_for_1() -> Vec<Vec<u8>> {
    let good = sheet(10, 2, 10, &[(&S, 1)]);
    let mut bad: Vec<Vec<u8>> = (0..16).map(|length| good[..length].to_vec()).collect();
    for place in 0..4 {
        for bit in 0..8 {
            let mut other = good.clone();
            other[place] ^= 1 << bit;
            bad.push(other);
        }
    }
    bad
}

/// Sheets of a wrong length, for question 2.
fn sheets_for_2() -> Vec<Vec<u8>> {
    let plan = plan(10, 2, 10, &[(&S, 1)]);
    let good = plan.bytes();
    let mut bad: Vec<Vec<u8>> = (16..good.len())
        .map(|length| good[..length].to_vec())
        .collect();
    for longer in 1..=13 {
        bad.push([good.clone(), vec![0; longer]].concat());
    }
    let counts = [
        [0, 0],
        [3, 1],
        [5, 1],
        [4, 0],
        [4, 2],
        [65_535, 1],
        [4, 65_535],
        [65_535, 65_535],
        // 6 times 32,768 is three times 65,536.
        [4 + 32_768, 1],
        [4, 1 + 32_768],
    ];
    bad.extend(counts.map(|counts| plan.bytes_with_counts(counts)));
    bad
}

/// Sheets whose piece chain is wrong, for question 6.
fn sheets_for_6() -> Vec<Vec<u8>> {
    let of: [(&[u16], u16); 3] = [(&S, 1), (&T, 1), (&U, 1)];
    let mut bad = Vec::new();
    for first in [4, 5, 65_535] {
        let mut plan = plan(10, 2, 10, &of);
        plan.first_piece = first;
        bad.push(plan.bytes());
    }
    for piece in 0..3 {
        for next in [4, 65_535, 1] {
            // Next 1 makes a loop.
            let mut plan = plan(10, 2, 10, &of);
            plan.pieces[piece][2] = next;
            bad.push(plan.bytes());
        }
    }
    bad.push(sheet(10, 2, 10, &[(&S[..], 1); 201]));
    bad
}

/// Sheets whose second piece has a wrong vertex chain, for question 7.
fn sheets_for_7() -> Vec<Vec<u8>> {
    // The second piece's vertices are the records 5, 6 and 7 of 7.
    let of: [(&[u16], u16); 2] = [(&S, 1), (&T, 1)];
    let mut bad = Vec::new();
    for first in [0, 8, 65_535] {
        let mut plan = plan(10, 2, 10, &of);
        plan.pieces[1][0] = first;
        bad.push(plan.bytes());
    }
    for (vertex, next) in [
        (5, 8),
        (6, 65_535),
        (7, 8),
        (5, 0),
        (6, 0),
        (7, 5),
        (7, 7),
        (5, 5),
    ] {
        // Past V, ended too early, looping.
        let mut plan = plan(10, 2, 10, &of);
        plan.vertices[vertex - 1][2] = next;
        bad.push(plan.bytes());
    }
    bad.push(sheet(10, 2, 10, &at_place_2(&sixty_five_vertices(), 1)));
    bad
}

#[test]
fn read_1() {
    for bad in sheets_for_1() {
        assert_eq!(check_read(&bad, 90), Err(no(1, 0)));
    }
}

#[test]
fn read_2() {
    for bad in sheets_for_2() {
        assert_eq!(check_read(&bad, 90), Err(no(2, 0)));
    }
}

#[test]
fn read_3_16_17() {
    for ((w, r, n), number) in OUT_OF_LIMITS {
        let bad = sheet(w, r, n, &[(&S, 1)]);
        assert_eq!(check_read(&bad, 90), Err(no(number, 0)));
    }
    for (w, r, n) in IN_LIMITS {
        let good = sheet(w, r, n, &[(&S, 1)]);
        let words = vec![1, 4, 1, 0, 0, 4, 0, 4, 4, 0, 4];
        assert_eq!(check_read(&good, 90), Ok((figures(w, r, n), words)));
    }
}

#[test]
fn read_6() {
    for bad in sheets_for_6() {
        assert_eq!(check_read(&bad, 9_000), Err(no(6, 0)));
    }
    assert!(check_read(&sheet(10, 2, 10, &[(&S[..], 1); 200]), 9_000).is_ok());
}

#[test]
fn read_7() {
    for bad in sheets_for_7() {
        assert_eq!(check_read(&bad, 900), Err(no(7, 2)));
    }
    let most = sheet(10, 2, 10, &at_place_2(&sixty_four_vertices(), 1));
    assert!(check_read(&most, 900).is_ok());
}

#[test]
fn read_8() {
    let bad = sheet(10, 2, 10, &at_place_2(&FAR, 1));
    assert_eq!(check_read(&bad, 90), Err(no(8, 2)));
}

#[test]
fn read_9() {
    for mask in BAD_MASKS {
        let bad = sheet(10, 2, 10, &at_place_2(&S, mask));
        assert_eq!(check_read(&bad, 90), Err(no(9, 2)));
    }
    for mask in 1..=15 {
        let good = sheet(10, 2, 10, &at_place_2(&S, mask));
        assert!(check_read(&good, 90).is_ok());
    }
}

#[test]
fn read_10() {
    let bad = sheet(10, 2, 10, &at_place_2(&CROSSED, 1));
    assert_eq!(check_read(&bad, 90), Err(no(10, 2)));
    let good = sheet(10, 2, 10, &at_place_2(&CROSSED, 2));
    assert!(check_read(&good, 90).is_ok());
}

#[test]
fn read_11() {
    let bad = sheet(10, 2, 10, &at_place_2(&FLAT, 1));
    assert_eq!(check_read(&bad, 90), Err(no(11, 2)));
}

#[test]
fn read_15() {
    // 1, then 2 + 8 words for S and 2 + 6 for T.
    let good = sheet(10, 2, 10, &[(&S, 1), (&T, 15)]);
    assert_eq!(check_read(&good, 0), Err(no(15, 0)));
    assert_eq!(check_read(&good, 18), Err(no(15, 0)));
    let words = vec![2, 4, 1, 0, 0, 4, 0, 4, 4, 0, 4, 3, 15, 0, 0, 3, 0, 3, 2];
    assert_eq!(check_read(&good, 19), Ok((figures(10, 2, 10), words)));
    let empty = sheet(10, 2, 10, &[]);
    assert_eq!(check_read(&empty, 0), Err(no(15, 0)));
    assert_eq!(check_read(&empty, 1), Ok((figures(10, 2, 10), vec![0])));
}

// --------------------------------------------------------------------- write

const WRN: (u16, u16, u16) = (10, 2, 10);

#[test]
fn write_3_16_17() {
    for (figures, number) in OUT_OF_LIMITS {
        let answer = check_write(figures, &list(&[(&S, 1)]), 90);
        assert_eq!(answer, Err(no(number, 0)));
    }
    for figures in IN_LIMITS {
        assert!(check_write(figures, &list(&[(&S, 1)]), 90).is_ok());
    }
}

#[test]
fn write_6() {
    assert_eq!(check_write(WRN, &[], 90), Err(no(6, 0)));
    for count in [201, 202, 65_535] {
        let mut words = list(&[(&S[..], 1); 202]);
        words[0] = count;
        assert_eq!(check_write(WRN, &words, 9_000), Err(no(6, 0)));
    }
    assert!(check_write(WRN, &list(&[(&S[..], 1); 200]), 9_000).is_ok());
}

#[test]
fn write_7() {
    for count in [0, 1, 2, 65, 66, 65_535] {
        // Enough words for 65 vertices.
        let mut words = list(&at_place_2(&sixty_five_vertices(), 1));
        words[11] = count;
        assert_eq!(check_write(WRN, &words, 9_000), Err(no(7, 2)));
    }
    // The second piece's words end early: at its count, its mask, or any of its
    // coordinates. Its words begin at place 11 and are 2 + 6.
    let words = list(&[(&S, 1), (&T, 1)]);
    for length in 11..19 {
        assert_eq!(check_write(WRN, &words[..length], 900), Err(no(7, 2)));
    }
    assert!(check_write(WRN, &words[..19], 900).is_ok());
    for length in 1..11 {
        assert_eq!(check_write(WRN, &words[..length], 900), Err(no(7, 1)));
    }
    let most = list(&at_place_2(&sixty_four_vertices(), 1));
    assert!(check_write(WRN, &most, 9_000).is_ok());
}

#[test]
fn write_8() {
    let words = list(&at_place_2(&FAR, 1));
    assert_eq!(check_write(WRN, &words, 900), Err(no(8, 2)));
}

#[test]
fn write_9() {
    for mask in BAD_MASKS {
        let words = list(&at_place_2(&S, mask));
        assert_eq!(check_write(WRN, &words, 900), Err(no(9, 2)));
    }
}

#[test]
fn write_10() {
    let words = list(&at_place_2(&CROSSED, 4));
    assert_eq!(check_write(WRN, &words, 900), Err(no(10, 2)));
    assert!(check_write(WRN, &list(&at_place_2(&CROSSED, 8)), 900).is_ok());
}

#[test]
fn write_11() {
    let words = list(&at_place_2(&FLAT, 1));
    assert_eq!(check_write(WRN, &words, 900), Err(no(11, 2)));
}

/// 16 + 6 × 168 × 65 is 65,536.
#[test]
fn write_2() {
    let outline = sixty_four_vertices();
    let most = list(&vec![(&outline[..], 1); 168]);
    let written = check_write(WRN, &most, 70_000).unwrap();
    assert_eq!(written.len(), 65_536);
    assert_eq!(check_read(&written, 30_000), Ok((figures(10, 2, 10), most)));
    let mut of = vec![(&outline[..], 1); 168];
    of[0] = (&outline[2..], 1);
    let less = check_write(WRN, &list(&of), 70_000).unwrap();
    assert_eq!(less.len(), 65_530);
    // One triangle more: 65,536 + 6 × (3 + 1) bytes.
    let mut of = vec![(&outline[..], 1); 168];
    of.push((&T, 1));
    assert_eq!(check_write(WRN, &list(&of), 70_000), Err(no(2, 0)));
    let all = list(&vec![(&outline[..], 1); 200]);
    assert_eq!(check_write(WRN, &all, 90_000), Err(no(2, 0)));
}

#[test]
fn write_15() {
    // 16 + 6 × (4 + 1) is 46.
    let words = list(&[(&S, 1)]);
    assert_eq!(check_write(WRN, &words, 0), Err(no(15, 0)));
    assert_eq!(check_write(WRN, &words, 45), Err(no(15, 0)));
    assert_eq!(check_write(WRN, &words, 46).unwrap().len(), 46);
    assert_eq!(check_write(WRN, &[0], 15), Err(no(15, 0)));
    assert_eq!(check_write(WRN, &[0], 16).unwrap().len(), 16);
}

// ----------------------------------------------------------------------- lay

/// Buffers with room for everything, for N 10.
const ROOM: [usize; 3] = [5 + 10 + 4 * 100, 900, 9_000];

#[test]
fn lay_1() {
    for bad in sheets_for_1() {
        assert_eq!(check_lay(&bad, ROOM), Err(no(1, 0)));
    }
}

#[test]
fn lay_2() {
    for bad in sheets_for_2() {
        assert_eq!(check_lay(&bad, ROOM), Err(no(2, 0)));
    }
}

#[test]
fn lay_3_16_17() {
    for ((w, r, n), number) in OUT_OF_LIMITS {
        let bad = sheet(w, r, n, &[(&S, 1)]);
        let room = [strip_length(n, 100), 900, 9_000];
        assert_eq!(check_lay(&bad, room), Err(no(number, 0)));
    }
    for (w, r, n) in IN_LIMITS {
        let good = sheet(w, r, n, &[(&S, 1)]);
        let room = [strip_length(n, 100), 900, 9_000];
        assert!(check_lay(&good, room).is_ok());
    }
}

/// In the sheet's limits, whatever the strip.
#[test]
fn lay_21() {
    let good = sheet(10, 2, 10, &[(&S, 1)]);
    for g in OVER_400 {
        assert_eq!(check_lay_with_gap(&good, g, ROOM), Err(no(21, 0)));
    }
    for g in [0, 1, 399, 400] {
        assert!(check_lay_with_gap(&good, g, ROOM).is_ok());
    }
}

#[test]
fn lay_4() {
    let good = sheet(10, 2, 10, &[(&S, 1)]);
    for length in [0, 4, 14, 15, 16, 18, 20, 15 + 64_004] {
        assert_eq!(check_lay(&good, [length, 4, 6]), Err(no(4, 0)), "{length}");
    }
    assert!(check_lay(&good, [strip_length(10, 2), 4, 6]).is_ok());
    assert!(check_lay(&good, [strip_length(10, 16_000), 4, 6]).is_ok());
}

#[test]
fn lay_6() {
    for bad in sheets_for_6() {
        assert_eq!(check_lay(&bad, ROOM), Err(no(6, 0)));
    }
}

#[test]
fn lay_7() {
    for bad in sheets_for_7() {
        assert_eq!(check_lay(&bad, ROOM), Err(no(7, 2)));
    }
}

#[test]
fn lay_8() {
    let bad = sheet(10, 2, 10, &at_place_2(&FAR, 1));
    assert_eq!(check_lay(&bad, ROOM), Err(no(8, 2)));
}

#[test]
fn lay_9() {
    for mask in BAD_MASKS {
        let bad = sheet(10, 2, 10, &at_place_2(&S, mask));
        assert_eq!(check_lay(&bad, ROOM), Err(no(9, 2)));
    }
}

#[test]
fn lay_10() {
    let bad = sheet(10, 2, 10, &at_place_2(&CROSSED, 1));
    assert_eq!(check_lay(&bad, ROOM), Err(no(10, 2)));
}

#[test]
fn lay_11() {
    let bad = sheet(10, 2, 10, &at_place_2(&FLAT, 1));
    assert_eq!(check_lay(&bad, ROOM), Err(no(11, 2)));
}

#[test]
fn lay_15() {
    let good = sheet(10, 2, 10, &[(&S, 1), (&S, 1)]);
    for length in [0, 4, 7] {
        assert_eq!(check_lay(&good, [ROOM[0], length, 6]), Err(no(15, 0)));
    }
    let laid = check_lay(&good, [ROOM[0], 8, 6]).unwrap();
    assert_eq!(laid.output, [0, 0, 0, 0, 0, 0, 0, 4]);
}

/// "12 to 14 only as a piece's fate"
#[test]
fn lay_12_13_14_as_fates() {
    // S needs 6 work words, 10 by 2 needs 15.
    let long = rectangle(10, 2);
    let job = sheet(10, 2, 10, &[(&S, 1), (&long, 1), (&S, 1)]);
    let laid = check_lay(&job, [ROOM[0], 12, 14]).unwrap();
    assert_eq!(laid.output, [0, 0, 0, 0, 12, 0, 0, 0, 0, 0, 0, 4]);
    assert_eq!((laid.totals.placed, laid.totals.used), (2, 4));
    // 1 by 11 is higher than the strip.
    let high = rectangle(1, 11);
    let job = sheet(10, 2, 10, &[(&high, 1), (&S, 1)]);
    let laid = check_lay(&job, ROOM).unwrap();
    assert_eq!(laid.output[..8], [13, 0, 0, 0, 0, 0, 0, 0]);
    assert_eq!(laid.output[8..], other_words(900)[8..]);
    assert_eq!((laid.totals.placed, laid.totals.used), (1, 4));
    // 10 by 2 makes five runs, Q is 4.
    let job = sheet(10, 2, 10, &[(&long, 1), (&S, 1)]);
    let laid = check_lay(&job, [strip_length(10, 4), 8, 90]).unwrap();
    assert_eq!(laid.output, [14, 0, 0, 0, 0, 0, 0, 0]);
    assert_eq!((laid.totals.placed, laid.totals.used), (1, 4));
}

/// The chain order, not the record number, is the ordinal.
#[test]
fn ordinals_are_places_in_the_chain() {
    // Records 1, 2, 3 are FLAT, S, T; the chain is 3, 2, 1.
    let of: [(&[u16], u16); 3] = [(&FLAT, 1), (&S, 1), (&T, 1)];
    let mut plan: SheetPlan = plan(10, 2, 10, &of);
    plan.first_piece = 3;
    plan.pieces[2][2] = 2;
    plan.pieces[1][2] = 1;
    plan.pieces[0][2] = 0;
    assert_eq!(check_read(&plan.bytes(), 90), Err(no(11, 3)));
    assert_eq!(check_lay(&plan.bytes(), ROOM), Err(no(11, 3)));
}
