//! The places of documents 01 and 02 that are easily read in another way. Each name
//! begins with the place's label in the list of readings.

mod common;
use common::*;
use reference::bytes::{lay_bytes, open_bytes, place_bytes};
use reference::generate::outlines::zigzag_of;
use reference::{lay_text, strip_runs};

// ----------------------------------------------------------- outline, inside

/// Each edge counts: a square walked twice has no inside, walked three times it
/// has.
#[test]
fn a3_repeated_edges() {
    let twice = S.repeat(2);
    let thrice = S.repeat(3);
    assert_eq!(check_cover(&twice, 0, 2, 90), Err(no(11, 1)));
    assert_eq!(columns_of(&thrice, 0, 2), columns_of(&S, 0, 2));
    // Repeated vertices make edges of length zero, which span nothing.
    let repeated = [0, 0, 0, 0, 4, 0, 4, 0, 4, 0, 4, 4, 0, 4, 0, 0];
    assert_eq!(columns_of(&repeated, 0, 2), columns_of(&S, 0, 2));
    // A doubled edge through the square, from (4,2) to (0,2) and back.
    let doubled = [0, 0, 4, 0, 4, 2, 0, 2, 4, 2, 4, 4, 0, 4];
    assert_eq!(columns_of(&doubled, 0, 2), columns_of(&S, 0, 2));
    // A square of 2 inside S, joined to it by a doubled edge, is a hole: (0,0)
    // (4,0) (4,4) (0,4) (0,0), then (1,1) (3,1) (3,3) (1,3) (1,1).
    let hole = [0, 0, 4, 0, 4, 4, 0, 4, 0, 0, 1, 1, 3, 1, 3, 3, 1, 3, 1, 1];
    assert_eq!(
        columns_of(&hole, 0, 1),
        [
            vec![(0, 4)],
            vec![(0, 1), (3, 4)],
            vec![(0, 1), (3, 4)],
            vec![(0, 4)]
        ]
    );
}

/// A 2 by 2 square with a spur from (2,1) to (6,1).
const SPUR: [u16; 14] = [0, 0, 2, 0, 2, 1, 6, 1, 2, 1, 2, 2, 0, 2];

/// The extent is that of all vertices. A spur must fit on the strip and counts
/// for right edge, top and used length; it may lie over other pieces.
#[test]
fn a8_spurs() {
    assert_eq!(columns_of(&SPUR, 0, 2), [[(0, 2)]]);
    // Six units wide: three columns at R 2.
    let mut strip = opened(2, 2, 2, 6);
    assert_eq!(check_place(&mut strip, &SPUR, 1, 90), Err(no(13, 1)));
    let mut strip = opened(2, 2, 3, 6);
    assert_eq!(check_place(&mut strip, &SPUR, 1, 90), Ok(at(0, 0, 0)));
    assert_eq!(strip_runs(&strip), [vec![(0, 2)], vec![], vec![]]);
    // Used length counts the spur.
    let job = sheet(2, 2, 5, &[(&SPUR, 1)]);
    let laid = check_lay(&job, [strip_length(5, 6), 4, 90]).unwrap();
    assert_eq!((laid.totals.placed, laid.totals.used), (1, 6));
    // It lies over taken cells, and others may be put over it.
    let mut strip = strip_of(2, 2, 6, &[&[], &[(0, 2)], &[(0, 2)]]);
    assert_eq!(check_place(&mut strip, &SPUR, 1, 90), Ok(at(0, 0, 0)));
    let mut strip = opened(2, 2, 4, 6);
    assert_eq!(check_place(&mut strip, &SPUR, 1, 90), Ok(at(0, 0, 0)));
    assert_eq!(check_place(&mut strip, &SPUR, 1, 90), Ok(at(0, 1, 0)));
    assert_eq!(check_place(&mut strip, &SPUR, 1, 90), Err(no(13, 1)));
    assert_eq!(
        check_place(&mut strip, &rectangle(4, 2), 1, 90),
        Ok(at(0, 2, 0))
    );
    // Turn 1 stands the spur up: 2 wide, 6 high, cells in rows 0 and 1. Its last
    // column is less, and so is the least for a strip of width 6.
    let mut strip = opened(6, 2, 4, 6);
    assert_eq!(check_place(&mut strip, &SPUR, 3, 90), Ok(at(1, 0, 0)));
    assert_eq!(strip_runs(&strip)[..2], [vec![(0, 2)], vec![]]);
    let mut strip = opened(5, 2, 4, 6);
    assert_eq!(check_place(&mut strip, &SPUR, 3, 90), Ok(at(0, 0, 0)));
    // In turn 2 the spur points left: columns 0 and 1 hold no cell.
    assert_eq!(columns_of(&SPUR, 2, 2), [vec![], vec![], vec![(0, 2)]]);
    let mut strip = strip_of(2, 2, 6, &[&[(0, 2)], &[(0, 2)], &[]]);
    assert_eq!(check_place(&mut strip, &SPUR, 4, 90), Ok(at(2, 0, 0)));
}

/// Edges may touch, overlap, meet in a vertex and cross at a whole x; crossing
/// anywhere else fails, no matter how small the angle.
#[test]
fn a12_order_of_edges() {
    // y = x and a line from (0,1) to (15999,15998): they meet at x = 7,999.5.
    let between = [0, 0, 16_000, 16_000, 15_999, 15_998, 0, 1];
    assert_eq!(check_cover(&between, 0, 400, 900), Err(no(10, 1)));
    // To (15998,15997): they meet at x = 7,999.
    let whole = [0, 0, 16_000, 16_000, 15_998, 15_997, 0, 1];
    assert!(check_cover(&whole, 0, 400, 900).is_ok());
    // At x = 1 and y = 1/2.
    let bow_tie = [0, 0, 2, 1, 2, 0, 0, 1];
    assert!(check_cover(&bow_tie, 0, 1, 90).is_ok());
    // A vertex of one edge on another edge, at a whole x: (3,3) on y = 3.
    let touching = [0, 0, 3, 3, 6, 0, 6, 3, 0, 3];
    assert!(check_cover(&touching, 0, 1, 90).is_ok());
    // Overlapping edges and edges that meet and part.
    let overlapping = [0, 0, 6, 0, 6, 2, 2, 0, 0, 2];
    assert!(check_cover(&overlapping, 0, 1, 90).is_ok());
    // Only columns that both edges span count: the line of (5,4) (8,10) meets
    // (0,0) (4,1) at x = 24/7, but the edge begins at x = 5.
    let apart = [0, 0, 4, 1, 8, 1, 8, 10, 5, 4, 0, 4];
    assert!(check_cover(&apart, 0, 1, 90).is_ok());
}

/// More than 65,535 runs, and three words for each.
#[test]
fn a14_more_runs_than_16_bits_hold() {
    // 31 legs over 4,096 columns. Near each bend two legs are one run, in some
    // columns.
    let outline: Vec<u16> = zigzag_of(32, 500, 1, 4_096)
        .iter()
        .flat_map(|&(x, y)| [x as u16, y as u16])
        .collect();
    let runs = check_cover(&outline, 0, 1, 400_000).unwrap().len();
    assert!(runs > 126_000 && runs < 31 * 4_096);
    let mut strip = opened(16_000, 1, 4_096, 16_000);
    let short = check_place(&mut strip, &outline, 1, 3 * runs - 1);
    assert_eq!(short, Err(no(12, 1)));
    // It fits in W and N, but not in 16,000 records.
    let enough = check_place(&mut strip, &outline, 1, 3 * runs);
    assert_eq!(enough, Err(no(14, 1)));
    assert_eq!(check_cover(&outline, 0, 1, 3 * runs - 1), Err(no(12, 1)));
    assert!(check_cover(&outline, 0, 1, 3 * runs).is_ok());
}

// ------------------------------------------------------------- the questions

/// 11 of piece 1 comes before 7 of piece 2; 6 comes before any piece.
#[test]
fn b1_piece_by_piece() {
    let of = [(&FLAT[..], 1), (&S[..4], 1)];
    assert_eq!(check_read(&sheet(10, 2, 10, &of), 90), Err(no(11, 1)));
    assert_eq!(check_write((10, 2, 10), &list(&of), 90), Err(no(11, 1)));
    let mut plan = plan(10, 2, 10, &of);
    plan.pieces[1][2] = 3;
    assert_eq!(check_read(&plan.bytes(), 90), Err(no(6, 0)));
    // The list's count comes first too, but a piece that is missing is 7 of
    // that piece, after the pieces before it.
    assert_eq!(check_write((10, 2, 10), &[2, 4, 1], 90), Err(no(7, 1)));
    let mut words = list(&[(&FLAT, 1)]);
    words[0] = 2;
    assert_eq!(check_write((10, 2, 10), &words, 90), Err(no(11, 1)));
    let mut words = list(&[(&S, 1)]);
    words[0] = 2;
    assert_eq!(check_write((10, 2, 10), &words, 90), Err(no(7, 2)));
}

/// A mask of 0 with a coordinate of 16,001 gets 8; with a bow tie, 9.
#[test]
fn b3_eight_before_nine() {
    let mut strip = opened(10, 2, 10, 6);
    assert_eq!(check_place(&mut strip, &FAR, 0, 90), Err(no(8, 1)));
    assert_eq!(check_place(&mut strip, &CROSSED, 0, 90), Err(no(9, 1)));
}

/// "Question 10 is put to each allowed turn, not once", and to no other.
#[test]
fn b4_question_10_by_turn() {
    let level = [0, 0, 2, 1, 2, 0, 0, 1];
    for mask in 1..=15 {
        let mut strip = opened(10, 1, 10, 40);
        let upright_fails = mask & 5 != 0;
        let answer = check_place(&mut strip, &CROSSED, mask, 90);
        assert_eq!(answer.is_err(), upright_fails, "{mask}");
        let level_fails = mask & 10 != 0;
        let answer = check_place(&mut strip, &level, mask, 90);
        assert_eq!(answer.is_err(), level_fails, "{mask}");
    }
    for turn in 0..4 {
        let answer = check_cover(&level, turn, 1, 90);
        assert_eq!(answer.is_err(), turn % 2 == 1);
    }
}

/// 12 takes the allowed turn with most runs, also one that doesn't fit the
/// strip, and no other.
#[test]
fn b7_runs_of_the_allowed_turns() {
    // 6 by 2 at R 2: three runs in turns 0 and 2, one in turns 1 and 3.
    let piece = rectangle(6, 2);
    for (mask, words) in [(1, 9), (2, 3), (3, 9), (8, 3), (10, 3), (15, 9)] {
        let mut strip = opened(6, 2, 1, 6);
        let short = check_place(&mut strip, &piece, mask, words - 1);
        assert_eq!(short, Err(no(12, 1)), "{mask}");
        // Only turns 1 and 3 fit in one column.
        let enough = check_place(&mut strip, &piece, mask, words);
        match mask {
            1 => assert_eq!(enough, Err(no(13, 1))),
            8 => assert_eq!(enough, Ok(at(3, 0, 0))),
            _ => assert_eq!(enough, Ok(at(1, 0, 0))),
        }
    }
}

/// 13 comes after 5 and 7 to 12, 14 means that a free position exists.
#[test]
fn b8_thirteen_in_its_place() {
    // Nothing fits on this strip, yet the earlier questions answer.
    let mut strip = strip_of(4, 2, 1, &[&[(0, 4)]]);
    assert_eq!(check_place(&mut strip, &S[..4], 1, 90), Err(no(7, 1)));
    assert_eq!(check_place(&mut strip, &S, 1, 5), Err(no(12, 1)));
    assert_eq!(check_place(&mut strip, &S, 1, 6), Err(no(13, 1)));
    let unit = rectangle(1, 1);
    assert_eq!(check_place(&mut strip, &unit, 1, 3), Err(no(13, 1)));
}

/// 14 is asked of the best position only, and of the runs after joining.
#[test]
fn b9_runs_after_joining() {
    let block = rectangle(2, 2);
    // A full strip: the block joins two runs.
    let mut strip = strip_of(10, 2, 2, &[&[(0, 4), (6, 10)]]);
    assert_eq!(check_place(&mut strip, &block, 1, 3), Ok(at(0, 0, 4)));
    assert_eq!(strip_runs(&strip), [[(0, 10)]]);
    // It takes no new run where it touches one.
    let mut strip = strip_of(10, 2, 1, &[&[(0, 4)]]);
    assert_eq!(check_place(&mut strip, &block, 1, 3), Ok(at(0, 0, 4)));
    assert_eq!(strip_runs(&strip), [[(0, 6)]]);
    // A full strip: a new run in one column, two joined in the other, in either
    // order. No matter how many runs there are on the way.
    let wide = rectangle(4, 2);
    let mut strip = strip_of(6, 2, 2, &[&[], &[(0, 2), (4, 6)]]);
    assert_eq!(check_place(&mut strip, &wide, 1, 6), Ok(at(0, 0, 2)));
    assert_eq!(strip_runs(&strip), [[(2, 4)], [(0, 6)]]);
    let mut strip = strip_of(6, 2, 2, &[&[(0, 2), (4, 6)], &[]]);
    assert_eq!(check_place(&mut strip, &wide, 1, 6), Ok(at(0, 0, 2)));
    assert_eq!(strip_runs(&strip), [[(0, 6)], [(2, 4)]]);
    // One record for a run in column 1. The best position is column 0, which
    // makes two runs; column 1 at height 4 would make one, and is not taken.
    let mut strip = strip_of(10, 2, 1, &[&[], &[(0, 4)]]);
    assert_eq!(check_place(&mut strip, &block, 1, 3), Err(no(14, 1)));
}

/// Q is 1 to 16,000.
#[test]
fn b11_some_q() {
    for n in [1, 10, 4_096] {
        let least = 5 + usize::from(n);
        assert_eq!(check_open(10, 2, n, least), Err(no(4, 0)));
        assert!(check_open(10, 2, n, least + 4).is_ok());
        assert!(check_open(10, 2, n, least + 64_000).is_ok());
        assert_eq!(check_open(10, 2, n, least + 64_004), Err(no(4, 0)));
    }
}

/// A strip lent to place with wrong figures or length gets 5, not 3, 16, 17 or 4.
#[test]
fn b12_place_answers_5() {
    let good = opened(10, 2, 10, 6);
    for (place, word) in [
        (0, 0),
        (0, 16_001),
        (1, 0),
        (1, 401),
        (2, 0),
        (2, 4_097),
        (2, 11),
        (4, 401),
        (4, 65_535),
    ] {
        let mut strip = good.clone();
        strip[place] = word;
        assert_eq!(check_place(&mut strip, &S, 1, 90), Err(no(5, 0)));
    }
    for length in 0..good.len() {
        let mut strip = good[..length].to_vec();
        assert_eq!(check_place(&mut strip, &S, 1, 90), Err(no(5, 0)));
    }
}

/// 8 asks the coordinates as lent, before any shift.
#[test]
fn b14_coordinates_as_lent() {
    let outline = [1, 0, 16_001, 0, 16_001, 4];
    assert_eq!(check_cover(&outline, 0, 400, 900), Err(no(8, 1)));
    let outline = [0, 0, 16_000, 0, 16_000, 4];
    assert_eq!(check_cover(&outline, 0, 400, 900).unwrap().len(), 40);
    // Turn 0 is shifted too.
    let outline = [
        15_996, 15_996, 16_000, 15_996, 16_000, 16_000, 15_996, 16_000,
    ];
    assert_eq!(columns_of(&outline, 0, 2), columns_of(&S, 0, 2));
    let mut strip = opened(4, 2, 2, 2);
    assert_eq!(check_place(&mut strip, &outline, 1, 6), Ok(at(0, 0, 0)));
}

// ------------------------------------------------------------------- placing

/// The least column, then the least height.
#[test]
fn c1_column_before_height() {
    let block = rectangle(2, 2);
    let mut strip = strip_of(10, 2, 4, &[&[(0, 8)], &[]]);
    assert_eq!(check_place(&mut strip, &block, 1, 3), Ok(at(0, 0, 8)));
    assert_eq!(check_place(&mut strip, &block, 1, 3), Ok(at(0, 1, 0)));
}

/// S-7: among turns the right edge decides, not the last column; then the top, then
/// the turn.
#[test]
fn c4_r7_1_right_edge_not_last_column() {
    // At R 10 both turns end in column 0; turn 1 is narrower, though turn 0 is
    // lower.
    let mut strip = opened(10, 10, 4, 6);
    assert_eq!(
        check_place(&mut strip, &rectangle(6, 2), 3, 90),
        Ok(at(1, 0, 0))
    );
    // Box 5 by 6, R 4, mask 3: both turns end in column 1.
    let mut strip = opened(10, 4, 10, 6);
    assert_eq!(
        check_place(&mut strip, &rectangle(5, 6), 3, 90),
        Ok(at(0, 0, 0))
    );
    // The turn with the least column doesn't win: on this strip turn 1 fits in
    // column 1 only, turn 0 in column 0, but turn 0 ends in column 2.
    let mut strip = strip_of(6, 2, 6, &[&[(2, 6)], &[], &[], &[]]);
    assert_eq!(
        check_place(&mut strip, &rectangle(6, 2), 3, 90),
        Ok(at(1, 1, 0))
    );
    // Turns 1 and 3 are the same rectangle: the least turn.
    let mut strip = opened(6, 2, 4, 6);
    assert_eq!(
        check_place(&mut strip, &rectangle(6, 2), 10, 90),
        Ok(at(1, 0, 0))
    );
    let mut strip = opened(6, 2, 4, 6);
    assert_eq!(
        check_place(&mut strip, &rectangle(6, 2), 12, 90),
        Ok(at(3, 0, 0))
    );
    // The top is y + h, not y: of 4 by 2, turn 0 ends at 6 in column 1 and height 4,
    // turn 1 ends there in column 2 and height 3, and turn 0 is the lower one.
    let taken: [&[(u16, u16)]; 3] = [&[(0, 8)], &[(0, 4), (6, 8)], &[(0, 3)]];
    let mut strip = strip_of(8, 2, 9, &taken);
    assert_eq!(
        check_place(&mut strip, &rectangle(4, 2), 3, 90),
        Ok(at(0, 1, 4))
    );
}

/// Right edges that are equal: the lower top wins against a lesser turn. Beside S and a
/// square of 2 on it, 4 by 2 fits in turn 0 in column 1 at height 4, in turn 1 in
/// column 2 at height 0, and both end at 6.
#[test]
fn r7_1_equal_right_edges() {
    let (square, bar) = (rectangle(2, 2), rectangle(4, 2));
    let mut strip = opened(6, 2, 10, 8);
    assert_eq!(check_place(&mut strip, &S, 1, 90), Ok(at(0, 0, 0)));
    assert_eq!(check_place(&mut strip, &square, 1, 90), Ok(at(0, 0, 4)));
    assert_eq!(check_ask(&strip, &bar, 1, 90), Ok(at(0, 1, 4)));
    assert_eq!(check_ask(&strip, &bar, 2, 90), Ok(at(1, 2, 0)));
    assert_eq!(check_place(&mut strip, &bar, 3, 90), Ok(at(1, 2, 0)));
}

/// w is the outline's extent, spur and all, without the gap.
#[test]
fn r7_2_extent_of_the_outline() {
    // SPUR ends at 6 in turn 0, at 2 in turn 1; its cells end at 2 in both.
    let mut strip = opened(6, 7, 4, 6);
    assert_eq!(check_place(&mut strip, &SPUR, 3, 90), Ok(at(1, 0, 0)));
    let mut strip = opened(6, 7, 4, 6);
    assert_eq!(check_place(&mut strip, &SPUR, 1, 90), Ok(at(0, 0, 0)));
    // With a gap of 3, 5 by 6 has cells to 8 and 9 and ends at 5 and 6.
    let job = sheet(12, 4, 10, &[(&rectangle(5, 6), 3)]);
    let laid = check_lay_with_gap(&job, 3, [strip_length(10, 9), 4, 90]).unwrap();
    assert_eq!(laid.output, [0, 0, 0, 0]);
    assert_eq!((laid.totals.placed, laid.totals.used), (1, 5));
}

// --------------------------------------------------------------------- strip

/// 68,101 words: 16,000 records all in use, the last at word 68,097.
#[test]
fn d1_the_largest_strip() {
    let runs: &[(u16, u16)] = &[(0, 1), (2, 3), (4, 5), (6, 7)];
    let columns: Vec<&[(u16, u16)]> = (0..4_096)
        .map(|column| if column < 3_712 { runs } else { &runs[..3] })
        .collect();
    let mut strip = strip_of(16, 1, 16_000, &columns);
    assert_eq!(strip.len(), 68_101);
    // The unit square goes between the first two runs of column 0.
    let unit = rectangle(1, 1);
    assert_eq!(check_place(&mut strip, &unit, 1, 3), Ok(at(0, 0, 1)));
    let after = strip_runs(&strip);
    assert_eq!(after[0], [(0, 3), (4, 5), (6, 7)]);
    assert_eq!(after[4_095], runs[..3]);
    assert_eq!(after.iter().map(Vec::len).sum::<usize>(), 15_999);
    // A block of height 9 goes above the last runs of columns 0 and 1 and joins
    // them.
    let high = rectangle(2, 9);
    assert_eq!(check_place(&mut strip, &high, 1, 6), Ok(at(0, 0, 7)));
    // One of height 8 fits at heights 7 and 8 only, first in column 2.
    let block = rectangle(1, 8);
    assert_eq!(check_place(&mut strip, &block, 1, 3), Ok(at(0, 2, 7)));
}

/// Touching runs are ill formed; the first run may begin at 0.
#[test]
fn d4_touching_runs_are_ill_formed() {
    let strip = |low| vec![10, 2, 1, 0, 0, 1, 0, 0, 4, 2, 0, low, 8, 0];
    assert_eq!(check_place(&mut strip(4), &S, 1, 90), Err(no(5, 0)));
    assert_eq!(check_place(&mut strip(3), &S, 1, 90), Err(no(5, 0)));
    // Well formed: S has no room in one column of width 2.
    assert_eq!(check_place(&mut strip(5), &S, 1, 90), Err(no(13, 1)));
}

// ----------------------------------------------------------- sheets, buffers

/// The length is compared without wrapping, 65,536 itself passes.
#[test]
fn e2_length_of_a_sheet() {
    let mut plan = plan(10, 2, 10, &[]);
    plan.vertices = vec![[9, 9, 9]; 10_920];
    assert_eq!(plan.bytes().len(), 65_536);
    assert_eq!(
        check_read(&plan.bytes(), 9),
        Ok((figures(10, 2, 10), vec![0]))
    );
    assert_eq!(lay_text(&plan.bytes()), "strip 10 2 10\nused 0 placed 0\n");
    plan.vertices.push([9, 9, 9]);
    assert_eq!(check_read(&plan.bytes(), 9), Err(no(2, 0)));
    plan.vertices.truncate(10_919);
    plan.pieces = vec![[9, 9, 9]];
    assert!(check_read(&plan.bytes(), 9).is_ok());
    // V and P are 65,535 and the bytes are all there.
    plan.vertices = vec![[9, 9, 9]; 65_535];
    plan.pieces = vec![[9, 9, 9]; 65_535];
    assert_eq!(plan.bytes().len(), 786_436);
    assert_eq!(check_read(&plan.bytes(), 9), Err(no(2, 0)));
    // 6 × 32,768 and 6 × (16,384 + 16,384) are 0 in 16 bits.
    plan.vertices.clear();
    plan.pieces.clear();
    for counts in [[32_768, 0], [0, 32_768], [16_384, 16_384], [43_690, 0]] {
        let bytes = plan.bytes_with_counts(counts);
        assert_eq!(check_read(&bytes, 9), Err(no(2, 0)));
    }
}

/// Write's 2 is about the size only, after 6 to 11 and before 15.
#[test]
fn e8_size_of_a_written_sheet() {
    let outline = sixty_four_vertices();
    for (count, fits) in [(168, true), (169, false), (200, false)] {
        let words = list(&vec![(&outline[..], 1); count]);
        let written = check_write((10, 2, 10), &words, 0);
        assert_eq!(written, Err(no(if fits { 15 } else { 2 }, 0)));
        assert_eq!(check_write((10, 2, 10), &words, 90_000).is_ok(), fits);
    }
}

/// All bytes of a sheet count: an odd length gets 2, also from the C program.
#[test]
fn f1_odd_sheets() {
    let mut odd = sheet(10, 2, 10, &[(&S, 1)]);
    odd.push(0);
    assert_eq!(check_read(&odd, 90), Err(no(2, 0)));
    assert_eq!(check_lay(&odd, [19, 4, 6]), Err(no(2, 0)));
    let (mut strip, mut output, mut work) = ([7; 38], [7; 8], [7; 12]);
    let answer = lay_bytes(&odd, 0, &mut strip, &mut output, &mut work);
    assert_eq!(answer, Err(no(2, 0)));
    assert_eq!(work, [0; 12]);
    assert_eq!(lay_text(&odd), "job refused 2 0\n");
    let answer = lay_bytes(&odd[..46], 0, &mut strip, &mut output, &mut work);
    assert!(answer.is_ok());
}

/// An odd last byte of a buffer of words is no part of it and stays.
#[test]
fn f2_odd_last_bytes() {
    let length = 2 * strip_length(10, 6);
    let mut strip = vec![7; length + 1];
    assert_eq!(open_bytes(10, 2, 10, 0, &mut strip), Ok(()));
    assert_eq!(strip[..8], [10, 0, 2, 0, 10, 0, strip[6], 0]);
    assert_eq!(strip[length], 7);
    // S as bytes, with an odd byte more.
    let outline: Vec<u8> = S
        .iter()
        .flat_map(|word| word.to_le_bytes())
        .chain([7])
        .collect();
    // 11 bytes are five words, 12 are six.
    let mut work = [7; 11];
    let answer = place_bytes(&mut strip, &outline, 1, &mut work).answer;
    assert_eq!(answer, Err(no(12, 1)));
    assert_eq!(work, [0, 0, 0, 0, 0, 0, 0, 0, 0, 0, 7]);
    let mut work = [7; 13];
    let answer = place_bytes(&mut strip, &outline, 1, &mut work).answer;
    assert_eq!(answer, Ok(at(0, 0, 0)));
    assert_eq!(work, [0, 0, 0, 0, 0, 0, 0, 0, 0, 0, 0, 0, 7]);
    assert_eq!(strip[length], 7);
    // An outline of 15 bytes is seven words.
    let answer = place_bytes(&mut strip, &outline[..15], 1, &mut work).answer;
    assert_eq!(answer, Err(no(7, 1)));
    // Two words and a half are no room for an entry.
    let job = sheet(10, 2, 10, &[(&S, 1)]);
    let mut output = [7; 7];
    let answer = lay_bytes(&job, 0, &mut strip, &mut output, &mut work);
    assert_eq!(answer, Err(no(15, 0)));
    assert_eq!(output, [7; 7]);
    let mut output = [7; 9];
    let answer = lay_bytes(&job, 0, &mut strip, &mut output, &mut work);
    assert!(answer.is_ok());
    assert_eq!(output, [0, 0, 0, 0, 0, 0, 0, 0, 7]);
    assert_eq!(strip[length], 7);
    assert_eq!(work[12], 7);
    // A strip one byte short of its last word.
    let answer = open_bytes(10, 2, 10, 0, &mut strip[..length - 1]);
    assert_eq!(answer, Err(no(4, 0)));
}

/// All of the work buffer is zero after every call, granted or refused.
#[test]
fn f4_the_work_buffer_is_zero() {
    let mut work = [9; 100];
    let refused = reference::place(&mut [], &S, 1, &mut work);
    assert!(refused.answer.is_err());
    assert_eq!(work, [0; 100], "refused with 5");
    let mut work = [9; 100];
    assert!(reference::lay(&[], 0, &mut [], &mut [], &mut work).is_err());
    assert_eq!(work, [0; 100], "refused with 1");
    let mut work = [9; 5];
    let mut strip = opened(10, 2, 10, 6);
    let refused = reference::place(&mut strip, &S, 1, &mut work);
    assert!(refused.answer.is_err());
    assert_eq!(work, [0; 5], "refused with 12");
    let mut work = [9; 100];
    let granted = reference::place(&mut strip, &S, 1, &mut work);
    assert!(granted.answer.is_ok());
    assert_eq!(work, [0; 100], "granted");
}

// ---------------------------------------------------------- lay, the program

/// A work buffer too small for every piece still makes a granted job.
#[test]
fn g1_fates() {
    let job = sheet(10, 2, 10, &[(&S, 1), (&T, 1)]);
    let laid = check_lay(&job, [strip_length(10, 6), 8, 0]).unwrap();
    assert_eq!(laid.output, [12, 0, 0, 0, 12, 0, 0, 0]);
    assert_eq!((laid.totals.placed, laid.totals.used), (0, 0));
    // 7 to 11 of any piece refuse the whole job, before the first is placed.
    let job = sheet(10, 2, 10, &[(&S, 1), (&FLAT, 1)]);
    let laid = check_lay(&job, [strip_length(10, 6), 8, 0]);
    assert_eq!(laid, Err(no(11, 2)));
}

/// The program's strip has exactly 4,000 records for every N.
#[test]
fn g5_the_strip_of_the_program() {
    let (long, short, unit) = (rectangle(3_000, 1), rectangle(1_000, 1), rectangle(1, 1));
    for n in [4_001, 4_056, 4_095] {
        let job = sheet(1, 1, n, &[(&long, 1), (&short, 1), (&unit, 1)]);
        let text = lay_text(&job);
        assert!(text.ends_with("3 refused 14\nused 4000 placed 2\n"), "{n}");
    }
    let job = sheet(10, 2, 1, &[(&unit, 1)]);
    assert_eq!(
        lay_text(&job),
        "strip 10 2 1\n1 placed 0 0 0\nused 1 placed 1\n"
    );
}

/// The whole of standard input counts.
#[test]
fn g6_long_and_empty_input() {
    assert_eq!(lay_text(&[]), "job refused 1 0\n");
    assert_eq!(lay_text(&[0x4E, 0x4A, 1]), "job refused 1 0\n");
    let good = sheet(10, 2, 10, &[(&S, 1)]);
    for longer in [1, 6, 65_536, 65_536 - 46, 200_000] {
        let mut long = good.clone();
        long.resize(good.len() + longer, 0);
        assert_eq!(lay_text(&long), "job refused 2 0\n", "{longer}");
        long[1] = 0;
        assert_eq!(lay_text(&long), "job refused 1 0\n", "{longer}");
    }
}

// ------------------------------------------------------------- ask and commit

/// 18 carries 0, although one outline is lent and 13 carries 1.
#[test]
fn r0_1_ordinals_above_15() {
    let mut strip = opened(3, 2, 10, 6);
    assert_eq!(check_ask(&strip, &S, 1, 6), Err(no(13, 1)));
    assert_eq!(check_commit(&mut strip, &S, at(0, 0, 0), 6), Err(no(18, 0)));
}

/// 12 counts the runs of the commit's own turn, so it passes where ask and place
/// with more turns get 12. 10 is of its own turn, too.
#[test]
fn r2_2_questions_of_its_own_turn() {
    let bar = rectangle(6, 2);
    let mut strip = opened(10, 2, 10, 6);
    assert_eq!(check_ask(&strip, &bar, 15, 3), Err(no(12, 1)));
    assert_eq!(check_place(&mut strip, &bar, 15, 3), Err(no(12, 1)));
    assert_eq!(
        check_commit(&mut strip, &bar, at(0, 0, 0), 3),
        Err(no(12, 1))
    );
    assert_eq!(check_commit(&mut strip, &bar, at(1, 0, 0), 3), Ok(()));
    assert_eq!(check_ask(&strip, &CROSSED, 15, 90), Err(no(10, 1)));
    assert_eq!(check_commit(&mut strip, &CROSSED, at(3, 5, 0), 90), Ok(()));
    // The turn is asked after the coordinates.
    let answer = check_commit(&mut strip, &FAR, at(4, 0, 0), 90);
    assert_eq!(answer, Err(no(8, 1)));
    assert_eq!(
        check_commit(&mut strip, &FLAT, at(4, 0, 0), 90),
        Err(no(9, 1))
    );
}

/// Where 16 bits wrap, column 65,535 of S would end in column 0 or 1, and height
/// 65,535 in row 3.
#[test]
fn r2_3_nothing_wraps() {
    for (w, r, n) in [(10, 2, 10), (16_000, 400, 4_096), (16_000, 1, 4_096)] {
        let mut strip = opened(w, r, n, 9);
        for far in [65_528, 65_531, 65_532, 65_534, 65_535] {
            for position in [at(0, far, 0), at(0, 0, far), at(0, far, far)] {
                let answer = check_commit(&mut strip, &S, position, 90);
                assert_eq!(answer, Err(no(18, 0)), "{position:?}");
            }
        }
    }
    // Column 164 begins at 65,600 units, more than 16 bits hold.
    let mut strip = opened(16_000, 400, 4_096, 9);
    assert_eq!(check_commit(&mut strip, &S, at(0, 164, 0), 90), Ok(()));
    assert_eq!(strip_runs(&strip)[164], [(0, 4)]);
}

/// "c + w/R rounded up": the last column need not be filled. Height by the extent
/// alone, spur or not.
#[test]
fn r2_3_off_the_strip_by_the_extent() {
    let mut strip = opened(2, 2, 4, 6);
    // SPUR is three columns wide, with cells in the first only.
    assert_eq!(
        check_commit(&mut strip, &SPUR, at(0, 2, 0), 3),
        Err(no(18, 0))
    );
    assert_eq!(
        check_commit(&mut strip, &SPUR, at(0, 1, 1), 3),
        Err(no(18, 0))
    );
    assert_eq!(check_commit(&mut strip, &SPUR, at(0, 1, 0), 3), Ok(()));
    // 3 wide is two columns of 2.
    let narrow = rectangle(3, 2);
    assert_eq!(
        check_commit(&mut strip, &narrow, at(0, 3, 0), 6),
        Err(no(18, 0))
    );
    assert_eq!(check_commit(&mut strip, &narrow, at(0, 2, 0), 6), Ok(()));
}

/// "asks and refused calls may lie between", and the commit is best and granted. It
/// can only be refused for a smaller work buffer.
#[test]
fn r2_6_what_may_lie_between() {
    let mut strip = opened(10, 2, 10, 6);
    let bar = rectangle(6, 2);
    let found = check_ask(&strip, &bar, 15, 9).expect("there is room");
    assert_eq!(found, at(1, 0, 0));
    assert_eq!(check_ask(&strip, &S, 1, 6), Ok(at(0, 0, 0)));
    assert_eq!(check_place(&mut strip, &FLAT, 1, 6), Err(no(11, 1)));
    assert_eq!(
        check_place(&mut strip, &rectangle(2, 11), 1, 6),
        Err(no(13, 1))
    );
    assert_eq!(check_commit(&mut strip, &S, at(0, 9, 0), 6), Err(no(18, 0)));
    assert_eq!(check_commit(&mut strip, &bar, found, 2), Err(no(12, 1)));
    assert_eq!(check_commit(&mut strip, &bar, found, 3), Ok(()));
    // The other ask's answer is taken now.
    assert_eq!(check_commit(&mut strip, &S, at(0, 0, 0), 6), Err(no(18, 0)));
    // After a change it may be granted, and need not be best.
    let found = check_ask(&strip, &S, 1, 6).expect("there is room");
    assert_eq!(found, at(0, 0, 6));
    assert_eq!(check_commit(&mut strip, &S, at(0, 4, 0), 6), Ok(()));
    assert_eq!(check_commit(&mut strip, &S, found, 6), Ok(()));
}
