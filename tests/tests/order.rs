//! Where several questions say no, the first in the call's order answers.
//!
//! "Order: rising, 7 to 11 piece by piece", but S-1: 16 and 17 "both directly
//! after 3 wherever 3 is asked", S-2: 18 in a commit "asked instead of 13", S-3:
//! "the shape of the whole path first", and S-4: 21 "directly after 16 and 17".

mod common;
use common::*;
use reference::generate::paths::path_of;

/// A bow tie walked twice: its edges change order, and it has no inside.
const CROSSED_TWICE: [u16; 16] = [0, 0, 1, 2, 1, 0, 0, 2, 0, 0, 1, 2, 1, 0, 0, 2];

/// CROSSED with a coordinate of 16,001: (0,0) (1,2) (1,0) (0,16001).
const CROSSED_FAR: [u16; 8] = [0, 0, 1, 2, 1, 0, 0, 16_001];

#[test]
fn cover_in_order() {
    let odd = &FAR[..5];
    assert_eq!(check_cover(odd, 4, 0, 0), Err(no(16, 0)));
    assert_eq!(check_cover(odd, 4, 401, 0), Err(no(16, 0)));
    assert_eq!(check_cover_with_gap(odd, 4, 0, 401, 0), Err(no(16, 0)));
    assert_eq!(check_cover_with_gap(odd, 4, 2, 401, 0), Err(no(21, 0)));
    assert_eq!(check_cover_with_gap(&S, 0, 2, 401, 90), Err(no(21, 0)));
    assert_eq!(check_cover(odd, 4, 2, 0), Err(no(7, 1)));
    assert_eq!(check_cover(&[0, 0, 16_001], 0, 2, 9), Err(no(7, 1)));
    assert_eq!(check_cover(&CROSSED_FAR, 4, 2, 0), Err(no(8, 1)));
    assert_eq!(check_cover(&CROSSED_FAR, 0, 2, 0), Err(no(8, 1)));
    assert_eq!(check_cover(&CROSSED, 4, 2, 0), Err(no(9, 1)));
    assert_eq!(check_cover(&FLAT, 4, 2, 0), Err(no(9, 1)));
    assert_eq!(check_cover(&CROSSED_TWICE, 0, 2, 0), Err(no(10, 1)));
    assert_eq!(check_cover(&CROSSED_TWICE, 1, 2, 0), Err(no(11, 1)));
    assert_eq!(check_cover(&FLAT, 0, 2, 0), Err(no(11, 1)));
    assert_eq!(check_cover(&S, 0, 2, 0), Err(no(12, 1)));
    // 11 is asked of the outline's inside, which a gap does not make.
    assert_eq!(check_cover_with_gap(&FLAT, 0, 2, 9, 0), Err(no(11, 1)));
}

#[test]
fn open_in_order() {
    assert_eq!(check_open(0, 0, 0, 0), Err(no(3, 0)));
    assert_eq!(check_open(10, 0, 0, 0), Err(no(16, 0)));
    assert_eq!(check_open(10, 2, 0, 0), Err(no(17, 0)));
    assert_eq!(check_open(10, 2, 10, 0), Err(no(4, 0)));
    assert_eq!(check_open(10, 2, 4_097, 5 + 4_096 + 4), Err(no(17, 0)));
}

/// W, R and N, each below its limits, in them or above, in every combination,
/// where the question after 17 has to say no too: 4 or 6, and 21 before 4.
#[test]
fn limits_in_order() {
    for w in [0, 10, 16_001] {
        for r in [0, 2, 401] {
            for n in [0, 10, 4_097] {
                let refused = |after| match (w, r, n) {
                    (10, 2, 10) => no(after, 0),
                    (10, 2, _) => no(17, 0),
                    (10, _, _) => no(16, 0),
                    _ => no(3, 0),
                };
                let mut plan = plan(w, r, n, &[(&S, 1)]);
                plan.first_piece = 9;
                assert_eq!(check_open(w, r, n, 0), Err(refused(4)));
                assert_eq!(check_read(&plan.bytes(), 0), Err(refused(6)));
                assert_eq!(check_write((w, r, n), &[], 0), Err(refused(6)));
                assert_eq!(check_lay(&plan.bytes(), [0, 0, 0]), Err(refused(4)));
                let over = check_open_with_gap(w, r, n, 401, 0);
                assert_eq!(over, Err(refused(21)));
                let over = check_lay_with_gap(&plan.bytes(), 401, [0, 0, 0]);
                assert_eq!(over.map(|_| ()), Err(refused(21)));
            }
        }
    }
}

#[test]
fn place_in_order() {
    let mut good = opened(3, 2, 10, 1);
    let mut bad = good.clone();
    bad[0] = 0;
    assert_eq!(check_place(&mut bad, &FAR[..5], 0, 0), Err(no(5, 0)));
    assert_eq!(check_place(&mut bad, &S, 1, 90), Err(no(5, 0)));
    assert_eq!(check_place(&mut good, &FAR[..5], 0, 0), Err(no(7, 1)));
    assert_eq!(check_place(&mut good, &[16_001; 4], 1, 0), Err(no(7, 1)));
    assert_eq!(check_place(&mut good, &FAR, 0, 0), Err(no(8, 1)));
    assert_eq!(check_place(&mut good, &CROSSED_FAR, 1, 0), Err(no(8, 1)));
    assert_eq!(check_place(&mut good, &CROSSED, 0, 0), Err(no(9, 1)));
    assert_eq!(check_place(&mut good, &FLAT, 16, 0), Err(no(9, 1)));
    assert_eq!(
        check_place(&mut good, &CROSSED_TWICE, 15, 0),
        Err(no(10, 1))
    );
    assert_eq!(check_place(&mut good, &CROSSED_TWICE, 2, 0), Err(no(11, 1)));
    assert_eq!(check_place(&mut good, &FLAT, 1, 0), Err(no(11, 1)));
    // S is higher than the strip and has too many runs for it, too.
    assert_eq!(check_place(&mut good, &S, 1, 0), Err(no(12, 1)));
    assert_eq!(check_place(&mut good, &S, 1, 6), Err(no(13, 1)));
    let mut strip = opened(4, 2, 10, 1);
    assert_eq!(check_place(&mut strip, &S, 1, 6), Err(no(14, 1)));
}

/// Each question says no together with those after it.
#[test]
fn commit_in_order() {
    let mut good = opened(3, 2, 10, 1);
    let mut bad = good.clone();
    bad[0] = 0;
    let far = at(4, 65_535, 65_535);
    assert_eq!(check_commit(&mut bad, &FAR[..5], far, 0), Err(no(5, 0)));
    assert_eq!(check_commit(&mut bad, &S, at(0, 0, 0), 90), Err(no(5, 0)));
    assert_eq!(check_commit(&mut good, &FAR[..5], far, 0), Err(no(7, 1)));
    assert_eq!(check_commit(&mut good, &CROSSED_FAR, far, 0), Err(no(8, 1)));
    assert_eq!(
        check_commit(&mut good, &CROSSED_TWICE, far, 0),
        Err(no(9, 1))
    );
    let far = at(0, 65_535, 65_535);
    assert_eq!(
        check_commit(&mut good, &CROSSED_TWICE, far, 0),
        Err(no(10, 1))
    );
    assert_eq!(check_commit(&mut good, &FLAT, far, 0), Err(no(11, 1)));
    assert_eq!(check_commit(&mut good, &S, far, 0), Err(no(12, 1)));
    // S is higher than the strip and has too many runs for it, too.
    assert_eq!(check_commit(&mut good, &S, at(0, 0, 0), 5), Err(no(12, 1)));
    assert_eq!(check_commit(&mut good, &S, at(0, 0, 0), 6), Err(no(18, 0)));
    let mut strip = opened(4, 2, 10, 1);
    assert_eq!(check_commit(&mut strip, &S, at(0, 9, 0), 6), Err(no(18, 0)));
    assert_eq!(check_commit(&mut strip, &S, at(0, 0, 1), 6), Err(no(18, 0)));
    assert_eq!(check_commit(&mut strip, &S, at(0, 0, 0), 6), Err(no(14, 1)));
    // A full strip, on which the piece is not free.
    let mut full = strip_of(8, 2, 1, &[&[(0, 1)], &[], &[]]);
    assert_eq!(check_commit(&mut full, &S, at(0, 0, 0), 6), Err(no(18, 0)));
    assert_eq!(check_commit(&mut full, &S, at(0, 0, 2), 6), Err(no(14, 1)));
}

#[test]
fn read_in_order() {
    // First bytes, length, W, R, N, piece chain, pieces and output are all wrong.
    let of: [(&[u16], u16); 2] = [(&S[..4], 0), (&FAR, 0)];
    let mut plan = plan(0, 0, 0, &of);
    plan.pieces[1][2] = 9;
    let mut first = plan.bytes();
    first.push(0);
    first[0] = 0;
    assert_eq!(check_read(&first, 0), Err(no(1, 0)));
    first[0] = 0x4E;
    assert_eq!(check_read(&first, 0), Err(no(2, 0)));
    assert_eq!(check_read(&plan.bytes(), 0), Err(no(3, 0)));
    plan.figures.width = 10;
    assert_eq!(check_read(&plan.bytes(), 0), Err(no(16, 0)));
    plan.figures.resolution = 2;
    assert_eq!(check_read(&plan.bytes(), 0), Err(no(17, 0)));
    plan.figures.columns = 10;
    assert_eq!(check_read(&plan.bytes(), 0), Err(no(6, 0)));
    plan.pieces[1][2] = 0;
    assert_eq!(check_read(&plan.bytes(), 0), Err(no(7, 1)));
}

/// Pairs of pieces that are both wrong: the first piece's number answers,
/// whatever the second one's.
#[test]
fn seven_to_eleven_piece_by_piece() {
    let two_vertices: &[u16] = &S[..4];
    let wrong: [(&[u16], u16, u16); 5] = [
        (two_vertices, 1, 7),
        (&FAR, 1, 8),
        (&S, 0, 9),
        (&CROSSED, 1, 10),
        (&FLAT, 1, 11),
    ];
    for first in wrong {
        for second in wrong {
            let of = [(&T[..], 1), (first.0, first.1), (second.0, second.1)];
            let sheet = sheet(10, 2, 10, &of);
            let expected = no(first.2, 2);
            assert_eq!(check_read(&sheet, 0), Err(expected));
            assert_eq!(check_lay(&sheet, [19, 0, 0]), Err(expected));
            assert_eq!(check_write((10, 2, 10), &list(&of), 0), Err(expected));
        }
    }
}

/// The mask comes before the coordinates in a list and is still asked after
/// them.
#[test]
fn eight_before_nine_before_ten() {
    for (outline, number) in [(&FAR[..], 8), (&CROSSED_FAR, 8), (&CROSSED, 9), (&FLAT, 9)] {
        let of = [(outline, 0)];
        let sheet = sheet(10, 2, 10, &of);
        assert_eq!(check_read(&sheet, 90), Err(no(number, 1)));
        assert_eq!(check_write((10, 2, 10), &list(&of), 90), Err(no(number, 1)));
        assert_eq!(check_lay(&sheet, [19, 90, 90]), Err(no(number, 1)));
        let mut strip = opened(10, 2, 10, 1);
        assert_eq!(check_place(&mut strip, outline, 0, 90), Err(no(number, 1)));
    }
}

/// The whole vertex chain passes 7 before a coordinate is asked 8.
#[test]
fn seven_of_the_whole_piece_before_eight() {
    let mut plan = plan(10, 2, 10, &[(&FAR, 1)]);
    plan.vertices[2][2] = 9;
    assert_eq!(check_read(&plan.bytes(), 90), Err(no(7, 1)));
    let words = list(&[(&FAR, 1)]);
    assert_eq!(check_write((10, 2, 10), &words[..8], 90), Err(no(7, 1)));
}

/// "The shape of the whole path first": a byte after the close comes before any
/// coordinate, and a coordinate before the output.
#[test]
fn read_path_in_order() {
    let mut path = path_of(&[[f32::NAN.to_bits(), 0], [0, 0], [0, 1]]);
    path.push(3);
    assert_eq!(check_read_path(&path, 0), Err(no(19, 0)));
    path.pop();
    assert_eq!(check_read_path(&path, 0), Err(no(20, 0)));
    path[1..5].fill(0);
    assert_eq!(check_read_path(&path, 0), Err(no(20, 0)));
    path[23] = 0;
    assert_eq!(check_read_path(&path, 0), Err(no(15, 0)));
    assert_eq!(check_read_path(&path, 5), Err(no(15, 0)));
    assert_eq!(check_read_path(&path, 6), Ok(vec![0; 6]));
}

#[test]
fn write_path_in_order() {
    assert_eq!(check_write_path(&FAR[..5], 0), Err(no(7, 1)));
    assert_eq!(check_write_path(&[16_001; 130], 0), Err(no(7, 1)));
    assert_eq!(check_write_path(&FAR, 0), Err(no(8, 1)));
    assert_eq!(check_write_path(&S, 36), Err(no(15, 0)));
    // No question after 8: an outline that no other call would take is written.
    for outline in [&FLAT[..], &CROSSED_TWICE] {
        let size = 9 * outline.len() / 2 + 1;
        assert!(check_write_path(outline, size).is_ok());
    }
}

#[test]
fn write_in_order() {
    assert_eq!(check_write((0, 0, 0), &[201, 0], 0), Err(no(3, 0)));
    assert_eq!(check_write((10, 0, 0), &[201, 0], 0), Err(no(16, 0)));
    assert_eq!(check_write((10, 2, 0), &[201, 0], 0), Err(no(17, 0)));
    assert_eq!(check_write((10, 2, 10), &[201, 0], 0), Err(no(6, 0)));
    assert_eq!(check_write((10, 2, 10), &[1], 0), Err(no(7, 1)));
    // 200 pieces of 64 vertices are too much for a sheet, but 6 to 11 of every
    // piece come before the size, and the size before the output.
    let outline = sixty_four_vertices();
    let mut of = vec![(&outline[..], 1); 200];
    assert_eq!(check_write((10, 2, 10), &list(&of), 0), Err(no(2, 0)));
    of[199] = (&FLAT, 1);
    assert_eq!(check_write((10, 2, 10), &list(&of), 0), Err(no(11, 200)));
    of[199] = (&FAR, 1);
    assert_eq!(check_write((10, 2, 10), &list(&of), 0), Err(no(8, 200)));
    let most = list(&vec![(&outline[..], 1); 168]);
    assert_eq!(check_write((10, 2, 10), &most, 0), Err(no(15, 0)));
    assert_eq!(check_write((10, 2, 10), &most, 65_535), Err(no(15, 0)));
}

#[test]
fn lay_in_order() {
    let of: [(&[u16], u16); 2] = [(&S, 1), (&FLAT, 1)];
    let mut plan = plan(0, 0, 0, &of);
    plan.first_piece = 9;
    assert_eq!(check_lay(&plan.bytes()[..15], [0, 0, 0]), Err(no(1, 0)));
    assert_eq!(check_lay(&plan.bytes()[..17], [0, 0, 0]), Err(no(2, 0)));
    assert_eq!(check_lay(&plan.bytes(), [0, 0, 0]), Err(no(3, 0)));
    plan.figures.width = 10;
    assert_eq!(check_lay(&plan.bytes(), [0, 0, 0]), Err(no(16, 0)));
    plan.figures.resolution = 2;
    assert_eq!(check_lay(&plan.bytes(), [0, 0, 0]), Err(no(17, 0)));
    let over = |bytes: &[u8]| check_lay_with_gap(bytes, 401, [0, 0, 0]).map(|_| ());
    assert_eq!(over(&plan.bytes()[..15]), Err(no(1, 0)));
    assert_eq!(over(&plan.bytes()[..17]), Err(no(2, 0)));
    assert_eq!(over(&plan.bytes()), Err(no(17, 0)));
    plan.figures.columns = 10;
    assert_eq!(over(&plan.bytes()), Err(no(21, 0)));
    assert_eq!(check_lay(&plan.bytes(), [0, 0, 0]), Err(no(4, 0)));
    assert_eq!(check_lay(&plan.bytes(), [19, 0, 0]), Err(no(6, 0)));
    plan.first_piece = 1;
    assert_eq!(check_lay(&plan.bytes(), [0, 0, 0]), Err(no(4, 0)));
    assert_eq!(check_lay(&plan.bytes(), [19, 0, 0]), Err(no(11, 2)));
    // 15 of the whole job before 12 to 14 of any piece.
    let job = sheet(10, 2, 10, &[(&S, 1)]);
    assert_eq!(check_lay(&job, [19, 3, 0]), Err(no(15, 0)));
    let laid = check_lay(&job, [19, 4, 0]).unwrap();
    assert_eq!(laid.output, [12, 0, 0, 0]);
    let laid = check_lay(&job, [19, 4, 6]).unwrap();
    assert_eq!(laid.output, [14, 0, 0, 0]);
}
