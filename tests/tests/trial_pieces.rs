//! The trial pieces of document 01, starred or not, and its printed example.

mod common;
use common::*;
use reference::{lay_text, strip_runs};

#[test]
fn square_s() {
    assert_eq!(columns_of(&S, 0, 2), [[(0, 4)], [(0, 4)]]);
}

#[test]
fn right_triangle() {
    let triangle = [0, 0, 4, 0, 0, 4];
    assert_eq!(columns_of(&triangle, 0, 2), [[(0, 4)], [(0, 2)]]);
}

#[test]
fn t() {
    assert_eq!(columns_of(&T, 0, 1), [[(0, 1)], [(0, 2)], [(0, 2)]]);
}

#[test]
fn u() {
    assert_eq!(columns_of(&U, 0, 1), [[(0, 2)], [(0, 2)], [(1, 2)]]);
}

#[test]
fn t_then_u_on_six_columns() {
    let mut strip = opened(2, 1, 6, 6);
    assert_eq!(check_place(&mut strip, &T, 1, 9), Ok(at(0, 0, 0)));
    assert_eq!(check_place(&mut strip, &U, 1, 9), Ok(at(0, 3, 0)));
    assert_eq!(
        strip_runs(&strip),
        [[(0, 1)], [(0, 2)], [(0, 2)], [(0, 2)], [(0, 2)], [(1, 2)]]
    );
}

#[test]
fn t_then_u_on_five_columns() {
    let mut strip = opened(2, 1, 5, 6);
    assert_eq!(check_place(&mut strip, &T, 1, 9), Ok(at(0, 0, 0)));
    assert_eq!(check_place(&mut strip, &U, 1, 9), Err(no(13, 1)));
}

#[test]
fn bow_tie_that_crosses_between_whole_x() {
    let mut strip = opened(10, 1, 10, 6);
    assert_eq!(check_place(&mut strip, &CROSSED, 1, 90), Err(no(10, 1)));
    assert_eq!(check_cover(&CROSSED, 0, 1, 90), Err(no(10, 1)));
}

#[test]
fn bow_tie_that_crosses_at_whole_x() {
    let bow_tie = [0, 0, 2, 1, 2, 0, 0, 1];
    let mut strip = opened(10, 1, 10, 6);
    assert_eq!(check_place(&mut strip, &bow_tie, 1, 90), Ok(at(0, 0, 0)));
    assert_eq!(check_place(&mut strip, &bow_tie, 2, 90), Err(no(10, 1)));
    assert_eq!(columns_of(&bow_tie, 0, 1), [[(0, 1)], [(0, 1)]]);
    assert_eq!(check_cover(&bow_tie, 1, 1, 90), Err(no(10, 1)));
}

#[test]
fn flat_outline() {
    let mut strip = opened(10, 1, 10, 6);
    for mask in 1..=15 {
        assert_eq!(check_place(&mut strip, &FLAT, mask, 90), Err(no(11, 1)));
    }
}

#[test]
fn six_by_two_takes_turn_0_on_width_4() {
    let mut strip = opened(4, 2, 10, 6);
    let placed = check_place(&mut strip, &rectangle(6, 2), 3, 9);
    assert_eq!(placed, Ok(at(0, 0, 0)));
    assert_eq!(
        strip_runs(&strip)[..4],
        [vec![(0, 2)], vec![(0, 2)], vec![(0, 2)], vec![]]
    );
}

#[test]
fn six_by_two_takes_turn_1_on_width_6() {
    let mut strip = opened(6, 2, 10, 6);
    let placed = check_place(&mut strip, &rectangle(6, 2), 3, 9);
    assert_eq!(placed, Ok(at(1, 0, 0)));
    assert_eq!(strip_runs(&strip)[..2], [vec![(0, 6)], vec![]]);
}

#[test]
fn three_squares_with_three_records() {
    let mut strip = opened(10, 2, 10, 3);
    assert_eq!(check_place(&mut strip, &S, 1, 6), Ok(at(0, 0, 0)));
    assert_eq!(check_place(&mut strip, &S, 1, 6), Ok(at(0, 0, 4)));
    assert_eq!(check_place(&mut strip, &S, 1, 6), Err(no(14, 1)));
    let squares = sheet(10, 2, 10, &[(&S, 1), (&S, 1), (&S, 1)]);
    let laid = check_lay(&squares, [strip_length(10, 3), 12, 6]).unwrap();
    assert_eq!(laid.output, [0, 0, 0, 0, 0, 0, 0, 4, 14, 0, 0, 0]);
    assert_eq!((laid.totals.placed, laid.totals.used), (2, 4));
}

#[test]
fn three_squares_with_four_records() {
    let mut strip = opened(10, 2, 10, 4);
    assert_eq!(check_place(&mut strip, &S, 1, 6), Ok(at(0, 0, 0)));
    assert_eq!(check_place(&mut strip, &S, 1, 6), Ok(at(0, 0, 4)));
    assert_eq!(check_place(&mut strip, &S, 1, 6), Ok(at(0, 2, 0)));
    assert_eq!(
        strip_runs(&strip)[..5],
        [
            vec![(0, 8)],
            vec![(0, 8)],
            vec![(0, 4)],
            vec![(0, 4)],
            vec![]
        ]
    );
    let squares = sheet(10, 2, 10, &[(&S, 1), (&S, 1), (&S, 1)]);
    let laid = check_lay(&squares, [strip_length(10, 4), 12, 6]).unwrap();
    assert_eq!(laid.output, [0, 0, 0, 0, 0, 0, 0, 4, 0, 0, 2, 0]);
    assert_eq!((laid.totals.placed, laid.totals.used), (3, 8));
}

#[test]
fn a_coordinate_of_16_001() {
    let mut strip = opened(10, 2, 10, 6);
    assert_eq!(check_place(&mut strip, &FAR, 1, 90), Err(no(8, 1)));
    assert_eq!(check_cover(&FAR, 0, 2, 90), Err(no(8, 1)));
    assert_eq!(
        lay_text(&sheet(10, 2, 10, &[(&FAR, 1)])),
        "job refused 8 1\n"
    );
    let y = [0, 0, 4, 16_001, 0, 4];
    assert_eq!(check_place(&mut strip, &y, 1, 90), Err(no(8, 1)));
}

#[test]
fn sixty_five_vertices_are_too_many() {
    let outline = sixty_five_vertices();
    let mut strip = opened(40, 2, 40, 60);
    assert_eq!(check_place(&mut strip, &outline, 1, 90), Err(no(7, 1)));
    assert_eq!(check_cover(&outline, 0, 2, 90), Err(no(7, 1)));
    assert_eq!(
        lay_text(&sheet(10, 2, 10, &[(&outline, 1)])),
        "job refused 7 1\n"
    );
    let of = list(&[(&outline, 1)]);
    assert_eq!(check_write((10, 2, 10), &of, 9_000), Err(no(7, 1)));
    // One vertex fewer passes.
    let outline = sixty_four_vertices();
    assert_eq!(check_place(&mut strip, &outline, 1, 90), Ok(at(0, 0, 0)));
}

#[test]
fn two_hundred_and_one_pieces_are_too_many() {
    let too_many = sheet(10, 2, 10, &[(&S[..], 1); 201]);
    assert_eq!(check_read(&too_many, 9_000), Err(no(6, 0)));
    assert_eq!(lay_text(&too_many), "job refused 6 0\n");
    let of = list(&[(&S[..], 1); 201]);
    assert_eq!(check_write((10, 2, 10), &of, 9_000), Err(no(6, 0)));
    // One piece fewer passes.
    let most = sheet(10, 2, 10, &[(&S[..], 1); 200]);
    assert!(check_read(&most, 9_000).is_ok());
}

#[test]
fn an_empty_job() {
    let empty = sheet(10, 2, 7, &[]);
    assert_eq!(lay_text(&empty), "strip 10 2 7\nused 0 placed 0\n");
}

/// The bytes are written out by hand from "Job sheet".
#[test]
fn the_printed_example() {
    let squares: [u8; 16 + 6 * 12 + 6 * 3] = [
        0x4E, 0x4A, 0x01, 0x00, // its four bytes
        10, 0, 2, 0, 10, 0, // W, R, N
        1, 0, 12, 0, 3, 0, // first piece, V, P
        0, 0, 0, 0, 2, 0, // vertices of piece 1
        4, 0, 0, 0, 3, 0, //
        4, 0, 4, 0, 4, 0, //
        0, 0, 4, 0, 0, 0, //
        0, 0, 0, 0, 6, 0, // of piece 2
        4, 0, 0, 0, 7, 0, //
        4, 0, 4, 0, 8, 0, //
        0, 0, 4, 0, 0, 0, //
        0, 0, 0, 0, 10, 0, // of piece 3
        4, 0, 0, 0, 11, 0, //
        4, 0, 4, 0, 12, 0, //
        0, 0, 4, 0, 0, 0, //
        1, 0, 1, 0, 2, 0, // first vertex, mask, next
        5, 0, 1, 0, 3, 0, //
        9, 0, 1, 0, 0, 0,
    ];
    assert_eq!(
        lay_text(&squares),
        "strip 10 2 10\n\
         1 placed 0 0 0\n\
         2 placed 0 0 4\n\
         3 placed 0 2 0\n\
         used 8 placed 3\n"
    );
    // The same job with one vertex chain shared by all three.
    let shared: [u8; 16 + 6 * 4 + 6 * 3] = [
        0x4E, 0x4A, 0x01, 0x00, //
        10, 0, 2, 0, 10, 0, 1, 0, 4, 0, 3, 0, //
        0, 0, 0, 0, 2, 0, 4, 0, 0, 0, 3, 0, 4, 0, 4, 0, 4, 0, 0, 0, 4, 0, 0, 0, //
        1, 0, 1, 0, 2, 0, 1, 0, 1, 0, 3, 0, 1, 0, 1, 0, 0, 0,
    ];
    assert_eq!(lay_text(&shared), lay_text(&squares));
    // Writing the list gives the first form.
    let words = list(&[(&S, 1), (&S, 1), (&S, 1)]);
    assert_eq!(check_write((10, 2, 10), &words, 200), Ok(squares.to_vec()));
    assert_eq!(check_read(&shared, 200), Ok((figures(10, 2, 10), words)));
}

/// "A refused piece prints `3 refused 14`": on width 1 the 4,000 records hold
/// the 3,000 and 1,000 runs of the first two pieces, and no run more.
#[test]
fn a_refused_piece_prints_its_number() {
    let (long, short, unit) = (rectangle(3_000, 1), rectangle(1_000, 1), rectangle(1, 1));
    let job = sheet(1, 1, 4_096, &[(&long, 1), (&short, 1), (&unit, 1)]);
    assert_eq!(
        lay_text(&job),
        "strip 1 1 4096\n\
         1 placed 0 0 0\n\
         2 placed 0 3000 0\n\
         3 refused 14\n\
         used 4000 placed 2\n"
    );
}

/// A piece of 3,001 runs needs 9,003 work words, and one higher than the strip
/// has no position.
#[test]
fn pieces_refused_with_12_and_13() {
    let (long, high) = (rectangle(3_001, 1), rectangle(1, 5));
    let job = sheet(4, 1, 4_096, &[(&long, 1), (&high, 1), (&S, 1)]);
    assert_eq!(
        lay_text(&job),
        "strip 4 1 4096\n\
         1 refused 12\n\
         2 refused 13\n\
         3 placed 0 0 0\n\
         used 4 placed 1\n"
    );
}

/// "a refused job only `job refused 10 2`"
#[test]
fn a_refused_job_prints_one_line() {
    let job = sheet(10, 2, 10, &[(&S, 1), (&CROSSED, 1), (&S, 1)]);
    assert_eq!(lay_text(&job), "job refused 10 2\n");
}

/// Turn 1 of T is (2,0) (2,3) (0,3).
#[test]
fn t_in_turn_1() {
    assert_eq!(columns_of(&T, 1, 1), [[(1, 3)], [(0, 3)]]);
}

/// Turn 2 of T is (3,2) (0,2) (0,0), turn 3 is (0,3) (0,0) (2,0).
#[test]
fn t_in_turns_2_and_3() {
    assert_eq!(columns_of(&T, 2, 1), [[(0, 2)], [(0, 2)], [(1, 2)]]);
    assert_eq!(columns_of(&T, 3, 1), [[(0, 3)], [(0, 2)]]);
}

/// "Heights taken only on resolution lines miss a vertex between."
#[test]
fn a_vertex_between_resolution_lines() {
    assert_eq!(columns_of(&[0, 0, 3, 0, 2, 3], 0, 3), [[(0, 3)]]);
}
