//! The trial pieces of document 01 that open, place and cover can run, starred or
//! not, with the numbers that the paper gives. "Q is 6 where none is given." Each is
//! laid in two steps, too, by ask and commit. And the tries of S-5 on a few of them.

use engine::{ask, commit, cover, open, place};
use reference::{strip_runs, Position, Refusal, Tried};

/// Square S, 4 by 4.
const S: [u16; 8] = [0, 0, 4, 0, 4, 4, 0, 4];
const T: [u16; 6] = [0, 0, 3, 0, 3, 2];
const U: [u16; 6] = [0, 0, 3, 2, 0, 2];
const SIX_BY_TWO: [u16; 8] = [0, 0, 6, 0, 6, 2, 0, 2];

/// A strip without a gap.
fn opened(w: u16, r: u16, n: u16, q: usize) -> Vec<u16> {
    opened_with_gap(w, r, n, 0, q)
}

fn opened_with_gap(w: u16, r: u16, n: u16, g: u16, q: usize) -> Vec<u16> {
    let mut strip = vec![0xFFFF; 5 + usize::from(n) + 4 * q];
    assert_eq!(open(w, r, n, g, &mut strip), Ok(()));
    assert_eq!(strip[4], g);
    strip
}

/// Turn, column and height, or the number of the refusal. "Place stays as ask and
/// commit together."
fn placed(strip: &mut [u16], outline: &[u16], mask: u16) -> Result<(u16, u16, u16), u16> {
    placed_with_tries(strip, outline, mask).0
}

/// The same, and the tries.
fn placed_with_tries(
    strip: &mut [u16],
    outline: &[u16],
    mask: u16,
) -> (Result<(u16, u16, u16), u16>, u32) {
    let before = strip.to_vec();
    let mut work = [0xFFFF; 90];
    let tried = place(strip, outline, mask, &mut work);
    assert_eq!(work, [0; 90]);
    let mut in_two_steps = before.clone();
    work.fill(0xFFFF);
    assert_eq!(ask(&in_two_steps, outline, mask, &mut work), tried);
    assert_eq!((work, &in_two_steps), ([0; 90], &before));
    let Tried { answer, tries } = tried;
    if let Ok(position) = answer {
        work.fill(0xFFFF);
        let committed = commit(&mut in_two_steps, outline, position, &mut work);
        assert_eq!((committed, work), (Ok(()), [0; 90]));
        assert!(in_two_steps == strip);
    }
    let answer = match answer {
        Ok(Position {
            turn,
            column,
            height,
        }) => Ok((turn, column, height)),
        Err(Refusal { number, ordinal }) => {
            assert_eq!(ordinal, 1);
            assert!(*strip == *before);
            Err(number)
        }
    };
    (answer, tries)
}

/// The runs (column, low, high) in turn 0 without a gap, or the number of the refusal.
fn covered(outline: &[u16], r: u16) -> Result<Vec<[u16; 3]>, u16> {
    covered_with_gap(outline, r, 0)
}

fn covered_with_gap(outline: &[u16], r: u16, g: u16) -> Result<Vec<[u16; 3]>, u16> {
    let mut output = [0xFFFF; 90];
    let runs = cover(outline, 0, r, g, &mut output).map_err(|refusal| refusal.number)?;
    let (words, rest) = output.split_at(3 * runs as usize);
    assert!(rest.iter().all(|&word| word == 0xFFFF));
    Ok(words.as_chunks().0.to_vec())
}

/// "Three S, W 10, R 2, N 10: Q 3 refuses the third with 14, Q 4 places it." Where
/// it is placed is the printed example's.
#[test]
fn three_squares() {
    let mut strip = opened(10, 2, 10, 3);
    assert_eq!(placed(&mut strip, &S, 1), Ok((0, 0, 0)));
    assert_eq!(placed(&mut strip, &S, 1), Ok((0, 0, 4)));
    assert_eq!(placed(&mut strip, &S, 1), Err(14));
    let mut strip = opened(10, 2, 10, 4);
    assert_eq!(placed(&mut strip, &S, 1), Ok((0, 0, 0)));
    assert_eq!(placed(&mut strip, &S, 1), Ok((0, 0, 4)));
    assert_eq!(placed(&mut strip, &S, 1), Ok((0, 2, 0)));
    let [taken, half, none] = [&[(0, 8)][..], &[(0, 4)], &[]];
    let columns = [taken, taken, half, half, none, none, none, none, none, none];
    assert_eq!(strip_runs(&strip), columns);
}

/// "16,001 gives 8"
#[test]
fn a_coordinate_of_16_001() {
    let mut strip = opened(10, 2, 10, 6);
    for place in 0..S.len() {
        let mut outline = S;
        outline[place] = 16_001;
        assert_eq!(placed(&mut strip, &outline, 1), Err(8));
        assert_eq!(covered(&outline, 2), Err(8));
    }
}

/// "65 vertices 7"
#[test]
fn sixty_five_vertices() {
    // A rectangle with its vertices on the lower and the upper side.
    let vertices = |lower: u16, upper: u16| -> Vec<u16> {
        let there = (0..lower).flat_map(|x| [x, 0]);
        let back = (0..upper).rev().flat_map(|x| [x, 1]);
        there.chain(back).collect()
    };
    let mut strip = opened(40, 2, 40, 60);
    assert_eq!(placed(&mut strip, &vertices(33, 32), 1), Err(7));
    assert_eq!(covered(&vertices(33, 32), 2), Err(7));
    assert_eq!(placed(&mut strip, &vertices(32, 32), 1), Ok((0, 0, 0)));
}

#[test]
fn runs_of_s_the_triangle_t_and_u() {
    assert_eq!(covered(&S, 2), Ok(vec![[0, 0, 4], [1, 0, 4]]));
    let triangle = [0, 0, 4, 0, 0, 4];
    assert_eq!(covered(&triangle, 2), Ok(vec![[0, 0, 4], [1, 0, 2]]));
    assert_eq!(covered(&T, 1), Ok(vec![[0, 0, 1], [1, 0, 2], [2, 0, 2]]));
    assert_eq!(covered(&U, 1), Ok(vec![[0, 0, 2], [1, 0, 2], [2, 1, 2]]));
}

/// "W 2, R 1, T then U, mask 1: N 6 gives U column 3; N 5 gives 13."
#[test]
fn t_then_u() {
    for (n, answer) in [(6, Ok((0, 3, 0))), (5, Err(13))] {
        let mut strip = opened(2, 1, n, 6);
        assert_eq!(placed(&mut strip, &T, 1), Ok((0, 0, 0)));
        assert_eq!(placed(&mut strip, &U, 1), answer);
    }
}

/// "(0,0) (1,2) (1,0) (0,2): 10. (0,0) (2,1) (2,0) (0,1): mask 1 passes, mask 2
/// gives 10. (0,0) (4,0) (2,0): 11."
#[test]
fn edges_that_cross_and_nothing_inside() {
    let mut strip = opened(10, 1, 10, 6);
    assert_eq!(placed(&mut strip, &[0, 0, 1, 2, 1, 0, 0, 2], 1), Err(10));
    let bow_tie = [0, 0, 2, 1, 2, 0, 0, 1];
    assert_eq!(placed(&mut strip, &bow_tie, 2), Err(10));
    assert_eq!(placed(&mut strip, &bow_tie, 1), Ok((0, 0, 0)));
    assert_eq!(placed(&mut strip, &[0, 0, 4, 0, 2, 0], 1), Err(11));
}

/// "6 by 2, mask 3, R 2, N 10: W 4 turn 0; W 6 turn 1."
#[test]
fn six_by_two() {
    for (w, turn) in [(4, 0), (6, 1)] {
        let mut strip = opened(w, 2, 10, 6);
        assert_eq!(placed(&mut strip, &SIX_BY_TWO, 3), Ok((turn, 0, 0)));
    }
}

/// S-4: square S, R 2, gap 3 has 0–7 in four columns, gap 1 in three: "the gap is taken
/// in unit cells". T with gap 1; gaps over 400.
#[test]
fn runs_with_a_gap() {
    let four = [0, 1, 2, 3].map(|column| [column, 0, 7]);
    assert_eq!(covered_with_gap(&S, 2, 3), Ok(four.to_vec()));
    let three = [0, 1, 2].map(|column| [column, 0, 5]);
    assert_eq!(covered_with_gap(&S, 2, 1), Ok(three.to_vec()));
    let t = vec![[0, 0, 2], [1, 0, 3], [2, 0, 3], [3, 0, 3]];
    assert_eq!(covered_with_gap(&T, 1, 1), Ok(t));
    let two = vec![[0, 0, 404], [1, 0, 404]];
    assert_eq!(covered_with_gap(&S, 400, 400), Ok(two));
    for g in [401, 65_535] {
        assert_eq!(covered_with_gap(&S, 2, g), Err(21));
        assert_eq!(covered_with_gap(&S, 401, g), Err(16));
        let refused = open(10, 2, 10, g, &mut [7; 39]).map_err(|refusal| refusal.number);
        assert_eq!(refused, Err(21));
    }
}

/// "Three squares with gap 1"; T then U needs a column more; "Square S, R 2, g 3 on a
/// strip of 2 columns: 12 words wanted, 2 records used".
#[test]
fn positions_with_a_gap() {
    let mut strip = opened_with_gap(10, 2, 10, 1, 40);
    for position in [(0, 0, 0), (0, 0, 5), (0, 3, 0)] {
        assert_eq!(placed(&mut strip, &S, 1), Ok(position));
    }
    for (n, answer) in [(7, Ok((0, 4, 0))), (6, Err(13))] {
        let mut strip = opened_with_gap(2, 1, n, 1, 40);
        assert_eq!(placed(&mut strip, &T, 1), Ok((0, 0, 0)));
        assert_eq!(placed(&mut strip, &U, 1), answer);
    }
    let mut strip = opened_with_gap(4, 2, 2, 3, 2);
    let number = |tried: Tried| tried.answer.map_err(|refusal| refusal.number);
    assert_eq!(number(place(&mut strip, &S, 1, &mut [9; 11])), Err(12));
    assert!(place(&mut strip, &S, 1, &mut [9; 12]).answer.is_ok());
    assert_eq!(strip_runs(&strip), [[(0, 4)], [(0, 4)]]);
    assert_eq!(strip, [4, 2, 2, 0, 3, 1, 2, 0, 0, 4, 0, 1, 0, 4, 0]);
    strip[4] = 401;
    assert_eq!(number(ask(&strip, &S, 1, &mut [9; 12])), Err(5));
}

/// The numbers (0 for granted) and tries of one call after another.
fn tries(strip: &mut [u16], calls: &[(&[u16], u16)]) -> Vec<(u16, u32)> {
    calls
        .iter()
        .map(|&(outline, mask)| {
            let (answer, tries) = placed_with_tries(strip, outline, mask);
            (answer.err().unwrap_or(0), tries)
        })
        .collect()
}

/// A square is tried where others lie and then above them: past the top is no try. The
/// third finds no room above the first two, in two columns; so it is where 14 refuses it,
/// and with a gap it is so in three. With 13 there are tries, before it there are none.
#[test]
fn tries_of_squares() {
    let squares = [(&S[..], 1); 3];
    for (g, q, expected) in [
        (0, 6, [(0, 1), (0, 2), (0, 3)]),
        (0, 3, [(0, 1), (0, 2), (14, 3)]),
        (1, 40, [(0, 1), (0, 2), (0, 4)]),
    ] {
        let mut strip = opened_with_gap(10, 2, 10, g, q);
        assert_eq!(tries(&mut strip, &squares), expected, "gap {g} Q {q}");
    }
    let mut strip = opened_with_gap(4, 2, 4, 3, 40);
    assert_eq!(tries(&mut strip, &squares[..2]), [(0, 1), (13, 3)]);
    let refused = [(&S[..], 16), (&[0, 0, 4, 0, 2, 0], 1)];
    assert_eq!(tries(&mut strip, &refused), [(9, 0), (11, 0)]);
    let short = place(&mut strip, &S, 1, &mut [9; 11]);
    assert_eq!(
        (short.answer.map_err(|no| no.number), short.tries),
        (Err(12), 0)
    );
}

/// All allowed turns are walked, also the one that loses; a turn that is past the top at
/// height 0 has no try, and neither has one that is off the strip.
#[test]
fn tries_in_turns() {
    let bar = &SIX_BY_TWO[..];
    for (w, n, expected) in [
        (6, 10, [(0, 2), (0, 4)]),
        (4, 10, [(0, 1), (0, 2)]),
        (1, 10, [(13, 0), (13, 0)]),
        (10, 2, [(0, 1), (0, 2)]),
    ] {
        let mut strip = opened(w, 2, n, 20);
        assert_eq!(tries(&mut strip, &[(bar, 3); 2]), expected, "W {w} N {n}");
    }
}

/// T in turn 1 is 1–3, 0–3. Over runs of 0–2 and 1–2 its first column goes to 2 less its
/// own low 1, and there its second goes to 2.
#[test]
fn tries_by_the_runs_own_low() {
    let mut strip = opened(9, 1, 2, 6);
    let step = [0, 0, 1, 0, 1, 1, 2, 1, 2, 2, 0, 2];
    assert_eq!(tries(&mut strip, &[(&step, 1)]), [(0, 1)]);
    assert_eq!(strip_runs(&strip), [[(0, 2)], [(1, 2)]]);
    assert_eq!(placed_with_tries(&mut strip, &T, 2), (Ok((1, 0, 2)), 3));
}

/// S meets two bars, in rows 0 and 2, and goes onto the lower one before the upper one.
#[test]
fn tries_by_the_lowest_run() {
    let mut strip = opened(9, 2, 2, 6);
    let bar = [0, 0, 4, 0, 4, 1, 0, 1];
    for height in [0, 2] {
        let position = Position {
            turn: 0,
            column: 0,
            height,
        };
        let answer = commit(&mut strip, &bar, position, &mut [0xFFFF; 6]);
        assert_eq!(answer, Ok(()));
    }
    assert_eq!(placed_with_tries(&mut strip, &S, 1), (Ok((0, 0, 3)), 3));
}

/// Commits where place would not go: U over the tip of T, and where it is off the
/// strip or on T: 18, with ordinal 0. T is 0–1, 0–2, 0–2 and U is 0–2, 0–2, 1–2.
#[test]
fn u_over_the_tip_of_t() {
    let mut strip = opened(2, 1, 6, 6);
    let mut committed = |outline: &[u16], turn, column, height| {
        let position = Position {
            turn,
            column,
            height,
        };
        commit(&mut strip, outline, position, &mut [0xFFFF; 9])
            .map_err(|Refusal { number, ordinal }| (number, ordinal))
    };
    assert_eq!(committed(&T, 0, 3, 0), Ok(()));
    for (column, height) in [(2, 0), (3, 0), (4, 0), (0, 1), (65_535, 0), (0, 65_535)] {
        assert_eq!(committed(&U, 0, column, height), Err((18, 0)));
    }
    assert_eq!(committed(&U, 4, 1, 0), Err((9, 1)));
    assert_eq!(committed(&U, 0, 1, 0), Ok(()));
    let [empty, full] = [&[][..], &[(0, 2)]];
    assert_eq!(strip_runs(&strip), [empty, full, full, full, full, full]);
}
