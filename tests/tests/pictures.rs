//! Pictures of jobs: one that is kept, and what each must have.

mod common;
use common::*;
use reference::picture::draw;
use reference::text::sheet_of_text;

#[test]
fn the_wallets() {
    let text = include_bytes!("../../samples/wallets.txt");
    let sheet = sheet_of_text(text).expect("a good text");
    assert_eq!(draw(&sheet), include_str!("../../docs/wallets.svg"));
}

/// Two squares beside each other and one that is too large, on a strip of 5/4 mm:
/// so small that all is written 100 times as large.
#[test]
fn a_small_job() {
    let large = rectangle(11, 11);
    let picture = draw(&sheet(
        10,
        2,
        10,
        &[(&S, 1), (&large, 15), (&S, 1), (&S, 1)],
    ));
    let has = |words: &str| assert!(picture.contains(words), "{words} in\n{picture}");
    has("points=' 0,-0 400,-0 400,-400 0,-400'/>");
    has("points=' 0,-400 400,-400 400,-800 0,-800'/>");
    has("points=' 400,-0 800,-0 800,-400 400,-400'/>");
    has(" x='200' y='-200' font-size='30'>1</text>");
    has("<text y='3.4em'>used 1 mm of 2.5 mm, width 1.25 mm</text>");
    has("<text y='4.8em'>columns of 0.25 mm, a line every 0.25 mm</text>");
    has("<text y='6.2em'>3 placed, 1 refused</text>");
    has("<text x='0em' y='7.80em'>2 refused 13</text>");
}

/// The used part ends at the used length, not at the end of its last column; the columns
/// that are shown are by the latter.
#[test]
fn a_used_length_within_a_column() {
    // 5 units end in the second column of 4: 2 columns, none of an eighth, 2 of a quarter
    // of the width, and 1.
    let picture = draw(&sheet(40, 4, 20, &[(&rectangle(5, 6), 1)]));
    let has = |words: &str| assert!(picture.contains(words), "{words} in\n{picture}");
    has("<rect class='board' y='-4000' width='2000' height='4000'/>");
    has("<rect class='used' y='-4000' width='500' height='4000'/>");
    has("<path class='end' d='M500 0V-4000'/>");
    has(" x2='500'/><text class='middle' y='-1.2em' x='250'>0.625 mm</text></g>");
    has("<text y='3.4em'>used 0.625 mm of 10 mm, width 5 mm</text>");
    // 4 units end with the first column, 3 within it: one column less is shown.
    for long in [4, 3] {
        let picture = draw(&sheet(40, 4, 20, &[(&rectangle(long, 6), 1)]));
        assert!(picture.contains("<rect class='board' y='-4000' width='1600' height='4000'/>"));
        let used = format!("<rect class='used' y='-4000' width='{long}00' height='4000'/>");
        assert!(picture.contains(&used), "{picture}");
    }
}

/// A square of 4 by 4 units with a spur to x = 8: the spur is drawn to and fro, so it is
/// dashed twice, over the piece.
#[test]
fn a_stretch_drawn_twice() {
    let spur = [0, 0, 4, 0, 4, 4, 8, 4, 4, 4, 0, 4];
    let dashes = "<path class='twice' d='M400 -400L800 -400M400 -400L800 -400'/>\n";
    let legend = "<text x='12em' y='6.2em'>dashed: drawn twice</text>\n";
    let picture = draw(&sheet(10, 2, 10, &[(&spur, 1)]));
    let piece = picture.find("<polygon").expect("a piece");
    assert!(
        picture.find(dashes).is_some_and(|place| place > piece),
        "{picture}"
    );
    assert_eq!(picture.matches(legend).count(), 1, "{picture}");
    // A quarter turn sends (4, 4) and (8, 4) to (0, 4) and (0, 8).
    let picture = draw(&sheet(10, 2, 10, &[(&spur, 2)]));
    assert!(
        picture.contains("<path class='twice' d='M0 -400L0 -800M0 -400L0 -800'/>\n"),
        "{picture}"
    );
    // A part of an edge is dashed once: the other edge goes on before it.
    let picture = draw(&sheet(10, 2, 10, &[(&[0, 0, 6, 0, 2, 0, 2, 4], 1)]));
    assert!(
        picture.contains("<path class='twice' d='M200 -0L600 -0'/>\n"),
        "{picture}"
    );
    // Two such pieces, one legend.
    let picture = draw(&sheet(8, 2, 10, &[(&spur, 1), (&S, 1), (&spur, 1)]));
    assert_eq!(picture.matches("<path class='twice' ").count(), 2);
    assert_eq!(picture.matches(legend).count(), 1, "{picture}");
    // A piece that is refused has no dashes; nor has one that draws nothing twice.
    let picture = draw(&sheet(3, 2, 10, &[(&spur, 1)]));
    assert!(picture.contains("1 refused 13") && !picture.contains("dashed"));
    let picture = draw(&sheet(10, 2, 10, &[(&S, 1)]));
    assert!(!picture.contains("<path class='twice'") && !picture.contains("dashed"));
}

/// A gap is said and shaded, around the placed pieces alone; without one nothing is.
#[test]
fn a_gap() {
    let large = rectangle(11, 11);
    let sheet = sheet(10, 2, 10, &[(&S, 1), (&large, 15)]);
    let plain = draw(&sheet);
    assert!(!plain.contains("gap") && !plain.contains("clip"), "{plain}");
    let picture = draw(&[b"gap 0.375\n", &sheet[..]].concat());
    let has = |words: &str| assert!(picture.contains(words), "{words} in\n{picture}");
    has("<text y='7.80em'>shaded: gap of 0.375 mm</text>\n<text x='0em' y='9.20em'>2 refused 13</text>");
    has("<clipPath id='strip'><rect y='-1000' width='");
    has(" stroke-width='600' d='M 0,-0 400,-0 400,-400 0,-400Z'/>\n<polygon");
    assert_eq!(picture.matches("<path clip-path='url(#strip)'").count(), 1);
    // A line that says no gap.
    let picture = draw(&[b"gap 51\n", &sheet[..]].concat());
    assert!(picture.contains(">job refused 1 0</text>"), "{picture}");
}

#[test]
fn a_refused_job() {
    let picture = draw(&sheet(10, 2, 10, &[(&S, 1), (&CROSSED, 1)]));
    assert!(picture.contains(">job refused 10 2</text>"));
    assert!(!picture.contains("<polygon"));
}

/// An ordinal stands in a run of cells, where the piece has just one, far from
/// the middle of its bounds.
#[test]
fn an_ordinal_at_the_end() {
    let picture = draw(&sheet(100, 1, 200, &[(&[0, 0, 67, 0, 67, 1, 66, 0], 1)]));
    assert!(
        picture.contains(" x='6650' y='-50' font-size='80'>1</text>"),
        "{picture}"
    );
}
