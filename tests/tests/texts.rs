//! Jobs as text: what they say, and what is said of bad ones.

mod common;
use common::*;
use reference::generate::{
    any_job, damaged_text, job, text_at_limit, text_of_job, text_with_gap, Random, TextDamage,
};
use reference::text::{gap_and_sheet, notes_on_text, sheet_of_text, text_of_sheet};

fn accepted(text: &str, job: &[u8]) {
    assert_eq!(sheet_of_text(text.as_bytes()), Ok(job.to_vec()), "{text}");
}

fn bad(text: &str, message: &str) {
    assert_eq!(
        sheet_of_text(text.as_bytes()),
        Err(message.into()),
        "{text}"
    );
}

const SQUARE: &str = "piece 15 0,0 32,0 32,32 0,32\n";

#[test]
fn the_same_job_in_many_ways() {
    let sheet = sheet(10, 2, 9, &[(&S, 1), (&T, 15)]);
    let plain = "strip 10 2 9\npiece 1 0,0 4,0 4,4 0,4\npiece 15 0,0 3,0 3,2\n";
    assert_eq!(text_of_sheet(&sheet), plain);
    accepted(plain, &sheet);
    accepted(plain.trim_end(), &sheet);
    accepted(&plain.replace('\n', "\r\n"), &sheet);
    accepted(&plain.replace('\n', " # a comment\n\n#\n"), &sheet);
    accepted(&plain.replace(' ', "\t \r"), &sheet);
    accepted(&plain.replace(' ', " 00000000000000000000"), &sheet);
    let millimetres = "mm\nstrip 1.25 0.25 9\npiece 1 0,0 0.5,0 0.50,0.500 0,0.5\n\
                       piece 15 0,0 0.375,0 0.375,0.25\n";
    accepted(millimetres, &sheet);
    // The millimetres begin after the strip, and go on.
    accepted(
        "strip 10 2 9\nmm\npiece 1 0,0 0.5,0 0.500,0.5 0,0.5\nmm\npiece 15 0,0 0.375,0 0.375,0.25",
        &sheet,
    );
}

const NUMBER: &str = "a number is expected";
const STRIP: &str = "a strip has width, resolution and columns";
const VERTICES: &str = "a piece has 3 to 64 vertices";

/// A line after a strip, in units.
fn bad_line(line: &str, message: &str) {
    bad(
        &format!("strip 10 2 10\n{line}\n"),
        &format!("line 2: {message}"),
    );
}

/// The same in millimetres.
fn bad_millimetres(line: &str, message: &str) {
    bad(
        &format!("mm\nstrip 10 2 10\n{line}\n"),
        &format!("line 3: {message}"),
    );
}

#[test]
fn bad_lines() {
    bad("", "there is no strip");
    bad("# nothing\n\n", "line 2: there is no strip");
    bad("mm 1\n", "line 1: nothing follows mm");
    bad("mm mm\n", "line 1: nothing follows mm");
    bad(SQUARE, "line 1: the strip comes before the pieces");
    for line in ["hole 1 0,0", "pieces", "piece,", "MM", "15", "\x0c"] {
        bad_line(line, "a line begins with strip, gap, piece, path or mm");
    }
}

#[test]
fn bad_strips() {
    for figures in ["10 2", "10 2 x", "10,2,10", "10.5 2 10"] {
        bad(&format!("strip {figures}\n"), &format!("line 1: {NUMBER}"));
    }
    for figures in ["10 2 10 10", "10 2 10x", "10 2 10.5"] {
        bad(&format!("strip {figures}\n"), &format!("line 1: {STRIP}"));
        // The number of columns is no length.
        bad(
            &format!("mm\nstrip {figures}\n"),
            &format!("line 2: {STRIP}"),
        );
    }
    bad_line("strip 10 2 10", "there is one strip");
}

#[test]
fn bad_pieces() {
    bad_line("piece 1", VERTICES);
    bad_line("piece 1 0,0 4,0 # 4,4", VERTICES);
    bad_line(&format!("piece 1{}", " 1,1".repeat(65)), VERTICES);
    for vertex in ["4 4", "4", "4x,4", "4 ,4", "4.5,4"] {
        bad_line(&format!("piece 1 0,0 4,0 {vertex}"), "a vertex is x,y");
    }
    for vertex in ["4,x", "4,", "4, 4", ",4", "4,1.5", "4,-1", "4,4,4", "4,4x"] {
        bad_line(&format!("piece 1 0,0 4,0 {vertex}"), NUMBER);
    }
    // The mask is no length.
    bad_millimetres("piece 1.0 0,0 4,0 4,4", NUMBER);
}

#[test]
fn bad_numbers() {
    let large = "a number is at most 65535 units";
    for vertex in [
        "4,65536",
        "99999999999999999999,4",
        "4,184467440737095516170",
    ] {
        bad_line(&format!("piece 1 0,0 4,0 {vertex}"), large);
    }
    for vertex in [
        "4,8192",
        "99999999999999999999.5,4",
        "4,2305843009213693952",
    ] {
        bad_millimetres(&format!("piece 1 0,0 4,0 {vertex}"), large);
    }
    for vertex in ["4,1.1", "4.01,1", "4,99999999999999999999.001"] {
        let eighth = "a length is a multiple of 0.125 mm";
        bad_millimetres(&format!("piece 1 0,0 4,0 {vertex}"), eighth);
    }
    for vertex in ["4,1.1250", "4.,1", "4,1."] {
        let digits = "one to three digits follow a point";
        bad_millimetres(&format!("piece 1 0,0 4,0 {vertex}"), digits);
    }
}

/// A gap stands in front of the sheet, in millimetres; one of 0 does not.
#[test]
fn gaps() {
    let sheet = sheet(10, 2, 10, &[(&S, 1)]);
    let text = |gap: &str| format!("strip 10 2 10\n{gap}piece 1 0,0 4,0 4,4 0,4\n");
    let with = |line: &str| [line.as_bytes(), &sheet].concat();
    for (typed, line, units) in [
        ("gap 3", "gap 3\n", 24),
        ("gap 3.0", "gap 3\n", 24),
        ("gap\t03.125 # for the knife", "gap 3.125\n", 25),
        ("gap 0.5\r", "gap 0.5\n", 4),
        ("gap 49.875", "gap 49.875\n", 399),
        ("gap 50", "gap 50\n", 400),
        ("gap 0", "", 0),
    ] {
        accepted(&text(&format!("{typed}\n")), &with(line));
        assert_eq!(gap_and_sheet(&with(line)), (units, &sheet[..]));
        assert_eq!(text_of_sheet(&with(line)), text(line));
    }
    // Millimetres in every text; before the strip; no line at all.
    let first = "gap 3\nmm\nstrip 1.25 0.25 10\npiece 1 0,0 0.5,0 0.5,0.5 0,0.5\n";
    accepted(first, &with("gap 3\n"));
    accepted(&text("mm\ngap 3\n").replace('4', "0.5"), &with("gap 3\n"));
    accepted(&text(""), &sheet);
}

#[test]
fn bad_gaps() {
    let gap = "a gap is one length from 0 to 50 mm";
    for line in ["gap 50.125", "gap 8191.875", "gap 3 3", "gap 3,3", "gap 3x"] {
        bad_line(line, gap);
        bad_millimetres(line, gap);
    }
    for line in ["gap", "gap x", "gap -1", "gap .5", "gap # 3"] {
        bad_line(line, NUMBER);
    }
    bad_line("gap 3.1", "a length is a multiple of 0.125 mm");
    bad_line("gap 3.1250", "one to three digits follow a point");
    bad_line("gap 8192", "a number is at most 65535 units");
    bad_line("gap3", "a line begins with strip, gap, piece, path or mm");
    bad("gap 3\n", "line 1: there is no strip");
    bad("gap 0\ngap 0\n", "line 2: there is one gap");
    bad(
        &format!("strip 40 2 10\n{SQUARE}gap 3\n"),
        "line 3: the gap comes before the pieces",
    );
    // A job that is refused has no gap in front of its refusal.
    bad("gap 3\nstrip 0 2 10", "job refused 3 0 (line 2)");
}

/// Any other line in front of a sheet is taken for the sheet, which gets 1.
#[test]
fn no_gap_in_front() {
    let sheet = sheet(10, 2, 10, &[(&S, 1)]);
    for line in [
        "gap\n",
        "gap 50.125\n",
        "gap 3.1\n",
        "gap 3 3\n",
        "gap3\n",
        "GAP 3\n",
        " gap 3\n",
        "\ngap 3\n",
        "gap 3\ngap 3\n",
        "gap 3 # knife\n",
        "gap 0000000000003\n",
        "gap 3",
    ] {
        let input = [line.as_bytes(), &sheet].concat();
        assert_eq!(text_of_sheet(&input), "job refused 1 0\n", "{line}");
    }
    // The line alone; and a line as long as it may be.
    assert_eq!(text_of_sheet(b"gap 3\n"), "job refused 1 0\n");
    let input = [b"gap 000000000.5\n", &sheet[..]].concat();
    assert_eq!(gap_and_sheet(&input), (4, &sheet[..]));
    // Program `lay` knows no gap.
    let input = [b"gap 3\n", &sheet[..]].concat();
    assert_eq!(reference::lay_text(&input), "job refused 1 0\n");
}

#[test]
fn limits_of_a_text() {
    let strip = "strip 40 2 10\n";
    let most = strip.to_string() + &SQUARE.repeat(200);
    assert!(sheet_of_text(most.as_bytes()).is_ok());
    bad(&(most + SQUARE), "line 202: a job has at most 200 pieces");
    let most = strip.to_string() + &"\n".repeat(65_534);
    accepted(&most, &sheet(40, 2, 10, &[]));
    let more = most + "# no line break";
    bad(&more, "line 65535: a text has at most 65535 lines");
    let most = strip.to_string() + &" ".repeat(262_144 - strip.len());
    accepted(&most, &sheet(40, 2, 10, &[]));
    bad(&(most + " "), "a text has at most 262144 bytes");
}

/// What write refuses, with the line that is about it.
#[test]
fn refused_jobs() {
    let with = |line: &str| format!("strip 10 2 10\n{SQUARE}# two\n{line}\n");
    bad(
        &format!("# one\nstrip 10 0 10\n{SQUARE}"),
        "job refused 16 0 (line 2)",
    );
    bad("strip 0 0 0", "job refused 3 0 (line 1)");
    bad("strip 10 401 0", "job refused 16 0 (line 1)");
    bad("\nstrip 10 2 4097", "job refused 17 0 (line 2)");
    bad(&with("piece 1 0,0 16001,0 4,4"), "job refused 8 2 (line 4)");
    bad(&with("piece 16 0,0 4,0 4,4"), "job refused 9 2 (line 4)");
    bad(
        &with("piece 15 0,0 1,2 1,0 0,2"),
        "job refused 10 2 (line 4)",
    );
    bad(&with("piece 15 0,0 4,0 2,0"), "job refused 11 2 (line 4)");
    let long = format!("piece 1 0,0 4,0 4,4{}\n", " 4,4".repeat(61));
    let most = "strip 10 2 10\n".to_string() + &long.repeat(168);
    let written = sheet_of_text(most.as_bytes()).expect("good");
    assert_eq!(written.len(), 65_536);
    bad(&(most + &long), "job refused 2 0");
}

/// A line for each piece that draws a stretch twice, in millimetres, also where the
/// text is in units.
#[test]
fn notes() {
    let knife = "mm, where a knife may cut into another piece\n";
    let spur = "0,0 0.5,0 0.5,0.5 1,0.5 0.5,0.5 0,0.5";
    let text = format!("mm\nstrip 1.25 0.25 10\npiece 1 {spur}\n");
    let note = format!("line 3: drawn twice from 0.5,0.5 to 1,0.5 {knife}");
    assert!(sheet_of_text(text.as_bytes()).is_ok());
    assert_eq!(notes_on_text(text.as_bytes()), note);
    // The same in units; a square before it, and after it a spur from 15,999, upwards and back down, in line 6.
    let text = format!(
        "strip 16000 2 10\n{SQUARE}piece 1 0,0 4,0 4,4 8,4 4,4 0,4\n\n# a spur\n\
         piece 1 0,0 15999,0 15999,4 15999,1 15999,4 0,4"
    );
    let notes = format!("{note}line 6: drawn twice from 1999.875,0.125 to 1999.875,0.5 {knife}");
    assert!(sheet_of_text(text.as_bytes()).is_ok());
    assert_eq!(notes_on_text(text.as_bytes()), notes);
    // Of several stretches that of the first two edges.
    let text = "strip 10 2 10\npiece 1 0,0 8,0 2,0 2,4 4,4 2,4 0,4";
    let note = format!("line 2: drawn twice from 0.25,0 to 1,0 {knife}");
    assert_eq!(notes_on_text(text.as_bytes()), note);
    // Nothing, and where there is no job.
    for text in [
        &format!("strip 40 2 10\n{SQUARE}"),
        "strip 10 2 10\n",
        "strip",
        "",
    ] {
        assert_eq!(notes_on_text(text.as_bytes()), "");
    }
}

/// A good text gives the sheet of its job, however it is written.
#[test]
fn texts_of_jobs() {
    for seed in 0..2_000 {
        let mut random = Random::new(seed);
        let job = job(&mut random);
        let text = text_of_job(&mut random, &job);
        let sheet = job.sheet();
        assert_eq!(sheet_of_text(&text), Ok(sheet.clone()), "{seed}");
        let shown = text_of_sheet(&sheet);
        assert_eq!(sheet_of_text(shown.as_bytes()), Ok(sheet.clone()), "{seed}");
        let gap = random.word(0, 400);
        let text = text_with_gap(&mut random, &job, Some(gap));
        let with_gap = sheet_of_text(&text).expect("a good text");
        assert_eq!(gap_and_sheet(&with_gap), (gap, &sheet[..]), "{seed}");
        let shown = text_of_sheet(&with_gap);
        assert_eq!(sheet_of_text(shown.as_bytes()), Ok(with_gap), "{seed}");
    }
}

/// Any text gives a sheet that reads back, or a message of one line.
#[test]
fn any_text() {
    for seed in 0..2_000 {
        let mut random = Random::new(seed);
        let job = any_job(&mut random);
        let gap = random.once_in(2).then(|| random.word(0, 410));
        let mut text = text_with_gap(&mut random, &job, gap);
        if random.once_in(50) {
            text = text_at_limit(&mut random);
        }
        let damage = random.pick(&TextDamage::ALL);
        match sheet_of_text(&damaged_text(&mut random, &text, damage)) {
            Ok(sheet) => assert!(text_of_sheet(&sheet).starts_with("strip ")),
            Err(message) => assert!(!message.is_empty() && !message.contains('\n')),
        }
    }
}

/// The texts of samples/ say what the sheets beside them do.
#[test]
fn samples() {
    let folder = concat!(env!("CARGO_MANIFEST_DIR"), "/../samples");
    for name in ["wallets", "holes", "fates", "three-squares", "gap"] {
        let file = |kind: &str| std::fs::read(format!("{folder}/{name}.{kind}")).expect("a sample");
        let sheet = sheet_of_text(&file("txt")).expect("a good text");
        assert_eq!(
            text_of_sheet(&sheet),
            text_of_sheet(&file("sheet")),
            "{name}"
        );
        // The window mounts of holes have a bridge, from the corner to the window and back.
        let notes = notes_on_text(&file("txt"));
        let bridges = notes.matches(": drawn twice from 0,0 to 40,50 mm,").count();
        let expected = if name == "holes" { 2 } else { 0 };
        assert_eq!(
            (bridges, notes.lines().count()),
            (expected, expected),
            "{name}"
        );
    }
}
