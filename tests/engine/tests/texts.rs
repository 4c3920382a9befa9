//! Programs `sheet` and `show` as they are run, every byte that they print beside
//! that of the reference program.

use engine::programs::{Printed, SHEET, SHOW};
use reference::generate::{
    any_job, damaged_path, damaged_sheet, damaged_text, job, small_figures, sound_path,
    sound_sheet, stroke_pieces, text_at_limit, text_of_job, text_with_gap, CoordinateDamage, Job,
    PathDamage, Random, ShapeDamage, SheetDamage, TextDamage,
};
use reference::text::{notes_on_text, sheet_of_text, text_of_sheet};
use std::collections::BTreeMap;
use std::path::PathBuf;

/// The messages of program `sheet` about a text, and its refusals of a job.
const MESSAGES: [&str; 26] = [
    "a line begins with strip, gap, piece, path or mm",
    "a number is expected",
    "a number is at most 65535 units",
    "one to three digits follow a point",
    "a length is a multiple of 0.125 mm",
    "a vertex is x,y",
    "nothing follows mm",
    "a strip has width, resolution and columns",
    "there is one strip",
    "the strip comes before the pieces",
    "a piece has 3 to 64 vertices",
    "a job has at most 200 pieces",
    "a text has at most 65535 lines",
    "there is no strip",
    "a text has at most 262144 bytes",
    "a gap is one length from 0 to 50 mm",
    "there is one gap",
    "the gap comes before the pieces",
    "job refused 2 0",
    "job refused 3 0",
    "job refused 16 0",
    "job refused 17 0",
    "job refused 8",
    "job refused 9",
    "job refused 10",
    "job refused 11",
];

/// Those about a path in a file.
const PATH_MESSAGES: [&str; 4] = [
    "a path has a mask and the name of a file",
    "the file of the path cannot be read or is empty",
    "the path is not one move, 2 to 63 lines and one close",
    "a coordinate of the path is not a multiple of 0.125 mm from 0 to 2000 mm",
];

/// How many texts were accepted, how many of them with a note, and how many had each
/// message.
#[derive(Default)]
struct Kinds {
    accepted: usize,
    noted: usize,
    messages: BTreeMap<&'static str, usize>,
}

impl Kinds {
    /// The sheet of the text, if it is accepted.
    fn run(&mut self, text: &[u8]) -> Option<Vec<u8>> {
        let expected = sheet_of_text(text);
        let (output, errors) = match expected.clone() {
            Ok(sheet) => (sheet, notes_on_text(text).into_bytes()),
            Err(message) => (Vec::new(), format!("{message}\n").into_bytes()),
        };
        match &expected {
            Ok(_) => {
                self.accepted += 1;
                self.noted += usize::from(!errors.is_empty());
            }
            Err(message) => *self.messages.entry(kind(message)).or_default() += 1,
        }
        let start = String::from_utf8_lossy(&text[..text.len().min(2_000)]);
        assert_eq!(SHEET.run(text), Printed { output, errors }, "{start}");
        expected.ok()
    }
}

/// None of the kinds is found in a message of another.
fn kind(message: &str) -> &'static str {
    let is = |kind: &&&str| message.contains(**kind);
    MESSAGES
        .iter()
        .chain(&PATH_MESSAGES)
        .find(is)
        .unwrap_or_else(|| panic!("{message}"))
}

/// Texts of good jobs. What show prints of the sheet gives the same sheet.
#[test]
fn good_texts() {
    let mut kinds = Kinds::default();
    let mut random = Random::new(201);
    for _ in 0..500 {
        let job = job(&mut random);
        let gap = random.once_in(2).then(|| random.word(0, 400));
        let text = text_with_gap(&mut random, &job, gap);
        let sheet = kinds.run(&text).expect("a good text");
        let shown = SHOW.text(&sheet);
        assert_eq!(shown, text_of_sheet(&sheet));
        assert_eq!(kinds.run(shown.as_bytes()), Some(sheet));
    }
    assert_eq!(kinds.accepted, 1_000);
    println!("{} of 1,000 with a note", kinds.noted);
    assert!(kinds.noted >= 400);
}

/// Texts of jobs most of whose pieces draw something twice, with coordinates of one
/// digit to seven in a note.
#[test]
fn notes() {
    let mut kinds = Kinds::default();
    let mut random = Random::new(205);
    for _ in 0..500 {
        let count = random.index(9);
        let size = random.pick(&[3, 5, 9, 30, 300, 3_000, 16_000]);
        let job = Job {
            figures: small_figures(&mut random),
            pieces: stroke_pieces(&mut random, count, size),
        };
        let text = text_of_job(&mut random, &job);
        kinds.run(&text).expect("a good text");
    }
    println!("{} of 500 with a note", kinds.noted);
    assert!(kinds.noted >= 350);
}

/// 200 pieces with a note each, in lines as far down as a text has, of coordinates
/// as long as they can be.
#[test]
fn the_longest_notes() {
    let strip = "strip 10 2 10\n";
    let piece = "piece 1 15991,15991 15999,15991 15999,15999 15997,15993 15999,15999 15991,15999\n";
    let empty = "\n".repeat(65_535 - 201);
    let text = [strip, &empty, &piece.repeat(200)].concat();
    let mut kinds = Kinds::default();
    assert!(kinds.run(text.as_bytes()).is_some());
    let notes = notes_on_text(text.as_bytes());
    let last = "line 65535: drawn twice from 1999.625,1999.125 to 1999.875,1999.875 mm, \
                where a knife may cut into another piece";
    assert_eq!(notes.lines().count(), 200);
    assert_eq!(notes.lines().last(), Some(last));
}

#[test]
fn any_texts() {
    let mut kinds = Kinds::default();
    let mut random = Random::new(202);
    for place in 0..2_000 {
        let job = any_job(&mut random);
        let gap = random.once_in(2).then(|| random.word(0, 410));
        let mut text = text_with_gap(&mut random, &job, gap);
        if random.once_in(100) {
            text.extend(b"gap 3\n");
        }
        for _ in 0..random.between(0, 2) {
            let damage = TextDamage::ALL[place % TextDamage::ALL.len()];
            if !text.is_empty() {
                text = damaged_text(&mut random, &text, damage);
            }
        }
        kinds.run(&text);
    }
    for _ in 0..80 {
        kinds.run(&text_at_limit(&mut random));
    }
    let bad: usize = kinds.messages.values().sum();
    println!(
        "{} accepted, {} with a note, {bad} not",
        kinds.accepted, kinds.noted
    );
    assert!(kinds.accepted >= 800 && kinds.noted >= 300 && bad >= 800);
    for message in MESSAGES {
        let count = kinds.messages.get(message).copied().unwrap_or(0);
        assert!(count >= 3, "{message}: {count}");
    }
}

/// A folder with paths in files: sound and damaged ones, an empty one, a long one and a
/// folder; one has a name with blanks, and one is not there.
struct Paths {
    folder: PathBuf,
    names: Vec<String>,
}

impl Paths {
    fn new(random: &mut Random) -> Paths {
        let folder = std::env::temp_dir().join(format!("paths-{}", std::process::id()));
        std::fs::create_dir(&folder).expect("a new folder");
        let mut paths = Paths {
            folder,
            names: vec!["missing".to_string(), ".".to_string()],
        };
        paths.add("empty", &[]);
        paths.add("with blanks  in it", &sound_path(random));
        paths.add("long", &vec![2; 100_000]);
        for place in 0..30 {
            paths.add(&format!("sound-{place}"), &sound_path(random));
        }
        for (place, &damage) in ShapeDamage::ALL.iter().enumerate() {
            let damaged = damaged_path(random, PathDamage::Shape(damage));
            paths.add(&format!("shape-{place}"), &damaged.bytes);
        }
        for (place, &damage) in CoordinateDamage::ALL.iter().enumerate() {
            let damaged = damaged_path(random, PathDamage::Coordinate(damage));
            paths.add(&format!("coordinate-{place}"), &damaged.bytes);
        }
        paths
    }

    fn add(&mut self, name: &str, bytes: &[u8]) {
        std::fs::write(self.folder.join(name), bytes).expect("written");
        self.names.push(name.to_string());
    }

    /// The end of a line that names one of them.
    fn named(&self, random: &mut Random) -> String {
        let name = &self.names[random.index(self.names.len())];
        let end = random.pick(&["", " ", " \t\r", " # wallet"]);
        format!("{}{end}", self.folder.join(name).display())
    }
}

impl Drop for Paths {
    fn drop(&mut self) {
        std::fs::remove_dir_all(&self.folder).ok();
    }
}

/// Pieces by their vertices and by the names of files.
#[test]
fn paths_in_files() {
    let mut kinds = Kinds::default();
    let mut random = Random::new(206);
    let paths = Paths::new(&mut random);
    for _ in 0..600 {
        let mut text = "strip 16000 400 4096\n".to_string();
        for _ in 0..random.between(1, 3) {
            let name = paths.named(&mut random);
            text += &match random.index(12) {
                0 => format!("path {name}\n"),
                1 => "path 15 \n".to_string(),
                2 => format!("path 16 {name}\n"),
                3 => format!("path 15 {name}\0\n"),
                4 => "piece 1 0,0 4,0 4,4\n".to_string(),
                _ => format!(" path\t15  {name}\n"),
            };
        }
        kinds.run(text.as_bytes());
    }
    let long = "x".repeat(5_000);
    for text in [
        "path 1 a",
        "strip 10 2 10\npath",
        "strip 10 2 10\npath 1 # a",
    ] {
        kinds.run(text.as_bytes());
    }
    kinds.run(format!("strip 10 2 10\npath 1 {long}").as_bytes());
    println!("{} accepted, {:?}", kinds.accepted, kinds.messages);
    assert!(kinds.accepted >= 20);
    for message in PATH_MESSAGES {
        let count = kinds.messages.get(message).copied().unwrap_or(0);
        assert!(count >= 20, "{message}: {count}");
    }
}

/// Input of any bytes, of every length up to a whole text, and longer than a text
/// may be.
#[test]
fn any_bytes() {
    let mut kinds = Kinds::default();
    let mut random = Random::new(203);
    let whole = "mm # \nstrip 1.25 0.25 10\npiece 15 0,0 0.5,0 0.500,0.5 0,0.5";
    for length in 0..=whole.len() {
        kinds.run(&whole.as_bytes()[..length]);
    }
    for _ in 0..200 {
        let length = random.index(40);
        let bytes: Vec<u8> = (0..length).map(|_| random.word(0, 255) as u8).collect();
        kinds.run(&bytes);
        kinds.run(&[b"strip ", &bytes[..]].concat());
    }
    for length in [262_145, 262_146, 600_000] {
        kinds.run(&vec![b'\n'; length]);
    }
    assert_eq!(kinds.messages["a text has at most 262144 bytes"], 3);
    assert!(kinds.messages.len() >= 7);
}

/// Sheets as text, damaged ones among them: records in any order, with some in
/// no chain and with shared ones.
#[test]
fn sheets() {
    let mut random = Random::new(204);
    let mut noted = 0;
    for _ in 0..400 {
        let sheet = sound_sheet(&mut random);
        let text = SHOW.text(&sheet);
        assert_eq!(text, text_of_sheet(&sheet));
        let written = SHEET.run(text.as_bytes());
        assert_eq!(Ok(written.output), sheet_of_text(text.as_bytes()));
        let notes = notes_on_text(text.as_bytes());
        assert_eq!(String::from_utf8_lossy(&written.errors), notes);
        noted += u32::from(!notes.is_empty());
    }
    println!("{noted} of 400 with a note");
    assert!(noted >= 150);
    for damage in SheetDamage::ALL {
        for _ in 0..3 {
            let damaged = damaged_sheet(&mut random, damage);
            let text = SHOW.text(&damaged.bytes);
            assert_eq!(text, text_of_sheet(&damaged.bytes));
            assert_eq!(text, format!("{}\n", damaged.refusal));
        }
    }
}

/// Lines in front of a sheet, most of which say a gap.
#[test]
fn gaps_in_front() {
    let mut random = Random::new(207);
    let (mut gaps, mut refused) = (0, 0);
    for _ in 0..1_000 {
        let line = front_line(&mut random);
        let sheet = sound_sheet(&mut random);
        let text = SHOW.text(&[&line, &sheet[..]].concat());
        let shown = String::from_utf8_lossy(&line);
        assert_eq!(
            text,
            text_of_sheet(&[&line, &sheet[..]].concat()),
            "{shown}"
        );
        gaps += u32::from(text.contains("\ngap "));
        refused += u32::from(text == "job refused 1 0\n");
    }
    println!("{gaps} gaps, {refused} refused");
    assert!(gaps >= 300 && refused >= 200);
}

/// The line of a gap, perhaps with blanks, and with a byte changed or not there.
fn front_line(random: &mut Random) -> Vec<u8> {
    let gap = f64::from(random.word(0, 410)) / 8.0;
    let blanks = random.pick(&[" ", " ", " ", "\t", "  ", "     "]);
    let end = random.pick(&["\n", "\n", "\n", "\r\n", " \n"]);
    let mut line = format!("gap{blanks}{gap}{end}").into_bytes();
    let place = random.index(line.len());
    match random.index(6) {
        0 => line[place] = random.pick(b"g0123456789. \tN\n\0"),
        1 => {
            line.remove(place);
        }
        _ => {}
    }
    line
}

/// A sheet as long as it may be with a line as long as it may be, and longer.
#[test]
fn the_longest_input() {
    let piece = format!("piece 1 0,0 4,0 4,4{}\n", " 4,4".repeat(61));
    let text = "gap 3\nstrip 10 2 10\n".to_string() + &piece.repeat(168);
    let written = SHEET.run(text.as_bytes()).output;
    assert_eq!(written.len(), 6 + 65_536);
    let sheet = &written[6..];
    for line in ["", "gap 3\n", "gap 000000000.5\n", "gap 0000000000.5\n"] {
        for more in [0, 1, 2, 9, 10, 11, 100] {
            let input = [line.as_bytes(), sheet, &vec![0; more]].concat();
            assert_eq!(SHOW.text(&input), text_of_sheet(&input), "{line} {more}");
        }
    }
}
