//! Jobs as text, good and damaged.

use super::{any_figures, any_mask, any_outline, job, small_figures, sound_piece_of, Job, Random};
use crate::figures::Piece;

/// A job as text, with blanks, comments and empty lines anywhere. From some line
/// on lengths may be millimetres.
pub fn text_of_job(random: &mut Random, job: &Job) -> Vec<u8> {
    text_with_gap(random, job, None)
}

/// The same with the line of a gap, before the strip or after it.
pub fn text_with_gap(random: &mut Random, job: &Job, gap: Option<u16>) -> Vec<u8> {
    let figures = job.figures;
    let first = gap.filter(|_| random.once_in(2));
    let mut text = Text::new(random);
    text.gap(first);
    text.begin("strip");
    text.length(figures.width);
    text.length(figures.resolution);
    text.number(figures.columns);
    text.gap(gap.filter(|_| first.is_none()));
    for piece in &job.pieces {
        text.begin("piece");
        text.number(piece.mask);
        for vertex in piece.outline.chunks_exact(2) {
            text.vertex(vertex);
        }
    }
    text.end();
    text.written.into_bytes()
}

struct Text<'a> {
    random: &'a mut Random,
    written: String,
    /// Once in so many lines the millimetres begin.
    patience: usize,
    millimetres: bool,
}

impl Text<'_> {
    fn new(random: &mut Random) -> Text<'_> {
        let patience = random.pick(&[2, 10, 1_000_000]);
        Text {
            random,
            written: String::new(),
            patience,
            millimetres: false,
        }
    }

    fn blanks(&mut self, least: usize) {
        let more = self.random.pick(&[0, 0, 0, 0, 1, 3]);
        for _ in 0..least + more {
            let plain = !self.random.once_in(4);
            self.written += if plain { " " } else { "\t" };
        }
    }

    /// The end of a line, if there is one, then perhaps lines that say nothing
    /// but `mm`, and the first word of the next line.
    fn begin(&mut self, word: &str) {
        self.end();
        if !self.millimetres && self.random.once_in(self.patience) {
            self.millimetres = true;
            self.blanks(0);
            self.written += "mm";
            self.end();
        }
        while self.random.once_in(4) {
            self.blanks(0);
            self.end_line();
        }
        self.blanks(0);
        self.written += word;
    }

    fn end(&mut self) {
        if !self.written.is_empty() {
            self.blanks(0);
            self.end_line();
        }
    }

    fn end_line(&mut self) {
        let comments = [
            "#",
            "# two of each",
            "#piece 15 0,0 # mm",
            "# 1/8 mm, \u{e9}",
        ];
        if self.random.once_in(5) {
            self.written += self.random.pick(&comments);
        }
        let plain = !self.random.once_in(8);
        self.written += if plain { "\n" } else { "\r\n" };
    }

    /// A gap is in millimetres everywhere.
    fn gap(&mut self, gap: Option<u16>) {
        if let Some(gap) = gap {
            self.begin("gap");
            let elsewhere = std::mem::replace(&mut self.millimetres, true);
            self.length(gap);
            self.millimetres = elsewhere;
        }
    }

    fn number(&mut self, number: u16) {
        self.blanks(1);
        self.digits(u64::from(number));
    }

    fn length(&mut self, units: u16) {
        self.blanks(1);
        self.measure(units);
    }

    fn vertex(&mut self, vertex: &[u16]) {
        self.blanks(1);
        self.measure(vertex[0]);
        self.written += ",";
        self.measure(vertex[1]);
    }

    fn digits(&mut self, number: u64) {
        let zeros = if self.random.once_in(20) { "00" } else { "" };
        self.written += &format!("{zeros}{number}");
    }

    fn measure(&mut self, units: u16) {
        if !self.millimetres {
            return self.digits(u64::from(units));
        }
        self.digits(u64::from(units / 8));
        let decimals = format!("{:03}", units % 8 * 125);
        let needed = decimals.trim_end_matches('0').len();
        let count = needed.max(self.random.pick(&[0, 0, 0, 1, 2, 3]));
        if count > 0 {
            self.written += &format!(".{}", &decimals[..count]);
        }
    }
}

/// A job of every kind, most of them good.
pub fn any_job(random: &mut Random) -> Job {
    let mut job = job(random);
    if random.once_in(8) {
        job.figures = any_figures(random);
    }
    if random.once_in(6) {
        let place = random.index(job.pieces.len() + 1);
        let piece = Piece {
            outline: any_outline(random),
            mask: any_mask(random),
        };
        job.pieces.insert(place, piece);
    }
    job
}

/// A way in which a text is damaged.
#[derive(Clone, Copy, Debug, PartialEq, Eq)]
pub enum TextDamage {
    OtherByte,
    ByteMore,
    ByteLess,
    /// In its place a number at or over a limit, or no number.
    OtherWord,
    WordLess,
    WordTwice,
    LineLess,
    LineTwice,
    LinesSwapped,
    CutOff,
}

impl TextDamage {
    pub const ALL: [TextDamage; 10] = [
        TextDamage::OtherByte,
        TextDamage::ByteMore,
        TextDamage::ByteLess,
        TextDamage::OtherWord,
        TextDamage::WordLess,
        TextDamage::WordTwice,
        TextDamage::LineLess,
        TextDamage::LineTwice,
        TextDamage::LinesSwapped,
        TextDamage::CutOff,
    ];
}

const OTHER_BYTES: &[u8] = b"0123456789.,,.# \t\r\n-+mpsx\0\x0b\x0c\x7f\xa0\xff";

const OTHER_WORDS: [&str; 30] = [
    "65535",
    "65536",
    "99999",
    "100000",
    "18446744073709551617",
    "16000",
    "16001",
    "8191.875",
    "8192",
    "0.1",
    "0.12",
    "0.1250",
    "1.",
    ".5",
    "1.5",
    "1,",
    ",1",
    "1,1,1",
    "1, 1",
    "-1",
    "x",
    "mm",
    "strip",
    "piece",
    "Piece",
    "4x,4",
    "16001,4",
    "4,8000.125",
    "#\nmm 0",
    "\nmm mm",
];

/// The text, which is not empty, with this damage.
pub fn damaged_text(random: &mut Random, text: &[u8], damage: TextDamage) -> Vec<u8> {
    let mut bytes = text.to_vec();
    let place = random.index(bytes.len());
    match damage {
        TextDamage::OtherByte => bytes[place] = random.pick(OTHER_BYTES),
        TextDamage::ByteMore => bytes.insert(place, random.pick(OTHER_BYTES)),
        TextDamage::ByteLess => {
            bytes.remove(place);
        }
        TextDamage::CutOff => bytes.truncate(place),
        TextDamage::OtherWord | TextDamage::WordLess | TextDamage::WordTwice => {
            bytes = with_other_word(random, text, damage);
        }
        TextDamage::LineLess | TextDamage::LineTwice | TextDamage::LinesSwapped => {
            bytes = with_other_lines(random, text, damage);
        }
    }
    bytes
}

fn with_other_word(random: &mut Random, text: &[u8], damage: TextDamage) -> Vec<u8> {
    let mut words: Vec<Vec<u8>> = text
        .split(|&byte| byte == b' ')
        .map(<[u8]>::to_vec)
        .collect();
    let place = random.index(words.len());
    match damage {
        TextDamage::OtherWord => words[place] = random.pick(&OTHER_WORDS).into(),
        TextDamage::WordLess => {
            words.remove(place);
        }
        _ => words.insert(place, words[place].clone()),
    }
    words.join(&b' ')
}

fn with_other_lines(random: &mut Random, text: &[u8], damage: TextDamage) -> Vec<u8> {
    let mut lines: Vec<&[u8]> = text.split_inclusive(|&byte| byte == b'\n').collect();
    let place = random.index(lines.len());
    match damage {
        TextDamage::LineLess => {
            lines.remove(place);
        }
        TextDamage::LineTwice => lines.insert(place, lines[place]),
        _ => {
            let other = random.index(lines.len());
            lines.swap(place, other);
        }
    }
    lines.concat()
}

/// A text at or just over one of the limits of a text or of a sheet.
pub fn text_at_limit(random: &mut Random) -> Vec<u8> {
    let figures = small_figures(random);
    let of = |pieces| Job { figures, pieces };
    match random.index(5) {
        0 => {
            let count = random.between(200, 201) as usize;
            let piece = sound_piece_of(random, 4, 6);
            text_of_job(random, &of(vec![piece; count]))
        }
        1 => {
            let piece = sound_piece_of(random, 64, 6);
            let mut text = text_of_job(random, &of(vec![piece]));
            let end = text.iter().rposition(|byte| byte.is_ascii_digit());
            let more = random.pick(&["", "", " 1,1", " 1", "x", "1", " # 1,1"]);
            let end = end.expect("a coordinate") + 1;
            text.splice(end..end, more.bytes());
            text
        }
        // The sheet of 168 pieces has just 65,536 bytes.
        2 => {
            let count = random.between(168, 169) as usize;
            let piece = sound_piece_of(random, 64, 6);
            text_of_job(random, &of(vec![piece; count]))
        }
        3 => {
            let mut text = text_of_job(random, &of(Vec::new()));
            let lines = text.iter().filter(|&&byte| byte == b'\n').count();
            let most = random.between(65_535, 65_536) as usize;
            text.extend(vec![b'\n'; most - lines]);
            text
        }
        _ => {
            let mut text = text_of_job(random, &of(Vec::new()));
            text.push(b'#');
            text.resize(random.between(262_144, 262_145) as usize, b'.');
            text
        }
    }
}
