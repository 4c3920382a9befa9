//! A job as text, as README.md describes it: what programs `sheet` and `show`
//! print.
//!
//! A text has a line `strip W R N`, then for each piece a line
//! `piece MASK x,y x,y x,y ..`, or `path MASK NAME` with the name of a file that
//! holds its outline as a path. Before the pieces there may be a line `gap 3.125`,
//! always in millimetres. `#` begins a comment. After a line `mm` all other lengths
//! are millimetres, before it units of 1/8 mm.
//!
//! A sheet has no place for a gap: the same line stands in front of it.

use crate::figures::*;
use crate::outline::Vertex;
use crate::path::read_path;
use crate::retrace::{retrace, shared_by};
use crate::sheet::{ask_head, list_words, pieces_of_sheet, write};
use std::ffi::OsStr;
use std::os::unix::ffi::OsStrExt;

const MOST_BYTES: usize = 262_144;
const MOST_LINES: usize = 65_535;
const UNITS_IN_MILLIMETRE: u64 = 8;

/// The bytes of the line in front of a sheet, at most.
const MOST_FRONT: usize = 16;

/// What is wrong with a line.
type Fault = &'static str;

const VERTICES: Fault = "a piece has 3 to 64 vertices";
const NUMBER: Fault = "a number is expected";

/// The sheet of a text with its gap in front of it, or the line that program
/// `sheet` prints to standard error.
pub fn sheet_of_text(text: &[u8]) -> Result<Vec<u8>, String> {
    let job = TextJob::read(text)?;
    let Figures {
        width,
        resolution,
        columns,
    } = job.figures;
    let mut sheet = vec![0; MOST_SHEET_BYTES];
    match write(
        width,
        resolution,
        columns,
        &list_words(&job.pieces),
        &mut sheet,
    ) {
        Ok(size) => {
            sheet.truncate(size as usize);
            Ok([gap_line(job.gap).as_bytes(), &sheet].concat())
        }
        Err(refusal) => Err(match job.line_of(refusal) {
            Some(line) => format!("{refusal} (line {line})"),
            None => refusal.to_string(),
        }),
    }
}

/// What program `sheet` prints to standard error beside a sheet: a line for each
/// piece that draws a stretch twice, in millimetres.
pub fn notes_on_text(text: &[u8]) -> String {
    let Ok(job) = TextJob::read(text) else {
        return String::new();
    };
    let mut notes = String::new();
    for (line, piece) in job.piece_lines.iter().zip(&job.pieces) {
        if let Ok(Some(pair)) = retrace(&piece.outline) {
            let (from, to) = shared_by(&piece.outline, pair).expect("they share it");
            notes += &format!(
                "line {line}: drawn twice from {} to {} mm, where a knife may cut into another piece\n",
                in_millimetres(from),
                in_millimetres(to)
            );
        }
    }
    notes
}

/// The line of a gap; no line of 0. An eighth is exact in floating point.
fn gap_line(gap: u16) -> String {
    match gap {
        0 => String::new(),
        gap => format!("gap {}\n", f64::from(gap) / 8.0),
    }
}

/// The gap in front of a sheet, 0 without one, and the sheet. Any other first line
/// is a part of the sheet.
pub fn gap_and_sheet(input: &[u8]) -> (u16, &[u8]) {
    let line = input.split_inclusive(|&byte| byte == b'\n').next();
    let line = line.unwrap_or_default();
    let mut rest = Rest(line);
    let word = rest.take_while(|byte| !is_blank(byte));
    match rest.gap() {
        Ok(gap) if word == b"gap" && line.len() <= MOST_FRONT => (gap, &input[line.len()..]),
        _ => (0, input),
    }
}

/// A vertex in millimetres. An eighth is exact in floating point.
fn in_millimetres(vertex: Vertex) -> String {
    format!("{},{}", vertex.0 as f64 / 8.0, vertex.1 as f64 / 8.0)
}

/// The text of a sheet in units, with the gap in front of it, or that it is refused.
pub fn text_of_sheet(input: &[u8]) -> String {
    let (gap, sheet) = gap_and_sheet(input);
    match figures_and_pieces(sheet) {
        Ok((figures, pieces)) => text_of_job(&figures, gap, &pieces),
        Err(refusal) => format!("{refusal}\n"),
    }
}

fn figures_and_pieces(sheet: &[u8]) -> Result<(Figures, Vec<Piece>), Refusal> {
    Ok((ask_head(sheet)?, pieces_of_sheet(sheet)?))
}

fn text_of_job(figures: &Figures, gap: u16, pieces: &[Piece]) -> String {
    let Figures {
        width,
        resolution,
        columns,
    } = figures;
    let mut text = format!("strip {width} {resolution} {columns}\n");
    text += &gap_line(gap);
    for Piece { outline, mask } in pieces {
        text += &format!("piece {mask}");
        for vertex in outline.chunks_exact(2) {
            text += &format!(" {},{}", vertex[0], vertex[1]);
        }
        text += "\n";
    }
    text
}

/// What a text says, and in which lines, counted from 1.
struct TextJob {
    figures: Figures,
    strip_line: usize,
    gap: u16,
    pieces: Vec<Piece>,
    piece_lines: Vec<usize>,
}

impl TextJob {
    fn read(text: &[u8]) -> Result<TextJob, String> {
        if text.len() > MOST_BYTES {
            return Err(format!("a text has at most {MOST_BYTES} bytes"));
        }
        let mut reader = Reader::default();
        for line in text.split_inclusive(|&byte| byte == b'\n') {
            if reader.line == MOST_LINES {
                return Err(reader.message("a text has at most 65535 lines"));
            }
            reader.line += 1;
            reader.read_line(line).map_err(|f| reader.message(f))?;
        }
        let Some((figures, strip_line)) = reader.strip else {
            return Err(reader.message("there is no strip"));
        };
        Ok(TextJob {
            figures,
            strip_line,
            gap: reader.gap.unwrap_or(0),
            pieces: reader.pieces,
            piece_lines: reader.piece_lines,
        })
    }

    /// The line of the strip where one of its figures is refused, else that of
    /// the refused piece.
    fn line_of(&self, refusal: Refusal) -> Option<usize> {
        match refusal {
            Refusal {
                number: 3 | 16 | 17,
                ..
            } => Some(self.strip_line),
            Refusal { ordinal: 0, .. } => None,
            Refusal { ordinal, .. } => Some(self.piece_lines[usize::from(ordinal) - 1]),
        }
    }
}

/// What the lines up to the present one have said.
#[derive(Default)]
struct Reader {
    line: usize,
    millimetres: bool,
    strip: Option<(Figures, usize)>,
    gap: Option<u16>,
    pieces: Vec<Piece>,
    piece_lines: Vec<usize>,
}

impl Reader {
    /// A text without a line has no line to name.
    fn message(&self, fault: Fault) -> String {
        match self.line {
            0 => fault.to_string(),
            line => format!("line {line}: {fault}"),
        }
    }

    fn read_line(&mut self, line: &[u8]) -> Result<(), Fault> {
        let said = line.split(|&byte| byte == b'#').next().unwrap_or(line);
        let mut rest = Rest(said);
        match rest.word() {
            b"" => Ok(()),
            b"strip" => self.read_strip(&mut rest),
            b"piece" => self.read_piece(&mut rest, |rest, mm| rest.outline(mm)),
            b"path" => self.read_piece(&mut rest, |rest, _| rest.outline_in_file()),
            b"gap" => self.read_gap(&mut rest),
            b"mm" if rest.is_empty() => {
                self.millimetres = true;
                Ok(())
            }
            b"mm" => Err("nothing follows mm"),
            _ => Err("a line begins with strip, gap, piece, path or mm"),
        }
    }

    fn read_strip(&mut self, rest: &mut Rest) -> Result<(), Fault> {
        if self.strip.is_some() {
            return Err("there is one strip");
        }
        let figures = Figures {
            width: rest.length(self.millimetres)?,
            resolution: rest.length(self.millimetres)?,
            columns: rest.number()?,
        };
        if !rest.is_empty() {
            return Err("a strip has width, resolution and columns");
        }
        self.strip = Some((figures, self.line));
        Ok(())
    }

    fn read_gap(&mut self, rest: &mut Rest) -> Result<(), Fault> {
        if self.gap.is_some() {
            return Err("there is one gap");
        }
        if !self.pieces.is_empty() {
            return Err("the gap comes before the pieces");
        }
        self.gap = Some(rest.gap()?);
        Ok(())
    }

    fn read_piece(&mut self, rest: &mut Rest, outline: ReadOutline) -> Result<(), Fault> {
        if self.strip.is_none() {
            return Err("the strip comes before the pieces");
        }
        if self.pieces.len() == MOST_PIECES {
            return Err("a job has at most 200 pieces");
        }
        let mask = rest.number()?;
        let outline = outline(rest, self.millimetres)?;
        self.pieces.push(Piece { outline, mask });
        self.piece_lines.push(self.line);
        Ok(())
    }
}

/// The words of an outline from what is left of a line, in millimetres or not.
type ReadOutline = fn(&mut Rest, bool) -> Result<Vec<u16>, Fault>;

/// What is left of a line. What is read is taken from its start.
struct Rest<'a>(&'a [u8]);

fn is_blank(byte: &u8) -> bool {
    b" \t\r\n".contains(byte)
}

impl<'a> Rest<'a> {
    fn take_while(&mut self, wanted: impl Fn(&u8) -> bool) -> &'a [u8] {
        let count = self.0.iter().take_while(|&byte| wanted(byte)).count();
        let (taken, left) = self.0.split_at(count);
        self.0 = left;
        taken
    }

    /// Nothing but blanks, which are taken.
    fn is_empty(&mut self) -> bool {
        self.take_while(is_blank);
        self.0.is_empty()
    }

    fn word(&mut self) -> &'a [u8] {
        self.take_while(is_blank);
        self.take_while(|byte| !is_blank(byte))
    }

    fn take(&mut self, byte: u8) -> bool {
        match self.0.split_first() {
            Some((&first, left)) if first == byte => {
                self.0 = left;
                true
            }
            _ => false,
        }
    }

    fn digits(&mut self) -> Result<&'a [u8], Fault> {
        match self.take_while(u8::is_ascii_digit) {
            [] => Err(NUMBER),
            digits => Ok(digits),
        }
    }

    fn number(&mut self) -> Result<u16, Fault> {
        self.take_while(is_blank);
        self.units()
    }

    fn length(&mut self, millimetres: bool) -> Result<u16, Fault> {
        self.take_while(is_blank);
        if millimetres {
            self.millimetres()
        } else {
            self.units()
        }
    }

    fn units(&mut self) -> Result<u16, Fault> {
        in_16_bits(value(self.digits()?))
    }

    fn millimetres(&mut self) -> Result<u16, Fault> {
        let whole = value(self.digits()?);
        let part = if self.take(b'.') {
            thousandths(self.take_while(u8::is_ascii_digit))?
        } else {
            0
        };
        if part % 125 != 0 {
            return Err("a length is a multiple of 0.125 mm");
        }
        let eighths = whole.saturating_mul(UNITS_IN_MILLIMETRE);
        in_16_bits(eighths.saturating_add(part / 125))
    }

    /// A gap, to the end of the line, in millimetres.
    fn gap(&mut self) -> Result<u16, Fault> {
        let gap = self.length(true)?;
        if gap > MOST_GAP || !self.is_empty() {
            return Err("a gap is one length from 0 to 50 mm");
        }
        Ok(gap)
    }

    /// x and y, with a comma and no blank between them.
    fn vertex(&mut self, millimetres: bool) -> Result<[u16; 2], Fault> {
        let x = self.length(millimetres)?;
        if !self.take(b',') {
            return Err("a vertex is x,y");
        }
        if self.0.first().is_some_and(is_blank) {
            return Err(NUMBER);
        }
        Ok([x, self.length(millimetres)?])
    }
}

impl Rest<'_> {
    /// The vertices up to the end of the line.
    fn outline(&mut self, millimetres: bool) -> Result<Vec<u16>, Fault> {
        let mut outline = Vec::new();
        while !self.is_empty() {
            if outline.len() == 2 * MOST_VERTICES {
                return Err(VERTICES);
            }
            outline.extend(self.vertex(millimetres)?);
        }
        if outline.len() < 2 * FEWEST_VERTICES {
            return Err(VERTICES);
        }
        Ok(outline)
    }

    /// The outline of the path in the file that the rest of the line names.
    fn outline_in_file(&mut self) -> Result<Vec<u16>, Fault> {
        if self.is_empty() {
            return Err("a path has a mask and the name of a file");
        }
        // Blanks inside a name belong to it, those after it do not.
        let end = self.0.iter().rposition(|byte| !is_blank(byte));
        let name = &self.0[..end.map_or(0, |last| last + 1)];
        let path = std::fs::read(OsStr::from_bytes(name)).unwrap_or_default();
        if path.is_empty() {
            return Err("the file of the path cannot be read or is empty");
        }
        let mut outline = vec![0; 2 * MOST_VERTICES];
        match read_path(&path, &mut outline) {
            Ok(words) => {
                outline.truncate(words as usize);
                Ok(outline)
            }
            Err(Refusal { number: 19, .. }) => {
                Err("the path is not one move, 2 to 63 lines and one close")
            }
            Err(_) => {
                Err("a coordinate of the path is not a multiple of 0.125 mm from 0 to 2000 mm")
            }
        }
    }
}

/// The number that these digits are, or a number too large for everything.
fn value(digits: &[u8]) -> u64 {
    digits.iter().fold(0, |number: u64, digit| {
        let more = u64::from(digit - b'0');
        number.saturating_mul(10).saturating_add(more)
    })
}

fn in_16_bits(number: u64) -> Result<u16, Fault> {
    u16::try_from(number).map_err(|_| "a number is at most 65535 units")
}

/// The digits after a point.
fn thousandths(digits: &[u8]) -> Result<u64, Fault> {
    match digits.len() {
        1 => Ok(100 * value(digits)),
        2 => Ok(10 * value(digits)),
        3 => Ok(value(digits)),
        _ => Err("one to three digits follow a point"),
    }
}
