//! The picture of a sheet's job, in SVG, with the gap in front of it or without one:
//! what program `draw` prints.
//!
//! Lengths are hundredths of a unit until they are written. Heights are written
//! as negative y, since SVG's y goes down: the strip's lower edge is y = 0. What
//! stands beside the strip is measured in em, the size of the text.

use crate::cells::{runs_of, Run};
use crate::figures::*;
use crate::laying::{laid_job, LaidJob};
use crate::outline::{extent, turned, vertices, Vertex};
use crate::retrace::drawn_twice;
use crate::text::gap_and_sheet;
use std::collections::BTreeSet;
use std::ops::Range;

const HEAD: &str =
    "<svg xmlns='http://www.w3.org/2000/svg' style='background:#fff' font-family='sans-serif'";

pub fn draw(input: &[u8]) -> String {
    let (gap, sheet) = gap_and_sheet(input);
    match laid_job(sheet, gap) {
        Ok(job) => Picture::new(&job, gap).svg(),
        Err(refusal) => format!(
            "{HEAD} font-size='20' viewBox='0 0 240 50'>\n\
             <text x='20' y='32'>{refusal}</text>\n\
             </svg>\n"
        ),
    }
}

/// Hundredths as a decimal number, with two decimals or none.
fn hundredths(number: u64) -> String {
    match number % 100 {
        0 => format!("{}", number / 100),
        part => format!("{}.{part:02}", number / 100),
    }
}

/// Units in millimetres. An eighth is exact in floating point.
fn millimetres(units: u64) -> String {
    format!("{}", units as f64 / 8.0)
}

/// The least of 1, 2, 5, 10, 20, 50 and so on that is enough.
fn round_number(enough: u64) -> u64 {
    (0..)
        .flat_map(|power| [1, 2, 5].map(|digit| digit * 10u64.pow(power)))
        .find(|&number| number >= enough)
        .expect("they go on")
}

/// A laid job, the columns of the board that are shown and the size of the text.
struct Picture<'a> {
    job: &'a LaidJob,
    width: u64,
    resolution: u64,
    shown: u64,
    gap: u64,
    font: u64,
}

impl Picture<'_> {
    fn new(job: &LaidJob, gap: u16) -> Picture<'_> {
        let [width, resolution, columns] = [
            job.figures.width,
            job.figures.resolution,
            job.figures.columns,
        ]
        .map(u64::from);
        // An eighth more than the used columns, and a quarter of the width.
        let used = u64::from(job.totals.used).div_ceil(resolution);
        let shown = (used + used / 8 + width / 4 / resolution + 1).min(columns);
        Picture {
            job,
            width,
            resolution,
            shown,
            gap: u64::from(gap),
            // 3 % of the width or 1 % of the length.
            font: (3 * width).max(shown * resolution),
        }
    }

    fn svg(&self) -> String {
        [
            self.head(),
            self.columns(),
            self.shade(),
            self.pieces(),
            self.twice(),
            self.lengths(),
            self.caption(),
            self.dashed(),
            self.shaded(),
            self.refusals(),
            "</svg>\n".to_string(),
        ]
        .concat()
    }

    /// A length as it is written. Some programs draw text badly whose size is
    /// below 1 or in the ten thousands, so pictures with small text are written
    /// larger and those with large text smaller.
    fn length(&self, number: u64) -> String {
        hundredths(match self.font {
            0..2_000 => 100 * number,
            2_000..200_000 => number,
            _ => number / 100,
        })
    }

    /// Columns as units.
    fn units(&self, columns: u64) -> u64 {
        columns * self.resolution
    }

    /// The used length, in units.
    fn used(&self) -> u64 {
        u64::from(self.job.totals.used)
    }

    fn refused(&self) -> u64 {
        self.job.fates.iter().filter(|fate| fate.is_err()).count() as u64
    }

    /// The width without margins: of the strip, or what the text needs.
    fn span(&self) -> u64 {
        (100 * self.units(self.shown)).max(26 * self.font)
    }

    /// How many refused pieces stand in a row: each has 9 em.
    fn in_row(&self) -> u64 {
        (self.span() / (9 * self.font)).clamp(2, 11)
    }

    /// The height below the strip: 7 em, and 1.4 em for a gap and for each row of
    /// refused pieces.
    fn below(&self) -> u64 {
        let rows = (self.gap_rows() + self.refused().div_ceil(self.in_row())) * self.font;
        7 * self.font + rows + rows / 5 * 2
    }

    /// How thick outlines are: 0.09 em, at most a 40th of the width. Where there is a
    /// gap they leave half of it free, but are a third as thick at least.
    fn thickness(&self) -> u64 {
        let most = (9 * self.font).min(250 * self.width) / 100 + 1;
        match self.gap {
            0 => most,
            gap => (50 * gap).clamp(most / 3, most),
        }
    }

    /// The rows of the gap: one, if there is a gap.
    fn gap_rows(&self) -> u64 {
        self.gap.min(1)
    }

    /// `viewBox`: 2.5 em beside the strip and 3 em above it.
    fn view(&self) -> String {
        let top = 100 * self.width + 3 * self.font;
        let [left, top, width, height] = [
            5 * self.font / 2,
            top,
            self.span() + 5 * self.font,
            top + self.below(),
        ]
        .map(|number| self.length(number));
        format!("-{left} -{top} {width} {height}")
    }

    /// The start, the board and its used part; where the board goes on, its
    /// right edge is broken.
    fn head(&self) -> String {
        let font = self.length(self.font);
        let view = self.view();
        let line = self.length(self.thickness());
        let high = self.length(100 * self.width);
        let shown = self.length(100 * self.units(self.shown));
        let used = self.length(100 * self.used());
        let more = if self.shown < u64::from(self.job.figures.columns) {
            format!("<path class='more' d='M{shown} 0V-{high}'/>\n")
        } else {
            String::new()
        };
        format!(
            "{HEAD} font-size='{font}' viewBox='{view}'>
<style>
.board{{fill:#f4ead8;stroke:#8a7550;stroke-width:.08em}}
.used{{fill:#fffdf7}}
.column{{stroke:#d8ccb4;stroke-width:.05em}}
.end{{stroke:#b3261e;stroke-width:.14em}}
.more{{stroke:#fff;stroke-width:.2em;stroke-dasharray:.5em}}
.piece{{fill:#cfe2f3;fill-rule:evenodd;stroke:#1b3a57;stroke-linejoin:round;stroke-width:{line}}}
.twice{{stroke:#b3261e;stroke-width:{line};stroke-dasharray:.3em}}
.middle{{text-anchor:middle}}
.mark{{text-anchor:middle;font-size:.8em;fill:#555}}
</style>
<rect class='board' y='-{high}' width='{shown}' height='{high}'/>
<rect class='used' y='-{high}' width='{used}' height='{high}'/>
{more}"
        )
    }

    /// The columns from one line to the next: at most 20 spaces, 4 em or more
    /// each.
    fn step(&self) -> u64 {
        let spaces = (100 * self.units(self.shown) / (4 * self.font)).clamp(1, 20);
        round_number(self.shown.div_ceil(spaces))
    }

    /// Column lines with their millimetres, but for those that would touch the 0.
    fn columns(&self) -> String {
        let high = self.length(100 * self.width);
        let mut lines = String::new();
        for column in (0..=self.shown).step_by(self.step() as usize) {
            let units = self.units(column);
            let x = self.length(100 * units);
            lines += &format!("<path class='column' d='M{x} 0V-{high}'/>\n");
            if column == 0 || 100 * units >= 2 * self.font {
                let mark = millimetres(units);
                lines += &format!("<text class='mark' y='1.4em' x='{x}'>{mark}</text>\n");
            }
        }
        lines
    }

    /// The end of the used part, its length above the strip, and the strip's
    /// width beside it.
    fn lengths(&self) -> String {
        let used = self.length(100 * self.used());
        let high = self.length(100 * self.width);
        let middle = self.length((50 * self.used()).max(self.font));
        let half_high = self.length(50 * self.width);
        let used_mm = millimetres(self.used());
        let width_mm = millimetres(self.width);
        format!(
            "<path class='end' d='M{used} 0V-{high}'/>\n\
             <g transform='translate(0 -{high})'>\
             <line class='end' y1='-.7em' y2='-.7em' x2='{used}'/>\
             <text class='middle' y='-1.2em' x='{middle}'>{used_mm} mm</text></g>\n\
             <text class='middle' transform='rotate(-90)' y='-.8em' x='{half_high}'>{width_mm} mm</text>\n"
        )
    }

    fn caption(&self) -> String {
        let used = millimetres(self.used());
        let long = millimetres(self.units(u64::from(self.job.figures.columns)));
        let width = millimetres(self.width);
        let column = millimetres(self.resolution);
        let step = millimetres(self.units(self.step()));
        let placed = self.job.totals.placed;
        let refused = self.refused();
        format!(
            "<text y='3.4em'>used {used} mm of {long} mm, width {width} mm</text>\n\
             <text y='4.8em'>columns of {column} mm, a line every {step} mm</text>\n\
             <text y='6.2em'>{placed} placed, {refused} refused</text>\n"
        )
    }

    /// What dashes mean, if a placed piece has some.
    fn dashed(&self) -> String {
        if self.twice().is_empty() {
            String::new()
        } else {
            "<text x='12em' y='6.2em'>dashed: drawn twice</text>\n".to_string()
        }
    }

    /// What is shaded, if there is a gap.
    fn shaded(&self) -> String {
        match self.gap {
            0 => String::new(),
            gap => {
                let gap = millimetres(gap);
                format!("<text y='7.80em'>shaded: gap of {gap} mm</text>\n")
            }
        }
    }

    fn refusals(&self) -> String {
        let mut lines = String::new();
        let mut place = 0;
        for (ordinal, fate) in (1..).zip(&self.job.fates) {
            let Err(number) = fate else { continue };
            let x = place % self.in_row() * 9;
            let y = hundredths(780 + (self.gap_rows() + place / self.in_row()) * 140);
            lines += &format!("<text x='{x}em' y='{y}em'>{ordinal} refused {number}</text>\n");
            place += 1;
        }
        lines
    }

    /// The gap around the placed pieces, if there is one, within the strip. Nothing of
    /// another piece lies in it.
    fn shade(&self) -> String {
        if self.gap == 0 {
            return String::new();
        }
        let high = self.length(100 * self.width);
        let shown = self.length(100 * self.units(self.shown));
        let thick = self.length(200 * self.gap);
        let pieces = self.job.pieces.iter().zip(&self.job.fates);
        let outlines: String = pieces
            .filter_map(|(piece, fate)| Some((piece, fate.as_ref().ok()?)))
            .map(|(piece, position)| format!("M{}Z", self.points(piece, position)))
            .collect();
        format!(
            "<clipPath id='strip'><rect y='-{high}' width='{shown}' height='{high}'/></clipPath>\n\
             <path clip-path='url(#strip)' fill='none' stroke='#f2cf9c' stroke-linejoin='round' \
             stroke-width='{thick}' d='{outlines}'/>\n"
        )
    }

    fn pieces(&self) -> String {
        let pieces = (1..).zip(self.job.pieces.iter().zip(&self.job.fates));
        pieces
            .map(|(ordinal, (piece, fate))| match fate {
                Ok(position) => self.piece(ordinal, piece, position),
                Err(_) => String::new(),
            })
            .collect()
    }

    /// What the placed pieces draw twice, over all of them: such a stretch may lie
    /// over another piece.
    fn twice(&self) -> String {
        let pieces = self.job.pieces.iter().zip(&self.job.fates);
        pieces
            .filter_map(|(piece, fate)| Some((piece, fate.as_ref().ok()?)))
            .map(|(piece, position)| self.dashes(piece, position))
            .collect()
    }

    fn dashes(&self, piece: &Piece, position: &Position) -> String {
        let outline = turned(&vertices(&piece.outline), position.turn);
        let place = |vertex: Vertex| {
            let x = self.units(u64::from(position.column)) + vertex.0 as u64;
            let y = u64::from(position.height) + vertex.1 as u64;
            format!("{} -{}", self.length(100 * x), self.length(100 * y))
        };
        let stretches: String = drawn_twice(&outline)
            .into_iter()
            .map(|(from, to)| format!("M{}L{}", place(from), place(to)))
            .collect();
        if stretches.is_empty() {
            String::new()
        } else {
            format!("<path class='twice' d='{stretches}'/>\n")
        }
    }

    /// The vertices of a placed piece.
    fn points(&self, piece: &Piece, position: &Position) -> String {
        let x = 100 * self.units(u64::from(position.column));
        let y = 100 * u64::from(position.height);
        turned(&vertices(&piece.outline), position.turn)
            .iter()
            .map(|&vertex| {
                let right = self.length(x + 100 * vertex.0 as u64);
                let up = self.length(y + 100 * vertex.1 as u64);
                format!(" {right},-{up}")
            })
            .collect()
    }

    /// A placed piece, with its ordinal in it.
    fn piece(&self, ordinal: u64, piece: &Piece, position: &Position) -> String {
        let outline = turned(&vertices(&piece.outline), position.turn);
        let x = 100 * self.units(u64::from(position.column));
        let y = 100 * u64::from(position.height);
        let points = self.points(piece, position);
        let mark = Mark::new(&outline, ordinal, self.font);
        let middle = self.length(x + mark.x);
        let up = self.length(y + mark.y);
        let size = self.length(mark.font);
        format!(
            "<polygon class='piece' points='{points}'/>\
             <text class='middle' dy='.35em' x='{middle}' y='-{up}' font-size='{size}'>{ordinal}</text>\n"
        )
    }
}

/// Where in its piece the middle of an ordinal stands, and its size.
struct Mark {
    x: u64,
    y: u64,
    font: u64,
}

impl Mark {
    /// The ordinal stands in the middle row of a long run near the middle of the
    /// piece: in a bent outline the middle of its bounds may be outside. First
    /// it is made as large as that one row allows, then as all rows of a text of
    /// that size allow.
    fn new(outline: &[Vertex], ordinal: u64, most: u64) -> Mark {
        let cells = Cells::new(outline);
        let (column, low, high) = cells.best_run();
        let tall = (high - low) as u64;
        let row = low + (high - low) / 2;
        let font_in = |room: &Range<u64>, most: u64| {
            let size = size_of(ordinal, room.end - room.start);
            most.min(size).min(80 * tall)
        };
        let first = font_in(&cells.room(column, row..row + 1), most);
        // Digits are 0.72 em high.
        let half = (first * 36 / 10_000) as i64;
        let room = cells.room(column, row - half..row + half + 1);
        Mark {
            x: 50 * (room.start + room.end),
            y: 50 * (low + high) as u64,
            font: font_in(&room, first),
        }
    }
}

/// The size at which the ordinal is at most so wide: a digit is less than two
/// thirds as wide as the size.
fn size_of(ordinal: u64, units: u64) -> u64 {
    match ordinal {
        0..10 => 90 * units,
        10..100 => 60 * units,
        _ => 42 * units,
    }
}

/// A piece's cells in at most 64 columns.
struct Cells {
    long: i64,
    part: i64,
    runs: Vec<Run>,
}

impl Cells {
    fn new(outline: &[Vertex]) -> Cells {
        let (long, _) = extent(outline);
        let part = long / 64 + 1;
        let runs = runs_of(outline, part);
        Cells { long, part, runs }
    }

    /// The longest run, where a column away from the middle counts as its width
    /// in rows; the first of equals.
    fn best_run(&self) -> Run {
        let middle = self.long / 2 / self.part;
        let cost =
            |&&(column, low, high): &&Run| (column - middle).abs() * self.part - (high - low);
        *self
            .runs
            .iter()
            .min_by_key(cost)
            .expect("a placed piece has cells")
    }

    /// From where to where the columns around this one have all of these rows in
    /// a run, in units.
    fn room(&self, column: i64, rows: Range<i64>) -> Range<u64> {
        let holds = |&&(_, low, high): &&Run| low <= rows.start && rows.end <= high;
        let held: BTreeSet<i64> = self.runs.iter().filter(holds).map(|run| run.0).collect();
        let is_held = |column: &i64| held.contains(column);
        let from = (0..=column)
            .rev()
            .take_while(is_held)
            .last()
            .unwrap_or(column);
        let to = (column..).find(|column| !is_held(column)).expect("it ends");
        let place = |column: i64| (column * self.part).min(self.long) as u64;
        place(from)..place(to)
    }
}
