//! Laying a whole job, and the text of program `lay`.

use crate::figures::*;
use crate::outline::{extent, turned, vertices};
use crate::placing::{place, right_edge};
use crate::questions::ask_21;
use crate::sheet::{ask_head, pieces_of_sheet};
use crate::strip::{ask_4, open, LEADING};

/// "Output is four words a piece: 0 or its number, turn, column, height (zeros
/// if refused)."
const ENTRY: usize = 4;

/// "Lay reads a sheet, opens the lent strip and places the pieces in chain
/// order, going on after a piece that is refused."
///
/// "lay 1 to 4, 6 to 11, 15, and 12 to 14 only as a piece's fate", by S-1 with 16
/// and 17 after 3, by S-4 with 21 after these
pub fn lay(
    sheet: &[u8],
    g: u16,
    strip: &mut [u16],
    output: &mut [u16],
    work: &mut [u16],
) -> Result<Totals, Refusal> {
    // "A work buffer is zero after each call."
    work.fill(0);
    let figures = ask_head(sheet)?;
    ask_21(g)?;
    ask_4(strip.len(), figures.columns)?;
    let pieces = pieces_of_sheet(sheet)?;
    // "15. Does the output buffer hold the output?"
    if output.len() < ENTRY * pieces.len() {
        return Err(no(15, 0));
    }
    let Figures {
        width,
        resolution,
        columns,
    } = figures;
    open(width, resolution, columns, g, strip)?;
    let mut totals = Totals { placed: 0, used: 0 };
    for (piece, entry) in pieces.iter().zip(output.chunks_exact_mut(ENTRY)) {
        match place(strip, &piece.outline, piece.mask, work).answer {
            Ok(position) => {
                entry.copy_from_slice(&[0, position.turn, position.column, position.height]);
                totals.placed += 1;
                let edge = right_edge_of(piece, position, resolution);
                totals.used = totals.used.max(edge);
            }
            Err(refusal) => entry.copy_from_slice(&[refusal.number, 0, 0, 0]),
        }
    }
    Ok(totals)
}

/// The right edge of a placed piece.
pub fn right_edge_of(piece: &Piece, position: Position, r: u16) -> u32 {
    let (w, _) = extent(&turned(&vertices(&piece.outline), position.turn));
    right_edge(position.column.into(), w, r.into()) as u32
}

/// A job as program `lay` lays it.
pub struct LaidJob {
    pub figures: Figures,
    pub pieces: Vec<Piece>,
    /// Where each piece is placed, or the number it is refused with.
    pub fates: Vec<Result<Position, u16>>,
    pub totals: Totals,
}

/// "Program `lay` reads a sheet from standard input (Q 4,000, work buffer 9,000
/// words)." S-4: "the program passes 0" for g; any may be given here.
pub fn laid_job(sheet: &[u8], g: u16) -> Result<LaidJob, Refusal> {
    // N is needed for the strip's length. Where 1, 2, 3, 16 or 17 says no, so
    // would lay itself, before it asks about the strip.
    let figures = ask_head(sheet)?;
    let mut strip = vec![0; LEADING + usize::from(figures.columns) + 4 * 4_000];
    let mut work = vec![0; 9_000];
    let mut output = vec![0; ENTRY * MOST_PIECES];
    let totals = lay(sheet, g, &mut strip, &mut output, &mut work)?;
    let pieces = pieces_of_sheet(sheet)?;
    let entries = output.chunks_exact(ENTRY).take(pieces.len());
    Ok(LaidJob {
        figures,
        fates: entries.map(fate).collect(),
        pieces,
        totals,
    })
}

fn fate(entry: &[u16]) -> Result<Position, u16> {
    match entry[0] {
        0 => Ok(Position {
            turn: entry[1],
            column: entry[2],
            height: entry[3],
        }),
        number => Err(number),
    }
}

/// What program `lay` prints for the whole of its standard input.
pub fn lay_text(input: &[u8]) -> String {
    match laid_job(input, 0) {
        Ok(job) => text(&job),
        Err(refusal) => format!("{refusal}\n"),
    }
}

/// "Fields: W, R, N; ordinal, turn, column, height; used columns, pieces
/// placed. A refused piece prints `3 refused 14`". S-7: used length "replaces used
/// columns in the answer and the last line".
fn text(job: &LaidJob) -> String {
    let (figures, totals) = (job.figures, job.totals);
    let mut lines = vec![format!(
        "strip {} {} {}",
        figures.width, figures.resolution, figures.columns
    )];
    for (place, fate) in job.fates.iter().enumerate() {
        let ordinal = place + 1;
        lines.push(match fate {
            Ok(at) => format!("{ordinal} placed {} {} {}", at.turn, at.column, at.height),
            Err(number) => format!("{ordinal} refused {number}"),
        });
    }
    lines.push(format!("used {} placed {}", totals.used, totals.placed));
    lines.iter().map(|line| format!("{line}\n")).collect()
}
