//! Positions, the search for the best one, and the place call.

use crate::cells::{runs_with_gap, stretches, Run};
use crate::figures::*;
use crate::outline::*;
use crate::questions::*;
use crate::strip::{put_runs, strip_runs, well_formed, Stretch, LEADING};

/// A piece in one turn: its extent, and its runs as cover gives them with the gap.
#[derive(Clone, Debug)]
pub struct TurnedPiece {
    pub turn: u16,
    pub w: i64,
    pub h: i64,
    pub runs: Vec<Run>,
}

/// The strip of one place call: W, R, N, g and the runs of each column.
#[derive(Clone, Debug)]
pub struct Board {
    pub w: i64,
    pub r: i64,
    pub n: i64,
    pub g: i64,
    pub columns: Vec<Vec<Stretch>>,
}

/// Column c and height y.
pub type Spot = (i64, i64);

/// S-4: "extents stay those of the outline".
pub fn turned_piece(outline: &[u16], turn: u16, r: i64, g: i64) -> TurnedPiece {
    let outline = turned(&vertices(outline), turn);
    let (w, h) = extent(&outline);
    let runs = runs_with_gap(&outline, r, g);
    TurnedPiece { turn, w, h, runs }
}

/// The board of a well-formed strip.
pub fn board_of(strip: &[u16]) -> Board {
    Board {
        w: i64::from(strip[0]),
        r: i64::from(strip[1]),
        n: i64::from(strip[2]),
        g: i64::from(strip[4]),
        columns: strip_runs(strip),
    }
}

/// The columns c "with c + w/R rounded up ≤ N", from 0.
fn columns_to_try(board: &Board, piece: &TurnedPiece) -> std::ops::RangeInclusive<i64> {
    0..=board.n - columns_wide(piece.w, board.r)
}

/// The heights y with "y + h ≤ W", from 0.
fn heights_to_try(board: &Board, piece: &TurnedPiece) -> std::ops::RangeInclusive<i64> {
    0..=board.w - piece.h
}

// ---------------------------------------------------------------- plain form

/// "For one place call alone, a cell is occupied if a run of the lent strip
/// holds it."
pub fn is_occupied(board: &Board, column: i64, row: i64) -> bool {
    board.columns[column as usize]
        .iter()
        .any(|&(low, high)| i64::from(low) <= row && row < i64::from(high))
}

/// The runs of the piece moved to (c, y). S-4: "Covered cells past the strip's top
/// or end don't count".
fn runs_on_strip(board: &Board, piece: &TurnedPiece, (c, y): Spot) -> Vec<Run> {
    let moved = piece.runs.iter().map(|&(column, low, high)| {
        let up_to_top = |row: i64| (y + row).min(board.w);
        (c + column, up_to_top(low), up_to_top(high))
    });
    moved
        .filter(|&(column, low, high)| column < board.n && low < high)
        .collect()
}

/// "A position is free if no covered cell of the moved piece is occupied."
pub fn is_free_plain(board: &Board, piece: &TurnedPiece, spot: Spot) -> bool {
    runs_on_strip(board, piece, spot)
        .iter()
        .all(|&(column, low, high)| (low..high).all(|row| !is_occupied(board, column, row)))
}

/// "Each turn takes its least free (c, y)": c first, then y. Tries every
/// position.
pub fn least_free_plain(board: &Board, piece: &TurnedPiece) -> Option<Spot> {
    for c in columns_to_try(board, piece) {
        for y in heights_to_try(board, piece) {
            if is_free_plain(board, piece, (c, y)) {
                return Some((c, y));
            }
        }
    }
    None
}

// -------------------------------------------------------------- quicker form

/// The same answer: for each column, strikes out every height at which some run
/// of the piece overlaps some run of the strip, and takes the least one left.
pub fn least_free(board: &Board, piece: &TurnedPiece) -> Option<Spot> {
    for c in columns_to_try(board, piece) {
        if let Some(y) = least_height(board, piece, c) {
            return Some((c, y));
        }
    }
    None
}

fn least_height(board: &Board, piece: &TurnedPiece, c: i64) -> Option<i64> {
    let heights = heights_to_try(board, piece);
    if heights.is_empty() {
        return None;
    }
    let most = *heights.end();
    // clashes[y] minus clashes[y-1] for each y: how many more pairs of runs
    // overlap at y than one lower.
    let mut more = vec![0i64; most as usize + 2];
    let on_strip = |run: &&Run| c + run.0 < board.n;
    for &(column, low, high) in piece.runs.iter().filter(on_strip) {
        for &(taken_low, taken_high) in &board.columns[(c + column) as usize] {
            // They overlap when low + y < taken_high and taken_low < high + y. No
            // run of the strip goes past its top, so rows past it meet none.
            let first = (i64::from(taken_low) - high + 1).max(0);
            let last = (i64::from(taken_high) - low - 1).min(most);
            if first <= last {
                more[first as usize] += 1;
                more[last as usize + 1] -= 1;
            }
        }
    }
    let mut clashes = 0;
    for y in heights {
        clashes += more[y as usize];
        if clashes == 0 {
            return Some(y);
        }
    }
    None
}

// --------------------------------------------------------------------- tries

/// The next height after a clash, or nothing where the position is free.
pub type NextHeight = fn(&Board, &TurnedPiece, Spot) -> Option<i64>;

/// S-5: "After a clash, take the piece's first clashing run by column and then low,
/// with the lowest occupied run that it meets. The next height is that occupied run's
/// high less the piece run's low."
///
/// Cell by cell: the lowest occupied cell that a run meets is one of the lowest
/// occupied run, and that ends below the first cell above which is not occupied.
pub fn next_height_plain(board: &Board, piece: &TurnedPiece, (c, y): Spot) -> Option<i64> {
    assert!(piece.runs.is_sorted(), "by column and then low");
    piece.runs.iter().find_map(|&(column, low, high)| {
        let occupied = |row: i64| {
            let on_strip = c + column < board.n && row < board.w;
            on_strip && is_occupied(board, c + column, row)
        };
        let met = (y + low..y + high).find(|&row| occupied(row))?;
        let end = (met..=board.w).find(|&row| !occupied(row))?;
        Some(end - low)
    })
}

/// The same from the runs of the strip, which rise in each column: the lowest one that
/// ends above the piece's run's low is the only one that can be the lowest it meets.
pub fn next_height(board: &Board, piece: &TurnedPiece, (c, y): Spot) -> Option<i64> {
    piece.runs.iter().find_map(|&(column, low, high)| {
        let taken = board.columns.get((c + column) as usize)?;
        let below = taken.partition_point(|&(_, taken_high)| i64::from(taken_high) <= y + low);
        let &(taken_low, taken_high) = taken.get(below)?;
        (i64::from(taken_low) < y + high).then(|| i64::from(taken_high) - low)
    })
}

/// The heights tried in one turn, column by column: "A turn is walked column by column;
/// in each column height 0 is tried first. [...] A height past the top, even height 0,
/// is no try and ends its column; columns off the strip are not tried. The walk of a
/// turn ends at its first free position or when no column is left."
pub fn walk(board: &Board, piece: &TurnedPiece, next: NextHeight) -> Vec<Vec<i64>> {
    let mut columns = Vec::new();
    for c in columns_to_try(board, piece) {
        let mut tried = Vec::new();
        let mut y = 0;
        while heights_to_try(board, piece).contains(&y) {
            tried.push(y);
            let Some(next) = next(board, piece, (c, y)) else {
                columns.push(tried);
                return columns;
            };
            assert!(next > y, "a clash is left behind");
            y = next;
        }
        columns.push(tried);
    }
    columns
}

/// The tries "made over all allowed turns, equal to the steps of this walk". "They are
/// at most the (turn, column) pairs in which a height was tried, times (1 + p × q), with
/// p the most runs of any allowed turn and q the runs on the strip before the call."
pub fn count_tries(board: &Board, pieces: &[TurnedPiece]) -> u32 {
    let walks = pieces
        .iter()
        .flat_map(|piece| walk(board, piece, next_height));
    let in_pairs: Vec<usize> = walks
        .map(|heights| heights.len())
        .filter(|&tries| tries > 0)
        .collect();
    let tries: usize = in_pairs.iter().sum();
    assert!(tries as u64 <= most_tries(board, pieces, in_pairs.len()));
    tries as u32
}

/// That bound, of so many pairs. It is over 32 bits at the limits.
pub fn most_tries(board: &Board, pieces: &[TurnedPiece], pairs: usize) -> u64 {
    let p = pieces.iter().map(|piece| piece.runs.len()).max();
    let q: usize = board.columns.iter().map(Vec::len).sum();
    pairs as u64 * (1 + p.unwrap_or(0) as u64 * q as u64)
}

// -------------------------------------------------------------------- choice

/// S-7: "The right edge of a position is column × R + w." S-4: "extents stay those of the
/// outline", so no gap is in it.
pub fn right_edge(column: i64, w: i64, r: i64) -> i64 {
    column * r + w
}

/// "top is y + h"
pub fn top(piece: &TurnedPiece, (_, y): Spot) -> i64 {
    y + piece.h
}

/// S-7: "Among turns the least right edge wins, then least top, then least turn."
pub fn best<'a>(
    board: &Board,
    pieces: &'a [TurnedPiece],
    search: fn(&Board, &TurnedPiece) -> Option<Spot>,
) -> Option<(&'a TurnedPiece, Spot)> {
    pieces
        .iter()
        .filter_map(|piece| search(board, piece).map(|spot| (piece, spot)))
        .min_by_key(|&(piece, spot)| {
            (
                right_edge(spot.0, piece.w, board.r),
                top(piece, spot),
                piece.turn,
            )
        })
}

/// How often each step of that order was needed: without it another turn would be best.
#[derive(Clone, Copy, Debug, Default)]
pub struct Steps {
    /// Where document 01's order, "the least last column wins, then least top, then
    /// least turn", gives another turn.
    pub edge: u32,
    pub top: u32,
    pub turn: u32,
}

impl Steps {
    /// Counts an outline that passes questions 7 to 11, on a strip as it stands before
    /// the call.
    pub fn count(&mut self, strip: &[u16], outline: &[u16], mask: u16) {
        let board = board_of(strip);
        let turns = turns_of_mask(mask).expect("1 to 15");
        let found: Vec<[i64; 4]> = turns
            .iter()
            .map(|&turn| turned_piece(outline, turn, board.r, board.g))
            .filter_map(|piece| {
                let spot = least_free(&board, &piece)?;
                let edge = right_edge(spot.0, piece.w, board.r);
                let last_column = spot.0 + columns_wide(piece.w, board.r) - 1;
                Some([edge, top(&piece, spot), piece.turn.into(), last_column])
            })
            .collect();
        let Some(best) = found.iter().min() else {
            return;
        };
        let former = found
            .iter()
            .min_by_key(|&[_, top, turn, last]| [last, top, turn]);
        let without_top = found.iter().min_by_key(|&[edge, _, turn, _]| [edge, turn]);
        let alike = found.iter().filter(|other| other[..2] == best[..2]);
        self.edge += u32::from(former != Some(best));
        self.top += u32::from(without_top != Some(best));
        self.turn += u32::from(alike.count() > 1);
    }
}

/// "the piece's cells are added, touching runs joined": the runs of each column
/// after placing, of the cells that count.
pub fn runs_after(board: &Board, piece: &TurnedPiece, spot: Spot) -> Vec<Vec<Stretch>> {
    let mut columns = board.columns.clone();
    let entered = runs_on_strip(board, piece, spot);
    for runs in entered.chunk_by(|a, b| a.0 == b.0) {
        let column = &mut columns[runs[0].0 as usize];
        let mut rows = vec![false; board.w as usize];
        for &(low, high) in column.iter() {
            rows[usize::from(low)..usize::from(high)].fill(true);
        }
        for &(_, low, high) in runs {
            rows[low as usize..high as usize].fill(true);
        }
        *column = stretches(&rows)
            .into_iter()
            .map(|(low, high)| (low as u16, high as u16))
            .collect();
    }
    columns
}

// ----------------------------------------------------------------- questions

/// "5, 7 to" 12 with these turns allowed, or with nothing where 9 has to say no,
/// and a work buffer of so many words. The answer is the board, and the piece in
/// each allowed turn.
pub fn ask_5_to_12(
    strip: &[u16],
    outline: &[u16],
    allowed: Option<Vec<u16>>,
    work: usize,
) -> Result<(Board, Vec<TurnedPiece>), Refusal> {
    // "5. Is the strip well formed?"
    if !well_formed(strip) {
        return Err(no(5, 0));
    }
    ask_7_of_lent_outline(outline)?;
    let allowed = ask_8_to_11(outline, allowed, 1)?;
    let board = board_of(strip);
    let pieces: Vec<TurnedPiece> = allowed
        .iter()
        .map(|&turn| turned_piece(outline, turn, board.r, board.g))
        .collect();
    // "12. Has the buffer (cover's output, else the work buffer) three words
    // for each run of the allowed turn that has most runs?" It comes before any
    // position: runs past the strip's top or end are asked for, too.
    let most_runs = pieces.iter().map(|piece| piece.runs.len()).max();
    if work < 3 * most_runs.unwrap_or(0) {
        return Err(no(12, 1));
    }
    Ok((board, pieces))
}

/// "14. Are the strip's runs after placing at most Q?"
pub fn ask_14(strip: &[u16], columns_after: &[Vec<Stretch>]) -> Result<(), Refusal> {
    let q = (strip.len() - LEADING - columns_after.len()) / 4;
    if columns_after.iter().map(Vec::len).sum::<usize>() > q {
        return Err(no(14, 1));
    }
    Ok(())
}

/// "place 5, 7 to 14": the best position, and the runs of each column with the
/// piece there; and the tries, "0 where a check before 13 refuses". The strip is only
/// read: by S-2 ask asks the same.
pub fn find(
    strip: &[u16],
    outline: &[u16],
    mask: u16,
    work: usize,
) -> (Result<(Position, Vec<Vec<Stretch>>), Refusal>, u32) {
    match ask_5_to_12(strip, outline, turns_of_mask(mask), work) {
        Ok((board, pieces)) => (
            ask_13_and_14(strip, &board, &pieces),
            count_tries(&board, &pieces),
        ),
        Err(refusal) => (Err(refusal), 0),
    }
}

fn ask_13_and_14(
    strip: &[u16],
    board: &Board,
    pieces: &[TurnedPiece],
) -> Result<(Position, Vec<Vec<Stretch>>), Refusal> {
    // "13. Is there a free position?"
    let Some((piece, spot)) = best(board, pieces, least_free) else {
        return Err(no(13, 1));
    };
    let columns = runs_after(board, piece, spot);
    ask_14(strip, &columns)?;
    let position = Position {
        turn: piece.turn,
        column: spot.0 as u16,
        height: spot.1 as u16,
    };
    Ok((position, columns))
}

// ---------------------------------------------------------------------- call

/// "Place takes strip, outline, mask and a work buffer of words, and answers
/// turn, column, height"; by S-5 the tries, too.
pub fn place(strip: &mut [u16], outline: &[u16], mask: u16, work: &mut [u16]) -> Tried {
    // "A work buffer is zero after each call." Only its length is used here.
    work.fill(0);
    let (found, tries) = find(strip, outline, mask, work.len());
    let answer = found.map(|(position, columns)| {
        put_runs(strip, strip[0], strip[1], strip[2], strip[4], &columns);
        position
    });
    Tried { answer, tries }
}
