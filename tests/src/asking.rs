//! Ask and commit, of change request S-2: place in two steps, so that the spot
//! can be seen before it is cut.

use crate::figures::*;
use crate::outline::columns_wide;
use crate::placing::{
    ask_14, ask_5_to_12, find, is_free_plain, runs_after, Board, Spot, TurnedPiece,
};
use crate::questions::turns_of_turn;
use crate::strip::put_runs;

/// "Ask answers the position that place would give, or its number, and changes no
/// strip word." By S-5 it reports its tries as place does.
pub fn ask(strip: &[u16], outline: &[u16], mask: u16, work: &mut [u16]) -> Tried {
    // "A work buffer is zero after each call."
    work.fill(0);
    let (found, tries) = find(strip, outline, mask, work.len());
    let answer = found.map(|(position, _)| position);
    Tried { answer, tries }
}

/// "A position is turn, column c, height y, c and y at least 0, with c + w/R
/// rounded up ≤ N and y + h ≤ W." Column and height are any words here.
pub fn is_on_strip(board: &Board, piece: &TurnedPiece, (c, y): Spot) -> bool {
    c + columns_wide(piece.w, board.r) <= board.n && y + piece.h <= board.w
}

/// "Commit takes strip, outline, turn, column, height and a work buffer, asks what
/// place asks with that turn alone allowed, and enters the cells if that position
/// is on the strip and free."
///
/// "New numbers: 18 when a commit's position is off the strip or not free, asked
/// instead of 13, which no commit answers."
pub fn commit(
    strip: &mut [u16],
    outline: &[u16],
    position: Position,
    work: &mut [u16],
) -> Result<(), Refusal> {
    // "A work buffer is zero after each call."
    work.fill(0);
    let allowed = turns_of_turn(position.turn);
    let (board, pieces) = ask_5_to_12(strip, outline, allowed, work.len())?;
    let piece = &pieces[0];
    let spot = (position.column.into(), position.height.into());
    // 18 is no question of a piece: "0 [...] for each number above 15 unless its
    // request gives an ordinal".
    if !is_on_strip(&board, piece, spot) || !is_free_plain(&board, piece, spot) {
        return Err(no(18, 0));
    }
    let columns = runs_after(&board, piece, spot);
    ask_14(strip, &columns)?;
    put_runs(strip, strip[0], strip[1], strip[2], strip[4], &columns);
    Ok(())
}
