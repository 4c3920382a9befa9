//! The questions that several calls put: 3, 16, 17 and 21, and 7 to 11 of one piece.

use crate::cells::a_cell_is_covered;
use crate::figures::*;
use crate::outline::{some_edges_change_order, turned, vertices};

/// S-1: "16 when the resolution is outside its limits"
pub fn ask_16(r: u16) -> Result<(), Refusal> {
    if (1..=MOST_RESOLUTION).contains(&r) {
        Ok(())
    } else {
        Err(no(16, 0))
    }
}

/// S-4: "21 when g is over 400, directly after 16 and 17"
pub fn ask_21(g: u16) -> Result<(), Refusal> {
    if g <= MOST_GAP {
        Ok(())
    } else {
        Err(no(21, 0))
    }
}

/// "3. Are W, R, N (those given) in their limits?" Changed by S-1: "Number 3 now
/// means the width only. [...] New numbers: 16 when the resolution is outside
/// its limits, then 17 when the column count is, both directly after 3 wherever
/// 3 is asked."
pub fn ask_limits(w: u16, r: u16, n: u16) -> Result<(), Refusal> {
    if !(1..=MOST_WIDTH).contains(&w) {
        return Err(no(3, 0));
    }
    ask_16(r)?;
    if !(1..=MOST_COLUMNS).contains(&n) {
        return Err(no(17, 0));
    }
    Ok(())
}

/// "7. [...] has a lent outline an even length of 6 to 128 words?"
pub fn ask_7_of_lent_outline(outline: &[u16]) -> Result<(), Refusal> {
    if outline.len().is_multiple_of(2) && (6..=128).contains(&outline.len()) {
        Ok(())
    } else {
        Err(no(7, 1))
    }
}

/// "The turn mask is 1 to 15; bit t allows turn t." Nothing for another mask.
pub fn turns_of_mask(mask: u16) -> Option<Vec<u16>> {
    if mask == 0 || mask > MOST_MASK {
        return None;
    }
    Some(
        (0..=MOST_TURN)
            .filter(|turn| (mask >> turn) % 2 == 1)
            .collect(),
    )
}

/// The one turn of a cover or commit call is its allowed turn. Nothing for a turn
/// above 3.
pub fn turns_of_turn(turn: u16) -> Option<Vec<u16>> {
    if turn > MOST_TURN {
        return None;
    }
    Some(vec![turn])
}

/// Questions 8 to 11 in rising order, of an outline that passed 7. `allowed`
/// holds the allowed turns, or nothing where 9 has to say no. The answer is the
/// allowed turns.
pub fn ask_8_to_11(
    outline: &[u16],
    allowed: Option<Vec<u16>>,
    ordinal: u16,
) -> Result<Vec<u16>, Refusal> {
    // "8. Is each coordinate at most 16,000?"
    if outline.iter().any(|&word| word > MOST_COORDINATE) {
        return Err(no(8, ordinal));
    }
    // "9. Is the mask 1 to 15, or the turn 0 to 3?"
    let Some(allowed) = allowed else {
        return Err(no(9, ordinal));
    };
    let outline = vertices(outline);
    // "10. In every allowed turn, do no two edges change order?"
    for &turn in &allowed {
        if some_edges_change_order(&turned(&outline, turn)) {
            return Err(no(10, ordinal));
        }
    }
    // "11. Is a cell covered?" An outline covers a cell in every turn and at
    // every R or in none, so the first allowed turn at R 1 decides.
    if !a_cell_is_covered(&turned(&outline, allowed[0])) {
        return Err(no(11, ordinal));
    }
    Ok(allowed)
}
