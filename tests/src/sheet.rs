//! Job sheets and cut lists: read and write.
//!
//! "16-bit numbers, low byte first. Bytes 0 to 3: 4E 4A 01 00 hexadecimal. From
//! byte 4: W, R, N, first piece, V, P. Then V vertex records (x, y, next), then
//! P piece records (first vertex, mask, next), 6 bytes each, numbered from 1.
//! Chains end with 0"

use crate::figures::*;
use crate::questions::*;

pub const FIRST_BYTES: [u8; 4] = [0x4E, 0x4A, 0x01, 0x00];

/// The bytes before the records.
const HEAD: usize = 16;
/// "6 bytes each"
const RECORD: usize = 6;

/// "low byte first"
fn number_at(sheet: &[u8], place: usize) -> u16 {
    u16::from_le_bytes([sheet[place], sheet[place + 1]])
}

fn figures_of(sheet: &[u8]) -> Figures {
    Figures {
        width: number_at(sheet, 4),
        resolution: number_at(sheet, 6),
        columns: number_at(sheet, 8),
    }
}

fn first_piece(sheet: &[u8]) -> usize {
    usize::from(number_at(sheet, 10))
}

fn vertex_count(sheet: &[u8]) -> usize {
    usize::from(number_at(sheet, 12))
}

fn piece_count(sheet: &[u8]) -> usize {
    usize::from(number_at(sheet, 14))
}

fn three_numbers_at(sheet: &[u8], place: usize) -> [u16; 3] {
    [
        number_at(sheet, place),
        number_at(sheet, place + 2),
        number_at(sheet, place + 4),
    ]
}

/// "vertex records (x, y, next) [...] numbered from 1"
fn vertex_record(sheet: &[u8], number: usize) -> [u16; 3] {
    three_numbers_at(sheet, HEAD + RECORD * (number - 1))
}

/// "piece records (first vertex, mask, next) [...] numbered from 1"
fn piece_record(sheet: &[u8], number: usize) -> [u16; 3] {
    let before = vertex_count(sheet) + number - 1;
    three_numbers_at(sheet, HEAD + RECORD * before)
}

/// What is asked of a sheet before its records: 1, 2, 3, 16 and 17.
pub fn ask_head(sheet: &[u8]) -> Result<Figures, Refusal> {
    // "1. Does the sheet have 16 bytes and begin with its four bytes?"
    if sheet.len() < HEAD || sheet[..4] != FIRST_BYTES {
        return Err(no(1, 0));
    }
    // "2. Is its length 16 + 6V + 6P and at most 65,536?"
    let length = HEAD + RECORD * vertex_count(sheet) + RECORD * piece_count(sheet);
    if sheet.len() != length || sheet.len() > MOST_SHEET_BYTES {
        return Err(no(2, 0));
    }
    let figures = figures_of(sheet);
    ask_limits(figures.width, figures.resolution, figures.columns)?;
    Ok(figures)
}

/// "6. Does the piece chain stay in 1 to P and end within 200 pieces?" The
/// record numbers of the chain, of a sheet that passed 1 and 2.
fn piece_chain(sheet: &[u8]) -> Result<Vec<usize>, Refusal> {
    let mut numbers = Vec::new();
    let mut present = first_piece(sheet);
    while present != 0 {
        if present > piece_count(sheet) || numbers.len() == MOST_PIECES {
            return Err(no(6, 0));
        }
        numbers.push(present);
        present = usize::from(piece_record(sheet, present)[2]);
    }
    Ok(numbers)
}

/// "7. Does the vertex chain stay in 1 to V and end after 3 to 64?" The words
/// x, y, x, y of the chain.
fn vertex_chain(sheet: &[u8], first: u16, ordinal: u16) -> Result<Vec<u16>, Refusal> {
    let mut outline = Vec::new();
    let mut present = usize::from(first);
    while present != 0 {
        if present > vertex_count(sheet) || outline.len() == 2 * MOST_VERTICES {
            return Err(no(7, ordinal));
        }
        let [x, y, next] = vertex_record(sheet, present);
        outline.extend([x, y]);
        present = usize::from(next);
    }
    if outline.len() < 2 * FEWEST_VERTICES {
        return Err(no(7, ordinal));
    }
    Ok(outline)
}

/// Questions 6, and 7 to 11 piece by piece, of a sheet that passed 1 and 2. The
/// pieces in chain order.
pub fn pieces_of_sheet(sheet: &[u8]) -> Result<Vec<Piece>, Refusal> {
    let mut pieces = Vec::new();
    for number in piece_chain(sheet)? {
        let ordinal = pieces.len() as u16 + 1;
        let [first_vertex, mask, _] = piece_record(sheet, number);
        let outline = vertex_chain(sheet, first_vertex, ordinal)?;
        ask_8_to_11(&outline, turns_of_mask(mask), ordinal)?;
        pieces.push(Piece { outline, mask });
    }
    Ok(pieces)
}

/// "the cut list in words: the piece count, then per piece its vertex count,
/// mask and x, y pairs"
pub fn list_words(pieces: &[Piece]) -> Vec<u16> {
    let mut words = vec![pieces.len() as u16];
    for piece in pieces {
        words.push(piece.outline.len() as u16 / 2);
        words.push(piece.mask);
        words.extend(&piece.outline);
    }
    words
}

/// Questions 6, and 7 to 11 piece by piece, of a cut list. "Words after a
/// list's last piece are not looked at."
fn pieces_of_list(list: &[u16]) -> Result<Vec<Piece>, Refusal> {
    // "6. [...] has the list a count word of at most 200?"
    let count = match list.first() {
        Some(&count) if usize::from(count) <= MOST_PIECES => count,
        _ => return Err(no(6, 0)),
    };
    let mut pieces = Vec::new();
    let mut rest = &list[1..];
    for ordinal in 1..=count {
        let (piece, after) = first_piece_of_list(rest).ok_or(no(7, ordinal))?;
        ask_8_to_11(&piece.outline, turns_of_mask(piece.mask), ordinal)?;
        pieces.push(piece);
        rest = after;
    }
    Ok(pieces)
}

/// "7. [...] is the list's vertex count 3 to 64 and the piece's words
/// complete?" The piece the words begin with and the words after it.
fn first_piece_of_list(words: &[u16]) -> Option<(Piece, &[u16])> {
    let count = usize::from(*words.first()?);
    if !(FEWEST_VERTICES..=MOST_VERTICES).contains(&count) {
        return None;
    }
    let mask = *words.get(1)?;
    let outline = words.get(2..2 + 2 * count)?.to_vec();
    Some((Piece { outline, mask }, &words[2 + 2 * count..]))
}

/// "Reading walks each chain [...] and gives W, R, N and the cut list in words"
///
/// "read asks 1, 2, 3, 6 to 11, 15", by S-1 with 16 and 17 after 3
pub fn read(sheet: &[u8], output: &mut [u16]) -> Result<Figures, Refusal> {
    let figures = ask_head(sheet)?;
    let words = list_words(&pieces_of_sheet(sheet)?);
    // "15. Does the output buffer hold the output?"
    if output.len() < words.len() {
        return Err(no(15, 0));
    }
    output[..words.len()].copy_from_slice(&words);
    Ok(figures)
}

/// Writes the list as a sheet and answers its size in bytes.
///
/// "write 3, 6 to 11, then 2 (size), 15", by S-1 with 16 and 17 after 3
pub fn write(w: u16, r: u16, n: u16, list: &[u16], output: &mut [u8]) -> Result<u32, Refusal> {
    ask_limits(w, r, n)?;
    let pieces = pieces_of_list(list)?;
    let sheet_vertices: usize = pieces.iter().map(|piece| piece.outline.len() / 2).sum();
    let size = HEAD + RECORD * sheet_vertices + RECORD * pieces.len();
    if size > MOST_SHEET_BYTES {
        return Err(no(2, 0));
    }
    if output.len() < size {
        return Err(no(15, 0));
    }
    let sheet = sheet_of(w, r, n, &pieces, sheet_vertices);
    output[..size].copy_from_slice(&sheet);
    Ok(size as u32)
}

/// "Writing numbers the records 1, 2, 3 in list order."
fn sheet_of(w: u16, r: u16, n: u16, pieces: &[Piece], sheet_vertices: usize) -> Vec<u8> {
    let mut vertex_numbers = Vec::new();
    let mut piece_numbers = Vec::new();
    let mut vertex = 0;
    for (place, piece) in pieces.iter().enumerate() {
        let is_last_piece = place + 1 == pieces.len();
        let next_piece = if is_last_piece { 0 } else { place as u16 + 2 };
        piece_numbers.extend([vertex + 1, piece.mask, next_piece]);
        let last_vertex = vertex + piece.outline.len() as u16 / 2;
        for pair in piece.outline.chunks_exact(2) {
            vertex += 1;
            let next_vertex = if vertex == last_vertex { 0 } else { vertex + 1 };
            vertex_numbers.extend([pair[0], pair[1], next_vertex]);
        }
    }
    let first_piece = if pieces.is_empty() { 0 } else { 1 };
    let mut numbers = vec![
        w,
        r,
        n,
        first_piece,
        sheet_vertices as u16,
        pieces.len() as u16,
    ];
    numbers.extend(vertex_numbers);
    numbers.extend(piece_numbers);
    let mut sheet = FIRST_BYTES.to_vec();
    sheet.extend(numbers.into_iter().flat_map(u16::to_le_bytes));
    sheet
}
