//! A plain, quick Rust version of read and write, to measure the engine against:
//! the same questions, with vectors and the usual means. It is no reference for
//! answers.

use crate::plain::{ask_7_and_8, no, Turned};
use reference::{Figures, Refusal};

const HEAD: usize = 16;
const RECORD: usize = 6;
const MOST_BYTES: usize = 65_536;
const MOST_PIECES: usize = 200;
const MOST_WORDS: usize = 128;

fn number(bytes: &[u8], place: usize) -> u16 {
    u16::from_le_bytes([bytes[place], bytes[place + 1]])
}

/// Questions 3, 16 and 17.
fn ask_limits(of: Figures) -> Result<(), Refusal> {
    for (number, figure, most) in [
        (3, of.width, 16_000),
        (16, of.resolution, 400),
        (17, of.columns, 4_096),
    ] {
        if !(1..=most).contains(&figure) {
            return Err(no(number, 0));
        }
    }
    Ok(())
}

/// Questions 7 to 11 of one piece.
fn ask(outline: &[u16], mask: u16, ordinal: u16) -> Result<(), Refusal> {
    ask_7_and_8(outline).map_err(|refusal| no(refusal.number, ordinal))?;
    if !(1..=15).contains(&mask) {
        return Err(no(9, ordinal));
    }
    let mut covers = false;
    for turn in (0..4).filter(|turn| mask >> turn & 1 == 1) {
        let turned = Turned::new(outline, turn);
        if !turned.keeps_order() {
            return Err(no(10, ordinal));
        }
        covers = covers || turned.covers_a_cell();
    }
    match covers {
        true => Ok(()),
        false => Err(no(11, ordinal)),
    }
}

/// The records of one kind on a sheet.
struct Records<'a> {
    bytes: &'a [u8],
}

impl Records<'_> {
    /// The three numbers of a record; nothing outside 1 to the last.
    fn get(&self, at: u16) -> Option<[u16; 3]> {
        let place = RECORD * usize::from(at.checked_sub(1)?);
        let record = self.bytes.get(place..place + RECORD)?;
        Some([number(record, 0), number(record, 2), number(record, 4)])
    }

    /// A chain of at most so many records; nothing where it is broken.
    fn chain(&self, first: u16, most: usize) -> Option<Vec<[u16; 3]>> {
        let mut found = Vec::new();
        let mut at = first;
        while at != 0 {
            if found.len() == most {
                return None;
            }
            let record = self.get(at)?;
            at = record[2];
            found.push(record);
        }
        Some(found)
    }
}

pub fn read(sheet: &[u8], output: &mut [u16]) -> Result<Figures, Refusal> {
    if sheet.len() < HEAD || sheet[..4] != [0x4E, 0x4A, 1, 0] {
        return Err(no(1, 0));
    }
    let vertex_bytes = RECORD * usize::from(number(sheet, 12));
    let piece_bytes = RECORD * usize::from(number(sheet, 14));
    if sheet.len() != HEAD + vertex_bytes + piece_bytes || sheet.len() > MOST_BYTES {
        return Err(no(2, 0));
    }
    let of = Figures {
        width: number(sheet, 4),
        resolution: number(sheet, 6),
        columns: number(sheet, 8),
    };
    ask_limits(of)?;
    let (vertices, pieces) = sheet[HEAD..].split_at(vertex_bytes);
    let (vertices, pieces) = (Records { bytes: vertices }, Records { bytes: pieces });
    let chain = pieces
        .chain(number(sheet, 10), MOST_PIECES)
        .ok_or(no(6, 0))?;
    let mut list = vec![chain.len() as u16];
    for (place, &[first, mask, _]) in chain.iter().enumerate() {
        let ordinal = place as u16 + 1;
        let outline = vertices
            .chain(first, MOST_WORDS / 2)
            .ok_or(no(7, ordinal))?;
        list.extend([outline.len() as u16, mask]);
        let start = list.len();
        list.extend(outline.iter().flat_map(|&[x, y, _]| [x, y]));
        ask(&list[start..], mask, ordinal)?;
    }
    let place = output.get_mut(..list.len()).ok_or(no(15, 0))?;
    place.copy_from_slice(&list);
    Ok(of)
}

/// The outlines of a list with their masks, asked about.
fn pieces_of(list: &[u16]) -> Result<Vec<(&[u16], u16)>, Refusal> {
    let count = *list.first().ok_or(no(6, 0))?;
    if usize::from(count) > MOST_PIECES {
        return Err(no(6, 0));
    }
    let mut pieces = Vec::new();
    let mut rest = &list[1..];
    for ordinal in 1..=count {
        let words = 2 * usize::from(*rest.first().ok_or(no(7, ordinal))?);
        let outline = rest.get(2..2 + words).ok_or(no(7, ordinal))?;
        ask(outline, rest[1], ordinal)?;
        pieces.push((outline, rest[1]));
        rest = &rest[2 + words..];
    }
    Ok(pieces)
}

pub fn write(of: Figures, list: &[u16], output: &mut [u8]) -> Result<u32, Refusal> {
    ask_limits(of)?;
    let pieces = pieces_of(list)?;
    let vertices: usize = pieces.iter().map(|piece| piece.0.len() / 2).sum();
    let size = HEAD + RECORD * (vertices + pieces.len());
    if size > MOST_BYTES {
        return Err(no(2, 0));
    }
    let place = output.get_mut(..size).ok_or(no(15, 0))?;
    place[..4].copy_from_slice(&[0x4E, 0x4A, 1, 0]);
    let count = pieces.len() as u16;
    let mut to = place[4..].chunks_exact_mut(2);
    let mut put = |number: u16| {
        if let Some(two) = to.next() {
            two.copy_from_slice(&number.to_le_bytes());
        }
    };
    put(of.width);
    put(of.resolution);
    put(of.columns);
    put(count.min(1));
    put(vertices as u16);
    put(count);
    let mut at = 0;
    for (outline, _) in &pieces {
        let last = at + outline.len() as u16 / 2;
        for vertex in outline.chunks_exact(2) {
            at += 1;
            put(vertex[0]);
            put(vertex[1]);
            put(if at == last { 0 } else { at + 1 });
        }
    }
    let mut first = 1;
    for (ordinal, &(outline, mask)) in (1..).zip(&pieces) {
        put(first);
        put(mask);
        put(if ordinal == count { 0 } else { ordinal + 1 });
        first += outline.len() as u16 / 2;
    }
    Ok(size as u32)
}
