//! The public calls, as include/vikelodu.h declares them. Nothing checks these
//! declarations against the engine, so they are few and plain. Names that end in _4
//! are of the calls that request S-4 gave a gap, those in _5 of the calls whose answer
//! has had tries beside it since S-5, those in _7 of the calls whose answer has had the
//! used length since S-7.

use reference::retrace::EdgePair;
use reference::{Figures, Position, Refusal, Totals, Tried};

mod exported {
    /// `vikelodu_tried`, returned by value.
    #[repr(C)]
    pub struct Tried {
        pub answer: u64,
        pub tries: u32,
    }

    extern "C" {
        pub fn vikelodu_open_4(
            width: u16,
            resolution: u16,
            columns: u16,
            gap: u16,
            strip: *mut u16,
            strip_words: usize,
        ) -> u64;
        pub fn vikelodu_place_5(
            strip: *mut u16,
            strip_words: usize,
            outline: *const u16,
            outline_words: usize,
            mask: u16,
            work: *mut u16,
            work_words: usize,
        ) -> Tried;
        pub fn vikelodu_ask_5(
            strip: *const u16,
            strip_words: usize,
            outline: *const u16,
            outline_words: usize,
            mask: u16,
            work: *mut u16,
            work_words: usize,
        ) -> Tried;
        pub fn vikelodu_commit(
            strip: *mut u16,
            strip_words: usize,
            outline: *const u16,
            outline_words: usize,
            turn: u16,
            column: u16,
            height: u16,
            work: *mut u16,
            work_words: usize,
        ) -> u64;
        pub fn vikelodu_cover_4(
            outline: *const u16,
            outline_words: usize,
            turn: u16,
            resolution: u16,
            gap: u16,
            output: *mut u16,
            output_words: usize,
        ) -> u64;
        pub fn vikelodu_read(
            sheet: *const u8,
            sheet_bytes: usize,
            output: *mut u16,
            output_words: usize,
        ) -> u64;
        pub fn vikelodu_write(
            width: u16,
            resolution: u16,
            columns: u16,
            list: *const u16,
            list_words: usize,
            output: *mut u8,
            output_bytes: usize,
        ) -> u64;
        pub fn vikelodu_lay_7(
            sheet: *const u8,
            sheet_bytes: usize,
            gap: u16,
            strip: *mut u16,
            strip_words: usize,
            output: *mut u16,
            output_words: usize,
            work: *mut u16,
            work_words: usize,
        ) -> u64;
        pub fn vikelodu_retrace(outline: *const u16, outline_words: usize) -> u64;
        pub fn vikelodu_read_path(
            path: *const u8,
            path_bytes: usize,
            output: *mut u16,
            output_words: usize,
        ) -> u64;
        pub fn vikelodu_write_path(
            outline: *const u16,
            outline_words: usize,
            output: *mut u8,
            output_bytes: usize,
        ) -> u64;
        pub fn vikelodu_open_bytes_4(
            width: u16,
            resolution: u16,
            columns: u16,
            gap: u16,
            strip: *mut u8,
            strip_bytes: usize,
        ) -> u64;
        pub fn vikelodu_place_bytes_5(
            strip: *mut u8,
            strip_bytes: usize,
            outline: *const u8,
            outline_bytes: usize,
            mask: u16,
            work: *mut u8,
            work_bytes: usize,
        ) -> Tried;
        pub fn vikelodu_ask_bytes_5(
            strip: *const u8,
            strip_bytes: usize,
            outline: *const u8,
            outline_bytes: usize,
            mask: u16,
            work: *mut u8,
            work_bytes: usize,
        ) -> Tried;
        pub fn vikelodu_commit_bytes(
            strip: *mut u8,
            strip_bytes: usize,
            outline: *const u8,
            outline_bytes: usize,
            turn: u16,
            column: u16,
            height: u16,
            work: *mut u8,
            work_bytes: usize,
        ) -> u64;
        pub fn vikelodu_lay_bytes_7(
            sheet: *const u8,
            sheet_bytes: usize,
            gap: u16,
            strip: *mut u8,
            strip_bytes: usize,
            output: *mut u8,
            output_bytes: usize,
            work: *mut u8,
            work_bytes: usize,
        ) -> u64;
    }
}

/// The 16 bits of an answer that begin at this one.
fn word(answer: u64, bit: u32) -> u16 {
    (answer >> bit) as u16
}

/// A granted answer as it came, or the refusal in it. A refused answer has
/// nothing but the number and the ordinal.
fn granted(answer: u64) -> Result<u64, Refusal> {
    let number = word(answer, 0);
    if number == 0 {
        return Ok(answer);
    }
    assert_eq!(answer >> 32, 0, "more than a refusal: {answer:#x}");
    Err(Refusal {
        number,
        ordinal: word(answer, 16),
    })
}

/// Of open and commit, which answer nothing but a grant.
fn bare(answer: u64) -> Result<(), Refusal> {
    let answer = granted(answer)?;
    assert_eq!(answer, 0, "more than a grant: {answer:#x}");
    Ok(())
}

/// Of place and ask.
fn tried(of: exported::Tried) -> Tried {
    let answer = granted(of.answer).map(|answer| Position {
        turn: word(answer, 16),
        column: word(answer, 32),
        height: word(answer, 48),
    });
    Tried {
        answer,
        tries: of.tries,
    }
}

/// Of the calls with one value: cover, write, read_path and write_path.
fn wide(answer: u64) -> Result<u32, Refusal> {
    let answer = granted(answer)?;
    assert_eq!(word(answer, 16), 0, "more than the value: {answer:#x}");
    Ok((answer >> 32) as u32)
}

/// Of lay.
fn laid(answer: u64) -> Result<Totals, Refusal> {
    let answer = granted(answer)?;
    Ok(Totals {
        placed: word(answer, 16),
        used: (answer >> 32) as u32,
    })
}

pub fn open(w: u16, r: u16, n: u16, g: u16, strip: &mut [u16]) -> Result<(), Refusal> {
    // Sound: the function asks nothing of its caller, and reads and writes only what the slice lends.
    bare(unsafe { exported::vikelodu_open_4(w, r, n, g, strip.as_mut_ptr(), strip.len()) })
}

pub fn place(strip: &mut [u16], outline: &[u16], mask: u16, work: &mut [u16]) -> Tried {
    // Sound, as above. The slices share nothing: two are lent to be written, the third to be read.
    tried(unsafe {
        exported::vikelodu_place_5(
            strip.as_mut_ptr(),
            strip.len(),
            outline.as_ptr(),
            outline.len(),
            mask,
            work.as_mut_ptr(),
            work.len(),
        )
    })
}

pub fn ask(strip: &[u16], outline: &[u16], mask: u16, work: &mut [u16]) -> Tried {
    // Sound, as above: the strip is lent to be read.
    tried(unsafe {
        exported::vikelodu_ask_5(
            strip.as_ptr(),
            strip.len(),
            outline.as_ptr(),
            outline.len(),
            mask,
            work.as_mut_ptr(),
            work.len(),
        )
    })
}

pub fn commit(
    strip: &mut [u16],
    outline: &[u16],
    position: Position,
    work: &mut [u16],
) -> Result<(), Refusal> {
    // Sound, as above.
    bare(unsafe {
        exported::vikelodu_commit(
            strip.as_mut_ptr(),
            strip.len(),
            outline.as_ptr(),
            outline.len(),
            position.turn,
            position.column,
            position.height,
            work.as_mut_ptr(),
            work.len(),
        )
    })
}

pub fn cover(
    outline: &[u16],
    turn: u16,
    r: u16,
    g: u16,
    output: &mut [u16],
) -> Result<u32, Refusal> {
    // Sound, as above.
    wide(unsafe {
        exported::vikelodu_cover_4(
            outline.as_ptr(),
            outline.len(),
            turn,
            r,
            g,
            output.as_mut_ptr(),
            output.len(),
        )
    })
}

pub fn read(sheet: &[u8], output: &mut [u16]) -> Result<Figures, Refusal> {
    // Sound, as above.
    let answer = unsafe {
        exported::vikelodu_read(
            sheet.as_ptr(),
            sheet.len(),
            output.as_mut_ptr(),
            output.len(),
        )
    };
    let answer = granted(answer)?;
    Ok(Figures {
        width: word(answer, 16),
        resolution: word(answer, 32),
        columns: word(answer, 48),
    })
}

pub fn write(figures: Figures, list: &[u16], output: &mut [u8]) -> Result<u32, Refusal> {
    // Sound, as above.
    wide(unsafe {
        exported::vikelodu_write(
            figures.width,
            figures.resolution,
            figures.columns,
            list.as_ptr(),
            list.len(),
            output.as_mut_ptr(),
            output.len(),
        )
    })
}

pub fn lay(
    sheet: &[u8],
    g: u16,
    strip: &mut [u16],
    output: &mut [u16],
    work: &mut [u16],
) -> Result<Totals, Refusal> {
    // Sound, as above. The slices share nothing: three are lent to be written, the fourth to be read.
    laid(unsafe {
        exported::vikelodu_lay_7(
            sheet.as_ptr(),
            sheet.len(),
            g,
            strip.as_mut_ptr(),
            strip.len(),
            output.as_mut_ptr(),
            output.len(),
            work.as_mut_ptr(),
            work.len(),
        )
    })
}

/// The first two edges that share a stretch, if there are such.
pub fn retrace(outline: &[u16]) -> Result<Option<EdgePair>, Refusal> {
    // Sound, as above.
    let answer = unsafe { exported::vikelodu_retrace(outline.as_ptr(), outline.len()) };
    let answer = granted(answer)?;
    assert_eq!(answer >> 48, 0, "more than two edges: {answer:#x}");
    match (word(answer, 16), word(answer, 32)) {
        (0, 0) => Ok(None),
        (first, second) => {
            assert!(0 < first && first < second, "no two edges: {answer:#x}");
            Ok(Some((first, second)))
        }
    }
}

pub fn read_path(path: &[u8], output: &mut [u16]) -> Result<u32, Refusal> {
    // Sound, as above.
    wide(unsafe {
        exported::vikelodu_read_path(path.as_ptr(), path.len(), output.as_mut_ptr(), output.len())
    })
}

pub fn write_path(outline: &[u16], output: &mut [u8]) -> Result<u32, Refusal> {
    // Sound, as above.
    wide(unsafe {
        exported::vikelodu_write_path(
            outline.as_ptr(),
            outline.len(),
            output.as_mut_ptr(),
            output.len(),
        )
    })
}

pub fn open_bytes(w: u16, r: u16, n: u16, g: u16, strip: &mut [u8]) -> Result<(), Refusal> {
    // Sound, as above: bytes stand at any address.
    bare(unsafe { exported::vikelodu_open_bytes_4(w, r, n, g, strip.as_mut_ptr(), strip.len()) })
}

pub fn place_bytes(strip: &mut [u8], outline: &[u8], mask: u16, work: &mut [u8]) -> Tried {
    // Sound, as above.
    tried(unsafe {
        exported::vikelodu_place_bytes_5(
            strip.as_mut_ptr(),
            strip.len(),
            outline.as_ptr(),
            outline.len(),
            mask,
            work.as_mut_ptr(),
            work.len(),
        )
    })
}

pub fn ask_bytes(strip: &[u8], outline: &[u8], mask: u16, work: &mut [u8]) -> Tried {
    // Sound, as above.
    tried(unsafe {
        exported::vikelodu_ask_bytes_5(
            strip.as_ptr(),
            strip.len(),
            outline.as_ptr(),
            outline.len(),
            mask,
            work.as_mut_ptr(),
            work.len(),
        )
    })
}

pub fn commit_bytes(
    strip: &mut [u8],
    outline: &[u8],
    position: Position,
    work: &mut [u8],
) -> Result<(), Refusal> {
    // Sound, as above.
    bare(unsafe {
        exported::vikelodu_commit_bytes(
            strip.as_mut_ptr(),
            strip.len(),
            outline.as_ptr(),
            outline.len(),
            position.turn,
            position.column,
            position.height,
            work.as_mut_ptr(),
            work.len(),
        )
    })
}

pub fn lay_bytes(
    sheet: &[u8],
    g: u16,
    strip: &mut [u8],
    output: &mut [u8],
    work: &mut [u8],
) -> Result<Totals, Refusal> {
    // Sound, as above.
    laid(unsafe {
        exported::vikelodu_lay_bytes_7(
            sheet.as_ptr(),
            sheet.len(),
            g,
            strip.as_mut_ptr(),
            strip.len(),
            output.as_mut_ptr(),
            output.len(),
            work.as_mut_ptr(),
            work.len(),
        )
    })
}
