//! A job as the programs for people read it from standard input, and lengths as
//! they print them.

use reference::text::{gap_and_sheet, sheet_of_text};
use std::io::Read;
use std::process::exit;

/// The records and work words that program `lay` lends, and the words of the longest
/// list.
pub const RECORDS: usize = 4_000;
pub const WORK: usize = 9_000;
pub const MOST_LIST: usize = 26_001;

/// The gap and the sheet of a text on standard input, or of the input as it is if its
/// sheet begins as one does. Ends the program where a text is wrong.
pub fn job_of_input() -> (u16, Vec<u8>) {
    let mut input = Vec::new();
    std::io::stdin()
        .read_to_end(&mut input)
        .expect("the input can be read");
    let (gap, sheet) = gap_and_sheet(&input);
    if sheet.starts_with(b"NJ") {
        return (gap, sheet.to_vec());
    }
    match sheet_of_text(&input) {
        Ok(written) => {
            let (gap, sheet) = gap_and_sheet(&written);
            (gap, sheet.to_vec())
        }
        Err(message) => {
            eprintln!("{message}");
            exit(1)
        }
    }
}

/// An eighth is exact in floating point.
pub fn in_millimetres(units: impl Into<f64>) -> f64 {
    units.into() / 8.0
}
