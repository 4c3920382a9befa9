//! A job as text on standard input, its picture on standard output: what
//! programs `sheet` and `draw` print one after the other.

use reference::{picture, text};
use std::io::{Read, Write};
use std::process::ExitCode;

fn main() -> std::io::Result<ExitCode> {
    let mut input = Vec::new();
    std::io::stdin().read_to_end(&mut input)?;
    match text::sheet_of_text(&input) {
        Ok(sheet) => {
            eprint!("{}", text::notes_on_text(&input));
            let picture = picture::draw(&sheet);
            std::io::stdout().write_all(picture.as_bytes())?;
            Ok(ExitCode::SUCCESS)
        }
        Err(message) => {
            eprintln!("{message}");
            Ok(ExitCode::FAILURE)
        }
    }
}
