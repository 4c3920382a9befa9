//! Program `lay`: a sheet on standard input, the laid job as text on standard
//! output.

use std::io::{Read, Write};

fn main() -> std::io::Result<()> {
    let mut input = Vec::new();
    std::io::stdin().read_to_end(&mut input)?;
    let text = reference::lay_text(&input);
    std::io::stdout().write_all(text.as_bytes())
}
