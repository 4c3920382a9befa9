//! What a resolution costs: a job as text or a sheet on standard input is laid piece by
//! piece by the proved engine, in columns of several widths, and the tries that it
//! reports are printed for each piece. The strip and the work buffer are those of
//! program `lay`.

use engine::job::{in_millimetres, job_of_input, MOST_LIST, RECORDS, WORK};
use reference::figures::{MOST_COLUMNS, MOST_RESOLUTION};
use reference::laying::right_edge_of;
use reference::{Figures, Piece, Refusal, Tried};
use std::process::exit;

fn main() {
    let (gap, sheet) = job_of_input();
    let mut list = vec![0; MOST_LIST];
    let figures = match engine::read(&sheet, &mut list) {
        Ok(figures) => figures,
        Err(Refusal { number, ordinal: 0 }) => refused(meaning(number)),
        Err(Refusal { number, ordinal }) => {
            refused(&format!("piece {ordinal}: {}", meaning(number)))
        }
    };
    let pieces = pieces_of(&list);
    explain(figures, gap);
    let mut laid = Vec::new();
    for resolution in resolutions(figures.resolution) {
        match resolution.and_then(|resolution| figures_at(figures, resolution)) {
            Ok(figures) => laid.push(lay(figures, gap, &pieces)),
            Err(why) => println!("{why}"),
        }
    }
    println!();
    print!("{}", table(&laid, pieces.len()));
    for number in numbers(&laid) {
        println!("({number}) {}", meaning(number));
    }
}

fn refused(why: &str) -> ! {
    eprintln!("nothing is laid: {why}");
    exit(1)
}

/// What the numbers say that a job or a piece may be refused with.
fn meaning(number: u16) -> &'static str {
    match number {
        1 => "the sheet has fewer than 16 bytes, or does not begin with its four bytes",
        2 => "the sheet's length is not that of its records, or over 65,536 bytes",
        3 => "the strip's width is not 0.125 to 2,000 mm",
        6 => "the piece chain is broken or has over 200 pieces",
        7 => "its vertex chain is broken, or has not 3 to 64 vertices",
        8 => "a coordinate is over 2,000 mm",
        9 => "no turn is allowed, or the mask is over 15",
        10 => "two of its edges cross between two whole eighths of a millimetre",
        11 => "its outline has no inside",
        12 => "refused: in columns this narrow the piece has more runs of cells than program lay has room for",
        13 => "refused: there is no free position for the piece",
        14 => "refused: in columns this narrow the strip would have more runs of cells than program lay has room for",
        16 => "the columns are not 0.125 to 50 mm wide",
        17 => "the strip has not 1 to 4,096 columns",
        _ => "an unknown number",
    }
}

fn explain(figures: Figures, gap: u16) {
    let length = in_millimetres(figures.resolution) * f64::from(figures.columns);
    let between = match gap {
        0 => String::new(),
        gap => format!(", with {} mm between pieces", in_millimetres(gap)),
    };
    println!(
        "A try is one look whether a piece is free at one height, in one column and in one turn of the piece. Each allowed turn is\n\
         looked at, column by column, up to its first free position. Narrower columns follow an outline more closely, and as a rule\n\
         take more tries. The strip is {} mm wide and {length} mm long{between}; the job itself has columns of {} mm.",
        in_millimetres(figures.width),
        in_millimetres(figures.resolution)
    );
}

/// The pieces of a list that the engine has read.
fn pieces_of(list: &[u16]) -> Vec<Piece> {
    let mut pieces = Vec::new();
    let mut rest = &list[1..];
    for _ in 0..list[0] {
        let (words, mask) = (2 * usize::from(rest[0]), rest[1]);
        let outline = rest[2..2 + words].to_vec();
        pieces.push(Piece { outline, mask });
        rest = &rest[2 + words..];
    }
    pieces
}

/// A quarter, a half, one, two and four times the job's own resolution, or why there is
/// no such one.
fn resolutions(own: u16) -> impl Iterator<Item = Result<u16, String>> {
    [1u16, 2, 4, 8, 16].into_iter().map(move |quarters| {
        let in_quarters = u32::from(own) * u32::from(quarters);
        let millimetres = f64::from(in_quarters) / 32.0;
        if in_quarters % 4 != 0 {
            return Err(format!(
                "Columns of {millimetres} mm are left out: their width is a multiple of 0.125 mm."
            ));
        }
        if in_quarters > 4 * u32::from(MOST_RESOLUTION) {
            return Err(format!(
                "Columns of {millimetres} mm are left out: they are at most {} mm wide.",
                in_millimetres(MOST_RESOLUTION)
            ));
        }
        Ok((in_quarters / 4) as u16)
    })
}

/// The strip in columns of another width, at least as long as it was.
fn figures_at(own: Figures, resolution: u16) -> Result<Figures, String> {
    let length = u32::from(own.resolution) * u32::from(own.columns);
    let columns = length.div_ceil(u32::from(resolution));
    if columns > u32::from(MOST_COLUMNS) {
        return Err(format!(
            "Columns of {} mm are left out: the strip would need {columns} of them, and {MOST_COLUMNS} are the most.",
            in_millimetres(resolution)
        ));
    }
    Ok(Figures {
        resolution,
        columns: columns as u16,
        ..own
    })
}

/// A job laid at one resolution.
struct Laid {
    figures: Figures,
    tried: Vec<Tried>,
    /// The used length, in units.
    used: u32,
}

fn lay(figures: Figures, gap: u16, pieces: &[Piece]) -> Laid {
    let Figures {
        width,
        resolution,
        columns,
    } = figures;
    let mut strip = vec![0; 5 + usize::from(columns) + 4 * RECORDS];
    if engine::open(width, resolution, columns, gap, &mut strip).is_err() {
        refused("the gap is over 50 mm");
    }
    let (mut tried, mut used) = (Vec::new(), 0);
    for piece in pieces {
        let of_piece = engine::place(&mut strip, &piece.outline, piece.mask, &mut [0; WORK]);
        if let Ok(position) = of_piece.answer {
            used = used.max(right_edge_of(piece, position, resolution));
        }
        tried.push(of_piece);
    }
    Laid {
        figures,
        tried,
        used,
    }
}

/// One line for each piece and for each total, one column for each resolution.
fn table(laid: &[Laid], pieces: usize) -> String {
    let line = |name: &str, cell: &dyn Fn(&Laid) -> String| {
        let cells = laid.iter().map(|laid| format!("{:>13}", cell(laid)));
        format!("{name:18}{}\n", cells.collect::<String>())
    };
    let mut text = line("columns of", &|laid| {
        format!("{} mm", in_millimetres(laid.figures.resolution))
    });
    text += &line("their number", &|laid| laid.figures.columns.to_string());
    text += "tries\n";
    for place in 0..pieces {
        text += &line(&format!("piece {}", place + 1), &|laid| {
            let Tried { answer, tries } = laid.tried[place];
            match answer {
                Ok(_) => tries.to_string(),
                Err(Refusal { number, .. }) => format!("({number}) {tries}"),
            }
        });
    }
    text += &line("tries in all", &|laid| {
        let tries = laid.tried.iter().map(|tried| u64::from(tried.tries));
        tries.sum::<u64>().to_string()
    });
    text += &line("pieces placed", &|laid| {
        let placed = laid.tried.iter().filter(|tried| tried.answer.is_ok());
        placed.count().to_string()
    });
    text + &line("used length", &|laid| {
        format!("{} mm", in_millimetres(laid.used))
    })
}

/// The numbers that pieces are refused with, each once, rising.
fn numbers(laid: &[Laid]) -> Vec<u16> {
    let refusals = laid
        .iter()
        .flat_map(|laid| &laid.tried)
        .filter_map(|tried| tried.answer.err());
    let mut numbers: Vec<u16> = refusals.map(|refusal| refusal.number).collect();
    numbers.sort();
    numbers.dedup();
    numbers
}
