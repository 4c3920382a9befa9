//! Program `tries` as it is run, on the sample jobs: each number of its table beside
//! what the reference program finds, and what it says of columns that it leaves out.

use reference::laying::laid_job;
use reference::outline::{turned, vertices};
use reference::sheet::{ask_head, pieces_of_sheet};
use reference::text::{gap_and_sheet, sheet_of_text};
use reference::{Figures, Piece, Refusal};
use std::fs::{read, File};
use std::path::{Path, PathBuf};
use std::process::{Command, Output};

fn samples() -> PathBuf {
    Path::new(env!("CARGO_MANIFEST_DIR")).join("../../samples")
}

/// The program in the folder of the samples, with one of them on its standard input.
fn run(name: &str) -> Output {
    let input = File::open(samples().join(name)).expect("a sample");
    Command::new(env!("CARGO_BIN_EXE_tries"))
        .current_dir(samples())
        .stdin(input)
        .output()
        .expect("it runs")
}

fn text(bytes: &[u8]) -> &str {
    std::str::from_utf8(bytes).expect("a text")
}

/// The cells of the line that begins with this name: each cell is 13 characters wide.
fn cells<'a>(printed: &'a str, name: &str) -> Vec<&'a str> {
    let mut lines = printed.lines().filter(|line| {
        let (first, rest) = line.split_at(line.len().min(18));
        first.trim_end() == name && rest.len() % 13 == 0 && !rest.is_empty()
    });
    let line = lines.next().unwrap_or_else(|| panic!("no line {name}"));
    assert!(lines.next().is_none(), "two lines {name}");
    let rest = &line[18..];
    (0..rest.len() / 13)
        .map(|place| rest[13 * place..13 * place + 13].trim())
        .collect()
}

/// Millimetres as units of 1/8 mm.
fn units(cell: &str) -> f64 {
    let millimetres = cell.strip_suffix(" mm").expect("millimetres");
    8.0 * millimetres.parse::<f64>().expect("a number")
}

/// What the reference program finds at one resolution, as the table has it.
struct Column {
    cells: Vec<String>,
    tries: u32,
    placed: u32,
    /// In units.
    used: i64,
}

fn by_hand(figures: Figures, gap: u16, pieces: &[Piece]) -> Column {
    let (w, r, n) = (figures.width, figures.resolution, figures.columns);
    let mut strip = vec![0; 5 + usize::from(n) + 4 * 4_000];
    reference::open(w, r, n, gap, &mut strip).expect("in its limits");
    let mut column = Column {
        cells: Vec::new(),
        tries: 0,
        placed: 0,
        used: 0,
    };
    for piece in pieces {
        let tried = reference::place(&mut strip, &piece.outline, piece.mask, &mut [0; 9_000]);
        column.tries += tried.tries;
        column.cells.push(match tried.answer {
            Ok(position) => {
                column.placed += 1;
                let moved = i64::from(position.column) * i64::from(r);
                for (x, _) in turned(&vertices(&piece.outline), position.turn) {
                    column.used = column.used.max(moved + x);
                }
                tried.tries.to_string()
            }
            Err(Refusal { number, .. }) => format!("({number}) {}", tried.tries),
        });
    }
    column
}

/// The program on a sample: at these resolutions, each as the reference program has it.
fn check(name: &str, resolutions: &[u16]) -> String {
    let input = read(samples().join(name)).expect("a sample");
    let written = match input.starts_with(b"NJ") {
        true => input,
        false => sheet_of_text(&input).expect("a job"),
    };
    let (gap, sheet) = gap_and_sheet(&written);
    let own = ask_head(sheet).expect("a sheet");
    let pieces = pieces_of_sheet(sheet).expect("a sheet");
    let output = run(name);
    assert!(output.status.success() && output.stderr.is_empty());
    let printed = text(&output.stdout);
    let shown: Vec<f64> = resolutions.iter().map(|&r| f64::from(r)).collect();
    let printed_resolutions: Vec<f64> = cells(printed, "columns of")
        .iter()
        .map(|cell| units(cell))
        .collect();
    assert_eq!(printed_resolutions, shown, "{name}");
    for (place, &resolution) in resolutions.iter().enumerate() {
        let cell = |line: &str| cells(printed, line)[place];
        let columns: u16 = cell("their number").parse().expect("a number");
        // As long as the job's strip, and not by a column longer.
        let (length, r) = (
            u32::from(own.resolution) * u32::from(own.columns),
            u32::from(resolution),
        );
        assert!(r * u32::from(columns) >= length && r * (u32::from(columns) - 1) < length);
        let figures = Figures {
            resolution,
            columns,
            ..own
        };
        let expected = by_hand(figures, gap, &pieces);
        for (ordinal, tries) in (1..).zip(&expected.cells) {
            assert_eq!(cell(&format!("piece {ordinal}")), tries, "{name} R {r}");
        }
        assert_eq!(cell("tries in all"), expected.tries.to_string());
        assert_eq!(cell("pieces placed"), expected.placed.to_string());
        assert_eq!(units(cell("used length")), expected.used as f64);
        if resolution == own.resolution {
            let totals = laid_job(sheet, gap).expect("a sheet").totals;
            assert_eq!(i64::from(totals.used), expected.used, "lay's own answer");
        }
    }
    let lines = printed.lines();
    let count = lines.filter(|line| line.starts_with("piece ")).count();
    assert_eq!(count, pieces.len());
    printed.to_owned()
}

#[test]
fn a_job_with_a_gap() {
    let printed = check("gap.txt", &[2, 4, 8, 16, 32]);
    assert!(printed.contains("with 3 mm between pieces"));
    assert!(!printed.contains("left out"));
    // README.md shows what the program prints.
    let readme = read(samples().join("../README.md")).expect("README.md");
    assert!(text(&readme).contains(&printed));
}

#[test]
fn jobs_with_every_resolution() {
    check("holes.txt", &[10, 20, 40, 80, 160]);
    check("drawn-twice.txt", &[10, 20, 40, 80, 160]);
    // The files that a text names are looked for in its folder.
    let of_sheet = check("paths.sheet", &[10, 20, 40, 80, 160]);
    assert_eq!(text(&run("paths.txt").stdout), of_sheet);
}

/// A sheet, in columns of two units: a quarter of that is no whole number of units.
#[test]
fn a_sheet() {
    let printed = check("three-squares.sheet", &[1, 2, 4, 8]);
    assert!(printed.contains("Columns of 0.0625 mm are left out: their width is a multiple"));
    assert_eq!(cells(&printed, "piece 3")[1], "3");
}

/// A piece of each fate, which has its number before its tries, and below it its words.
#[test]
fn refused_pieces() {
    let printed = check("fates.txt", &[1, 2, 4]);
    assert_eq!(cells(&printed, "piece 3")[0], "(12) 0");
    assert_eq!(cells(&printed, "piece 4"), ["(13) 0"; 3]);
    for number in [12, 13, 14] {
        let said = format!("({number}) refused: ");
        assert_eq!(printed.matches(&said).count(), 1, "{number}");
    }
}

/// A strip of 4,096 columns can have no more, and one of 4,001 mm no columns over 50 mm.
#[test]
fn columns_left_out() {
    let folder = std::env::temp_dir().join(format!("tries-{}", std::process::id()));
    std::fs::create_dir_all(&folder).expect("a folder");
    let job = folder.join("job.txt");
    for (strip, said) in [
        (
            "strip 100 4 4096",
            "the strip would need 16384 of them, and 4096 are the most.",
        ),
        (
            "strip 100 200 9",
            "Columns of 100 mm are left out: they are at most 50 mm wide.",
        ),
    ] {
        let text_of_job = format!("{strip}\npiece 1 0,0 9,0 9,9\n");
        std::fs::write(&job, text_of_job).expect("a file");
        let output = Command::new(env!("CARGO_BIN_EXE_tries"))
            .stdin(File::open(&job).expect("a file"))
            .output()
            .expect("it runs");
        assert!(output.status.success());
        assert!(text(&output.stdout).contains(said), "{strip}");
    }
    std::fs::remove_dir_all(&folder).expect("it can go");
}

/// A job that is refused is not laid, and it is said why.
#[test]
fn refused_jobs() {
    for (name, said) in [
        (
            "bad/10-edges-cross.sheet",
            "nothing is laid: piece 2: two of its edges cross",
        ),
        (
            "bad/16-resolution-401.sheet",
            "nothing is laid: the columns are not 0.125 to 50 mm wide",
        ),
        ("bad/gap-twice.txt", "line 4: there is one gap"),
    ] {
        let output = run(name);
        assert_eq!(output.status.code(), Some(1), "{name}");
        assert!(text(&output.stderr).contains(said), "{name}");
        assert!(output.stdout.is_empty(), "{name}");
    }
}
