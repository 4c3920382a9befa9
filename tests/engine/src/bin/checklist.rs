//! The field engineer's checklist on a job of her own, done by machine: a job as
//! text or a sheet on standard input, and what the proved engine says of it beside
//! what the reference program finds the slow way.
//!
//! - Line A, bad sheets: the sheet as it is, and some thousand damaged copies of it.
//! - Line B, the outline: each cell of each piece in each allowed turn.
//! - Line C, the fit: each position of each piece, before it is laid, and the tries
//!   that the engine reports; then how near the pieces lie to each other.
//!
//! A gap of the job is a part of the cells in B, and of the strip in C.

use engine::guard::Guarded;
use engine::job::{in_millimetres, job_of_input, MOST_LIST, RECORDS, WORK};
use reference::cells::{covered_plain, stretches};
use reference::distance::{too_close, Shape};
use reference::outline::{columns_wide, extent, turned, vertices, Vertex};
use reference::placing::{best, board_of, least_free, least_free_plain, turned_piece};
use reference::placing::{next_height, next_height_plain, walk};
use reference::questions::turns_of_mask;
use reference::sheet::{ask_head, pieces_of_sheet};
use reference::{Figures, Piece, Position, Refusal, Tried};
use std::process::exit;

/// The cells of a board on which every position is tried cell by cell.
const MOST_BY_CELLS: i64 = 100_000;

fn main() {
    let (gap, sheet) = job_of_input();
    line_a(&sheet);
    let answer = ask_head(&sheet).and_then(|figures| Ok((figures, pieces_of_sheet(&sheet)?)));
    let Ok((figures, pieces)) = answer else {
        println!("B, C  nothing to lay: the sheet is refused");
        return;
    };
    if gap != 0 {
        println!("B, C  the gap is {} mm", in_millimetres(gap));
    }
    line_b(figures, gap, &pieces);
    line_c(figures, gap, &pieces);
}

fn in_words(tries: u32) -> String {
    match tries {
        1 => String::from("1 try"),
        tries => format!("{tries} tries"),
    }
}

/// Ends the program where the two differ.
fn same<T: PartialEq + std::fmt::Debug>(what: &str, engine: T, by_hand: T) -> T {
    if engine != by_hand {
        println!("{what}: the engine says {engine:?}, by hand it is {by_hand:?}");
        exit(1);
    }
    engine
}

/// Reads the sheet, which stands directly before memory that cannot be read.
fn read_both(sheet: &[u8]) -> Result<Figures, Refusal> {
    let lent = Guarded::new(sheet);
    let (mut list, mut list_by_hand) = (vec![7; MOST_LIST], vec![7; MOST_LIST]);
    let answer = same(
        "reading the sheet",
        engine::read(&lent, &mut list),
        reference::read(sheet, &mut list_by_hand),
    );
    same("the cut list", list, list_by_hand);
    answer
}

/// "she loads bad sheets: looping chains, missing vertices, crossed outlines"
fn line_a(sheet: &[u8]) {
    match read_both(sheet) {
        Ok(_) => println!("A  the sheet is read, and its cut list is the one found by hand"),
        Err(Refusal { number, ordinal }) => {
            println!("A  the sheet is refused: {number} {ordinal}, as by hand")
        }
    }
    let (mut tried, mut refused) = (0, 0);
    let mut numbers = [0u32; 18];
    let step = sheet.len() / 1_000 + 1;
    let mut damaged = |copy: &[u8]| {
        tried += 1;
        if let Err(Refusal { number, .. }) = read_both(copy) {
            refused += 1;
            numbers[usize::from(number)] += 1;
        }
    };
    for place in (0..sheet.len()).step_by(step) {
        for change in [0x01, 0x80, 0xFF] {
            let mut copy = sheet.to_vec();
            copy[place] ^= change;
            damaged(&copy);
        }
        damaged(&sheet[..place]);
    }
    let seen: Vec<String> = (1..numbers.len())
        .filter(|&number| numbers[number] > 0)
        .map(|number| number.to_string())
        .collect();
    println!(
        "A  {tried} damaged copies: {refused} refused (numbers {}), each as by hand",
        seen.join(", ")
    );
}

/// The unit cells of an outline. Each is worked out from points, when it is first
/// asked for.
struct Units<'a> {
    outline: &'a [Vertex],
    h: i64,
    known: Vec<Vec<Option<bool>>>,
}

impl Units<'_> {
    fn new(outline: &[Vertex]) -> Units<'_> {
        let (w, h) = extent(outline);
        let known = vec![Vec::new(); w as usize];
        Units { outline, h, known }
    }

    /// Whether the unit cell holds a point inside.
    fn hold(&mut self, k: i64, j: i64) -> bool {
        let column = &mut self.known[k as usize];
        if column.is_empty() {
            *column = vec![None; self.h as usize];
        }
        *column[j as usize].get_or_insert_with(|| covered_plain(self.outline, 1, k, j))
    }

    /// The rows of a column, whether they belong to the piece: S-4, "when a unit cell
    /// holding an inside point lies 0 to g columns to its left and 0 to g rows below
    /// it".
    fn rows(&mut self, column: i64, r: i64, g: i64) -> Vec<bool> {
        let from = (column * r - g).max(0);
        let to = ((column + 1) * r).min(self.known.len() as i64);
        let mut rows = vec![false; (self.h + g) as usize];
        let mut last = None;
        for j in 0..self.h + g {
            if j < self.h && (from..to).any(|k| self.hold(k, j)) {
                last = Some(j);
            }
            rows[j as usize] = last.is_some_and(|below| j - below <= g);
        }
        rows
    }
}

/// "she lays a tracing on the grid"
fn line_b(figures: Figures, gap: u16, pieces: &[Piece]) {
    let (r, g) = (i64::from(figures.resolution), i64::from(gap));
    let with_gap = if gap == 0 { "" } else { " with the gap" };
    for (ordinal, piece) in (1..).zip(pieces) {
        for turn in turns_of_mask(piece.mask).expect("the sheet is accepted") {
            let outline = turned(&vertices(&piece.outline), turn);
            let (w, h) = extent(&outline);
            let mut units = Units::new(&outline);
            let mut by_hand = Vec::new();
            let mut cells = 0;
            for i in 0..columns_wide(w + g, r) {
                let rows = units.rows(i, r, g);
                cells += rows.iter().filter(|&&covered| covered).count();
                for (low, high) in stretches(&rows) {
                    by_hand.extend([i as u16, low as u16, high as u16]);
                }
            }
            let mut output = vec![0; by_hand.len()];
            let what = format!("the cells of piece {ordinal} in turn {turn}");
            let count = engine::cover(&piece.outline, turn, figures.resolution, gap, &mut output);
            let runs = by_hand.len() as u32 / 3;
            same(&what, (count.ok(), output), (Some(runs), by_hand));
            println!(
                "B  piece {ordinal}, turn {turn}: {cells} of {} cells{with_gap}, each as by hand",
                columns_wide(w + g, r) * (h + g)
            );
        }
    }
}

/// "she tries every free spot by hand"
fn line_c(figures: Figures, gap: u16, pieces: &[Piece]) {
    let Figures {
        width,
        resolution,
        columns,
    } = figures;
    let mut strip = vec![0; 5 + usize::from(columns) + 4 * RECORDS];
    engine::open(width, resolution, columns, gap, &mut strip).expect("the sheet is accepted");
    let mut laid = Vec::new();
    for (ordinal, piece) in (1..).zip(pieces) {
        let board = board_of(&strip);
        let turns: Vec<_> = turns_of_mask(piece.mask)
            .expect("the sheet is accepted")
            .into_iter()
            .map(|turn| turned_piece(&piece.outline, turn, board.r, board.g))
            .collect();
        // Cell by cell, or on a large board by striking out all heights at which two runs overlap, and
        // walking from run to run.
        let (search, next) = if board.w * board.n > MOST_BY_CELLS {
            (
                least_free as fn(&_, &_) -> _,
                next_height as fn(&_, &_, _) -> _,
            )
        } else {
            (
                least_free_plain as fn(&_, &_) -> _,
                next_height_plain as fn(&_, &_, _) -> _,
            )
        };
        let by_hand = best(&board, &turns, search).map(|(found, (c, y))| Position {
            turn: found.turn,
            column: c as u16,
            height: y as u16,
        });
        let walks = turns.iter().flat_map(|piece| walk(&board, piece, next));
        let tries_by_hand = walks.map(|heights| heights.len() as u32).sum();
        let Tried { answer, tries } =
            engine::place(&mut strip, &piece.outline, piece.mask, &mut [0; WORK]);
        let what = format!("the position of piece {ordinal}");
        let what_tries = format!("the tries of piece {ordinal}");
        match answer {
            Ok(position) => {
                same(&what, Some(position), by_hand);
                println!(
                    "C  piece {ordinal}: turn {}, {} mm along, {} mm up: the best of all free spots, after {}",
                    position.turn,
                    f64::from(position.column) * in_millimetres(resolution),
                    in_millimetres(position.height),
                    in_words(same(&what_tries, tries, tries_by_hand))
                );
                laid.push((ordinal, Shape::new(&piece.outline, position, resolution)));
            }
            Err(Refusal { number: 13, .. }) => {
                same(&what, None, by_hand);
                println!(
                    "C  piece {ordinal}: no position (13) after {}, and none is found by hand",
                    in_words(same(&what_tries, tries, tries_by_hand))
                );
            }
            Err(Refusal { number, .. }) => {
                let looked = if number == 14 { tries_by_hand } else { 0 };
                same(&what_tries, tries, looked);
                println!("C  piece {ordinal}: refused {number}");
            }
        }
    }
    apart(gap, &laid);
}

/// How near the laid pieces are to each other, from their outlines and not by cells.
fn apart(gap: u16, laid: &[(u32, Shape)]) {
    for (place, (ordinal, piece)) in laid.iter().enumerate() {
        for (before, other) in &laid[..place] {
            if too_close(piece, other, gap) {
                println!("C  pieces {before} and {ordinal} lie too near to each other");
                exit(1);
            }
        }
    }
    match gap {
        0 => println!("C  no point lies inside two pieces"),
        gap => println!(
            "C  points inside different pieces are at least {} mm apart, along or across the strip",
            in_millimetres(gap)
        ),
    }
}
