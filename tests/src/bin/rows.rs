//! Prints rows for the definitions: calls on inputs made from a seed, each with
//! the answer and the buffers that this reference program gives, as theorems
//! that hold by computation if the definitions say the same.
//!
//!     rows SEED COUNT > Rows.antt        COUNT rows of each kind
//!
//! Inputs are kept small, since the definitions try every cell and position.

use reference::generate::paths::{any_vertices, sound_path_of};
use reference::generate::{
    any_gap, any_mask, any_path, any_turn, change_words, commit_position, damaged_list,
    damaged_sheet, damaged_strip, job, long_job, outline, random_runs, small_figures, sound_list,
    sound_outline, sound_pieces, sound_sheet, sound_strip, strip_with, stroke_outline, tied_job,
    CommitKind, Damage, Job, ListDamage, OutlineKind, Random, SheetDamage, StripFigures,
    StrokeKind,
};
use reference::laying::laid_job;
use reference::placing::{board_of, most_tries, next_height_plain, turned_piece, walk, Steps};
use reference::questions::turns_of_mask;
use reference::sheet::list_words;
use reference::strip::LEADING;
use reference::{ask, commit, cover, lay, lay_text, open, place, read, retrace, write};
use reference::{read_path, strip_runs, well_formed, write_path};
use reference::{Figures, Position, Refusal};
use std::cmp::Ordering;

const HEAD: &str = "\
-- Rows made by the reference program: each holds by computation if the definitions agree with it.
-- Assumes nothing.
use mathlib.Core.Path.{◌≡◌, refl}
use mathlib.Core.Bool.{true, false}
use mathlib.Core.List.{List, [], ◌∷◌}
use Prim.Native.Nat.{ℕ}
use Rattle.std.specs.Prelude.{Some, None, Ok, Err}
use Rattle.defs.specs.declared.Position.{Position}
use Rattle.defs.specs.declared.Fate.TheVariants.{Placed as FatePlaced, Refused as FateRefused}
use Rattle.defs.specs.Computing.Test.{list_from}
use Rattle.defs.specs.Computing.Cells.{Rows}
use Rattle.defs.specs.Computing.Words.{well_formedb, columns_runs}
use Rattle.defs.specs.Computing.Search.{position}
use Rattle.defs.specs.Computing.Walk.{turn_walk, tries_bound}
use Rattle.defs.specs.Computing.Calls.{refusal, open_answer, cover_answer, cover_output, place_answer, placed_strip, ask_answer, place_tries, commit_answer, list_answers, list_tries, Lent}
use Rattle.defs.specs.Computing.Sheets.{read_answer, read_output, write_answer, write_output}
use Rattle.defs.specs.Computing.Lay.{used_in, lay_answer, lay_output}
use Rattle.defs.specs.Computing.Ascii.{ascii}
use Rattle.defs.specs.Computing.Text.{totals_line, lay_text}
use Rattle.defs.specs.Computing.Runs.{runs}
use Rattle.pathdefs.specs.Computing.PathRuns.{path_runs}
use Rattle.pathdefs.specs.Computing.Paths.{read_path_answer, read_path_output, write_path_answer, write_path_output}
use Rattle.strokes.specs.Retrace.{rise_alike, level, run_along, stand_along, sharesb, shared_after, first_pair, retrace_answer}

infixl 90 ◌to◌
abbrev ◌to◌ : ℕ → ℕ → Rows
◌to◌ l h = record { low = l; high = h }

abbrev piece : List ℕ → ℕ → ℕ → Lent
piece o mask words = record { outline = o; mask = mask; words = words }

-- what the rows of the retrace call open
retraces : Unit {0}
unfolding runs retrace_answer first_pair shared_after sharesb run_along stand_along rise_alike level
retraces = tt
";

/// Rows as they are printed, numbered.
struct Table {
    rows: usize,
}

impl Table {
    fn row(&mut self, computed: &str, given: &str) {
        self.row_of("runs", computed, given);
    }

    /// A row that opens other definitions.
    fn row_of(&mut self, opened: &str, computed: &str, given: &str) {
        self.rows += 1;
        let name = format!("row_{}", self.rows);
        println!("\n{name} : {computed} ≡ {given}\nunfolding {opened}\n{name} = refl");
    }
}

/// A list in the definitions' language, of items already written.
fn list(items: impl IntoIterator<Item = String>) -> String {
    let mut text = String::from("(");
    for item in items {
        text += &item;
        text += " ∷ ";
    }
    text + "[])"
}

fn numbers<T: Copy + Into<u64>>(words: &[T]) -> String {
    list(words.iter().map(|&word| word.into().to_string()))
}

fn refused(refusal: Refusal) -> String {
    format!("Err (refusal {} {})", refusal.number, refusal.ordinal)
}

fn position(p: Position) -> String {
    format!("(position {} {} {})", p.turn, p.column, p.height)
}

fn placed(answer: Result<Position, Refusal>) -> String {
    match answer {
        Ok(p) => format!("Ok {}", position(p)),
        Err(refusal) => refused(refusal),
    }
}

fn committed(answer: Result<(), Refusal>) -> String {
    match answer {
        Ok(()) => String::from("Ok tt"),
        Err(refusal) => refused(refusal),
    }
}

fn columns(strip: &[u16]) -> String {
    list(
        strip_runs(strip)
            .iter()
            .map(|column| list(column.iter().map(|(low, high)| format!("{low} to {high}")))),
    )
}

/// A small outline of any kind, few of them too large to be walked cell by cell.
fn small_outline(random: &mut Random) -> Vec<u16> {
    loop {
        let kind = random.pick(&OutlineKind::ALL);
        let size = random.word(2, 6);
        let words = outline(random, kind, size);
        let far = words.iter().any(|&x| (20..=16_000).contains(&x));
        if words.len() <= 28 && !far {
            return words;
        }
    }
}

/// Any gap over its limit, or a small one, since the definitions try every unit
/// cell within it.
fn row_gap(random: &mut Random, r: u16) -> u16 {
    match any_gap(random, r) {
        over if over > 400 => over,
        _ => random.word(0, 5),
    }
}

fn cover_row(random: &mut Random, table: &mut Table) {
    let outline = small_outline(random);
    let (turn, r) = (any_turn(random), random.word(0, 4));
    let g = row_gap(random, r);
    let mut output = vec![9u16; random.index(30)];
    let before = numbers(&output);
    let length = output.len();
    let answer = match cover(&outline, turn, r, g, &mut output) {
        Ok(runs) => format!("Ok {runs}"),
        Err(refusal) => refused(refusal),
    };
    let outline = numbers(&outline);
    table.row(
        &format!("cover_answer {outline} {turn} {r} {g} {length}"),
        &answer,
    );
    let left = format!("cover_output {outline} {turn} {r} {g} {before} ({answer})");
    table.row(&left, &numbers(&output));
}

fn open_row(random: &mut Random, table: &mut Table) {
    let w = random.pick(&[1u16, 10, 16_000, 16_001]);
    let r = random.pick(&[1u16, 3, 400, 401]);
    let n = random.pick(&[1u16, 5, 4_096, 4_097]);
    let g = random.pick(&[0u16, 1, 400, 401]);
    let length = LEADING + usize::from(n) + random.pick(&[0, 3, 4, 5, 40, 64_000, 64_004]);
    let answer = match open(w, r, n, g, &mut vec![7u16; length]) {
        Ok(()) => String::from("Ok tt"),
        Err(refusal) => refused(refusal),
    };
    table.row(&format!("open_answer {w} {r} {n} {g} {length}"), &answer);
}

/// W, R and N in each call that asks about all three, and the gap where it is
/// asked after them: the one at this place out of its limits, those before it in
/// them, those after it anywhere.
fn limits_row(random: &mut Random, table: &mut Table, wrong: usize) {
    let mut figure = |place: usize, most: u16| match place.cmp(&wrong) {
        Ordering::Less => random.word(1, most),
        Ordering::Equal => random.pick(&[0, most + 1, 65_535]),
        Ordering::Greater => random.pick(&[0, 1, most, most + 1]),
    };
    let (w, r, n) = (figure(0, 16_000), figure(1, 400), figure(2, 4_096));
    let g = random.pick(&[0, 400, 401, 65_535]);
    let pieces = sound_pieces(random, 1, 4);
    let words = list_words(&pieces);
    let figures = Figures {
        width: w,
        resolution: r,
        columns: n,
    };
    let sheet = Job { figures, pieces }.sheet();
    let refusal = open(w, r, n, g, &mut []).expect_err("out of limits");
    table.row(&format!("open_answer {w} {r} {n} {g} 0"), &refused(refusal));
    let refusal = write(w, r, n, &words, &mut [9; 200]).expect_err("out of limits");
    table.row(
        &format!("write_answer {w} {r} {n} {} 200", numbers(&words)),
        &refused(refusal),
    );
    let (refusal, bytes) = (read(&sheet, &mut [9; 40]), numbers(&sheet));
    table.row(
        &format!("read_answer {bytes} 40"),
        &refused(refusal.expect_err("out of limits")),
    );
    let refusal = lay(&sheet, g, &mut [3; 30], &mut [9; 4], &mut [1; 40]);
    table.row(
        &format!("lay_answer {bytes} {g} 30 4 40"),
        &refused(refusal.expect_err("out of limits")),
    );
    let text = lay_text(&sheet);
    table.row(&format!("lay_text {bytes}"), &format!("ascii {text:?}"));
}

/// A strip just opened.
fn opened(w: u16, r: u16, n: u16, g: u16, q: u16) -> Vec<u16> {
    let mut strip = vec![0u16; LEADING + usize::from(n) + 4 * usize::from(q)];
    open(w, r, n, g, &mut strip).expect("figures in their limits");
    strip
}

/// A list of place calls from an opened strip.
fn list_row(random: &mut Random, table: &mut Table) {
    let (w, r, n) = (random.word(1, 9), random.word(1, 3), random.word(1, 6));
    let (g, q) = (random.word(0, 4), random.word(1, 10));
    let mut strip = opened(w, r, n, g, q);
    let (mut calls, mut answers, mut tries) = (Vec::new(), Vec::new(), Vec::new());
    for _ in 0..random.between(1, 4) {
        let (outline, mask) = (small_outline(random), any_mask(random));
        let mut work = vec![1u16; random.index(30) + 8];
        calls.push(format!("piece {} {mask} {}", numbers(&outline), work.len()));
        let tried = place(&mut strip, &outline, mask, &mut work);
        answers.push(placed(tried.answer));
        tries.push(tried.tries);
    }
    let calls = format!("{w} {r} {n} {g} {q} {}", list(calls));
    table.row(&format!("list_answers {calls}"), &list(answers));
    table.row(&format!("list_tries {calls}"), &numbers(&tries));
}

/// A strip with its records in any order.
fn small_strip(random: &mut Random) -> Vec<u16> {
    loop {
        let strip = sound_strip(random);
        if strip[0] <= 12 && strip.len() <= 40 && strip[4] <= 6 {
            return strip;
        }
    }
}

/// One place call.
fn place_row(random: &mut Random, table: &mut Table) {
    let strip = small_strip(random);
    let (outline, mask) = (small_outline(random), any_mask(random));
    let mut after = strip.clone();
    let mut work = vec![1u16; random.index(30)];
    let tried = place(&mut after, &outline, mask, &mut work);
    let answer = placed(tried.answer);
    let (strip, outline) = (numbers(&strip), numbers(&outline));
    let call = format!("{strip} {outline} {mask} {}", work.len());
    table.row(&format!("place_answer {call}"), &answer);
    table.row(&format!("place_tries {call}"), &tried.tries.to_string());
    let left = format!("columns_runs (placed_strip {strip} {outline} ({answer}))");
    table.row(&left, &columns(&after));
}

/// One ask, of a sound outline or any.
fn ask_row(random: &mut Random, table: &mut Table) {
    let mut strip = small_strip(random);
    if random.once_in(8) {
        change_words(random, &mut strip);
    }
    let outline = match random.index(2) {
        0 => small_outline(random),
        _ => sound_outline(random, 15, 4),
    };
    let (mask, mut work) = (any_mask(random), vec![1u16; random.index(30)]);
    let tried = ask(&strip, &outline, mask, &mut work);
    let answer = match tried.answer {
        Ok(p) => format!("Ok {}", position(p)),
        Err(refusal) => refused(refusal),
    };
    let (strip, outline) = (numbers(&strip), numbers(&outline));
    let call = format!("{strip} {outline} {mask} {}", work.len());
    table.row(&format!("ask_answer {call}"), &answer);
    table.row(&format!("place_tries {call}"), &tried.tries.to_string());
}

/// The heights tried in each column, and the most that the tries may be, on a strip
/// with runs enough for the walk to clash.
fn walk_rows(random: &mut Random, table: &mut Table) {
    let figures = StripFigures {
        w: random.word(4, 12),
        r: random.word(1, 3),
        n: random.word(2, 6),
        g: random.word(0, 4).saturating_sub(1),
        q: 12,
    };
    let StripFigures { w, r, n, g, q } = figures;
    let runs = loop {
        let runs = random_runs(random, w, n, q);
        if runs.iter().map(Vec::len).sum::<usize>() >= usize::from(n) {
            break runs;
        }
    };
    let strip = strip_with(random, figures, &runs);
    let outline = loop {
        let outline = sound_outline(random, 15, 5);
        if outline.len() <= 16 {
            break outline;
        }
    };
    let (board, mask) = (board_of(&strip), random.word(1, 15));
    let turns = turns_of_mask(mask).expect("1 to 15");
    let pieces: Vec<_> = turns
        .iter()
        .map(|&turn| turned_piece(&outline, turn, board.r, board.g))
        .collect();
    let held = format!("{w} {r} {n} {g} {} {}", columns(&strip), numbers(&outline));
    let mut pairs = 0;
    for piece in &pieces {
        let heights = walk(&board, piece, next_height_plain);
        pairs += heights.iter().filter(|tried| !tried.is_empty()).count();
        let heights = heights
            .iter()
            .map(|tried| list(tried.iter().map(i64::to_string)));
        table.row(&format!("turn_walk {held} {}", piece.turn), &list(heights));
    }
    let most = most_tries(&board, &pieces, pairs);
    table.row(&format!("tries_bound {held} {mask}"), &most.to_string());
}

/// One commit of each kind, and one at the answer of an ask; what they leave is the
/// strip of a place call with that answer.
fn commit_rows(random: &mut Random, table: &mut Table) {
    for kind in CommitKind::ALL.map(Some).into_iter().chain([None]) {
        let strip = small_strip(random);
        let outline = match random.index(4) {
            0 => small_outline(random),
            _ => sound_outline(random, 15, 4),
        };
        let mut work = vec![1u16; random.index(30)];
        let asked = ask(&strip, &outline, 15, &mut work);
        let at = match (kind, asked.answer) {
            (None, Ok(answer)) => answer,
            (kind, _) => {
                let kind = kind.unwrap_or(CommitKind::Anywhere);
                commit_position(random, kind, &strip, &outline)
            }
        };
        let mut after = strip.clone();
        let answer = commit(&mut after, &outline, at, &mut work);
        let (strip, outline, at) = (numbers(&strip), numbers(&outline), position(at));
        let call = format!("commit_answer {strip} {outline} {at} {}", work.len());
        table.row(&call, &committed(answer));
        if answer.is_ok() {
            let left = format!("columns_runs (placed_strip {strip} {outline} (Ok {at}))");
            table.row(&left, &columns(&after));
        }
    }
}

/// Commits of an outline at every position of a small strip, and one past its end
/// and its top: in each turn, column by column, the heights from 0 on.
fn every_commit_rows(random: &mut Random, table: &mut Table) {
    let figures = StripFigures {
        w: random.word(2, 6),
        r: random.word(1, 2),
        n: random.word(2, 5),
        g: random.word(0, 2),
        q: random.between(1, 4) as usize,
    };
    let StripFigures { w, n, q, .. } = figures;
    let most = random.index(q + 1);
    let runs = random_runs(random, w, n, most);
    let strip = strip_with(random, figures, &runs);
    let outline = loop {
        let outline = sound_outline(random, 15, 3);
        // Few vertices: each position works out the cells anew.
        if outline.len() <= 12 {
            break outline;
        }
    };
    for turn in 0..4 {
        let answer = |column, height| {
            let at = Position {
                turn,
                column,
                height,
            };
            committed(commit(&mut strip.clone(), &outline, at, &mut [1; 30]))
        };
        let answers =
            list((0..n + 2).map(|column| list((0..w + 2).map(|height| answer(column, height)))));
        let one = format!(
            "commit_answer {} {} (position {turn} c y) 30",
            numbers(&strip),
            numbers(&outline)
        );
        let (columns, heights) = (n + 2, w + 2);
        let all = format!("list_from (λ c. list_from (λ y. {one}) 0 {heights}) 0 {columns}");
        table.row(&all, &answers);
    }
}

fn strip_row(random: &mut Random, table: &mut Table) {
    let strip = loop {
        let strip = match random.index(3) {
            0 => sound_strip(random),
            _ => {
                let damage = random.pick(&Damage::ALL);
                damaged_strip(random, damage)
            }
        };
        if strip.len() <= 50 && strip.get(2).is_none_or(|&n| n <= 12) {
            break strip;
        }
    };
    let answer = if well_formed(&strip) { "true" } else { "false" };
    table.row(&format!("well_formedb {}", numbers(&strip)), answer);
}

fn read_row(random: &mut Random, table: &mut Table) {
    let sheet = loop {
        let sheet = match random.index(3) {
            0 => sound_sheet(random),
            _ => {
                let damage = random.pick(&SheetDamage::ALL);
                damaged_sheet(random, damage).bytes
            }
        };
        if sheet.len() <= 200 {
            break sheet;
        }
    };
    let mut output = vec![9u16; random.index(60)];
    let before = numbers(&output);
    let length = output.len();
    let answer = match read(&sheet, &mut output) {
        Ok(Figures {
            width,
            resolution,
            columns,
        }) => {
            format!(
                "Ok (record {{ width = {width}; resolution = {resolution}; columns = {columns} }})"
            )
        }
        Err(refusal) => refused(refusal),
    };
    let sheet = numbers(&sheet);
    table.row(&format!("read_answer {sheet} {length}"), &answer);
    table.row(
        &format!("read_output {sheet} {before} ({answer})"),
        &numbers(&output),
    );
}

fn write_row(random: &mut Random, table: &mut Table) {
    let words = loop {
        let words = match random.index(2) {
            0 => sound_list(random),
            _ => {
                let damage = random.pick(&ListDamage::ALL);
                damaged_list(random, damage).words
            }
        };
        if words.len() <= 60 {
            break words;
        }
    };
    let Figures {
        width,
        resolution,
        columns,
    } = small_figures(random);
    let mut output = vec![9u8; random.index(250)];
    let before = numbers(&output);
    let length = output.len();
    let answer = match write(width, resolution, columns, &words, &mut output) {
        Ok(size) => format!("Ok {size}"),
        Err(refusal) => refused(refusal),
    };
    let words = numbers(&words);
    let figures = format!("{width} {resolution} {columns}");
    table.row(&format!("write_answer {figures} {words} {length}"), &answer);
    table.row(
        &format!("write_output {figures} {words} {before} ({answer})"),
        &numbers(&output),
    );
}

fn lay_row(random: &mut Random, table: &mut Table) {
    let job = loop {
        let job = job(random);
        let most = job.pieces.iter().flat_map(|p| &p.outline).max();
        if job.pieces.len() <= 4 && most.is_none_or(|&x| x <= 6) {
            break job;
        }
    };
    lay_rows_of(random, table, &job);
}

/// A job of few small pieces, of which one goes elsewhere by its right edge than by its
/// last column, or has the lower top of two that end at one right edge.
fn tied_rows(random: &mut Random, table: &mut Table, by_top: bool) {
    let job = loop {
        let job = tied_job(random);
        let of = job.figures;
        let most = job.pieces.iter().flat_map(|p| &p.outline).max();
        if job.pieces.len() > 4 || most.is_some_and(|&x| x > 6) || of.width > 10 || of.columns > 8 {
            continue;
        }
        let mut strip = opened(of.width, of.resolution, of.columns, 0, 40);
        let mut steps = Steps::default();
        for piece in &job.pieces {
            steps.count(&strip, &piece.outline, piece.mask);
            place(&mut strip, &piece.outline, piece.mask, &mut [0; 90]);
        }
        if (if by_top { steps.top } else { steps.edge }) > 0 {
            break job;
        }
    };
    lay_rows_of(random, table, &job);
}

/// The used length of a long strip and the line that says it, by the entries alone: its
/// cells are too many to be worked out here.
fn long_rows(random: &mut Random, table: &mut Table) {
    let (job, laid) = loop {
        let job = long_job(random);
        let laid = laid_job(&job.sheet(), 0).expect("a sound job");
        if laid.totals.used > 65_535 {
            break (job, laid);
        }
    };
    let pieces = list(job.pieces.iter().map(|piece| {
        let outline = numbers(&piece.outline);
        format!("record {{ mask = {}; outline = {outline} }}", piece.mask)
    }));
    let entries = list((1..).zip(&laid.fates).map(|(ordinal, fate)| {
        let fate = match fate {
            Ok(at) => format!("FatePlaced {}", position(*at)),
            Err(number) => format!("FateRefused {number}"),
        };
        format!("record {{ ordinal = {ordinal}; fate = {fate} }}")
    }));
    let (placed, used) = (laid.totals.placed, laid.totals.used);
    let r = job.figures.resolution;
    table.row(
        &format!("used_in {r} {pieces} {entries}"),
        &used.to_string(),
    );
    let text = lay_text(&job.sheet());
    let last = format!("{}\n", text.lines().last().expect("a line"));
    table.row(
        &format!("totals_line (record {{ placed = {placed}; used = {used} }})"),
        &format!("ascii {last:?}"),
    );
}

fn lay_rows_of(random: &mut Random, table: &mut Table, job: &Job) {
    let sheet = job.sheet();
    let records = random.index(14) + 1;
    let mut strip = vec![3u16; LEADING + usize::from(job.figures.columns) + 4 * records];
    let g = row_gap(random, job.figures.resolution);
    let mut output =
        vec![9u16; (4 * job.pieces.len() + random.index(3)).saturating_sub(random.index(2))];
    let mut work = vec![1u16; random.index(60)];
    let before = numbers(&output);
    let lengths = (strip.len(), output.len(), work.len());
    let answer = match lay(&sheet, g, &mut strip, &mut output, &mut work) {
        Ok(totals) => format!(
            "Ok (record {{ placed = {}; used = {} }})",
            totals.placed, totals.used
        ),
        Err(refusal) => refused(refusal),
    };
    let text = lay_text(&sheet);
    let sheet = numbers(&sheet);
    table.row(
        &format!(
            "lay_answer {sheet} {g} {} {} {}",
            lengths.0, lengths.1, lengths.2
        ),
        &answer,
    );
    let left = format!(
        "lay_output {sheet} {g} {before} {} {} ({answer})",
        lengths.0, lengths.2
    );
    table.row(&left, &numbers(&output));
    table.row(&format!("lay_text {sheet}"), &format!("ascii {text:?}"));
}

/// What an outline draws twice, of any size but few vertices.
fn retrace_row(random: &mut Random, table: &mut Table) {
    let words = loop {
        let size = random.pick(&[4, 9, 16_000]);
        let words = if random.once_in(3) {
            let kind = random.pick(&OutlineKind::ALL);
            outline(random, kind, size)
        } else {
            let kind = random.pick(&StrokeKind::ALL);
            stroke_outline(random, kind, size)
        };
        if words.len() <= 20 {
            break words;
        }
    };
    let answer = match retrace(&words) {
        Ok(None) => String::from("Ok None"),
        Ok(Some((first, second))) => {
            format!("Ok (Some (record {{ first = {first}; second = {second} }}))")
        }
        Err(refusal) => refused(refusal),
    };
    table.row_of(
        "retraces",
        &format!("retrace_answer {}", numbers(&words)),
        &answer,
    );
}

/// A path of few steps, or of many.
fn read_path_row(random: &mut Random, table: &mut Table) {
    let path = loop {
        let path = match random.index(6) {
            0 => sound_path_of(random, 64),
            _ => any_path(random),
        };
        if path.len() <= 100 || random.once_in(8) {
            break path;
        }
    };
    let room = random.pick(&[0, 5, 6, 9, 128, 130]);
    let mut output = vec![9u16; room];
    let before = numbers(&output);
    let answer = match read_path(&path, &mut output) {
        Ok(words) => format!("Ok {words}"),
        Err(refusal) => refused(refusal),
    };
    let path = numbers(&path);
    table.row_of(
        "path_runs",
        &format!("read_path_answer {path} {room}"),
        &answer,
    );
    table.row_of(
        "path_runs",
        &format!("read_path_output {path} {before} ({answer})"),
        &numbers(&output),
    );
}

fn write_path_row(random: &mut Random, table: &mut Table) {
    let words = match random.index(3) {
        0 => small_outline(random),
        _ => {
            let vertices = random.pick(&[3, 3, 4, 5, 9, 64]);
            any_vertices(random, vertices)
        }
    };
    let size = 9 * words.len() / 2 + 1;
    let room = random.pick(&[size, size, size - 1, size + 7, 0]);
    let mut output = vec![9u8; room];
    let before = numbers(&output);
    let answer = match write_path(&words, &mut output) {
        Ok(bytes) => format!("Ok {bytes}"),
        Err(refusal) => refused(refusal),
    };
    let words = numbers(&words);
    table.row_of(
        "path_runs",
        &format!("write_path_answer {words} {room}"),
        &answer,
    );
    table.row_of(
        "path_runs",
        &format!("write_path_output {words} {before} ({answer})"),
        &numbers(&output),
    );
}

fn main() {
    let mut arguments = std::env::args()
        .skip(1)
        .map(|word| word.parse::<u64>().expect("a number"));
    let seed = arguments.next().expect("a seed");
    let count = arguments.next().expect("a count");
    let mut random = Random::new(seed);
    let mut table = Table { rows: 0 };
    print!("{HEAD}");
    for round in 0..count {
        cover_row(&mut random, &mut table);
        open_row(&mut random, &mut table);
        limits_row(&mut random, &mut table, round as usize % 3);
        list_row(&mut random, &mut table);
        place_row(&mut random, &mut table);
        ask_row(&mut random, &mut table);
        walk_rows(&mut random, &mut table);
        commit_rows(&mut random, &mut table);
        every_commit_rows(&mut random, &mut table);
        strip_row(&mut random, &mut table);
        strip_row(&mut random, &mut table);
        read_row(&mut random, &mut table);
        write_row(&mut random, &mut table);
        lay_row(&mut random, &mut table);
        tied_rows(&mut random, &mut table, round % 2 == 1);
        long_rows(&mut random, &mut table);
        retrace_row(&mut random, &mut table);
        retrace_row(&mut random, &mut table);
        read_path_row(&mut random, &mut table);
        read_path_row(&mut random, &mut table);
        write_path_row(&mut random, &mut table);
    }
    eprintln!("{} rows from seed {seed}", table.rows);
}
