//! Times of whole jobs, each laid from its sheet in one call, beside those of a plain
//! Rust program that asks the same questions of the sheet and has the same walk, in
//! one run. The engine writes the strip's words; the plain program keeps its own form
//! of it. Beside them stand times of other calls of the engine on the same pieces, to
//! see what the time goes to: read, which asks the same questions of the sheet, and
//! cover for each piece in each allowed turn, which has the same cells to work out but
//! asks about each turn once more.

use engine::plain_place::Board;
use engine::{data, plain_sheet};
use reference::figures::Piece;
use reference::generate::Job;
use reference::sheet::list_words;
use reference::{Figures, Totals};
use std::time::Instant;

const WIDTH: u16 = 8_000;
/// As many words as the program `lay` has.
const WORK: usize = 9_000;

/// A wallet, 150 by 415 mm laid flat, in quarters of a millimetre.
const WALLET: [u16; 28] = [
    60, 0, 540, 0, 540, 40, 600, 72, 600, 648, 540, 680, 540, 1480, 492, 1660, 108, 1660, 60, 1480,
    60, 680, 0, 648, 0, 72, 60, 40,
];

/// A job on a strip of so many records with a gap, with the words of its cut list.
struct Laid {
    job: Job,
    g: u16,
    sheet: Vec<u8>,
    list_words: usize,
    q: usize,
}

impl Laid {
    fn new(pieces: &[Piece], r: u16, n: u16, g: u16, q: usize) -> Laid {
        let job = Job {
            figures: Figures {
                width: WIDTH,
                resolution: r,
                columns: n,
            },
            pieces: pieces.to_vec(),
        };
        Laid {
            sheet: job.sheet(),
            list_words: list_words(pieces).len(),
            job,
            g,
            q,
        }
    }

    fn strip_words(&self) -> usize {
        5 + usize::from(self.job.figures.columns) + 4 * self.q
    }
}

/// The entries of a job.
type Entries = Vec<[u16; 4]>;

/// The plain program: the sheet read, every piece of it asked about, then each of
/// them placed.
fn by_plain(laid: &Laid) -> (Entries, Board) {
    let mut list = vec![0; laid.list_words];
    let of = plain_sheet::read(&laid.sheet, &mut list).expect("a sound sheet");
    let mut board = Board::open(of.width, of.resolution, of.columns, laid.g, laid.q);
    let mut entries = Vec::new();
    let mut rest = &list[1..];
    while let [vertices, mask, words @ ..] = rest {
        let (outline, after) = words.split_at(2 * usize::from(*vertices));
        entries.push(match board.place_sound(outline, *mask, WORK) {
            Ok(at) => [0, at.turn, at.column, at.height],
            Err(refusal) => [refusal.number, 0, 0, 0],
        });
        rest = after;
    }
    (entries, board)
}

/// The buffers that are lent to the engine.
struct Lent {
    strip: Vec<u16>,
    output: Vec<u16>,
    work: Vec<u16>,
}

fn by_engine(laid: &Laid, lent: &mut Lent) -> Totals {
    engine::lay(
        &laid.sheet,
        laid.g,
        &mut lent.strip,
        &mut lent.output,
        &mut lent.work,
    )
    .expect("a sound sheet")
}

/// The cells of each piece in each allowed turn.
fn cover_all(laid: &Laid, output: &mut [u16]) {
    for piece in &laid.job.pieces {
        for turn in (0..4).filter(|turn| piece.mask >> turn & 1 == 1) {
            let r = laid.job.figures.resolution;
            let runs = engine::cover(&piece.outline, turn, r, laid.g, output);
            assert!(runs.is_ok());
        }
    }
}

/// Least microseconds of reading the sheet, and of covering all pieces.
fn parts(laid: &Laid) -> (f64, f64) {
    let mut list = vec![0; laid.list_words];
    let mut output = vec![0; WORK];
    let (mut read, mut cover) = (f64::MAX, f64::MAX);
    for _ in 0..10 {
        let start = Instant::now();
        assert!(engine::read(&laid.sheet, &mut list).is_ok());
        read = read.min(microseconds(start));
        let start = Instant::now();
        cover_all(laid, &mut output);
        cover = cover.min(microseconds(start));
    }
    (read, cover)
}

fn microseconds(start: Instant) -> f64 {
    1e6 * start.elapsed().as_secs_f64()
}

/// The rounds of the two take turns, so that what else the machine does falls on
/// both; the least time of each counts.
fn row(name: &str, laid: &Laid) {
    let count = laid.job.pieces.len();
    let mut lent = Lent {
        strip: vec![0; laid.strip_words()],
        output: vec![0; 4 * count],
        work: vec![0; WORK],
    };
    let (mut engine, mut plain) = (f64::MAX, f64::MAX);
    let mut placed = 0;
    let begun = Instant::now();
    let mut rounds = 0;
    while rounds < 5 || (rounds < 40 && begun.elapsed().as_millis() < 1_500) {
        let start = Instant::now();
        let totals = by_engine(laid, &mut lent);
        engine = engine.min(microseconds(start));
        let start = Instant::now();
        let (entries, board) = by_plain(laid);
        plain = plain.min(microseconds(start));
        assert!(lent.output == entries.concat());
        assert!(reference::strip_runs(&lent.strip) == board.columns());
        placed = totals.placed;
        rounds += 1;
    }
    let (read, cover) = parts(laid);
    let Figures {
        resolution,
        columns,
        ..
    } = laid.job.figures;
    println!(
        "{name:9} R {resolution:3} gap {:2} mask {:2}  N {columns:4} Q {:5}  placed {placed:3} of {count:3}  engine {engine:9.0} us  plain {plain:9.0} us  ratio {:.2}  read {read:6.0} us  cover {cover:6.0} us",
        laid.g,
        laid.job.pieces[0].mask,
        laid.q,
        engine / plain
    );
}

fn pieces(file: &str, times: u16, count: usize, mask: u16) -> Vec<Piece> {
    let with_mask = |outline| Piece { outline, mask };
    let outlines = data::sound_outlines(file, times, count);
    outlines.into_iter().map(with_mask).collect()
}

fn main() {
    // Countries four times as large, to be of the counties' size.
    let jobs = [
        ("counties", data::NC_COUNTIES, 1, 25),
        ("counties", data::NC_COUNTIES, 1, 50),
        ("counties", data::NC_COUNTIES, 1, 100),
        ("countries", data::NATURAL_EARTH, 4, 200),
    ];
    for (name, file, times, count) in jobs {
        for (r, n, q) in [(100, 300, 4_000), (20, 1_500, 16_000)] {
            for mask in [1, 15] {
                let pieces = pieces(file, times, count, mask);
                row(name, &Laid::new(&pieces, r, n, 0, q));
            }
        }
    }
    // As fine as 4,096 columns allow for them.
    for mask in [1, 15] {
        let pieces = pieces(data::NC_COUNTIES, 1, 25, mask);
        row("counties", &Laid::new(&pieces, 4, 4_096, 0, 16_000));
    }
    // Copies of one piece: room for all, and for some.
    for (r, n) in [(20, 1_500), (20, 300), (4, 4_096)] {
        for mask in [1, 15] {
            let outline = WALLET.to_vec();
            let pieces = vec![Piece { outline, mask }; 100];
            row("wallets", &Laid::new(&pieces, r, n, 0, 16_000));
        }
    }
    // Five millimetres between the pieces.
    let pieces = pieces(data::NC_COUNTIES, 1, 50, 15);
    row("counties", &Laid::new(&pieces, 20, 1_500, 40, 16_000));
}
