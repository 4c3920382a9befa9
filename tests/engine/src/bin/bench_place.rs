//! Times of whole lists of place calls, open included, beside those of a plain
//! Rust program with the same walk on the same pieces, in one run, and how the time
//! grows from the first quarter of the list to the last. The strip is lent to the
//! engine at each call; the plain program keeps its own form of it. A second row of
//! times is that of a plain program which, like the engine, asks question 5 of the
//! strip's words at each call and writes them anew: beside its own form, from which
//! it is spared to make its columns. The engine's calls on buffers of bytes are
//! measured beside its own on words, and so are lists in two steps: an ask, and a
//! commit at its answer. All programs count their tries, which are printed.

use engine::plain_place::Board;
use engine::{data, plain_strip};
use reference::Tried;
use std::time::Instant;

const WIDTH: u16 = 8_000;
/// As many words as the program `lay` has.
const WORK: usize = 9_000;

struct List {
    outlines: Vec<Vec<u16>>,
    mask: u16,
    r: u16,
    n: u16,
    g: u16,
    q: usize,
}

/// The answers of one run of a list, and its microseconds after each quarter.
struct Laid {
    answers: Vec<Tried>,
    quarters: [f64; 4],
}

fn laid(list: &List, start: Instant, mut place: impl FnMut(&[u16]) -> Tried) -> Laid {
    let mut answers = Vec::with_capacity(list.outlines.len());
    let mut quarters = [0.0; 4];
    let mut before = 0.0;
    for (quarter, time) in quarters.iter_mut().enumerate() {
        let to = (quarter + 1) * list.outlines.len() / 4;
        for outline in &list.outlines[answers.len()..to] {
            answers.push(place(outline));
        }
        let now = 1e6 * start.elapsed().as_secs_f64();
        *time = now - before;
        before = now;
    }
    Laid { answers, quarters }
}

fn by_engine(list: &List, strip: &mut [u16], work: &mut [u16]) -> Laid {
    let start = Instant::now();
    assert!(engine::open(WIDTH, list.r, list.n, list.g, strip).is_ok());
    laid(list, start, |outline| {
        engine::place(strip, outline, list.mask, work)
    })
}

/// The same with every buffer as bytes. Outlines are made into bytes beforehand.
fn by_engine_on_bytes(
    list: &List,
    outlines: &[Vec<u8>],
    strip: &mut [u8],
    work: &mut [u8],
) -> Laid {
    let mut outlines = outlines.iter();
    let start = Instant::now();
    assert!(engine::open_bytes(WIDTH, list.r, list.n, list.g, strip).is_ok());
    laid(list, start, |_| {
        let outline = outlines.next().expect("one for each");
        engine::place_bytes(strip, outline, list.mask, work)
    })
}

/// The same in two steps; the microseconds of all asks and of all commits.
fn in_two_steps(list: &List, strip: &mut [u16], work: &mut [u16]) -> (Vec<Tried>, [f64; 2]) {
    let mut times = [0.0; 2];
    assert!(engine::open(WIDTH, list.r, list.n, list.g, strip).is_ok());
    let answers = list.outlines.iter().map(|outline| {
        let start = Instant::now();
        let tried = engine::ask(strip, outline, list.mask, work);
        let between = start.elapsed();
        if let Ok(position) = tried.answer {
            assert!(engine::commit(strip, outline, position, work).is_ok());
        }
        times[0] += 1e6 * between.as_secs_f64();
        times[1] += 1e6 * (start.elapsed() - between).as_secs_f64();
        tried
    });
    (answers.collect(), times)
}

fn by_plain(list: &List) -> (Laid, Board) {
    let start = Instant::now();
    let mut board = Board::open(WIDTH, list.r, list.n, list.g, list.q);
    let laid = laid(list, start, |outline| board.place(outline, list.mask, WORK));
    (laid, board)
}

fn by_plain_on_words(list: &List, strip: &mut [u16]) -> Laid {
    let start = Instant::now();
    assert!(plain_strip::open(WIDTH, list.r, list.n, list.g, strip));
    let mut board = Board::open(WIDTH, list.r, list.n, list.g, list.q);
    laid(list, start, |outline| {
        assert!(plain_strip::decode(strip).is_some());
        let tried = board.place(outline, list.mask, WORK);
        if tried.answer.is_ok() {
            plain_strip::write_columns(strip, board.columns());
        }
        tried
    })
}

/// The rounds of the programs take turns, so that what else the machine does falls on
/// all; the least time of each quarter counts.
fn row(name: &str, list: &List) {
    let mut strip = vec![0; 5 + usize::from(list.n) + 4 * list.q];
    let mut work = vec![0; WORK];
    let mut words = strip.clone();
    let (mut strip_bytes, mut work_bytes) = (vec![0; 2 * strip.len()], vec![0; 2 * WORK]);
    let bytes = |words: &Vec<u16>| words.iter().flat_map(|word| word.to_le_bytes()).collect();
    let outlines: Vec<Vec<u8>> = list.outlines.iter().map(bytes).collect();
    let (mut engine, mut plain, mut on_words) = ([f64::MAX; 4], [f64::MAX; 4], [f64::MAX; 4]);
    let (mut on_bytes, mut steps) = (f64::MAX, [f64::MAX; 2]);
    let (mut placed, mut tries) = (0, 0u64);
    let start = Instant::now();
    let mut rounds = 0;
    while rounds < 5 || (rounds < 40 && start.elapsed().as_millis() < 1_500) {
        let ours = by_engine(list, &mut strip, &mut work);
        let fourth = by_engine_on_bytes(list, &outlines, &mut strip_bytes, &mut work_bytes);
        assert!(fourth.answers == ours.answers && strip_bytes == bytes(&strip));
        on_bytes = on_bytes.min(fourth.quarters.iter().sum());
        let (answers, times) = in_two_steps(list, &mut words, &mut work);
        assert!(answers == ours.answers && words == strip);
        for (step, time) in steps.iter_mut().zip(times) {
            *step = step.min(time);
        }
        let (theirs, board) = by_plain(list);
        assert_eq!(ours.answers, theirs.answers);
        assert!(reference::strip_runs(&strip) == board.columns());
        let third = by_plain_on_words(list, &mut words);
        assert!(third.answers == ours.answers && words == strip);
        let granted = ours.answers.iter().filter(|tried| tried.answer.is_ok());
        placed = granted.count();
        tries = ours
            .answers
            .iter()
            .map(|tried| u64::from(tried.tries))
            .sum();
        for quarter in 0..4 {
            engine[quarter] = engine[quarter].min(ours.quarters[quarter]);
            plain[quarter] = plain[quarter].min(theirs.quarters[quarter]);
            on_words[quarter] = on_words[quarter].min(third.quarters[quarter]);
        }
        rounds += 1;
    }
    let sum = |quarters: [f64; 4]| -> f64 { quarters.iter().sum() };
    let (ours, theirs, third) = (sum(engine), sum(plain), sum(on_words));
    println!(
        "{name:9} R {:3} gap {:2} mask {:2}  N {:4} Q {:5}  placed {placed:3} of {:3}  tries {tries:8}  engine {:9.0} us  plain {:9.0} us  ratio {:.2}  on words {:9.0} us  ratio {:.2}  as bytes {on_bytes:9.0} us, {:.2} of words",
        list.r,
        list.g,
        list.mask,
        list.n,
        list.q,
        list.outlines.len(),
        ours,
        theirs,
        ours / theirs,
        third,
        ours / third,
        on_bytes / ours
    );
    let times = |quarters: [f64; 4]| quarters.map(|time| format!("{time:8.0}")).join(" ");
    println!("    quarters  engine {}", times(engine));
    println!("              plain  {}", times(plain));
    println!("           on words  {}", times(on_words));
    println!(
        "    in two steps  ask {:9.0} us, {:.2} of place  commit {:9.0} us, {:.2} of place",
        steps[0],
        steps[0] / ours,
        steps[1],
        steps[1] / ours
    );
}

fn main() {
    // Countries four times as large, to be of the counties' size.
    let lists = [
        ("counties", data::sound_outlines(data::NC_COUNTIES, 1, 50)),
        ("counties", data::sound_outlines(data::NC_COUNTIES, 1, 100)),
        (
            "countries",
            data::sound_outlines(data::NATURAL_EARTH, 4, 200),
        ),
    ];
    for (name, outlines) in lists {
        for (r, n, q) in [(100, 300, 4_000), (20, 1_500, 16_000)] {
            for mask in [1, 15] {
                let list = List {
                    outlines: outlines.clone(),
                    mask,
                    r,
                    n,
                    g: 0,
                    q,
                };
                row(name, &list);
            }
        }
    }
    // Five millimetres between the pieces.
    let list = List {
        outlines: data::sound_outlines(data::NC_COUNTIES, 1, 50),
        mask: 15,
        r: 20,
        n: 1_500,
        g: 40,
        q: 16_000,
    };
    row("counties", &list);
}
