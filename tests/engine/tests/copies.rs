//! No call stores a turned outline (S-6).
//!
//! Each call runs on a stack that the test owns and that is 0 before. After it the whole
//! stack, and each buffer that was lent to be written, is searched for the outline in
//! each of the four turns: for x or y of vertices in a row, in either direction round
//! the outline, or of the left or right ends of edges in a row, as many as have 6
//! different numbers (6 vertices as a rule), as whole numbers, low byte first, at any
//! even address and any even distance of 2 to 64 bytes from one to the next. So arrays
//! of 16, 32 or 64 bits, of vertices, of edges, of x and y apart and of larger records
//! are all seen. The outlines lie some hundred units away from 0 in x and in y, so that
//! the lent words, which may be copied, are not those of turn 0.
//!
//! It cannot see what the same call has overwritten or cleared later, numbers in another
//! form (differences, products, floats, text, other packings), fewer numbers in a row,
//! and registers. Therefore there are calls that are refused at one question or another,
//! which end soon after what they have last done with the outline. The programs `draw`
//! and `sheet` are not run here. `tests/copies` looks at the source.

use engine::stack::Stack;
use reference::figures::NUMBERS;
use reference::generate::Random;
use reference::outline::{edges, turned, vertices, Edge, Vertex};
use reference::sheet::list_words;
use reference::strip::LEADING;
use reference::{Figures, Piece, Refusal};
use std::collections::HashMap;
use std::hint::black_box;

/// More than the header says that any call needs here.
const STACK: usize = 1 << 19;

/// So many different numbers in a row. With fewer a row may stand in memory by chance:
/// edges have two ends at a vertex, and runs go up and down, too.
const DIFFERENT: usize = 6;

/// The greatest distance from one to the next, in words.
const FARTHEST: isize = 32;

/// Numbers of a turned outline, one for each vertex or edge, closed from last to first.
struct Round {
    name: String,
    numbers: Vec<u16>,
}

/// What is looked for of an outline, turned in this way.
fn rounds(corners: &[Vertex], way: &str) -> Vec<Round> {
    let sides = edges(corners);
    let of_vertices = |name: &str, number: fn(&Vertex) -> i64| Round {
        name: format!("{name} {way}"),
        numbers: corners.iter().map(|at| number(at) as u16).collect(),
    };
    let of_edges = |name: &str, number: fn(&Edge) -> i64| Round {
        name: format!("{name} {way}"),
        numbers: sides.iter().map(|edge| number(edge) as u16).collect(),
    };
    vec![
        of_vertices("x", |at| at.0),
        of_vertices("y", |at| at.1),
        of_edges("x of left ends", |edge| edge.left.0),
        of_edges("y of left ends", |edge| edge.left.1),
        of_edges("x of right ends", |edge| edge.right.0),
        of_edges("y of right ends", |edge| edge.right.1),
    ]
}

fn turned_rounds(outline: &[u16]) -> Vec<Round> {
    let in_turn = |turn| {
        rounds(
            &turned(&vertices(outline), turn),
            &format!("in turn {turn}"),
        )
    };
    (0..4).flat_map(in_turn).collect()
}

/// Where each number of the rounds stands in memory, but for 0, which is everywhere.
fn places(memory: &[u16], wanted: &[Round]) -> HashMap<u16, Vec<usize>> {
    let mut is_wanted = vec![false; 1 << 16];
    for &number in wanted.iter().flat_map(|round| &round.numbers) {
        is_wanted[usize::from(number)] = number != 0;
    }
    let mut places: HashMap<u16, Vec<usize>> = HashMap::new();
    for (place, &number) in memory.iter().enumerate() {
        if is_wanted[usize::from(number)] {
            places.entry(number).or_default().push(place);
        }
    }
    places
}

impl Round {
    /// The row from this number on, if there are so many different numbers.
    fn row(&self, first: usize) -> Option<Vec<u16>> {
        let mut row: Vec<u16> = Vec::new();
        let mut different = 0;
        for &number in self.numbers[first..].iter().chain(&self.numbers[..first]) {
            different += usize::from(!row.contains(&number));
            row.push(number);
            if different == DIFFERENT {
                return Some(row);
            }
        }
        None
    }
}

/// Whether the row stands in memory at this distance from one to the next, number k of
/// it at this place.
fn stands(memory: &[u16], row: &[u16], k: usize, place: usize, distance: isize) -> bool {
    (0..row.len()).all(|j| {
        let at = place as isize + (j as isize - k as isize) * distance;
        usize::try_from(at).is_ok_and(|at| memory.get(at) == Some(&row[j]))
    })
}

/// The first row of a turned outline that is found in memory, in words.
fn find(memory: &[u16], wanted: &[Round]) -> Option<String> {
    let places = places(memory, wanted);
    let none = Vec::new();
    let at = |number: u16| places.get(&number).unwrap_or(&none);
    for round in wanted {
        for first in 0..round.numbers.len() {
            let Some(row) = round.row(first) else {
                continue;
            };
            // Search from the rarest number that is not 0.
            let not_zero = (0..row.len()).filter(|&k| row[k] != 0);
            let k = not_zero
                .min_by_key(|&k| at(row[k]).len())
                .expect("not all 0");
            for &place in at(row[k]) {
                for distance in (-FARTHEST..=FARTHEST).filter(|&distance| distance != 0) {
                    if stands(memory, &row, k, place, distance) {
                        let (name, words) = (&round.name, memory.len());
                        return Some(format!(
                            "{name}, {row:?} from {first} on, every {distance} words, \
                             number {k} of them at word {place} of {words}"
                        ));
                    }
                }
            }
        }
    }
    None
}

/// A simple outline round a point, with its vertices at any distance from that point.
fn star(random: &mut Random, count: usize) -> Vec<u16> {
    let (x, y) = (random.between(4_000, 9_000), random.between(4_000, 9_000));
    let start = random.between(0, 999) as f64;
    let round = if random.once_in(2) { 1.0 } else { -1.0 };
    (0..count)
        .flat_map(|i| {
            let far = random.between(1_300, 3_500) as f64;
            let turned = round * (i as f64 + start / 1_000.0) / count as f64;
            let angle = turned * std::f64::consts::TAU;
            [
                x + (far * angle.cos()) as i64,
                y + (far * angle.sin()) as i64,
            ]
        })
        .map(|number| number as u16)
        .collect()
}

/// Vertices anywhere: question 10 gets "no".
fn tangle(random: &mut Random, count: usize) -> Vec<u16> {
    (0..2 * count).map(|_| random.word(500, 8_000)).collect()
}

/// A way and the same way back: question 11 gets "no".
fn there_and_back(random: &mut Random, count: usize) -> Vec<u16> {
    let there = star(random, count / 2 + 1);
    let back = there.chunks_exact(2).rev().skip(1).take(count / 2 - 1);
    there.iter().chain(back.flatten()).copied().collect()
}

fn bytes(words: &[u16]) -> Vec<u8> {
    words.iter().flat_map(|word| word.to_le_bytes()).collect()
}

fn words(bytes: &[u8]) -> Vec<u16> {
    let pairs = bytes.chunks_exact(2);
    pairs
        .map(|pair| u16::from_le_bytes([pair[0], pair[1]]))
        .collect()
}

/// What a work buffer or an output holds before a call: no coordinate.
const BEFORE: u16 = 60_000;

const MASKS: [u16; 5] = [1, 2, 4, 8, 15];

/// The engine's calls, each on a stack that is searched after it.
struct Watch {
    random: Random,
    stack: Stack,
    wanted: Vec<Round>,
    /// The calls by the number that they answered.
    numbers: [u32; NUMBERS],
}

impl Watch {
    fn new(seed: u64) -> Watch {
        Watch {
            random: Random::new(seed),
            stack: Stack::new(STACK),
            wanted: Vec::new(),
            numbers: [0; NUMBERS],
        }
    }

    fn call<A: Send>(
        &mut self,
        what: &str,
        call: impl FnOnce() -> Result<A, Refusal> + Send,
    ) -> Result<A, Refusal> {
        let answer = self.stack.run(call);
        self.search(what, "stack", self.stack.left());
        let number = answer.as_ref().map_or_else(|no| no.number, |_| 0);
        self.numbers[usize::from(number)] += 1;
        answer
    }

    fn search(&self, what: &str, name: &str, memory: &[u16]) {
        if let Some(found) = find(memory, &self.wanted) {
            panic!("a turned outline in the {name} of {what}: {found}");
        }
    }

    fn figures(&mut self) -> Figures {
        let resolution = self.random.word(20, 400);
        // Four pieces have room as a rule, and a fifth has none.
        Figures {
            width: 16_000,
            resolution,
            columns: 15_000 / resolution,
        }
    }

    fn gap(&mut self) -> u16 {
        if self.random.once_in(2) {
            0
        } else {
            self.random.word(1, 400)
        }
    }

    /// A strip with nothing on it, with room for thousands of runs or for few.
    fn opened(&mut self, g: u16) -> Vec<u16> {
        let figures = self.figures();
        let records = if self.random.once_in(6) { 300 } else { 6_000 };
        let mut strip = vec![0; LEADING + usize::from(figures.columns) + 4 * records];
        let (w, r, n) = (figures.width, figures.resolution, figures.columns);
        engine::open(w, r, n, g, &mut strip).expect("opened");
        strip
    }

    /// A work buffer: long enough as a rule, and else too short for all runs or for one.
    fn work(&mut self) -> Vec<u16> {
        let length = match self.random.index(12) {
            0 => self.random.index(3),
            1 => self.random.index(300),
            _ => 9_000,
        };
        vec![BEFORE; length]
    }

    fn covers(&mut self, outline: &[u16]) {
        self.wanted = turned_rounds(outline);
        let (r, g) = (self.random.word(10, 400), self.gap());
        for turn in 0..4 {
            for length in [20_000, 2] {
                let mut output = vec![BEFORE; length];
                let _ = self.call("cover", || engine::cover(outline, turn, r, g, &mut output));
                self.search("cover", "output", &output);
            }
        }
        let _ = self.call("retrace", || engine::retrace(outline));
    }

    fn places(&mut self, outline: &[u16]) {
        self.wanted = turned_rounds(outline);
        let g = self.gap();
        let mut strip = self.opened(g);
        for mask in MASKS {
            let mut work = self.work();
            let spot = self.call("ask", || {
                engine::ask(&strip, outline, mask, &mut work).answer
            });
            self.search("ask", "work buffer", &work);
            if let Ok(position) = spot {
                let (mut strip, mut work) = (strip.clone(), self.work());
                let _ = self.call("commit", || {
                    engine::commit(&mut strip, outline, position, &mut work)
                });
                self.search("commit", "strip", &strip);
                self.search("commit", "work buffer", &work);
            }
            let mut work = self.work();
            let _ = self.call("place", || {
                engine::place(&mut strip, outline, mask, &mut work).answer
            });
            self.search("place", "strip", &strip);
            self.search("place", "work buffer", &work);
        }
    }

    fn places_bytes(&mut self, outline: &[u16]) {
        self.wanted = turned_rounds(outline);
        let g = self.gap();
        let mut strip = bytes(&self.opened(g));
        let lent = bytes(outline);
        for mask in MASKS {
            let mut work = bytes(&self.work());
            let spot = self.call("ask_bytes", || {
                engine::ask_bytes(&strip, &lent, mask, &mut work).answer
            });
            self.search("ask_bytes", "work buffer", &words(&work));
            if let Ok(position) = spot {
                let (mut strip, mut work) = (strip.clone(), bytes(&self.work()));
                let _ = self.call("commit_bytes", || {
                    engine::commit_bytes(&mut strip, &lent, position, &mut work)
                });
                self.search("commit_bytes", "strip", &words(&strip));
                self.search("commit_bytes", "work buffer", &words(&work));
            }
            let mut work = bytes(&self.work());
            let _ = self.call("place_bytes", || {
                engine::place_bytes(&mut strip, &lent, mask, &mut work).answer
            });
            self.search("place_bytes", "strip", &words(&strip));
            self.search("place_bytes", "work buffer", &words(&work));
        }
    }

    /// Written as a sheet, read from it, and laid from it, also on bytes.
    fn job(&mut self, pieces: &[Piece]) {
        let outlines = pieces.iter().map(|piece| &piece.outline);
        self.wanted = outlines
            .flat_map(|outline| turned_rounds(outline))
            .collect();
        let (figures, g) = (self.figures(), self.gap());
        let list = list_words(pieces);
        let mut sheet = vec![0; 16 + 6 * list.len()];
        let size = self.call("write", || engine::write(figures, &list, &mut sheet));
        self.search("write", "output", &words(&sheet));
        // A sheet that is not written is made by the reference program, so that it is read and laid too.
        match size {
            Ok(size) => sheet.truncate(size as usize),
            Err(_) => sheet = reference::generate::SheetPlan::in_order(figures, pieces).bytes(),
        }
        let mut output = vec![BEFORE; list.len()];
        let _ = self.call("read", || engine::read(&sheet, &mut output));
        self.search("read", "output", &output);

        let strip = vec![BEFORE; LEADING + usize::from(figures.columns) + 4 * 6_000];
        let output = vec![BEFORE; 4 * pieces.len()];
        let work = self.work();
        {
            let (mut strip, mut output, mut work) = (strip.clone(), output.clone(), work.clone());
            let _ = self.call("lay", || {
                engine::lay(&sheet, g, &mut strip, &mut output, &mut work)
            });
            self.search("lay", "strip", &strip);
            self.search("lay", "output", &output);
            self.search("lay", "work buffer", &work);
        }
        let (mut strip, mut output, mut work) = (bytes(&strip), bytes(&output), bytes(&work));
        let _ = self.call("lay_bytes", || {
            engine::lay_bytes(&sheet, g, &mut strip, &mut output, &mut work)
        });
        self.search("lay_bytes", "strip", &words(&strip));
        self.search("lay_bytes", "output", &words(&output));
        self.search("lay_bytes", "work buffer", &words(&work));
    }

    fn count(&mut self) -> usize {
        2 * self.random.pick(&[6, 7, 10, 16, 25, 32])
    }
}

fn came(numbers: [u32; NUMBERS], wanted: &[usize]) {
    println!("numbers {numbers:?}");
    for &number in wanted {
        assert!(numbers[number] > 5, "{number}: {numbers:?}");
    }
}

/// So often each, with outlines of each kind.
const TIMES: usize = 8;

#[test]
fn cover() {
    let mut watch = Watch::new(61);
    for _ in 0..4 * TIMES {
        let count = watch.count();
        for make in [star, star, tangle, there_and_back] {
            let outline = make(&mut watch.random, count);
            watch.covers(&outline);
        }
    }
    came(watch.numbers, &[0, 10, 11, 12]);
}

#[test]
fn place_ask_and_commit() {
    let mut watch = Watch::new(62);
    for _ in 0..TIMES {
        let count = watch.count();
        for make in [star, star, star, tangle, there_and_back] {
            let outline = make(&mut watch.random, count);
            watch.places(&outline);
        }
    }
    came(watch.numbers, &[0, 10, 11, 12, 13, 14]);
}

#[test]
fn place_ask_and_commit_on_bytes() {
    let mut watch = Watch::new(63);
    for _ in 0..TIMES / 2 {
        let count = watch.count();
        for make in [star, star, star, tangle, there_and_back] {
            let outline = make(&mut watch.random, count);
            watch.places_bytes(&outline);
        }
    }
    came(watch.numbers, &[0, 10, 11, 12, 13]);
}

#[test]
fn read_write_and_lay() {
    let mut watch = Watch::new(64);
    for i in 0..6 * TIMES {
        let mut pieces = Vec::new();
        for _ in 0..watch.random.between(1, 6) {
            let count = watch.count();
            let outline = star(&mut watch.random, count);
            let mask = watch.random.pick(&MASKS);
            pieces.push(Piece { outline, mask });
        }
        // The last piece is wrong in some: the calls are refused when they come to it.
        if i % 4 < 2 {
            let count = watch.count();
            let make = [tangle, there_and_back][i % 4];
            pieces.last_mut().expect("a piece").outline = make(&mut watch.random, count);
        }
        watch.job(&pieces);
    }
    came(watch.numbers, &[0, 10, 11]);
}

/// A turned outline in an array of its own, in one form or another.
type Store = fn(&[Vertex]);

fn store_vertices(outline: &[Vertex]) {
    let mut kept = [0u16; 128];
    for (i, &(x, y)) in outline.iter().enumerate() {
        kept[2 * i] = x as u16;
        kept[2 * i + 1] = y as u16;
    }
    black_box(&mut kept);
}

fn store_x(outline: &[Vertex]) {
    let mut kept = [0u32; 64];
    for (i, &(x, _)) in outline.iter().enumerate() {
        kept[i] = x as u32;
    }
    black_box(&mut kept);
}

fn store_y_backwards(outline: &[Vertex]) {
    let mut kept = [0u16; 64];
    for (i, &(_, y)) in outline.iter().rev().enumerate() {
        kept[i] = y as u16;
    }
    black_box(&mut kept);
}

fn store_edges(outline: &[Vertex]) {
    let mut kept = [[0u64; 4]; 64];
    for (i, &(x, y)) in outline.iter().enumerate() {
        let (x2, y2) = outline[(i + 1) % outline.len()];
        let edge = if x <= x2 {
            [x, y, x2, y2]
        } else {
            [x2, y2, x, y]
        };
        kept[i] = edge.map(|number| number as u64);
    }
    black_box(&mut kept);
}

/// Records of 64 bytes, with y in the last two.
fn store_records(outline: &[Vertex]) {
    let mut kept = [[0u16; 32]; 64];
    for (i, &(_, y)) in outline.iter().enumerate() {
        kept[i][31] = y as u16;
    }
    black_box(&mut kept);
}

/// No more than is looked for.
fn store_six(outline: &[Vertex]) {
    let mut kept = [0u16; 2 * DIFFERENT];
    for (i, &(x, y)) in outline[3..3 + DIFFERENT].iter().enumerate() {
        kept[2 * i] = x as u16;
        kept[2 * i + 1] = y as u16;
    }
    black_box(&mut kept);
}

/// Each vertex is read, and none is stored.
fn store_none(outline: &[Vertex]) {
    for &(x, y) in outline {
        black_box((x as u16, y as u16));
    }
}

/// The search fails where it should: each turn of an outline, stored in each form.
#[test]
fn what_is_stored_is_found() {
    let mut random = Random::new(65);
    let mut stack = Stack::new(STACK);
    let stores: [Store; 6] = [
        store_vertices,
        store_x,
        store_y_backwards,
        store_edges,
        store_records,
        store_six,
    ];
    for count in [12, 33, 64] {
        let outline = star(&mut random, count);
        let wanted = turned_rounds(&outline);
        for turn in 0..4 {
            let corners = turned(&vertices(&outline), turn);
            for (i, store) in stores.into_iter().enumerate() {
                stack.run(|| store(black_box(&corners)));
                let found = find(stack.left(), &wanted);
                assert!(found.is_some(), "form {i} in turn {turn} is not found");
            }
            stack.run(|| store_none(black_box(&corners)));
            assert_eq!(find(stack.left(), &wanted), None);
        }
        // The lent words may be copied.
        let lent = vertices(&outline);
        stack.run(|| store_vertices(black_box(&lent)));
        assert_eq!(find(stack.left(), &wanted), None);
    }
}

/// So is what the engine itself stores: the lent words, where a call takes them from
/// bytes or from a sheet.
#[test]
fn lent_words_are_found() {
    let mut watch = Watch::new(67);
    for _ in 0..10 {
        let count = watch.count();
        let outline = star(&mut watch.random, count);
        let as_lent = rounds(&vertices(&outline), "as lent");
        let found = |stack: &Stack, what: &str| {
            let found = find(stack.left(), &as_lent);
            assert!(found.is_some(), "the outline of {what} is not found");
        };

        let (g, lent) = (watch.gap(), bytes(&outline));
        let mut strip = bytes(&watch.opened(g));
        let mut work = [0; 18_000];
        let stack = &mut watch.stack;
        let asked = stack.run(|| engine::ask_bytes(&strip, &lent, 15, &mut work).answer);
        found(stack, "ask_bytes");
        let position = asked.expect("a position");
        let mut copy = strip.clone();
        let done = stack.run(|| engine::commit_bytes(&mut copy, &lent, position, &mut work));
        done.expect("committed");
        found(stack, "commit_bytes");
        stack.run(|| engine::place_bytes(&mut strip, &lent, 15, &mut work));
        found(stack, "place_bytes");

        let figures = watch.figures();
        let pieces = [Piece { outline, mask: 15 }];
        let sheet = reference::generate::SheetPlan::in_order(figures, &pieces).bytes();
        let mut strip = vec![0; LEADING + usize::from(figures.columns) + 4 * 6_000];
        let (mut list, mut output, mut work) = ([0; 131], [0; 4], [0; 9_000]);
        let stack = &mut watch.stack;
        stack.run(|| engine::read(&sheet, &mut list).expect("read"));
        found(stack, "read");
        stack.run(|| engine::lay(&sheet, g, &mut strip, &mut output, &mut work).expect("laid"));
        found(stack, "lay");
    }
}

/// Every distance from one number to the next, forwards and backwards, anywhere in a
/// buffer; no longer one, and no row of fewer.
#[test]
fn every_distance_is_searched() {
    let mut random = Random::new(66);
    for distance in 1..=33 {
        for turn in 0..4 {
            let outline = star(&mut random, 20);
            let wanted = turned_rounds(&outline);
            let mut numbers: Vec<u16> = turned(&vertices(&outline), turn)
                .iter()
                .map(|&(x, y)| if distance % 2 == 0 { x } else { y } as u16)
                .collect();
            numbers.rotate_left(random.index(20));
            if random.once_in(2) {
                numbers.reverse();
            }
            for count in [DIFFERENT - 1, DIFFERENT] {
                let mut memory = vec![BEFORE; 6 * 33];
                let start = random.index(33);
                for (j, &number) in numbers[..count].iter().enumerate() {
                    memory[start + j * distance] = number;
                }
                let found = find(&memory, &wanted).is_some();
                let expected = count == DIFFERENT && distance as isize <= FARTHEST;
                assert_eq!(found, expected, "{count} every {distance} words");
            }
        }
    }
}
