//! Open, place, ask, commit and lay on buffers of bytes against the reference program,
//! and beside the calls on words: answer, tries and every byte of every buffer. Buffers stand
//! at a page that cannot be read or one byte from it, so at even and at odd addresses,
//! and their lengths are even and odd.

use engine::guard::{End, Room};
use reference::bytes::{ask_bytes, commit_bytes, lay_bytes, open_bytes, place_bytes};
use reference::figures::{no, Piece, NUMBERS};
use reference::generate::outlines::zigzag_of;
use reference::generate::{
    any_figures, any_gap, any_mask, any_outline, any_turn, change_words, damaged_sheet,
    damaged_strip, job, long_job, small_figures, small_gap, sound_outline, sound_sheet,
    sound_strip, strip_with, tied_job, Call, CommitCall, Damage, Job, MixedList, PlaceCall, Random,
    SheetDamage, SheetPlan, StripFigures,
};
use reference::{runs, Figures, Position, Refusal, Totals, Tried};
use std::fmt::Debug;

/// A buffer of bytes between two pages that cannot be read.
struct Buffer {
    room: Room<u8>,
    end: End,
    length: usize,
    /// How often it stood at an even and at an odd address.
    addresses: [u32; 2],
    /// How often its length was even and odd.
    lengths: [u32; 2],
}

impl Buffer {
    fn new(most: usize) -> Buffer {
        Buffer {
            room: Room::new(most),
            end: End::Before,
            length: 0,
            addresses: [0; 2],
            lengths: [0; 2],
        }
    }

    fn lend(&mut self, random: &mut Random, held: &[u8]) -> &mut [u8] {
        self.end = random.pick(&End::ALL);
        self.length = held.len();
        self.lengths[self.length % 2] += 1;
        let lent = self.room.lend_at(self.end, held);
        self.addresses[lent.as_ptr().addr() % 2] += 1;
        lent
    }

    /// Whether the bytes beside it stayed.
    fn kept(&self) -> bool {
        self.room.kept_at(self.end, self.length)
    }
}

/// How often each number came; 0 is granted.
type Numbers = [u32; NUMBERS];

/// Each of these numbers came at least so often.
fn came(all: &Numbers, least: u32, numbers: &[usize]) {
    for &number in numbers {
        let times = all[number];
        assert!(times >= least, "{number} came {times} times");
    }
}

/// Place, ask and commit on bytes or words: a mask or a position stands after the
/// outline.
type Laying<U, X, A> = fn(&mut [U], &[U], X, &mut [U]) -> A;

/// One of them in each program.
struct Programs<X, A> {
    engine: Laying<u8, X, A>,
    reference: Laying<u8, X, A>,
    on_words: Laying<u16, X, A>,
}

/// The engine beside the reference program, and beside itself on words.
struct Both {
    random: Random,
    sheet: Buffer,
    outline: Buffer,
    strip: Buffer,
    output: Buffer,
    work: Buffer,
    calls: u32,
    /// Of open, place and lay.
    numbers: Numbers,
    asks: Numbers,
    commits: Numbers,
    /// The tries of the places and asks with each number.
    tries: [u64; NUMBERS],
}

/// The gap, and the bytes of the buffers lent to lay.
#[derive(Clone, Copy, Debug)]
struct Lengths {
    g: u16,
    strip: usize,
    output: usize,
    work: usize,
}

fn number<T>(answer: &Result<T, Refusal>) -> usize {
    answer.as_ref().map_or_else(|no| no.number.into(), |_| 0)
}

/// What a buffer holds before a call: no byte is 0, so that a byte cleared shows.
fn other_bytes(count: usize) -> Vec<u8> {
    (0..count).map(|place| 1 + (place % 251) as u8).collect()
}

fn bytes(words: &[u16]) -> Vec<u8> {
    words.iter().flat_map(|word| word.to_le_bytes()).collect()
}

/// The words of a buffer, without an odd last byte.
fn words(bytes: &[u8]) -> Vec<u16> {
    (0..bytes.len() / 2)
        .map(|place| u16::from(bytes[2 * place]) + 256 * u16::from(bytes[2 * place + 1]))
        .collect()
}

/// What a message shows of a buffer.
fn shown(bytes: &[u8]) -> &[u8] {
    &bytes[..bytes.len().min(300)]
}

impl Both {
    fn new(seed: u64) -> Both {
        Both {
            random: Random::new(seed),
            sheet: Buffer::new(70_000),
            outline: Buffer::new(200_001),
            strip: Buffer::new(400_001),
            output: Buffer::new(10_001),
            work: Buffer::new(4_000_001),
            calls: 0,
            numbers: [0; NUMBERS],
            asks: [0; NUMBERS],
            commits: [0; NUMBERS],
            tries: [0; NUMBERS],
        }
    }

    fn count<T>(&mut self, answer: &Result<T, Refusal>) {
        self.calls += 1;
        self.numbers[number(answer)] += 1;
    }

    /// Opens a strip of so many bytes with a gap.
    fn open(&mut self, figures: Figures, g: u16, length: usize) -> Result<(), Refusal> {
        let Figures {
            width: w,
            resolution: r,
            columns: n,
        } = figures;
        let before = other_bytes(length);
        let mut after = before.clone();
        let answer = open_bytes(w, r, n, g, &mut after);
        let lent = self.strip.lend(&mut self.random, &before);
        let case = || format!("{figures:?} gap {g} of {length} bytes");
        assert_eq!(engine::open_bytes(w, r, n, g, lent), answer, "{}", case());
        assert!(*lent == *after, "strip: {}", case());
        assert!(self.strip.kept(), "beside the strip: {}", case());
        let mut on_words = words(&before);
        let answer_on_words = engine::open(w, r, n, g, &mut on_words);
        assert_eq!(answer_on_words, answer, "{}", case());
        assert!(on_words == words(&after), "words: {}", case());
        assert_eq!(after[length / 2 * 2..], before[length / 2 * 2..]);
        self.count(&answer);
        answer
    }

    /// One call on this strip, which is left as the reference program leaves it, with a
    /// work buffer of so many bytes.
    fn lay_piece<X: Copy + Debug, A: PartialEq + Debug>(
        &mut self,
        programs: Programs<X, A>,
        strip: &mut [u8],
        outline: &[u8],
        with: X,
        work: usize,
    ) -> A {
        let case = || {
            let (outline, strip) = (shown(outline), shown(strip));
            format!("{with:?} {outline:?} work {work} on {strip:?}")
        };
        let (mut after, mut work_after) = (strip.to_vec(), other_bytes(work));
        let answer = (programs.reference)(&mut after, outline, with, &mut work_after);
        let lent_strip = self.strip.lend(&mut self.random, strip);
        let lent_outline = self.outline.lend(&mut self.random, outline);
        let lent_work = self.work.lend(&mut self.random, &other_bytes(work));
        let ours = (programs.engine)(lent_strip, lent_outline, with, lent_work);
        assert_eq!(ours, answer, "{}", case());
        assert!(*lent_strip == *after, "strip: {}", case());
        assert!(*lent_outline == *outline, "outline: {}", case());
        assert!(*lent_work == *work_after, "work: {}", case());
        let kept = self.strip.kept() && self.outline.kept() && self.work.kept();
        assert!(kept, "beside a buffer: {}", case());

        let (mut on_words, mut work_words) = (words(strip), words(&other_bytes(work)));
        let on_words_answer =
            (programs.on_words)(&mut on_words, &words(outline), with, &mut work_words);
        assert_eq!(on_words_answer, answer, "on words: {}", case());
        assert!(on_words == words(&after), "words of the strip: {}", case());
        assert!(work_words == words(&work_after), "words: {}", case());
        strip.copy_from_slice(&after);
        answer
    }

    fn place(
        &mut self,
        strip: &mut [u8],
        outline: &[u8],
        mask: u16,
        work: usize,
    ) -> Result<Position, Refusal> {
        let programs = Programs {
            engine: engine::place_bytes,
            reference: place_bytes,
            on_words: engine::place,
        };
        let tried = self.lay_piece(programs, strip, outline, mask, work);
        self.count(&tried.answer);
        self.count_tries(tried)
    }

    fn ask(
        &mut self,
        strip: &[u8],
        outline: &[u8],
        mask: u16,
        work: usize,
    ) -> Result<Position, Refusal> {
        let programs = Programs {
            engine: |strip, outline, mask, work| engine::ask_bytes(strip, outline, mask, work),
            reference: |strip, outline, mask, work| ask_bytes(strip, outline, mask, work),
            on_words: |strip, outline, mask, work| engine::ask(strip, outline, mask, work),
        };
        let mut after = strip.to_vec();
        let tried = self.lay_piece(programs, &mut after, outline, mask, work);
        assert!(after == strip, "an ask changes no byte of the strip");
        self.asks[number(&tried.answer)] += 1;
        self.count_tries(tried)
    }

    fn count_tries(&mut self, tried: Tried) -> Result<Position, Refusal> {
        self.tries[number(&tried.answer)] += u64::from(tried.tries);
        tried.answer
    }

    fn commit(
        &mut self,
        strip: &mut [u8],
        outline: &[u8],
        position: Position,
        work: usize,
    ) -> Result<(), Refusal> {
        let programs = Programs {
            engine: engine::commit_bytes,
            reference: commit_bytes,
            on_words: engine::commit,
        };
        let answer = self.lay_piece(programs, strip, outline, position, work);
        self.commits[number(&answer)] += 1;
        answer
    }

    /// Ask, place and commit with one turn allowed, each on a strip of its own; what
    /// ask and place answer. A refused commit has their number, or 18 instead of 13.
    fn in_each_way(
        &mut self,
        strip: &[u8],
        outline: &[u8],
        turn: u16,
        work: usize,
    ) -> Result<Position, Refusal> {
        let (mut placed, mut committed) = (strip.to_vec(), strip.to_vec());
        let answer = self.ask(strip, outline, 1 << turn, work);
        assert_eq!(self.place(&mut placed, outline, 1 << turn, work), answer);
        let first = Position {
            turn,
            column: 0,
            height: 0,
        };
        let commit = self.commit(&mut committed, outline, answer.unwrap_or(first), work);
        let instead = |refusal: Refusal| match refusal.number {
            13 => no(18, 0),
            _ => refusal,
        };
        assert_eq!(commit, answer.map(|_| ()).map_err(instead));
        assert!(committed == placed);
        answer
    }

    /// Lays with buffers of so many bytes; the answer and the output.
    fn lay(&mut self, sheet: &[u8], lengths: Lengths) -> (Result<Totals, Refusal>, Vec<u8>) {
        let case = || format!("{lengths:?} for {:?}", shown(sheet));
        let (strip, output) = (other_bytes(lengths.strip), other_bytes(lengths.output));
        let work = other_bytes(lengths.work);
        let [mut strip_after, mut output_after, mut work_after] =
            [&strip, &output, &work].map(Vec::clone);
        let g = lengths.g;
        let answer = lay_bytes(
            sheet,
            g,
            &mut strip_after,
            &mut output_after,
            &mut work_after,
        );
        let lent_sheet = self.sheet.lend(&mut self.random, sheet);
        let lent_strip = self.strip.lend(&mut self.random, &strip);
        let lent_output = self.output.lend(&mut self.random, &output);
        let lent_work = self.work.lend(&mut self.random, &work);
        let ours = engine::lay_bytes(lent_sheet, g, lent_strip, lent_output, lent_work);
        assert_eq!(ours, answer, "{}", case());
        assert!(*lent_sheet == *sheet, "sheet: {}", case());
        assert!(*lent_strip == *strip_after, "strip: {}", case());
        assert!(*lent_output == *output_after, "output: {}", case());
        assert!(*lent_work == *work_after, "work: {}", case());
        let kept = self.sheet.kept() && self.strip.kept() && self.output.kept() && self.work.kept();
        assert!(kept, "beside a buffer: {}", case());

        let [mut strip, mut output, mut work] = [&strip, &output, &work].map(|bytes| words(bytes));
        let on_words = engine::lay(sheet, g, &mut strip, &mut output, &mut work);
        assert_eq!(on_words, answer, "on words: {}", case());
        assert!(
            strip == words(&strip_after),
            "words of the strip: {}",
            case()
        );
        assert!(
            output == words(&output_after),
            "words of the output: {}",
            case()
        );
        assert!(
            work == words(&work_after),
            "words of the work buffer: {}",
            case()
        );
        self.count(&answer);
        (answer, output_after)
    }

    /// Each of these numbers came at least so often.
    fn came(&self, least: u32, numbers: &[usize]) {
        println!("calls {}, numbers {:?}", self.calls, self.numbers);
        came(&self.numbers, least, numbers);
    }
}

/// Each of these buffers stood at even and at odd addresses with even and with odd
/// lengths, each at least so often.
fn both_ways(least: u32, buffers: &[&Buffer]) {
    for buffer in buffers {
        println!(
            "addresses {:?}, lengths {:?}",
            buffer.addresses, buffer.lengths
        );
        let counts = buffer.addresses.into_iter().chain(buffer.lengths);
        assert!(counts.into_iter().all(|times| times >= least));
    }
}

/// The bytes of a strip.
fn strip_bytes(n: u16, q: usize) -> usize {
    2 * (5 + usize::from(n) + 4 * q)
}

/// So many bytes; sometimes one more, which is no part of the words, or a word more
/// or less.
fn nearly(random: &mut Random, length: usize) -> usize {
    match random.index(12) {
        0 => length + 2,
        1 => length + 3,
        2 => length.saturating_sub(1),
        3 => length.saturating_sub(2),
        4..8 => length + 1,
        _ => length,
    }
}

/// With an odd last byte or without.
fn perhaps_odd(random: &mut Random, mut bytes: Vec<u8>) -> Vec<u8> {
    if random.once_in(2) {
        bytes.push(random.word(0, 255) as u8);
    }
    bytes
}

/// With over 9,000 work words the calls on bytes that lay pieces keep the words that any outline
/// needs on the stack, 3 MB, and a test's stack has 2 MB.
fn on_large_stack(test: impl FnOnce() + Send + 'static) {
    on_stack(4 << 20, test)
}

fn on_stack(size: usize, test: impl FnOnce() + Send + 'static) {
    let thread = std::thread::Builder::new().stack_size(size);
    let ended = thread.spawn(test).expect("a thread").join();
    if let Err(panic) = ended {
        std::panic::resume_unwind(panic);
    }
}

fn figures(width: u16, resolution: u16, columns: u16) -> Figures {
    Figures {
        width,
        resolution,
        columns,
    }
}

// Open

#[test]
fn open_with_any_figures() {
    let mut both = Both::new(501);
    let mut random = Random::new(502);
    for _ in 0..20_000 {
        let figures = any_figures(&mut random);
        let q = random.index(60);
        let right = strip_bytes(figures.columns.min(4_097), q);
        let length = match random.index(8) {
            0 => random.index(600),
            _ => nearly(&mut random, right),
        };
        let g = any_gap(&mut random, figures.resolution);
        both.open(figures, g, length).ok();
    }
    both.came(1_000, &[0, 3, 16, 17, 21, 4]);
    both_ways(4_000, &[&both.strip]);
}

#[test]
fn open_with_every_length() {
    let mut both = Both::new(503);
    let mut granted = 0;
    for n in 1..=20 {
        for length in 0..=300 {
            let answer = both.open(figures(300, 10, n), 300, length);
            granted += u32::from(answer.is_ok());
        }
    }
    // From 9 + N words on each fourth number of words, with an odd byte or without, up to 300 bytes.
    let fits = |n: usize| {
        let records = move |length: &usize| (length / 2).checked_sub(5 + n);
        let whole = move |words: usize| words >= 4 && words.is_multiple_of(4);
        (0..=300).filter(move |length| records(length).is_some_and(whole))
    };
    let expected = (1..=20).map(|n| fits(n).count()).sum::<usize>();
    assert_eq!(granted as usize, expected);
}

/// The longest strip has 68,101 words.
#[test]
fn strips_at_and_past_the_longest() {
    let mut both = Both::new(504);
    for n in [1, 2, 3, 4, 4_093, 4_094, 4_095, 4_096] {
        let longest = strip_bytes(n, 16_000);
        let lengths =
            (longest - 3..=longest + 12).chain([136_199, 136_205, 136_212, 150_001, 400_000]);
        for length in lengths {
            let answer = both.open(figures(16_000, 400, n), 400, length);
            assert_eq!(answer.is_ok(), length / 2 == longest / 2, "{n} {length}");
        }
    }
    both.came(16, &[0, 4]);
}

// Place, ask and commit

/// One call after another on a strip, with work buffers of every length up to what a
/// few pieces need, just enough, and more.
fn calls_on(both: &mut Both, random: &mut Random, strip: &mut [u8], count: usize) {
    let mut list = MixedList::new(random, 9);
    for _ in 0..count {
        let call = list.next_call(random, &words(strip));
        let (Call::Place(PlaceCall { outline, work, .. })
        | Call::Ask(PlaceCall { outline, work, .. })
        | Call::Commit(CommitCall { outline, work, .. })) = &call;
        let outline = perhaps_odd(random, bytes(outline));
        let work = match random.index(8) {
            0 => random.index(8),
            1 => 18_001,
            _ => nearly(random, 2 * work),
        };
        match &call {
            Call::Place(call) => {
                both.place(strip, &outline, call.mask, work).ok();
            }
            Call::Ask(call) => {
                if let Ok(position) = both.ask(strip, &outline, call.mask, work) {
                    list.found(call, position);
                }
            }
            Call::Commit(call) => {
                both.commit(strip, &outline, call.position, work).ok();
            }
        }
    }
}

#[test]
fn lists_of_calls() {
    on_large_stack(|| {
        let mut both = Both::new(511);
        let mut random = Random::new(512);
        for _ in 0..5_000 {
            let Figures {
                width: w,
                resolution: r,
                columns: n,
            } = small_figures(&mut random);
            let q = random.between(1, 30) as usize;
            let mut strip = perhaps_odd(&mut random, other_bytes(strip_bytes(n, q)));
            let g = small_gap(&mut random, r);
            assert_eq!(engine::open_bytes(w, r, n, g, &mut strip), Ok(()));
            let count = random.between(1, 20) as usize;
            calls_on(&mut both, &mut random, &mut strip, count);
        }
        both.came(30, &[0, 7, 8, 9, 10, 11, 12, 13, 14]);
        println!("asks {:?}, commits {:?}", both.asks, both.commits);
        came(&both.asks, 50, &[0, 7, 8, 9, 10, 11, 12, 13, 14]);
        came(&both.commits, 50, &[0, 7, 8, 9, 10, 11, 12, 14, 18]);
        assert_eq!((both.asks[18], both.commits[13]), (0, 0));
        println!("tries {:?}", both.tries);
        for (number, &tries) in both.tries.iter().enumerate() {
            match number {
                0 | 13 | 14 => assert!(tries > 100, "{number}: {tries}"),
                _ => assert_eq!(tries, 0, "{number}"),
            }
        }
        both_ways(2_000, &[&both.strip, &both.outline, &both.work]);
    });
}

/// Strips in any order, damaged ones, and ones with a few words or one byte changed.
#[test]
fn strips_of_every_kind() {
    on_large_stack(|| {
        let mut both = Both::new(513);
        let mut random = Random::new(514);
        for round in 0..120 {
            for damage in Damage::ALL {
                // Strips of 64,000 words are for few rounds.
                if damage == Damage::TooManyRecords && round % 20 != 0 {
                    continue;
                }
                let damaged = damaged_strip(&mut random, damage);
                let mut strip = perhaps_odd(&mut random, bytes(&damaged));
                calls_on(&mut both, &mut random, &mut strip, 2);
            }
            for _ in 0..20 {
                let mut sound = sound_strip(&mut random);
                if random.once_in(2) {
                    change_words(&mut random, &mut sound);
                }
                let mut strip = perhaps_odd(&mut random, bytes(&sound));
                if random.once_in(4) {
                    let place = random.index(strip.len());
                    strip[place] = random.word(0, 255) as u8;
                }
                calls_on(&mut both, &mut random, &mut strip, 4);
            }
        }
        both.came(50, &[0, 5, 9, 12, 13]);
        println!("asks {:?}, commits {:?}", both.asks, both.commits);
        came(&both.asks, 100, &[0, 5, 9, 12, 13]);
        came(&both.commits, 100, &[0, 5, 9, 12, 18]);
    });
}

const SQUARE: [u16; 8] = [0, 0, 4, 0, 4, 4, 0, 4];

/// Strips with 16,000 records and one more, and with words or a byte after their
/// last record. Only what is left out may be wrong with them.
#[test]
fn placing_on_the_longest_strips() {
    on_large_stack(|| {
        let mut both = Both::new(515);
        let mut random = Random::new(516);
        let square = bytes(&SQUARE);
        for (n, q, sound) in [
            (4_096, 16_000, true),
            (4_093, 16_000, true),
            (4_096, 16_001, false),
            (4_093, 16_001, false),
            (1, 17_024, false),
        ] {
            let (w, r, g) = (40, 2, 0);
            let figures = StripFigures { w, r, n, g, q };
            let runs = vec![vec![]; usize::from(n)];
            let strip = bytes(&strip_with(&mut random, figures, &runs));
            for more in [0, 1, 2, 3, 8, 9, 60_000] {
                let strip = [&strip[..], &vec![0; more]].concat();
                let answer = both.in_each_way(&strip, &square, 0, 12);
                assert_eq!(answer.is_ok(), sound && more <= 1, "N {n} Q {q} and {more}");
            }
        }
        both.came(4, &[0, 5]);
    });
}

/// Up to 64 vertices, and more whose first 64 are the outline of a piece.
#[test]
fn outlines_at_and_past_the_longest() {
    on_large_stack(|| {
        let mut both = Both::new(517);
        let figures = figures(40, 2, 10);
        let lengths = (0..=300).chain([511, 512, 1_000, 1_001, 65_536, 136_202, 200_001]);
        for length in lengths {
            let mut outline = bytes(&SQUARE);
            while outline.len() < length {
                outline.extend([0, 0, 4, 0]);
            }
            outline.truncate(length);
            let mut strip = other_bytes(strip_bytes(10, 9));
            assert_eq!(
                engine::open_bytes(40, 2, figures.columns, 0, &mut strip),
                Ok(())
            );
            let answer = both.in_each_way(&strip, &outline, 3, 600);
            assert_eq!(
                both.place(&mut strip, &outline, 15, 600).is_ok(),
                answer.is_ok()
            );
            let words = length / 2;
            let wrong_length = words % 2 == 1 || !(6..=128).contains(&words);
            assert_eq!(answer == Err(no(7, 1)), wrong_length, "{length} bytes");
        }
        both.came(30, &[0, 7]);
        both_ways(100, &[&both.outline]);
    });
}

/// So many columns of one unit, each with one run.
fn bar(columns: u16) -> Vec<u16> {
    vec![0, 0, columns, 0, columns, 1, 0, 1]
}

/// Work buffers at and past 9,000 words, 1,536,000 and 1,574,400, which is 32 runs for
/// each of 16,000 columns and of 16,400: for pieces that need less, as much, a word more
/// and a byte more.
#[test]
fn work_buffers_of_every_size() {
    on_large_stack(|| {
        let mut both = Both::new(518);
        let lengths = [
            0, 1, 17_998, 17_999, 18_000, 18_001, 18_002, 18_003, 18_005, 18_006, 18_007, 40_000,
            40_001, 3_071_998, 3_071_999, 3_072_000, 3_072_001, 3_072_002, 3_148_799, 3_148_800,
            3_148_801, 4_000_000, 4_000_001,
        ];
        for length in lengths {
            for outline in [SQUARE.to_vec(), bar(2_999), bar(3_000), bar(3_001)] {
                let mut strip = vec![7; strip_bytes(4_096, 4_000)];
                assert_eq!(engine::open_bytes(5, 1, 4_096, 0, &mut strip), Ok(()));
                let answer = both.in_each_way(&strip, &bytes(&outline), 0, length);
                let runs = usize::from(outline[2]);
                assert_eq!(
                    answer.is_ok(),
                    6 * runs <= length,
                    "{runs} runs, {length} bytes"
                );
            }
        }
        both.came(15, &[0, 12]);
        both_ways(20, &[&both.work]);
    });
}

/// A band that goes to and fro.
fn band(levels: i64, step: i64, width: i64) -> Vec<u16> {
    zigzag_of(levels, step, 1, width)
        .iter()
        .flat_map(|&(x, y)| [x as u16, y as u16])
        .collect()
}

/// Pieces of many runs: one of some thousands that is placed, and one of 495,010 that
/// is too wide for any strip.
#[test]
fn pieces_with_most_runs() {
    on_large_stack(|| {
        let mut both = Both::new(519);
        let placed = band(32, 100, 400);
        let wide = band(32, 500, 16_000);
        let some = 6 * runs(&placed, 0, 1, 0).len();
        assert!(some > 18_000);
        for (outline, length, number) in [
            (&placed, some - 2, 12),
            (&placed, some - 1, 12),
            (&placed, some, 0),
            (&placed, some + 1, 0),
            (&placed, 4_000_001, 0),
            (&wide, 6 * 495_010 - 1, 12),
            (&wide, 6 * 495_010, 13),
        ] {
            let mut strip = vec![7; strip_bytes(4_096, 16_000)];
            assert_eq!(engine::open_bytes(16_000, 1, 4_096, 0, &mut strip), Ok(()));
            let answer = both.in_each_way(&strip, &bytes(outline), 0, length);
            let came = answer.map_or_else(|no| no.number, |_| 0);
            assert_eq!(came, number, "{length} bytes");
        }
    });
}

/// A triangle of 60 columns that has no room among 16,000 runs, four in each column:
/// more tries than 16 bits hold.
#[test]
fn more_tries_than_16_bits_hold() {
    on_large_stack(|| {
        let mut both = Both::new(534);
        let (w, r, n, g, q) = (16_000, 100, 4_000, 3, 16_000);
        let columns: Vec<Vec<(u16, u16)>> = (0..n)
            .map(|column| {
                let low = (u32::from(column) * 1_597 % 3_999) as u16;
                let lows = [low, low + 4_000, low + 8_000, low + 12_000];
                lows.map(|low| (low, low + 1)).to_vec()
            })
            .collect();
        let figures = StripFigures { w, r, n, g, q };
        let strip = strip_with(&mut Random::new(535), figures, &columns);
        let triangle = bytes(&[0, 0, 6_000, 0, 6_000, 6_000]);
        let answer = both.in_each_way(&bytes(&strip), &triangle, 0, 1_801);
        assert_eq!(answer, Err(no(13, 1)));
        println!("{} tries of an ask and a place", both.tries[13]);
        assert!(both.tries[13] > 2 * 65_535);
    });
}

/// The strip of an ask cannot be written meanwhile, at even and at odd addresses.
#[test]
fn an_ask_only_reads_the_strip() {
    let mut random = Random::new(520);
    let mut room = Room::new(4_000);
    let mut granted = 0;
    for _ in 0..2_000 {
        let sound = sound_strip(&mut random);
        let strip = perhaps_odd(&mut random, bytes(&sound));
        let outline = bytes(&sound_outline(&mut random, 15, 4));
        let end = random.pick(&End::ALL);
        let tried = room.lend_to_read(end, &strip, |lent| {
            engine::ask_bytes(lent, &outline, 15, &mut [1; 600])
        });
        let expected = ask_bytes(&strip, &outline, 15, &mut [1; 600]);
        assert_eq!(tried, expected);
        granted += u32::from(tried.answer.is_ok());
    }
    assert!(granted > 500, "{granted}");
}

// Lay

/// The bytes of a strip for a sheet of any bytes, with so many records.
fn strip_bytes_of(sheet: &[u8], q: usize) -> usize {
    let columns = sheet.get(8..10).map_or(1, |two| {
        u16::from_le_bytes([two[0], two[1]]).clamp(1, 4_096)
    });
    strip_bytes(columns, q)
}

#[test]
fn jobs() {
    on_large_stack(|| {
        let mut both = Both::new(521);
        let mut random = Random::new(522);
        let mut fates = [0; 16];
        for _ in 0..8_000 {
            let job = job(&mut random);
            let sheet = SheetPlan::shuffled(&mut random, job.figures, &job.pieces, true).bytes();
            let q = random.between(1, 40) as usize;
            let right = strip_bytes(job.figures.columns, q);
            let pieces = job.pieces.len();
            let lengths = Lengths {
                g: small_gap(&mut random, job.figures.resolution),
                strip: right + random.index(2),
                output: 8 * pieces + random.pick(&[0, 1, 2, 3, 9, 1_600]),
                work: random.pick(&[0, 1, 12, 61, 120, 601, 18_000, 18_001]),
            };
            let (answer, output) = both.lay(&sheet, lengths);
            assert!(answer.is_ok());
            for entry in words(&output).chunks_exact(4).take(pieces) {
                fates[usize::from(entry[0])] += 1;
            }
        }
        println!("fates {fates:?}");
        assert!([0, 12, 13, 14].iter().all(|&fate| fates[fate] > 500));
        both_ways(2_000, &[&both.strip, &both.output, &both.work]);
        // A sheet has an even length.
        assert!(both.sheet.addresses.iter().all(|&times| times > 2_000));
    });
}

/// A gap that leaves room most often, at times any.
fn job_gap(random: &mut Random) -> u16 {
    match random.index(12) {
        0 => any_gap(random, 2),
        _ => random.word(0, 3),
    }
}

/// Sheets good and bad, cut off and with a byte more, on buffers of any length.
#[test]
fn jobs_of_any_bytes() {
    on_large_stack(|| {
        let mut both = Both::new(523);
        let mut random = Random::new(524);
        for _ in 0..60 {
            for damage in SheetDamage::ALL {
                let mut sheet = match random.index(3) {
                    0 => sound_sheet(&mut random),
                    1 => job(&mut random).sheet(),
                    // The longest sheets take their time to be made.
                    _ if damage == SheetDamage::TooLong => continue,
                    _ => damaged_sheet(&mut random, damage).bytes,
                };
                match random.index(10) {
                    0 => sheet.push(0),
                    1 => sheet.truncate(random.index(sheet.len() + 1)),
                    2 if sheet.len() > 4 => {
                        let place = 4 + random.index(sheet.len() - 4);
                        sheet[place] = random.word(0, 255) as u8;
                    }
                    _ => (),
                }
                let q = random.between(1, 20) as usize;
                let right = strip_bytes_of(&sheet, q);
                let output = random.pick(&[8, 40, 80, 1_600]);
                let lengths = Lengths {
                    g: job_gap(&mut random),
                    strip: nearly(&mut random, right),
                    output: nearly(&mut random, output),
                    work: random.index(300),
                };
                let _ = both.lay(&sheet, lengths);
            }
        }
        both.came(10, &[0, 1, 2, 3, 16, 17, 21, 4, 6, 7, 8, 9, 10, 11, 15]);
        both_ways(200, &[&both.sheet, &both.strip, &both.output, &both.work]);
    });
}

fn squares(count: usize) -> Vec<u8> {
    let piece = Piece {
        outline: SQUARE.to_vec(),
        mask: 1,
    };
    let job = Job {
        figures: figures(10, 2, 10),
        pieces: vec![piece; count],
    };
    job.sheet()
}

/// Outputs at and past what the pieces need, which is 800 words for 200 of them.
#[test]
fn outputs_of_every_size() {
    on_large_stack(|| {
        let mut both = Both::new(525);
        for pieces in [0usize, 1, 3, 199, 200] {
            let needed = 8 * pieces;
            let lengths = (needed.saturating_sub(9)..needed + 9)
                .chain(1_590..=1_610)
                .chain([5_000, 10_001]);
            for output in lengths {
                let lengths = Lengths {
                    g: 0,
                    strip: strip_bytes(10, 20),
                    output,
                    work: 100,
                };
                let (answer, _) = both.lay(&squares(pieces), lengths);
                assert_eq!(
                    answer.is_ok(),
                    output >= needed,
                    "{pieces} pieces, {output} bytes"
                );
                assert!(answer.is_ok() || answer == Err(no(15, 0)));
            }
        }
        let lengths = Lengths {
            g: 0,
            strip: strip_bytes(10, 20),
            output: 10_001,
            work: 100,
        };
        assert_eq!(both.lay(&squares(201), lengths).0, Err(no(6, 0)));
        both.came(40, &[0, 15]);
        both_ways(40, &[&both.output]);
    });
}

/// The sheet of a job for the largest strip, in columns of one unit.
fn on_the_largest(outlines: &[Vec<u16>]) -> Vec<u8> {
    let piece = |outline: &Vec<u16>| Piece {
        outline: outline.clone(),
        mask: 1,
    };
    let job = Job {
        figures: figures(16_000, 1, 4_096),
        pieces: outlines.iter().map(piece).collect(),
    };
    job.sheet()
}

#[test]
fn jobs_on_the_longest_strips() {
    on_large_stack(|| {
        let mut both = Both::new(526);
        let sheet = on_the_largest(&[SQUARE.to_vec()]);
        for strip in (136_190..=136_210).chain([136_219, 200_000, 400_001]) {
            let lengths = Lengths {
                g: 0,
                strip,
                output: 8,
                work: 60,
            };
            let (answer, _) = both.lay(&sheet, lengths);
            let words = strip / 2 - 5 - 4_096;
            let records = words.is_multiple_of(4) && words <= 4 * 16_000;
            assert_eq!(answer.is_ok(), records, "{strip} bytes");
        }
    });
}

/// Work buffers as above, for pieces of 4, 3,000 and 3,001 runs, and of 495,010.
#[test]
fn jobs_with_work_buffers_of_every_size() {
    on_large_stack(|| {
        let mut both = Both::new(527);
        let mut fates_with = |outlines: &[Vec<u16>], work: usize| {
            let lengths = Lengths {
                g: 0,
                strip: strip_bytes(4_096, 16_000),
                output: 8 * outlines.len() + 1,
                work,
            };
            let (answer, output) = both.lay(&on_the_largest(outlines), lengths);
            assert!(answer.is_ok());
            let entries = words(&output);
            let fates = entries.chunks_exact(4).map(|entry| entry[0]);
            fates.collect::<Vec<u16>>()
        };
        let three = [SQUARE.to_vec(), bar(3_000), bar(3_001)];
        for (work, fates) in [
            (0, [12, 12, 12]),
            (23, [12, 12, 12]),
            (24, [0, 12, 12]),
            (17_999, [0, 12, 12]),
            (18_000, [0, 0, 12]),
            (18_001, [0, 0, 12]),
            (18_002, [0, 0, 12]),
            (18_005, [0, 0, 12]),
            (18_006, [0, 0, 0]),
            (40_000, [0, 0, 0]),
            (3_072_001, [0, 0, 0]),
            (4_000_001, [0, 0, 0]),
        ] {
            assert_eq!(fates_with(&three, work), fates, "{work} bytes");
        }
        let wide = [band(32, 500, 16_000)];
        for (work, fate) in [(6 * 495_010 - 1, 12), (6 * 495_010, 13), (3_072_002, 13)] {
            assert_eq!(fates_with(&wide, work), [fate], "{work} bytes");
        }
    });
}

// Any of them

#[test]
fn empty_buffers() {
    on_large_stack(|| {
        let mut both = Both::new(531);
        let none = Lengths {
            g: 0,
            strip: 0,
            output: 0,
            work: 0,
        };
        for length in [0, 1] {
            let held = vec![9; length];
            assert_eq!(both.open(figures(10, 2, 10), 400, length), Err(no(4, 0)));
            assert_eq!(both.open(figures(10, 2, 10), 401, length), Err(no(21, 0)));
            assert_eq!(both.open(figures(10, 2, 0), 401, length), Err(no(17, 0)));
            assert_eq!(both.open(figures(0, 2, 10), 401, length), Err(no(3, 0)));
            let answer = both.in_each_way(&held, &held, 0, length);
            assert_eq!(answer, Err(no(5, 0)));
            let mut strip = vec![3; strip_bytes(10, 2) + length];
            assert_eq!(engine::open_bytes(10, 2, 10, 0, &mut strip), Ok(()));
            let answer = both.in_each_way(&strip, &held, 0, length);
            assert_eq!(answer, Err(no(7, 1)));
            let answer = both.in_each_way(&strip, &bytes(&SQUARE), 0, length);
            assert_eq!(answer, Err(no(12, 1)));
            assert_eq!(both.lay(&held, none).0, Err(no(1, 0)));
            assert_eq!(both.lay(&squares(0), none).0, Err(no(4, 0)));
            let over = Lengths { g: 401, ..none };
            assert_eq!(both.lay(&squares(0), over).0, Err(no(21, 0)));
            let opened = Lengths {
                g: 400,
                strip: strip.len(),
                output: length,
                work: length,
            };
            let totals = Totals { placed: 0, used: 0 };
            assert_eq!(both.lay(&squares(0), opened).0, Ok(totals));
        }
    });
}

/// Jobs whose turns end in one column or at one right edge, and on long strips.
#[test]
fn right_edges() {
    on_large_stack(|| {
        let mut both = Both::new(534);
        let mut random = Random::new(535);
        let mut over = 0;
        for round in 0..1_000 {
            let job = match round % 20 {
                0 => long_job(&mut random),
                _ => tied_job(&mut random),
            };
            let lengths = Lengths {
                g: random.pick(&[0, 0, 1, 2]),
                strip: strip_bytes(job.figures.columns, random.pick(&[20, 400])),
                output: 8 * job.pieces.len() + random.index(4),
                work: random.pick(&[2_000, 18_000]),
            };
            let (answer, _) = both.lay(&job.sheet(), lengths);
            let used = answer.expect("a sound job").used;
            over += u32::from(used > 65_535);
        }
        println!("over 65,535: {over}");
        assert!(over > 10);
    });
}

/// Any bytes at all.
#[test]
fn any_bytes() {
    on_large_stack(|| {
        let mut both = Both::new(532);
        let mut random = Random::new(533);
        let some_bytes = |random: &mut Random, most: usize| -> Vec<u8> {
            let length = random.index(most);
            let highest = random.pick(&[1, 4, 255]);
            (0..length).map(|_| random.word(0, highest) as u8).collect()
        };
        for _ in 0..3_000 {
            let mut strip = some_bytes(&mut random, 200);
            let outline = match random.index(2) {
                0 => some_bytes(&mut random, 300),
                _ => perhaps_odd(
                    &mut Random::new(random.number()),
                    bytes(&any_outline(&mut random)),
                ),
            };
            let (mask, work) = (any_mask(&mut random), random.index(50));
            both.place(&mut strip, &outline, mask, work).ok();
            both.ask(&strip, &outline, mask, work).ok();
            let position = Position {
                turn: any_turn(&mut random),
                column: random.word(0, 65_535),
                height: random.word(0, 65_535),
            };
            both.commit(&mut strip, &outline, position, work).ok();
            let sheet = some_bytes(&mut random, 200);
            let lengths = Lengths {
                g: random.word(0, 3),
                strip: random.index(300),
                output: random.index(50),
                work: random.index(50),
            };
            let _ = both.lay(&sheet, lengths);
        }
    });
}

/// What include/vikelodu.h says of the stack: with up to 9,000 work words a thread of
/// 512 KB has room. Three squares, as document 01 lays them.
#[test]
fn on_a_small_stack() {
    on_stack(512 << 10, || {
        let mut strip = vec![0; strip_bytes(10, 6)];
        let mut work = vec![0; 18_001];
        assert_eq!(engine::open_bytes(10, 2, 10, 0, &mut strip), Ok(()));
        let mut committed = strip.clone();
        for (column, height, tries) in [(0, 0, 1), (0, 4, 2), (2, 0, 3)] {
            let square = bytes(&[0, 0, 4, 0, 4, 4, 0, 4]);
            let position = Position {
                turn: 0,
                column,
                height,
            };
            let expected = Tried {
                answer: Ok(position),
                tries,
            };
            let asked = engine::ask_bytes(&committed, &square, 1, &mut work);
            assert_eq!(asked, expected);
            let answer = engine::commit_bytes(&mut committed, &square, position, &mut work);
            assert_eq!(answer, Ok(()));
            let placed = engine::place_bytes(&mut strip, &square, 1, &mut work);
            assert_eq!(placed, expected);
            assert!(committed == strip);
        }
        let mut output = vec![0; 24];
        assert_eq!(
            engine::lay_bytes(&squares(3), 0, &mut strip, &mut output, &mut work),
            Ok(Totals { placed: 3, used: 8 })
        );
    });
}
