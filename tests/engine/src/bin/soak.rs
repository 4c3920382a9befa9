//! So many calls of open, place, ask, commit, lay, read_path and write_path over C, one
//! after another, on good and bad input, against the reference program: each answer, the
//! tries, and each word of every buffer, which stands between two pages that cannot be read, now at
//! one, now at the other. One call in three of those on words is made on bytes, which
//! stand at odd addresses too, as paths do.
//!
//! soak [CALLS [SEED]]

use engine::guard::{End, Room, Unit};
use reference::figures::NUMBERS;
use reference::generate::{
    any_figures, any_gap, any_outline, any_path, change_words, damaged_sheet, damaged_strip, job,
    long_job, small_figures, small_gap, sound_sheet, sound_strip, tied_job, Call, CommitCall,
    Damage, MixedList, PlaceCall, Random, SheetDamage,
};
use reference::strip::LEADING;
use reference::{bytes, Figures, Position, Refusal, Totals, Tried};
use std::fmt::Debug;

/// What the calls of one kind answered.
struct Kind {
    name: &'static str,
    calls: u64,
    /// How often each number came; 0 is granted.
    numbers: [u64; NUMBERS],
    /// The tries reported with each number.
    tries: [u64; NUMBERS],
}

impl Kind {
    fn new(name: &'static str) -> Kind {
        Kind {
            name,
            calls: 0,
            numbers: [0; NUMBERS],
            tries: [0; NUMBERS],
        }
    }

    fn count<T>(&mut self, answer: &Result<T, Refusal>) {
        let number = answer.as_ref().err().map_or(0, |refusal| refusal.number);
        self.calls += 1;
        self.numbers[usize::from(number)] += 1;
    }
}

/// What place and ask, and what commit answers.
trait Outcome: PartialEq + Debug {
    fn count(&self, kind: &mut Kind);
}

impl Outcome for Tried {
    fn count(&self, kind: &mut Kind) {
        kind.count(&self.answer);
        let number = self.answer.err().map_or(0, |refusal| refusal.number);
        kind.tries[usize::from(number)] += u64::from(self.tries);
    }
}

impl Outcome for Result<(), Refusal> {
    fn count(&self, kind: &mut Kind) {
        kind.count(self);
    }
}

/// The places of the kinds among those on words, and among those on bytes.
const OPEN: usize = 0;
const PLACE: usize = 1;
const ASK: usize = 2;
const COMMIT: usize = 3;
const LAY: usize = 4;

/// A call as the engine and as the reference program have it.
type Open<T> = [fn(u16, u16, u16, u16, &mut [T]) -> Result<(), Refusal>; 2];
type Lay<T> = [fn(&[u8], u16, &mut [T], &mut [T], &mut [T]) -> Result<Totals, Refusal>; 2];
/// Of place, ask and commit. A mask or a position stands after the outline.
type LayPiece<T, X, A> = [fn(&mut [T], &[T], X, &mut [T]) -> A; 2];

/// Place, ask or commit.
struct Laying<X, A> {
    kind: usize,
    on_words: LayPiece<u16, X, A>,
    on_bytes: LayPiece<u8, X, A>,
}

const PLACING: Laying<u16, Tried> = Laying {
    kind: PLACE,
    on_words: [engine::place, reference::place],
    on_bytes: [engine::place_bytes, bytes::place_bytes],
};
const ASKING: Laying<u16, Tried> = Laying {
    kind: ASK,
    on_words: [
        |strip, outline, mask, work| engine::ask(strip, outline, mask, work),
        |strip, outline, mask, work| reference::ask(strip, outline, mask, work),
    ],
    on_bytes: [
        |strip, outline, mask, work| engine::ask_bytes(strip, outline, mask, work),
        |strip, outline, mask, work| bytes::ask_bytes(strip, outline, mask, work),
    ],
};
const COMMITTING: Laying<Position, Result<(), Refusal>> = Laying {
    kind: COMMIT,
    on_words: [engine::commit, reference::commit],
    on_bytes: [engine::commit_bytes, bytes::commit_bytes],
};

/// A room for each buffer of a call, of words or of bytes.
struct Rooms<T: Unit> {
    sheet: Room<u8>,
    strip: Room<T>,
    outline: Room<T>,
    output: Room<T>,
    work: Room<T>,
}

impl<T: Unit> Rooms<T> {
    /// With so many units to a word.
    fn new(units: usize) -> Rooms<T> {
        Rooms {
            sheet: Room::new(70_000),
            strip: Room::new(69_000 * units),
            outline: Room::new(300 * units),
            output: Room::new(1_000 * units),
            work: Room::new(10_000 * units),
        }
    }

    // Each call leaves the caller's buffers as the reference program does.

    fn open(
        &mut self,
        [ours, theirs]: Open<T>,
        [end, ..]: [End; 4],
        (figures, g): (Figures, u16),
        strip: &mut [T],
    ) -> Result<(), Refusal> {
        let Figures {
            width: w,
            resolution: r,
            columns: n,
        } = figures;
        let lent = self.strip.lend_at(end, strip);
        let answer = theirs(w, r, n, g, strip);
        assert_eq!(ours(w, r, n, g, lent), answer, "{figures:?} gap {g}");
        assert!(*lent == *strip, "strip: {figures:?} gap {g}");
        assert!(self.strip.kept_at(end, strip.len()), "{figures:?}");
        answer
    }

    fn lay_piece<X: Copy + Debug, A: PartialEq + Debug>(
        &mut self,
        [ours, theirs]: LayPiece<T, X, A>,
        [end, outline_end, work_end, _]: [End; 4],
        strip: &mut [T],
        (outline, with): (&[T], X),
        work: &mut [T],
    ) -> A {
        let length = work.len();
        let case = || format!("{with:?} work of {length} {outline:?}");
        let lent_strip = self.strip.lend_at(end, strip);
        let lent_outline = self.outline.lend_at(outline_end, outline);
        let lent_work = self.work.lend_at(work_end, work);
        let ours = ours(lent_strip, lent_outline, with, lent_work);
        let answer = theirs(strip, outline, with, work);
        assert_eq!(ours, answer, "{}", case());
        assert!(*lent_strip == *strip, "strip: {}", case());
        assert!(*lent_outline == *outline, "outline: {}", case());
        assert!(*lent_work == *work, "work: {}", case());
        let kept = self.strip.kept_at(end, strip.len())
            && self.outline.kept_at(outline_end, outline.len())
            && self.work.kept_at(work_end, length);
        assert!(kept, "beside a buffer: {}", case());
        answer
    }

    fn lay(
        &mut self,
        [ours, theirs]: Lay<T>,
        [end, sheet_end, work_end, output_end]: [End; 4],
        (sheet, g): (&[u8], u16),
        [strip, output, work]: [&mut [T]; 3],
    ) -> Result<Totals, Refusal> {
        let lent_sheet = self.sheet.lend_at(sheet_end, sheet);
        let lent_strip = self.strip.lend_at(end, strip);
        let lent_output = self.output.lend_at(output_end, output);
        let lent_work = self.work.lend_at(work_end, work);
        let ours = ours(lent_sheet, g, lent_strip, lent_output, lent_work);
        let answer = theirs(sheet, g, strip, output, work);
        assert_eq!(ours, answer, "gap {g} {sheet:?}");
        assert!(*lent_sheet == *sheet, "sheet: {sheet:?}");
        assert!(*lent_strip == *strip, "strip: {sheet:?}");
        assert!(*lent_output == *output, "output: {sheet:?}");
        assert!(*lent_work == *work, "work: {sheet:?}");
        let kept = self.sheet.kept_at(sheet_end, sheet.len())
            && self.strip.kept_at(end, strip.len())
            && self.output.kept_at(output_end, output.len())
            && self.work.kept_at(work_end, work.len());
        assert!(kept, "beside a buffer: {sheet:?}");
        answer
    }
}

/// A call that reads one buffer and writes another, in a room for each.
fn between<T: Unit, U: Unit>(
    [ours, theirs]: [fn(&[T], &mut [U]) -> Result<u32, Refusal>; 2],
    [end, output_end]: [End; 2],
    (room, output_room): (&mut Room<T>, &mut Room<U>),
    input: &[T],
    output: &mut [U],
) -> Result<u32, Refusal> {
    let lent = room.lend_at(end, input);
    let lent_output = output_room.lend_at(output_end, output);
    let answer = theirs(input, output);
    assert_eq!(ours(lent, lent_output), answer, "{input:?}");
    assert!(*lent == *input, "input: {input:?}");
    assert!(*lent_output == *output, "output: {input:?}");
    let kept = room.kept_at(end, input.len()) && output_room.kept_at(output_end, output.len());
    assert!(kept, "beside a buffer: {input:?}");
    answer
}

struct Soak {
    random: Random,
    words: Rooms<u16>,
    bytes: Rooms<u8>,
    /// On words, and on bytes.
    kinds: [[Kind; 5]; 2],
    /// Read and written.
    paths: [Kind; 2],
    /// Pieces of laid jobs, by fate; 0 is placed.
    fates: [u64; 16],
    /// Laid jobs whose used length is over 65,535.
    long: u64,
}

fn any_words(random: &mut Random, count: usize) -> Vec<u16> {
    let other = random.word(0, 65_535);
    (0..count).map(|place| other ^ place as u16).collect()
}

/// The bytes of some words, and sometimes an odd last one, which is no part of them.
fn as_bytes(random: &mut Random, words: &[u16]) -> Vec<u8> {
    let mut bytes: Vec<u8> = words.iter().flat_map(|word| word.to_le_bytes()).collect();
    if random.once_in(2) {
        bytes.push(random.word(0, 255) as u8);
    }
    bytes
}

/// The words of a buffer put back.
fn put_words(words: &mut [u16], bytes: &[u8]) {
    for (word, two) in words.iter_mut().zip(bytes.chunks_exact(2)) {
        *word = u16::from_le_bytes([two[0], two[1]]);
    }
}

/// The pieces of a sheet, some where it is refused.
fn pieces_of(sheet: &[u8]) -> usize {
    let mut list = vec![0; 26_001];
    reference::read(sheet, &mut list).map_or(3, |_| usize::from(list[0]))
}

impl Soak {
    fn new(seed: u64) -> Soak {
        let names = ["open", "place", "ask", "commit", "lay"];
        let on_bytes = [
            "open as bytes",
            "place as bytes",
            "ask as bytes",
            "commit as bytes",
            "lay as bytes",
        ];
        Soak {
            random: Random::new(seed),
            words: Rooms::new(1),
            bytes: Rooms::new(2),
            kinds: [names, on_bytes].map(|names| names.map(Kind::new)),
            paths: ["read_path", "write_path"].map(Kind::new),
            fates: [0; 16],
            long: 0,
        }
    }

    /// Whether a call is on bytes, and where its buffers stand: those of words at one
    /// page, those of bytes each at a page or one byte from it.
    fn form(&mut self) -> (bool, [End; 4]) {
        if self.random.once_in(3) {
            return (true, [(); 4].map(|()| self.random.pick(&End::ALL)));
        }
        (false, [self.random.pick(&[End::Before, End::After]); 4])
    }

    /// Opens a strip of these words with a gap; they stay where it is refused.
    fn open(&mut self, figures: (Figures, u16), strip: &mut [u16]) -> bool {
        let (on_bytes, ends) = self.form();
        let answer = if on_bytes {
            let calls = [engine::open_bytes, bytes::open_bytes];
            let mut lent = as_bytes(&mut self.random, strip);
            let answer = self.bytes.open(calls, ends, figures, &mut lent);
            put_words(strip, &lent);
            answer
        } else {
            let calls = [engine::open, reference::open];
            self.words.open(calls, ends, figures, strip)
        };
        self.kinds[usize::from(on_bytes)][OPEN].count(&answer);
        answer.is_ok()
    }

    /// One call on this strip, which is left as the reference program leaves it, with a
    /// work buffer of so many words.
    fn lay_piece<X: Copy + Debug, A: Outcome>(
        &mut self,
        call: Laying<X, A>,
        strip: &mut [u16],
        outline: &[u16],
        with: X,
        work: usize,
    ) -> A {
        let mut work = any_words(&mut self.random, work);
        let (on_bytes, ends) = self.form();
        let answer = if on_bytes {
            let [mut lent_strip, outline, mut lent_work] =
                [&*strip, outline, &*work].map(|words| as_bytes(&mut self.random, words));
            let piece = (&*outline, with);
            let (strip_bytes, work_bytes) = (&mut lent_strip, &mut lent_work);
            let calls = call.on_bytes;
            let answer = self
                .bytes
                .lay_piece(calls, ends, strip_bytes, piece, work_bytes);
            put_words(strip, &lent_strip);
            put_words(&mut work, &lent_work);
            answer
        } else {
            let piece = (outline, with);
            self.words
                .lay_piece(call.on_words, ends, strip, piece, &mut work)
        };
        assert!(work.iter().all(|&word| word == 0), "work: {outline:?}");
        answer.count(&mut self.kinds[usize::from(on_bytes)][call.kind]);
        answer
    }

    /// One call with a gap and with a strip and an output of so many words.
    fn lay(&mut self, sheet: &[u8], g: u16, strip: usize, output: usize) {
        let work = self.random.pick(&[0, 5, 60, 9_000]);
        let mut words = [strip, output, work].map(|count| any_words(&mut self.random, count));
        let (on_bytes, ends) = self.form();
        let answer = if on_bytes {
            let calls = [engine::lay_bytes, bytes::lay_bytes];
            let mut lent = words
                .each_ref()
                .map(|words| as_bytes(&mut self.random, words));
            let buffers = lent.each_mut().map(Vec::as_mut_slice);
            let answer = self.bytes.lay(calls, ends, (sheet, g), buffers);
            for (words, bytes) in words.iter_mut().zip(&lent) {
                put_words(words, bytes);
            }
            answer
        } else {
            let calls = [engine::lay, reference::lay];
            let buffers = words.each_mut().map(Vec::as_mut_slice);
            self.words.lay(calls, ends, (sheet, g), buffers)
        };
        let [_, output, work] = words;
        assert!(work.iter().all(|&word| word == 0), "work: {sheet:?}");
        self.kinds[usize::from(on_bytes)][LAY].count(&answer);
        if let Ok(totals) = answer {
            self.long += u64::from(totals.used > 65_535);
            for entry in output.chunks_exact(4).take(pieces_of(sheet)) {
                self.fates[usize::from(entry[0])] += 1;
            }
        }
    }

    /// So many calls of place, ask and commit on a strip; now and then words of it are
    /// changed on the way, and it goes on.
    fn calls_on(&mut self, strip: &mut [u16], count: usize, size: u16) {
        let mut list = MixedList::new(&mut self.random, size);
        for _ in 0..count {
            if self.random.once_in(40) && !strip.is_empty() {
                change_words(&mut self.random, strip);
            }
            match list.next_call(&mut self.random, strip) {
                Call::Place(call) => {
                    let PlaceCall {
                        outline,
                        mask,
                        work,
                    } = call;
                    let _ = self.lay_piece(PLACING, strip, &outline, mask, work);
                }
                Call::Ask(call) => {
                    let PlaceCall {
                        outline,
                        mask,
                        work,
                    } = &call;
                    let tried = self.lay_piece(ASKING, strip, outline, *mask, *work);
                    if let Ok(position) = tried.answer {
                        list.found(&call, position);
                    }
                }
                Call::Commit(call) => {
                    let CommitCall {
                        outline,
                        position,
                        work,
                    } = call;
                    let _ = self.lay_piece(COMMITTING, strip, &outline, position, work);
                }
            }
        }
    }

    /// A list from a granted open.
    fn list(&mut self) {
        let figures = small_figures(&mut self.random);
        let q = self.random.between(1, 30) as usize;
        let g = small_gap(&mut self.random, figures.resolution);
        let words = LEADING + usize::from(figures.columns) + 4 * q;
        let mut strip = any_words(&mut self.random, words);
        assert!(self.open((figures, g), &mut strip));
        let count = self.random.between(1, 20) as usize;
        self.calls_on(&mut strip, count, 9);
    }

    /// Figures of any kind, on a strip of the right length or another.
    fn any_open(&mut self) {
        let figures = any_figures(&mut self.random);
        let columns = usize::from(figures.columns.min(4_097));
        let right = LEADING + columns + 4 * self.random.between(1, 30) as usize;
        let other = self.random.index(200);
        let words = self.random.pick(&[right, right, right + 1, other]);
        let mut strip = any_words(&mut self.random, words);
        let g = any_gap(&mut self.random, figures.resolution);
        self.open((figures, g), &mut strip);
    }

    /// A strip with something wrong, or in an order that the engine does not write.
    fn any_strip(&mut self) {
        let damage = self.random.pick(&Damage::ALL);
        let mut strip = match self.random.index(3) {
            // Strips of 64,000 words take their time.
            0 if damage != Damage::TooManyRecords => damaged_strip(&mut self.random, damage),
            _ => sound_strip(&mut self.random),
        };
        self.calls_on(&mut strip, 4, 7);
    }

    /// A job on a strip and an output of the right length or another.
    fn any_job(&mut self) {
        let damage = self.random.pick(&SheetDamage::ALL);
        let sheet = match self.random.index(8) {
            0 | 1 if damage != SheetDamage::TooLong => {
                damaged_sheet(&mut self.random, damage).bytes
            }
            2 | 3 => sound_sheet(&mut self.random),
            4 | 5 => tied_job(&mut self.random).sheet(),
            _ => job(&mut self.random).sheet(),
        };
        let columns = sheet.get(8..10).map_or(1, |two| {
            u16::from_le_bytes([two[0], two[1]]).clamp(1, 4_096)
        });
        let q = self.random.between(1, 60) as usize;
        let strip = LEADING + usize::from(columns) + 4 * q;
        let output = 4 * pieces_of(&sheet);
        let other = self.random.index(output + 1);
        let output = self.random.pick(&[output, output, output + 3, other]);
        let strip = if self.random.once_in(16) {
            strip - 1
        } else {
            strip
        };
        let g = match self.random.index(8) {
            0 => any_gap(&mut self.random, 2),
            _ => small_gap(&mut self.random, 2),
        };
        self.lay(&sheet, g, strip, output);
    }

    /// A job on a long strip.
    fn long_job(&mut self) {
        let job = long_job(&mut self.random);
        let strip = LEADING + usize::from(job.figures.columns) + 4 * 2_000;
        let g = self.random.pick(&[0, 0, 1, 2]);
        self.lay(&job.sheet(), g, strip, 4 * job.pieces.len());
    }

    /// A path read to an output of any length; its outline, or any, written.
    fn any_path(&mut self) {
        let path = any_path(&mut self.random);
        let words = self.random.pick(&[0, 6, 20, 128, 128, 140]);
        let mut outline = any_words(&mut self.random, words);
        let outline = match self.read_path(&path, &mut outline) {
            Ok(words) => outline[..words as usize].to_vec(),
            Err(_) => any_outline(&mut self.random),
        };
        let right = 9 * outline.len() / 2 + 1;
        let bytes = self.random.pick(&[right, right, right - 1, 0, 600]);
        self.write_path(&outline, bytes);
    }

    fn read_path(&mut self, path: &[u8], output: &mut [u16]) -> Result<u32, Refusal> {
        let ends = [(); 2].map(|()| self.random.pick(&End::ALL));
        let (input, written) = (&mut self.bytes.sheet, &mut self.words.output);
        let calls = [engine::read_path, reference::read_path];
        let answer = between(calls, ends, (input, written), path, output);
        self.paths[0].count(&answer);
        answer
    }

    fn write_path(&mut self, outline: &[u16], bytes: usize) {
        let mut output = vec![self.random.word(0, 255) as u8; bytes];
        let ends = [(); 2].map(|()| self.random.pick(&End::ALL));
        let (input, written) = (&mut self.words.outline, &mut self.bytes.output);
        let calls = [engine::write_path, reference::write_path];
        let answer = between(calls, ends, (input, written), outline, &mut output);
        self.paths[1].count(&answer);
    }

    fn all_kinds(&self) -> impl Iterator<Item = &Kind> {
        self.kinds.iter().flatten().chain(&self.paths)
    }

    fn calls(&self) -> u64 {
        self.all_kinds().map(|kind| kind.calls).sum()
    }
}

fn main() {
    let mut numbers = std::env::args().skip(1).map(|word| word.parse::<u64>());
    let mut next = |or: u64| {
        numbers
            .next()
            .map_or(or, |number| number.expect("a number"))
    };
    let (calls, seed) = (next(1_000_000), next(1));
    let mut soak = Soak::new(seed);
    while soak.calls() < calls {
        match soak.random.index(9) {
            0 => soak.any_open(),
            1 | 2 => soak.any_strip(),
            3 => soak.list(),
            4 => soak.any_path(),
            _ => soak.any_job(),
        }
        // The longest pieces take their time.
        if soak.random.once_in(1_000) {
            soak.long_job();
        }
    }
    println!("{} calls, seed {seed}, no difference", soak.calls());
    for kind in soak.all_kinds() {
        let came: Vec<String> = (0..NUMBERS)
            .filter(|&number| kind.numbers[number] > 0)
            .map(|number| format!("{number}: {}", kind.numbers[number]))
            .collect();
        println!("{:15} {:8}  {}", kind.name, kind.calls, came.join(", "));
    }
    for kind in soak.all_kinds().filter(|kind| kind.tries[0] > 0) {
        let [granted, no_position, no_records] = [0, 13, 14].map(|number| kind.tries[number]);
        println!(
            "{:15} tries {granted}, 13: {no_position}, 14: {no_records}",
            kind.name
        );
    }
    println!(
        "fates placed {}, 12: {}, 13: {}, 14: {}",
        soak.fates[0], soak.fates[12], soak.fates[13], soak.fates[14]
    );
    println!("used length over 65,535: {}", soak.long);
    for (kinds, share) in soak.kinds.iter().zip([1, 3]) {
        // A soak that never meets a kind of call proves nothing about it.
        let least = calls / (100 * share);
        let [open, place, ask, commit, lay] = kinds;
        let all = [
            open.calls,
            place.numbers[0],
            place.numbers[5],
            ask.numbers[0],
            ask.numbers[5],
            commit.numbers[0],
            commit.numbers[5],
            commit.numbers[18],
            lay.numbers[0],
            lay.calls - lay.numbers[0],
        ];
        assert!(all.iter().all(|&times| times > least), "too few of a kind");
        // Nor one that never meets W, R, N or a gap out of limits, or a strip with no room.
        let rarest = calls / (1_000 * share);
        let limits = &[3, 16, 17, 21][..];
        for (kind, numbers) in [
            (open, limits),
            (lay, limits),
            (place, &[13, 14]),
            (ask, &[13, 14]),
        ] {
            for &number in numbers {
                let times = kind.numbers[number];
                assert!(times >= rarest, "{} has {number} {times} times", kind.name);
            }
        }
        assert_eq!((ask.numbers[18], commit.numbers[13]), (0, 0));
        // Nor one that looks without trying, with a grant, with 13 or with 14.
        for kind in [place, ask] {
            let looked = [0, 13, 14].map(|number| kind.tries[number] > kind.numbers[number] / 2);
            assert_eq!(looked, [true; 3], "{}", kind.name);
        }
    }
    // Nor one that never meets a used length over 16 bits.
    assert!(soak.long >= calls / 100_000, "{} long", soak.long);
    // Nor one that never meets a path that is granted, or one of the refusals.
    let numbers = [&[0, 15, 19, 20], &[0, 7, 8, 15]];
    for (kind, numbers) in soak.paths.iter().zip(numbers) {
        for &number in numbers {
            let times = kind.numbers[number];
            let rarest = calls / 2_000;
            assert!(times >= rarest, "{} has {number} {times} times", kind.name);
        }
    }
}
