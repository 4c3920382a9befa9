//! Lay against the reference program: answer, every word of the strip, the output
//! and the work buffer, and the sheet, with each buffer directly before a page that
//! cannot be read. The order of the strip's records is the engine's choice, and it is
//! compared too: 1, 2, 3 by column then low, the free ones after them, rising.

use engine::data;
use engine::guard::Room;
use engine::plain_place::Board;
use reference::distance::{too_close, Shape};
use reference::figures::{no, Piece, NUMBERS};
use reference::generate::outlines::{is_sound, zigzag_of};
use reference::generate::{
    any_figures, any_gap, damaged_sheet, long_job, small_figures, small_gap, sound_gap, sound_mask,
    sound_outline, sound_pieces, sound_sheet, tied_job, Job, Random, SheetDamage, SheetPlan,
};
use reference::placing::Steps;
use reference::{runs, strip_runs, Figures, Position, Refusal, Totals};

/// The gap, and the words of the buffers lent.
#[derive(Clone, Copy, Debug)]
struct Words {
    g: u16,
    strip: usize,
    output: usize,
    work: usize,
}

/// The engine beside the reference program, on one job after another.
struct Both {
    sheet: Room<u8>,
    strip: Room,
    output: Room,
    work: Room,
    jobs: u32,
    /// How often each number was the answer; 0 is granted.
    numbers: [u32; NUMBERS],
    /// How often each number was a piece's fate; 0 is placed.
    fates: [u32; NUMBERS],
    turns: [u32; 4],
}

/// What a buffer holds before a call.
fn other_words(count: usize) -> Vec<u16> {
    (0..count).map(|place| 0xA5C3 ^ place as u16).collect()
}

/// What a message shows of a sheet.
fn shown(sheet: &[u8]) -> &[u8] {
    &sheet[..sheet.len().min(600)]
}

impl Both {
    fn new() -> Both {
        Both {
            sheet: Room::new(80_000),
            strip: Room::new(69_000),
            output: Room::new(1_000),
            work: Room::new(1_500_000),
            jobs: 0,
            numbers: [0; NUMBERS],
            fates: [0; NUMBERS],
            turns: [0; 4],
        }
    }

    /// One call, on buffers whose words are other than zero.
    fn lay(&mut self, sheet: &[u8], words: Words) -> Result<Totals, Refusal> {
        let case = || format!("{words:?} for {:?}", shown(sheet));
        let (mut strip, mut output) = (other_words(words.strip), other_words(words.output));
        let mut work = other_words(words.work);
        let lent_sheet = self.sheet.lend(sheet);
        let lent_strip = self.strip.lend(&strip);
        let lent_output = self.output.lend(&output);
        let lent_work = self.work.lend(&work);
        let answer = reference::lay(sheet, words.g, &mut strip, &mut output, &mut work);
        let ours = engine::lay(lent_sheet, words.g, lent_strip, lent_output, lent_work);
        assert_eq!(ours, answer, "{}", case());
        assert_eq!(*lent_output, *output, "output: {}", case());
        assert!(*lent_strip == *strip, "strip: {}", case());
        assert!(lent_work.iter().all(|&word| word == 0), "work: {}", case());
        assert!(*lent_sheet == *sheet, "sheet: {}", case());
        let kept = self.sheet.kept_before(sheet.len())
            && self.strip.kept_before(words.strip)
            && self.output.kept_before(words.output)
            && self.work.kept_before(words.work);
        assert!(kept, "before a buffer: {}", case());
        self.jobs += 1;
        let number = answer.err().map_or(0, |refusal| refusal.number);
        self.numbers[usize::from(number)] += 1;
        answer
    }

    /// A job that passes every question: its fates are counted.
    fn granted(&mut self, job: &Job, sheet: &[u8], words: Words) -> Totals {
        let totals = self.lay(sheet, words).expect("a sound job");
        let output = self.output.held(words.output);
        let (entries, rest) = output.split_at(4 * job.pieces.len());
        for entry in entries.chunks_exact(4) {
            self.fates[usize::from(entry[0])] += 1;
            if entry[0] == 0 {
                self.turns[usize::from(entry[1])] += 1;
            }
        }
        // What stood there before.
        assert_eq!(*rest, other_words(words.output)[entries.len()..]);
        check_distances(job, entries, words.g);
        totals
    }

    /// The runs of the strip that the last call left.
    fn runs_left(&self, words: Words) -> Vec<Vec<(u16, u16)>> {
        strip_runs(self.strip.held(words.strip))
    }

    /// So many jobs were laid; each of these numbers and fates came so often.
    fn came(&self, jobs: u32, least: u32, numbers: &[usize], fates: &[usize]) {
        println!("jobs {}, turns {:?}", self.jobs, self.turns);
        println!("numbers {:?}, fates {:?}", self.numbers, self.fates);
        assert!(self.jobs >= jobs, "only {} jobs", self.jobs);
        for (counts, of) in [(&self.numbers, numbers), (&self.fates, fates)] {
            for &number in of {
                let times = counts[number];
                assert!(times >= least, "{number} came {times} times");
            }
        }
    }
}

/// "Two points inside different pieces must then differ by at least g in x or in y",
/// judged without cells; of large jobs each piece with the ten before it.
fn check_distances(job: &Job, entries: &[u16], g: u16) {
    let mut shapes: Vec<Shape> = Vec::new();
    for (piece, entry) in job.pieces.iter().zip(entries.chunks_exact(4)) {
        if entry[0] != 0 {
            continue;
        }
        let position = Position {
            turn: entry[1],
            column: entry[2],
            height: entry[3],
        };
        let shape = Shape::new(&piece.outline, position, job.figures.resolution);
        for other in shapes.iter().rev().take(10) {
            assert!(!too_close(&shape, other, g), "too close: {position:?}");
        }
        shapes.push(shape);
    }
}

fn strip_words(n: u16, q: usize) -> usize {
    5 + usize::from(n) + 4 * q
}

/// The work words that question 12 asks for.
fn work_for(piece: &Piece, r: u16, g: u16) -> usize {
    let allowed = (0..4).filter(|turn| piece.mask >> turn & 1 == 1);
    let most = allowed
        .map(|turn| runs(&piece.outline, turn, r, g).len())
        .max();
    3 * most.expect("a turn")
}

/// Words with which no piece gets 12, and the job not 15, without a gap.
fn enough(job: &Job, q: usize) -> Words {
    enough_with_gap(job, 0, q)
}

fn enough_with_gap(job: &Job, g: u16, q: usize) -> Words {
    let r = job.figures.resolution;
    let work = job.pieces.iter().map(|piece| work_for(piece, r, g)).max();
    Words {
        g,
        strip: strip_words(job.figures.columns, q),
        output: 4 * job.pieces.len(),
        work: work.unwrap_or(0),
    }
}

/// The job's sheet: in order, or with its records in any order, shared and not.
fn sheet_of(random: &mut Random, job: &Job) -> Vec<u8> {
    match random.index(4) {
        0 => job.sheet(),
        1 => SheetPlan::shuffled(random, job.figures, &job.pieces, false).bytes(),
        _ => SheetPlan::shuffled(random, job.figures, &job.pieces, true).bytes(),
    }
}

/// The most runs that the strip has on the way, by the engine's own place calls.
fn most_runs(job: &Job, Words { g, work, .. }: Words) -> usize {
    let Figures {
        width,
        resolution,
        columns,
    } = job.figures;
    let mut strip = vec![0; strip_words(columns, 2_000)];
    let mut work = vec![0; work];
    let opened = engine::open(width, resolution, columns, g, &mut strip);
    assert_eq!(opened, Ok(()));
    let mut most = 0;
    for piece in &job.pieces {
        let tried = engine::place(&mut strip, &piece.outline, piece.mask, &mut work);
        if tried.answer.is_ok() {
            most = most.max(strip_runs(&strip).iter().map(Vec::len).sum());
        }
    }
    most
}

/// A job of 0 to 24 small pieces, most of them few.
fn small_job(random: &mut Random) -> Job {
    let figures = Figures {
        width: random.word(1, 30),
        resolution: random.word(1, 5),
        columns: random.word(1, 20),
    };
    let count = random.index(25).min(random.index(25));
    let size = random.word(2, 9);
    Job {
        figures,
        pieces: sound_pieces(random, count, size),
    }
}

/// Work words: enough for all pieces, for some, and for none.
fn any_work(random: &mut Random, enough: usize) -> usize {
    match random.index(10) {
        0 => 0,
        1 | 2 => enough.saturating_sub(1),
        3 => random.index(enough + 1),
        4 => enough + random.index(9),
        _ => enough,
    }
}

/// Small jobs with the records of any number, plenty, just enough and one short.
#[test]
fn small_jobs() {
    let mut both = Both::new();
    let mut random = Random::new(81);
    let mut exact = 0;
    for round in 0..9_000 {
        let job = small_job(&mut random);
        let sheet = sheet_of(&mut random, &job);
        let q = random.between(1, 40) as usize;
        let g = match round % 2 {
            0 => small_gap(&mut random, job.figures.resolution),
            _ => 0,
        };
        let mut words = enough_with_gap(&job, g, q);
        words.work = any_work(&mut random, words.work);
        words.output += random.pick(&[0, 0, 1, 3, 4, 9]);
        both.granted(&job, &sheet, words);
        let most = if round % 3 == 0 {
            most_runs(&job, words)
        } else {
            0
        };
        if most >= 2 {
            let mut with_records = |q: usize| {
                let before = both.fates[14];
                words.strip = strip_words(job.figures.columns, q);
                both.granted(&job, &sheet, words);
                both.fates[14] - before
            };
            assert_eq!(with_records(most + 100), 0, "plenty");
            assert_eq!(with_records(most), 0, "just enough");
            assert!(with_records(most - 1) > 0, "one short");
            exact += 1;
        }
    }
    println!("with records just enough and one short: {exact}");
    assert!(exact >= 1_500);
    both.came(13_000, 3_000, &[0], &[0, 12, 13, 14]);
    assert!(both.turns.iter().all(|&times| times > 2_000));
}

/// How often each step of S-7's order is needed, by the engine's own place calls.
fn count_steps(steps: &mut Steps, job: &Job, g: u16) {
    let Figures {
        width,
        resolution,
        columns,
    } = job.figures;
    let mut strip = vec![0; strip_words(columns, 2_000)];
    let opened = engine::open(width, resolution, columns, g, &mut strip);
    assert_eq!(opened, Ok(()));
    for piece in &job.pieces {
        steps.count(&strip, &piece.outline, piece.mask);
        engine::place(&mut strip, &piece.outline, piece.mask, &mut [0; 900]);
    }
}

/// Jobs whose turns end in one column or at one right edge.
#[test]
fn tied_jobs() {
    let mut both = Both::new();
    let mut random = Random::new(94);
    let mut steps = Steps::default();
    for round in 0..8_000 {
        let job = tied_job(&mut random);
        let sheet = sheet_of(&mut random, &job);
        let q = random.between(1, 80) as usize;
        let g = match round % 2 {
            0 => small_gap(&mut random, job.figures.resolution),
            _ => 0,
        };
        both.granted(&job, &sheet, enough_with_gap(&job, g, q));
        count_steps(&mut steps, &job, g);
    }
    println!("{steps:?}");
    assert!(steps.edge > 8_000 && steps.top > 800 && steps.turn > 8_000);
    both.came(8_000, 1_000, &[0], &[0, 13, 14]);
    assert!(both.turns.iter().all(|&times| times > 1_000));
}

/// Long strips, on which the used length is over 16 bits.
#[test]
fn long_jobs() {
    let mut both = Both::new();
    let mut random = Random::new(95);
    let (mut over, mut most) = (0, 0);
    for _ in 0..150 {
        let job = long_job(&mut random);
        let g = random.pick(&[0, 0, 0, 1, 2, 40, 400]);
        let q = random.pick(&[60, 400, 4_000]);
        let words = enough_with_gap(&job, g, q);
        let used = both.granted(&job, &sheet_of(&mut random, &job), words).used;
        over += u32::from(used > 65_535);
        most = most.max(used);
    }
    println!("over 65,535: {over}, the most {most}");
    assert!(over > 40);
    both.came(150, 50, &[0], &[0, 14]);
}

/// Five pieces of 16,000 by 1; then as many as the longest strip takes, which ends with
/// one of 6,400: N × R.
#[test]
fn the_greatest_used_length() {
    let mut both = Both::new();
    let bar = |long: u16| Piece {
        outline: vec![0, 0, long, 0, long, 1, 0, 1],
        mask: 1,
    };
    let mut job = Job {
        figures: Figures {
            width: 1,
            resolution: 400,
            columns: 4_096,
        },
        pieces: vec![bar(16_000); 5],
    };
    let used = both.granted(&job, &job.sheet(), enough(&job, 4_096)).used;
    assert_eq!(used, 80_000);
    job.pieces = vec![bar(16_000); 103];
    job.pieces.push(bar(6_400));
    let totals = both.granted(&job, &job.sheet(), enough(&job, 4_096));
    let (placed, used) = (103, 1_638_400);
    assert_eq!(totals, Totals { placed, used });
}

/// Pieces each of which may be a copy of the one before, or differ from it in its
/// mask, in its last vertex or by a vertex more.
fn nearly_copies(random: &mut Random, count: usize, size: u16) -> Vec<Piece> {
    let mut pieces: Vec<Piece> = Vec::new();
    for piece in sound_pieces(random, count, size) {
        let mut next = match pieces.last() {
            Some(last) if !random.once_in(6) => last.clone(),
            _ => piece,
        };
        let before = next.clone();
        match random.index(8) {
            0 => next.mask = sound_mask(random),
            1 => *next.outline.last_mut().expect("words") += 1,
            2 => next.outline.extend([0, size]),
            _ => (),
        }
        let sound = is_sound(&next.outline, next.mask);
        pieces.push(if sound { next } else { before });
    }
    pieces
}

/// Copies, on strips with room for all of them, for some, and with few records.
#[test]
fn copies() {
    let mut both = Both::new();
    let mut random = Random::new(83);
    let mut copies = 0;
    for _ in 0..6_000 {
        let count = random.index(30);
        let size = random.word(2, 9);
        let mut job = small_job(&mut random);
        job.figures.columns = random.word(1, 60);
        job.pieces = nearly_copies(&mut random, count, size);
        copies += job.pieces.windows(2).filter(|two| two[0] == two[1]).count();
        let sheet = sheet_of(&mut random, &job);
        let q = random.between(1, 120) as usize;
        let g = small_gap(&mut random, job.figures.resolution);
        let mut words = enough_with_gap(&job, g, q);
        words.work = any_work(&mut random, words.work);
        both.granted(&job, &sheet, words);
    }
    println!("copies of the piece before: {copies}");
    assert!(copies > 30_000, "{copies}");
    both.came(6_000, 1_500, &[0], &[0, 12, 13, 14]);
}

/// 21 comes before 4 and 15.
fn gaps_over_400(both: &mut Both, random: &mut Random, sheet: &[u8], right: Words) {
    let over = random.word(401, 65_535);
    for g in [401, over, 65_535] {
        let words = Words {
            g,
            strip: random.pick(&[right.strip, right.strip + 1, 0]),
            output: random.pick(&[0, right.output]),
            ..right
        };
        assert_eq!(both.lay(sheet, words), Err(no(21, 0)));
    }
}

/// A gap that leaves room most often, at times any.
fn job_gap(random: &mut Random) -> u16 {
    match random.index(12) {
        0 => any_gap(random, 2),
        _ => random.word(0, 3),
    }
}

/// Jobs that pass with an output short by one and shorter, and strips of other
/// lengths: 4 and 15 where nothing else is wrong.
#[test]
fn other_lengths() {
    let mut both = Both::new();
    let mut random = Random::new(82);
    for _ in 0..1_500 {
        let job = small_job(&mut random);
        let sheet = sheet_of(&mut random, &job);
        let q = random.between(1, 20) as usize;
        let g = small_gap(&mut random, job.figures.resolution);
        let right = enough_with_gap(&job, g, q);
        gaps_over_400(&mut both, &mut random, &sheet, right);
        if right.output > 0 {
            for output in [0, right.output - 1, random.index(right.output)] {
                let answer = both.lay(&sheet, Words { output, ..right });
                assert_eq!(answer, Err(no(15, 0)));
            }
        }
        let none = strip_words(job.figures.columns, 0);
        let lengths = [
            right.strip - 1,
            right.strip + 1,
            right.strip + 2,
            none,
            random.index(none),
        ];
        for strip in lengths {
            let output = random.pick(&[0, right.output]);
            let words = Words {
                strip,
                output,
                ..right
            };
            assert_eq!(both.lay(&sheet, words), Err(no(4, 0)));
        }
    }
    // The most records, and one more.
    let job = small_job(&mut random);
    for (q, number) in [(16_000, 0), (16_001, 4)] {
        let answer = both.lay(&job.sheet(), enough(&job, q));
        assert_eq!(answer.err().map_or(0, |no| no.number), number);
    }
    both.came(9_000, 3_000, &[4, 15, 21], &[]);
}

/// The strip words that a sheet of any bytes asks for, with so many records.
fn strip_words_of(sheet: &[u8], q: usize) -> usize {
    let columns = sheet.get(8..10).map_or(1, |two| {
        u16::from_le_bytes([two[0], two[1]]).clamp(1, 4_096)
    });
    strip_words(columns, q)
}

/// Sheets with nothing wrong but one thing, of every kind, with the answer that the
/// damage was made for. A strip of a wrong length comes before what is wrong with
/// the pieces, and after what is wrong before them.
#[test]
fn damaged_sheets() {
    let mut both = Both::new();
    let mut random = Random::new(83);
    for damage in SheetDamage::ALL {
        // The longest sheets take their time to be made.
        let times = if damage == SheetDamage::TooLong {
            20
        } else {
            150
        };
        for _ in 0..times {
            let damaged = damaged_sheet(&mut random, damage);
            let q = random.between(1, 9) as usize;
            let right = Words {
                g: random.pick(&[0, 1, 400]),
                strip: strip_words_of(&damaged.bytes, q),
                output: random.pick(&[0, 3, 16, 800]),
                work: random.index(40),
            };
            let answer = both.lay(&damaged.bytes, right);
            assert_eq!(answer, Err(damaged.refusal), "{damage:?}");
            let wrong = Words {
                strip: right.strip + random.between(1, 3) as usize,
                ..right
            };
            let answer = both.lay(&damaged.bytes, wrong);
            let before_4 = [1, 2, 3, 16, 17].contains(&damaged.refusal.number);
            let expected = |after| {
                if before_4 {
                    damaged.refusal
                } else {
                    no(after, 0)
                }
            };
            assert_eq!(answer, Err(expected(4)), "{damage:?}");
            // 21 stands between 17 and 4.
            let words = random.pick(&[right, wrong]);
            let answer = both.lay(&damaged.bytes, Words { g: 401, ..words });
            assert_eq!(answer, Err(expected(21)), "{damage:?}");
        }
    }
    both.came(
        9_000,
        150,
        &[1, 2, 3, 16, 17, 21, 4, 6, 7, 8, 9, 10, 11],
        &[],
    );
}

fn number_at(sheet: &[u8], place: usize) -> u16 {
    u16::from_le_bytes([sheet[place], sheet[place + 1]])
}

/// A number that a question turns on, or one near what stood there.
fn other_number(random: &mut Random, there: u16) -> u16 {
    match random.index(8) {
        0 | 1 => random.word(0, 20),
        2 => random.pick(&[15, 16, 64, 65, 200, 201, 400, 401, 4_096, 4_097]),
        3 => random.pick(&[16_000, 16_001, 65_535, 32_768, 256]),
        4 | 5 => there.wrapping_add(1),
        6 => there.wrapping_sub(1),
        _ => random.word(0, 65_535),
    }
}

/// Sheets with one number or more changed, on buffers of any length: several
/// questions get "no", and the first is the answer; or it is a sheet all the same.
#[test]
fn numbers_changed() {
    let mut both = Both::new();
    let mut random = Random::new(84);
    for _ in 0..20_000 {
        let mut sheet = sound_sheet(&mut random);
        for _ in 0..random.between(1, 4).min(random.between(1, 4)) {
            // Few in the first 16 bytes, so that the records come to speak.
            let from = if random.once_in(5) { 0 } else { 8 };
            if sheet.len() / 2 > from {
                let place = 2 * (from + random.index(sheet.len() / 2 - from));
                let number = other_number(&mut random, number_at(&sheet, place));
                sheet[place..place + 2].copy_from_slice(&number.to_le_bytes());
            }
        }
        let q = random.between(1, 20) as usize;
        let words = Words {
            g: job_gap(&mut random),
            strip: strip_words_of(&sheet, q) + usize::from(random.once_in(12)),
            output: random.pick(&[0, 7, 20, 20, 800, 800, 800]),
            work: random.index(60),
        };
        both.lay(&sheet, words).ok();
    }
    both.came(
        20_000,
        30,
        &[0, 1, 2, 3, 16, 17, 21, 4, 6, 7, 8, 9, 10, 11, 15],
        &[],
    );
}

/// W, R and N of any size, in and out of their limits.
#[test]
fn any_strip() {
    let mut both = Both::new();
    let mut random = Random::new(85);
    for _ in 0..1_200 {
        let job = Job {
            figures: any_figures(&mut random),
            pieces: sound_pieces(&mut random, 3, 8),
        };
        let q = random.pick(&[1, 2, 3, 5, 9, 40]);
        let words = Words {
            g: any_gap(&mut random, job.figures.resolution),
            strip: strip_words(job.figures.columns, q),
            output: 12,
            work: 90,
        };
        both.lay(&sheet_of(&mut random, &job), words).ok();
    }
    both.came(1_200, 100, &[0, 3, 16, 17, 21], &[]);
}

/// Each R from 1 to 400, each mask and each N from 1 on: pieces of some columns on
/// strips of any height.
#[test]
fn every_resolution() {
    let mut both = Both::new();
    let mut random = Random::new(86);
    let mut laid_with = [0; 16];
    for r in 1..=400 {
        let figures = Figures {
            width: random.word(1, 900),
            resolution: r,
            columns: random.word(1, 12),
        };
        let most = (3 * r).clamp(4, 400);
        let pieces: Vec<Piece> = (0..6)
            .map(|_| {
                let size = random.word(2, most);
                let mask = sound_mask(&mut random);
                let outline = sound_outline(&mut random, mask, size);
                Piece { outline, mask }
            })
            .collect();
        for piece in &pieces {
            laid_with[usize::from(piece.mask)] += 1;
        }
        let job = Job { figures, pieces };
        let q = random.between(1, 6) as usize;
        let g = if r % 2 == 0 {
            sound_gap(&mut random, r)
        } else {
            0
        };
        let words = enough_with_gap(&job, g, q);
        both.granted(&job, &sheet_of(&mut random, &job), words);
    }
    assert!(laid_with[1..].iter().all(|&times| times > 50));
    both.came(400, 100, &[0], &[0, 13, 14]);
}

/// Pieces of a public file that pass questions 7 to 11 with each of the masks, in
/// an order made from the seed, with one of the masks.
fn public_pieces(random: &mut Random, file: &str, count: usize, masks: &[u16]) -> Vec<Piece> {
    let mut outlines = data::outlines(file);
    outlines.retain(|outline| is_sound(outline, 15));
    random.shuffle(&mut outlines);
    assert!(outlines.len() >= count);
    let with_mask = |outline| Piece {
        outline,
        mask: random.pick(masks),
    };
    outlines.into_iter().take(count).map(with_mask).collect()
}

/// A public job in so many orders: beside the reference program, and beside the
/// plain one.
fn public_job(both: &mut Both, random: &mut Random, job: &mut Job, words: Words, orders: u32) {
    let Figures {
        width,
        resolution,
        columns,
    } = job.figures;
    let q = (words.strip - strip_words(columns, 0)) / 4;
    for _ in 0..orders {
        random.shuffle(&mut job.pieces);
        let totals = both.granted(job, &sheet_of(random, job), words);
        let mut plain = Board::open(width, resolution, columns, words.g, q);
        let placed = job
            .pieces
            .iter()
            .filter(|piece| {
                let tried = plain.place(&piece.outline, piece.mask, words.work);
                tried.answer.is_ok()
            })
            .count();
        assert_eq!(usize::from(totals.placed), placed);
        assert!(both.runs_left(words) == plain.columns());
    }
}

/// Counties five and fifty millimetres apart, countries, and Shapes2 with gaps around R.
#[test]
fn public_jobs_with_gaps() {
    let mut both = Both::new();
    let mut random = Random::new(93);
    for (file, width, r, n, g, count) in [
        (data::NC_COUNTIES, 6_000, 100, 100, 40, 30),
        (data::NC_COUNTIES, 6_000, 40, 160, 400, 12),
        (data::NATURAL_EARTH, 800, 8, 200, 9, 60),
        (data::NATURAL_EARTH, 800, 2, 250, 1, 20),
        (data::SHAPES_2, 15, 1, 25, 1, 5),
        (data::SHAPES_2, 15, 2, 20, 3, 5),
    ] {
        let mut job = Job {
            figures: Figures {
                width,
                resolution: r,
                columns: n,
            },
            pieces: public_pieces(&mut random, file, count, &[1, 2, 15]),
        };
        let words = Words {
            work: 9_000,
            ..enough_with_gap(&job, g, 2_000)
        };
        public_job(&mut both, &mut random, &mut job, words, 2);
    }
    both.came(12, 5, &[], &[0]);
}

fn public_words(job: &Job, q: usize, work: usize) -> Words {
    Words {
        work,
        ..enough(job, q)
    }
}

#[test]
fn public_counties() {
    let mut both = Both::new();
    let mut random = Random::new(87);
    for (r, n, q, count, masks) in [
        (100, 200, 4_000, 100, &[1][..]),
        (100, 200, 4_000, 50, &[15]),
        (100, 40, 90, 25, &[2, 6, 15]),
        (400, 6, 60, 40, &[1, 15]),
        (40, 60, 200, 12, &[4, 10]),
    ] {
        let mut job = Job {
            figures: Figures {
                width: 6_000,
                resolution: r,
                columns: n,
            },
            pieces: public_pieces(&mut random, data::NC_COUNTIES, count, masks),
        };
        let words = public_words(&job, q, 60);
        public_job(&mut both, &mut random, &mut job, words, 2);
    }
    both.came(10, 5, &[], &[0, 12, 13, 14]);
}

#[test]
fn public_countries() {
    let mut both = Both::new();
    let mut random = Random::new(88);
    for (r, n, q, count, masks) in [
        (8, 300, 4_000, 200, &[1, 3, 8, 15][..]),
        (20, 40, 150, 150, &[1]),
        (2, 250, 900, 40, &[15]),
    ] {
        let mut job = Job {
            figures: Figures {
                width: 800,
                resolution: r,
                columns: n,
            },
            pieces: public_pieces(&mut random, data::NATURAL_EARTH, count, masks),
        };
        let words = public_words(&job, q, 9_000);
        public_job(&mut both, &mut random, &mut job, words, 3);
    }
    both.came(9, 30, &[], &[0, 13, 14]);
}

/// The data set Shapes2 as it is known: four of each shape, width 15.
#[test]
fn public_shapes() {
    let mut both = Both::new();
    let mut random = Random::new(89);
    for (r, n, q) in [(1, 25, 300), (2, 20, 15), (5, 4, 6)] {
        for mask in [1, 5, 15] {
            let with_mask = |outline| Piece { outline, mask };
            let shapes = data::outlines(data::SHAPES_2).into_iter().map(with_mask);
            let four: Vec<Piece> = shapes.flat_map(|piece| vec![piece; 4]).collect();
            let mut job = Job {
                figures: Figures {
                    width: 15,
                    resolution: r,
                    columns: n,
                },
                pieces: four,
            };
            let words = public_words(&job, q, 14);
            public_job(&mut both, &mut random, &mut job, words, 5);
        }
    }
    both.came(45, 20, &[], &[0, 12, 13, 14]);
}

/// Jobs of 199, 200 and 201 pieces, whose last ones have no room.
#[test]
fn the_most_pieces() {
    let mut both = Both::new();
    let mut random = Random::new(90);
    for count in [199, 200, 201] {
        for _ in 0..3 {
            let job = Job {
                figures: Figures {
                    width: 25,
                    resolution: 2,
                    columns: 25,
                },
                pieces: sound_pieces(&mut random, count, 6),
            };
            let sheet = sheet_of(&mut random, &job);
            if count > 200 {
                let answer = both.lay(&sheet, enough(&job, 150));
                assert_eq!(answer, Err(no(6, 0)));
            } else {
                both.granted(&job, &sheet, enough(&job, 150));
            }
        }
    }
    both.came(9, 3, &[0, 6], &[0, 13]);
}

/// The largest strip, opened and laid on; the longest sheet, whose records are in no
/// chain but a few.
#[test]
fn the_largest_strip() {
    let mut both = Both::new();
    let mut random = Random::new(91);
    for _ in 0..6 {
        let job = Job {
            figures: Figures {
                width: 16_000,
                resolution: 400,
                columns: 4_096,
            },
            pieces: (0..4)
                .map(|_| Piece {
                    outline: sound_outline(&mut random, 15, 16_000),
                    mask: 15,
                })
                .collect(),
        };
        let mut plan = SheetPlan::shuffled(&mut random, job.figures, &job.pieces, true);
        plan.fill_up(&mut random, 10_920);
        let sheet = plan.bytes();
        assert_eq!(sheet.len(), 65_536);
        both.granted(&job, &sheet, enough(&job, 16_000));
    }
    both.came(6, 6, &[0], &[0]);
}

/// A band that goes to and fro has 495,010 runs, more than 16 bits hold. It is too
/// wide for any strip; the square before and after it is placed.
#[test]
fn the_piece_with_most_runs() {
    let mut both = Both::new();
    let band: Vec<u16> = zigzag_of(32, 500, 1, 16_000)
        .iter()
        .flat_map(|&(x, y)| [x as u16, y as u16])
        .collect();
    let pieces = [square(4), band, square(4)].map(|outline| Piece { outline, mask: 1 });
    let job = Job {
        figures: Figures {
            width: 16_000,
            resolution: 1,
            columns: 4_096,
        },
        pieces: pieces.to_vec(),
    };
    for (work, fate) in [(1_485_029, 12), (1_485_030, 13)] {
        let words = Words {
            g: 0,
            strip: strip_words(4_096, 16_000),
            output: 12,
            work,
        };
        let totals = both.granted(&job, &job.sheet(), words);
        let laid = both.output.held(12);
        assert_eq!(*laid, [0, 0, 0, 0, fate, 0, 0, 0, 0, 0, 0, 4]);
        assert_eq!(totals, Totals { placed: 2, used: 4 });
    }
}

fn square(side: u16) -> Vec<u16> {
    vec![0, 0, side, 0, side, side, 0, side]
}

/// "Three S, W 10, R 2, N 10"
fn squares_job(count: usize) -> Job {
    let piece = Piece {
        outline: square(4),
        mask: 1,
    };
    Job {
        figures: Figures {
            width: 10,
            resolution: 2,
            columns: 10,
        },
        pieces: vec![piece; count],
    }
}

/// "Q 3 refuses the third with 14, Q 4 places it." Where it is placed, and the
/// totals, are the printed example's.
#[test]
fn three_squares() {
    let mut both = Both::new();
    let job = squares_job(3);
    let third_refused = [0, 0, 0, 0, 0, 0, 0, 4, 14, 0, 0, 0];
    let all_placed = [0, 0, 0, 0, 0, 0, 0, 4, 0, 0, 2, 0];
    for (q, laid, placed, used) in [(3, third_refused, 2, 4), (4, all_placed, 3, 8)] {
        let totals = both.granted(&job, &job.sheet(), enough(&job, q));
        assert_eq!(totals, Totals { placed, used });
        assert_eq!(*both.output.held(12), laid);
    }
}

/// With a gap of 1 they lie a row and a column apart; the used length is the outline's.
#[test]
fn three_squares_with_a_gap() {
    let mut both = Both::new();
    let job = squares_job(3);
    let totals = both.granted(&job, &job.sheet(), enough_with_gap(&job, 1, 40));
    let used = 10;
    assert_eq!(totals, Totals { placed: 3, used });
    let laid = [0, 0, 0, 0, 0, 0, 0, 5, 0, 0, 3, 0];
    assert_eq!(*both.output.held(12), laid);
}

/// "16,001 gives 8; 65 vertices 7; 201 pieces 6." An empty job uses nothing.
#[test]
fn trial_jobs() {
    let mut both = Both::new();
    let words = Words {
        g: 0,
        strip: strip_words(10, 6),
        output: 804,
        work: 90,
    };
    for place in 0..8 {
        let mut job = squares_job(3);
        job.pieces[1].outline[place] = 16_001;
        assert_eq!(both.lay(&job.sheet(), words), Err(no(8, 2)));
    }
    for (vertices, answer) in [(64, Ok(Totals { placed: 2, used: 4 })), (65, Err(no(7, 1)))] {
        let mut job = squares_job(2);
        let first = job.pieces[0].outline[..2].repeat(vertices - 4);
        job.pieces[0].outline.splice(0..0, first);
        assert_eq!(both.lay(&job.sheet(), words), answer);
    }
    for (count, answer) in [
        (0, Ok(Totals { placed: 0, used: 0 })),
        (
            200,
            Ok(Totals {
                placed: 10,
                used: 20,
            }),
        ),
        (201, Err(no(6, 0))),
    ] {
        let words = Words {
            strip: strip_words(10, 20),
            ..words
        };
        assert_eq!(both.lay(&squares_job(count).sheet(), words), answer);
    }
}

/// A job with no pieces opens the strip, and needs no output and no work.
#[test]
fn no_pieces() {
    let mut both = Both::new();
    let mut random = Random::new(92);
    for _ in 0..200 {
        let job = Job {
            figures: small_figures(&mut random),
            pieces: Vec::new(),
        };
        let q = random.between(1, 9) as usize;
        let g = sound_gap(&mut random, 2);
        let words = enough_with_gap(&job, g, q);
        assert_eq!((words.output, words.work), (0, 0));
        let totals = both.granted(&job, &sheet_of(&mut random, &job), words);
        assert_eq!(totals, Totals { placed: 0, used: 0 });
        assert!(both.runs_left(words).iter().all(Vec::is_empty));
    }
}
