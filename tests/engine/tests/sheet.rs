//! Read and write against the reference program: answer, every word or byte of
//! the output and of the input, with each buffer directly before a page that
//! cannot be read. What is granted goes the round through the engine: a list
//! written and read, a sheet read, written and read.

use engine::guard::{Room, Unit};
use reference::figures::Piece;
use reference::generate::{
    any_figures, any_mask, any_outline, damaged_list, damaged_sheet, outline, round_of_pieces,
    round_of_vertices, small_figures, sound_list, sound_piece_of, sound_pieces, sound_pieces_of,
    sound_sheet, ListDamage, OutlineKind, Random, SheetDamage, SheetPlan,
};
use reference::sheet::list_words;
use reference::{Figures, Refusal};

/// The words of the longest list: 200 pieces of 64 vertices.
const LONGEST_LIST: usize = 1 + 200 * (2 + 2 * 64);
/// The records of the longest sheet, which has 65,536 bytes.
const MOST_RECORDS: usize = 10_920;
/// Words enough for the small lists.
const ENOUGH: usize = 700;

const LARGEST: Figures = Figures {
    width: 16_000,
    resolution: 400,
    columns: 4_096,
};

/// How often each number came; 0 is granted.
type Numbers = [u32; 18];

/// The engine beside the reference program, on one call after another.
struct Both {
    sheet: Room<u8>,
    words: Room<u16>,
    list: Room<u16>,
    bytes: Room<u8>,
    reads: Numbers,
    writes: Numbers,
    /// Sheets and lists taken up, without what went the round.
    taken: u32,
    rounds: u32,
    /// Lists read that have no sheet of their own, as it would be too long.
    too_long: u32,
}

/// What an output holds before a call.
fn other_words(count: usize) -> Vec<u16> {
    (0..count).map(|place| 0xA5C3 ^ place as u16).collect()
}

fn other_bytes(count: usize) -> Vec<u8> {
    (0..count).map(|place| 0x5A ^ place as u8).collect()
}

/// What a message shows of a buffer.
fn shown<T: Unit>(held: &[T]) -> &[T] {
    &held[..held.len().min(400)]
}

fn count<T>(numbers: &mut Numbers, answer: Result<T, Refusal>) {
    let number = answer.err().map_or(0, |refusal| refusal.number);
    numbers[usize::from(number)] += 1;
}

/// The words of a list up to its last piece.
fn list_length(list: &[u16]) -> usize {
    (0..list[0]).fold(1, |at, _| at + 2 + 2 * usize::from(list[at]))
}

impl Both {
    fn new() -> Both {
        Both {
            sheet: Room::new(80_000),
            words: Room::new(LONGEST_LIST + 10),
            list: Room::new(LONGEST_LIST + 10),
            bytes: Room::new(80_000),
            reads: [0; 18],
            writes: [0; 18],
            taken: 0,
            rounds: 0,
            too_long: 0,
        }
    }

    /// One read with an output of so many words.
    fn read(&mut self, sheet: &[u8], words: usize) -> Result<Figures, Refusal> {
        let case = || format!("{words} words for {:?}", shown(sheet));
        let mut after = other_words(words);
        let lent_output = self.words.lend(&after);
        let answer = reference::read(sheet, &mut after);
        let lent_sheet = self.sheet.lend(sheet);
        let ours = engine::read(lent_sheet, lent_output);
        assert_eq!(ours, answer, "{}", case());
        assert!(*lent_output == *after, "output: {}", case());
        assert!(*lent_sheet == *sheet, "sheet: {}", case());
        let kept = self.words.kept_before(words) && self.sheet.kept_before(sheet.len());
        assert!(kept, "before a buffer: {}", case());
        count(&mut self.reads, answer);
        answer
    }

    /// One write with an output of so many bytes.
    fn write(&mut self, of: Figures, list: &[u16], bytes: usize) -> Result<u32, Refusal> {
        let case = || format!("{of:?}, {bytes} bytes for {:?}", shown(list));
        let mut after = other_bytes(bytes);
        let lent_output = self.bytes.lend(&after);
        let (w, r, n) = (of.width, of.resolution, of.columns);
        let answer = reference::write(w, r, n, list, &mut after);
        let lent_list = self.list.lend(list);
        let ours = engine::write(of, lent_list, lent_output);
        assert_eq!(ours, answer, "{}", case());
        assert!(*lent_output == *after, "output: {}", case());
        assert!(*lent_list == *list, "list: {}", case());
        let kept = self.bytes.kept_before(bytes) && self.list.kept_before(list.len());
        assert!(kept, "before a buffer: {}", case());
        count(&mut self.writes, answer);
        answer
    }

    /// The list that the last read wrote to an output of so many words.
    fn list_read(&mut self, words: usize) -> Vec<u16> {
        let output = &self.words.held(words);
        output[..list_length(output)].to_vec()
    }

    /// The engine's own sheet of a list that passes, read back.
    fn go_round(&mut self, of: Figures, list: &[u16]) {
        let pieces = usize::from(list[0]);
        let vertices = (list.len() - 1 - 2 * pieces) / 2;
        let bytes = 16 + 6 * (vertices + pieces);
        let answer = self.write(of, list, bytes);
        if bytes > 65_536 {
            assert_eq!(answer.map_err(|no| no.number), Err(2));
            self.too_long += 1;
            return;
        }
        assert_eq!(answer, Ok(bytes as u32));
        let sheet = self.bytes.held(bytes).to_vec();
        assert_eq!(self.read(&sheet, list.len()), Ok(of));
        assert!(self.list_read(list.len()) == list, "{:?}", shown(list));
        self.rounds += 1;
    }

    /// A sheet: with words enough; if it is granted, with other outputs too,
    /// and its list goes the round.
    fn take_sheet(&mut self, random: &mut Random, sheet: &[u8], enough: usize) {
        self.taken += 1;
        let Ok(figures) = self.read(sheet, enough) else {
            return;
        };
        let list = self.list_read(enough);
        let length = list.len();
        let short = self.read(sheet, length - 1);
        assert_eq!(short.map_err(|no| no.number), Err(15));
        match random.index(4) {
            0 => self.read(sheet, length),
            1 => self.read(sheet, length + random.index(9)),
            2 => self.read(sheet, random.index(length)),
            _ => self.read(sheet, 0),
        }
        .ok();
        self.go_round(figures, &list);
    }

    /// A list: with bytes enough; if it is granted, with other outputs too, and
    /// it goes the round.
    fn take_list(&mut self, random: &mut Random, of: Figures, list: &[u16], enough: usize) {
        self.taken += 1;
        let Ok(size) = self.write(of, list, enough) else {
            return;
        };
        let size = size as usize;
        let short = self.write(of, list, size - 1);
        assert_eq!(short.map_err(|no| no.number), Err(15));
        match random.index(4) {
            0 => self.write(of, list, size),
            1 => self.write(of, list, size + random.index(9)),
            2 => self.write(of, list, random.index(size)),
            _ => self.write(of, list, 0),
        }
        .ok();
        self.go_round(of, &list[..list_length(list)]);
    }

    /// So many were taken up, and each of these numbers came so often.
    fn came(&self, taken: u32, least: u32, reads: &[usize], writes: &[usize]) {
        let Both { rounds, .. } = self;
        println!("taken {}, gone the round {rounds}", self.taken);
        println!("read {:?}, write {:?}", self.reads, self.writes);
        assert!(self.taken >= taken, "only {} taken", self.taken);
        for (counts, numbers) in [(&self.reads, reads), (&self.writes, writes)] {
            for &number in numbers {
                let times = counts[number];
                assert!(times >= least, "{number} came {times} times");
            }
        }
    }
}

fn with_number(sheet: &[u8], place: usize, number: u16) -> Vec<u8> {
    let mut changed = sheet.to_vec();
    changed[place..place + 2].copy_from_slice(&number.to_le_bytes());
    changed
}

fn number_at(sheet: &[u8], place: usize) -> u16 {
    u16::from_le_bytes([sheet[place], sheet[place + 1]])
}

/// A number that a question turns on, or one near what stood there.
fn other_number(random: &mut Random, there: u16) -> u16 {
    match random.index(8) {
        0 => random.word(0, 3),
        1 => random.word(0, 20),
        2 => random.pick(&[15, 16, 64, 65, 200, 201, 400, 401, 4_096, 4_097]),
        3 => random.pick(&[16_000, 16_001, 65_535, 32_768, 256]),
        4 | 5 => there.wrapping_add(1),
        6 => there.wrapping_sub(1),
        _ => random.word(0, 65_535),
    }
}

/// Sheets that pass: records in any order, shared chains and tails, spare
/// records with any words.
#[test]
fn sound_sheets() {
    let mut both = Both::new();
    let mut random = Random::new(61);
    for _ in 0..12_000 {
        let sheet = sound_sheet(&mut random);
        both.take_sheet(&mut random, &sheet, ENOUGH);
    }
    assert_eq!(both.reads[0] + both.reads[15], both.reads.iter().sum());
    both.came(12_000, 10_000, &[0, 15], &[0]);
    assert_eq!(both.rounds, 12_000);
}

/// Sheets with nothing wrong but one thing, of every kind, with the answer that
/// the damage was made for; with words enough, few and none.
#[test]
fn damaged_sheets() {
    let mut both = Both::new();
    let mut random = Random::new(62);
    for damage in SheetDamage::ALL {
        // The longest sheets take their time to be made.
        let times = if damage == SheetDamage::TooLong {
            200
        } else {
            1_000
        };
        for _ in 0..times {
            let damaged = damaged_sheet(&mut random, damage);
            let words = random.pick(&[0, 1, 40, ENOUGH]);
            let answer = both.read(&damaged.bytes, words);
            assert_eq!(answer, Err(damaged.refusal), "{damage:?}");
            both.taken += 1;
        }
    }
    both.came(32_000, 1_000, &[1, 2, 3, 16, 17, 6, 7, 8, 9, 10, 11], &[]);
}

/// Sheets with one number changed, in each of their places, by one and to what
/// a question turns on.
#[test]
fn each_number_changed() {
    let mut both = Both::new();
    let mut random = Random::new(63);
    while both.taken < 40_000 {
        let sheet = sound_sheet(&mut random);
        for place in (0..sheet.len()).step_by(2) {
            let there = number_at(&sheet, place);
            let number = other_number(&mut random, there);
            let changed = with_number(&sheet, place, number);
            both.take_sheet(&mut random, &changed, ENOUGH);
        }
    }
    both.came(
        40_000,
        30,
        &[0, 1, 2, 3, 16, 17, 6, 7, 8, 9, 10, 11, 15],
        &[0],
    );
}

/// Sheets with several numbers changed, so that several questions get "no".
#[test]
fn several_numbers_changed() {
    let mut both = Both::new();
    let mut random = Random::new(64);
    while both.taken < 30_000 {
        let mut sheet = sound_sheet(&mut random);
        // Few in the first 16 bytes, so that the records come to speak.
        for _ in 0..random.between(2, 5) {
            let from = if random.once_in(8) { 0 } else { 8 };
            if sheet.len() / 2 > from {
                let place = 2 * (from + random.index(sheet.len() / 2 - from));
                let there = number_at(&sheet, place);
                sheet = with_number(&sheet, place, other_number(&mut random, there));
            }
        }
        both.take_sheet(&mut random, &sheet, ENOUGH);
    }
    both.came(
        30_000,
        30,
        &[0, 1, 2, 3, 16, 17, 6, 7, 8, 9, 10, 11, 15],
        &[0],
    );
}

/// Sheets of pieces that pass and pieces that do not, in any order: the first
/// that fails is the answer.
#[test]
fn pieces_of_any_kind() {
    let mut both = Both::new();
    let mut random = Random::new(65);
    for _ in 0..20_000 {
        let figures = small_figures(&mut random);
        let pieces: Vec<Piece> = (0..random.between(1, 4))
            .map(|_| any_piece(&mut random))
            .collect();
        let sheet = SheetPlan::shuffled(&mut random, figures, &pieces, true).bytes();
        both.take_sheet(&mut random, &sheet, ENOUGH);
        let list = list_words(&pieces);
        both.take_list(&mut random, figures, &list, 4_000);
    }
    both.came(40_000, 200, &[0, 7, 8, 9, 10, 11], &[0, 7, 8, 9, 10, 11]);
}

/// A piece of any kind but one: half a vertex has no place on a sheet.
fn any_piece(random: &mut Random) -> Piece {
    let kind = random.pick(&OutlineKind::ALL);
    let mut outline = match kind {
        OutlineKind::AtLimit if !random.once_in(20) => any_small_outline(random),
        _ if random.once_in(2) => sound_pieces(random, 1, 8).remove(0).outline,
        _ => outline(random, kind, 8),
    };
    outline.truncate(outline.len() / 2 * 2);
    let mask = any_mask(random);
    Piece { outline, mask }
}

fn any_small_outline(random: &mut Random) -> Vec<u16> {
    let made = any_outline(random);
    match made.iter().all(|&word| word <= 100) {
        true => made,
        false => vec![0, 0, 2, 0, 1, 1],
    }
}

/// Every length from 0 to 40 and around the right one: the sheet cut off, with
/// bytes after it, and with V or P changed as the length is.
#[test]
fn every_length() {
    let mut both = Both::new();
    let mut random = Random::new(66);
    for _ in 0..150 {
        let sheet = sound_sheet(&mut random);
        let mut longer = sheet.clone();
        longer.extend((0..60).map(|_| random.word(0, 255) as u8));
        let right = sheet.len();
        for length in (0..=40).chain(right.saturating_sub(14)..right + 14) {
            let cut = &longer[..length];
            both.take_sheet(&mut random, cut, ENOUGH);
            if length >= 16 && (length - 16) % 6 == 0 {
                let records = ((length - 16) / 6) as u16;
                let vertices = number_at(&sheet, 12).min(records);
                let fitted = with_number(cut, 12, vertices);
                let fitted = with_number(&fitted, 14, records - vertices);
                both.take_sheet(&mut random, &fitted, ENOUGH);
            }
        }
    }
    both.came(10_000, 100, &[0, 1, 2, 6, 15], &[0]);
}

/// A piece chain that goes round in 1 to 200 pieces after any number of others,
/// and one that ends after 0 to 201.
#[test]
fn rounds_of_pieces() {
    let mut both = Both::new();
    let mut random = Random::new(67);
    for round in 1..=200 {
        for lead in [0, 1, 200 - round, random.index(201)] {
            let plan = round_of_pieces(&mut random, lead, round);
            both.take_sheet(&mut random, &plan.bytes(), ENOUGH);
        }
    }
    assert_eq!(both.reads[6], 800);
    for lead in (0..=201).step_by(3).chain([199, 200]) {
        let plan = round_of_pieces(&mut random, lead, 0);
        both.take_sheet(&mut random, &plan.bytes(), LONGEST_LIST);
    }
    assert_eq!(both.reads[6], 801, "201 pieces");
    both.came(860, 60, &[0, 6, 15], &[0]);
}

/// A vertex chain that goes round in every way that 3 to 64 vertices allow, and
/// one that ends after 3 to 64.
#[test]
fn rounds_of_vertices() {
    let mut both = Both::new();
    let mut random = Random::new(68);
    for vertices in 3..=64 {
        for round in 0..=vertices {
            let plan = round_of_vertices(&mut random, vertices - round, round);
            both.take_sheet(&mut random, &plan.bytes(), ENOUGH);
        }
    }
    assert_eq!(both.reads[7], (3..=64).sum::<u32>());
    both.came(2_100, 62, &[0, 7, 15], &[0]);
}

/// Sheets of up to 65,536 bytes and just above, most of it spare records.
#[test]
fn sheets_of_the_greatest_size() {
    let mut both = Both::new();
    let mut random = Random::new(69);
    for records in MOST_RECORDS - 3..=MOST_RECORDS + 3 {
        for _ in 0..40 {
            let count = random.index(5);
            let pieces = sound_pieces(&mut random, count, 8);
            let mut plan = SheetPlan::shuffled(&mut random, LARGEST, &pieces, true);
            plan.fill_up(&mut random, records);
            both.take_sheet(&mut random, &plan.bytes(), ENOUGH);
        }
    }
    assert_eq!(both.reads[2], 120);
    both.came(280, 120, &[0, 2, 15], &[0]);
}

/// Lists whose sheet has some 65,536 bytes, and sheets of such pieces: 200
/// pieces of 64 vertices among them, whose sheet is too long unless they share.
#[test]
fn lists_of_the_greatest_size() {
    let mut both = Both::new();
    let mut random = Random::new(70);
    let most: Vec<usize> = (MOST_RECORDS - 2..=MOST_RECORDS + 2).collect();
    for records in [most, vec![13_000, 11_500, 10_000, 5_000, 800]].concat() {
        for _ in 0..4 {
            let count = match records {
                13_000 => 200,
                _ => random.between(records.div_ceil(65).max(1) as i64, 200) as usize,
            };
            let pieces = sound_pieces_of(&mut random, count, records - count);
            let list = list_words(&pieces);
            both.take_list(&mut random, LARGEST, &list, 80_000);
            let share = random.once_in(2);
            let plan = SheetPlan::shuffled(&mut random, LARGEST, &pieces, share);
            both.take_sheet(&mut random, &plan.bytes(), LONGEST_LIST);
        }
    }
    // One chain of 64 vertices, shared by 200 pieces.
    let piece = sound_piece_of(&mut random, 64, 8);
    let mut plan = SheetPlan::in_order(LARGEST, std::slice::from_ref(&piece));
    plan.pieces = (2..=201).map(|next| [1, piece.mask, next % 201]).collect();
    both.take_sheet(&mut random, &plan.bytes(), LONGEST_LIST);
    assert!(both.too_long >= 1);
    both.came(80, 10, &[0, 2, 15], &[0, 2, 15]);
}

/// Lists that pass, some with words after their last piece, and W, R and N in
/// and out of their limits.
#[test]
fn sound_lists() {
    let mut both = Both::new();
    let mut random = Random::new(71);
    for _ in 0..15_000 {
        let figures = match random.index(2) {
            0 => any_figures(&mut random),
            _ => small_figures(&mut random),
        };
        let list = sound_list(&mut random);
        both.take_list(&mut random, figures, &list, 4_000);
    }
    both.came(15_000, 1_000, &[0], &[0, 3, 16, 17, 15]);
}

/// Lists with nothing wrong but one thing, with bytes enough, few and none.
#[test]
fn damaged_lists() {
    let mut both = Both::new();
    let mut random = Random::new(72);
    for damage in ListDamage::ALL {
        for _ in 0..1_000 {
            let damaged = damaged_list(&mut random, damage);
            let figures = small_figures(&mut random);
            let bytes = random.pick(&[0, 15, 16, 4_000]);
            let answer = both.write(figures, &damaged.words, bytes);
            assert_eq!(answer, Err(damaged.refusal), "{damage:?}");
            both.taken += 1;
        }
    }
    both.came(13_000, 1_000, &[], &[6, 7, 8, 9, 10, 11]);
}

/// Lists with a word changed, in each of their places.
#[test]
fn each_word_changed() {
    let mut both = Both::new();
    let mut random = Random::new(73);
    while both.taken < 40_000 {
        let list = sound_list(&mut random);
        let figures = small_figures(&mut random);
        for place in 0..list.len() {
            let mut changed = list.clone();
            changed[place] = other_number(&mut random, list[place]);
            both.take_list(&mut random, figures, &changed, 9_000);
        }
    }
    both.came(40_000, 100, &[0], &[0, 6, 7, 8, 9, 10, 11, 15]);
}

/// Lists cut off after each of their words, and with another count.
#[test]
fn every_length_of_a_list() {
    let mut both = Both::new();
    let mut random = Random::new(74);
    for _ in 0..60 {
        let list = sound_list(&mut random);
        let figures = small_figures(&mut random);
        for length in 0..=list.len() {
            both.take_list(&mut random, figures, &list[..length], 4_000);
        }
        for count in [0, 1, 2, 199, 200, 201, 256, 65_535] {
            let mut other = list.clone();
            other[0] = count;
            both.take_list(&mut random, figures, &other, 4_000);
        }
    }
    both.came(3_000, 60, &[0], &[0, 6, 7, 15]);
}
