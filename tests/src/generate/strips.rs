//! Strips: well formed in any record order, and damaged in every way in which a
//! strip can be ill formed.

use super::Random;
use super::{small_gap, sound_gap};
use crate::strip::{record_place, Stretch, LEADING};

/// W, R, N, gap and Q of a strip.
#[derive(Clone, Copy, Debug, PartialEq, Eq)]
pub struct StripFigures {
    pub w: u16,
    pub r: u16,
    pub n: u16,
    pub g: u16,
    pub q: usize,
}

/// Where the gap stands.
const GAP: usize = 4;

const COLUMN: usize = 0;
const LOW: usize = 1;
const HIGH: usize = 2;
const NEXT: usize = 3;

/// Runs for each column, at most `most` in all, none touching another.
pub fn random_runs(random: &mut Random, w: u16, n: u16, most: usize) -> Vec<Vec<Stretch>> {
    let mut left = most;
    (0..n)
        .map(|_| {
            let mut runs = Vec::new();
            let mut low = random.word(0, w / 2);
            while low < w && left > 0 && !random.once_in(4) {
                let high = random.word(low + 1, w.min(low + 1 + w / 4));
                runs.push((low, high));
                left -= 1;
                low = high + random.word(1, 1 + w / 4);
            }
            runs
        })
        .collect()
}

/// A strip with these runs, its records numbered at random and its free chain
/// in any order. Q is at least the number of runs. Limits are not looked at.
pub fn strip_with(random: &mut Random, figures: StripFigures, runs: &[Vec<Stretch>]) -> Vec<u16> {
    let StripFigures { w, r, n, g, q } = figures;
    let mut numbers: Vec<u16> = (1..=q as u16).collect();
    random.shuffle(&mut numbers);
    let mut numbers = numbers.into_iter();
    let mut words = Words::blank(usize::from(n), q);
    words.strip[..3].copy_from_slice(&[w, r, n]);
    words.strip[GAP] = g;
    for (column, stretches) in runs.iter().enumerate() {
        // From the last run to the first, so that each next is known.
        let mut next = 0;
        for &(low, high) in stretches.iter().rev() {
            let number = numbers.next().expect("a record for each run");
            words.set_record(number, [column as u16, low, high, next]);
            next = number;
        }
        words.strip[LEADING + column] = next;
    }
    let mut next = 0;
    for number in numbers {
        words.set_record(number, [n, 0, 0, next]);
        next = number;
    }
    words.strip[3] = next;
    words.strip
}

/// A well-formed small strip with random runs.
pub fn sound_strip(random: &mut Random) -> Vec<u16> {
    let q = random.between(1, 20) as usize;
    let r = random.word(1, 5);
    let figures = StripFigures {
        w: random.word(1, 20),
        r,
        n: random.word(1, 8),
        g: small_gap(random, r),
        q,
    };
    // A full strip now and then.
    let most = random.between(0, q as i64) as usize;
    let runs = random_runs(random, figures.w, figures.n, most);
    strip_with(random, figures, &runs)
}

/// A strip as it may be lent to open: any words, with a right length.
pub fn empty_strip(random: &mut Random, n: u16, q: usize) -> Vec<u16> {
    (0..LEADING + usize::from(n) + 4 * q)
        .map(|_| random.word(0, 65_535))
        .collect()
}

/// Changes one to three words of a strip that has some, each to one that might
/// stand there by mistake. The strip may be well formed or not after it.
pub fn change_words(random: &mut Random, strip: &mut [u16]) {
    for _ in 0..random.between(1, 3) {
        let (place, other) = (random.index(strip.len()), random.index(strip.len()));
        let word = strip[place];
        match random.index(7) {
            0 => strip[place] = word.wrapping_add(1),
            1 => strip[place] = word.wrapping_sub(1),
            2 => strip[place] = 0,
            3 => strip[place] = strip[other],
            4 => strip[place] = random.word(0, 65_535),
            5 if strip.len() > GAP => strip[GAP] = other_gap(random),
            _ => strip.swap(place, other),
        }
    }
}

/// A gap to stand where another stood: in its limits, or just or far over them.
fn other_gap(random: &mut Random) -> u16 {
    match random.index(4) {
        0 => random.pick(&[401, 402, 65_535]),
        1 => random.word(401, 65_535),
        _ => sound_gap(random, 2),
    }
}

/// The words of a strip while it is made.
struct Words {
    strip: Vec<u16>,
    n: usize,
    q: usize,
}

impl Words {
    fn blank(n: usize, q: usize) -> Words {
        Words {
            strip: vec![0; LEADING + n + 4 * q],
            n,
            q,
        }
    }

    fn set_record(&mut self, number: u16, record: [u16; 4]) {
        let place = record_place(self.n, usize::from(number));
        self.strip[place..place + 4].copy_from_slice(&record);
    }

    fn get(&self, number: u16, field: usize) -> u16 {
        self.strip[record_place(self.n, usize::from(number)) + field]
    }

    fn set(&mut self, number: u16, field: usize, word: u16) {
        self.strip[record_place(self.n, usize::from(number)) + field] = word;
    }

    fn chain(&self, first: u16) -> Vec<u16> {
        let mut numbers = Vec::new();
        let mut present = first;
        while present != 0 {
            numbers.push(present);
            present = self.get(present, NEXT);
        }
        numbers
    }

    fn column_chain(&self, column: usize) -> Vec<u16> {
        self.chain(self.strip[LEADING + column])
    }

    fn free_chain(&self) -> Vec<u16> {
        self.chain(self.strip[3])
    }

    /// A record number above Q.
    fn past_q(&self, random: &mut Random) -> u16 {
        let least = self.q as u16 + 1;
        match random.index(3) {
            0 => least,
            1 => 65_535,
            _ => random.word(least, 65_535),
        }
    }
}

/// A way in which a strip is ill formed.
#[derive(Clone, Copy, Debug, PartialEq, Eq)]
pub enum Damage {
    WidthZero,
    WidthOver,
    ResolutionZero,
    ResolutionOver,
    ColumnsZero,
    ColumnsOver,
    GapOver,
    /// The form before S-4, of one word less.
    NoGapWord,
    /// N is in its limits and the strip has fewer words than heads.
    ColumnsBeyondWords,
    /// N is four more or fewer, for which the length is right with another Q.
    ColumnsShifted,
    /// No record: Q 0.
    NoRecords,
    /// Q 16,001.
    TooManyRecords,
    /// Cut off anywhere, from 0 words on.
    CutOff,
    /// One to three words longer.
    FewWordsLonger,
    /// A record longer, which is in no chain.
    OneRecordLonger,
    ColumnLoop,
    FreeLoop,
    /// Two columns end in the same records.
    ColumnsShareTail,
    /// The free chain ends in the records of a column.
    FreeSharesTail,
    /// A column's chain ends in the free chain.
    ColumnRunsIntoFree,
    /// Two columns have each other's chain.
    HeadsSwapped,
    WrongColumn,
    TouchingRuns,
    OverlappingRuns,
    UnsortedRuns,
    EmptyRun,
    ReversedRun,
    HighAboveWidth,
    FreeColumn,
    FreeLow,
    FreeHigh,
    /// A free record in no chain.
    FreeInNoChain,
    /// A record with a run in no chain.
    RunInNoChain,
    /// A column's chain ends before its last record.
    ColumnChainCut,
    /// The free chain ends before its last record.
    FreeChainCut,
    /// Free records that loop, apart from a free chain that ends.
    LoopOffChain,
    /// A record with a run, in the free chain alone.
    RunOnFreeChain,
    /// A free record, in a column's chain alone.
    FreeOnColumnChain,
    /// A column's first record is the first of another column too.
    InTwoChains,
    NextPastQ,
    FreeNextPastQ,
    HeadPastQ,
    FirstFreePastQ,
}

impl Damage {
    pub const ALL: [Damage; 43] = [
        Damage::WidthZero,
        Damage::WidthOver,
        Damage::ResolutionZero,
        Damage::ResolutionOver,
        Damage::ColumnsZero,
        Damage::ColumnsOver,
        Damage::GapOver,
        Damage::NoGapWord,
        Damage::ColumnsBeyondWords,
        Damage::ColumnsShifted,
        Damage::NoRecords,
        Damage::TooManyRecords,
        Damage::CutOff,
        Damage::FewWordsLonger,
        Damage::OneRecordLonger,
        Damage::ColumnLoop,
        Damage::FreeLoop,
        Damage::ColumnsShareTail,
        Damage::FreeSharesTail,
        Damage::ColumnRunsIntoFree,
        Damage::HeadsSwapped,
        Damage::WrongColumn,
        Damage::TouchingRuns,
        Damage::OverlappingRuns,
        Damage::UnsortedRuns,
        Damage::EmptyRun,
        Damage::ReversedRun,
        Damage::HighAboveWidth,
        Damage::FreeColumn,
        Damage::FreeLow,
        Damage::FreeHigh,
        Damage::FreeInNoChain,
        Damage::RunInNoChain,
        Damage::ColumnChainCut,
        Damage::FreeChainCut,
        Damage::LoopOffChain,
        Damage::RunOnFreeChain,
        Damage::FreeOnColumnChain,
        Damage::InTwoChains,
        Damage::NextPastQ,
        Damage::FreeNextPastQ,
        Damage::HeadPastQ,
        Damage::FirstFreePastQ,
    ];
}

/// A strip with nothing wrong but this damage.
pub fn damaged_strip(random: &mut Random, damage: Damage) -> Vec<u16> {
    let r = random.word(1, 5);
    let figures = StripFigures {
        w: random.word(20, 40),
        r,
        n: random.word(3, 6),
        g: sound_gap(random, r),
        q: random.between(12, 16) as usize,
    };
    match damage {
        Damage::WidthZero => empty_with(random, StripFigures { w: 0, ..figures }),
        Damage::WidthOver => {
            let w = random.pick(&[16_001, 20_000, 65_535]);
            with_runs(random, StripFigures { w, ..figures }).strip
        }
        Damage::ResolutionZero => with_runs(random, StripFigures { r: 0, ..figures }).strip,
        Damage::ResolutionOver => {
            let r = random.pick(&[401, 1_000, 65_535]);
            with_runs(random, StripFigures { r, ..figures }).strip
        }
        Damage::ColumnsZero => empty_with(random, StripFigures { n: 0, ..figures }),
        Damage::ColumnsOver => {
            let n = random.pick(&[4_097, 5_000, 65_535]);
            with_runs(random, StripFigures { n, ..figures }).strip
        }
        Damage::GapOver => {
            let g = random.pick(&[401, 402, 512, 65_535]);
            with_runs(random, StripFigures { g, ..figures }).strip
        }
        Damage::NoRecords => empty_with(random, StripFigures { q: 0, ..figures }),
        Damage::TooManyRecords => {
            let q = 16_001;
            with_runs(random, StripFigures { q, ..figures }).strip
        }
        _ => {
            let words = with_runs(random, figures);
            damaged_words(random, words, damage)
        }
    }
}

fn empty_with(random: &mut Random, figures: StripFigures) -> Vec<u16> {
    let runs = vec![Vec::new(); usize::from(figures.n)];
    strip_with(random, figures, &runs)
}

/// A strip that has two or three runs, none of them of height 1, in columns 0
/// and 1 and free records. W is at least 20, N at least 3, Q at least 12.
fn with_runs(random: &mut Random, figures: StripFigures) -> Words {
    let mut runs = vec![Vec::new(); usize::from(figures.n)];
    for column in [0, 1] {
        for place in 0..random.word(2, 3) {
            let low = 6 * place + random.word(0, 2);
            runs[column].push((low, low + random.word(2, 3)));
        }
    }
    Words {
        strip: strip_with(random, figures, &runs),
        n: usize::from(figures.n),
        q: figures.q,
    }
}

/// The damages that need runs and free records.
fn damaged_words(random: &mut Random, mut words: Words, damage: Damage) -> Vec<u16> {
    let first_column = random.index(2);
    let chain = words.column_chain(first_column);
    let other_chain = words.column_chain(1 - first_column);
    let free = words.free_chain();
    let some = random.pick(&chain);
    let some_free = random.pick(&free);
    let (last, last_free) = (chain[chain.len() - 1], free[free.len() - 1]);
    let n = words.n as u16;
    match damage {
        Damage::NoGapWord => {
            words.strip.remove(GAP);
        }
        Damage::ColumnsBeyondWords => {
            words.strip[2] = random.word(words.strip.len() as u16 - 4, 4_096);
        }
        Damage::ColumnsShifted => {
            let fewer = n >= 5 && random.once_in(2);
            words.strip[2] = if fewer { n - 4 } else { n + 4 };
        }
        Damage::CutOff => {
            let length = random.index(words.strip.len());
            words.strip.truncate(length);
        }
        Damage::FewWordsLonger => {
            let longer = random.between(1, 3) as usize;
            words.strip.extend(vec![0; longer]);
        }
        Damage::OneRecordLonger => words.strip.extend([n, 0, 0, 0]),
        Damage::ColumnLoop => words.set(last, NEXT, some),
        Damage::FreeLoop => words.set(last_free, NEXT, some_free),
        Damage::ColumnsShareTail => words.set(last, NEXT, random.pick(&other_chain)),
        Damage::FreeSharesTail => words.set(last_free, NEXT, some),
        Damage::ColumnRunsIntoFree => words.set(last, NEXT, some_free),
        Damage::HeadsSwapped => words.strip.swap(LEADING, LEADING + 1),
        Damage::WrongColumn => {
            let column = random.pick(&[1 - first_column as u16, 2, n, n + 1, 65_535]);
            words.set(some, COLUMN, column);
        }
        Damage::TouchingRuns => {
            let high = words.get(chain[0], HIGH);
            words.set(chain[1], LOW, high);
        }
        Damage::OverlappingRuns => {
            let high = words.get(chain[0], HIGH);
            words.set(chain[1], LOW, high - 1);
        }
        Damage::UnsortedRuns => {
            for field in [LOW, HIGH] {
                let (a, b) = (words.get(chain[0], field), words.get(chain[1], field));
                words.set(chain[0], field, b);
                words.set(chain[1], field, a);
            }
        }
        Damage::EmptyRun => {
            let high = words.get(some, HIGH);
            words.set(some, LOW, high);
        }
        Damage::ReversedRun => {
            let (low, high) = (words.get(some, LOW), words.get(some, HIGH));
            words.set(some, LOW, high);
            words.set(some, HIGH, low);
        }
        Damage::HighAboveWidth => {
            let w = words.strip[0];
            let high = random.pick(&[w + 1, 65_535]);
            words.set(last, HIGH, high);
        }
        Damage::FreeColumn => {
            let column = random.pick(&[0, n - 1, n + 1, 65_535]);
            words.set(some_free, COLUMN, column);
        }
        Damage::FreeLow => words.set(some_free, LOW, random.word(1, 65_535)),
        Damage::FreeHigh => words.set(some_free, HIGH, random.word(1, 65_535)),
        Damage::FreeInNoChain => words.strip[3] = free[1],
        Damage::RunInNoChain => words.strip[LEADING + first_column] = chain[1],
        Damage::ColumnChainCut => words.set(chain[0], NEXT, 0),
        Damage::FreeChainCut => {
            let place = random.index(free.len() - 1);
            words.set(free[place], NEXT, 0);
        }
        Damage::LoopOffChain => {
            let place = random.index(free.len() - 1);
            words.set(free[place], NEXT, 0);
            words.set(last_free, NEXT, free[place + 1]);
        }
        Damage::RunOnFreeChain => {
            words.strip[LEADING + first_column] = chain[1];
            words.set(chain[0], NEXT, free[0]);
            words.strip[3] = chain[0];
        }
        Damage::FreeOnColumnChain => {
            words.strip[3] = free[1];
            words.set(free[0], NEXT, chain[0]);
            words.strip[LEADING + first_column] = free[0];
        }
        Damage::InTwoChains => words.strip[LEADING + 2] = chain[0],
        Damage::NextPastQ => words.set(some, NEXT, words.past_q(random)),
        Damage::FreeNextPastQ => words.set(some_free, NEXT, words.past_q(random)),
        Damage::HeadPastQ => {
            let column = random.index(words.n);
            words.strip[LEADING + column] = words.past_q(random);
        }
        Damage::FirstFreePastQ => words.strip[3] = words.past_q(random),
        _ => unreachable!("made by damaged_strip"),
    }
    words.strip
}
