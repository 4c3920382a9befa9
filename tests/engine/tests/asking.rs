//! Ask and commit, and place beside them, against the reference program: answer, tries,
//! every word of the strip, the work buffer and the outline. Buffers stand between two pages
//! that cannot be read, now at the one, now at the other, and the strip of an ask
//! cannot be written. Lists are judged on their own, too, by what their calls say.

use engine::data;
use engine::guard::{End, Room};
use reference::cells::stretches;
use reference::distance::{too_close, Shape};
use reference::figures::{no, NUMBERS};
use reference::generate::outlines::zigzag_of;
use reference::generate::{
    any_mask, any_outline, change_words, commit_position, damaged_strip, random_runs, small_gap,
    sound_mask, sound_outline, sound_strip, strip_with, Call, CommitCall, CommitKind, Damage,
    MixedList, PlaceCall, Random, StripFigures,
};
use reference::{runs, strip_runs, Position, Refusal, Tried};
use std::fmt::Debug;

/// How often each number came; 0 is granted.
type Numbers = [u32; NUMBERS];

/// Place and commit: a mask or a position stands after the outline.
type Laying<X, A> = fn(&mut [u16], &[u16], X, &mut [u16]) -> A;

/// The engine beside the reference program, on one call after another.
struct Both {
    random: Random,
    strip: Room,
    outline: Room,
    work: Room,
    places: Numbers,
    asks: Numbers,
    commits: Numbers,
    /// The tries of the places and asks with each number.
    tries: [u64; NUMBERS],
}

fn count<A>(numbers: &mut Numbers, answer: &Result<A, Refusal>) {
    let number = answer.as_ref().err().map_or(0, |refusal| refusal.number);
    numbers[usize::from(number)] += 1;
}

/// What a work buffer holds before a call: no word is 0.
fn other_words(count: usize) -> Vec<u16> {
    (0..count).map(|place| place as u16 | 1).collect()
}

/// What a message shows of a call.
fn shown(strip: &[u16], outline: &[u16], with: impl Debug, work: usize) -> String {
    let strip = &strip[..strip.len().min(200)];
    format!("{with:?} {outline:?} work {work} on {strip:?}")
}

impl Both {
    fn new(seed: u64) -> Both {
        Both {
            random: Random::new(seed),
            strip: Room::new(69_000),
            outline: Room::new(300),
            work: Room::new(1_500_000),
            places: [0; NUMBERS],
            asks: [0; NUMBERS],
            commits: [0; NUMBERS],
            tries: [0; NUMBERS],
        }
    }

    /// One call of both programs on a strip, which is left as the reference program
    /// leaves it, with a work buffer of so many words.
    fn lay<X: Copy + Debug, A: PartialEq + Debug>(
        &mut self,
        [ours, theirs]: [Laying<X, A>; 2],
        strip: &mut [u16],
        outline: &[u16],
        with: X,
        work: usize,
    ) -> A {
        let case = || shown(strip, outline, with, work);
        let mut after = strip.to_vec();
        let answer = theirs(&mut after, outline, with, &mut other_words(work));
        let end = self.random.pick(&[End::Before, End::After]);
        let lent_strip = self.strip.lend_at(end, strip);
        let lent_outline = self.outline.lend_at(end, outline);
        let lent_work = self.work.lend_at(end, &other_words(work));
        let ours = ours(lent_strip, lent_outline, with, lent_work);
        assert_eq!(ours, answer, "{}", case());
        assert!(*lent_strip == *after, "strip: {}", case());
        self.check_others(end, outline, work, &case);
        let kept = self.strip.kept_at(end, strip.len());
        assert!(kept, "beside the strip: {}", case());
        strip.copy_from_slice(&after);
        answer
    }

    /// The work buffer is zero, and the outline and the words beside both stayed.
    fn check_others(&self, end: End, outline: &[u16], work: usize, case: &dyn Fn() -> String) {
        let zero = self.work.held_at(end, work).iter().all(|&word| word == 0);
        assert!(zero, "work: {}", case());
        let stayed = self.outline.held_at(end, outline.len()) == outline;
        assert!(stayed, "outline: {}", case());
        let kept = self.outline.kept_at(end, outline.len()) && self.work.kept_at(end, work);
        assert!(kept, "beside a buffer: {}", case());
    }

    fn place(&mut self, strip: &mut [u16], call: &PlaceCall) -> Result<Position, Refusal> {
        let PlaceCall {
            outline,
            mask,
            work,
        } = call;
        let calls = [engine::place, reference::place];
        let tried = self.lay(calls, strip, outline, *mask, *work);
        count(&mut self.places, &tried.answer);
        self.count_tries(tried)
    }

    fn count_tries(&mut self, tried: Tried) -> Result<Position, Refusal> {
        let number = tried.answer.err().map_or(0, |refusal| refusal.number);
        self.tries[usize::from(number)] += u64::from(tried.tries);
        tried.answer
    }

    fn commit(&mut self, strip: &mut [u16], call: &CommitCall) -> Result<(), Refusal> {
        let CommitCall {
            outline,
            position,
            work,
        } = call;
        let calls = [engine::commit, reference::commit];
        let answer = self.lay(calls, strip, outline, *position, *work);
        count(&mut self.commits, &answer);
        answer
    }

    /// The strip cannot be written meanwhile.
    fn ask(&mut self, strip: &[u16], call: &PlaceCall) -> Result<Position, Refusal> {
        let PlaceCall {
            outline,
            mask,
            work,
        } = call;
        let case = || shown(strip, outline, mask, *work);
        let tried = reference::ask(strip, outline, *mask, &mut other_words(*work));
        let end = self.random.pick(&[End::Before, End::After]);
        let lent_outline = self.outline.lend_at(end, outline);
        let lent_work = self.work.lend_at(end, &other_words(*work));
        let ours = self.strip.lend_to_read(end, strip, |lent_strip| {
            engine::ask(lent_strip, lent_outline, *mask, lent_work)
        });
        assert_eq!(ours, tried, "{}", case());
        assert!(self.strip.held_at(end, strip.len()) == strip, "{}", case());
        self.check_others(end, outline, *work, &case);
        count(&mut self.asks, &tried.answer);
        self.count_tries(tried)
    }

    /// Each of these numbers came at least so often: of ask, of commit.
    fn came(&self, least: u32, asks: &[usize], commits: &[usize]) {
        println!("asks {:?}, commits {:?}", self.asks, self.commits);
        println!("places {:?}, tries {:?}", self.places, self.tries);
        for (name, all, numbers) in [("ask", self.asks, asks), ("commit", self.commits, commits)] {
            for &number in numbers {
                let times = all[number];
                assert!(times >= least, "{name}: {number} came {times} times");
            }
        }
        assert_eq!((self.asks[18], self.commits[13]), (0, 0));
    }
}

/// A strip that the engine opened.
fn opened(figures: StripFigures) -> Vec<u16> {
    let StripFigures { w, r, n, g, q } = figures;
    let mut strip = vec![0xFFFF; 5 + usize::from(n) + 4 * q];
    assert_eq!(engine::open(w, r, n, g, &mut strip), Ok(()));
    strip
}

fn at(turn: u16, column: u16, height: u16) -> Position {
    Position {
        turn,
        column,
        height,
    }
}

fn asking(outline: &[u16], mask: u16, work: usize) -> PlaceCall {
    PlaceCall {
        outline: outline.to_vec(),
        mask,
        work,
    }
}

fn committing(outline: &[u16], position: Position, work: usize) -> CommitCall {
    CommitCall {
        outline: outline.to_vec(),
        position,
        work,
    }
}

// Lists

/// A list as its calls tell it, by their arguments and answers alone.
struct Told {
    r: u16,
    g: u16,
    /// The cells that pieces have on the strip, column by column.
    taken: Vec<Vec<bool>>,
    /// The pieces as their edges say it, without cells.
    shapes: Vec<Shape>,
    /// How many pairs of them there are, and how many would be too close with a gap
    /// of one unit more.
    pairs: [u32; 2],
    /// Commits at the answers of asks since the strip last changed, with their words.
    standing: Vec<CommitCall>,
    /// How many commits were at such an answer with no fewer words, and with fewer.
    at_answers: [u32; 2],
}

impl Told {
    fn new(figures: StripFigures) -> Told {
        Told {
            r: figures.r,
            g: figures.g,
            shapes: Vec::new(),
            pairs: [0; 2],
            taken: vec![vec![false; usize::from(figures.w)]; usize::from(figures.n)],
            standing: Vec::new(),
            at_answers: [0; 2],
        }
    }

    /// One piece more: no cell is in two. Cells past the top or the end don't count.
    fn put(&mut self, outline: &[u16], position: Position) {
        for (column, low, high) in runs(outline, position.turn, self.r, self.g) {
            let place = usize::from(position.column + column);
            let Some(column) = self.taken.get_mut(place) else {
                break;
            };
            let rows = usize::from(position.height + low)..usize::from(position.height + high);
            for cell in column.iter_mut().take(rows.end).skip(rows.start) {
                assert!(!*cell, "in two pieces: {outline:?} at {position:?}");
                *cell = true;
            }
        }
        self.keeps_distance(outline, position);
        self.standing.clear();
    }

    /// "Two points inside different pieces must then differ by at least g in x or in
    /// y"; without a gap, no point is inside two.
    fn keeps_distance(&mut self, outline: &[u16], position: Position) {
        let shape = Shape::new(outline, position, self.r);
        for other in &self.shapes {
            let close = too_close(&shape, other, self.g);
            assert!(!close, "too close: {outline:?} at {position:?}");
            self.pairs[0] += 1;
            self.pairs[1] += u32::from(too_close(&shape, other, self.g + 1));
        }
        self.shapes.push(shape);
    }

    /// At an ask's answer with the strip unchanged only a smaller work buffer can
    /// refuse a commit.
    fn check_commit(&mut self, call: &CommitCall, answer: Result<(), Refusal>) {
        for ask in &self.standing {
            if ask.outline == call.outline && ask.position == call.position {
                let fewer = call.work < ask.work;
                self.at_answers[usize::from(fewer)] += 1;
                let refused_for_it = fewer && answer == Err(no(12, 1));
                assert!(answer.is_ok() || refused_for_it, "{call:?}: {answer:?}");
            }
        }
    }

    /// The strip holds these cells and no others.
    fn check_strip(&self, strip: &[u16]) {
        let columns = strip_runs(strip);
        assert_eq!(columns.len(), self.taken.len());
        for (held, taken) in columns.iter().zip(&self.taken) {
            let held = held.iter().map(|&(low, high)| (low.into(), high.into()));
            assert!(held.eq(stretches(taken)));
        }
    }
}

/// One call of a list and what it tells.
fn next(both: &mut Both, list: &mut MixedList, told: &mut Told, strip: &mut [u16], call: Call) {
    match call {
        Call::Place(call) => {
            if let Ok(position) = both.place(strip, &call) {
                told.put(&call.outline, position);
            }
        }
        Call::Ask(call) => {
            if let Ok(position) = both.ask(strip, &call) {
                list.found(&call, position);
                let commit = committing(&call.outline, position, call.work);
                told.standing.push(commit);
            }
        }
        Call::Commit(call) => {
            let answer = both.commit(strip, &call);
            told.check_commit(&call, answer);
            if answer.is_ok() {
                told.put(&call.outline, call.position);
            }
        }
    }
}

/// 20,000 lists, each on a strip with a gap of this kind, with large outlines or
/// without; what came is checked.
fn lists(seed: u64, large: bool, gap: fn(&mut Random, u16) -> u16) {
    let mut both = Both::new(seed);
    let mut random = Random::new(seed + 1);
    let (mut at_answers, mut pairs) = ([0; 2], [0; 2]);
    for _ in 0..20_000 {
        let r = random.word(1, 5);
        let figures = StripFigures {
            w: random.word(1, 30),
            r,
            n: random.word(1, 24),
            g: gap(&mut random, r),
            q: random.between(1, 40) as usize,
        };
        let mut strip = opened(figures);
        let mut list = MixedList::new(&mut random, 9);
        if !large {
            list = list.without_large();
        }
        let mut told = Told::new(figures);
        for _ in 0..random.between(1, 40).min(random.between(1, 40)) {
            let call = list.next_call(&mut random, &strip);
            next(&mut both, &mut list, &mut told, &mut strip, call);
        }
        told.check_strip(&strip);
        for (sums, of_list) in [(&mut at_answers, told.at_answers), (&mut pairs, told.pairs)] {
            sums[0] += of_list[0];
            sums[1] += of_list[1];
        }
    }
    println!("commits at standing answers, with fewer words {at_answers:?}");
    println!("pairs of pieces, too close for a unit more {pairs:?}");
    assert!(pairs[0] > 10_000 && pairs[1] > 2_000);
    let (asks, commits) = ([7, 8, 9, 10, 11, 12, 13, 14], [7, 8, 9, 10, 11, 12, 14, 18]);
    both.came(150, &asks, &commits);
    assert!(both.asks[0] > 20_000 && both.commits[0] > 20_000);
    assert!(at_answers[0] > 5_000 && at_answers[1] > 500);
    // Tries come with a grant, with 13 and with 14, and with nothing else.
    for (number, &tries) in both.tries.iter().enumerate() {
        match number {
            0 | 13 | 14 => assert!(tries > 1_000, "{number}: {tries}"),
            _ => assert_eq!(tries, 0, "{number}"),
        }
    }
    let ill_formed = [both.places[5], both.asks[5], both.commits[5]];
    assert_eq!(ill_formed, [0; 3], "no call of a list answers 5");
}

#[test]
fn lists_of_ask_commit_and_place() {
    lists(600, true, |_, _| 0);
}

/// 1, 2, R − 1, R, R + 1 and a few more, now and then 400 or any.
#[test]
fn lists_with_gaps() {
    lists(624, false, |random, r| small_gap(random, r).max(1));
}

/// Ask, asked twice, and commit leave the strip of place, word by word: on strips in
/// any order, with records plenty, just enough and one short.
#[test]
fn ask_and_commit_are_place() {
    let mut both = Both::new(602);
    let mut random = Random::new(603);
    let (mut enough, mut short) = (0, 0);
    for _ in 0..8_000 {
        let (w, r, n) = (random.word(1, 20), random.word(1, 4), random.word(1, 12));
        let most = random.index(30);
        let columns = random_runs(&mut random, w, n, most);
        let before: usize = columns.iter().map(Vec::len).sum();
        let (mask, size) = (sound_mask(&mut random), random.word(2, 7));
        let call = asking(&sound_outline(&mut random, mask, size), mask, 3_000);
        let g = random.word(0, 8).saturating_sub(3);
        let mut on = |q: usize, random: &mut Random| {
            let strip = strip_with(random, StripFigures { w, r, n, g, q }, &columns);
            let answer = both.ask(&strip, &call);
            assert_eq!(both.ask(&strip, &call), answer, "asked twice");
            let (mut placed, mut committed) = (strip.clone(), strip);
            assert_eq!(both.place(&mut placed, &call), answer);
            if let Ok(position) = answer {
                let commit = committing(&call.outline, position, call.work);
                assert_eq!(both.commit(&mut committed, &commit), Ok(()));
            }
            assert!(committed == placed);
            let runs: usize = strip_runs(&placed).iter().map(Vec::len).sum();
            (answer, runs)
        };
        let (answer, after) = on(before + 100, &mut random);
        let Ok(position) = answer else { continue };
        let least = before.max(1);
        assert_eq!(on(after.max(least), &mut random).0, Ok(position));
        enough += 1;
        if after > least {
            assert_eq!(on(after - 1, &mut random).0, Err(no(14, 1)));
            short += 1;
        }
    }
    println!("enough {enough}, one short {short}");
    assert!(enough > 3_000 && short > 1_500);
    both.came(1_000, &[0, 13, 14], &[0]);
}

// Commits anywhere

/// In each turn at each column and height, past the end and where 16 bits would wrap.
#[test]
fn commits_at_every_position() {
    let mut both = Both::new(604);
    let mut random = Random::new(605);
    for _ in 0..120 {
        let figures = StripFigures {
            w: random.word(1, 12),
            r: random.word(1, 3),
            n: random.word(1, 7),
            g: random.word(0, 5).saturating_sub(2),
            q: random.between(1, 24) as usize,
        };
        let most = random.index(figures.q + 1);
        let columns = random_runs(&mut random, figures.w, figures.n, most);
        let strip = strip_with(&mut random, figures, &columns);
        let size = random.word(2, 5);
        let outline = sound_outline(&mut random, 15, size);
        let far = [32_768, 65_530, 65_533, 65_534, 65_535];
        for turn in 0..=4 {
            for column in (0..=figures.n + 1).chain(far) {
                for height in (0..=figures.w + 1).chain(far) {
                    let call = committing(&outline, at(turn, column, height), 90);
                    let _ = both.commit(&mut strip.clone(), &call);
                }
            }
        }
    }
    both.came(500, &[], &[0, 9, 14, 18]);
}

/// Positions that are not the best one, with records just enough and one short.
#[test]
fn commits_with_records_just_enough() {
    let mut both = Both::new(606);
    let mut random = Random::new(607);
    let mut short = 0;
    for _ in 0..8_000 {
        let (w, r, n) = (random.word(1, 20), random.word(1, 4), random.word(1, 12));
        let most = random.index(30);
        let columns = random_runs(&mut random, w, n, most);
        let before: usize = columns.iter().map(Vec::len).sum();
        let roomy = StripFigures {
            w,
            r,
            n,
            g: random.word(0, 4).saturating_sub(1),
            q: before + 100,
        };
        let mut strip = strip_with(&mut random, roomy, &columns);
        let size = random.word(2, 7);
        let outline = sound_outline(&mut random, 15, size);
        let position = commit_position(&mut random, CommitKind::Free, &strip, &outline);
        let call = committing(&outline, position, 900);
        if both.commit(&mut strip, &call).is_err() {
            continue;
        }
        let after: usize = strip_runs(&strip).iter().map(Vec::len).sum();
        let least = before.max(1);
        let mut on = |q: usize| {
            let figures = StripFigures { q, ..roomy };
            both.commit(&mut strip_with(&mut random, figures, &columns), &call)
        };
        assert_eq!(on(after.max(least)), Ok(()));
        if after > least {
            assert_eq!(on(after - 1), Err(no(14, 1)));
            short += 1;
        }
    }
    println!("one short {short}");
    assert!(short > 2_000);
    both.came(1_000, &[], &[0, 14, 18]);
}

/// Work buffers around what the turn needs, and what all turns do: a commit asks for
/// its own turn's words alone.
#[test]
fn work_around_what_is_needed() {
    let mut both = Both::new(608);
    let mut random = Random::new(609);
    let mut fewer = 0;
    for _ in 0..600 {
        let (r, size) = (random.word(1, 4), random.word(2, 12));
        let g = random.word(0, 8).saturating_sub(3);
        let outline = sound_outline(&mut random, 15, size);
        let strip = opened(StripFigures {
            w: 30,
            r,
            n: 30,
            g,
            q: 200,
        });
        let needed = [0, 1, 2, 3].map(|turn| 3 * runs(&outline, turn, r, g).len());
        let most = needed.into_iter().max().unwrap_or(0);
        for (turn, needed) in (0..).zip(needed) {
            for work in needed.saturating_sub(3)..=needed + 3 {
                let (mut strip, enough) = (strip.clone(), work >= needed);
                let call = committing(&outline, at(turn, 7, 5), work);
                let answer = both.commit(&mut strip.clone(), &call);
                assert_eq!(answer, if enough { Ok(()) } else { Err(no(12, 1)) });
                let one = asking(&outline, 1 << turn, work);
                assert_eq!(both.ask(&strip, &one).is_ok(), enough);
                let all = asking(&outline, 15, work);
                assert_eq!(both.ask(&strip, &all).is_ok(), work >= most);
                assert_eq!(both.place(&mut strip, &all).is_ok(), work >= most);
                fewer += u32::from(enough && work < most);
            }
        }
    }
    println!("{fewer} commits granted with fewer words than all turns need");
    assert!(fewer > 1_000);
    both.came(1_000, &[0, 12], &[0, 12]);
}

// Bad input

/// 5 comes before what else is wrong, with the work buffer zero all the same.
#[test]
fn damaged_strips() {
    let mut both = Both::new(610);
    let mut random = Random::new(611);
    for round in 0..150 {
        for damage in Damage::ALL {
            // Strips of 64,000 words are for few rounds.
            if damage == Damage::TooManyRecords && round % 25 != 0 {
                continue;
            }
            let mut strip = damaged_strip(&mut random, damage);
            let list = MixedList::new(&mut random, 6);
            for _ in 0..2 {
                let answer = match list.next_call(&mut random, &strip) {
                    Call::Place(call) | Call::Ask(call) => both.ask(&strip, &call).map(|_| ()),
                    Call::Commit(call) => both.commit(&mut strip, &call),
                };
                assert_eq!(answer, Err(no(5, 0)), "{damage:?}");
            }
        }
    }
    both.came(3_000, &[5], &[5]);
}

/// A strip with any gap in its fifth word, over 400 and not: 5 or what place answers
/// with that gap, which need not be the one with which its runs were made.
#[test]
fn gaps_changed_on_the_strip() {
    let mut both = Both::new(626);
    let mut random = Random::new(627);
    for round in 0..4_000 {
        let mut strip = sound_strip(&mut random);
        strip[4] = match round % 4 {
            0 => random.pick(&[401, 402, 512, 65_535]),
            1 => random.word(401, 65_535),
            2 => random.word(0, 400),
            _ => random.pick(&[0, 1, 2, 3, 399, 400]),
        };
        let call = asking(&sound_outline(&mut random, 15, 5), 15, 9_000);
        let answer = both.ask(&strip, &call);
        assert_eq!(answer == Err(no(5, 0)), strip[4] > 400);
        let position = answer.unwrap_or(at(0, 0, 0));
        let commit = committing(&call.outline, position, 9_000);
        let _ = both.commit(&mut strip.clone(), &commit);
        assert_eq!(both.place(&mut strip, &call), answer);
    }
    both.came(300, &[0, 5, 13], &[0, 5, 18]);
}

/// Anything at all: outlines of every kind and size, any mask, turn, column, height and
/// work buffer, on strips in any order, some with words changed.
#[test]
fn any_input() {
    let mut both = Both::new(612);
    let mut random = Random::new(613);
    for _ in 0..10_000 {
        let mut strip = sound_strip(&mut random);
        if random.once_in(4) {
            change_words(&mut random, &mut strip);
        }
        let outline = match random.index(3) {
            0 => any_outline(&mut random),
            _ => sound_outline(&mut random, 15, 5),
        };
        let work = random.index(150);
        let mask = any_mask(&mut random);
        let _ = both.ask(&strip, &asking(&outline, mask, work));
        let kind = random.pick(&CommitKind::ALL);
        let position = commit_position(&mut random, kind, &strip, &outline);
        let _ = both.commit(&mut strip, &committing(&outline, position, work));
    }
    let (asks, commits) = (
        [0, 5, 7, 8, 9, 10, 11, 12, 13, 14],
        [0, 5, 7, 8, 9, 10, 11, 12, 14, 18],
    );
    both.came(50, &asks, &commits);
}

#[test]
fn empty_buffers() {
    let mut both = Both::new(614);
    let strip = opened(StripFigures {
        w: 10,
        r: 2,
        n: 10,
        g: 0,
        q: 2,
    });
    let square = [0, 0, 4, 0, 4, 4, 0, 4];
    for (strip, outline, number) in [
        (&[][..], &[][..], no(5, 0)),
        (&[], &square, no(5, 0)),
        (&strip, &[], no(7, 1)),
        (&strip, &square, no(12, 1)),
    ] {
        let answer = both.ask(strip, &asking(outline, 1, 0));
        assert_eq!(answer, Err(number));
        let call = committing(outline, at(0, 0, 0), 0);
        let answer = both.commit(&mut strip.to_vec(), &call);
        assert_eq!(answer, Err(number));
    }
}

// Large

/// Strips with public outlines for them, without a gap and with one.
fn public_lists(random: &mut Random) -> Vec<(StripFigures, Vec<Vec<u16>>)> {
    let mut counties = data::outlines(data::NC_COUNTIES);
    random.shuffle(&mut counties);
    counties.truncate(16);
    let coarse = StripFigures {
        w: 8_000,
        r: 100,
        n: 80,
        g: 0,
        q: 1_000,
    };
    let fine = StripFigures {
        w: 15,
        r: 1,
        n: 40,
        g: 0,
        q: 300,
    };
    let shapes = vec![data::outlines(data::SHAPES_2); 4].concat();
    vec![
        (StripFigures { g: 40, ..coarse }, counties[..8].to_vec()),
        (coarse, counties),
        (fine, shapes.clone()),
        (StripFigures { g: 1, ..fine }, shapes),
    ]
}

/// Public outlines looked at and then laid, beside a strip on which they are placed.
#[test]
fn public_outlines() {
    let mut both = Both::new(616);
    let mut random = Random::new(617);
    for (figures, outlines) in public_lists(&mut random) {
        let mut told = Told::new(figures);
        let (mut committed, mut placed) = (opened(figures), opened(figures));
        for outline in outlines {
            let mask = random.pick(&[1, 2, 6, 15]);
            let call = asking(&outline, mask, 9_000);
            let answer = both.ask(&committed, &call);
            assert_eq!(both.place(&mut placed, &call), answer);
            if let Ok(position) = answer {
                told.put(&outline, position);
                let needed = 3 * runs(&outline, position.turn, figures.r, figures.g).len();
                let short = committing(&outline, position, needed - 1);
                assert_eq!(both.commit(&mut committed, &short), Err(no(12, 1)));
                let commit = committing(&outline, position, needed);
                assert_eq!(both.commit(&mut committed, &commit), Ok(()));
                // Its place is taken now.
                assert_eq!(both.commit(&mut committed, &commit), Err(no(18, 0)));
            }
            assert!(committed == placed);
        }
    }
    both.came(30, &[0], &[0, 12, 18]);
}

/// Strips of up to 16,000 runs in any order, with pieces of some hundred runs.
#[test]
fn large_strips() {
    let mut both = Both::new(618);
    let mut random = Random::new(619);
    for (w, n, q) in [
        (8_000, 1_000, 4_000),
        (16_000, 4_096, 16_000),
        (16_000, 1, 8_000),
    ] {
        for most in [0, q / 2, q] {
            let columns = random_runs(&mut random, w, n, most);
            let (r, g) = (3, if most == q / 2 { 4 } else { 0 });
            let figures = StripFigures { w, r, n, g, q };
            let mut strip = strip_with(&mut random, figures, &columns);
            for size in [2, 60, 100] {
                let outline = sound_outline(&mut random, 15, size);
                let _ = both.ask(&strip, &asking(&outline, 15, 9_000));
                for kind in CommitKind::ALL {
                    let position = commit_position(&mut random, kind, &strip, &outline);
                    let call = committing(&outline, position, 9_000);
                    let _ = both.commit(&mut strip, &call);
                }
            }
        }
    }
    both.came(5, &[0, 13], &[0, 9, 18]);
}

/// The last cell of the largest strip, and the columns and rows past it.
#[test]
fn the_last_position() {
    let mut both = Both::new(620);
    let figures = StripFigures {
        w: 16_000,
        r: 400,
        n: 4_096,
        g: 0,
        q: 16_000,
    };
    let unit = [0, 0, 1, 0, 1, 1, 0, 1];
    let mut strip = opened(figures);
    let off = [
        (4_096, 15_999),
        (4_095, 16_000),
        (4_096, 0),
        (0, 16_000),
        (65_535, 0),
        (0, 65_535),
        (65_535, 65_535),
    ];
    for (column, height) in off {
        let call = committing(&unit, at(0, column, height), 3);
        assert_eq!(both.commit(&mut strip, &call), Err(no(18, 0)));
    }
    let last = committing(&unit, at(3, 4_095, 15_999), 3);
    assert_eq!(both.commit(&mut strip, &last), Ok(()));
    assert_eq!(both.commit(&mut strip, &last), Err(no(18, 0)));
    assert_eq!(strip_runs(&strip)[4_095], [(15_999, 16_000)]);
}

/// Pieces as large as the strip and as an outline can be, and one of more runs than
/// 16 bits hold.
#[test]
fn the_largest_pieces() {
    let mut both = Both::new(622);
    let square = [0, 0, 16_000, 0, 16_000, 16_000, 0, 16_000];
    for (w, n, off) in [(16_000, 40, false), (15_999, 40, true), (16_000, 39, true)] {
        let figures = StripFigures {
            w,
            r: 400,
            n,
            g: 0,
            q: 40,
        };
        let mut strip = opened(figures);
        let asked = both.ask(&strip, &asking(&square, 15, 120));
        let call = committing(&square, at(2, 0, 0), 120);
        let answer = both.commit(&mut strip, &call);
        if off {
            assert_eq!((asked, answer), (Err(no(13, 1)), Err(no(18, 0))));
        } else {
            assert_eq!((asked, answer), (Ok(at(0, 0, 0)), Ok(())));
        }
    }
    // A band that goes to and fro: 495,010 runs.
    let band: Vec<u16> = zigzag_of(32, 500, 1, 16_000)
        .iter()
        .flat_map(|&(x, y)| [x as u16, y as u16])
        .collect();
    let mut strip = opened(StripFigures {
        w: 16_000,
        r: 1,
        n: 4_096,
        g: 0,
        q: 16_000,
    });
    for (work, asked, number) in [
        (1_485_029, no(12, 1), no(12, 1)),
        (1_485_030, no(13, 1), no(18, 0)),
    ] {
        assert_eq!(both.ask(&strip, &asking(&band, 1, work)), Err(asked));
        let call = committing(&band, at(0, 0, 0), work);
        assert_eq!(both.commit(&mut strip, &call), Err(number));
    }
}

/// What include/vikelodu.h says of the stack: a thread of 256 KB has room.
#[test]
fn on_a_small_stack() {
    let thread = std::thread::Builder::new().stack_size(256 << 10);
    let test = || {
        let mut strip = opened(StripFigures {
            w: 10,
            r: 2,
            n: 10,
            g: 0,
            q: 4,
        });
        let (square, mut work) = ([0, 0, 4, 0, 4, 4, 0, 4], [1; 6]);
        for (position, tries) in [(at(0, 0, 0), 1), (at(0, 0, 4), 2), (at(0, 2, 0), 3)] {
            let tried = engine::ask(&strip, &square, 1, &mut work);
            assert_eq!((tried.answer, tried.tries), (Ok(position), tries));
            let answer = engine::commit(&mut strip, &square, position, &mut work);
            assert_eq!(answer, Ok(()));
        }
    };
    let ended = thread.spawn(test).expect("a thread").join();
    assert!(ended.is_ok());
}
