//! Place against the reference program: answer, tries, every word of the strip, the
//! work buffer and the outline, with each buffer directly before a page that cannot be
//! read. The reference program checks S-5's bound on each count of tries. The order of the
//! records is the engine's choice, and it is compared too: 1, 2, 3 by column then low, the
//! free ones after them, rising.

use engine::data;
use engine::guard::Room;
use engine::plain_place::Board;
use reference::generate::outlines::zigzag_of;
use reference::generate::{
    any_mask, change_words, damaged_strip, long_job, outline, random_runs, small_gap, sound_mask,
    sound_outline, sound_strip, strip_with, tied_job, Damage, Job, OutlineKind, Random,
    StripFigures,
};
use reference::placing::Steps;
use reference::{runs, strip_runs, Position, Refusal, Tried};

/// The engine beside the reference program, on one call after another.
struct Both {
    strip: Room,
    outline: Room,
    work: Room,
    /// How often each number came; 0 is granted.
    numbers: [u32; 16],
    /// The tries of the calls with each number.
    tries: [u64; 16],
    turns: [u32; 4],
}

impl Both {
    fn new() -> Both {
        Both {
            strip: Room::new(69_000),
            outline: Room::new(300),
            work: Room::new(1_500_000),
            numbers: [0; 16],
            tries: [0; 16],
            turns: [0; 4],
        }
    }

    fn place(
        &mut self,
        strip: &mut [u16],
        outline: &[u16],
        mask: u16,
        work: usize,
    ) -> Result<Position, Refusal> {
        self.place_tries(strip, outline, mask, work).answer
    }

    /// One call, with a work buffer of so many words that are not zero.
    fn place_tries(&mut self, strip: &mut [u16], outline: &[u16], mask: u16, work: usize) -> Tried {
        let case = || format!("{outline:?} mask {mask} work {work} on {:?}", shown(strip));
        let other_words: Vec<u16> = (0..work).map(|place| place as u16 | 1).collect();
        let mut after = strip.to_vec();
        let tried = reference::place(&mut after, outline, mask, &mut other_words.clone());
        let lent_strip = self.strip.lend(strip);
        let lent_outline = self.outline.lend(outline);
        let lent_work = self.work.lend(&other_words);
        let ours = engine::place(lent_strip, lent_outline, mask, lent_work);
        assert_eq!(ours, tried, "{}", case());
        assert!(*lent_strip == *after, "strip: {}", case());
        assert!(lent_work.iter().all(|&word| word == 0), "work: {}", case());
        assert!(*lent_outline == *outline, "outline: {}", case());
        let kept = self.strip.kept_before(strip.len())
            && self.outline.kept_before(outline.len())
            && self.work.kept_before(work);
        assert!(kept, "before a buffer: {}", case());
        self.count(tried);
        strip.copy_from_slice(&after);
        tried
    }

    fn count(&mut self, tried: Tried) {
        let number = tried.answer.err().map_or(0, |refusal| refusal.number);
        self.numbers[usize::from(number)] += 1;
        self.tries[usize::from(number)] += u64::from(tried.tries);
        if let Ok(position) = tried.answer {
            self.turns[usize::from(position.turn)] += 1;
        }
    }

    /// Each of these numbers came at least so often.
    fn came(&self, least: u32, numbers: &[usize]) {
        println!("numbers {:?}, turns {:?}", self.numbers, self.turns);
        println!("tries {:?}", self.tries);
        for &number in numbers {
            let times = self.numbers[number];
            assert!(times >= least, "{number} came {times} times");
        }
        // Tries come with a grant, with 13 and with 14; of 13 some have none.
        for (number, &tries) in self.tries.iter().enumerate() {
            assert!([0, 13, 14].contains(&number) || tries == 0, "{number}");
        }
        assert!(self.tries[0] >= u64::from(self.numbers[0]));
        assert!(self.tries[14] >= u64::from(self.numbers[14]));
    }
}

/// What a message shows of a strip.
fn shown(strip: &[u16]) -> &[u16] {
    &strip[..strip.len().min(200)]
}

/// A strip that the engine opened.
fn opened(figures: StripFigures) -> Vec<u16> {
    let StripFigures { w, r, n, g, q } = figures;
    let mut strip = vec![0xFFFF; 5 + usize::from(n) + 4 * q];
    assert_eq!(engine::open(w, r, n, g, &mut strip), Ok(()));
    strip
}

fn count_runs(strip: &[u16]) -> usize {
    strip_runs(strip).iter().map(Vec::len).sum()
}

/// An outline with the number of runs that it has in each turn.
struct Piece {
    outline: Vec<u16>,
    runs: [usize; 4],
}

impl Piece {
    fn new(outline: Vec<u16>, r: u16, g: u16) -> Piece {
        let runs = [0, 1, 2, 3].map(|turn| runs(&outline, turn, r, g).len());
        Piece { outline, runs }
    }

    /// The words that question 12 asks for.
    fn words(&self, mask: u16) -> usize {
        let allowed = (0..4).filter(|turn| mask >> turn & 1 == 1);
        3 * allowed.map(|turn| self.runs[turn]).max().unwrap_or(0)
    }
}

/// A small outline: most are sound with every mask, some with one, some not.
fn small_outline(random: &mut Random, size: u16) -> Vec<u16> {
    match random.index(8) {
        0 | 1 => {
            let kind = random.pick(&OutlineKind::ALL);
            // At 16,000 units the reference program takes its time.
            if kind == OutlineKind::AtLimit {
                return sound_outline(random, 15, size);
            }
            outline(random, kind, size)
        }
        2 => {
            let mask = sound_mask(random);
            sound_outline(random, mask, size)
        }
        _ => sound_outline(random, 15, size),
    }
}

/// One call of a list: a place in its pieces, a mask, and the work words.
#[derive(Clone, Copy)]
struct Call {
    piece: usize,
    mask: u16,
    work: usize,
}

struct List {
    figures: StripFigures,
    pieces: Vec<Piece>,
    calls: Vec<Call>,
}

/// A list of 1 to 40 calls with up to 8 outlines, some of which come often.
fn small_list(random: &mut Random, with_gap: bool) -> List {
    let r = random.word(1, 5);
    let figures = StripFigures {
        w: random.word(1, 30),
        r,
        n: random.word(1, 24),
        g: if with_gap { small_gap(random, r) } else { 0 },
        q: random.between(1, 40) as usize,
    };
    let pieces: Vec<Piece> = (0..random.between(1, 8))
        .map(|_| {
            let size = random.word(2, 9);
            Piece::new(small_outline(random, size), figures.r, figures.g)
        })
        .collect();
    let count = random.between(1, 40).min(random.between(1, 40));
    let calls = (0..count)
        .map(|_| {
            let piece = random.index(pieces.len());
            let mask = match random.index(2) {
                0 => any_mask(random),
                _ => sound_mask(random),
            };
            let words = pieces[piece].words(mask);
            let work = match random.index(12) {
                0 => words.saturating_sub(1),
                1 => random.index(words + 1),
                2 => words + random.index(8),
                _ => words,
            };
            Call { piece, mask, work }
        })
        .collect();
    List {
        figures,
        pieces,
        calls,
    }
}

/// Lays a list on a strip with so many records; the most runs it ever had.
fn lay(both: &mut Both, list: &List, q: usize) -> usize {
    let StripFigures { w, r, n, g, .. } = list.figures;
    let mut strip = opened(StripFigures { w, r, n, g, q });
    let mut plain = Board::open(w, r, n, g, q);
    let mut most = 0;
    for call in &list.calls {
        let outline = &list.pieces[call.piece].outline;
        let tried = both.place_tries(&mut strip, outline, call.mask, call.work);
        assert_eq!(plain.place(outline, call.mask, call.work), tried, "plain");
        if tried.answer.is_ok() {
            most = most.max(count_runs(&strip));
        }
    }
    assert!(plain.columns() == strip_runs(&strip), "plain");
    most
}

/// Lists from a granted open, with the records of any number, plenty, just enough
/// and one short.
#[test]
fn lists_on_small_strips() {
    let mut both = Both::new();
    let mut random = Random::new(41);
    let (mut lists, mut exact) = (0, 0);
    for round in 0..16_000 {
        let list = small_list(&mut random, round % 3 != 0);
        if round % 4 != 0 {
            lay(&mut both, &list, list.figures.q);
            lists += 1;
            continue;
        }
        let most = lay(&mut both, &list, 500);
        lists += 1;
        if most >= 2 {
            let before = both.numbers[14];
            lay(&mut both, &list, most);
            assert_eq!(both.numbers[14], before, "just enough");
            lay(&mut both, &list, most - 1);
            assert!(both.numbers[14] > before, "one short");
            lists += 2;
            exact += 1;
        }
    }
    println!("lists {lists}, with records just enough and one short {exact}");
    assert!(lists >= 20_000 && exact >= 2_000);
    both.came(2_000, &[0, 7, 8, 9, 10, 11, 12, 13, 14]);
    assert_eq!(both.numbers[5], 0, "no call of a list answers 5");
    assert!(both.turns.iter().all(|&times| times > 1_000));
}

/// The pieces of a job as a list of calls, each with work words enough.
fn list_of(job: &Job, g: u16, q: usize) -> List {
    let figures = StripFigures {
        w: job.figures.width,
        r: job.figures.resolution,
        n: job.figures.columns,
        g,
        q,
    };
    let pieces: Vec<Piece> = job
        .pieces
        .iter()
        .map(|piece| Piece::new(piece.outline.clone(), figures.r, g))
        .collect();
    let calls = job.pieces.iter().zip(&pieces).enumerate();
    let calls = calls.map(|(piece, (of, with_runs))| Call {
        piece,
        mask: of.mask,
        work: with_runs.words(of.mask),
    });
    List {
        figures,
        calls: calls.collect(),
        pieces,
    }
}

/// How often each step of S-7's order is needed in a list.
fn count_steps(steps: &mut Steps, list: &List) {
    let mut strip = opened(list.figures);
    for call in &list.calls {
        let outline = &list.pieces[call.piece].outline;
        steps.count(&strip, outline, call.mask);
        engine::place(&mut strip, outline, call.mask, &mut vec![0; call.work]);
    }
}

/// Lists of pieces whose turns end in one column or at one right edge.
#[test]
fn lists_with_ties() {
    let mut both = Both::new();
    let mut random = Random::new(51);
    let mut steps = Steps::default();
    for round in 0..6_000 {
        let job = tied_job(&mut random);
        let g = match round % 2 {
            0 => small_gap(&mut random, job.figures.resolution),
            _ => 0,
        };
        let q = random.between(1, 80) as usize;
        let list = list_of(&job, g, q);
        lay(&mut both, &list, q);
        count_steps(&mut steps, &list);
    }
    println!("{steps:?}");
    assert!(steps.edge > 6_000 && steps.top > 600 && steps.turn > 6_000);
    both.came(800, &[0, 13, 14]);
    assert!(both.turns.iter().all(|&times| times > 1_000));
}

/// Long strips: right edges over 16 bits are compared.
#[test]
fn lists_on_long_strips() {
    let mut both = Both::new();
    let mut random = Random::new(52);
    for _ in 0..80 {
        let job = long_job(&mut random);
        let g = random.pick(&[0, 0, 0, 1, 2, 40]);
        let q = random.pick(&[60, 400, 4_000]);
        lay(&mut both, &list_of(&job, g, q), q);
    }
    both.came(30, &[0, 14]);
}

/// 300 by 400 on a strip whose first columns of 400 units are taken: in column 163 it ends
/// at 65,500, or a quarter turned at 65,600, which is 64 in 16 bits.
#[test]
fn a_right_edge_over_65_535() {
    let mut both = Both::new();
    let mut random = Random::new(53);
    let outline = [0, 0, 300, 0, 300, 400, 0, 400];
    let figures = StripFigures {
        w: 1_000,
        r: 400,
        n: 4_096,
        g: 0,
        q: 4_096,
    };
    for taken in [162, 163, 164, 4_095] {
        let mut columns = vec![vec![(0, 1_000)]; taken];
        columns.resize(4_096, Vec::new());
        let strip = strip_with(&mut random, figures, &columns);
        for (mask, turn) in [(3, 0), (6, 2), (9, 0), (10, 1), (12, 2), (15, 0)] {
            let expected = Position {
                turn,
                column: taken as u16,
                height: 0,
            };
            let answer = both.place(&mut strip.clone(), &outline, mask, 3);
            assert_eq!(answer, Ok(expected), "mask {mask}");
        }
    }
}

/// Single calls on well-formed strips whose records are in any order, with runs
/// that no outline could have made; with Q plenty, just enough and one short.
#[test]
fn strips_in_another_order() {
    let mut both = Both::new();
    let mut random = Random::new(42);
    let (mut enough, mut short, mut fewer) = (0, 0, 0);
    for _ in 0..12_000 {
        let (w, r, n) = (random.word(1, 20), random.word(1, 4), random.word(1, 12));
        let most = random.index(30);
        let columns = random_runs(&mut random, w, n, most);
        let before: usize = columns.iter().map(Vec::len).sum();
        let size = random.word(2, 7);
        let g = small_gap(&mut random, r);
        let piece = Piece::new(small_outline(&mut random, size), r, g);
        let mask = any_mask(&mut random);
        let work = piece.words(mask);
        let mut on = |q: usize, random: &mut Random| {
            let mut strip = strip_with(random, StripFigures { w, r, n, g, q }, &columns);
            let answer = both.place(&mut strip, &piece.outline, mask, work);
            (answer, count_runs(&strip))
        };
        let (answer, after) = on(before + 100, &mut random);
        if answer.is_err() {
            continue;
        }
        fewer += u32::from(after < before);
        let least = before.max(1);
        assert_eq!(on(after.max(least), &mut random).0, answer);
        enough += 1;
        if after > least {
            let refused = on(after - 1, &mut random).0;
            assert_eq!(refused.map_err(|no| no.number), Err(14));
            short += 1;
        }
    }
    println!("enough {enough}, one short {short}, fewer runs than before {fewer}");
    assert!(enough > 3_000 && short > 1_500 && fewer > 100);
    both.came(100, &[0, 7, 8, 9, 10, 11, 13, 14]);
}

/// 5 comes before what else is wrong, with the work buffer zero all the same.
#[test]
fn damaged_strips() {
    let mut both = Both::new();
    let mut random = Random::new(43);
    let mut changed = [0; 2];
    for round in 0..250 {
        for damage in Damage::ALL {
            // Strips of 64,000 words are for few rounds.
            if damage == Damage::TooManyRecords && round % 25 != 0 {
                continue;
            }
            let mut strip = damaged_strip(&mut random, damage);
            let (outline, mask) = (small_outline(&mut random, 6), any_mask(&mut random));
            let work = random.index(60);
            let answer = both.place(&mut strip, &outline, mask, work);
            let ill_formed = Refusal {
                number: 5,
                ordinal: 0,
            };
            assert_eq!(answer, Err(ill_formed), "{damage:?}");
        }
        for _ in 0..20 {
            let mut strip = sound_strip(&mut random);
            change_words(&mut random, &mut strip);
            let outline = small_outline(&mut random, 5);
            let answer = both.place(&mut strip, &outline, 15, 100);
            let is_5 = answer.is_err_and(|no| no.number == 5);
            changed[usize::from(is_5)] += 1;
        }
    }
    println!("changed: well formed, ill formed {changed:?}");
    both.came(10_000, &[5]);
    assert!(changed[0] > 300 && changed[1] > 3_000);
}

/// A list of public outlines, all of them sound, until so many are placed or
/// refused.
fn public_list(both: &mut Both, figures: StripFigures, outlines: &[Vec<u16>], masks: &[u16]) {
    let mut random = Random::new(44);
    let mut strip = opened(figures);
    for outline in outlines {
        let mask = random.pick(masks);
        let words = Piece::new(outline.clone(), figures.r, figures.g).words(mask);
        let short = random.once_in(16);
        let answer = both.place(&mut strip, outline, mask, words - usize::from(short));
        assert_eq!(short, answer.is_err_and(|no| no.number == 12));
    }
}

#[test]
fn public_counties() {
    let mut both = Both::new();
    let mut random = Random::new(45);
    let mut counties = data::outlines(data::NC_COUNTIES);
    random.shuffle(&mut counties);
    let coarse = StripFigures {
        w: 8_000,
        r: 100,
        n: 80,
        g: 0,
        q: 1_000,
    };
    public_list(&mut both, coarse, &counties[..30], &[1, 2, 6, 15]);
    // Not room enough for all.
    let fine = StripFigures {
        w: 4_000,
        r: 20,
        n: 120,
        g: 0,
        q: 400,
    };
    public_list(&mut both, fine, &counties[30..50], &[1, 4, 10]);
    both.came(2, &[0, 12, 13, 14]);
}

#[test]
fn public_countries() {
    let mut both = Both::new();
    let mut random = Random::new(46);
    let mut countries = data::outlines(data::NATURAL_EARTH);
    random.shuffle(&mut countries);
    let figures = StripFigures {
        w: 1_000,
        r: 8,
        n: 400,
        g: 0,
        q: 4_000,
    };
    public_list(&mut both, figures, &countries[..150], &[1, 3, 8, 15]);
    both.came(3, &[0, 12]);
}

/// The data set Shapes2 as it is known: four of each shape, width 15.
#[test]
fn public_shapes() {
    let mut both = Both::new();
    let shapes = vec![data::outlines(data::SHAPES_2); 4].concat();
    for (r, n) in [(1, 40), (2, 20), (5, 9)] {
        let figures = StripFigures {
            w: 15,
            r,
            n,
            g: 0,
            q: 300,
        };
        for masks in [&[1][..], &[5], &[15]] {
            public_list(&mut both, figures, &shapes, masks);
        }
    }
    both.came(5, &[0, 12]);
}

/// Counties five millimetres apart and fifty, Shapes2 with gaps around R.
#[test]
fn public_outlines_with_gaps() {
    let mut both = Both::new();
    let mut random = Random::new(50);
    let mut counties = data::outlines(data::NC_COUNTIES);
    random.shuffle(&mut counties);
    for (r, n, g, q) in [(100, 120, 40, 2_000), (40, 160, 400, 1_500)] {
        let w = 8_000;
        let figures = StripFigures { w, r, n, g, q };
        public_list(&mut both, figures, &counties[..12], &[1, 2, 6, 15]);
    }
    let shapes = vec![data::outlines(data::SHAPES_2); 4].concat();
    for (r, n) in [(1, 60), (2, 30), (5, 14)] {
        for g in [1, r - 1, r, r + 1, 7] {
            let (w, q) = (15, 400);
            let figures = StripFigures { w, r, n, g, q };
            public_list(&mut both, figures, &shapes, &[1, 5, 15]);
        }
    }
    both.came(20, &[0, 12]);
}

/// Strips so low and short that gaps reach past their top and their end, with runs on
/// them, and the gaps 0, 1, 2, those around R and W, and 400.
#[test]
fn gaps_past_the_top_and_the_end() {
    let mut both = Both::new();
    let mut random = Random::new(52);
    for _ in 0..12_000 {
        let (w, n, r) = (random.word(1, 10), random.word(1, 5), random.word(1, 6));
        let g = match random.index(16) {
            0 => 400,
            1..=6 => random.pick(&[0, 1, 2, w, n * r]),
            _ => random.word(r - 1, r + 1),
        };
        let q = random.between(1, 12) as usize;
        let most = random.index(q + 1).min(4);
        let columns = random_runs(&mut random, w, n, most);
        let figures = StripFigures { w, r, n, g, q };
        let mut strip = strip_with(&mut random, figures, &columns);
        let size = random.word(2, 5);
        let piece = Piece::new(small_outline(&mut random, size), r, g);
        for _ in 0..3 {
            let mask = sound_mask(&mut random);
            let short = usize::from(random.once_in(12));
            let words = piece.words(mask).saturating_sub(short);
            let _ = both.place(&mut strip, &piece.outline, mask, words);
        }
    }
    both.came(500, &[0, 12, 13, 14]);
}

/// A comb put between the teeth of another: a strip with no record free has fewer
/// runs after it. On the way they must not be more than the records.
#[test]
fn a_full_strip_that_a_piece_fills_up() {
    let mut both = Both::new();
    // Column 0 is the comb's back; its teeth are rows 1, 3, 5, 7 and 9 of columns 1 to 3.
    let mut comb = vec![0, 0, 0, 11, 1, 11];
    for tooth in (0..5).rev() {
        let (low, high) = (2 * tooth + 1, 2 * tooth + 2);
        comb.extend([1, high, 4, high, 4, low, 1, low]);
    }
    comb.extend([1, 0]);
    let rows: Vec<(u16, u16)> = (0..6).map(|tooth| (2 * tooth, 2 * tooth + 1)).collect();
    let columns = [vec![], rows.clone(), rows.clone(), rows];
    for q in 18..22 {
        let figures = StripFigures {
            w: 11,
            r: 1,
            n: 4,
            g: 0,
            q,
        };
        let mut strip = strip_with(&mut Random::new(47), figures, &columns);
        assert!(both.place(&mut strip, &comb, 1, 48).is_ok());
        assert_eq!(strip_runs(&strip), vec![vec![(0, 11)]; 4]);
    }
    // On an empty strip it takes 16.
    for (q, number) in [(16, None), (15, Some(14))] {
        let figures = StripFigures {
            w: 11,
            r: 1,
            n: 4,
            g: 0,
            q,
        };
        let answer = both.place(&mut opened(figures), &comb, 1, 48);
        assert_eq!(answer.err().map(|no| no.number), number);
    }
}

/// Strips of up to 16,000 runs in any order, with a piece of some hundred runs.
#[test]
fn large_strips() {
    let mut both = Both::new();
    let mut random = Random::new(48);
    for (w, n, q) in [
        (8_000, 1_000, 4_000),
        (16_000, 4_096, 16_000),
        (16_000, 4_096, 15_000),
        (1, 4_096, 4_096),
        (16_000, 1, 8_000),
    ] {
        for most in [0, q / 2, q] {
            let columns = random_runs(&mut random, w, n, most);
            let figures = StripFigures {
                w,
                r: 3,
                n,
                g: 0,
                q,
            };
            let mut strip = strip_with(&mut random, figures, &columns);
            for size in [2, 60, 400] {
                let piece = Piece::new(sound_outline(&mut random, 15, size), figures.r, 0);
                let _ = both.place(&mut strip, &piece.outline, 15, piece.words(15));
            }
        }
    }
    both.came(5, &[0, 13]);
}

/// A triangle of 60 columns that has no room among 16,000 runs, four in each column:
/// more tries than 16 bits hold.
#[test]
fn more_tries_than_16_bits_hold() {
    let mut both = Both::new();
    let figures = StripFigures {
        w: 16_000,
        r: 100,
        n: 4_000,
        g: 3,
        q: 16_000,
    };
    let columns: Vec<Vec<(u16, u16)>> = (0..figures.n)
        .map(|column| {
            let low = (u32::from(column) * 1_597 % 3_999) as u16;
            let lows = [low, low + 4_000, low + 8_000, low + 12_000];
            lows.map(|low| (low, low + 1)).to_vec()
        })
        .collect();
    let mut strip = strip_with(&mut Random::new(53), figures, &columns);
    let triangle = [0, 0, 6_000, 0, 6_000, 6_000];
    let tried = both.place_tries(&mut strip, &triangle, 15, 900);
    assert_eq!(tried.answer.map_err(|no| no.number), Err(13));
    println!("{} tries", tried.tries);
    assert!(tried.tries > 65_535);
}

/// Positions at the far end and at the top of the largest strip.
#[test]
fn the_last_position() {
    let mut both = Both::new();
    let figures = StripFigures {
        w: 16_000,
        r: 400,
        n: 4_096,
        g: 0,
        q: 16_000,
    };
    let unit = [0, 0, 1, 0, 1, 1, 0, 1];
    let mut columns = vec![vec![(0, 16_000)]; 4_096];
    columns[4_095] = vec![(0, 15_999)];
    let mut strip = strip_with(&mut Random::new(49), figures, &columns);
    let answer = both.place(&mut strip, &unit, 15, 3);
    let last = Position {
        turn: 0,
        column: 4_095,
        height: 15_999,
    };
    assert_eq!(answer, Ok(last));
    let answer = both.place(&mut strip, &unit, 15, 3);
    assert_eq!(answer.map_err(|no| no.number), Err(13));
}

/// Pieces as large as the strip, and as an outline can be.
#[test]
fn the_largest_pieces() {
    let mut both = Both::new();
    let square = [0, 0, 16_000, 0, 16_000, 16_000, 0, 16_000];
    for (w, n, number) in [
        (16_000, 40, None),
        (15_999, 40, Some(13)),
        (16_000, 39, Some(13)),
    ] {
        let figures = StripFigures {
            w,
            r: 400,
            n,
            g: 0,
            q: 40,
        };
        let answer = both.place(&mut opened(figures), &square, 1, 120);
        assert_eq!(answer.err().map(|no| no.number), number);
    }
    // A band that goes to and fro: 495,010 runs, more than 16 bits hold.
    let band: Vec<u16> = zigzag_of(32, 500, 1, 16_000)
        .iter()
        .flat_map(|&(x, y)| [x as u16, y as u16])
        .collect();
    let figures = StripFigures {
        w: 16_000,
        r: 1,
        n: 4_096,
        g: 0,
        q: 16_000,
    };
    for (work, number) in [(1_485_029, 12), (1_485_030, 13)] {
        let answer = both.place(&mut opened(figures), &band, 1, work);
        assert_eq!(answer.map_err(|no| no.number), Err(number));
    }
}
