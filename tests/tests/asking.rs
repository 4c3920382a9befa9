//! Ask and commit: the trial pieces of document 01 laid in two steps, commits at
//! every position of small strips, and demand 3 "of ask, commit and place", against
//! the plain search over cells of the tests. Each number is in questions.rs.

mod common;
use common::cells::*;
use common::*;
use reference::figures::NUMBERS;
use reference::generate::outlines::is_sound;
use reference::generate::{
    random_runs, sound_mask, sound_outline, strip_with, Call, CommitCall, MixedList, PlaceCall,
    Random, StripFigures,
};
use reference::{same_strip, strip_runs, Position};

/// (0,0) (2,1) (2,0) (0,1): "mask 1 passes, mask 2 gives 10".
const BOW_TIE: [u16; 8] = [0, 0, 2, 1, 2, 0, 0, 1];

// ------------------------------------------------------------- worked by hand

#[test]
fn three_squares_in_two_steps() {
    let mut strip = opened(10, 2, 10, 4);
    let mut placed = strip.clone();
    for position in [at(0, 0, 0), at(0, 0, 4), at(0, 2, 0)] {
        assert_eq!(check_ask(&strip, &S, 1, 6), Ok(position));
        assert_eq!(check_commit(&mut strip, &S, position, 6), Ok(()));
        assert_eq!(check_place(&mut placed, &S, 1, 6), Ok(position));
        assert!(same_strip(&strip, &placed));
    }
    // "Q 3 refuses the third with 14": so do ask and commit.
    let mut strip = opened(10, 2, 10, 3);
    assert_eq!(check_commit(&mut strip, &S, at(0, 0, 0), 6), Ok(()));
    assert_eq!(check_commit(&mut strip, &S, at(0, 0, 4), 6), Ok(()));
    assert_eq!(check_ask(&strip, &S, 1, 6), Err(no(14, 1)));
    let third = check_commit(&mut strip, &S, at(0, 2, 0), 6);
    assert_eq!(third, Err(no(14, 1)));
}

/// An ask enters nothing: asked again it answers the same, and there is room for
/// one piece still.
#[test]
fn an_ask_places_none() {
    let mut strip = opened(4, 2, 2, 2);
    for _ in 0..3 {
        assert_eq!(check_ask(&strip, &S, 15, 6), Ok(at(0, 0, 0)));
    }
    assert_eq!(check_place(&mut strip, &S, 15, 6), Ok(at(0, 0, 0)));
    assert_eq!(check_ask(&strip, &S, 15, 6), Err(no(13, 1)));
}

/// "a committed piece counts as placed there and in what is free"
#[test]
fn a_commit_need_not_be_best() {
    let mut strip = opened(10, 2, 10, 20);
    assert_eq!(check_commit(&mut strip, &S, at(0, 5, 3), 6), Ok(()));
    assert_eq!(
        strip_runs(&strip)[4..8],
        [vec![], vec![(3, 7)], vec![(3, 7)], vec![]]
    );
    // Columns 0 to 3 take four squares; beside the committed one is no room in
    // columns 4 to 6.
    for (column, height) in [(0, 0), (0, 4), (2, 0), (2, 4), (7, 0)] {
        let position = at(0, column, height);
        assert_eq!(check_place(&mut strip, &S, 1, 6), Ok(position));
    }
}

/// T is 0–1, 0–2, 0–2 and U is 0–2, 0–2, 1–2.
#[test]
fn u_over_the_tip_of_t() {
    let mut strip = opened(2, 1, 6, 6);
    assert_eq!(check_commit(&mut strip, &T, at(0, 3, 0), 9), Ok(()));
    assert_eq!(check_ask(&strip, &U, 1, 9), Ok(at(0, 0, 0)));
    // On T; and past the end by one column.
    for column in [2, 3, 4] {
        let answer = check_commit(&mut strip, &U, at(0, column, 0), 9);
        assert_eq!(answer, Err(no(18, 0)), "{column}");
    }
    // Its lower corner is over T's tip, and column 3 is one run.
    assert_eq!(check_commit(&mut strip, &U, at(0, 1, 0), 9), Ok(()));
    let runs = strip_runs(&strip);
    assert!(runs[0].is_empty());
    assert_eq!(
        runs[1..],
        [[(0, 2)], [(0, 2)], [(0, 2)], [(0, 2)], [(0, 2)]]
    );
    assert_eq!(check_ask(&strip, &U, 15, 9), Err(no(13, 1)));
}

#[test]
fn six_by_two_in_either_turn() {
    let bar = rectangle(6, 2);
    let mut low = opened(4, 2, 10, 6);
    assert_eq!(check_ask(&low, &bar, 3, 9), Ok(at(0, 0, 0)));
    assert_eq!(check_commit(&mut low, &bar, at(1, 0, 0), 9), Err(no(18, 0)));
    let mut high = opened(6, 2, 10, 6);
    assert_eq!(check_ask(&high, &bar, 3, 9), Ok(at(1, 0, 0)));
    // The turn that place would not take.
    assert_eq!(check_commit(&mut high, &bar, at(0, 0, 0), 9), Ok(()));
    assert_eq!(
        check_commit(&mut high, &bar, at(1, 2, 0), 9),
        Err(no(18, 0))
    );
    assert_eq!(check_commit(&mut high, &bar, at(1, 3, 0), 9), Ok(()));
    assert_eq!(
        strip_runs(&high)[..5],
        [
            vec![(0, 2)],
            vec![(0, 2)],
            vec![(0, 2)],
            vec![(0, 6)],
            vec![]
        ]
    );
}

#[test]
fn a_bow_tie_in_the_turn_that_passes() {
    let mut strip = opened(10, 1, 10, 6);
    assert_eq!(
        check_commit(&mut strip, &BOW_TIE, at(1, 0, 0), 90),
        Err(no(10, 1))
    );
    assert_eq!(check_commit(&mut strip, &BOW_TIE, at(0, 7, 9), 90), Ok(()));
    assert_eq!(check_ask(&strip, &BOW_TIE, 3, 90), Err(no(10, 1)));
}

// ------------------------------------------------------------- every position

/// A small strip with any runs, and its figures.
fn any_small_strip(random: &mut Random, w: u16, n: u16) -> (StripFigures, Vec<u16>) {
    let figures = StripFigures {
        w: random.word(1, w),
        r: random.word(1, 3),
        n: random.word(1, n),
        g: random.word(0, 4).saturating_sub(1),
        q: random.between(1, 20) as usize,
    };
    let most = random.index(figures.q + 1);
    let runs = random_runs(random, figures.w, figures.n, most);
    let strip = strip_with(random, figures, &runs);
    (figures, strip)
}

/// In each turn at each column and height, one past the strip's end too.
#[test]
fn commits_at_every_position() {
    let mut numbers = [0; NUMBERS];
    for seed in 0..220 {
        let mut random = Random::new(60_000 + seed);
        let (figures, strip) = any_small_strip(&mut random, 7, 5);
        let occupied = cells_of_strip(&strip);
        let outline = sound_outline(&mut random, 15, 4);
        for turn in 0..4 {
            for column in 0..=figures.n + 1 {
                for height in 0..=figures.w + 1 {
                    let position = at(turn, column, height);
                    let expected = expected_commit(&occupied, figures, &outline, position, 90);
                    let mut after = strip.clone();
                    let answer = check_commit(&mut after, &outline, position, 90);
                    let number = answer.map_or_else(|refusal| refusal.number, |()| 0);
                    numbers[usize::from(number)] += 1;
                    match expected {
                        Ok(cells) => {
                            assert_eq!(answer, Ok(()));
                            assert_eq!(cells_of_strip(&after), &occupied | &cells);
                        }
                        Err(expected) => assert_eq!(number, expected),
                    }
                }
            }
        }
    }
    for number in [0, 14, 18] {
        assert!(numbers[number] > 300, "{number}: {numbers:?}");
    }
}

/// "Place stays as ask and commit together", on strips in any order. A commit in
/// another turn or elsewhere would leave other runs, but for pieces alike.
#[test]
fn ask_and_commit_are_place() {
    let mut numbers = [0; NUMBERS];
    for seed in 0..3_000 {
        let mut random = Random::new(70_000 + seed);
        let (_, strip) = any_small_strip(&mut random, 14, 9);
        let (mask, size) = (sound_mask(&mut random), random.word(2, 6));
        let outline = sound_outline(&mut random, mask, size);
        let (mut placed, mut committed) = (strip.clone(), strip);
        let asked = reference::ask(&committed, &outline, mask, &mut [0; 900]);
        let tried = reference::place(&mut placed, &outline, mask, &mut [0; 900]);
        assert_eq!(asked, tried);
        let number = tried.answer.map_or_else(|refusal| refusal.number, |_| 0);
        numbers[usize::from(number)] += 1;
        if let Ok(position) = asked.answer {
            let commit = reference::commit(&mut committed, &outline, position, &mut [0; 900]);
            assert_eq!(commit, Ok(()));
        }
        assert_eq!(strip_runs(&committed), strip_runs(&placed));
    }
    for number in [0, 13, 14] {
        assert!(numbers[number] > 50, "{number}: {numbers:?}");
    }
}

// ---------------------------------------------------------------------- lists

/// A list as its calls tell it: what is placed by "their arguments and answers".
struct Told {
    figures: StripFigures,
    pieces: Vec<Cells>,
    occupied: Cells,
    /// The asks answered since the strip last changed.
    standing: Vec<(PlaceCall, Position)>,
    /// How many commits stood at such an answer, and at one from before a change.
    at_answers: [usize; 2],
    before: Vec<(Vec<u16>, Position)>,
}

impl Told {
    /// The plain search is for small outlines only.
    fn is_plain(outline: &[u16], mask: u16) -> bool {
        outline.iter().all(|&word| word <= 12) && is_sound(outline, mask)
    }

    /// What ask and place answer.
    fn check_best(&self, call: &PlaceCall, answer: Result<Position, u16>) {
        if Told::is_plain(&call.outline, call.mask) {
            let (occupied, outline) = (&self.occupied, &call.outline);
            let expected = expected(occupied, self.figures, outline, call.mask, call.work);
            assert_eq!(answer, expected);
        }
    }

    /// What a commit answers, and the best position of one at an ask's answer.
    fn check_commit(&mut self, call: &CommitCall, answer: Result<(), u16>) {
        let CommitCall {
            outline,
            position,
            work,
        } = call;
        if position.turn <= 3 && Told::is_plain(outline, 1 << position.turn) {
            let expected = expected_commit(&self.occupied, self.figures, outline, *position, *work);
            assert_eq!(answer, expected.map(|_| ()));
        }
        for (ask, found) in &self.standing {
            if ask.outline == *outline && found == position {
                self.at_answers[0] += 1;
                // Only a smaller work buffer can refuse it.
                assert!(answer.is_ok() || answer == Err(12) && *work < ask.work);
                let enough = PlaceCall {
                    work: 9_000,
                    ..ask.clone()
                };
                self.check_best(&enough, Ok(*position));
            }
        }
        let ago = self.before.iter();
        self.at_answers[1] += ago
            .filter(|old| old.0 == *outline && old.1 == *position)
            .count();
    }

    /// "No point may lie inside two pieces", now with one more.
    fn put(&mut self, outline: &[u16], position: Position) {
        let (r, g) = (self.figures.r.into(), self.figures.g.into());
        let cells = cells_of(outline, position.turn, r, g);
        let cells = moved(&cells, position.column.into(), position.height.into());
        let cells = on_strip(cells, self.figures);
        assert!(!cells.is_empty());
        assert!(self
            .pieces
            .iter()
            .all(|earlier| earlier.is_disjoint(&cells)));
        self.occupied.extend(&cells);
        self.pieces.push(cells);
        let changed = self.standing.drain(..);
        self.before
            .extend(changed.map(|(ask, position)| (ask.outline, position)));
    }
}

/// "No point may lie inside two pieces after any list as in demand 3, now of ask,
/// commit and place; a committed piece counts as placed there and in what is free,
/// an ask places none. Best position is promised for place, and, in the ask's
/// allowed turns, for a commit of the same outline at an ask's answer with no other
/// granted call that changes the strip between them."
#[test]
fn lists_of_ask_commit_and_place() {
    let (mut places, mut asks, mut commits) = ([0; NUMBERS], [0; NUMBERS], [0; NUMBERS]);
    let mut at_answers = [0; 2];
    for seed in 0..1_500 {
        let mut random = Random::new(80_000 + seed);
        let figures = small_strip(&mut random);
        let mut strip = opened_as(figures);
        let mut list = MixedList::new(&mut random, 7);
        let mut told = Told {
            figures,
            pieces: Vec::new(),
            occupied: Cells::new(),
            standing: Vec::new(),
            at_answers: [0; 2],
            before: Vec::new(),
        };
        for _ in 0..random.between(1, 20) {
            let number = |refusal: reference::Refusal| refusal.number;
            match list.next_call(&mut random, &strip) {
                Call::Place(call) => {
                    let answer = check_place(&mut strip, &call.outline, call.mask, call.work);
                    let answer = answer.map_err(number);
                    places[usize::from(answer.err().unwrap_or(0))] += 1;
                    told.check_best(&call, answer);
                    if let Ok(position) = answer {
                        told.put(&call.outline, position);
                    }
                }
                Call::Ask(call) => {
                    let answer = check_ask(&strip, &call.outline, call.mask, call.work);
                    let answer = answer.map_err(number);
                    asks[usize::from(answer.err().unwrap_or(0))] += 1;
                    told.check_best(&call, answer);
                    if let Ok(position) = answer {
                        list.found(&call, position);
                        told.standing.push((call, position));
                    }
                }
                Call::Commit(call) => {
                    let (outline, position) = (&call.outline, call.position);
                    let answer = check_commit(&mut strip, outline, position, call.work);
                    let answer = answer.map_err(number);
                    commits[usize::from(answer.err().unwrap_or(0))] += 1;
                    told.check_commit(&call, answer);
                    if answer.is_ok() {
                        told.put(outline, position);
                    }
                }
            }
            assert_eq!(cells_of_strip(&strip), told.occupied);
        }
        at_answers[0] += told.at_answers[0];
        at_answers[1] += told.at_answers[1];
    }
    println!("places {places:?}, asks {asks:?}, commits {commits:?}, {at_answers:?}");
    for (numbers, rest) in [(&places, &[13][..]), (&asks, &[13]), (&commits, &[18])] {
        for &number in [0, 7, 8, 9, 10, 11, 12, 14].iter().chain(rest) {
            assert!(numbers[number] >= 10, "{number}: {numbers:?}");
        }
        assert_eq!(numbers[5], 0);
    }
    assert_eq!((places[18], asks[18], commits[13]), (0, 0, 0));
    assert!(at_answers.iter().all(|&times| times > 200));
}
