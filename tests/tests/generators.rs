//! The generators make what they say, and the same from the same seed.

mod common;
use common::*;
use reference::asking::is_on_strip;
use reference::cells::runs_of;
use reference::figures::NUMBERS;
use reference::generate::outlines::is_sound;
use reference::generate::*;
use reference::outline::{extent, some_edges_change_order, turned, vertices};
use reference::placing::{board_of, is_free_plain, turned_piece};
use reference::well_formed;
use std::collections::HashSet;

#[test]
fn the_same_seed_gives_the_same() {
    let make = |seed| {
        let mut random = Random::new(seed);
        (
            any_outline(&mut random),
            sound_strip(&mut random),
            sound_list(&mut random),
            sound_sheet(&mut random),
            any_path(&mut random),
        )
    };
    assert_eq!(make(1), make(1));
    assert_ne!(make(1), make(2));
    // The first numbers of splitmix64 from seed 0.
    let mut random = Random::new(0);
    assert_eq!(random.number(), 0xE220_A839_7B1D_CDAF);
    assert_eq!(random.number(), 0x6E78_9E6A_A1B9_65F4);
}

#[test]
fn each_kind_is_listed_once() {
    let names = |all: &[String]| all.iter().cloned().collect::<HashSet<_>>().len();
    let kinds = OutlineKind::ALL.map(|kind| format!("{kind:?}"));
    assert_eq!(names(&kinds), OutlineKind::ALL.len());
    let kinds = StrokeKind::ALL.map(|kind| format!("{kind:?}"));
    assert_eq!(names(&kinds), StrokeKind::ALL.len());
    let damages = Damage::ALL.map(|damage| format!("{damage:?}"));
    assert_eq!(names(&damages), Damage::ALL.len());
    let damages = ListDamage::ALL.map(|damage| format!("{damage:?}"));
    assert_eq!(names(&damages), ListDamage::ALL.len());
    let damages = SheetDamage::ALL.map(|damage| format!("{damage:?}"));
    assert_eq!(names(&damages), SheetDamage::ALL.len());
    let kinds = CommitKind::ALL.map(|kind| format!("{kind:?}"));
    assert_eq!(names(&kinds), CommitKind::ALL.len());
    let damages = ShapeDamage::ALL.map(|damage| format!("{damage:?}"));
    assert_eq!(names(&damages), ShapeDamage::ALL.len());
    let damages = CoordinateDamage::ALL.map(|damage| format!("{damage:?}"));
    assert_eq!(names(&damages), CoordinateDamage::ALL.len());
}

#[test]
fn outlines_are_of_their_kind() {
    for kind in OutlineKind::ALL {
        for seed in 0..60 {
            let mut random = Random::new(seed);
            let size = random.word(2, 40);
            let words = outline(&mut random, kind, size);
            check_kind(kind, &words, size);
        }
    }
}

fn check_kind(kind: OutlineKind, words: &[u16], size: u16) {
    let good_length = words.len().is_multiple_of(2) && (6..=128).contains(&words.len());
    assert_eq!(good_length, kind != OutlineKind::WrongLength, "{words:?}");
    if !good_length {
        return;
    }
    let over = words.iter().any(|&word| word > 16_000);
    assert_eq!(over, kind == OutlineKind::OverLimit, "{words:?}");
    if over {
        return;
    }
    if kind == OutlineKind::AtLimit {
        assert_eq!(extent(&vertices(words)), (16_000, 16_000));
    } else {
        assert!(words.iter().all(|&word| word <= size), "{kind:?} {words:?}");
    }
    let outline = turned(&vertices(words), 0);
    let has_cells = !runs_of(&outline, 1).is_empty();
    let crossed = |turn| some_edges_change_order(&turned(&outline, turn));
    match kind {
        OutlineKind::Rectangle => assert!(is_sound(words, 15)),
        OutlineKind::Triangle => assert!((0..4).all(|turn| !crossed(turn))),
        OutlineKind::FullStar | OutlineKind::FullRandomWalk => assert_eq!(words.len(), 128),
        OutlineKind::LatticeWalk => assert!((0..4).all(|turn| !crossed(turn))),
        OutlineKind::WalkedTwice | OutlineKind::ThereAndBack | OutlineKind::Flat => {
            assert!(!has_cells, "{words:?}");
        }
        OutlineKind::WalkedThrice => {
            let once = turned(&vertices(&words[..words.len() / 3]), 0);
            assert_eq!(runs_of(&outline, 1), runs_of(&once, 1));
        }
        OutlineKind::BowTieBetween => assert!(has_cells && crossed(0) && crossed(2)),
        OutlineKind::BowTieWhole => assert!(has_cells && !crossed(0) && !crossed(2)),
        OutlineKind::Zigzag => {
            assert!(is_sound(words, 15), "{words:?}");
            assert_eq!(words.len() == 128, size >= 64);
        }
        _ => {}
    }
}

/// Outlines that draw something twice are in the limits; as pieces they pass, and most
/// of these do draw something twice. How often each kind does is in retrace.rs.
#[test]
fn outlines_and_pieces_with_strokes() {
    let mut drawn_twice = 0;
    for seed in 0..300 {
        let mut random = Random::new(seed);
        let most = random.pick(&[3, 9, 100, 16_000]);
        let size = random.word(3, most);
        for kind in StrokeKind::ALL {
            let words = stroke_outline(&mut random, kind, size);
            assert!(words.len().is_multiple_of(2) && (6..=128).contains(&words.len()));
            assert!(words.iter().all(|&word| word <= size), "{kind:?} {words:?}");
        }
        let pieces = stroke_pieces(&mut random, 4, size.min(300));
        assert_eq!(pieces.len(), 4);
        for piece in pieces {
            assert!(is_sound(&piece.outline, piece.mask), "{piece:?}");
            drawn_twice += u32::from(reference::retrace(&piece.outline) != Ok(None));
        }
    }
    println!("{drawn_twice} pieces of 1,200 draw something twice");
    assert!(drawn_twice > 600);
}

#[test]
fn a_zigzag_has_64_vertices_if_there_is_room() {
    let mut random = Random::new(1);
    for size in [64, 100, 1_000, 16_000] {
        let words = outline(&mut random, OutlineKind::Zigzag, size);
        assert_eq!(words.len(), 128);
    }
}

/// Each of the questions 7 to 11 is answered no, and all yes, often enough.
#[test]
fn outlines_of_every_fate() {
    let mut numbers = [0; 16];
    let mut random = Random::new(9);
    for _ in 0..600 {
        let kind = random.pick(&OutlineKind::ALL);
        let size = random.word(2, 12);
        let words = outline(&mut random, kind, size);
        let turn = any_turn(&mut random);
        let answer = check_cover(&words, turn, 1, 40_000);
        numbers[answer.map_or_else(|refusal| usize::from(refusal.number), |_| 0)] += 1;
    }
    for number in [0, 7, 8, 9, 10, 11] {
        assert!(numbers[number] > 15, "{number}: {numbers:?}");
    }
}

#[test]
fn sound_outlines_are_sound() {
    for seed in 0..300 {
        let mut random = Random::new(seed);
        let (mask, size) = (sound_mask(&mut random), random.word(2, 30));
        let words = sound_outline(&mut random, mask, size);
        let mut strip = opened(16_000, 1, 4_096, 16_000);
        let answer = check_place(&mut strip, &words, mask, 10_000);
        assert!(answer.is_ok(), "{answer:?} {words:?}");
    }
}

#[test]
fn sound_strips_are_well_formed_and_varied() {
    let (mut full, mut empty) = (0, 0);
    for seed in 0..500 {
        let mut random = Random::new(seed);
        let strip = sound_strip(&mut random);
        assert!(well_formed(&strip));
        let free = strip[3] != 0;
        let used = reference::strip_runs(&strip)
            .iter()
            .any(|runs| !runs.is_empty());
        full += usize::from(!free);
        empty += usize::from(!used);
    }
    assert!(full > 10 && empty > 10, "{full} {empty}");
}

#[test]
fn damaged_strips_are_ill_formed() {
    for damage in Damage::ALL {
        for seed in 0..300 {
            let mut random = Random::new(1_000 + seed);
            let strip = damaged_strip(&mut random, damage);
            assert!(!well_formed(&strip), "{damage:?} {seed}");
        }
    }
}

/// Changed words make most strips ill formed, and leave some well formed.
#[test]
fn changed_strips_are_of_both_fates() {
    let mut fates = [0; 2];
    for seed in 0..500 {
        let mut random = Random::new(seed);
        let mut strip = sound_strip(&mut random);
        change_words(&mut random, &mut strip);
        fates[usize::from(well_formed(&strip))] += 1;
    }
    assert!(fates[0] > 300 && fates[1] > 20, "{fates:?}");
}

/// A strip with one damage mended is well formed: nothing else was wrong.
#[test]
fn damages_of_the_leading_words_are_the_only_ones() {
    let mends: [(Damage, usize, u16); 5] = [
        (Damage::GapOver, 4, 400),
        (Damage::WidthZero, 0, 1),
        (Damage::WidthOver, 0, 16_000),
        (Damage::ResolutionZero, 1, 1),
        (Damage::ResolutionOver, 1, 400),
    ];
    for (damage, place, word) in mends {
        for seed in 0..50 {
            let mut random = Random::new(seed);
            let mut strip = damaged_strip(&mut random, damage);
            strip[place] = word;
            assert!(well_formed(&strip), "{damage:?} {seed}");
        }
    }
}

/// The form before S-4 lacks the gap and nothing else.
#[test]
fn strips_without_the_gap_lack_only_it() {
    for seed in 0..50 {
        let mut random = Random::new(seed);
        let mut strip = damaged_strip(&mut random, Damage::NoGapWord);
        assert!(!well_formed(&strip), "{seed}");
        strip.insert(4, 0);
        assert!(well_formed(&strip), "{seed}");
    }
}

/// 0, 1, 2, R − 1, R, R + 1 and 400 all come, and gaps over 400 from `any_gap` alone.
#[test]
fn gaps_of_every_kind() {
    for (r, random) in (1..=400).zip((0..).map(Random::new)) {
        let mut random = random;
        let mut came = std::collections::BTreeSet::new();
        for _ in 0..400 {
            let g = sound_gap(&mut random, r);
            assert!(g <= 400 && small_gap(&mut random, r) <= 400);
            came.insert(g);
        }
        for g in [0, 1, 2, r - 1, r, (r + 1).min(400), 400] {
            assert!(came.contains(&g), "{r} {g}");
        }
        let over = (0..400).filter(|_| any_gap(&mut random, r) > 400).count();
        assert!((40..200).contains(&over), "{over}");
    }
}

/// Words changed at random change the gap of some strips, to another in its limits and
/// to one over them, and nothing else.
#[test]
fn changed_strips_have_other_gaps() {
    let mut gaps = [0; 2];
    for seed in 0..2_000 {
        let mut random = Random::new(seed);
        let strip = sound_strip(&mut random);
        let mut changed = strip.clone();
        change_words(&mut random, &mut changed);
        let others_stay = changed[..4] == strip[..4] && changed[5..] == strip[5..];
        if others_stay && changed[4] != strip[4] {
            gaps[usize::from(changed[4] > 400)] += 1;
            assert_eq!(well_formed(&changed), changed[4] <= 400);
        }
    }
    assert!(gaps.iter().all(|&times| times > 30), "{gaps:?}");
}

#[test]
fn figures_in_and_out_of_limits() {
    let mut numbers = [0; NUMBERS];
    for seed in 0..500 {
        let mut random = Random::new(seed);
        let of = any_figures(&mut random);
        let length = strip_length(of.columns, 1);
        let answer = check_open(of.width, of.resolution, of.columns, length);
        numbers[answer.map_or_else(|refusal| usize::from(refusal.number), |_| 0)] += 1;
        let of = small_figures(&mut random);
        let length = strip_length(of.columns, 1);
        assert!(check_open(of.width, of.resolution, of.columns, length).is_ok());
    }
    // The length is right, so 4 does not come.
    assert_eq!(numbers[0] + numbers[3] + numbers[16] + numbers[17], 500);
    for number in [0, 3, 16, 17] {
        assert!(numbers[number] > 50, "{number}: {numbers:?}");
    }
}

#[test]
fn sound_lists_and_sheets_pass() {
    for seed in 0..300 {
        let mut random = Random::new(seed);
        assert!(check_write((10, 2, 10), &sound_list(&mut random), 9_000).is_ok());
        assert!(check_read(&sound_sheet(&mut random), 9_000).is_ok());
        let job = job(&mut random);
        assert!(check_read(&job.sheet(), 9_000).is_ok());
    }
}

/// Pieces of chosen vertex counts pass, and have so many in all.
#[test]
fn pieces_of_so_many_vertices() {
    for vertices in 3..=64 {
        let mut random = Random::new(vertices as u64);
        let piece = sound_piece_of(&mut random, vertices, 8);
        assert_eq!(piece.outline.len(), 2 * vertices);
        assert!(is_sound(&piece.outline, piece.mask));
    }
    for (count, vertices) in [(0, 0), (1, 3), (1, 64), (3, 100), (200, 600), (200, 12_800)] {
        let pieces = sound_pieces_of(&mut Random::new(7), count, vertices);
        let all: usize = pieces.iter().map(|piece| piece.outline.len() / 2).sum();
        assert_eq!((pieces.len(), all), (count, vertices));
    }
}

/// A chain that comes back gets 6 or 7; without a round it ends and passes.
#[test]
fn chains_that_come_back() {
    for (lead, round, fate) in [
        (0, 1, Some(6)),
        (5, 3, Some(6)),
        (0, 200, Some(6)),
        (0, 0, None),
        (200, 0, None),
        (201, 0, Some(6)),
    ] {
        let plan = round_of_pieces(&mut Random::new(8), lead, round);
        let read = check_read(&plan.bytes(), 26_001);
        assert_eq!(read.err().map(|no| no.number), fate, "{lead} {round}");
    }
    for (lead, round, fate) in [
        (2, 1, Some(7)),
        (0, 3, Some(7)),
        (63, 1, Some(7)),
        (0, 64, Some(7)),
        (3, 0, None),
        (64, 0, None),
    ] {
        let plan = round_of_vertices(&mut Random::new(9), lead, round);
        let read = check_read(&plan.bytes(), 26_001);
        assert_eq!(read.err().map(|no| no.number), fate, "{lead} {round}");
    }
}

/// A sheet filled up with spare records reads as before.
#[test]
fn sheets_filled_up() {
    for seed in 0..20 {
        let mut random = Random::new(seed);
        let of = job(&mut random);
        let mut plan = SheetPlan::in_order(of.figures, &of.pieces);
        let before = check_read(&plan.bytes(), 9_000);
        plan.fill_up(&mut random, 10_920);
        assert_eq!(plan.bytes().len(), 65_536);
        assert_eq!(check_read(&plan.bytes(), 9_000), before);
    }
}

/// Positions of commits are of their kind, where the strip has such.
#[test]
fn commits_are_of_their_kind() {
    // Of the kinds Free and Taken: how often there was such a position.
    let mut found = [0; 2];
    for seed in 0..1_000 {
        let mut random = Random::new(seed);
        let strip = sound_strip(&mut random);
        let board = board_of(&strip);
        let size = random.word(2, 5);
        let outline = sound_outline(&mut random, 15, size);
        for kind in CommitKind::ALL {
            let position = commit_position(&mut random, kind, &strip, &outline);
            if kind != CommitKind::Anywhere {
                assert_eq!(position.turn > 3, kind == CommitKind::WrongTurn);
            }
            let piece = turned_piece(&outline, position.turn % 4, board.r, board.g);
            let (c, y) = (i64::from(position.column), i64::from(position.height));
            let on_strip = |spot| is_on_strip(&board, &piece, spot);
            let is_free = on_strip((c, y)) && is_free_plain(&board, &piece, (c, y));
            match kind {
                CommitKind::Free => found[0] += usize::from(is_free),
                CommitKind::Taken => found[1] += usize::from(on_strip((c, y)) && !is_free),
                CommitKind::Corner => {
                    assert!(!on_strip((c + 1, y)) && !on_strip((c, y + 1)));
                    assert_eq!(on_strip((c, y)), on_strip((0, 0)));
                }
                CommitKind::PastEnd => {
                    assert!(!on_strip((c, y)));
                    assert!(c == 0 || on_strip((c - 1, 0)) || !on_strip((0, 0)));
                }
                CommitKind::PastTop => {
                    assert!(!on_strip((c, y)));
                    assert!(y == 0 || on_strip((0, y - 1)) || !on_strip((0, 0)));
                }
                CommitKind::FarColumn => assert_eq!(c, 65_535),
                CommitKind::FarHeight => assert_eq!(y, 65_535),
                CommitKind::FarBoth => assert_eq!((c, y), (65_535, 65_535)),
                CommitKind::WrongTurn | CommitKind::Anywhere => {}
            }
        }
    }
    println!("free {}, taken {} of 1,000", found[0], found[1]);
    assert!(found.iter().all(|&times| times > 250), "{found:?}");
    // A strip that is ill formed has positions, too.
    for seed in 0..300 {
        let mut random = Random::new(seed);
        let damage = random.pick(&Damage::ALL);
        let strip = damaged_strip(&mut random, damage);
        for kind in CommitKind::ALL {
            let outline = any_outline(&mut random);
            commit_position(&mut random, kind, &strip, &outline);
        }
    }
}

/// A mixed list has all three calls, with work buffers that are just enough and too
/// small, and commits at the last answer and at older ones, with the same outline.
/// (Each number is in asking.rs.)
#[test]
fn mixed_lists_are_mixed() {
    let (mut kinds, mut works, mut answers) = ([0; 3], [0; 3], [0; 3]);
    for seed in 0..300 {
        let mut random = Random::new(seed);
        let strip = opened(20, 2, 12, 100);
        let mut list = MixedList::new(&mut random, 7);
        let mut found: Vec<(Vec<u16>, reference::Position)> = Vec::new();
        for _ in 0..20 {
            match list.next_call(&mut random, &strip) {
                Call::Place(_) => kinds[0] += 1,
                Call::Ask(call) => {
                    kinds[1] += 1;
                    if let Ok(position) = check_ask(&strip, &call.outline, call.mask, call.work) {
                        list.found(&call, position);
                        found.push((call.outline, position));
                    }
                }
                Call::Commit(call) => {
                    kinds[2] += 1;
                    let is_at = |(outline, position): &(Vec<u16>, _)| {
                        *outline == call.outline && *position == call.position
                    };
                    let place = found.iter().rev().position(is_at);
                    answers[place.map_or(2, |place| place.min(1))] += 1;
                    if is_sound(&call.outline, 15) && call.position.turn <= 3 {
                        let runs = reference::runs(&call.outline, call.position.turn, 2, 0);
                        works[(call.work + 1).saturating_sub(3 * runs.len()).min(2)] += 1;
                    }
                }
            }
        }
    }
    println!("place, ask, commit {kinds:?}; one short or less, enough, more: {works:?}");
    println!("at the last answer, at an older one, elsewhere: {answers:?}");
    assert!(kinds.iter().all(|&times| times > 500), "{kinds:?}");
    assert!(works.iter().all(|&times| times > 200), "{works:?}");
    assert!(answers.iter().all(|&times| times > 80), "{answers:?}");
}
