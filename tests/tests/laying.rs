//! Laying a job: its entries, its totals and its text.

mod common;
use common::*;
use reference::generate::{job, small_gap, sound_sheet, Random};
use reference::outline::{turned, vertices};
use reference::{lay_text, same_strip, Refusal};

/// "Lay reads a sheet, opens the lent strip and places the pieces in chain
/// order, going on after a piece that is refused."
#[test]
fn lay_is_open_and_place_in_chain_order() {
    let mut fates = [0; 16];
    for seed in 0..1_500 {
        let mut random = Random::new(seed);
        let job = job(&mut random);
        let (w, r, n) = (
            job.figures.width,
            job.figures.resolution,
            job.figures.columns,
        );
        let q = random.between(1, 40) as usize;
        let work = if random.once_in(4) {
            random.index(20)
        } else {
            300
        };
        let longer = random.index(5);
        let g = small_gap(&mut random, r);
        let mut strip = opened_with_gap(w, r, n, g, q);
        let mut entries = Vec::new();
        let (mut placed, mut used) = (0, 0);
        for piece in &job.pieces {
            match check_place(&mut strip, &piece.outline, piece.mask, work) {
                Ok(at) => {
                    entries.extend([0, at.turn, at.column, at.height]);
                    placed += 1;
                    let moved = u32::from(at.column) * u32::from(r);
                    for (x, _) in turned(&vertices(&piece.outline), at.turn) {
                        used = used.max(moved + x as u32);
                    }
                }
                Err(Refusal { number, ordinal }) => {
                    assert!((12..=14).contains(&number) && ordinal == 1);
                    entries.extend([number, 0, 0, 0]);
                }
            }
            fates[usize::from(entries[entries.len() - 4])] += 1;
        }
        let lengths = [strip.len(), entries.len() + longer, work];
        let laid = check_lay_with_gap(&job.sheet(), g, lengths).unwrap();
        assert_eq!(laid.output[..entries.len()], entries);
        let before = other_words(lengths[1]);
        assert_eq!(laid.output[entries.len()..], before[entries.len()..]);
        assert_eq!((laid.totals.placed, laid.totals.used), (placed, used));
        assert!(same_strip(&laid.strip, &strip));
        if !entries.is_empty() {
            let short = [lengths[0], entries.len() - 1, work];
            let short = check_lay_with_gap(&job.sheet(), g, short);
            assert_eq!(short, Err(no(15, 0)));
        }
    }
    for fate in [0, 12, 13, 14] {
        assert!(fates[fate] > 50, "{fate}: {fates:?}");
    }
}

/// The text says what lay answers with Q 4,000 and 9,000 work words.
#[test]
fn the_text_of_random_jobs() {
    for seed in 0..300 {
        let mut random = Random::new(5_000 + seed);
        let sheet = sound_sheet(&mut random);
        let (of, words) = check_read(&sheet, 2_000).unwrap();
        let room = [strip_length(of.columns, 4_000), 800, 9_000];
        let laid = check_lay(&sheet, room).unwrap();
        let text = lay_text(&sheet);
        assert!(text.ends_with('\n') && !text.contains("\n\n"));
        let lines: Vec<&str> = text.lines().collect();
        let count = usize::from(words[0]);
        assert_eq!(lines.len(), count + 2);
        let first = format!("strip {} {} {}", of.width, of.resolution, of.columns);
        assert_eq!(lines[0], first);
        for (place, entry) in laid.output.chunks_exact(4).take(count).enumerate() {
            let [number, turn, column, height] = [entry[0], entry[1], entry[2], entry[3]];
            let line = if number == 0 {
                format!("{} placed {turn} {column} {height}", place + 1)
            } else {
                format!("{} refused {number}", place + 1)
            };
            assert_eq!(lines[place + 1], line);
        }
        let totals = format!("used {} placed {}", laid.totals.used, laid.totals.placed);
        assert_eq!(lines[count + 1], totals);
    }
}

/// "Used length, of 32 bits, is the greatest right edge, 0 if none", which is not always
/// that of the last piece placed.
#[test]
fn used_length() {
    let (long, block) = (rectangle(8, 2), rectangle(2, 2));
    let job = sheet(4, 2, 10, &[(&long, 1), (&block, 1)]);
    let laid = check_lay(&job, [strip_length(10, 9), 8, 90]).unwrap();
    assert_eq!(laid.output, [0, 0, 0, 0, 0, 0, 0, 2]);
    assert_eq!((laid.totals.placed, laid.totals.used), (2, 8));
    // Three pieces that end in column 1 of 4 units: the second reaches farthest.
    let ends = [rectangle(5, 2), rectangle(7, 2), rectangle(6, 2)];
    let job = sheet(10, 4, 10, &ends.each_ref().map(|outline| (&outline[..], 1)));
    let laid = check_lay(&job, [strip_length(10, 9), 12, 90]).unwrap();
    assert_eq!(laid.output, [0, 0, 0, 0, 0, 0, 0, 2, 0, 0, 0, 4]);
    assert_eq!((laid.totals.placed, laid.totals.used), (3, 7));
    // None placed.
    let job = sheet(1, 2, 10, &[(&long, 1), (&block, 1)]);
    let laid = check_lay(&job, [strip_length(10, 9), 8, 90]).unwrap();
    assert_eq!(laid.output, [13, 0, 0, 0, 13, 0, 0, 0]);
    assert_eq!((laid.totals.placed, laid.totals.used), (0, 0));
}

/// Over 16 bits: pieces of 16,000 by 1 one after another, and then as far as the longest
/// strip goes, N × R.
#[test]
fn used_length_over_65_535() {
    let (long, rest) = (rectangle(16_000, 1), rectangle(6_400, 1));
    assert_eq!(
        lay_text(&sheet(1, 400, 4_096, &[(&long[..], 1); 5])),
        "strip 1 400 4096\n\
         1 placed 0 0 0\n\
         2 placed 0 40 0\n\
         3 placed 0 80 0\n\
         4 placed 0 120 0\n\
         5 placed 0 160 0\n\
         used 80000 placed 5\n"
    );
    let mut all = vec![(&long[..], 1); 103];
    all.push((&rest, 1));
    let job = sheet(1, 400, 4_096, &all);
    let laid = check_lay(&job, [strip_length(4_096, 4_096), 416, 120]).unwrap();
    assert_eq!(
        laid.output[404..],
        [0, 0, 4_040, 0, 13, 0, 0, 0, 0, 0, 4_080, 0]
    );
    assert_eq!((laid.totals.placed, laid.totals.used), (103, 1_638_400));
}

/// An empty job needs no output and no work, and opens the strip.
#[test]
fn an_empty_job_opens_the_strip() {
    let laid = check_lay(&sheet(10, 2, 7, &[]), [strip_length(7, 1), 0, 0]).unwrap();
    assert_eq!((laid.totals.placed, laid.totals.used), (0, 0));
    assert!(same_strip(&laid.strip, &opened(10, 2, 7, 1)));
    let laid = check_lay(&sheet(10, 2, 7, &[]), [strip_length(7, 1), 3, 3]).unwrap();
    assert_eq!(laid.output, other_words(3));
}

/// Lay doesn't look at what the strip held before.
#[test]
fn the_strip_lent_to_lay_need_not_be_well_formed() {
    let mut strip = vec![65_535; strip_length(10, 4)];
    let job = sheet(10, 2, 10, &[(&S, 1)]);
    let (mut output, mut work) = ([9; 5], [9; 7]);
    let answer = reference::lay(&job, 0, &mut strip, &mut output, &mut work);
    assert!(answer.is_ok());
    assert_eq!(output, [0, 0, 0, 0, 9]);
    assert_eq!(work, [0; 7]);
    let mut expected = opened(10, 2, 10, 4);
    check_place(&mut expected, &S, 1, 6).unwrap();
    assert!(same_strip(&strip, &expected));
}

/// The most pieces a job can have: 200 unit squares fill 20 columns of width 10
/// one after another.
#[test]
fn a_job_of_200_pieces() {
    let unit = rectangle(1, 1);
    let mut expected = String::from("strip 10 1 20\n");
    for place in 0..200 {
        let (column, height) = (place / 10, place % 10);
        expected += &format!("{} placed 0 {column} {height}\n", place + 1);
    }
    expected += "used 20 placed 200\n";
    assert_eq!(
        lay_text(&sheet(10, 1, 20, &[(&unit[..], 1); 200])),
        expected
    );
}
