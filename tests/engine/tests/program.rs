//! Program `lay` as it is run: a sheet on standard input, and every byte that it
//! prints beside the text of the reference program.

use engine::data;
use engine::programs::LAY;
use reference::figures::{Figures, Piece};
use reference::generate::outlines::is_sound;
use reference::generate::{
    any_figures, damaged_sheet, job, long_job, sound_pieces, sound_sheet, tied_job, Job, Random,
    SheetDamage, SheetPlan,
};

/// What the program has printed, run by run.
#[derive(Default)]
struct Runs {
    texts: Vec<String>,
}

impl Runs {
    fn run(&mut self, input: &[u8]) -> &str {
        let text = LAY.text(input);
        let shown = &input[..input.len().min(400)];
        assert_eq!(text, reference::lay_text(input), "{shown:?}");
        self.texts.push(text);
        &self.texts[self.texts.len() - 1]
    }

    /// So many runs had a line with these words.
    fn with(&self, words: &str) -> usize {
        let has = |text: &&String| text.lines().any(|line| line.contains(words));
        self.texts.iter().filter(has).count()
    }
}

fn sheet(figures: [u16; 3], outlines: &[(&[u16], u16)]) -> Vec<u8> {
    let [width, resolution, columns] = figures;
    let with_mask = |&(outline, mask): &(&[u16], u16)| Piece {
        outline: outline.to_vec(),
        mask,
    };
    Job {
        figures: Figures {
            width,
            resolution,
            columns,
        },
        pieces: outlines.iter().map(with_mask).collect(),
    }
    .sheet()
}

const SQUARE: [u16; 8] = [0, 0, 4, 0, 4, 4, 0, 4];

/// The example that document 01 prints.
#[test]
fn the_printed_example() {
    let mut runs = Runs::default();
    let text = runs.run(&sheet([10, 2, 10], &[(&SQUARE[..], 1); 3]));
    let example =
        "strip 10 2 10\n1 placed 0 0 0\n2 placed 0 0 4\n3 placed 0 2 0\nused 8 placed 3\n";
    assert_eq!(text, example);
    // An empty job prints its strip line, then the totals.
    let text = runs.run(&sheet([10, 2, 10], &[]));
    assert_eq!(text, "strip 10 2 10\nused 0 placed 0\n");
}

#[test]
fn sound_jobs() {
    let mut runs = Runs::default();
    let mut random = Random::new(101);
    for _ in 0..500 {
        runs.run(&job(&mut random).sheet());
        runs.run(&sound_sheet(&mut random));
    }
    assert_eq!(runs.texts.len(), 1_000);
    assert_eq!(runs.with("job refused"), 0);
    assert!(runs.with("placed 0 ") > 500 && runs.with("refused 13") > 200);
}

/// Turns that end in one column or at one right edge; and strips so long that the used
/// length is over 16 bits, up to N × R.
#[test]
fn right_edges() {
    let mut runs = Runs::default();
    let mut random = Random::new(104);
    for _ in 0..300 {
        runs.run(&tied_job(&mut random).sheet());
    }
    for _ in 0..40 {
        runs.run(&long_job(&mut random).sheet());
    }
    assert_eq!(runs.with("job refused"), 0);
    let over = |text: &&String| used(text) > 65_535;
    assert!(runs.texts.iter().filter(over).count() > 10);
    let bar = |long: u16| [0, 0, long, 0, long, 1, 0, 1];
    let (long, rest) = (bar(16_000), bar(14_400));
    let text = runs.run(&sheet([1, 400, 4_096], &[(&long[..], 1); 5]));
    assert!(text.ends_with("\n5 placed 0 160 0\nused 80000 placed 5\n"));
    // As far as 4,000 records go.
    let mut pieces = vec![(&long[..], 1); 99];
    pieces.push((&rest, 1));
    let text = runs.run(&sheet([1, 400, 3_996], &pieces));
    assert!(text.ends_with("\n100 placed 0 3960 0\nused 1598400 placed 100\n"));
}

/// The used length that a text says.
fn used(text: &str) -> u32 {
    let last = text.lines().last().expect("a line");
    let word = last.split(' ').nth(1).expect("used, and a number");
    word.parse().expect("a number")
}

#[test]
fn damaged_sheets() {
    let mut runs = Runs::default();
    let mut random = Random::new(102);
    for damage in SheetDamage::ALL {
        let times = if damage == SheetDamage::TooLong {
            5
        } else {
            30
        };
        for _ in 0..times {
            let damaged = damaged_sheet(&mut random, damage);
            let text = runs.run(&damaged.bytes);
            let refusal = damaged.refusal;
            let line = format!("job refused {} {}\n", refusal.number, refusal.ordinal);
            assert_eq!(text, line, "{damage:?}");
        }
    }
    assert!(runs.texts.len() >= 900);
    for number in [1, 2, 3, 16, 17, 6, 7, 8, 9, 10, 11] {
        assert!(runs.with(&format!("job refused {number} ")) >= 30);
    }
}

/// W, R and N of any size, and sheets with bytes changed.
#[test]
fn any_figures_and_bytes() {
    let mut runs = Runs::default();
    let mut random = Random::new(103);
    for _ in 0..200 {
        let figures = any_figures(&mut random);
        let pieces = sound_pieces(&mut random, 3, 8);
        runs.run(&SheetPlan::shuffled(&mut random, figures, &pieces, true).bytes());
        let mut sheet = sound_sheet(&mut random);
        let place = random.index(sheet.len());
        sheet[place] = random.word(0, 255) as u8;
        runs.run(&sheet);
    }
    assert!(runs.with("strip") > 100);
    for number in [3, 16, 17] {
        assert!(runs.with(&format!("job refused {number} 0")) > 20);
    }
}

/// Empty input, input of every length up to a whole sheet, and input longer than a
/// sheet may be: refused with 2 for its length, or with 1 for its first bytes.
#[test]
fn every_length() {
    let mut runs = Runs::default();
    assert_eq!(runs.run(&[]), "job refused 1 0\n");
    let whole = sheet([10, 2, 10], &[(&SQUARE, 1)]);
    for length in 0..=whole.len() {
        runs.run(&whole[..length]);
    }
    let mut random = Random::new(104);
    let figures = Figures {
        width: 10,
        resolution: 2,
        columns: 10,
    };
    let mut longest = SheetPlan::shuffled(&mut random, figures, &[], false);
    longest.fill_up(&mut random, 10_920);
    let longest = longest.bytes();
    assert_eq!(longest.len(), 65_536);
    assert_eq!(runs.run(&longest), "strip 10 2 10\nused 0 placed 0\n");
    // 6,555 more records than fit in 65,536 bytes, as V and P say.
    let mut too_long = SheetPlan::shuffled(&mut random, figures, &[], false);
    too_long.fill_up(&mut random, 17_475);
    for more in [1, 2, 6, 100, 39_330] {
        let mut input = too_long.bytes();
        input.truncate(longest.len() + more);
        assert_eq!(runs.run(&input), "job refused 2 0\n");
        input[3] = 7;
        assert_eq!(runs.run(&input), "job refused 1 0\n");
        // The longest sheet with bytes after it.
        let input = [longest.clone(), vec![0; more]].concat();
        assert_eq!(runs.run(&input), "job refused 2 0\n");
    }
    // Much more than a pipe holds.
    let input = [longest, vec![0; 400_000]].concat();
    assert_eq!(runs.run(&input), "job refused 2 0\n");
}

/// "Q 4,000, work buffer 9,000 words": a piece of 3,000 runs is taken and one of
/// 3,001 is not; a strip of 4,000 runs is made and one of 4,001 is not.
#[test]
fn the_programs_buffers() {
    let mut runs = Runs::default();
    let bar = |columns: u16| [0, 0, columns, 0, columns, 1, 0, 1];
    let text = runs.run(&sheet(
        [2, 1, 4_096],
        &[(&bar(3_000), 1), (&bar(3_001), 1), (&bar(3), 1)],
    ));
    assert_eq!(
        text,
        "strip 2 1 4096\n1 placed 0 0 0\n2 refused 12\n3 placed 0 0 1\nused 3000 placed 2\n"
    );
    // Two arms from a column at their left end: two runs in each other column.
    let arms = |c: u16| [0, 0, c, 0, c, 1, 1, 1, 1, 2, c, 2, c, 3, 0, 3];
    let block = |c: u16| [0, 0, c, 0, c, 3, 0, 3];
    let (half, two, three) = (arms(1_000), block(2), block(3));
    let text = runs.run(&sheet(
        [3, 1, 2_003],
        &[
            (&half, 1),
            (&half, 1),
            (&three, 1),
            (&block(4), 1),
            (&two, 1),
        ],
    ));
    assert_eq!(
        text,
        "strip 3 1 2003\n1 placed 0 0 0\n2 placed 0 1000 0\n3 refused 14\n4 refused 13\n\
         5 placed 0 2000 0\nused 2002 placed 3\n"
    );
}

/// 200 pieces have the longest text; 201 are refused.
#[test]
fn the_most_pieces() {
    let mut runs = Runs::default();
    let text = runs.run(&sheet([16_000, 400, 4_096], &[(&SQUARE[..], 15); 200]));
    assert_eq!(text.lines().count(), 202);
    let text = runs.run(&sheet([16_000, 400, 4_096], &[(&SQUARE[..], 15); 201]));
    assert_eq!(text, "job refused 6 0\n");
    // Each height has five digits but the first.
    let tall = [0, 0, 400, 0, 400, 10_000, 0, 10_000];
    let mut pieces = [(&SQUARE[..], 15); 200];
    pieces[0] = (&tall, 1);
    let text = runs.run(&sheet([16_000, 400, 4_096], &pieces));
    assert!(text.ends_with("\n200 placed 0 0 10792\nused 400 placed 200\n"));
}

/// Public outlines, as many as a sheet takes, coarse and fine.
#[test]
fn public_jobs() {
    let mut runs = Runs::default();
    for (file, figures) in [
        (data::NC_COUNTIES, [8_000, 100, 300]),
        (data::NC_COUNTIES, [4_000, 50, 100]),
        (data::NATURAL_EARTH, [1_000, 8, 400]),
        (data::NATURAL_EARTH, [500, 4, 200]),
        (data::SHAPES_2, [15, 1, 40]),
    ] {
        for mask in [1, 4, 15] {
            let mut outlines = data::outlines(file);
            outlines.retain(|outline| is_sound(outline, mask));
            let pieces: Vec<(&[u16], u16)> = outlines
                .iter()
                .take(200)
                .map(|outline| (&outline[..], mask))
                .collect();
            runs.run(&sheet(figures, &pieces));
        }
    }
    assert_eq!(runs.with("job refused"), 0);
    assert!(runs.with("refused 13") >= 3);
}
