//! Lists of place calls, and lists of place, ask and commit calls.

use super::{
    any_mask, any_outline, any_turn, outline, sound_mask, sound_outline, OutlineKind, Random,
};
use crate::asking::is_on_strip;
use crate::figures::Position;
use crate::outline::{columns_wide, extent, turned, vertices};
use crate::placing::{board_of, is_free_plain, turned_piece, Board, Spot};
use crate::{runs, well_formed};

/// One call of a list of place calls, or an ask, which takes the same.
#[derive(Clone, Debug)]
pub struct PlaceCall {
    pub outline: Vec<u16>,
    pub mask: u16,
    /// The length of the work buffer in words.
    pub work: usize,
}

/// A list of place calls: "Each call gets any outline, mask and work buffer".
/// Most have a sound outline of up to this size and work words enough.
pub fn place_calls(random: &mut Random, count: usize, size: u16) -> Vec<PlaceCall> {
    (0..count)
        .map(|_| {
            let mask = any_mask(random);
            let small = random.word(2, size);
            let outline = if random.once_in(8) {
                any_outline(random)
            } else {
                let some_mask = if (1..=15).contains(&mask) { mask } else { 15 };
                sound_outline(random, some_mask, small)
            };
            let work = if random.once_in(8) {
                random.index(12)
            } else {
                9_000
            };
            PlaceCall {
                outline,
                mask,
                work,
            }
        })
        .collect()
}

#[derive(Clone, Debug)]
pub struct CommitCall {
    pub outline: Vec<u16>,
    pub position: Position,
    /// The length of the work buffer in words.
    pub work: usize,
}

/// One call of a list "of ask, commit and place".
#[derive(Clone, Debug)]
pub enum Call {
    Place(PlaceCall),
    Ask(PlaceCall),
    Commit(CommitCall),
}

/// Where a commit would have its piece.
#[derive(Clone, Copy, Debug, PartialEq, Eq)]
pub enum CommitKind {
    /// On the strip and free, if one of some places is.
    Free,
    /// On the strip and not free, if one of some places is.
    Taken,
    /// As far right and as high as there is strip.
    Corner,
    /// One column too far right.
    PastEnd,
    /// One row too high.
    PastTop,
    /// At column 65,535, at height 65,535, at both.
    FarColumn,
    FarHeight,
    FarBoth,
    /// In no turn: 4 and up.
    WrongTurn,
    Anywhere,
}

impl CommitKind {
    pub const ALL: [CommitKind; 10] = [
        CommitKind::Free,
        CommitKind::Taken,
        CommitKind::Corner,
        CommitKind::PastEnd,
        CommitKind::PastTop,
        CommitKind::FarColumn,
        CommitKind::FarHeight,
        CommitKind::FarBoth,
        CommitKind::WrongTurn,
        CommitKind::Anywhere,
    ];
}

/// A position of the kind for this outline on the strip as it stands.
pub fn commit_position(
    random: &mut Random,
    kind: CommitKind,
    strip: &[u16],
    outline: &[u16],
) -> Position {
    let turn = match kind {
        CommitKind::WrongTurn => random.pick(&[4, 5, 6, 7, 8, 255, 256, 65_532, 65_535]),
        CommitKind::Anywhere => any_turn(random),
        _ => random.word(0, 3),
    };
    let (column, height) = commit_spot(random, kind, &board(strip), outline, turn % 4);
    Position {
        turn,
        column: column as u16,
        height: height as u16,
    }
}

/// The board of the strip; of one that is ill formed, a small board with nothing
/// on it.
fn board(strip: &[u16]) -> Board {
    if well_formed(strip) {
        return board_of(strip);
    }
    Board {
        w: 10,
        r: 2,
        n: 10,
        g: 0,
        columns: vec![Vec::new(); 10],
    }
}

fn commit_spot(
    random: &mut Random,
    kind: CommitKind,
    board: &Board,
    outline: &[u16],
    turn: u16,
) -> Spot {
    let (w, h) = extent(&turned(&vertices(outline), turn));
    // The last column and the greatest height on the strip, if there are such.
    let last = board.n - columns_wide(w, board.r);
    let highest = board.w - h;
    let (c, y) = (
        random.between(0, last.max(0)),
        random.between(0, highest.max(0)),
    );
    match kind {
        CommitKind::Free => spot_like(random, board, outline, turn, true).unwrap_or((c, y)),
        CommitKind::Taken => spot_like(random, board, outline, turn, false).unwrap_or((c, y)),
        CommitKind::Corner => (last.max(0), highest.max(0)),
        CommitKind::PastEnd => ((last + 1).max(0), y),
        CommitKind::PastTop => (c, (highest + 1).max(0)),
        CommitKind::FarColumn => (65_535, y),
        CommitKind::FarHeight => (c, 65_535),
        CommitKind::FarBoth => (65_535, 65_535),
        CommitKind::WrongTurn => (c, y),
        CommitKind::Anywhere if random.once_in(4) => {
            (random.between(0, 65_535), random.between(0, 65_535))
        }
        CommitKind::Anywhere => (
            random.between(0, board.n + 1),
            random.between(0, board.w + 1),
        ),
    }
}

/// A spot on the strip that is free or that is not, out of some of them; none for
/// an outline that cannot be looked at quickly.
fn spot_like(
    random: &mut Random,
    board: &Board,
    outline: &[u16],
    turn: u16,
    free: bool,
) -> Option<Spot> {
    if !is_small(outline) {
        return None;
    }
    let piece = turned_piece(outline, turn, board.r, board.g);
    (0..40)
        .map(|_| {
            let c = random.between(0, board.n - 1);
            (c, random.between(0, board.w - 1))
        })
        .filter(|&spot| is_on_strip(board, &piece, spot))
        .find(|&spot| is_free_plain(board, &piece, spot) == free)
}

/// Its cells are counted quickly.
fn is_small(outline: &[u16]) -> bool {
    let (w, h) = extent(&turned(&vertices(outline), 0));
    outline.iter().all(|&word| word <= 16_000) && w <= 100 && h <= 100
}

/// The words that question 12 asks for in the turns of the mask, or some.
fn words_for(strip: &[u16], outline: &[u16], mask: u16) -> usize {
    let r = strip.get(1).copied().unwrap_or(1);
    let g = strip.get(4).copied().unwrap_or(0);
    if !is_small(outline) {
        return 60;
    }
    let allowed = (0..4).filter(|turn| mask >> turn & 1 == 1);
    let most_runs = allowed.map(|turn| runs(outline, turn, r, g).len()).max();
    3 * most_runs.unwrap_or(0)
}

/// The words of a work buffer: most often as many as are needed, or one too few.
fn any_work(random: &mut Random, needed: usize) -> usize {
    match random.index(10) {
        0 => needed.saturating_sub(1),
        1 => random.index(needed + 1),
        2 => needed + random.index(8),
        3 => 9_000,
        _ => needed,
    }
}

/// A list of place, ask and commit calls. It is made call by call, since where a
/// commit goes depends on the strip as it stands and on what asks have answered.
pub struct MixedList {
    size: u16,
    /// Whether there are large outlines now and then.
    large: bool,
    /// What most calls lay, so that an outline comes often.
    outlines: Vec<Vec<u16>>,
    /// Commits at the answers of asks so far, with their work buffers.
    answers: Vec<CommitCall>,
}

impl MixedList {
    /// Most outlines are of up to this size, and sound.
    pub fn new(random: &mut Random, size: u16) -> MixedList {
        let outlines = (0..random.between(1, 6))
            .map(|_| {
                let mask = if random.once_in(4) {
                    sound_mask(random)
                } else {
                    15
                };
                let small = random.word(2, size);
                sound_outline(random, mask, small)
            })
            .collect();
        MixedList {
            size,
            large: true,
            outlines,
            answers: Vec::new(),
        }
    }

    /// Most of the time goes into the large ones.
    pub fn without_large(self) -> MixedList {
        MixedList {
            large: false,
            ..self
        }
    }

    fn outline(&self, random: &mut Random) -> Vec<u16> {
        match random.index(60) {
            0..=3 if self.large => any_outline(random),
            0..=8 => {
                let kind = random.pick(&OutlineKind::ALL);
                outline(random, kind, self.size)
            }
            _ => self.outlines[random.index(self.outlines.len())].clone(),
        }
    }

    /// The next call, on the strip as it stands.
    pub fn next_call(&self, random: &mut Random, strip: &[u16]) -> Call {
        match random.index(12) {
            0 | 1 => Call::Place(self.place_call(random, strip)),
            2..=4 => Call::Ask(self.place_call(random, strip)),
            5..=8 if !self.answers.is_empty() => Call::Commit(self.at_answer(random, strip)),
            _ => Call::Commit(self.commit_call(random, strip)),
        }
    }

    /// An ask has answered this.
    pub fn found(&mut self, ask: &PlaceCall, position: Position) {
        self.answers.push(CommitCall {
            outline: ask.outline.clone(),
            position,
            work: ask.work,
        });
    }

    fn place_call(&self, random: &mut Random, strip: &[u16]) -> PlaceCall {
        let outline = self.outline(random);
        let mask = any_mask(random);
        let needed = words_for(strip, &outline, mask);
        PlaceCall {
            outline,
            mask,
            work: any_work(random, needed),
        }
    }

    fn commit_call(&self, random: &mut Random, strip: &[u16]) -> CommitCall {
        let outline = self.outline(random);
        let kind = match random.index(3) {
            0 => CommitKind::Free,
            _ => random.pick(&CommitKind::ALL),
        };
        let position = commit_position(random, kind, strip, &outline);
        commit_of(random, strip, outline, position)
    }

    /// At the answer of an ask, most often the last, which may be long ago: at
    /// times with fewer words than it had, at times with another outline.
    fn at_answer(&self, random: &mut Random, strip: &[u16]) -> CommitCall {
        let last = self.answers.len() - 1;
        let place = if random.once_in(3) {
            random.index(last + 1)
        } else {
            last
        };
        let answer = &self.answers[place];
        let outline = match random.index(8) {
            0 => self.outline(random),
            1..=3 => answer.outline.clone(),
            _ => return answer.clone(),
        };
        commit_of(random, strip, outline, answer.position)
    }
}

/// A commit with a work buffer for its turn, or nearly.
fn commit_of(
    random: &mut Random,
    strip: &[u16],
    outline: Vec<u16>,
    position: Position,
) -> CommitCall {
    let needed = words_for(strip, &outline, 1 << (position.turn % 4));
    CommitCall {
        outline,
        position,
        work: any_work(random, needed),
    }
}
