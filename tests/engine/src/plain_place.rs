//! A plain, quick Rust program that lays pieces on a strip, to measure the engine
//! against: the same walk over a vector of runs for each column, which it keeps
//! from call to call. It is no reference for answers.

use crate::plain::{ask_7_and_8, no, Turned};
use reference::{Position, Refusal, Tried};

/// A run of a column, rows low to high−1.
type Stretch = (u16, u16);

/// A strip that has passed questions 3 to 5, 16, 17 and 21.
pub struct Board {
    w: u16,
    r: u16,
    n: usize,
    g: u16,
    q: usize,
    columns: Vec<Vec<Stretch>>,
    /// The runs of all columns.
    used: usize,
}

/// A piece in a turn, with the strip's gap.
struct Piece {
    turn: u16,
    w: usize,
    h: u16,
    /// Columns wide.
    wide: usize,
    runs: Vec<[u16; 3]>,
}

impl Piece {
    fn new(turned: &Turned, turn: u16, r: u16, g: u16) -> Piece {
        let (w, h) = turned.extent();
        Piece {
            turn,
            w: w as usize,
            h: h as u16,
            wide: (w as usize).div_ceil(usize::from(r)),
            runs: turned.runs(r, g),
        }
    }

    /// Its runs on the first n columns, by column.
    fn runs_to(&self, n: usize) -> &[[u16; 3]] {
        let beyond = self.runs.partition_point(|run| usize::from(run[0]) < n);
        &self.runs[..beyond]
    }
}

/// The place of the lowest run of the column that ends above a row. Columns hold
/// few runs: a search by halves was a quarter slower at R 100, a tenth quicker at
/// R 20.
fn above(column: &[Stretch], row: u16) -> usize {
    column
        .iter()
        .position(|run| run.1 > row)
        .unwrap_or(column.len())
}

/// The allowed turns.
fn turns_of(mask: u16) -> impl Iterator<Item = u16> {
    (0..4).filter(move |turn| mask >> turn & 1 == 1)
}

impl Board {
    pub fn open(w: u16, r: u16, n: u16, g: u16, q: usize) -> Board {
        Board {
            w,
            r,
            n: usize::from(n),
            g,
            q,
            columns: vec![Vec::new(); usize::from(n)],
            used: 0,
        }
    }

    pub fn columns(&self) -> &[Vec<Stretch>] {
        &self.columns
    }

    /// Questions 7 to 14, and the piece entered.
    pub fn place(&mut self, outline: &[u16], mask: u16, work: usize) -> Tried {
        match self.pieces(outline, mask) {
            Ok(pieces) => self.place_asked(&pieces, work),
            Err(refusal) => Tried {
                answer: Err(refusal),
                tries: 0,
            },
        }
    }

    /// Questions 12 to 14 of an outline that passes those before, and the piece
    /// entered.
    pub fn place_sound(
        &mut self,
        outline: &[u16],
        mask: u16,
        work: usize,
    ) -> Result<Position, Refusal> {
        let pieces: Vec<Piece> = turns_of(mask)
            .map(|turn| Piece::new(&Turned::new(outline, turn), turn, self.r, self.g))
            .collect();
        self.place_asked(&pieces, work).answer
    }

    /// The piece in each allowed turn, entered in the best of them.
    fn place_asked(&mut self, pieces: &[Piece], work: usize) -> Tried {
        let mut tries = 0;
        let answer = self.place_counted(pieces, work, &mut tries);
        Tried { answer, tries }
    }

    fn place_counted(
        &mut self,
        pieces: &[Piece],
        work: usize,
        tries: &mut u32,
    ) -> Result<Position, Refusal> {
        let most = pieces.iter().map(|piece| piece.runs.len()).max();
        if work < 3 * most.unwrap_or(0) {
            return Err(no(12, 1));
        }
        let found = pieces
            .iter()
            .filter_map(|piece| self.least_free(piece, tries).map(|spot| (piece, spot)));
        let r = usize::from(self.r);
        let best = found.min_by_key(|(piece, (c, y))| (c * r + piece.w, y + piece.h, piece.turn));
        let Some((piece, (c, y))) = best else {
            return Err(no(13, 1));
        };
        let used = self.used_after(piece, c, y);
        if used > self.q {
            return Err(no(14, 1));
        }
        self.enter(piece, c, y);
        self.used = used;
        Ok(Position {
            turn: piece.turn,
            column: c as u16,
            height: y,
        })
    }

    /// Questions 7 to 11, and the piece in each allowed turn.
    fn pieces(&self, outline: &[u16], mask: u16) -> Result<Vec<Piece>, Refusal> {
        ask_7_and_8(outline)?;
        if !(1..=15).contains(&mask) {
            return Err(no(9, 1));
        }
        let turned: Vec<(u16, Turned)> = turns_of(mask)
            .map(|turn| (turn, Turned::new(outline, turn)))
            .collect();
        // Turns 0 and 2 have the same edges upside down, and so have 1 and 3: one of each two is asked.
        for sideways in [0, 1] {
            let mut same = turned.iter().filter(|(turn, _)| turn % 2 == sideways);
            if same.next().is_some_and(|(_, turned)| !turned.keeps_order()) {
                return Err(no(10, 1));
            }
        }
        let pieces: Vec<Piece> = turned
            .iter()
            .map(|(turn, turned)| Piece::new(turned, *turn, self.r, self.g))
            .collect();
        if pieces[0].runs.is_empty() {
            return Err(no(11, 1));
        }
        Ok(pieces)
    }

    /// The least free (c, y) of the piece; the heights tried are counted.
    fn least_free(&self, piece: &Piece, tries: &mut u32) -> Option<(usize, u16)> {
        let last = self.n.checked_sub(piece.wide)?;
        let top = self.w.checked_sub(piece.h)?;
        (0..=last).find_map(|c| self.least_height(piece, c, top, tries).map(|y| (c, y)))
    }

    /// From height 0, up by one jump after each clash: to the occupied run's high
    /// less the piece run's low. Runs that stay free up to a height are not tried
    /// again until a jump goes above it, as in the engine.
    fn least_height(&self, piece: &Piece, c: usize, top: u16, tries: &mut u32) -> Option<u16> {
        let (mut y, mut stay, mut place) = (0, top, 0);
        *tries += 1;
        let runs = piece.runs_to(self.n - c);
        while let Some(&[column, low, high]) = runs.get(place) {
            let column = &self.columns[c + usize::from(column)];
            match column.get(above(column, y + low)) {
                Some(met) if met.0 < y + high => {
                    y = met.1 - low;
                    if y > top {
                        return None;
                    }
                    *tries += 1;
                    if stay < y {
                        (place, stay) = (0, top);
                    }
                }
                Some(met) => {
                    stay = stay.min(met.0 - high);
                    place += 1;
                }
                None => place += 1,
            }
        }
        Some(y)
    }

    /// The runs of the piece at c, y that lie on the strip, cut off at its top: the
    /// column, and rows low to high−1.
    fn moved<'a>(
        &self,
        piece: &'a Piece,
        c: usize,
        y: u16,
    ) -> impl Iterator<Item = (usize, u16, u16)> + 'a {
        let w = self.w;
        piece
            .runs_to(self.n - c)
            .iter()
            .map(move |&[column, low, high]| (c + usize::from(column), y + low, w.min(y + high)))
            .filter(|run| run.1 < run.2)
    }

    /// The runs of the strip with the piece: two that touch become one.
    fn used_after(&self, piece: &Piece, c: usize, y: u16) -> usize {
        let (mut entered, mut touching) = (0, 0);
        for (column, low, high) in self.moved(piece, c, y) {
            let column = &self.columns[column];
            let place = above(column, low);
            entered += 1;
            touching += usize::from(place > 0 && column[place - 1].1 == low);
            touching += usize::from(column.get(place).is_some_and(|run| run.0 == high));
        }
        self.used + entered - touching
    }

    fn enter(&mut self, piece: &Piece, c: usize, y: u16) {
        for (column, low, high) in self.moved(piece, c, y) {
            let column = &mut self.columns[column];
            let place = above(column, low);
            let joins_below = place > 0 && column[place - 1].1 == low;
            let joins_above = column.get(place).is_some_and(|run| run.0 == high);
            match (joins_below, joins_above) {
                (false, false) => column.insert(place, (low, high)),
                (true, false) => column[place - 1].1 = high,
                (false, true) => column[place].0 = low,
                (true, true) => {
                    column[place - 1].1 = column[place].1;
                    column.remove(place);
                }
            }
        }
    }
}
