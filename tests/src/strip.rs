//! The strip: its words, whether it is well formed, its runs, and open.
//!
//! "The strip is 4 + N + 4Q lent 16-bit words: W, R, N, first free record; then
//! each column's first record; then records 1 to Q of four words: column, low,
//! high, next." Changed by S-4: "A strip is opened with a gap g of 0 to 400 units,
//! kept in a fifth leading word; records and heads move up by one."

use crate::figures::*;
use crate::questions::*;

/// W, R, N, first free record and, by S-4, the gap.
pub const LEADING: usize = 5;

/// A record of a strip.
#[derive(Clone, Copy, Debug, PartialEq, Eq)]
pub struct Record {
    pub column: u16,
    pub low: u16,
    pub high: u16,
    pub next: u16,
}

/// A run of one column, rows low to high−1.
pub type Stretch = (u16, u16);

/// Q, if a strip of this length and N columns is "4 + N + 4Q" words, by S-4 one
/// more, with "records Q 1 to 16,000".
pub fn records_in(length: usize, n: usize) -> Option<usize> {
    let words = length.checked_sub(LEADING + n)?;
    let q = words / 4;
    if words == 4 * q && (1..=MOST_RECORDS).contains(&q) {
        Some(q)
    } else {
        None
    }
}

/// Where record `number`, counted from 1, begins.
pub fn record_place(n: usize, number: usize) -> usize {
    LEADING + n + 4 * (number - 1)
}

fn record(strip: &[u16], n: usize, number: usize) -> Record {
    let place = record_place(n, number);
    Record {
        column: strip[place],
        low: strip[place + 1],
        high: strip[place + 2],
        next: strip[place + 3],
    }
}

/// "Records are chained by next; zero ends a chain." The record numbers of the
/// chain that begins with `first`, or nothing if it leaves 1 to Q or loops.
fn chain(strip: &[u16], n: usize, q: usize, first: u16) -> Option<Vec<usize>> {
    let mut numbers = Vec::new();
    let mut present = usize::from(first);
    while present != 0 {
        // A chain that ends holds each of the Q records once at most.
        if present > q || numbers.len() == q {
            return None;
        }
        numbers.push(present);
        present = usize::from(record(strip, n, present).next);
    }
    Some(numbers)
}

/// "Well formed means: length and limits kept; free records as just said; each
/// column's chain holds records of that column, low < high ≤ W, each low
/// greater than the high before it; every chain ends in zero; each record is in
/// one chain." The limits are those of W, R, N and, by S-4, of the gap.
pub fn well_formed(strip: &[u16]) -> bool {
    if strip.len() < LEADING {
        return false;
    }
    let (w, r, n, first_free, g) = (strip[0], strip[1], strip[2], strip[3], strip[4]);
    if ask_limits(w, r, n).is_err() || ask_21(g).is_err() {
        return false;
    }
    let n = usize::from(n);
    let Some(q) = records_in(strip.len(), n) else {
        return false;
    };
    let mut times_seen = vec![0; q + 1];
    for column in 0..n {
        let Some(numbers) = chain(strip, n, q, strip[LEADING + column]) else {
            return false;
        };
        let records: Vec<Record> = numbers
            .iter()
            .map(|&number| record(strip, n, number))
            .collect();
        if !column_well_formed(&records, column, w) {
            return false;
        }
        for number in numbers {
            times_seen[number] += 1;
        }
    }
    let Some(numbers) = chain(strip, n, q, first_free) else {
        return false;
    };
    for number in numbers {
        if !is_free_record(&record(strip, n, number), n) {
            return false;
        }
        times_seen[number] += 1;
    }
    times_seen[1..].iter().all(|&times| times == 1)
}

/// "each column's chain holds records of that column, low < high ≤ W, each low
/// greater than the high before it"
fn column_well_formed(records: &[Record], column: usize, w: u16) -> bool {
    let each = records.iter().all(|record| {
        usize::from(record.column) == column && record.low < record.high && record.high <= w
    });
    each && records.windows(2).all(|pair| pair[1].low > pair[0].high)
}

/// "A free record has column N, low and high 0."
fn is_free_record(record: &Record, n: usize) -> bool {
    usize::from(record.column) == n && record.low == 0 && record.high == 0
}

/// The runs of a well-formed strip, column by column; nothing for another.
pub fn strip_runs(strip: &[u16]) -> Vec<Vec<Stretch>> {
    if !well_formed(strip) {
        return Vec::new();
    }
    let n = usize::from(strip[2]);
    let q = (strip.len() - LEADING - n) / 4;
    (0..n)
        .map(|column| {
            chain(strip, n, q, strip[LEADING + column])
                .unwrap_or_default()
                .into_iter()
                .map(|number| record(strip, n, number))
                .map(|record| (record.low, record.high))
                .collect()
        })
        .collect()
}

/// "Which record number carries which run, and the order of the free chain, is
/// left open; the runs per column are not." Two well-formed strips that differ
/// in nothing else.
pub fn same_strip(a: &[u16], b: &[u16]) -> bool {
    well_formed(a)
        && well_formed(b)
        && a.len() == b.len()
        && a[..3] == b[..3]
        && a[4] == b[4]
        && strip_runs(a) == strip_runs(b)
}

/// Writes the runs to a strip of N columns and Q records, which has room for
/// them: records 1, 2, 3 by column then low, the free ones after them.
pub fn put_runs(strip: &mut [u16], w: u16, r: u16, n: u16, g: u16, columns: &[Vec<Stretch>]) {
    let n_words = usize::from(n);
    let q = (strip.len() - LEADING - n_words) / 4;
    strip.fill(0);
    strip[0] = w;
    strip[1] = r;
    strip[2] = n;
    strip[4] = g;
    let mut number = 0;
    for (column, stretches) in columns.iter().enumerate() {
        for (place, &(low, high)) in stretches.iter().enumerate() {
            number += 1;
            if place == 0 {
                strip[LEADING + column] = number;
            }
            let is_last = place + 1 == stretches.len();
            let next = if is_last { 0 } else { number + 1 };
            put_record(strip, n_words, number, [column as u16, low, high, next]);
        }
    }
    let first_free = number + 1;
    if usize::from(first_free) <= q {
        strip[3] = first_free;
    }
    for free in first_free..=q as u16 {
        let next = if usize::from(free) == q { 0 } else { free + 1 };
        put_record(strip, n_words, free, [n, 0, 0, next]);
    }
}

fn put_record(strip: &mut [u16], n: usize, number: u16, words: [u16; 4]) {
    let place = record_place(n, usize::from(number));
    strip[place..place + 4].copy_from_slice(&words);
}

/// "4. At opening: is the strip's length right for N and some Q?"
pub fn ask_4(length: usize, n: u16) -> Result<(), Refusal> {
    match records_in(length, usize::from(n)) {
        Some(_) => Ok(()),
        None => Err(no(4, 0)),
    }
}

/// "Opening makes all columns empty."
///
/// "open 3, 4", by S-1 with 16 and 17 after 3, by S-4 with 21 after these
pub fn open(w: u16, r: u16, n: u16, g: u16, strip: &mut [u16]) -> Result<(), Refusal> {
    ask_limits(w, r, n)?;
    ask_21(g)?;
    ask_4(strip.len(), n)?;
    put_runs(strip, w, r, n, g, &vec![Vec::new(); usize::from(n)]);
    Ok(())
}
