//! Plain, quick Rust versions of question 5 with the runs read from the strip, of
//! open, and of a strip written anew, to measure the engine against. They are no
//! reference for answers.

/// The runs of a strip: those of column c are `first[c]` to `first[c + 1]`, without the latter. The places after the
/// last run are not used.
pub struct Table {
    first: Vec<u16>,
    runs: Vec<(u16, u16)>,
}

impl Table {
    /// How many runs there are.
    pub fn count(&self) -> usize {
        self.first.last().map_or(0, |&count| usize::from(count))
    }
}

type Record = [u16; 4];

fn in_limits(w: u16, r: u16, n: u16, g: u16) -> bool {
    (1..=16_000).contains(&w) && (1..=400).contains(&r) && (1..=4_096).contains(&n) && g <= 400
}

/// The heads and records of a strip of the right length.
fn parts(strip: &[u16], n: u16) -> Option<(&[u16], &[Record])> {
    let (heads, words) = strip.get(5..)?.split_at_checked(usize::from(n))?;
    let (records, rest) = words.as_chunks();
    let fits = rest.is_empty() && (1..=16_000).contains(&records.len());
    fits.then_some((heads, records))
}

/// Follows the chains and marks the records seen. Nothing where the strip is not
/// well formed. One flat vector took a quarter of the time of one for each column,
/// and places made at once less than pushes.
pub fn decode(strip: &[u16]) -> Option<Table> {
    let &[w, r, n, first_free, g, ..] = strip else {
        return None;
    };
    if !in_limits(w, r, n, g) {
        return None;
    }
    let (heads, records) = parts(strip, n)?;
    let mut seen = vec![false; records.len()];
    let mut first = vec![0; heads.len() + 1];
    let mut runs = vec![(0, 0); records.len()];
    let mut count = 0;
    for (column, &head) in heads.iter().enumerate() {
        first[column] = count as u16;
        let (mut number, mut least) = (head, 0);
        while number != 0 {
            let place = usize::from(number) - 1;
            let &[of, low, high, next] = records.get(place)?;
            let other = usize::from(of) != column;
            if other | (low < least) | (high <= low) | (w < high) | seen[place] {
                return None;
            }
            seen[place] = true;
            runs[count] = (low, high);
            count += 1;
            (number, least) = (next, high + 1);
        }
    }
    first[heads.len()] = count as u16;
    let mut number = first_free;
    while number != 0 {
        let place = usize::from(number) - 1;
        let &[of, low, high, next] = records.get(place)?;
        if (of != n) | (low != 0) | (high != 0) | seen[place] {
            return None;
        }
        seen[place] = true;
        count += 1;
        number = next;
    }
    (count == records.len()).then_some(Table { first, runs })
}

/// The strip with these runs: records 1, 2, 3 by column then low, the free ones
/// after them. Its length is right and has room for them.
fn encode(strip: &mut [u16], w: u16, r: u16, n: u16, g: u16, table: &Table) {
    let used = table.count();
    let (leading, words) = strip.split_at_mut(5);
    let (heads, words) = words.split_at_mut(usize::from(n));
    let (records, _) = words.as_chunks_mut();
    let q = records.len();
    let (taken, free) = records.split_at_mut(used);
    let first_free = if used < q { used + 1 } else { 0 };
    leading.copy_from_slice(&[w, r, n, first_free as u16, g]);
    for (column, head) in heads.iter_mut().enumerate() {
        let (from, to) = (table.first[column], table.first[column + 1]);
        *head = if from < to { from + 1 } else { 0 };
        let places = usize::from(from)..usize::from(to);
        let records = &mut taken[places.clone()];
        for ((record, run), next) in records.iter_mut().zip(&table.runs[places]).zip(from + 2..) {
            *record = [column as u16, run.0, run.1, next];
        }
        if let Some(last) = records.last_mut() {
            last[3] = 0;
        }
    }
    for (record, next) in free.iter_mut().zip(used as u16 + 2..) {
        *record = [n, 0, 0, next];
    }
    if let Some(last) = free.last_mut() {
        last[3] = 0;
    }
}

/// The strip with the runs of these columns, in the same order of records. Its
/// length is right and has room for them.
pub fn write_columns(strip: &mut [u16], columns: &[Vec<(u16, u16)>]) {
    let mut table = Table {
        first: Vec::with_capacity(columns.len() + 1),
        runs: Vec::new(),
    };
    for column in columns {
        table.first.push(table.runs.len() as u16);
        table.runs.extend_from_slice(column);
    }
    table.first.push(table.runs.len() as u16);
    let (w, r, n, g) = (strip[0], strip[1], strip[2], strip[4]);
    encode(strip, w, r, n, g, &table);
}

/// Whether the strip was well formed; then it is written anew.
pub fn rewrite(strip: &mut [u16]) -> bool {
    let Some(table) = decode(strip) else {
        return false;
    };
    let (w, r, n, g) = (strip[0], strip[1], strip[2], strip[4]);
    encode(strip, w, r, n, g, &table);
    true
}

/// Whether the figures and the length are right; then all columns are empty.
pub fn open(w: u16, r: u16, n: u16, g: u16, strip: &mut [u16]) -> bool {
    if !in_limits(w, r, n, g) || parts(strip, n).is_none() {
        return false;
    }
    let table = Table {
        first: vec![0; usize::from(n) + 1],
        runs: Vec::new(),
    };
    encode(strip, w, r, n, g, &table);
    true
}
