//! Faults in the reader of a book. It is written row by row, in the way in which a reader without the reference's writer would be, and without a
//! fault gives what the reference does.

use reference::book::{
    CONTENTS_CUT_SHORT, Draw, Job, LARGEST, LAYOUT_MISMATCH, MOST_JOBS, PICK, SAMPLE, UNKNOWN_KIND,
};

/// Rows looked through one after another, each for all classes.
const FILE_ORDER: &str = "file-order";

/// A book that is too long refused before its contents are looked at.
const LONG_FIRST: &str = "long-first";

/// Offset plus length modulo 2^32.
const END_WRAPS: &str = "end-wraps";

/// Bytes between two bodies.
const GAP: &str = "gap-taken";

/// Bytes behind the last body.
const TAIL: &str = "tail-taken";

/// Bodies in another order than that of the contents.
const PERMUTED: &str = "permuted-taken";

/// A body that begins within the one before.
const OVERLAP: &str = "overlap-taken";

/// Offsets that are not looked at.
const OFFSETS: &str = "offsets-unread";

/// A sample's body with bytes behind its numbers.
const LONG_SAMPLE: &str = "long-sample";

/// Bytes behind the last whole weight.
const ODD_LENGTH: &str = "odd-length";

/// Picks without weights refused as no body.
const NO_LIST: &str = "no-weights-refused";

/// The last weight lost.
const LAST_WEIGHT: &str = "last-weight-lost";

/// Kind 1 for kind 2 and the other way round.
const KINDS: &str = "kinds-exchanged";

/// A kind of which the lowest byte alone is looked at.
const KIND_BYTE: &str = "kind-of-one-byte";

/// Kind 0 known.
const KIND_ZERO: &str = "kind-zero-known";

/// The words of a seed with the highest byte first.
const SEED_BIG: &str = "seed-big-endian";

/// The seed behind the numbers.
const SEED_BEHIND: &str = "seed-behind";

/// The words of a seed in the other order.
const SEED_TURNED: &str = "seed-turned";

/// All jobs from the seed of the first.
const SEED_OF_FIRST: &str = "seed-of-first";

/// Numbers with the highest byte first.
const BIG_ENDIAN: &str = "numbers-big-endian";

/// The first two numbers of a body for each other.
const FIELDS: &str = "fields-exchanged";

/// One job too many taken, and one too few.
const COUNT_MORE: &str = "count-65-taken";
const COUNT_FULL: &str = "count-64-refused";

/// A count of which the lowest byte alone is looked at.
const COUNT_BYTE: &str = "count-of-one-byte";

/// A count that is cut short taken for none.
const COUNT_SHORT: &str = "count-cut-short";

/// Contents that are cut short refused as a layout that is wrong.
const CONTENTS_LATE: &str = "contents-as-layout";

/// A book of the greatest size refused, and a greater one taken.
const FULL: &str = "largest-refused";
const LARGER: &str = "larger-taken";

/// What is behind the greatest size not read.
const CUT: &str = "cut-at-largest";

/// All of them.
pub const NAMES: [&str; 29] = [
    FILE_ORDER,
    LONG_FIRST,
    END_WRAPS,
    GAP,
    TAIL,
    PERMUTED,
    OVERLAP,
    OFFSETS,
    LONG_SAMPLE,
    ODD_LENGTH,
    NO_LIST,
    LAST_WEIGHT,
    KINDS,
    KIND_BYTE,
    KIND_ZERO,
    SEED_BIG,
    SEED_BEHIND,
    SEED_TURNED,
    SEED_OF_FIRST,
    BIG_ENDIAN,
    FIELDS,
    COUNT_MORE,
    COUNT_FULL,
    COUNT_BYTE,
    COUNT_SHORT,
    CONTENTS_LATE,
    FULL,
    LARGER,
    CUT,
];

/// A row of the contents.
#[derive(Clone, Copy)]
struct Row {
    kind: u32,
    offset: u64,
    length: u64,
}

/// A reader with one of the faults, or with none where the name is another.
pub struct Reader<'a> {
    book: &'a [u8],
    fault: &'a str,
}

impl<'a> Reader<'a> {
    pub fn new(book: &'a [u8], fault: &'a str) -> Self {
        let end = if fault == CUT { LARGEST } else { book.len() };
        Self {
            book: &book[..end.min(book.len())],
            fault,
        }
    }

    fn has(&self, fault: &str) -> bool {
        self.fault == fault
    }

    /// The jobs, or the number of the refusal.
    pub fn read(&self) -> Result<Vec<Job>, u64> {
        if self.has(COUNT_SHORT) && self.book.len() < 4 {
            return Ok(Vec::new());
        }
        if self.has(LONG_FIRST) && self.book.len() > LARGEST {
            return Err(LAYOUT_MISMATCH);
        }
        let rows = self.rows()?;
        if !self.has(FILE_ORDER) && !rows.iter().all(|row| self.is_known(row)) {
            return Err(UNKNOWN_KIND);
        }
        self.check(&rows)?;
        let mut jobs: Vec<Job> = rows.iter().map(|row| self.job(row)).collect();
        if let (true, Some(first)) = (self.has(SEED_OF_FIRST), jobs.first()) {
            let seed = first.seed;
            jobs.iter_mut().for_each(|job| job.seed = seed);
        }
        Ok(jobs)
    }

    /// The number at a place, where there is one.
    fn number(&self, at: usize) -> Option<u32> {
        let bytes = self.book.get(at..)?.first_chunk()?;
        Some(self.number_of(*bytes))
    }

    fn number_of(&self, bytes: [u8; 4]) -> u32 {
        match self.has(BIG_ENDIAN) {
            true => u32::from_be_bytes(bytes),
            false => u32::from_le_bytes(bytes),
        }
    }

    /// The contents.
    fn rows(&self) -> Result<Vec<Row>, u64> {
        let count = self.number(0).ok_or(CONTENTS_CUT_SHORT)?;
        let count = if self.has(COUNT_BYTE) {
            count & 255
        } else {
            count
        } as usize;
        let most =
            MOST_JOBS + usize::from(self.has(COUNT_MORE)) - usize::from(self.has(COUNT_FULL));
        if count > most {
            return Err(CONTENTS_CUT_SHORT);
        }
        let numbers = (0..3 * count).map(|place| self.number(4 + 4 * place));
        let numbers: Option<Vec<u32>> = numbers.collect();
        let numbers = numbers.ok_or(match self.has(CONTENTS_LATE) {
            true => LAYOUT_MISMATCH,
            false => CONTENTS_CUT_SHORT,
        })?;
        let rows = numbers.chunks_exact(3).map(|row| Row {
            kind: self.kind(row[0]),
            offset: row[1].into(),
            length: row[2].into(),
        });
        Ok(rows.collect())
    }

    /// The kind that a number is taken for.
    fn kind(&self, number: u32) -> u32 {
        match number {
            SAMPLE if self.has(KINDS) => PICK,
            PICK if self.has(KINDS) => SAMPLE,
            0 if self.has(KIND_ZERO) => SAMPLE,
            _ if self.has(KIND_BYTE) => number & 255,
            _ => number,
        }
    }

    fn is_known(&self, row: &Row) -> bool {
        [SAMPLE, PICK].contains(&row.kind)
    }

    /// Whether the bodies lie as they must.
    fn check(&self, rows: &[Row]) -> Result<(), u64> {
        let mut end = 4 + 12 * rows.len() as u64;
        let is_permuted = self.has(PERMUTED) && self.is_permuted(rows, end);
        for row in rows {
            if !self.is_known(row) {
                return Err(UNKNOWN_KIND);
            }
            let starts = is_permuted || self.starts(row, end);
            if !starts || !self.is_body(row) {
                return Err(LAYOUT_MISMATCH);
            }
            end = match () {
                () if is_permuted => self.book.len() as u64,
                () if self.has(OFFSETS) => end + row.length,
                () if self.has(END_WRAPS) => (row.offset + row.length) % (1 << 32),
                () => row.offset + row.length,
            };
        }
        let len = self.book.len() as u64;
        let most = match () {
            () if self.has(FULL) => LARGEST - 1,
            () if self.has(LARGER) => usize::MAX,
            () => LARGEST,
        };
        let ends = end == len || self.has(TAIL) && end < len;
        match ends && self.book.len() <= most {
            true => Ok(()),
            false => Err(LAYOUT_MISMATCH),
        }
    }

    /// Whether a body may begin where its row says.
    fn starts(&self, row: &Row, end: u64) -> bool {
        match self.fault {
            OFFSETS => true,
            GAP => row.offset >= end,
            OVERLAP => row.offset <= end,
            _ => row.offset == end,
        }
    }

    /// Whether the bodies lie one behind the other in some order.
    fn is_permuted(&self, rows: &[Row], start: u64) -> bool {
        let mut sorted = rows.to_vec();
        sorted.sort_by_key(|row| row.offset);
        let mut end = start;
        sorted.iter().all(|row| {
            let starts = row.offset == end;
            end = row.offset + row.length;
            starts
        }) && end == self.book.len() as u64
    }

    /// Whether the length is that of a body of the kind.
    fn is_body(&self, row: &Row) -> bool {
        match row.kind {
            SAMPLE => row.length == 44 || self.has(LONG_SAMPLE) && row.length > 44,
            _ => {
                let is_whole = self.has(ODD_LENGTH) || row.length % 4 == 0;
                let least = if self.has(NO_LIST) { 44 } else { 40 };
                row.length >= least && is_whole
            }
        }
    }

    /// The job of a row. Where a fault has let it lie past the end, zeros are read there.
    fn job(&self, row: &Row) -> Job {
        let start = row.offset.min(self.book.len() as u64) as usize;
        let end = (row.offset + row.length).min(self.book.len() as u64) as usize;
        let mut body = self.book[start..end].to_vec();
        body.resize(body.len().max(44), 0);
        if row.kind == PICK && row.length == 40 {
            body.truncate(40);
        }
        if self.has(SEED_BEHIND) {
            let len = body.len();
            body.rotate_right(32.min(len));
        }
        let (seed, numbers) = body.split_at(32);
        let numbers = numbers
            .chunks_exact(4)
            .map(|chunk| self.number_of(chunk.try_into().expect("four bytes")));
        Job {
            seed: self.seed(seed.try_into().expect("32 bytes")),
            draw: self.draw(row.kind, numbers.collect()),
        }
    }

    fn seed(&self, mut seed: [u8; 32]) -> [u8; 32] {
        match self.fault {
            SEED_BIG => seed.chunks_exact_mut(8).for_each(<[u8]>::reverse),
            SEED_TURNED => {
                seed.reverse();
                seed.chunks_exact_mut(8).for_each(<[u8]>::reverse);
            }
            _ => {}
        }
        seed
    }

    fn draw(&self, kind: u32, mut numbers: Vec<u32>) -> Draw {
        if kind == SAMPLE {
            numbers.truncate(3);
        }
        if self.has(FIELDS) {
            numbers.swap(0, 1);
        }
        if self.has(LAST_WEIGHT) && numbers.len() > 2 && kind == PICK {
            numbers.pop();
        }
        Draw::of(kind, &numbers).expect("it has its numbers")
    }
}

#[cfg(test)]
mod tests {
    use reference::book::read;

    use super::Reader;
    use crate::book::{damaged, edges, random, small};
    use crate::inputs::Source;

    /// Two readers that are written in different ways.
    #[test]
    fn without_a_fault_a_book_is_read_as_the_reference_does() {
        let mut source = Source::new(1);
        let mut books = [small::books(), damaged::books(), edges::books()].concat();
        books.extend((0..300).map(|_| random::book(&mut source)));
        books.extend((0..3000).map(|_| damaged::random(&mut source)));
        for book in books {
            let jobs = Reader::new(&book, "none of these").read();
            assert!(jobs == read(&book), "{:?}", &book[..book.len().min(100)]);
        }
    }
}
