//! Draw books: jobs as the bytes of a book, and back.
//!
//! The writer lays out what the format says. The reader takes the bodies apart in the order of the contents, without a look at the
//! offsets, and then holds the bytes to the book that the writer makes of those jobs: how a book must lie is said in the writer alone.

/// The numbers of the refusals that only books have.
pub const CONTENTS_CUT_SHORT: u64 = 14;
pub const UNKNOWN_KIND: u64 = 15;
pub const LAYOUT_MISMATCH: u64 = 16;

/// The most jobs of a book.
pub const MOST_JOBS: usize = 64;

/// The most bytes of a book.
pub const LARGEST: usize = 65_536;

/// The bytes of a number.
const NUMBER: usize = 4;

/// The bytes of a row of the contents.
const ROW: usize = 3 * NUMBER;

/// The kind of a job that draws a sample, and that of one that picks.
pub const SAMPLE: u32 = 1;
pub const PICK: u32 = 2;

/// The bytes that a job's generator is made from.
pub type Seed = [u8; 32];

/// A job of a book.
#[derive(Clone, Debug, PartialEq, Eq)]
pub struct Job {
    pub seed: Seed,
    pub draw: Draw,
}

/// What a job draws. Each pick has the whole budget.
#[derive(Clone, Debug, PartialEq, Eq)]
pub enum Draw {
    Sample {
        length: u32,
        amount: u32,
        budget: u32,
    },
    Pick {
        picks: u32,
        budget: u32,
        weights: Vec<u32>,
    },
}

impl Draw {
    /// The draw of a kind with these numbers, if it has such.
    #[must_use]
    pub fn of(kind: u32, numbers: &[u32]) -> Option<Self> {
        match (kind, numbers) {
            (SAMPLE, &[length, amount, budget]) => Some(Self::Sample {
                length,
                amount,
                budget,
            }),
            (PICK, &[picks, budget, ref weights @ ..]) => Some(Self::Pick {
                picks,
                budget,
                weights: weights.to_vec(),
            }),
            _ => None,
        }
    }

    /// Its kind.
    #[must_use]
    pub fn kind(&self) -> u32 {
        match self {
            Self::Sample { .. } => SAMPLE,
            Self::Pick { .. } => PICK,
        }
    }

    /// Its numbers, in the order in which a body and a line have them.
    #[must_use]
    pub fn numbers(&self) -> Vec<u32> {
        match self {
            Self::Sample {
                length,
                amount,
                budget,
            } => vec![*length, *amount, *budget],
            Self::Pick {
                picks,
                budget,
                weights,
            } => [&[*picks, *budget], &weights[..]].concat(),
        }
    }
}

impl Job {
    /// The bytes of its body.
    #[must_use]
    pub fn body(&self) -> Vec<u8> {
        [&self.seed[..], &bytes(&self.draw.numbers())].concat()
    }

    /// The job of a kind with this body, if it is one of that kind.
    fn of_body(kind: u32, body: &[u8]) -> Option<Self> {
        let (&seed, numbers) = body.split_first_chunk()?;
        let draw = Draw::of(kind, &self::numbers(numbers)?)?;
        Some(Self { seed, draw })
    }
}

/// Numbers as bytes.
#[must_use]
pub fn bytes(numbers: &[u32]) -> Vec<u8> {
    numbers.iter().flat_map(|n| n.to_le_bytes()).collect()
}

/// The numbers that bytes are, if none is left over.
fn numbers(bytes: &[u8]) -> Option<Vec<u32>> {
    let chunks = bytes.chunks(NUMBER).map(|chunk| chunk.try_into().ok());
    chunks.map(|chunk| chunk.map(u32::from_le_bytes)).collect()
}

/// A row of the contents.
struct Row {
    kind: u32,
    length: u32,
}

/// The book of these jobs, or the number of the refusal. A kind that is unknown no job can have here.
///
/// # Errors
///
/// 14 for too many jobs, 16 for too long a book.
pub fn write(jobs: &[Job]) -> Result<Vec<u8>, u64> {
    if jobs.len() > MOST_JOBS {
        return Err(CONTENTS_CUT_SHORT);
    }
    let mut book = bytes(&[jobs.len() as u32]);
    let mut bodies = Vec::new();
    for job in jobs {
        let body = job.body();
        let offset = NUMBER + jobs.len() * ROW + bodies.len();
        // What does not fit into 32 bits is far above the largest book, which is refused below.
        book.extend(bytes(&[job.draw.kind(), offset as u32, body.len() as u32]));
        bodies.extend(body);
    }
    book.extend(bodies);
    match book.len() {
        ..=LARGEST => Ok(book),
        _ => Err(LAYOUT_MISMATCH),
    }
}

/// The jobs of a book, or the number of the refusal.
///
/// # Errors
///
/// 14, 15, 16: the first that applies anywhere.
pub fn read(book: &[u8]) -> Result<Vec<Job>, u64> {
    let (rows, bodies) = contents(book).ok_or(CONTENTS_CUT_SHORT)?;
    if rows.iter().any(|row| ![SAMPLE, PICK].contains(&row.kind)) {
        return Err(UNKNOWN_KIND);
    }
    let jobs = jobs(&rows, bodies).filter(|jobs| write(jobs).as_deref() == Ok(book));
    jobs.ok_or(LAYOUT_MISMATCH)
}

/// The rows of the contents and what stands behind them, if the contents are whole.
fn contents(book: &[u8]) -> Option<(Vec<Row>, &[u8])> {
    let (&count, behind) = book.split_first_chunk()?;
    let count = u32::from_le_bytes(count) as usize;
    if count > MOST_JOBS {
        return None;
    }
    let (rows, bodies) = behind.split_at_checked(count * ROW)?;
    let numbers = numbers(rows)?;
    let rows = numbers.chunks_exact(3).map(|row| Row {
        kind: row[0],
        length: row[2],
    });
    Some((rows.collect(), bodies))
}

/// The jobs whose bodies stand one behind the other, if there are such.
fn jobs(rows: &[Row], mut bodies: &[u8]) -> Option<Vec<Job>> {
    let jobs = rows.iter().map(|row| {
        let (body, behind) = bodies.split_at_checked(row.length as usize)?;
        bodies = behind;
        Job::of_body(row.kind, body)
    });
    jobs.collect()
}

#[cfg(test)]
mod tests {
    use super::{Draw, Job, LARGEST, bytes, read, write};

    /// A job of each kind.
    fn jobs() -> Vec<Job> {
        let sample = Draw::Sample {
            length: 100,
            amount: 5,
            budget: 0,
        };
        let pick = Draw::Pick {
            picks: 7,
            budget: 9,
            weights: vec![2, 0, 3],
        };
        vec![
            Job {
                seed: [1; 32],
                draw: sample,
            },
            Job {
                seed: [2; 32],
                draw: pick,
            },
        ]
    }

    /// The bytes as the request lays them out, one number after another.
    fn by_hand() -> Vec<u8> {
        let contents = [2, 1, 28, 44, 2, 72, 52];
        [
            &bytes(&contents)[..],
            &[1; 32],
            &bytes(&[100, 5, 0]),
            &[2; 32],
            &bytes(&[7, 9, 2, 0, 3]),
        ]
        .concat()
    }

    #[test]
    fn a_book_is_laid_out_as_the_request_says() {
        assert_eq!(write(&jobs()), Ok(by_hand()));
        assert_eq!(read(&by_hand()), Ok(jobs()));
        assert_eq!(by_hand().len(), 124);
        assert_eq!(write(&[]), Ok(vec![0; 4]));
        assert_eq!(read(&[0; 4]), Ok(vec![]));
        assert_eq!(by_hand()[..8], [2, 0, 0, 0, 1, 0, 0, 0]);
    }

    /// The book by hand with one number of its contents changed.
    fn changed(place: usize, number: u32) -> Result<Vec<Job>, u64> {
        let mut book = by_hand();
        book[4 * place..][..4].copy_from_slice(&number.to_le_bytes());
        read(&book)
    }

    #[test]
    fn each_number_of_the_contents_is_looked_at() {
        assert_eq!(changed(0, 65), Err(14));
        assert_eq!(changed(0, u32::MAX), Err(14));
        assert_eq!(changed(0, 64), Err(14));
        for kind in [0, 3, 257, u32::MAX] {
            assert_eq!(changed(1, kind), Err(15));
        }
        for (place, number) in [
            (0, 1),
            (2, 29),
            (3, 48),
            (5, 28),
            (5, 73),
            (6, 48),
            (6, u32::MAX),
        ] {
            assert_eq!(changed(place, number), Err(16), "{place} {number}");
        }
        // As kinds they are known, but the bodies are not theirs.
        assert_eq!(changed(4, 1), Err(16));
        assert_eq!(changed(0, 0), Err(16));
    }

    #[test]
    fn a_class_is_looked_for_in_the_whole_book() {
        let mut book = by_hand();
        book[8] = 0;
        assert_eq!(read(&book), Err(16));
        book[16] = 9;
        assert_eq!(read(&book), Err(15));
        book.truncate(27);
        assert_eq!(read(&book), Err(14));
        let mut long = bytes(&[65]);
        long.resize(70_000, 0);
        assert_eq!(read(&long), Err(14));
        long[0] = 64;
        assert_eq!(read(&long), Err(15));
    }

    #[test]
    fn a_book_has_neither_gap_nor_tail_and_ends_where_it_must() {
        let book = by_hand();
        for len in 0..book.len() {
            let number = if len < 28 { 14 } else { 16 };
            assert_eq!(read(&book[..len]), Err(number), "{len}");
        }
        let tail = [&book[..], &[0]].concat();
        assert_eq!(read(&tail), Err(16));
        let gap = [&book[..28], &[0], &book[28..]].concat();
        assert_eq!(read(&gap), Err(16));
    }

    #[test]
    fn a_book_may_be_as_large_as_the_largest() {
        let job = |count| Job {
            seed: [0; 32],
            draw: Draw::Pick {
                picks: 0,
                budget: 0,
                weights: vec![0; count],
            },
        };
        let most = (LARGEST - 16 - 40) / 4;
        let book = write(&[job(most)]).expect("a book");
        assert_eq!(book.len(), LARGEST);
        assert_eq!(read(&book), Ok(vec![job(most)]));
        assert_eq!(write(&[job(most + 1)]), Err(16));
        assert_eq!(write(&vec![job(0); 65]), Err(14));
        assert_eq!(write(&vec![job(300); 64]), Err(16));
    }
}
