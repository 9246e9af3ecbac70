//! Damaged books: good ones with a byte changed, added or left out, or cut; and others with parts in wrong places.

use reference::book::{Draw, Job, read};

use super::layout::{KIND, LENGTH, Layout, OFFSET, contents};
use super::random;
use crate::inputs::Source;

/// A way to damage a layout. Where it has too few rows for that, it stays as it is.
type Damage = fn(&mut Source, Layout) -> Layout;

/// The ways to damage a layout. Each is as likely as another.
const LAYOUTS: [Damage; 8] = [count, kind, offset, length, gap, tail, exchanged, wrapping];

/// A way to damage bytes, at a place among them.
type Spoil = fn(&mut Source, &mut Vec<u8>, usize);

/// The ways to damage bytes. Each is as likely as another.
const BYTES: [Spoil; 4] = [
    |source, book, at| book[at] = source.below(256) as u8,
    |source, book, at| book.insert(at, source.below(3) as u8),
    |_, book, at| _ = book.remove(at),
    |_, book, at| book.truncate(at),
];

/// Good books of a few jobs, which are damaged in every way.
pub fn bases() -> Vec<Vec<u8>> {
    let seed = std::array::from_fn(|place| 3 * place as u8 + 1);
    let job = |kind, numbers: &[u32]| Job {
        seed,
        draw: Draw::of(kind, numbers).expect("a draw"),
    };
    let sample = job(1, &[30, 3, 5]);
    let pick = job(2, &[3, 2, 4, 0, 5]);
    let empty = job(2, &[0, 0]);
    let books = [
        vec![sample.clone()],
        vec![pick.clone()],
        vec![sample.clone(), pick.clone()],
        vec![empty, pick, sample],
    ];
    books.map(|jobs| Layout::of(&jobs).bytes()).to_vec()
}

/// Every one of them with each byte changed, added or left out, and cut at each length.
pub fn books() -> Vec<Vec<u8>> {
    bases().iter().flat_map(|book| each(book)).collect()
}

fn each(book: &[u8]) -> Vec<Vec<u8>> {
    let mut books = Vec::new();
    for (at, &byte) in book.iter().enumerate() {
        let mut values = vec![0, 1, byte.wrapping_add(1), 255];
        values.sort_unstable();
        values.dedup();
        values.retain(|&value| value != byte);
        let (front, back) = (&book[..at], &book[at + 1..]);
        books.extend(values.iter().map(|&value| [front, &[value], back].concat()));
        books.push([front, back].concat());
        books.push([front, &[0, byte], back].concat());
        books.push(front.to_vec());
    }
    books.extend([0, 1, 255].map(|byte| [book, &[byte]].concat()));
    books
}

/// A random book, damaged once or twice.
pub fn random(source: &mut Source) -> Vec<u8> {
    let book = random::book(source);
    let jobs = read(&book).expect("a good book");
    let mut layout = Layout::of(&jobs);
    let times = source.below(3);
    for _ in 0..times {
        layout = source.one_of(&LAYOUTS)(source, layout);
    }
    let mut book = layout.bytes();
    if times == 0 || source.below(8) == 0 {
        let at = place(source, &book, layout.rows.len());
        source.one_of(&BYTES)(source, &mut book, at);
    }
    book
}

/// A place among the bytes of a book, of which there are at least four: as often as not one of the contents.
fn place(source: &mut Source, book: &[u8], rows: usize) -> usize {
    let end = match source.below(2) {
        0 => contents(rows),
        _ => book.len(),
    };
    source.below(end.min(book.len()) as u32) as usize
}

/// Another number: near this one, near 2^32, near 0, or any.
fn other(source: &mut Source, number: u32) -> u32 {
    let near = source.below(9);
    match source.below(8) {
        0 => source.u64() as u32,
        1 => near,
        2 => near.wrapping_neg(),
        3 => number.wrapping_add(4 * near).wrapping_sub(16),
        _ => number.wrapping_add(near).wrapping_sub(4),
    }
}

/// One of the rows, if there are any.
fn row(source: &mut Source, layout: &Layout) -> Option<usize> {
    let rows = layout.rows.len() as u32;
    (rows > 0).then(|| source.below(rows) as usize)
}

fn count(source: &mut Source, mut layout: Layout) -> Layout {
    layout.count = other(source, layout.count);
    layout
}

/// A number of a row changed.
fn number(source: &mut Source, mut layout: Layout, place: usize) -> Layout {
    if let Some(row) = row(source, &layout) {
        layout.rows[row][place] = other(source, layout.rows[row][place]);
    }
    layout
}

fn kind(source: &mut Source, layout: Layout) -> Layout {
    number(source, layout, KIND)
}

fn offset(source: &mut Source, layout: Layout) -> Layout {
    number(source, layout, OFFSET)
}

fn length(source: &mut Source, layout: Layout) -> Layout {
    number(source, layout, LENGTH)
}

fn gap(source: &mut Source, layout: Layout) -> Layout {
    let len = 1 + source.below(8) as usize;
    let is_placed = |&row: &usize| {
        let at = layout.rows[row][OFFSET] as usize;
        (contents(layout.rows.len())..=contents(layout.rows.len()) + layout.bodies.len())
            .contains(&at)
    };
    match row(source, &layout).filter(is_placed) {
        Some(row) => layout.gap(row, len),
        None => layout,
    }
}

fn tail(source: &mut Source, mut layout: Layout) -> Layout {
    let len = layout.bodies.len() + 1 + source.below(60) as usize;
    layout.bodies.resize(len, source.below(2) as u8);
    layout
}

/// Two rows exchanged: each body is where its row says, in another order than the contents have.
fn exchanged(source: &mut Source, mut layout: Layout) -> Layout {
    if let (Some(a), Some(b)) = (row(source, &layout), row(source, &layout)) {
        layout.rows.swap(a, b);
    }
    layout
}

fn wrapping(source: &mut Source, layout: Layout) -> Layout {
    match layout.rows.len() {
        0 | 1 => layout,
        _ => layout.wrapping(4 * (1 + source.below(200))),
    }
}

#[cfg(test)]
mod tests {
    use reference::book::read;

    use super::{bases, books, random};
    use crate::inputs::Source;

    #[test]
    fn damage_leads_to_every_refusal_and_to_good_books() {
        let mut source = Source::new(1);
        let made: Vec<_> = (0..2000).map(|_| random(&mut source)).collect();
        for books in [made, books()] {
            let mut numbers = [0; 17];
            for book in &books {
                numbers[read(book).err().unwrap_or(0) as usize] += 1;
            }
            let all = [0, 14, 15, 16];
            assert!(
                all.iter().all(|&number| numbers[number] > 50),
                "{numbers:?}"
            );
        }
    }

    #[test]
    fn what_is_damaged_is_good() {
        assert!(bases().iter().all(|book| read(book).is_ok()));
    }
}
