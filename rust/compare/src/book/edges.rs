//! Books at the edges of the format: the order of the classes, numbers near 2^32, bodies in wrong places, as many jobs and bytes as there may be.

use reference::book::{Draw, Job, LARGEST, MOST_JOBS, bytes};

use super::layout::{KIND, LENGTH, Layout, OFFSET, contents};

/// All of them.
pub fn books() -> Vec<Vec<u8>> {
    let mut books = counts();
    books.extend(classes());
    books.extend(wrapping());
    books.extend(places());
    books.extend(many());
    books.extend(large());
    books
}

/// A job of each kind, with another seed for each number. The bodies of 0 and of 2 have one length, and kind 2 as well as 1 could have it.
fn job(number: u8) -> Job {
    let (kind, numbers): (u32, &[u32]) = match number % 3 {
        0 => (1, &[9, 4, 2]),
        1 => (2, &[5, 3, 1, 2, 3]),
        _ => (2, &[4, 1, 2]),
    };
    Job {
        seed: [number + 1; 32],
        draw: Draw::of(kind, numbers).expect("a draw"),
    }
}

/// The layout of so many jobs.
fn layout(jobs: usize) -> Layout {
    let jobs: Vec<Job> = (0..jobs as u8).map(job).collect();
    Layout::of(&jobs)
}

/// A job of so many bytes, of weights that add up to few.
fn long(len: usize) -> Job {
    let weights = (0..(len - 40) / 4).map(|place| u32::from(place % 7 == 0));
    Job {
        seed: [9; 32],
        draw: Draw::Pick {
            picks: 3,
            budget: 9,
            weights: weights.collect(),
        },
    }
}

/// Counts for which the bytes of the contents pass 2^32 and come back to few, and others that are too great.
fn counts() -> Vec<Vec<u8>> {
    let counts = [
        65,
        66,
        256,
        257,
        65_536,
        357_913_941,
        357_913_942,
        715_827_883,
        1_073_741_824,
        1 << 31,
        u32::MAX - 1,
        u32::MAX,
    ];
    let books = counts.into_iter().flat_map(|count| {
        let empty = bytes(&[count]);
        let good = layout(2).with(|layout| layout.count = count).bytes();
        let large = [&good[..], &vec![0; LARGEST]].concat();
        [empty, good, large]
    });
    books.collect()
}

/// Two or three of the classes in one book, in every order of the rows.
fn classes() -> Vec<Vec<u8>> {
    let mut books = Vec::new();
    for (a, b) in [(0, 1), (1, 0), (0, 2), (2, 0), (1, 2), (2, 1), (0, 0)] {
        let unknown = layout(3).with(|layout| layout.rows[a][KIND] = 3);
        for number in [0, 1, u32::MAX] {
            for place in [OFFSET, LENGTH] {
                books.push(unknown.with(|layout| layout.rows[b][place] = number));
                books.push(layout(3).with(|layout| layout.rows[b][place] = number));
            }
        }
        books.push(unknown.with(|layout| layout.bodies.push(0)));
        books.push(unknown.with(|layout| _ = layout.bodies.pop()));
        books.push(unknown.with(|layout| layout.bodies.resize(LARGEST, 0)));
        books.push(unknown.with(|layout| layout.bodies.clear()));
    }
    let mut books: Vec<Vec<u8>> = books.iter().map(Layout::bytes).collect();
    // A known and an unknown kind in contents that are cut short behind them.
    let unknown = layout(3).with(|layout| layout.rows[0][KIND] = 7).bytes();
    books.extend((0..contents(3)).map(|len| unknown[..len].to_vec()));
    books
}

/// Offsets and lengths near 2^32, alone and so that sums modulo 2^32 are those of a good book.
fn wrapping() -> Vec<Vec<u8>> {
    let mut books = Vec::new();
    for less in [44, 48, 52, 84, 88, 92, 96, 1 << 16, 1 << 31, u32::MAX - 3] {
        let picks = [job(1), job(1), job(2)];
        books.push(Layout::of(&picks).wrapping(less));
        books.push(layout(2).wrapping(less));
        // The same with the sum brought back in the third row.
        books.push(Layout::of(&picks).with(|layout| {
            layout.rows[0][LENGTH] = layout.rows[0][LENGTH].wrapping_sub(less);
            for row in &mut layout.rows[1..] {
                row[OFFSET] = row[OFFSET].wrapping_sub(less);
            }
            layout.rows[2][LENGTH] = layout.rows[2][LENGTH].wrapping_add(less);
        }));
    }
    for near in (0..20).chain([44, 52, 60]) {
        for row in [0, 1] {
            for place in [OFFSET, LENGTH] {
                let number = u32::wrapping_neg(near);
                books.push(layout(2).with(|layout| layout.rows[row][place] = number));
            }
        }
    }
    books.iter().map(Layout::bytes).collect()
}

/// Bodies in another order, with gaps, over each other, and tails.
fn places() -> Vec<Vec<u8>> {
    let jobs: Vec<Job> = (0..4).map(job).collect();
    let alike = [job(0), job(3), job(6)];
    let mut books = Vec::new();
    for order in [[1, 0, 2, 3], [0, 2, 1, 3], [3, 2, 1, 0], [3, 0, 1, 2]] {
        books.push(Layout::in_order(&jobs, &order));
    }
    for order in [[1, 0, 2], [2, 1, 0], [1, 2, 0]] {
        books.push(Layout::in_order(&alike, &order));
    }
    for (row, len) in (0..4).flat_map(|row| [1, 2, 4, 12, 44].map(|len| (row, len))) {
        books.push(layout(4).gap(row, len));
        // A gap of which the offsets know nothing, and one that the length before it takes in.
        books.push(layout(4).gap(row, len).with(|changed| {
            for (changed, row) in changed.rows.iter_mut().zip(layout(4).rows) {
                changed[OFFSET] = row[OFFSET];
            }
        }));
        if row > 0 {
            books.push(layout(4).gap(row, len).with(|changed| {
                changed.rows[row - 1][LENGTH] += len as u32;
            }));
        }
    }
    for len in [1, 2, 3, 4, 12, 40, 44] {
        books.push(layout(4).with(|layout| layout.bodies.extend(vec![0; len])));
        books.push(layout(0).with(|layout| layout.bodies.extend(vec![0; len])));
    }
    // Two rows of one body, with the other left over and without it.
    let alike = Layout::of(&alike);
    for (a, b) in [(0, 1), (1, 0), (1, 2)] {
        books.push(alike.with(|layout| layout.rows[a][OFFSET] = layout.rows[b][OFFSET]));
    }
    books.push(alike.with(|layout| {
        layout.rows[2][OFFSET] = layout.rows[1][OFFSET];
        layout.bodies.truncate(88);
    }));
    books.iter().map(Layout::bytes).collect()
}

/// As many jobs as a book may have, one less and one more.
fn many() -> Vec<Vec<u8>> {
    let mut books = Vec::new();
    for jobs in [MOST_JOBS - 1, MOST_JOBS, MOST_JOBS + 1] {
        let book = layout(jobs).bytes();
        books.push([&book[..], &[0]].concat());
        books.push(book[..book.len() - 1].to_vec());
        books.push(book[..contents(jobs) - 1].to_vec());
        books.push(book);
        let last = jobs - 1;
        books.push(
            layout(jobs)
                .with(|layout| layout.rows[last][KIND] = 0)
                .bytes(),
        );
        books.push(
            layout(jobs)
                .with(|layout| layout.rows[last][OFFSET] += 1)
                .bytes(),
        );
    }
    books
}

/// Books of the greatest size, less and more, to more than a program reads.
fn large() -> Vec<Vec<u8>> {
    let one = |len: usize| Layout::of(&[long(len - contents(1))]);
    let full = |jobs: usize, len: usize| {
        let mut all: Vec<Job> = (1..jobs as u8).map(job).collect();
        let taken: usize = all.iter().map(|job| job.body().len()).sum();
        all.push(long(len - contents(jobs) - taken));
        Layout::of(&all)
    };
    let mut books = Vec::new();
    for len in [LARGEST - 4, LARGEST, LARGEST + 4, 70_000, 1_000_000] {
        for layout in [
            one(len),
            full(2, len),
            full(MOST_JOBS, len),
            full(MOST_JOBS + 1, len),
        ] {
            let rows = layout.rows.len();
            books.push(layout.clone());
            books.push(layout.with(|layout| layout.rows[rows - 1][KIND] = 3));
            books.push(layout.with(|layout| layout.rows[0][OFFSET] += 4));
            books.push(layout.with(|layout| layout.bodies.push(0)));
            books.push(layout.with(|layout| _ = layout.bodies.pop()));
        }
    }
    // A good book of the greatest size, and one that ends where a program stops reading, with more behind it.
    for (len, more) in [(LARGEST, 10_000), (LARGEST + 4, 4), (LARGEST - 60, 4000)] {
        books.push(one(len).with(|layout| layout.bodies.extend(vec![0; more])));
    }
    let mut books: Vec<Vec<u8>> = books.iter().map(Layout::bytes).collect();
    books.extend([65, 64, 1, 0].map(|count| {
        let mut book = bytes(&[count]);
        book.resize(70_000, 0);
        book
    }));
    books
}

#[cfg(test)]
mod tests {
    use reference::book::{LARGEST, read};

    use super::books;

    #[test]
    fn the_edges_have_every_refusal_and_the_greatest_book() {
        let mut numbers = [0; 17];
        let books = books();
        for book in &books {
            numbers[read(book).err().unwrap_or(0) as usize] += 1;
        }
        let all = [0, 14, 15, 16];
        assert!(all.iter().all(|&number| numbers[number] > 5), "{numbers:?}");
        let largest = |book: &&Vec<u8>| book.len() == LARGEST && read(book).is_ok();
        assert!(books.iter().filter(largest).count() > 2);
    }
}
