//! Books as they are laid out, right or wrong.

use reference::book::{Job, bytes};

/// The numbers of a row: kind, offset, length.
pub type Row = [u32; 3];

/// The places of a row's numbers.
pub const KIND: usize = 0;
pub const OFFSET: usize = 1;
pub const LENGTH: usize = 2;

/// The parts of a book, each of which can be spoilt.
#[derive(Clone, Debug)]
pub struct Layout {
    pub count: u32,
    pub rows: Vec<Row>,
    /// All that stands behind the contents.
    pub bodies: Vec<u8>,
}

impl Layout {
    /// The layout of these jobs, which may be too many or too long for a book.
    pub fn of(jobs: &[Job]) -> Self {
        let order: Vec<usize> = (0..jobs.len()).collect();
        Self::in_order(jobs, &order)
    }

    /// The same with the bodies in another order. The rows stay in that of the jobs, and say where each body is.
    pub fn in_order(jobs: &[Job], order: &[usize]) -> Self {
        let start = contents(jobs.len());
        let mut rows = vec![[0; 3]; jobs.len()];
        let mut bodies = Vec::new();
        for &at in order {
            let body = jobs[at].body();
            let offset = (start + bodies.len()) as u32;
            rows[at] = [jobs[at].draw.kind(), offset, body.len() as u32];
            bodies.extend(body);
        }
        Self {
            count: jobs.len() as u32,
            rows,
            bodies,
        }
    }

    /// With a change.
    pub fn with(&self, change: impl FnOnce(&mut Self)) -> Self {
        let mut changed = self.clone();
        change(&mut changed);
        changed
    }

    /// So many bytes before the body of a row, which the offsets take into account.
    pub fn gap(&self, row: usize, len: usize) -> Self {
        self.with(|layout| {
            let at = layout.rows[row][OFFSET] as usize - contents(layout.rows.len());
            layout.bodies.splice(at..at, vec![0; len]);
            for row in &mut layout.rows[row..] {
                row[OFFSET] = row[OFFSET].wrapping_add(len as u32);
            }
        })
    }

    /// A first length that is too great by 2^32 - `less`, and a second offset and length by which the sums still end where the book does if
    /// they are made modulo 2^32.
    pub fn wrapping(&self, less: u32) -> Self {
        self.with(|layout| {
            layout.rows[0][LENGTH] = layout.rows[0][LENGTH].wrapping_sub(less);
            layout.rows[1][OFFSET] = layout.rows[1][OFFSET].wrapping_sub(less);
            layout.rows[1][LENGTH] = layout.rows[1][LENGTH].wrapping_add(less);
        })
    }

    /// The book.
    pub fn bytes(&self) -> Vec<u8> {
        let rows = bytes(self.rows.as_flattened());
        [&bytes(&[self.count])[..], &rows, &self.bodies].concat()
    }
}

/// The bytes of the count and of so many rows.
pub fn contents(rows: usize) -> usize {
    4 + 12 * rows
}

#[cfg(test)]
mod tests {
    use reference::book::{read, write};

    use super::Layout;
    use crate::book::random;
    use crate::inputs::Source;

    #[test]
    fn the_layout_of_jobs_is_their_book() {
        let mut source = Source::new(1);
        for _ in 0..100 {
            let jobs: Vec<_> = (0..3).map(|_| random::job(&mut source)).collect();
            let layout = Layout::of(&jobs);
            assert_eq!(Ok(layout.bytes()), write(&jobs));
            let turned = Layout::in_order(&jobs, &[2, 0, 1]).bytes();
            assert_eq!(turned.len(), layout.bytes().len());
            for wrong in [
                turned,
                layout.gap(1, 4).bytes(),
                layout.wrapping(1 << 20).bytes(),
            ] {
                assert_eq!(read(&wrong), Err(16));
            }
        }
    }
}
