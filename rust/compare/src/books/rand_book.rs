//! Runs a draw book over rand, in the way of the port's program `book`: the book on standard input, a line for each job on standard
//! output. The port's program is measured against it.

use std::io::{self, Read, Write};

use reference::book::LARGEST;
use reference::book_by_rand::output;

fn main() -> io::Result<()> {
    let mut book = Vec::new();
    // One byte more than the largest book: it is enough to see that a book is larger.
    let most = LARGEST as u64 + 1;
    io::stdin().lock().take(most).read_to_end(&mut book)?;
    io::stdout().write_all(output(&book).as_bytes())
}
