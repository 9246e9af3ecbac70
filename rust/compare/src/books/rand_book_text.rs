//! Writes a draw book from a text and shows one as a text, in the way of the port's program `book_text`: stands in for it in tests.

use std::io::{self, Read, Write};
use std::process::ExitCode;

use reference::book_text::{Wrong, book, text};

fn main() -> io::Result<ExitCode> {
    let mut input = Vec::new();
    io::stdin().lock().read_to_end(&mut input)?;
    let made = match input.split_at_checked(2) {
        Some((b"w\n", lines)) => book(lines),
        Some((b"s\n", book)) => text(book).map(String::into_bytes),
        _ => return Ok(ExitCode::from(2)),
    };
    match made {
        Ok(made) => {
            io::stdout().write_all(&made)?;
            return Ok(ExitCode::SUCCESS);
        }
        Err(Wrong::Line(number)) => eprintln!("draw: line {number}: it is no job"),
        Err(Wrong::Refused(number)) => eprintln!("draw: refused {number}"),
    }
    Ok(ExitCode::from(1))
}
