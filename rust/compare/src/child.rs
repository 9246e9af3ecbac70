//! A program as a process: all of its input is written, and all that it writes is taken.

use std::io::{self, Write};
use std::process::{Command, Output, Stdio};
use std::thread;
use std::time::Duration;

/// How long it takes to the next piece of an input: long enough for a program to start and to read the pieces before it alone.
const PAUSE: Duration = Duration::from_millis(3);

/// Runs a command on this input, which is written in pieces.
///
/// # Errors
///
/// If it cannot be run.
pub fn output(command: &mut Command, input: &[&[u8]]) -> io::Result<Output> {
    let mut child = command
        .stdin(Stdio::piped())
        .stdout(Stdio::piped())
        .spawn()?;
    let stdin = child.stdin.take();
    // Written from a thread of its own, for the program need not read to the end before it answers.
    thread::scope(|scope| {
        scope.spawn(move || {
            // A program may end before it has read all; whether it should have is seen in its answer.
            let _ = stdin.map(|mut pipe| write(&mut pipe, input));
        });
        child.wait_with_output()
    })
}

fn write(pipe: &mut impl Write, pieces: &[&[u8]]) -> io::Result<()> {
    for (place, piece) in pieces.iter().enumerate() {
        if place > 0 {
            thread::sleep(PAUSE);
        }
        pipe.write_all(piece)?;
    }
    Ok(())
}
