//! The most memory that a process has had.

use std::fs;
use std::io::{self, Write};
use std::process::{Command, Stdio};
use std::ptr;

unsafe extern "C" {
    /// The C library's, with the types that they have on x86-64 Linux.
    fn ptrace(request: u32, ...) -> i64;
    fn waitpid(process: i32, status: *mut i32, options: i32) -> i32;
}

const PTRACE_CONT: u32 = 7;
const PTRACE_SEIZE: u32 = 0x4206;
const PTRACE_O_TRACEEXIT: usize = 1 << 6;

/// The status of a process that is about to end and still has its memory.
const ENDING: i32 = 5 | 6 << 8;

/// The most KiB that a program has had at once when it ends, on this input. What it writes goes nowhere.
///
/// What the system tells of a process that has ended takes in what the process that started it had. So this one is stopped at its end and asked.
///
/// # Errors
///
/// If it cannot be run or asked.
pub fn peak(program: &str, input: &[u8]) -> io::Result<u64> {
    let mut command = Command::new(program);
    let mut child = command
        .stdin(Stdio::piped())
        .stdout(Stdio::null())
        .spawn()?;
    let process = child.id() as i32;
    // It waits for its input meanwhile.
    // SAFETY: the numbers are those that this request takes.
    let seized = unsafe { ptrace(PTRACE_SEIZE, process, 0_usize, PTRACE_O_TRACEEXIT) };
    if seized < 0 {
        return Err(io::Error::last_os_error());
    }
    let written = child.stdin.take().map(|mut pipe| pipe.write_all(input));
    let peak = at_end(process);
    written.transpose()?;
    peak
}

/// What a process that is traced tells at its end, which is waited for.
fn at_end(process: i32) -> io::Result<u64> {
    let mut peak = Err(io::ErrorKind::InvalidData.into());
    loop {
        let mut status = 0;
        // SAFETY: the status is written to a number of that size.
        if unsafe { waitpid(process, &raw mut status, 0) } < 0 {
            return Err(io::Error::last_os_error());
        }
        let is_stopped = status & 0xff == 0x7f;
        if !is_stopped {
            return peak;
        }
        if status >> 8 == ENDING {
            peak = told(process);
        }
        // SAFETY: the process is stopped, and goes on without a signal.
        unsafe { ptrace(PTRACE_CONT, process, ptr::null_mut::<u8>(), 0_usize) };
    }
}

/// The KiB that the system tells of a process that is there.
fn told(process: i32) -> io::Result<u64> {
    let text = fs::read_to_string(format!("/proc/{process}/status"))?;
    let line = text.lines().find_map(|line| line.strip_prefix("VmHWM:"));
    let number = line.and_then(|line| line.split_whitespace().next()?.parse().ok());
    number.ok_or(io::ErrorKind::InvalidData.into())
}

#[cfg(test)]
mod tests {
    use super::peak;

    /// A program that keeps nothing, and one that keeps its input.
    #[test]
    fn the_most_memory_is_told() {
        let cat = peak("cat", &[b'1'; 1000]).expect("it is told");
        assert!((100..20_000).contains(&cat), "{cat}");
        let input = vec![b'1'; 50_000_000];
        let sorted = peak("sort", &input).expect("it is told");
        assert!(sorted > 40_000, "{sorted}");
        assert!(peak("no such program", &[]).is_err());
    }
}
