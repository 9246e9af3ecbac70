//! Long lists of one number, which take the memory of a short one where they are not written.

use std::fs::File;
use std::io::Write;
use std::os::fd::{AsRawFd, FromRawFd};

use crate::slices::without_memory;

/// The bytes that are in memory. A list has them again and again.
const BLOCK: usize = 1 << 24;

/// The entries of a block.
const ENTRIES: usize = BLOCK / size_of::<u32>();

unsafe extern "C" {
    // The C library's, with the types that they have on x86-64 Linux.
    fn memfd_create(name: *const i8, flags: u32) -> i32;
    fn mmap(at: *mut u8, size: usize, access: i32, flags: i32, file: i32, from: i64) -> *mut u8;
}

/// A file without a name that is nowhere but in memory.
fn file() -> File {
    // SAFETY: the name is a C string, and the descriptor is nobody else's.
    let descriptor = unsafe { memfd_create(c"entries".as_ptr(), 0) };
    assert!(descriptor >= 0, "no file in memory");
    // SAFETY: as above.
    unsafe { File::from_raw_fd(descriptor) }
}

/// So many entries, each this number. Those that are written take memory of their own.
pub fn repeated(entry: u32, len: usize) -> &'static mut [u32] {
    const READ_AND_WRITE: i32 = 1 | 2;
    const PRIVATE_FIXED_NORESERVE: i32 = 0x2 | 0x10 | 0x4000;
    let mut file = file();
    let block = entry.to_ne_bytes().repeat(ENTRIES);
    file.write_all(&block).expect("the block is written");
    let list = without_memory::<u32>(len.next_multiple_of(ENTRIES));
    for block in list.chunks_exact_mut(ENTRIES) {
        let at = block.as_mut_ptr().cast();
        // SAFETY: what is replaced are pages that this list alone has, all of them, by others of the same size. One that is written is
        // first copied, so that no other changes with it.
        let mapped = unsafe {
            mmap(
                at,
                BLOCK,
                READ_AND_WRITE,
                PRIVATE_FIXED_NORESERVE,
                file.as_raw_fd(),
                0,
            )
        };
        assert_eq!(mapped, at, "the block is mapped");
    }
    &mut list[..len]
}
