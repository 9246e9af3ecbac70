//! Slices to lend, with entries in them and around them that show whether they were written.

use std::{fmt, ptr, slice};

use reference::answer::digest;

/// Entries on either side of a slice. Three, so that the slice is aligned for its entries and for nothing larger.
const MARGIN: usize = 3;

/// How many entries of a slice are printed.
const SHOWN: usize = 40;

/// A slice to lend, between entries that no call may change.
#[derive(PartialEq)]
pub struct Lent(Vec<u32>);

impl Lent {
    /// A slice of so many entries, each with a number of its own in it, most of them above any index that is drawn.
    pub fn new(len: usize) -> Self {
        let places = 0..len + 2 * MARGIN;
        Self(
            places
                .map(|place| !(place as u32).wrapping_mul(2))
                .collect(),
        )
    }

    /// A slice of these entries.
    pub fn of(entries: &[u32]) -> Self {
        let mut lent = Self::new(entries.len());
        lent.entries().copy_from_slice(entries);
        lent
    }

    /// A digest of it and of what is around it.
    pub fn digest(&self) -> u64 {
        digest(&[&self.0])
    }

    /// What is lent.
    pub fn entries(&mut self) -> &mut [u32] {
        let end = self.0.len() - MARGIN;
        &mut self.0[MARGIN..end]
    }
}

impl fmt::Debug for Lent {
    fn fmt(&self, f: &mut fmt::Formatter<'_>) -> fmt::Result {
        let Self(all) = self;
        let entries = &all[MARGIN..all.len() - MARGIN];
        write!(f, "{:?}", &entries[..entries.len().min(SHOWN)])?;
        if entries.len() > SHOWN {
            write!(f, " and on to {} entries", entries.len())?;
        }
        write!(f, ", digest with those around it {}", self.digest())
    }
}

/// What a slice of zeros can be made of: zero bytes are one of these.
pub trait Number {}

impl Number for u32 {}
impl Number for u64 {}

/// A slice of zeros that takes memory only where it is touched, for calls that refuse before they touch it.
pub fn without_memory<T: Number>(len: usize) -> &'static mut [T] {
    unsafe extern "C" {
        /// The C library's, with the types that it has on x86-64 Linux.
        fn mmap(at: *mut u8, size: usize, access: i32, flags: i32, file: i32, from: i64)
        -> *mut u8;
    }
    const READ_AND_WRITE: i32 = 1 | 2;
    const PRIVATE_ANONYMOUS_NORESERVE: i32 = 0x2 | 0x20 | 0x4000;
    let size = len * size_of::<T>();
    // SAFETY: no address is asked for, so nothing that is mapped is replaced.
    let start = unsafe {
        mmap(
            ptr::null_mut(),
            size,
            READ_AND_WRITE,
            PRIVATE_ANONYMOUS_NORESERVE,
            -1,
            0,
        )
    };
    assert!(
        start.addr() != usize::MAX,
        "no room for {len} entries among the addresses"
    );
    // SAFETY: these are pages of zeros that nothing else knows of, they are never given back, and zero bytes are numbers.
    unsafe { slice::from_raw_parts_mut(start.cast(), len) }
}
