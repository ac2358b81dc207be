//! Bytes or numbers to lend, each time in one of four places: on the heap with just its length, so that memcheck sees
//! every byte beside it; between margins that are looked at afterwards; and at the end or the beginning of pages beside
//! which nothing is mapped, so that a byte read or written there ends the run. Files may not be written to either.

use crate::rng::Rng;
use crate::writings::{pattern, MARGIN};
use std::ffi::c_void;
use std::slice;
use std::sync::atomic::{AtomicU64, Ordering};

const PAGE: usize = 4_096;
const ROOM: usize = 640 * PAGE;
const NOTHING: i32 = 0;
const READ: i32 = 1;
const READ_AND_WRITE: i32 = 3;
const PRIVATE_AND_ANONYMOUS: i32 = 0x22;

unsafe extern "C" {
    fn mmap(at: *mut c_void, length: usize, protection: i32, flags: i32, fd: i32, offset: i64)
        -> *mut c_void;
    fn mprotect(at: *mut c_void, length: usize, protection: i32) -> i32;
    fn signal(number: i32, handler: extern "C" fn(i32)) -> usize;
    fn write(file: i32, bytes: *const u8, count: usize) -> isize;
    fn _exit(status: i32) -> !;
}

/// Of the round that is under way.
static SEED: AtomicU64 = AtomicU64::new(0);

/// From now on a crash says how to run this round again.
pub fn crashes_show(seed: u64) {
    const SEGV: i32 = 11;
    if SEED.swap(seed, Ordering::Relaxed) == 0 {
        // SAFETY: the handler does only what a handler may do.
        unsafe { signal(SEGV, crashed) };
    }
}

extern "C" fn crashed(_: i32) {
    let mut text = *b"A byte was touched that was not lent. Again: fuzz 0 00000000000000000000 calls\n";
    let mut seed = SEED.load(Ordering::Relaxed);
    for digit in text[52..72].iter_mut().rev() {
        *digit = b'0' + (seed % 10) as u8;
        seed /= 10;
    }
    // SAFETY: so many bytes are there.
    unsafe {
        write(2, text.as_ptr(), text.len());
        _exit(1)
    }
}

/// Pages with nothing mapped on either side.
pub struct Pages {
    at: *mut u8,
}

/// What can be lent.
pub trait Item: Copy + Eq + From<u8> {}

impl Item for u8 {}
impl Item for u16 {}

enum Place<'a, T> {
    Heap(Box<[T]>),
    Margins(Vec<T>),
    /// And the place of the first item in them, in bytes.
    Pages(&'a mut Pages, usize),
}

pub struct Lent<'a, T> {
    place: Place<'a, T>,
    length: usize,
}

/// So many items and the margins around them.
fn with_margins<T: Item>(length: usize) -> Vec<T> {
    pattern(length).into_iter().map(T::from).collect()
}

impl Pages {
    pub fn new() -> Self {
        let none = std::ptr::null_mut();
        // SAFETY: new pages, which nothing else knows.
        let at = unsafe { mmap(none, ROOM + 2 * PAGE, NOTHING, PRIVATE_AND_ANONYMOUS, -1, 0) };
        assert!(at as isize != -1, "no memory");
        let pages = Pages { at: at.cast::<u8>().wrapping_add(PAGE) };
        pages.protect(READ_AND_WRITE);
        pages
    }

    fn protect(&self, protection: i32) {
        // SAFETY: these pages are mapped, and no reference to them is alive.
        let answer = unsafe { mprotect(self.at.cast(), ROOM, protection) };
        assert_eq!(answer, 0, "mprotect");
    }

    /// Lends a copy of the items. The call that it is lent to may not write to it where it is a file.
    pub fn lend<T: Item>(&mut self, items: &[T], file: bool, rng: &mut Rng) -> Lent<'_, T> {
        let length = items.len();
        let place = match rng.below(4) {
            0 => Place::Heap(items.into()),
            1 => {
                let mut margins = with_margins(length);
                margins[MARGIN..MARGIN + length].copy_from_slice(items);
                Place::Margins(margins)
            }
            _ if size_of_val(items) > ROOM => Place::Heap(items.into()),
            side => {
                let start = if side == 2 { 0 } else { ROOM - size_of_val(items) };
                self.protect(READ_AND_WRITE);
                // SAFETY: so many are mapped there, to be written, and lent to no one.
                unsafe { slice::from_raw_parts_mut(self.at.add(start).cast(), length) }
                    .copy_from_slice(items);
                if file {
                    self.protect(READ);
                }
                Place::Pages(self, start)
            }
        };
        Lent { place, length }
    }
}

impl<T: Item> Lent<'_, T> {
    pub fn items(&self) -> &[T] {
        match &self.place {
            Place::Heap(items) => items,
            Place::Margins(items) => &items[MARGIN..MARGIN + self.length],
            // SAFETY: mapped, and borrowed as long as this is.
            Place::Pages(pages, start) => unsafe {
                slice::from_raw_parts(pages.at.add(*start).cast(), self.length)
            },
        }
    }

    /// Not of a file.
    pub fn items_mut(&mut self) -> &mut [T] {
        match &mut self.place {
            Place::Heap(items) => items,
            Place::Margins(items) => &mut items[MARGIN..MARGIN + self.length],
            // SAFETY: mapped, to be written, and borrowed as long as this is.
            Place::Pages(pages, start) => unsafe {
                slice::from_raw_parts_mut(pages.at.add(*start).cast(), self.length)
            },
        }
    }

    /// Whether the items are these, and those around as they were.
    pub fn is(&self, items: &[T]) -> bool {
        let around = match &self.place {
            Place::Margins(all) => {
                let before = with_margins(self.length);
                let behind = MARGIN + self.length;
                all[..MARGIN] == before[..MARGIN] && all[behind..] == before[behind..]
            }
            _ => true,
        };
        around && self.items() == items
    }
}
