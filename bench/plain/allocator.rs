//! The allocator of the system, which ends the program with its own status if there is no memory left.

use crate::texts::NO_MEMORY;
use std::alloc::{GlobalAlloc, Layout, System};
use std::io::{self, Write};
use std::process;

/// The status of a run for which there is too little memory.
pub const NO_MEMORY_STATUS: u8 = 6;

pub struct Allocator;

// SAFETY: each call is the system allocator's, but for a null pointer, which is not returned.
unsafe impl GlobalAlloc for Allocator {
    #[inline]
    unsafe fn alloc(&self, layout: Layout) -> *mut u8 {
        there(System.alloc(layout))
    }

    #[inline]
    unsafe fn alloc_zeroed(&self, layout: Layout) -> *mut u8 {
        there(System.alloc_zeroed(layout))
    }

    #[inline]
    unsafe fn realloc(&self, start: *mut u8, layout: Layout, size: usize) -> *mut u8 {
        there(System.realloc(start, layout, size))
    }

    #[inline]
    unsafe fn dealloc(&self, start: *mut u8, layout: Layout) {
        System.dealloc(start, layout)
    }
}

#[inline]
fn there(start: *mut u8) -> *mut u8 {
    if start.is_null() {
        end_without_memory();
    }
    start
}

/// Standard error takes the line unbuffered, so this allocates nothing.
#[cold]
fn end_without_memory() -> ! {
    // If standard error fails too, there is nowhere to report it.
    let _said = io::stderr().write_all(NO_MEMORY.as_bytes());
    process::exit(NO_MEMORY_STATUS.into())
}
