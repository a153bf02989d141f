//! A program without Rust's standard library, as far as it is compiled: with an allocator and an answer to panics of its own, of
//! which there can be one, it is refused where the crate brings the standard library with it.

#![no_std]

use core::alloc::{GlobalAlloc, Layout};
use core::panic::PanicInfo;
use mezzulidda::events::attributes::Attributes;

struct Nothing;

// SAFETY: there is never any memory, which an allocator may say.
unsafe impl GlobalAlloc for Nothing {
    unsafe fn alloc(&self, _: Layout) -> *mut u8 {
        core::ptr::null_mut()
    }

    unsafe fn dealloc(&self, _: *mut u8, _: Layout) {}
}

#[global_allocator]
static ALLOCATOR: Nothing = Nothing;

#[panic_handler]
fn stop(_: &PanicInfo) -> ! {
    loop {}
}

/// How many attributes a tag has.
#[unsafe(no_mangle)]
pub extern "C" fn attributes() -> usize {
    Attributes::new("chunk id='c-17' offset='0'", 5).count()
}
