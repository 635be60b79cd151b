//! Preloaded into a program, it refuses one growth of memory: the one whose number, from 1, the variable `REFUSE` has. It
//! writes a line to standard error where it does. Build: `rustc --edition 2021 -O -C panic=abort --crate-type cdylib refuse.rs`.
#![no_std]
use core::ffi::{c_char, c_int, c_long, c_void};
use core::panic::PanicInfo;
use core::ptr::null_mut;
use core::sync::atomic::{AtomicI64, Ordering};

#[link(name = "c")]
extern "C" {
    fn __libc_malloc(size: usize) -> *mut c_void;
    fn __libc_realloc(block: *mut c_void, size: usize) -> *mut c_void;
    fn getenv(name: *const c_char) -> *const c_char;
    fn atol(digits: *const c_char) -> c_long;
    fn write(file: c_int, bytes: *const c_void, len: usize) -> isize;
}

/// How many growths there were so far.
static GROWTHS: AtomicI64 = AtomicI64::new(0);

/// Whether this growth is the one that is refused.
unsafe fn is_refused() -> bool {
    let number = getenv(c"REFUSE".as_ptr());
    if number.is_null() || GROWTHS.fetch_add(1, Ordering::Relaxed) + 1 != atol(number) {
        return false;
    }
    let line = b"refused\n";
    write(2, line.as_ptr().cast(), line.len());
    true
}

#[no_mangle]
pub unsafe extern "C" fn malloc(size: usize) -> *mut c_void {
    if is_refused() {
        null_mut()
    } else {
        __libc_malloc(size)
    }
}

#[no_mangle]
pub unsafe extern "C" fn realloc(block: *mut c_void, size: usize) -> *mut c_void {
    if is_refused() {
        null_mut()
    } else {
        __libc_realloc(block, size)
    }
}

#[panic_handler]
fn stop(_: &PanicInfo) -> ! {
    loop {}
}
