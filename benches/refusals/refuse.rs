//! Preloaded into a process, this refuses one of its allocations: the one whose number, counted from 1, stands in the variable REFUSE. It then says
//! `refused` on standard error. Without the variable it refuses none.

use std::ffi::{c_char, c_int, c_long, c_void};
use std::ptr::null_mut;
use std::sync::atomic::{AtomicI64, Ordering::SeqCst};

unsafe extern "C" {
    fn __libc_malloc(size: usize) -> *mut c_void;
    fn __libc_calloc(count: usize, size: usize) -> *mut c_void;
    fn __libc_realloc(old: *mut c_void, size: usize) -> *mut c_void;
    fn getenv(name: *const c_char) -> *const c_char;
    fn atol(text: *const c_char) -> c_long;
    fn dprintf(file: c_int, form: *const c_char, ...) -> c_int;
    fn __errno_location() -> *mut c_int;
}

/// The cause that the C library's callers expect of a refused allocation.
const ENOMEM: c_int = 12;

/// How many allocations there were.
static COUNT: AtomicI64 = AtomicI64::new(0);

/// The number of the one that is refused, or 0.
static REFUSED: AtomicI64 = AtomicI64::new(0);

fn is_refused() -> bool {
    let is_it = COUNT.fetch_add(1, SeqCst) + 1 == REFUSED.load(SeqCst);
    if is_it {
        unsafe {
            dprintf(2, c"refused\n".as_ptr());
            *__errno_location() = ENOMEM;
        }
    }
    is_it
}

#[unsafe(no_mangle)]
unsafe extern "C" fn malloc(size: usize) -> *mut c_void {
    if is_refused() { null_mut() } else { unsafe { __libc_malloc(size) } }
}

#[unsafe(no_mangle)]
unsafe extern "C" fn realloc(old: *mut c_void, size: usize) -> *mut c_void {
    if is_refused() { null_mut() } else { unsafe { __libc_realloc(old, size) } }
}

#[unsafe(no_mangle)]
unsafe extern "C" fn calloc(count: usize, size: usize) -> *mut c_void {
    if is_refused() { null_mut() } else { unsafe { __libc_calloc(count, size) } }
}

extern "C" fn begin() {
    let text = unsafe { getenv(c"REFUSE".as_ptr()) };
    COUNT.store(0, SeqCst);
    REFUSED.store(if text.is_null() { 0 } else { unsafe { atol(text) } }, SeqCst);
}

#[used]
#[unsafe(link_section = ".init_array")]
static BEGIN: extern "C" fn() = begin;
