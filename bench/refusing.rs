//! Refuses the growth of a program's memory whose number the environment names, for refused.sh: loaded before the C library, it
//! counts the calls that ask for memory, from 1, answers that one with none, and tells so on standard error.
use std::ffi::{c_char, c_int, c_void};
use std::ptr::null_mut;
use std::sync::atomic::{AtomicU64, Ordering::Relaxed};

extern "C" {
    fn __libc_malloc(size: usize) -> *mut c_void;
    fn __libc_realloc(old: *mut c_void, size: usize) -> *mut c_void;
    fn __libc_calloc(count: usize, size: usize) -> *mut c_void;
    fn getenv(name: *const c_char) -> *const c_char;
    fn atoll(text: *const c_char) -> i64;
    fn write(file: c_int, bytes: *const c_char, count: usize) -> isize;
    fn __errno_location() -> *mut c_int;
}

static CALLS: AtomicU64 = AtomicU64::new(0);
static REFUSED: AtomicU64 = AtomicU64::new(0);
const SAID: &std::ffi::CStr = c"refused\n";

// What the C library says where there is no memory; its own callers want to see it.
const ENOMEM: c_int = 12;

extern "C" fn begin() {
    unsafe {
        let text = getenv(c"REFUSED".as_ptr());
        if !text.is_null() {
            REFUSED.store(atoll(text) as u64, Relaxed);
        }
        CALLS.store(0, Relaxed);
    }
}

#[used]
#[link_section = ".init_array"]
static BEGIN: extern "C" fn() = begin;

fn is_refused() -> bool {
    let is = CALLS.fetch_add(1, Relaxed) + 1 == REFUSED.load(Relaxed);
    if is {
        unsafe {
            write(2, SAID.as_ptr(), SAID.to_bytes().len());
            *__errno_location() = ENOMEM;
        }
    }
    is
}

#[no_mangle]
pub unsafe extern "C" fn malloc(size: usize) -> *mut c_void {
    if is_refused() { null_mut() } else { unsafe { __libc_malloc(size) } }
}

#[no_mangle]
pub unsafe extern "C" fn realloc(old: *mut c_void, size: usize) -> *mut c_void {
    if is_refused() { null_mut() } else { unsafe { __libc_realloc(old, size) } }
}

#[no_mangle]
pub unsafe extern "C" fn calloc(count: usize, size: usize) -> *mut c_void {
    if is_refused() { null_mut() } else { unsafe { __libc_calloc(count, size) } }
}
