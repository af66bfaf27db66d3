//! A library that is loaded before a program, and refuses one of the program's requests for memory.
//!
//! The variable `REFUSE` says which one, counted from 1. Without it nothing is refused.

use std::ffi::{CStr, c_char, c_int, c_void};
use std::mem;
use std::ptr;
use std::sync::atomic::{AtomicU64, Ordering::SeqCst};

// The handle by which `dlsym` looks in the libraries behind this one.
const NEXT: *mut c_void = -1isize as *mut c_void;

// Linux's number for out of memory.
const ENOMEM: c_int = 12;

unsafe extern "C" {
    fn dlsym(handle: *mut c_void, name: *const c_char) -> *mut c_void;
    fn getenv(name: *const c_char) -> *const c_char;
    fn __errno_location() -> *mut c_int;
}

static REQUESTS: AtomicU64 = AtomicU64::new(0);

// The number of the request to refuse. It is read without memory of its own.
fn refused() -> Option<u64> {
    // SAFETY: the name ends with a zero byte, and so does what the environment has.
    let text = unsafe {
        let text = getenv(c"REFUSE".as_ptr());
        if text.is_null() {
            return None;
        }
        CStr::from_ptr(text)
    };
    text.to_str().ok()?.parse().ok()
}

// Counts a request. Whether it is to be refused: then the thread's error says so.
fn is_refused() -> bool {
    let number = REQUESTS.fetch_add(1, SeqCst) + 1;
    if refused() != Some(number) {
        return false;
    }
    // SAFETY: the place of the thread's error is always there.
    unsafe { *__errno_location() = ENOMEM };
    true
}

// The C library's function of a name.
//
// SAFETY: the function must have the type `F`.
unsafe fn next<F>(name: &CStr) -> F {
    unsafe { mem::transmute_copy(&dlsym(NEXT, name.as_ptr())) }
}

#[unsafe(no_mangle)]
pub extern "C" fn malloc(size: usize) -> *mut c_void {
    if is_refused() {
        return ptr::null_mut();
    }
    // SAFETY: this is the type of malloc.
    let call: extern "C" fn(usize) -> *mut c_void = unsafe { next(c"malloc") };
    call(size)
}

#[unsafe(no_mangle)]
pub extern "C" fn calloc(count: usize, size: usize) -> *mut c_void {
    if is_refused() {
        return ptr::null_mut();
    }
    // SAFETY: this is the type of calloc.
    let call: extern "C" fn(usize, usize) -> *mut c_void = unsafe { next(c"calloc") };
    call(count, size)
}

#[unsafe(no_mangle)]
pub extern "C" fn realloc(old: *mut c_void, size: usize) -> *mut c_void {
    if is_refused() {
        return ptr::null_mut();
    }
    // SAFETY: this is the type of realloc.
    let call: extern "C" fn(*mut c_void, usize) -> *mut c_void = unsafe { next(c"realloc") };
    call(old, size)
}
