//! A disk that is bad for a while: calls of the standard library that change files, in place of the system's. Half of what can't be written
//! is.
use std::ffi::{c_int, c_void};
use std::path::PathBuf;
use std::sync::atomic::{AtomicBool, AtomicU32, AtomicUsize, Ordering::SeqCst};
use std::sync::Mutex;

/// How many calls were made, and the first and the last that fail.
pub static MADE: AtomicU32 = AtomicU32::new(0);
static FIRST: AtomicU32 = AtomicU32::new(0);
static LAST: AtomicU32 = AtomicU32::new(0);
/// A sync hangs as long as this is so.
pub static HANGS: AtomicBool = AtomicBool::new(false);
/// How many syncs of a file were made, and for how many milliseconds each takes.
pub static SYNCS: AtomicU32 = AtomicU32::new(0);
pub static SLOW: AtomicU32 = AtomicU32::new(0);
/// How many bytes were written.
pub static WRITTEN: AtomicUsize = AtomicUsize::new(0);
/// What was synced by `fsync`; and what the file had that was synced last by `fdatasync`.
pub static SYNCED: Mutex<Vec<PathBuf>> = Mutex::new(Vec::new());
pub static DURABLE: Mutex<String> = Mutex::new(String::new());

/// Of the calls that are made from now on, those from the first to the last of these fail.
pub fn fails(first: u32, last: u32) {
    MADE.store(0, SeqCst);
    FIRST.store(first, SeqCst);
    LAST.store(last, SeqCst);
}

fn is_bad() -> bool {
    let made = MADE.fetch_add(1, SeqCst) + 1;
    (FIRST.load(SeqCst)..=LAST.load(SeqCst)).contains(&made)
}

extern "C" {
    fn pwrite(file: c_int, text: *const c_void, length: usize, place: i64) -> isize;
    fn ftruncate(file: c_int, length: i64) -> c_int;
    fn __errno_location() -> *mut c_int;
}
const NO_SPACE: c_int = 28;

fn unless_bad(call: impl FnOnce() -> c_int) -> c_int {
    if !is_bad() {
        return call();
    }
    // SAFETY: the place of this thread's error.
    unsafe { *__errno_location() = NO_SPACE };
    -1
}

fn path(file: c_int) -> PathBuf {
    std::fs::read_link(format!("/proc/self/fd/{file}")).unwrap_or_default()
}

// SAFETY: each is given what the system's call is given, and gives it on.
#[no_mangle]
unsafe extern "C" fn pwrite64(file: c_int, text: *const c_void, length: usize, place: i64) -> isize {
    if !is_bad() {
        WRITTEN.fetch_add(length, SeqCst);
        return unsafe { pwrite(file, text, length, place) };
    }
    unsafe { pwrite(file, text, length / 2, place) };
    unsafe { *__errno_location() = NO_SPACE };
    -1
}
#[no_mangle]
unsafe extern "C" fn ftruncate64(file: c_int, length: i64) -> c_int {
    unless_bad(|| unsafe { ftruncate(file, length) })
}
#[no_mangle]
extern "C" fn fdatasync(file: c_int) -> c_int {
    unless_bad(|| {
        super::common::until(|| !HANGS.load(SeqCst));
        SYNCS.fetch_add(1, SeqCst);
        std::thread::sleep(std::time::Duration::from_millis(SLOW.load(SeqCst).into()));
        *DURABLE.lock().unwrap() = std::fs::read_to_string(path(file)).unwrap_or_default();
        0
    })
}
#[no_mangle]
extern "C" fn fsync(file: c_int) -> c_int {
    unless_bad(|| {
        SYNCED.lock().unwrap().push(path(file));
        0
    })
}
