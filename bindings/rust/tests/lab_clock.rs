//! A clock that runs ahead, in place of the system's.
mod common;

use common::until;
use labrun::{Error, Lab};
use std::ffi::{c_int, c_long};
use std::sync::atomic::{AtomicBool, AtomicI64, Ordering::SeqCst};
use std::thread;
use std::time::Duration;

/// By how many seconds, of the clock that nobody sets.
static AHEAD: AtomicI64 = AtomicI64::new(0);
const MONOTONIC: c_int = 1;

extern "C" {
    fn syscall(number: c_long, ...) -> c_long;
}
#[cfg(target_arch = "x86_64")]
const GET_TIME: c_long = 228;
#[cfg(target_arch = "aarch64")]
const GET_TIME: c_long = 113;

// SAFETY: it is given what the system's call is given, and gives it on.
#[no_mangle]
unsafe extern "C" fn clock_gettime(which: c_int, time: *mut [i64; 2]) -> c_int {
    let status = unsafe { syscall(GET_TIME, which, time) };
    if which == MONOTONIC {
        unsafe { (*time)[0] += AHEAD.load(SeqCst) };
    }
    status as c_int
}

/// Without a limit one waits for ever, and holds for ever: also if the clock says that a hundred years are over.
#[test]
fn it_waits_for_ever() {
    let lab = Lab::new(["scope", "supply"]).unwrap();
    let mut first = lab.hold(&["scope"]).begin().unwrap();
    let mut limited = lab.hold(&["supply"]).limit(Duration::from_secs(3600)).begin().unwrap();
    let came = AtomicBool::new(false);
    thread::scope(|threads| {
        threads.spawn(|| {
            let _held = lab.hold(&["scope"]).begin().unwrap();
            came.store(true, SeqCst);
        });
        until(|| lab.sessions().unwrap().len() == 3);
        AHEAD.store(100 * 365 * 86400, SeqCst);
        // (time goes by)
        lab.hold(&["supply"]).begin().unwrap().finish().unwrap();
        assert_eq!(limited.finish(), Err(Error::TakenAway));
        assert!(first.is_held() && !came.load(SeqCst));
        assert_eq!(lab.sessions().unwrap().len(), 2);
        first.finish().unwrap();
    });
    assert!(came.into_inner());
}
