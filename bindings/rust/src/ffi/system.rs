//! What the crate needs of the system beside the standard library: a lock on a file, and word of a fork.
use crate::Error;
use std::fs::File;
use std::io;
use std::os::fd::AsRawFd;
use std::sync::atomic::{AtomicBool, AtomicI32, AtomicU32, Ordering::Acquire, Ordering::Relaxed, Ordering::Release};

extern "C" {
    fn pthread_atfork(prepare: Option<extern "C" fn()>, parent: Option<extern "C" fn()>, child: Option<extern "C" fn()>) -> i32;
    fn flock(file: i32, how: i32) -> i32;
    fn close(file: i32) -> i32;
}
const ALONE_AT_ONCE: i32 = 2 | 4;

/// How many forks lie between the first process and this one: what was opened before the last of them is another's.
static FORKS: AtomicU32 = AtomicU32::new(0);

/// The files of journals, each plus 1; a child of a fork closes its copies, so that it keeps nobody from them.
static FILES: [AtomicI32; 64] = {
    #[allow(clippy::declare_interior_mutable_const)]
    const NONE: AtomicI32 = AtomicI32::new(0);
    [NONE; 64]
};

extern "C" fn after_fork() {
    FORKS.fetch_add(1, Relaxed);
    for file in FILES.iter().map(|it| it.swap(0, Relaxed)).filter(|it| *it != 0) {
        // SAFETY: a file of this process, whose owner is a thread that isn't here.
        unsafe { close(file - 1) };
    }
}

/// The process in which something was opened.
pub(crate) struct Home {
    forks: u32,
    process: u32,
}

impl Home {
    pub fn here() -> Home {
        at_forks();
        Home { forks: FORKS.load(Relaxed), process: std::process::id() }
    }

    /// An error in the child of a fork, where somebody may have been in a call, or have had the mutex, who isn't there.
    pub fn is_here(&self) -> Result<(), Error> {
        if self.forks == FORKS.load(Relaxed) {
            return Ok(());
        }
        Err(Error::OtherProcess(self.process))
    }
}

/// Sees to it that forks are counted. Two threads that come at once both ask for that, and no harm is done; with a `Once`, the child of a
/// fork that was made while a thread was in it would wait for that thread, which isn't there.
fn at_forks() {
    static ARE_TOLD: AtomicBool = AtomicBool::new(false);
    if !ARE_TOLD.load(Acquire) {
        // SAFETY: the function does nothing but count, and close files of its own.
        assert_eq!(unsafe { pthread_atfork(None, None, Some(after_fork)) }, 0);
        ARE_TOLD.store(true, Release);
    }
}

/// Takes the lock of a file, for this process alone; an error of the kind `WouldBlock` if another one has it.
pub(crate) fn lock(file: &File) -> io::Result<()> {
    // SAFETY: the file is open.
    match unsafe { flock(file.as_raw_fd(), ALONE_AT_ONCE) } {
        0 => Ok(()),
        _ => Err(io::Error::last_os_error()),
    }
}

fn changes(from: i32, to: i32) {
    let _ = FILES.iter().any(|it| it.compare_exchange(from, to, Relaxed, Relaxed).is_ok());
}

/// The child of a fork will close this file.
pub(crate) fn closes_in_a_child(file: &File) {
    at_forks();
    changes(0, file.as_raw_fd() + 1);
}

/// It won't any more, because its owner does.
pub(crate) fn is_closed_here(file: &File) {
    changes(file.as_raw_fd() + 1, 0);
}
