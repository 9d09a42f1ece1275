//! The child of a fork: it can't use its parent's lab, and opens a lab and a bench of its own, whatever another thread of its parent was in
//! the midst of.
mod alone;

use alone::often_alone;
use labrun::script::Bench;
use labrun::{Error, Lab};
use std::sync::atomic::{AtomicU32, Ordering::SeqCst};
use std::thread;
use std::time::Duration;

const TWO: &[u8] = b"lab 1\njob a\nsession\nscale set 3\nend\njob b\nsession\nscale read\nend\n";

extern "C" {
    fn fork() -> i32;
    fn waitpid(process: i32, status: *mut i32, options: i32) -> i32;
    fn alarm(seconds: u32) -> u32;
    fn _exit(status: i32) -> !;
}

/// Each time in a new process, because only the first of a process asks to be told of forks.
#[test]
fn while_a_thread_opens_the_first() {
    often_alone(50, "while_a_thread_opens_the_first", both_open);
}

fn both_open() {
    let (is_there, may_go) = (AtomicU32::new(0), AtomicU32::new(0));
    let told = |it: &AtomicU32| {
        while it.load(SeqCst) == 0 {
            std::hint::spin_loop();
        }
    };
    let opens = || Lab::new(["scale"]).is_ok_and(|it| it.hold(&["scale"]).begin().is_ok()) && Bench::from_text(TWO).is_ok();
    thread::scope(|threads| {
        let other = threads.spawn(|| {
            is_there.store(1, SeqCst);
            told(&may_go);
            opens()
        });
        told(&is_there);
        may_go.store(1, SeqCst);
        // SAFETY: the child opens a bench and leaves by `_exit`, and if it waits for ever it is ended.
        let child = unsafe { fork() };
        if child == 0 {
            unsafe { alarm(60) };
            let is_open = opens();
            unsafe { _exit(i32::from(!is_open)) };
        }
        let mut status = 0;
        // SAFETY: the child's number, and a place for its status.
        assert_eq!(unsafe { waitpid(child, &mut status, 0) }, child);
        assert_eq!(status, 0);
        assert!(other.join().unwrap());
    });
}

/// What a child has of a lab is a copy: nothing of it can be used there, and its parent's is as it was.
#[test]
fn a_child_is_refused() {
    let lab = Lab::new(["scope", "supply"]).unwrap();
    let mut first = lab.hold(&["scope"]).limit(Duration::from_secs(300)).begin().unwrap();
    let parent = Error::OtherProcess(std::process::id());
    // SAFETY: the child does nothing but calls that are refused, and ends.
    let child = unsafe { fork() };
    if child == 0 {
        let mut refused = i32::from(first.finish() == Err(parent.clone()));
        refused += i32::from(!first.is_held());
        refused += i32::from(lab.hold(&["supply"]).begin().err().as_ref() == Some(&parent));
        refused += i32::from(lab.sessions().err().as_ref() == Some(&parent));
        refused += i32::from(lab.close().err().as_ref() == Some(&parent));
        drop(first);
        drop(lab);
        unsafe { _exit(refused) };
    }
    let mut status = 0;
    // SAFETY: the child's number, and a place for its status.
    assert_eq!(unsafe { waitpid(child, &mut status, 0) }, child);
    assert_eq!(status, 5 << 8);
    assert!(first.is_held());
    first.finish().unwrap();
    drop(lab.hold(&["scope"]).begin().unwrap());
}
