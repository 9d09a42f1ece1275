//! A lab whose disk is bad for a while: what was told is on it, and all goes on when it is well again.
#![cfg(all(target_os = "linux", target_env = "gnu"))]
mod alone;
mod common;
#[path = "common/disk.rs"]
mod disk;

use alone::alone;
use common::{fails, held, holding, opened, options, until, Folder, LONG, SHORT};
use disk::{DURABLE, HANGS, MADE, SLOW, SYNCED, SYNCS, WRITTEN};
use labrun::{LabOptions, SyncTo};
use std::path::Path;
use std::sync::atomic::Ordering::SeqCst;
use std::thread;
use std::time::{Duration, Instant};

const NOW: Duration = Duration::ZERO;

fn synced(folder: &Folder) -> LabOptions {
    options(&folder.file()).journal(folder.file(), SyncTo::Disk)
}

/// A journal is begun: its name is on the disk before the open returns. If any one call that changes a file fails, that is told; and
/// whoever opens it then sees to the name again, because it may not be there yet.
#[test]
fn the_name_is_on_the_disk() {
    alone("the_name_is_on_the_disk", || {
        // (the file is cut, and written; it is synced before and behind that, and so is its folder, once)
        for (to, points) in [(SyncTo::Memory, 2), (SyncTo::Disk, 5)] {
            assert_eq!((1..).take_while(|bad| !begins(to, *bad)).count(), points);
        }
    });
}

/// Whether it comes through, because it needs fewer calls.
fn begins(to: SyncTo, bad: u32) -> bool {
    let folder = Folder::new("name");
    let opens = || {
        SYNCED.lock().unwrap().clear();
        let came = options(&folder.file()).journal(folder.file(), to).open().map(drop);
        (came, SYNCED.lock().unwrap().contains(&folder.0))
    };
    disk::fails(bad, bad);
    let (came, is_there) = opens();
    let is_through = MADE.load(SeqCst) < bad;
    disk::fails(0, 0);
    assert_eq!(is_through, came.is_ok());
    assert!(came.is_err() || is_there == (to == SyncTo::Disk));
    assert_eq!(opens(), (Ok(()), to == SyncTo::Disk));
    is_through
}

/// What was told survives a power cut: it was synced before.
#[test]
fn what_is_told_is_synced() {
    alone("what_is_told_is_synced", || {
        let folder = Folder::new("synced");
        let durable = |word: &str| DURABLE.lock().unwrap().contains(word);
        let lab = synced(&folder).open().unwrap();
        for number in 1..=200 {
            let mut it = held(&lab, &["scope"]);
            assert!(durable(&format!(" hold {number:016x} ")));
            it.note("4.998 V").unwrap();
            assert!(durable(&format!(" note {number:016x} ")));
            it.finish().unwrap();
            assert!(durable(&format!(" end {number:016x} let_go ")));
        }
        let stays = held(&lab, &["scope"]);
        std::fs::write(folder.0.join("copy"), folder.text()).unwrap();
        lab.close().unwrap();
        drop(stays);
        // (so is what was read, before anybody is told of it; it is written again, because a sync that failed before may have left bytes that
        // the system takes for written)
        let found = std::fs::metadata(folder.0.join("copy")).unwrap().len() as usize;
        DURABLE.lock().unwrap().clear();
        WRITTEN.store(0, SeqCst);
        let copy = options(Path::new("")).journal(folder.0.join("copy"), SyncTo::Disk).open().unwrap();
        assert!(durable(" hold 00000000000000c9 ") && WRITTEN.load(SeqCst) == found && copy.resumed().unwrap().len() == 1);
    });
}

/// A disk that hangs keeps nobody waiting for longer than was said; those that wait without end go on when it is back.
#[test]
fn a_disk_that_hangs() {
    alone("a_disk_that_hangs", || {
        let folder = Folder::new("hangs");
        let lab = synced(&folder).disk(Duration::from_millis(100)).open().unwrap();
        let mut first = held(&lab, &["supply"]);
        HANGS.store(true, SeqCst);
        thread::scope(|threads| {
            let waits = threads.spawn(|| held(&lab, &["load"]).number());
            let ends = threads.spawn(|| first.finish());
            let begun = Instant::now();
            assert!(fails(lab.hold(&["scope"]).timeout(SHORT).begin()));
            assert!(begun.elapsed() >= Duration::from_millis(100) && begun.elapsed() < LONG);
            assert!(!waits.is_finished() && !ends.is_finished());
            HANGS.store(false, SeqCst);
            assert!(waits.join().is_ok());
            assert_eq!(ends.join().unwrap(), Ok(()));
        });
        drop(lab.hold(&["scope"]).timeout(NOW).begin().unwrap());
    });
}

/// Any one call that changes the file fails, or that one and the ten after it: what was told stays so in the file, and all goes on.
#[test]
fn each_write_that_fails() {
    alone("each_write_that_fails", || {
        for more in [0, 10] {
            let is_through = |bad: &u32| {
                let folder = Folder::new("each");
                let lab = synced(&folder).open().unwrap();
                disk::fails(*bad, *bad + more);
                let mut it = held(&lab, &["scope"]);
                while fails(it.note("4.998 V")) {}
                assert_eq!(holding(&folder.lines()), [it.number()]);
                while fails(it.finish()) {}
                assert!(holding(&folder.lines()).is_empty());
                while fails(lab.close()) {}
                let is_through = MADE.load(SeqCst) < *bad;
                disk::fails(0, 0);
                assert!(opened(&folder).resumed().unwrap().is_empty());
                is_through
            };
            // (three times a write and a sync)
            assert!((1..).take_while(|bad| !is_through(bad)).count() >= 6);
        }
    });
}

/// A session that is dropped is one sync: that it let go goes with the next one, and is on the disk soon if there is none. (Now and then one
/// more is due, on a busy machine.)
#[test]
fn one_sync_a_session() {
    alone("one_sync_a_session", || {
        let folder = Folder::new("one");
        let lab = synced(&folder).open().unwrap();
        SYNCS.store(0, SeqCst);
        for _ in 0..40 {
            drop(held(&lab, &["scope"]));
        }
        assert!((40..60).contains(&SYNCS.load(SeqCst)));
        until(|| DURABLE.lock().unwrap().contains(" end 0000000000000028 let_go "));
    });
}

/// Several threads share a sync, though each waits for its own line; and none waits for ever.
#[test]
fn threads_share_a_sync() {
    alone("threads_share_a_sync", || {
        let folder = Folder::new("share");
        let names = ["a", "b", "c", "d", "e", "f", "g", "h"];
        let lab = LabOptions::new(names).journal(folder.file(), SyncTo::Disk).open().unwrap();
        SLOW.store(2, SeqCst);
        SYNCS.store(0, SeqCst);
        thread::scope(|threads| {
            for name in names {
                let lab = &lab;
                threads.spawn(move || (0..10).for_each(|_| drop(held(lab, &[name]))));
            }
        });
        assert!(SYNCS.load(SeqCst) < 60);
        SLOW.store(0, SeqCst);
        lab.close().unwrap();
    });
}
