//! A lab whose calls answer what they never should, have no memory, or panic.
use super::{answers, file, is_late, strange, uncounted, ANSWER, CALLED, ENOUGH, MADE, PANICS, SHORT};
use crate::tests::alone::{alone, limit};
use crate::{Error, Held, Lab, LabOptions, SyncTo};
use std::panic::{catch_unwind, AssertUnwindSafe};
use std::path::Path;
use std::sync::atomic::Ordering::SeqCst;
use std::sync::mpsc::channel;
use std::thread;
use std::time::Duration;

const NOW: Duration = Duration::ZERO;

/// Why the session doesn't hold any more has to be that it was taken away, and else is given on.
fn is_taken(mut held: Held) -> Result<(), Error> {
    match held.finish() {
        Err(Error::TakenAway) => Ok(()),
        Err(other) => Err(other),
        Ok(()) => panic!("it held"),
    }
}

/// What one thread and the timer come to; `noted` with a journal.
fn sessions(lab: &Lab, noted: bool) -> Result<(), Error> {
    let mut first = lab.hold(&["x"]).timeout(ENOUGH).begin()?;
    is_late(lab.hold(&["x", "y"]).timeout(NOW).begin())?;
    is_late(lab.hold(&["x"]).timeout(SHORT).begin())?;
    if noted {
        first.note("4.998 V")?;
    }
    first.finish()?;
    let limited = lab.hold(&["x"]).limit(SHORT).timeout(ENOUGH).begin()?;
    lab.any_of(&[&["x"], &["x", "y"]]).timeout(ENOUGH).begin()?.finish()?;
    is_taken(limited)?;
    let hangs = lab.station("a")?.hold(&["y"]).timeout(ENOUGH).begin()?;
    lab.sessions()?;
    assert!(lab.take_away(hangs.number())?);
    is_taken(hangs)?;
    drop(lab.hold(&["x"]).timeout(ENOUGH).begin()?);
    Ok(())
}

fn without_a_journal() -> Result<(), Error> {
    let lab = LabOptions::new(["x", "y"]).station("a", ["y"]).open()?;
    sessions(&lab, false)?;
    lab.stop()?;
    match lab.hold(&["x"]).begin() {
        Err(Error::Stopped) => lab.close(),
        came => came.map(drop),
    }
}

/// With a write that fails, and again from the file.
fn with_a_journal(file: &Path) -> Result<(), Error> {
    let _ = std::fs::remove_file(file);
    let opened = || LabOptions::new(["x", "y"]).station("a", ["y"]).journal(file, SyncTo::Memory).open();
    let lab = opened()?;
    sessions(&lab, true)?;
    let mut held = lab.hold(&["x"]).timeout(ENOUGH).begin()?;
    limit(std::fs::metadata(file).unwrap().len() as usize + 5);
    let came = held.finish();
    limit(1 << 40);
    assert!(matches!(came, Err(Error::Journal { .. } | Error::Status { .. })), "{came:?}");
    held.finish()?;
    let stays = lab.hold(&["y"]).timeout(ENOUGH).begin()?;
    lab.close()?;
    let lab = opened()?;
    let mut back = lab.resumed()?;
    assert_eq!((back.len(), back[0].number()), (1, stays.number()));
    back[0].finish()?;
    lab.close()
}

/// What one wants is kept for another in line, which lacks what a third holds.
fn behind_one_in_line() -> Result<(), Error> {
    let lab = uncounted(|| LabOptions::new(["x", "y", "z"]).overtakes(0).open())?;
    let mut held = uncounted(|| lab.hold(&["x"]).begin())?;
    thread::scope(|threads| {
        uncounted(|| {
            threads.spawn(|| lab.any_of(&[&["x", "y"], &["x", "z"]]).begin().map(drop));
            while lab.sessions().unwrap().len() < 2 {
                thread::sleep(SHORT);
            }
        });
        let late = is_late(lab.hold(&["y", "z"]).timeout(NOW).begin());
        // (closed in any case, so that nobody waits any more)
        late.and_then(|()| held.finish()).and(lab.close())
    })
}

/// Any one of the calls that these make answers that: somebody is told, or it is made again.
fn each_answers(answer: u32, calls: &dyn Fn() -> Result<(), Error>) {
    for at in 1.. {
        answers(at, answer);
        let told = calls();
        if MADE.load(SeqCst) < at {
            assert_eq!(told, Ok(()));
            assert!(at > 20);
            return;
        }
        match told {
            Err(Error::NoMemory) | Ok(()) => assert_eq!(ANSWER.load(SeqCst), 5, "call {at}"),
            told => assert_eq!(told, Err(strange()), "call {at}"),
        }
    }
}

#[test]
fn each_status_is_told() {
    alone("tests::of_a_lab::each_status_is_told", || {
        let file = file("lab-statuses.journal");
        for answer in [99, 7, 5] {
            each_answers(answer, &without_a_journal);
            each_answers(answer, &|| with_a_journal(&file));
            each_answers(answer, &behind_one_in_line);
        }
        let _ = std::fs::remove_file(&file);
    });
}

/// One waits while this is done, in which the call of this name answers what it never should: it is woken at once, and told the call and
/// what it answered; and so is whoever calls from then on.
fn who_waits_is_told(name: &'static str, lab: &Lab, does: &dyn Fn(&Lab)) {
    let told_so = Err(Error::Status { call: name, status: 99 });
    let held = lab.hold(&["x"]).begin().unwrap();
    let (tell, told) = channel();
    thread::scope(|threads| {
        threads.spawn(|| tell.send(lab.hold(&["x"]).begin().map(drop)).unwrap());
        while lab.sessions().unwrap().len() < 2 {
            thread::sleep(SHORT);
        }
        *CALLED.lock().unwrap() = name;
        does(lab);
        let woken = told.recv_timeout(20 * ENOUGH);
        *CALLED.lock().unwrap() = "";
        let (stopped, closed) = (lab.stop(), lab.close()); // (closed in any case, so that nobody waits any more)
        assert_eq!(woken.as_ref(), Ok(&told_so), "{name}");
        assert_eq!((stopped, closed), (told_so.clone(), told_so));
    });
    drop(held);
}

#[test]
fn who_waits_is_told_a_status() {
    alone("tests::of_a_lab::who_waits_is_told_a_status", || {
        answers(0, 99);
        let calls = |lab: &Lab| {
            let _ = lab.sessions();
            let _ = lab.hold(&["x"]).timeout(NOW).begin();
            let _ = lab.take_away(77);
            let _ = lab.hold(&["y"]).begin().map(|mut it| it.finish());
            let _ = lab.stop();
        };
        for name in ["look", "waits", "ask", "tell", "time", "keeper", "leave", "take_away", "let_go", "stop"] {
            who_waits_is_told(Box::leak(format!("lab_bay_{name}").into_boxed_str()), &Lab::new(["x", "y"]).unwrap(), &calls);
        }
        let file = file("who-waits.journal");
        for name in ["lab_bay_note", "lab_bay_journal", "lab_bay_durable"] {
            let _ = std::fs::remove_file(&file);
            let lab = LabOptions::new(["x", "y"]).journal(&file, SyncTo::Memory).open().unwrap();
            who_waits_is_told(name, &lab, &|lab| drop(lab.hold(&["y"]).note("4.998 V").begin()));
        }
        let _ = std::fs::remove_file(&file);
    });
}

/// A thread panics in the midst of a call, as it asks or lets go: it holds nothing and waits for nothing afterwards, and others are told
/// what they have to be.
#[test]
fn who_panics_leaves() {
    let is_late = |at: u32, it: &mut dyn FnMut()| {
        PANICS.with(|it| it.set(at));
        let came = catch_unwind(AssertUnwindSafe(it));
        assert_eq!(came.is_ok(), PANICS.with(|it| it.replace(u32::MAX)) < u32::MAX / 2);
        came.is_ok()
    };
    let mut calls = 0;
    for at in 0.. {
        let lab = Lab::new(["x", "y"]).unwrap();
        let mut first = lab.hold(&["x"]).begin().unwrap();
        let (mut other, mut are_done) = (None, true);
        thread::scope(|threads| {
            let waits = threads.spawn(|| lab.hold(&["x"]).begin().map(drop));
            while lab.sessions().unwrap().len() < 2 {
                thread::sleep(SHORT);
            }
            are_done &= is_late(at, &mut || other = Some(lab.hold(&["y"]).timeout(ENOUGH).begin().unwrap()));
            are_done &= is_late(at, &mut || drop(lab.hold(&["x"]).timeout(NOW).begin().err().unwrap()));
            are_done &= is_late(at, &mut || first.finish().unwrap());
            drop(first);
            assert_eq!(waits.join().unwrap(), Ok(()));
        });
        drop(other);
        drop(lab.hold(&["x", "y"]).timeout(ENOUGH).begin().unwrap());
        assert!(lab.sessions().unwrap().is_empty());
        calls = at;
        if are_done {
            break;
        }
    }
    assert!(calls > 4);
}
