//! Threads that share the bench of a script: whether two ever hold one instrument, patience, what is withdrawn, panics, commands, and desks
//! after the close.
mod common;

use common::{until, SHORT};
use labrun::script::{self, Bench, Desk};
use labrun::Error;
use std::collections::HashMap;
use std::panic::{catch_unwind, AssertUnwindSafe};
use std::sync::atomic::{AtomicU32, Ordering::SeqCst};
use std::thread;
use std::time::{Duration, Instant};

/// Jobs with this many sessions each, of one to three instruments, by a generator of numbers of its own.
fn load_script(jobs: u32, sessions: u32, instruments: u32, seed: u64) -> String {
    let mut state = seed * 2 + 1;
    let mut below = |limit: u32| {
        state = state.wrapping_mul(6364136223846793005).wrapping_add(1442695040888963407);
        (state >> 33) as u32 % limit
    };
    let mut text = String::from("lab 1\n");
    for job in 0..jobs {
        text += &format!("job job-{job}\n");
        for _ in 0..sessions {
            text += "session\n";
            for _ in 0..=below(3) {
                text += &format!("i-{} add 1\n", below(instruments));
            }
            text += "end\n";
        }
    }
    text
}

/// How many sessions were done, and how often an instrument had a second holder.
fn counted(script: &str) -> (u32, u32, bool) {
    let (bench, desks) = Bench::from_text(script.as_bytes()).unwrap();
    let holders: HashMap<String, AtomicU32> = bench.instruments().iter().map(|name| (name.clone(), AtomicU32::new(0))).collect();
    let (done, clashes) = (AtomicU32::new(0), AtomicU32::new(0));
    std::thread::scope(|threads| {
        for mut desk in desks {
            let (holders, done, clashes) = (&holders, &done, &clashes);
            threads.spawn(move || {
                while let Some(session) = desk.begin().unwrap() {
                    for name in session.instruments() {
                        clashes.fetch_add((holders[name].fetch_add(1, SeqCst) != 0) as u32, SeqCst);
                    }
                    std::thread::yield_now();
                    for name in session.instruments() {
                        holders[name].fetch_sub(1, SeqCst);
                    }
                    done.fetch_add(1, SeqCst);
                }
            });
        }
    });
    let finished = bench.close().unwrap().finished;
    (done.into_inner(), clashes.into_inner(), finished)
}

#[test]
fn no_instrument_has_two_holders() {
    let wanted: u32 = std::env::var("LABRUN_SESSIONS").map_or(20000, |it| it.parse().unwrap());
    let mut done = 0;
    for seed in 0.. {
        if done >= wanted {
            break;
        }
        let each = ((wanted - done) / 32).clamp(1, 1000);
        let (more, clashes, finished) = counted(&load_script(32, each, 20, seed));
        assert_eq!((more, clashes, finished), (32 * each, 0, true));
        done += more;
    }
}

const TWO: &[u8] = b"lab 1\njob a\nsession\nscale add 5\nend\nsession\nscale add 5\nend\njob b\nsession\nscale read\nend\n";

fn two(script: &[u8]) -> (Bench, Desk, Desk) {
    let (bench, mut desks) = Bench::from_text(script).unwrap();
    let (b, a) = (desks.pop().unwrap(), desks.pop().unwrap());
    (bench, a, b)
}

#[test]
fn a_panic_lets_go() {
    let (bench, mut a, mut b) = two(TWO);
    let body = AssertUnwindSafe(|| {
        let _session = a.begin().unwrap();
        panic!("the scope caught fire");
    });
    assert!(catch_unwind(body).is_err());
    assert_eq!(b.begin().unwrap().unwrap().number(), 1);
    assert_eq!(bench.close().unwrap().log("scale").len(), 2);
}

#[test]
fn jobs_and_their_sessions() {
    let (bench, mut a, mut b) = two(b"lab 1\njob a\nsession\nx set 4\ny add 2\nx read\nend\nsession\ny read\nend\njob b\n");
    assert_eq!(
        (bench.jobs(), bench.instruments(), a.job(), b.job()),
        (&["a".into(), "b".into()][..], &["x".into(), "y".into()][..], "a", "b")
    );
    let mut first = a.begin().unwrap().unwrap();
    assert_eq!((first.job(), first.number(), first.instruments()), ("a", 1, vec!["x", "y"]));
    let did: Vec<_> = std::iter::from_fn(|| first.command().unwrap()).map(|it| (it.session, it.place, it.value)).collect();
    assert_eq!(did, [(1, (1, 2), 4), (1, (1, 1), 2), (1, (2, 2), 4)]);
    first.finish().unwrap();
    let second = a.begin().unwrap().unwrap();
    assert_eq!((second.number(), second.instruments()), (2, vec!["y"]));
    drop(second);
    assert!(a.begin().unwrap().is_none() && a.begin().unwrap().is_none() && b.begin().unwrap().is_none());
    let report = bench.close().unwrap();
    assert!(report.finished);
    assert_eq!(report.log("x"), ["a 1 1/2 set 4 = 4", "a 1 2/2 read = 4"]);
    assert_eq!((report.log("y").len(), report.log("z").len()), (2, 0));
}

/// A thread that waits is woken by the other's end, and by nothing else.
#[test]
fn who_waits_is_woken() {
    let (_bench, mut a, mut b) = two(TWO);
    let came = AtomicU32::new(0);
    let held = a.begin().unwrap();
    thread::scope(|threads| {
        threads.spawn(|| {
            let session = b.begin().unwrap();
            came.store(session.is_some() as u32, SeqCst);
        });
        thread::sleep(Duration::from_millis(50));
        assert_eq!(came.load(SeqCst), 0);
        drop(held);
    });
    assert_eq!(came.load(SeqCst), 1);
}

const PATIENT: &str = "lab 2\njob a\nsession\nscale add 5\nend\njob b\nsession patience N\nscale read\nend\nsession\nscale read\nend\n";

/// A patience counts calls, of which one that waits makes some ten a second: none of them is left after two or three.
#[test]
fn patience_runs_out() {
    let (bench, mut a, mut b) = two(PATIENT.replace('N', "2").as_bytes());
    let held = a.begin().unwrap();
    let begun = Instant::now();
    assert_eq!(b.begin().err(), Some(Error::Withdrawn));
    assert!(begun.elapsed() >= SHORT);
    drop(held);
    assert_eq!(b.begin().unwrap().unwrap().number(), 2);
    let report = bench.close().unwrap();
    assert_eq!((report.finished, report.log("scale").len()), (true, 2));
}

/// A session with a patience that waits is withdrawn, whoever says so: it logs nothing, and its owner is told once.
#[test]
fn withdrawn() {
    let (bench, mut a, mut b) = two(PATIENT.replace('N', "999999").as_bytes());
    assert_eq!((bench.withdraw("a"), bench.withdraw("b")), (Ok(false), Ok(false)));
    assert_eq!(bench.withdraw("c"), Err(Error::NoSuchJob("c".into())));
    let held = a.begin().unwrap();
    assert_eq!(bench.withdraw("a"), Ok(false));
    thread::scope(|threads| {
        let waits = threads.spawn(|| {
            let withdrawn = b.begin().err();
            (withdrawn, b.begin().unwrap().unwrap().number())
        });
        until(|| bench.withdraw("b").unwrap());
        // (the next one has no patience)
        thread::sleep(SHORT);
        assert_eq!(bench.withdraw("b"), Ok(false));
        drop(held);
        assert_eq!(waits.join().unwrap(), (Some(Error::Withdrawn), 2));
    });
    let report = bench.close().unwrap();
    assert_eq!((report.finished, report.log("scale").len()), (true, 2));
}

/// The holder lets go just before another withdraws the session that waits: it holds by then, or was withdrawn before; never both.
#[test]
fn withdrawn_as_it_comes() {
    let each = |session: &str| format!("{session}\nscale add 1\nend\n").repeat(100);
    let script = format!("lab 2\njob a\n{}job b\n{}", each("session"), each("session patience 999999"));
    let (bench, mut a, mut b) = two(script.as_bytes());
    let mut withdrawn = 0;
    for times in 0..100 {
        let held = a.begin().unwrap();
        thread::scope(|threads| {
            let waits = threads.spawn(|| b.begin().map(|it| it.is_some()));
            thread::sleep(Duration::from_micros(times * 20));
            let before = times % 2 == 1 && bench.withdraw("b").unwrap();
            drop(held);
            let is_withdrawn = before || bench.withdraw("b").unwrap();
            assert_eq!(waits.join().unwrap(), if is_withdrawn { Err(Error::Withdrawn) } else { Ok(true) });
            withdrawn += usize::from(is_withdrawn);
        });
    }
    let report = bench.close().unwrap();
    assert_eq!((report.finished, report.log("scale").len()), (true, 200 - withdrawn));
}

/// Without a patience no count of turns ends the waiting: others have a thousand sessions meanwhile.
#[test]
fn others_take_turns() {
    let others = "session\nlamp read\nend\n".repeat(1000);
    let script = format!("lab 2\njob a\nsession\nscale add 1\nend\njob b\nsession\nscale read\nend\njob c\n{others}");
    let (bench, mut desks) = Bench::from_text(script.as_bytes()).unwrap();
    let (mut c, mut b, mut a) = (desks.pop().unwrap(), desks.pop().unwrap(), desks.pop().unwrap());
    let held = a.begin().unwrap();
    thread::scope(|threads| {
        let waits = threads.spawn(|| b.begin().map(|it| it.map(|it| it.number())));
        thread::sleep(SHORT);
        while c.begin().unwrap().is_some() {}
        assert!(!waits.is_finished());
        drop(held);
        assert_eq!(waits.join().unwrap(), Ok(Some(1)));
    });
    assert!(bench.close().unwrap().finished);
}

extern "C" {
    fn fork() -> i32;
    fn waitpid(process: i32, status: *mut i32, options: i32) -> i32;
    fn _exit(status: i32) -> !;
}

#[test]
fn a_child_is_refused() {
    let (bench, mut a, mut b) = two(TWO);
    let mut held = a.begin().unwrap().unwrap();
    let parent = std::process::id();
    // SAFETY: the child does nothing but calls that are refused, and ends.
    let child = unsafe { fork() };
    if child == 0 {
        let mut refused = i32::from(held.command() == Err(Error::OtherProcess(parent)));
        drop(held);
        refused += i32::from(b.begin().err() == Some(Error::OtherProcess(parent)));
        refused += i32::from(bench.withdraw("b") == Err(Error::OtherProcess(parent)));
        refused += i32::from(bench.close() == Err(Error::OtherProcess(parent)));
        unsafe { _exit(refused) };
    }
    let mut status = 0;
    // SAFETY: the child's number, and a place for its status.
    assert_eq!(unsafe { waitpid(child, &mut status, 0) }, child);
    assert_eq!(status, 4 << 8);
    drop(held);
    assert!(b.begin().unwrap().is_some());
}

/// Whoever waits when the bench is closed is told so, and so is whoever comes later; what is held then stays unfinished.
#[test]
fn closed() {
    let (bench, mut a, mut b) = two(TWO);
    let mut held = a.begin().unwrap().unwrap();
    thread::scope(|threads| {
        let waits = threads.spawn(|| b.begin().err());
        thread::sleep(SHORT);
        assert!(!bench.close().unwrap().finished);
        assert_eq!(waits.join().unwrap(), Some(Error::Closed));
    });
    assert_eq!((held.command(), held.finish()), (Err(Error::Closed), Err(Error::Closed)));
    assert_eq!((a.begin().err(), b.begin().err()), (Some(Error::Closed), Some(Error::Closed)));
}

#[test]
fn runs() {
    assert!(script::run(TWO, 10000).unwrap().finished);
    assert!(!script::run(TWO, 0).unwrap().finished);
    assert_eq!(script::check(TWO).unwrap(), "ok jobs 2 instruments 1 edges 1 sessions 3 commands 3\n");
    assert!(script::upgrade(TWO).unwrap().starts_with("lab 2\n"));
    assert_eq!(
        script::replay(b"lab 1\njob a\nsteps\nretire a\n").unwrap().text,
        "lab 1\njob a sessions 0 of 0 meals 0 retired\nfinished\n"
    );
    assert_eq!(script::replay(b"lab 1\njob a\nsteps\nquit a\n"), Err(Error::Refused { line: 4, cause: 0 }));
    assert_eq!(script::check(&vec![b'#'; 16777217]), Err(Error::TooLong));
    assert!(matches!(Bench::open("/nowhere").err(), Some(Error::Unread(_))));
    assert_eq!(Bench::from_text(b"lab 1\njob A\n").err(), Some(Error::Refused { line: 2, cause: 3 }));
}

/// Numbers below a limit, by chance.
fn chance(seed: u64) -> impl FnMut(u32) -> u32 {
    let mut it = common::Chance(seed * 2 + 1);
    move |limit| it.below(limit as usize) as u32
}

/// Jobs of 20 sessions, some of which have a patience, long or short.
fn script_by_chance(below: &mut impl FnMut(u32) -> u32, jobs: u32) -> String {
    let instruments = 2 + below(5);
    let mut script = "lab 2\n".to_string();
    for job in 0..jobs {
        script += &format!("job j-{job}\n");
        for _ in 0..20 {
            script += ["session\n", "session patience 999999\n", "session patience 3\n"][below(3) as usize];
            for _ in 0..=below(3) {
                script += &format!("i-{} add 1\n", below(instruments));
            }
            script += "end\n";
        }
    }
    script
}

/// The sessions of a desk; how many were done, and how many were withdrawn.
fn drive_by_chance(mut desk: Desk, mut below: impl FnMut(u32) -> u32) -> (u32, u32) {
    let (mut done, mut withdrawn) = (0, 0);
    loop {
        match desk.begin() {
            Ok(Some(mut session)) => {
                session.command().unwrap();
                thread::sleep(Duration::from_micros(below(1500).into()));
                session.finish().unwrap();
                done += 1;
            }
            Ok(None) => return (done, withdrawn),
            Err(Error::Withdrawn) => withdrawn += 1,
            Err(fault) => panic!("{fault}"),
        };
    }
}

/// Patience, and one who withdraws, all at once: everybody comes to the end of its sessions, and each is done or was withdrawn.
#[test]
fn all_at_once() {
    for seed in 0..10 {
        let mut below = chance(seed);
        let jobs = 2 + below(7);
        let (bench, desks) = Bench::from_text(script_by_chance(&mut below, jobs).as_bytes()).unwrap();
        thread::scope(|threads| {
            let each: Vec<_> =
                (100..).zip(desks).map(|(at, desk)| threads.spawn(move || drive_by_chance(desk, chance(seed * 100 + at)))).collect();
            while each.iter().any(|it| !it.is_finished()) {
                bench.withdraw(&format!("j-{}", below(jobs))).unwrap();
                thread::sleep(Duration::from_millis(1));
            }
            for it in each {
                let (done, withdrawn) = it.join().unwrap();
                assert_eq!(done + withdrawn, 20);
            }
        });
        let report = bench.close().unwrap();
        assert!(report.finished, "{}", report.text);
    }
}
