//! A lab without a journal: who holds, who waits, what is told to whom, and what is left behind.
mod common;

use common::{keepers, names, until, waiting, LONG, SHORT};
use labrun::{Error, Held, Lab, LabOptions};
use std::panic::{catch_unwind, AssertUnwindSafe};
use std::sync::atomic::{AtomicBool, AtomicUsize, Ordering::SeqCst};
use std::sync::mpsc::channel;
use std::thread;
use std::time::{Duration, Instant};

const NOW: Duration = Duration::ZERO;

fn lab() -> Lab {
    Lab::new(["scope", "supply", "load-1", "load-2"]).unwrap()
}

fn held(lab: &Lab, instruments: &[&str]) -> Held {
    lab.hold(instruments).timeout(NOW).begin().unwrap()
}

#[test]
fn what_is_free_is_held() {
    let lab = lab();
    let mut one = lab.hold(&["supply", "scope"]).begin().unwrap();
    let mut two = lab.hold(&["load-1"]).begin().unwrap();
    assert_eq!((one.number(), one.instruments(), one.is_held()), (1, vec!["scope", "supply"], true));
    assert_eq!((two.number(), two.instruments()), (2, vec!["load-1"]));
    one.finish().unwrap();
    assert!(!one.is_held() && one.finish().is_ok());
    two.finish().unwrap();
    // (one twice is once)
    assert_eq!(held(&lab, &["scope", "scope", "supply"]).instruments(), ["scope", "supply"]);
    assert!(lab.sessions().unwrap().is_empty());
}

#[test]
fn who_waits_is_woken() {
    let lab = lab();
    let mut first = held(&lab, &["scope"]);
    let (tell, told) = channel();
    thread::scope(|threads| {
        threads.spawn(|| tell.send(lab.hold(&["scope", "supply"]).begin().unwrap().number()).unwrap());
        until(|| waiting(&lab) == 1);
        assert!(told.recv_timeout(SHORT).is_err());
        first.finish().unwrap();
        assert_eq!(told.recv_timeout(LONG), Ok(2));
    });
}

/// It holds what is free, and what isn't it doesn't wait for: the error says who holds it.
#[test]
fn a_timeout_of_0() {
    let lab = LabOptions::new(["scope", "supply"]).station("board", ["supply"]).open().unwrap();
    let _guest = lab.hold(&["scope"]).timeout(NOW).begin().unwrap();
    let _board = lab.station("board").unwrap().hold(&["supply"]).timeout(NOW).begin().unwrap();
    let begun = Instant::now();
    assert_eq!(keepers(lab.hold(&["scope"]).timeout(NOW).begin()), ["scope guest 1"]);
    let mut both = keepers(lab.hold(&["scope", "supply"]).timeout(NOW).begin());
    both.sort();
    assert_eq!(both, ["scope guest 1", "supply board"]);
    assert!(begun.elapsed() < Duration::from_secs(100) && waiting(&lab) == 0);
}

/// It isn't over before its time, the text says who holds for how long, and afterwards nobody waits.
#[test]
fn a_timeout() {
    let lab = lab();
    let mut first = held(&lab, &["scope"]);
    let begun = Instant::now();
    let late = lab.hold(&["scope"]).timeout(SHORT).begin().err().unwrap().to_string();
    assert!(begun.elapsed() >= SHORT && begun.elapsed() < LONG);
    let for_long: f64 =
        late.strip_prefix("still waits: scope has been held by guest 1 for ").and_then(|it| it.strip_suffix(" s")).unwrap().parse().unwrap();
    assert!((0.0..300.0).contains(&for_long));
    assert_eq!(waiting(&lab), 0);
    first.finish().unwrap();
    assert_eq!(held(&lab, &["scope"]).number(), 3);
}

/// One that comes to hold in time holds; also if its time is as long as can be said.
#[test]
fn a_timeout_that_is_kept() {
    for span in [LONG, Duration::MAX] {
        let lab = lab();
        let first = held(&lab, &["scope"]);
        thread::scope(|threads| {
            threads.spawn(|| assert_eq!(lab.hold(&["scope"]).timeout(span).begin().unwrap().number(), 2));
            until(|| waiting(&lab) == 1);
            drop(first);
        });
    }
}

#[test]
fn the_first_that_is_free() {
    let lab = lab();
    let either = || lab.any_of(&[&["load-1"], &["load-2", "scope"]]).timeout(NOW).begin();
    let (one, two) = (either().unwrap(), either().unwrap());
    assert_eq!((one.instruments(), two.instruments()), (vec!["load-1"], vec!["scope", "load-2"]));
    let mut those = keepers(either());
    those.sort();
    assert_eq!(those, ["load-1 guest 1", "load-2 guest 2", "scope guest 2"]);
    // it waits for whichever is free first, and keeps nobody from the other
    let (tell, told) = channel();
    thread::scope(|threads| {
        let lab = &lab;
        threads.spawn(move || tell.send(lab.any_of(&[&["load-1"], &["load-2"]]).begin().unwrap().instruments().join(" ")).unwrap());
        until(|| waiting(lab) == 1);
        drop(two);
        assert_eq!(told.recv_timeout(LONG).as_deref(), Ok("load-2"));
    });
    assert_eq!(one.instruments(), ["load-1"]);
}

/// A limit is kept though none but one that chooses waits, and no more is taken away for it than it needs.
#[test]
fn a_limit_for_one_that_chooses() {
    let lab = lab();
    let mut free = lab.hold(&["load-1"]).begin().unwrap();
    let mut limited = lab.hold(&["load-2"]).limit(SHORT).begin().unwrap();
    assert_eq!(lab.any_of(&[&["load-1"], &["load-2"]]).timeout(LONG).begin().unwrap().instruments(), ["load-2"]);
    assert_eq!(limited.finish(), Err(Error::TakenAway));
    free.finish().unwrap();
}

/// What nobody waits for isn't taken away, however long it is held, and what is free is chosen before anything is taken.
#[test]
fn a_limit_for_nobody() {
    let lab = lab();
    let mut limited = lab.hold(&["load-2"]).limit(NOW).begin().unwrap();
    thread::sleep(SHORT);
    assert_eq!(lab.any_of(&[&["load-2"], &["load-1"]]).timeout(NOW).begin().unwrap().instruments(), ["load-1"]);
    assert!(limited.is_held());
    limited.finish().unwrap();
}

/// Its owner is told by each next call, and what it does leaves alone whoever holds by then.
#[test]
fn taken_away() {
    let lab = lab();
    let mut hangs = held(&lab, &["scope"]);
    let (tell, told) = channel();
    thread::scope(|threads| {
        threads.spawn(|| {
            let held = lab.hold(&["scope"]).begin().unwrap();
            tell.send(held.number()).unwrap();
            until(|| !lab.sessions().unwrap().iter().any(|it| it.number == 3));
            assert!(held.is_held());
        });
        until(|| waiting(&lab) == 1);
        assert_eq!(lab.take_away(1), Ok(true));
        assert_eq!(told.recv_timeout(LONG), Ok(2));
        let third = held(&lab, &["supply"]);
        assert!(!hangs.is_held());
        assert_eq!((hangs.finish(), hangs.finish()), (Err(Error::TakenAway), Err(Error::TakenAway)));
        assert_eq!((lab.take_away(1), lab.take_away(77)), (Ok(false), Ok(false)));
        drop((hangs, third));
    });
    // (one that waits has nothing)
    let first = held(&lab, &["scope"]);
    thread::scope(|threads| {
        threads.spawn(|| lab.hold(&["scope"]).begin().map(drop));
        until(|| waiting(&lab) == 1);
        assert_eq!(lab.take_away(5), Ok(false));
        drop(first);
    });
}

/// A session may be sent to another thread, and lets go wherever it is dropped, also by a panic.
#[test]
fn a_drop_and_a_panic_let_go() {
    let lab = lab();
    let first = held(&lab, &["scope"]);
    thread::scope(|threads| {
        threads.spawn(|| lab.hold(&["scope"]).begin().map(drop).unwrap());
        until(|| waiting(&lab) == 1);
        threads.spawn(move || drop(first));
    });
    let body = AssertUnwindSafe(|| {
        let _held = held(&lab, &["scope"]);
        panic!("the scope caught fire");
    });
    assert!(catch_unwind(body).is_err());
    drop(held(&lab, &["scope"]));
}

/// The holder panics while others wait: the next one holds, and one that gave up meanwhile left nothing.
#[test]
fn a_panic_while_others_wait() {
    let lab = lab();
    thread::scope(|threads| {
        let (tell, told) = channel();
        let lab = &lab;
        let holder = threads.spawn(move || {
            let _held = held(lab, &["scope"]);
            told.recv().unwrap();
            panic!("the scope caught fire");
        });
        until(|| lab.sessions().unwrap().len() == 1);
        let next = threads.spawn(|| lab.hold(&["scope"]).begin().unwrap().number());
        until(|| waiting(lab) == 1);
        assert_eq!(keepers(lab.hold(&["scope", "supply"]).timeout(SHORT).begin()), ["scope guest 1"]);
        tell.send(()).unwrap();
        assert!(holder.join().is_err());
        assert_eq!(next.join().unwrap(), 2);
    });
    assert!(lab.sessions().unwrap().is_empty());
}

/// Of those that need its instruments as many as `overtakes` says go before one that needs two of them, and no more.
#[test]
fn is_passed_so_often_and_no_more() {
    for overtakes in [0, 2] {
        let lab = LabOptions::new(["scope", "supply"]).overtakes(overtakes).open().unwrap();
        let mut holds = held(&lab, &["scope"]);
        thread::scope(|threads| {
            let both = threads.spawn(|| lab.hold(&["scope", "supply"]).begin().unwrap().number());
            until(|| waiting(&lab) == 1);
            for at in 0..overtakes {
                // (never both free at once)
                let next = lab.hold(&[["supply", "scope"][at as usize % 2]]).timeout(NOW).begin().unwrap();
                holds = next;
            }
            for name in ["scope", "supply"] {
                assert!(lab.hold(&[name]).timeout(NOW).begin().is_err());
            }
            drop(holds);
            assert_eq!(both.join().unwrap(), 2);
        });
    }
}

/// Those that want the same are served in the order in which they asked.
#[test]
fn in_order() {
    let lab = lab();
    let first = held(&lab, &["scope"]);
    let (tell, told) = channel();
    thread::scope(|threads| {
        for at in 1..=5 {
            let (lab, tell) = (&lab, tell.clone());
            threads.spawn(move || {
                let held = lab.hold(&["scope"]).begin().unwrap();
                tell.send(held.number()).unwrap();
            });
            until(|| waiting(lab) == at);
        }
        drop(first);
    });
    assert_eq!(told.try_iter().collect::<Vec<_>>(), [2, 3, 4, 5, 6]);
}

/// A station is in one session at a time: its second thread waits, though the instruments are free; a guest doesn't.
#[test]
fn two_threads_at_a_station() {
    let lab = LabOptions::new(["scope", "supply"]).station("board", ["scope", "supply"]).station("radio", ["scope"]).open().unwrap();
    let board = lab.station("board").unwrap();
    assert_eq!((board.name(), board.instruments()), ("board", vec!["scope", "supply"]));
    let first = board.hold(&["scope"]).begin().unwrap();
    assert_eq!(keepers(board.hold(&["supply"]).timeout(NOW).begin()), ["its place board"]);
    // (its place isn't named where somebody keeps an instrument)
    assert_eq!(keepers(board.hold(&["scope", "supply"]).timeout(NOW).begin()), ["scope board"]);
    let other = held(&lab, &["supply"]);
    assert_eq!(keepers(board.hold(&["supply"]).timeout(NOW).begin()), ["supply guest 4"]);
    drop(other);
    let (tell, told) = channel();
    thread::scope(|threads| {
        let other = board.clone();
        threads.spawn(move || tell.send(other.any_of(&[&["supply"]]).begin().unwrap().number()).unwrap());
        until(|| waiting(&lab) == 1);
        drop(held(&lab, &["supply"]));
        assert!(told.try_recv().is_err());
        drop(first);
        assert_eq!(told.recv_timeout(LONG), Ok(6));
    });
}

#[test]
fn places_of_guests() {
    let lab = LabOptions::new(["scope", "supply", "load"]).guests(["scope", "supply"], 1).station("board", ["load"]).open().unwrap();
    let first = held(&lab, &["scope"]);
    assert_eq!(keepers(lab.hold(&["supply"]).timeout(NOW).begin()), ["its place guest 1"]);
    drop(lab.station("board").unwrap().hold(&["load"]).timeout(NOW).begin().unwrap());
    drop(first);
    drop(held(&lab, &["supply"]));
}

/// What may not be is refused, and leaves nobody in line.
#[test]
fn refused() {
    let lab =
        LabOptions::new(["scope", "supply", "load"]).guests(["scope", "load"], 8).station("board", ["supply"]).line(1).open().unwrap();
    let why = |it: Result<Held, Error>| it.err().unwrap().to_string();
    assert_eq!(why(lab.hold(&["scope", "supply"]).begin()), "a guest may not use supply: it may use scope, load");
    assert_eq!(why(lab.station("board").unwrap().hold(&["load"]).begin()), "board may not use load: it may use supply");
    assert_eq!(lab.hold(&["scoop"]).begin().err(), Some(Error::Invalid("there is no instrument scoop".into())));
    assert_eq!(lab.hold(&[]).begin().err(), Some(Error::Invalid("a session needs an instrument".into())));
    assert_eq!(lab.any_of(&[]).begin().err(), Some(Error::Invalid("a session needs an instrument".into())));
    assert_eq!(lab.any_of(&[&["scope"], &[]]).begin().err(), Some(Error::Invalid("a session needs an instrument".into())));
    assert_eq!(lab.any_of(&[&["scope"], &["load"]]).begin().err(), Some(Error::LineFull));
    assert_eq!(lab.station("rodeo").err(), Some(Error::NoSuchJob("rodeo".into())));
    assert_eq!(lab.hold(&["scope"]).note("4.998 V").begin().err(), Some(Error::NotNow("the lab has no journal".into())));
    assert_eq!(held(&lab, &["scope"]).note("4.998 V"), Err(Error::NotNow("the lab has no journal".into())));
    assert!(lab.sessions().unwrap().is_empty());
}

#[test]
fn refused_at_the_open() {
    let invalid = |it: LabOptions| matches!(it.open().err(), Some(Error::Invalid(_)));
    let stations = |count: usize| (0..count).fold(LabOptions::new(["scope"]), |it, at| it.station(format!("s-{at}"), ["scope"]));
    assert!(invalid(LabOptions::new([""; 0])) && invalid(LabOptions::new([""])) && invalid(LabOptions::new(["scope", "scope"])));
    assert!(invalid(LabOptions::new(names(65))) && LabOptions::new(names(64)).open().is_ok());
    assert!(invalid(LabOptions::new(["scope"]).station("board", ["scoop"])) && invalid(LabOptions::new(["scope"]).guests(["scoop"], 1)));
    assert!(invalid(stations(2).station("s-1", ["scope"])) && invalid(stations(32)) && stations(31).open().is_ok());
}

#[test]
fn sessions() {
    let lab = LabOptions::new(["scope", "supply", "load"]).station("board", ["scope", "supply"]).open().unwrap();
    assert_eq!(lab.instruments(), ["scope", "supply", "load"]);
    let board = lab.station("board").unwrap().hold(&["scope", "supply"]).begin().unwrap();
    thread::scope(|threads| {
        threads.spawn(|| lab.any_of(&[&["scope"], &["supply", "load"]]).begin().map(drop));
        until(|| waiting(&lab) == 1);
        thread::sleep(SHORT);
        let all = lab.sessions().unwrap();
        let told: Vec<_> = all.iter().map(|it| (it.number, it.station.as_deref(), it.instruments.join(" "), it.holds)).collect();
        assert_eq!(told, [(1, Some("board"), "scope supply".to_string(), true), (2, None, "scope supply load".to_string(), false)]);
        assert!(all.iter().all(|it| it.span >= SHORT / 2 && it.span < LONG));
        drop(board);
    });
}

/// Whoever waits is told, nobody comes any more, and who holds goes on to its end.
#[test]
fn stop() {
    let lab = lab();
    let mut first = held(&lab, &["scope"]);
    thread::scope(|threads| {
        let waits = threads.spawn(|| lab.hold(&["scope"]).begin().map(drop));
        until(|| waiting(&lab) == 1);
        lab.stop().unwrap();
        assert_eq!(waits.join().unwrap(), Err(Error::Stopped));
    });
    assert_eq!(lab.hold(&["supply"]).begin().err(), Some(Error::Stopped));
    assert!(first.is_held());
    first.finish().unwrap();
    lab.stop().unwrap();
}

/// So is whoever waits when the lab is closed, or dropped; all later calls are refused, and a session that is held then can be dropped.
#[test]
fn close() {
    let lab = lab();
    let mut first = held(&lab, &["scope"]);
    let board = Lab::new(["scope"]).unwrap();
    thread::scope(|threads| {
        let waits = threads.spawn(|| lab.hold(&["scope"]).timeout(LONG).begin().map(drop));
        until(|| waiting(&lab) == 1);
        lab.close().unwrap();
        assert_eq!(waits.join().unwrap(), Err(Error::Stopped));
    });
    let asks = lab.hold(&["supply"]);
    assert_eq!((lab.close(), lab.stop(), lab.take_away(1)), (Ok(()), Err(Error::Closed), Err(Error::Closed)));
    assert_eq!(
        (lab.sessions().err(), lab.resumed().err(), asks.begin().err()),
        (Some(Error::Closed), Some(Error::Closed), Some(Error::Closed))
    );
    assert_eq!((first.finish(), first.is_held()), (Err(Error::Closed), false));
    drop(lab);
    drop(first);
    let outlives = board.hold(&["scope"]).begin().unwrap();
    drop(board);
    assert!(!outlives.is_held());
}

extern "C" {
    fn signal(number: i32, does: extern "C" fn(i32)) -> usize;
    fn siginterrupt(number: i32, does: i32) -> i32;
    fn pthread_self() -> usize;
    fn pthread_kill(thread: usize, number: i32) -> i32;
}
const SIGUSR1: i32 = 10;
static SIGNALS: AtomicUsize = AtomicUsize::new(0);
extern "C" fn counts_it(_: i32) {
    SIGNALS.fetch_add(1, SeqCst);
}

/// Signals wake whoever waits, and it waits on: no sooner than its time it is told, and it holds once it can.
#[test]
fn signals_to_one_that_waits() {
    // SAFETY: it does nothing but count.
    unsafe { (signal(SIGUSR1, counts_it), siginterrupt(SIGUSR1, 1)) };
    let lab = lab();
    let mut first = held(&lab, &["scope"]);
    let (tell, told) = channel();
    let (came, is_over) = (AtomicBool::new(false), AtomicBool::new(false));
    thread::scope(|threads| {
        let (lab, came, is_over, also) = (&lab, &came, &is_over, tell.clone());
        threads.spawn(move || {
            tell.send(unsafe { pthread_self() }).unwrap();
            let _held = lab.hold(&["scope"]).begin().unwrap();
            came.store(true, SeqCst);
            until(|| is_over.load(SeqCst));
        });
        threads.spawn(move || {
            also.send(unsafe { pthread_self() }).unwrap();
            let begun = Instant::now();
            assert!(matches!(lab.hold(&["scope"]).timeout(10 * SHORT).begin().err(), Some(Error::TimedOut(_))));
            assert!(begun.elapsed() >= 10 * SHORT);
            until(|| is_over.load(SeqCst));
        });
        let those: Vec<usize> = told.iter().take(2).collect();
        until(|| lab.sessions().unwrap().len() == 3);
        for _ in 0..100 {
            // SAFETY: both threads are there until it is over.
            those.iter().for_each(|it| assert_eq!(unsafe { pthread_kill(*it, SIGUSR1) }, 0));
            thread::sleep(SHORT / 40);
        }
        until(|| lab.sessions().unwrap().len() == 2);
        assert!(SIGNALS.load(SeqCst) > 0 && !came.load(SeqCst));
        first.finish().unwrap();
        until(|| came.load(SeqCst));
        is_over.store(true, SeqCst);
    });
}

#[test]
fn may_be_sent() {
    fn sent<T: Send + Sync>() {}
    sent::<Held>();
    sent::<Lab>();
    sent::<labrun::Station>();
}
