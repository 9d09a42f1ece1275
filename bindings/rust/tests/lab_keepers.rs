//! Who keeps a session of a lab waiting, whose time is over: who holds, and who is in line.
mod common;

use common::{keepers, until, untimed, waiting, SHORT};
use labrun::{Error, Held, Keeper, Lab, LabOptions};
use std::sync::mpsc::channel;
use std::thread;
use std::time::Duration;

const NOW: Duration = Duration::ZERO;

/// A lab in which so many at most go before one that waits.
fn lab(overtakes: u32) -> Lab {
    LabOptions::new(["scope", "supply", "load-1", "load-2"]).overtakes(overtakes).open().unwrap()
}

fn held(lab: &Lab, instruments: &[&str]) -> Held {
    lab.hold(instruments).timeout(NOW).begin().unwrap()
}

/// The text of these keepers, without how long anybody held.
fn told(keepers: &[Keeper]) -> String {
    untimed(&Error::TimedOut(keepers.to_vec()).to_string())
}

/// The keepers of one that may not wait, while a session for each of these choices is in line, behind the first.
fn kept_from(lab: &Lab, wants: &[&str], line: &[&[&[&str]]], first: Held) -> Vec<Keeper> {
    thread::scope(|threads| {
        for (at, sets) in line.iter().enumerate() {
            threads.spawn(|| lab.any_of(sets).begin().map(drop).unwrap());
            until(|| waiting(lab) == at + 1);
        }
        let late = lab.hold(wants).timeout(NOW).begin();
        drop(first);
        match late {
            Err(Error::TimedOut(keepers)) => keepers,
            other => panic!("{:?}", other.err()),
        }
    })
}

/// The error names first whoever has held longest, and not whoever asked first.
#[test]
fn who_has_held_longest() {
    let lab = lab(64);
    let first = held(&lab, &["scope"]);
    thread::scope(|threads| {
        let (tell, told) = channel::<()>();
        let lab = &lab;
        threads.spawn(move || {
            let _second = lab.hold(&["scope"]).begin().unwrap();
            told.recv().unwrap();
        });
        until(|| waiting(lab) == 1);
        let _third = held(lab, &["supply"]);
        thread::sleep(SHORT);
        drop(first);
        until(|| waiting(lab) == 0);
        assert_eq!(keepers(lab.hold(&["scope", "supply"]).timeout(NOW).begin()), ["supply guest 3", "scope guest 2"]);
        tell.send(()).unwrap();
    });
}

/// Nobody holds what it wants: it is kept for one in line, which waits for what somebody holds.
#[test]
fn who_comes_first_in_line() {
    let lab = lab(0);
    let found = kept_from(&lab, &["supply"], &[&[&["scope", "supply"]]], held(&lab, &["scope"]));
    assert_eq!(
        told(&found),
        "still waits for guest 1, at scope for _ s: supply is kept for guest 2, which waits for scope, held by guest 1 for _ s"
    );
    let [keeper] = &found[..] else { panic!() };
    assert_eq!((keeper.instrument.as_str(), keeper.job.as_str(), keeper.holds, keeper.held_for), ("supply", "guest 2", false, None));
    let behind = keeper.behind.as_ref().unwrap();
    assert_eq!((behind.instrument.as_str(), behind.job.as_str(), behind.holds), ("scope", "guest 1", true));
    assert!(behind.held_for.is_some() && behind.behind.is_none());
}

/// That one waits for another in line: the chain goes on to who holds.
#[test]
fn who_comes_before_the_first_in_line() {
    let lab = lab(0);
    let line: [&[&[&str]]; 2] = [&[&["scope", "load-1"]], &[&["scope", "supply"]]];
    let found = kept_from(&lab, &["supply"], &line, held(&lab, &["load-1"]));
    assert_eq!(
        told(&found),
        "still waits for guest 1, at load-1 for _ s: supply is kept for guest 3, which waits for scope, kept for guest 2, which waits for \
         load-1, held by guest 1 for _ s"
    );
}

/// Of one that chooses all sets are looked at: it lacks the scope of its second.
#[test]
fn who_keeps_one_that_chooses() {
    let lab = lab(0);
    let _other = held(&lab, &["load-2"]);
    let line: [&[&[&str]]; 1] = [&[&["load-1", "load-2"], &["supply", "scope"]]];
    let found = kept_from(&lab, &["supply"], &line, held(&lab, &["scope"]));
    assert_eq!(
        told(&found),
        "still waits for guest 2, at scope for _ s: supply is kept for guest 3, which waits for scope, held by guest 2 for _ s"
    );
}

/// Two in line keep something from each other: the later one keeps the scope from the other's second set. The chain doesn't go in a ring.
#[test]
fn who_keeps_two_that_wait_for_each_other() {
    let lab = lab(1);
    let (first, second) = (held(&lab, &["supply"]), held(&lab, &["scope"]));
    let lines_up = |sets: &[&[&str]]| lab.any_of(sets).begin().map(drop).unwrap();
    let (count, late) = thread::scope(|threads| {
        threads.spawn(|| lines_up(&[&["supply", "load-1"]]));
        until(|| waiting(&lab) == 1);
        let passes_3 = held(&lab, &["load-1"]);
        threads.spawn(|| lines_up(&[&["load-1", "load-2"], &["scope"]]));
        until(|| waiting(&lab) == 2);
        threads.spawn(|| lines_up(&[&["scope", "load-2"]]));
        until(|| waiting(&lab) == 3);
        let passes_5_and_6 = held(&lab, &["load-2"]);
        drop((passes_3, passes_5_and_6, second));
        let found = (waiting(&lab), lab.hold(&["load-2"]).timeout(NOW).begin().err().unwrap());
        drop(first);
        found
    });
    assert_eq!(
        (count, untimed(&late.to_string()).as_str()),
        (
            3,
            "still waits for guest 1, at supply for _ s: load-2 is kept for guest 5, which waits for load-1, kept for guest 3, which waits for \
             supply, held by guest 1 for _ s"
        )
    );
}

/// Who holds it is named, and not who is in line for it before.
#[test]
fn who_holds_comes_before_the_line() {
    let lab = lab(0);
    let found = kept_from(&lab, &["scope"], &[&[&["scope", "supply"]]], held(&lab, &["scope"]));
    assert_eq!(told(&found), "still waits: scope has been held by guest 1 for _ s");
}

/// So it is of what one in line lacks: the scope is kept from it, and the load is held.
#[test]
fn who_holds_comes_before_a_longer_chain() {
    let lab = lab(0);
    let line: [&[&[&str]]; 2] = [&[&["scope", "load-1"]], &[&["scope", "supply", "load-2"]]];
    let found = kept_from(&lab, &["supply"], &line, held(&lab, &["load-1", "load-2"]));
    assert_eq!(
        told(&found),
        "still waits for guest 1, at load-2 for _ s: supply is kept for guest 3, which waits for load-2, held by guest 1 for _ s"
    );
}

/// First comes the keeper whose chain ends at who has held longest, and not who holds.
#[test]
fn whose_chain_ends_at_who_has_held_longest() {
    let lab = lab(0);
    let first = held(&lab, &["load-2"]);
    thread::sleep(SHORT);
    let _second = held(&lab, &["scope"]);
    let found = kept_from(&lab, &["scope", "load-1"], &[&[&["load-1", "load-2"]]], first);
    assert_eq!(
        told(&found),
        "still waits for guest 1, at load-2 for _ s: load-1 is kept for guest 3, which waits for load-2, held by guest 1 for _ s, scope has been \
         held by guest 2 for _ s"
    );
}
