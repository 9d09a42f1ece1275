//! Tests within the crate: each call may answer something else.
#[path = "../tests/alone/mod.rs"]
mod alone;

use crate::script::{check, replay, run, upgrade, Bench};
use crate::Error;
mod of_a_lab;

use alone::alone;
use std::cell::Cell;
use std::path::{Path, PathBuf};
use std::sync::atomic::{AtomicU32, Ordering::SeqCst};
use std::sync::Mutex;
use std::thread;
use std::time::Duration;

/// Longer than anybody waits in what follows, unless something strange keeps others from letting go.
const ENOUGH: Duration = Duration::from_secs(1);
const SHORT: Duration = Duration::from_millis(1);

/// How many calls were made, the one that answers something strange, by its number or by its name, and what it answers; and its name, once it
/// did.
static MADE: AtomicU32 = AtomicU32::new(0);
static STRANGE: AtomicU32 = AtomicU32::new(0);
static CALLED: Mutex<&str> = Mutex::new("");
static ANSWER: AtomicU32 = AtomicU32::new(99);
static ANSWERED: Mutex<&str> = Mutex::new("");

thread_local! {
    /// So many calls of this thread are made, and then it panics.
    static PANICS: Cell<u32> = const { Cell::new(u32::MAX) };
}

pub(crate) fn instead(call: &'static str) -> Option<u32> {
    // (who drops a bench couldn't be told)
    if call.ends_with("_free") {
        return None;
    }
    let left = PANICS.with(Cell::get);
    if left != u32::MAX {
        PANICS.with(|it| it.set(left.wrapping_sub(1)));
        assert!(left != 0, "a call that panics");
    }
    let is_strange = MADE.fetch_add(1, SeqCst) + 1 == STRANGE.load(SeqCst) || *CALLED.lock().unwrap() == call;
    is_strange.then(|| {
        *ANSWERED.lock().unwrap() = call;
        ANSWER.load(SeqCst)
    })
}

/// From now on this call answers that, counted from 1; 0: none does.
fn answers(strange: u32, answer: u32) {
    MADE.store(0, SeqCst);
    ANSWER.store(answer, SeqCst);
    STRANGE.store(strange, SeqCst);
}

/// The calls until then aren't counted, and none of them answers something strange.
fn uncounted<T>(does: impl FnOnce() -> T) -> T {
    let strange = STRANGE.swap(0, SeqCst);
    let done = does();
    answers(strange, ANSWER.load(SeqCst));
    done
}

fn file(name: &str) -> PathBuf {
    let shared = Path::new("/dev/shm");
    let top = if shared.is_dir() { shared.to_path_buf() } else { std::env::temp_dir() };
    top.join(format!("labrun-{}-{name}", std::process::id()))
}

const SCRIPT: &[u8] =
    b"lab 2\njob a\nsession\nx set 3\nend\nsession\nx read\nend\njob b\nsession patience 999999\nx read\nend\nsession\nx read\ny add 1\nend\n";

/// One that can't come to hold is late.
fn is_late<T>(came: Result<T, Error>) -> Result<(), Error> {
    match came {
        Err(Error::TimedOut(_)) => Ok(()),
        Err(fault) => Err(fault),
        Ok(_) => panic!("it holds"),
    }
}

/// The call that answered something strange, and what it answered.
fn strange() -> Error {
    Error::Status { call: *ANSWERED.lock().unwrap(), status: ANSWER.load(SeqCst) }
}

fn runs() -> Result<(), Error> {
    run(SCRIPT, 100)?;
    replay(&[SCRIPT, b"steps\n"].concat())?;
    check(SCRIPT)?;
    upgrade(SCRIPT).map(drop)
}

/// Sessions of a script: held, withdrawn, and held once another lets go.
fn of_a_script() -> Result<(), Error> {
    let (bench, mut desks) = Bench::from_text(SCRIPT)?;
    let (mut b, mut a) = (desks.pop().unwrap(), desks.pop().unwrap());
    let mut held = a.begin()?.unwrap();
    let done = thread::scope(|threads| {
        let waits = threads.spawn(|| match b.begin().map(drop) {
            Err(Error::Withdrawn) => b.begin().map(drop),
            came => came.map(|()| panic!("it held")),
        });
        let withdrawn = loop {
            match bench.withdraw("b") {
                Ok(false) => thread::sleep(SHORT),
                came => break came,
            }
        };
        let command = withdrawn.and_then(|_| held.command());
        command.and(held.finish()).and(waits.join().unwrap())
    });
    done?;
    a.begin()?.unwrap().finish()?;
    assert!(a.begin()?.is_none() && bench.close()?.finished);
    Ok(())
}

/// Any one of the calls that these make answers what it never should: somebody is told which, and what it answered.
fn each_is_told(name: &str, calls: &dyn Fn() -> Result<(), Error>) {
    for at in 1.. {
        answers(at, 99);
        let told = calls();
        if MADE.load(SeqCst) < at {
            assert_eq!(told, Ok(()));
            assert!(at > 4, "{name}");
            return;
        }
        assert_eq!(told, Err(strange()), "{name}: call {at}");
    }
}

#[test]
fn statuses() {
    alone("tests::statuses", || {
        each_is_told("runs", &runs);
        each_is_told("of a script", &of_a_script);
    });
}
