//! A lab with a journal: what comes back, what is refused, and what a write that fails leaves.
mod alone;
mod common;

use alone::{alone, limit};
use common::{fails, held, holding, keepers, opened, options, until, waiting, Chance, Folder, Instruments, LONG, SHORT};
use labrun::{Error, Held, Lab, LabOptions, SyncTo};
use std::panic::{catch_unwind, AssertUnwindSafe};
use std::path::Path;
use std::process::{Command, Stdio};
use std::sync::atomic::{AtomicBool, AtomicUsize, Ordering::SeqCst};
use std::thread;
use std::time::{Duration, Instant};

const NOW: Duration = Duration::ZERO;
const NO_LIMIT: usize = 1 << 40;

/// Why a journal isn't opened, and the line.
fn refused(opened: Result<Lab, Error>) -> (String, usize) {
    match opened.map(drop) {
        Err(Error::Journal { why, line, .. }) => (why, line),
        other => panic!("{other:?}"),
    }
}

const DIES: &str = "LABRUN_TEST_DIES";

/// A process of its own does this with a journal, and then it aborts.
fn died(name: &str, does: fn(Lab)) -> Option<Folder> {
    if let Some(path) = std::env::var_os(DIES) {
        does(options(Path::new(&path)).open().unwrap());
        std::process::abort();
    }
    let folder = Folder::new(name);
    let mut child = Command::new(std::env::current_exe().unwrap());
    child.args(["--exact", name, "--nocapture"]).env(DIES, folder.file()).stdout(Stdio::null()).stderr(Stdio::null());
    assert_eq!(child.status().unwrap().code(), None); // (by a signal)
    Some(folder)
}

/// Who held when the process died holds still: nobody else gets it, until whoever takes it up lets go. Who waited is gone, and who let go
/// is over.
#[test]
fn who_held_comes_back() {
    let does = |lab: Lab| {
        let board = lab.station("board").unwrap().hold(&["scope", "supply"]).note("ripple").begin().unwrap();
        let mut over = held(&lab, &["load"]);
        over.finish().unwrap();
        let guest = held(&lab, &["load"]);
        let lab: &'static Lab = Box::leak(Box::new(lab));
        thread::spawn(|| lab.hold(&["scope"]).begin());
        until(|| waiting(lab) == 1);
        std::mem::forget((board, guest));
    };
    let Some(folder) = died("who_held_comes_back", does) else { return };
    let lab = opened(&folder);
    assert_eq!(keepers(lab.hold(&["supply"]).timeout(NOW).begin()), ["supply board"]);
    let mut back = lab.resumed().unwrap();
    let told: Vec<_> = back.iter().map(|it| (it.number(), it.instruments().join(" "), it.is_held())).collect();
    assert_eq!(told, [(1, "scope supply".to_string(), true), (3, "load".to_string(), true)]);
    assert_eq!((back[0].token(), back[1].token()), (1, 3));
    assert!(lab.resumed().unwrap().is_empty());
    assert!(lab.hold(&["scope"]).timeout(NOW).begin().is_err());
    back[0].note("at rest").unwrap();
    back[0].finish().unwrap();
    let next = lab.hold(&["scope"]).timeout(NOW).begin().unwrap();
    assert!(next.number() > 3);
    assert_eq!(next.token(), 4);
    assert!(lab.hold(&["load"]).timeout(NOW).begin().is_err());
    drop((back, next));
    lab.close().unwrap();
    assert!(opened(&folder).resumed().unwrap().is_empty());
}

/// A limit goes on after a restart, also if nobody took the session up.
#[test]
fn a_limit_comes_back() {
    let does = |lab: Lab| std::mem::forget(lab.hold(&["scope"]).limit(SHORT).begin().unwrap());
    let Some(folder) = died("a_limit_comes_back", does) else { return };
    let lab = opened(&folder);
    drop(lab.hold(&["scope"]).timeout(LONG).begin().unwrap());
    assert!(lab.resumed().unwrap().is_empty());
}

/// What a call told is in the file when it returns; and closed while one holds, the lab comes back with it.
#[test]
fn what_is_told_is_written() {
    let folder = Folder::new("told");
    let lab = opened(&folder);
    let mut first = lab.station("board").unwrap().hold(&["supply"]).note("one").begin().unwrap();
    let lines = folder.lines();
    assert!(lines[0].starts_with("bay ") && lines[0].ends_with(" 0000000000000000 0000000000000000") && lines.len() == 3);
    let line = "hold 0000000000000001 00000001 0000000000000002 00000000000000010000000000000001 ";
    assert!(lines[1].starts_with(line) && lines[1].split(' ').nth(6) == Some("----------------"), "{}", lines[1]);
    assert_eq!(lines[2], "note 0000000000000001 one");
    first.note("4.998 V").unwrap();
    assert_eq!(folder.lines()[3..], ["note 0000000000000001 4.998 V"]);
    first.finish().unwrap();
    assert!(folder.lines().len() == 5 && folder.lines()[4].starts_with("end 0000000000000001 let_go "));
    let limited = lab.hold(&["load"]).limit(Duration::from_millis(8)).begin().unwrap();
    assert_eq!(limited.number(), 2);
    assert!(folder.lines()[5].starts_with("hold 0000000000000002 00000000 0000000000000004 00000000000000010000000000000002 "));
    assert_eq!(lab.take_away(2), Ok(true));
    assert!(folder.lines().len() == 7 && folder.lines()[6].starts_with("end 0000000000000002 taken_away "));
    drop(held(&lab, &["scope"]));
    let body = AssertUnwindSafe(|| {
        let _held = held(&lab, &["scope"]);
        panic!("the scope caught fire");
    });
    assert!(catch_unwind(body).is_err());
    let stays = held(&lab, &["load"]);
    lab.close().unwrap();
    let lines = folder.lines();
    let has = |start: &str| lines.iter().any(|it| it.starts_with(start));
    assert!(has("end 0000000000000003 let_go ") && has("end 0000000000000004 left "));
    assert_eq!(holding(&lines), [5]);
    drop(stays);
    drop(limited);
    assert_eq!(opened(&folder).resumed().unwrap()[0].number(), 5);
}

#[test]
fn notes_that_are_refused() {
    let folder = Folder::new("notes");
    let lab = opened(&folder);
    let mut it = held(&lab, &["scope"]);
    let invalid = Err(Error::Invalid("a note is one line of at most 500 bytes".into()));
    assert_eq!((it.note("two\nlines"), it.note("a\rb"), it.note(&"x".repeat(501))), (invalid.clone(), invalid.clone(), invalid.clone()));
    it.note(&"x".repeat(500)).unwrap();
    assert!(lab.hold(&["load"]).note("two\nlines").begin().is_err() && lab.sessions().unwrap().len() == 1);
    it.finish().unwrap();
    assert_eq!(it.note("late"), Err(Error::NotNow("session 1 lets go".into())));
}

/// A journal of some sessions, of which two hold.
fn some(folder: &Folder) -> String {
    let lab = opened(folder);
    let _one = lab.station("board").unwrap().hold(&["scope"]).begin().unwrap();
    held(&lab, &["load"]).finish().unwrap();
    held(&lab, &["load"]).finish().unwrap();
    let two = held(&lab, &["load"]);
    two.note("4.998 V").unwrap();
    lab.close().unwrap();
    folder.text()
}

/// Cut at any byte, it comes back with those that hold by its whole lines, and goes on behind them.
#[test]
fn a_torn_tail_is_cut() {
    let folder = Folder::new("torn");
    let text = some(&folder);
    for cut in 0..text.len() {
        std::fs::write(folder.file(), &text[..cut]).unwrap();
        let whole = text[..cut].rfind('\n').map_or(0, |it| it + 1);
        let lines: Vec<String> = text[..whole].lines().map(|it| it[17..].to_string()).collect();
        let lab = opened(&folder);
        let back: Vec<u64> = lab.resumed().unwrap().iter().map(Held::number).collect();
        assert_eq!(back, holding(&lines));
        held(&lab, &["scope", "load"]).finish().unwrap();
        lab.close().unwrap();
        assert!(folder.text().starts_with(&text[..whole]) && holding(&folder.lines()).is_empty());
    }
}

/// Any byte that was changed is refused, with its line; and the file stays as it is.
#[test]
fn a_changed_byte_is_refused() {
    let folder = Folder::new("changed");
    let text = some(&folder);
    for at in 0..text.len() - 1 {
        let mut changed = text.clone().into_bytes();
        changed[at] ^= 1;
        std::fs::write(folder.file(), &changed).unwrap();
        let (_, line) = refused(options(&folder.file()).open());
        let wanted = 1 + text[..at].matches('\n').count();
        assert!(line == wanted || line == wanted + 1 && text.as_bytes()[at] == b'\n', "{line}, byte {at} of line {wanted}");
        assert_eq!(std::fs::read(folder.file()).unwrap(), changed);
    }
}

#[test]
fn what_is_no_journal_of_it_is_refused() {
    let folder = Folder::new("another");
    some(&folder);
    let of = |it: LabOptions| refused(it.journal(folder.file(), SyncTo::Memory).open()).0;
    let another = "it is the journal of another lab";
    assert_eq!(of(LabOptions::new(["scope", "supply", "loads"]).station("board", ["scope", "supply"])), another);
    assert_eq!(of(LabOptions::new(["scope", "supply", "load"]).station("radio", ["scope", "supply"])), another);
    assert_eq!(of(LabOptions::new(["scope", "supply", "load"]).station("board", ["scope"])), another);
    assert_eq!(of(LabOptions::new(["scope", "supply", "load"])), another);
    for text in ["a letter to my aunt", "0", "lab 2\njob a\n"] {
        std::fs::write(folder.file(), text).unwrap();
        refused(options(&folder.file()).open());
        assert_eq!(folder.text(), text);
    }
    refused(options(Path::new("/nowhere/bay.journal")).open());
    refused(options(&folder.0).open());
    if Path::new("/dev/full").exists() {
        refused(options(Path::new("/dev/full")).open());
    }
}

const SECOND: &str = "LABRUN_TEST_SECOND";

/// Nobody else opens it, here or in another process, until it is closed or dropped.
#[test]
fn a_second_one_is_refused() {
    let opens = |path: &Path| options(path).open().map(drop).map_err(|it| it.to_string());
    if let Some(path) = std::env::var_os(SECOND) {
        assert!(opens(Path::new(&path)).unwrap_err().ends_with("another process has it open"));
        return;
    }
    let folder = Folder::new("second");
    let lab = opened(&folder);
    assert!(opens(&folder.file()).is_err());
    let mut child = Command::new(std::env::current_exe().unwrap());
    child.args(["--exact", "a_second_one_is_refused"]).env(SECOND, folder.file()).stdout(Stdio::null());
    assert!(child.status().unwrap().success());
    lab.close().unwrap();
    assert_eq!(opens(&folder.file()), Ok(()));
    assert_eq!(opens(&folder.file()), Ok(()));
}

extern "C" {
    fn fork() -> i32;
    fn waitpid(process: i32, status: *mut i32, options: i32) -> i32;
    fn kill(process: i32, signal: i32) -> i32;
    fn pause() -> i32;
    fn _exit(status: i32) -> !;
}

/// The child of a fork keeps nobody from the journal, and can't write to it.
#[test]
fn a_child_keeps_nobody_from_it() {
    alone("a_child_keeps_nobody_from_it", a_child);
}

fn a_child() {
    let folder = Folder::new("child");
    let lab = opened(&folder);
    let stays = held(&lab, &["scope"]);
    // SAFETY: the child calls what is refused, and waits until it is ended.
    let child = unsafe { fork() };
    if child == 0 {
        drop(stays);
        drop(lab);
        unsafe { pause() };
        unsafe { _exit(0) };
    }
    lab.close().unwrap();
    assert_eq!(opened(&folder).resumed().unwrap().len(), 1);
    // SAFETY: the child's number, and a place for its status.
    unsafe { kill(child, 9) };
    assert_eq!(unsafe { waitpid(child, &mut 0, 0) }, child);
    drop(stays);
}

#[test]
fn no_room() {
    alone("no_room", without_room);
}

/// What can't be written isn't held by anybody, and who can't let go holds still. When there is room all goes on.
fn without_room() {
    let folder = Folder::new("room");
    let lab = options(&folder.file()).disk(SHORT).open().unwrap();
    let mut first = held(&lab, &["scope"]);
    limit(folder.text().len() + 5);
    let begun = Instant::now();
    assert!(fails(lab.hold(&["load"]).timeout(NOW).begin()) && begun.elapsed() >= SHORT);
    assert!(fails(first.note("4.998 V")));
    assert_eq!(lab.sessions().unwrap().iter().filter(|it| it.holds).count(), 1);
    assert!(fails(first.finish()) && fails(first.finish()) && first.is_held());
    // (nobody has what it can't let go of)
    assert!(fails(lab.hold(&["scope"]).timeout(NOW).begin()));
    assert!(fails(lab.close()));
    assert_eq!(first.note("late"), Err(Error::NotNow("session 1 lets go".into())));
    assert_eq!(holding(&folder.lines()), [1]);
    limit(NO_LIMIT);
    // (it is tried again by itself)
    until(|| holding(&folder.lines()).is_empty());
    until(|| !first.is_held());
    first.finish().unwrap();
    lab.close().unwrap();
    assert!(holding(&folder.lines()).is_empty() && folder.lines().contains(&"note 0000000000000001 4.998 V".to_string()));
    let lab = opened(&folder);
    limit(folder.text().len() + 5);
    // (without a time limit it waits until there is room)
    thread::scope(|threads| {
        let waits = threads.spawn(|| lab.hold(&["scope"]).begin().map(drop));
        thread::sleep(SHORT);
        assert!(!waits.is_finished());
        limit(NO_LIMIT);
        assert_eq!(waits.join().unwrap(), Ok(()));
    });
}

/// A session that can't be taken away on the disk is taken away all the same, and nobody has its instruments before the disk knows.
#[test]
fn a_taking_that_fails() {
    alone("a_taking_that_fails", || {
        let folder = Folder::new("taking");
        let lab = options(&folder.file()).disk(SHORT).open().unwrap();
        let mut hangs = held(&lab, &["scope"]);
        limit(folder.text().len() + 5);
        assert!(fails(lab.take_away(1)));
        assert_eq!(hangs.finish(), Err(Error::TakenAway));
        assert!(fails(lab.hold(&["scope"]).timeout(NOW).begin()));
        limit(NO_LIMIT);
        drop(lab.hold(&["scope"]).timeout(LONG).begin().unwrap());
        lab.close().unwrap();
        assert!(folder.lines()[2].starts_with("end 0000000000000001 taken_away "));
    });
}

#[test]
fn load() {
    alone("load", loaded);
}

/// Threads hold at random while writes fail now and then, and the lab is opened again and again: no instrument has two clients, each that
/// was told that it holds is in the file, and each that let go is over there.
fn loaded() {
    let (folder, names) = (Folder::new("load"), common::names(4));
    let (instruments, done, refused) = (Instruments::new(4), AtomicUsize::new(0), AtomicUsize::new(0));
    for seed in 0..4 {
        let lab = LabOptions::new(&names).overtakes(3).disk(SHORT).journal(folder.file(), SyncTo::Memory).open().unwrap();
        assert!(lab.resumed().unwrap().is_empty());
        let is_over = AtomicBool::new(false);
        thread::scope(|threads| {
            let (lab, names, instruments, done, refused, is_over) = (&lab, &names, &instruments, &done, &refused, &is_over);
            for at in 0..4 {
                threads.spawn(move || {
                    let mut chance = Chance(seed * 4 + at);
                    while !is_over.load(SeqCst) {
                        let (one, other) = (names[chance.below(4)].as_str(), names[chance.below(4)].as_str());
                        let asks = lab.any_of(&[&[one, other], &[other]]).timeout(Duration::from_millis(chance.below(3) as u64));
                        let mut it = match asks.begin() {
                            Ok(it) => it,
                            Err(Error::TimedOut(_) | Error::Journal { .. }) => continue,
                            Err(fault) => panic!("{fault}"),
                        };
                        refused.fetch_add(usize::from(!instruments.work(&it.instruments())), SeqCst);
                        while fails(it.finish()) {}
                        done.fetch_add(1, SeqCst);
                    }
                });
            }
            // (after a write that failed the lab pauses, so how many sessions a second there are says nothing)
            let (mut turns, wanted) = (0, 30 * (seed as usize + 1));
            while turns < 100 || done.load(SeqCst) < wanted {
                // (a hold and its end have 211 bytes: one session may be written, and the next one is cut)
                limit(std::fs::metadata(folder.file()).map_or(0, |it| it.len() as usize) + 240);
                thread::sleep(Duration::from_millis(1));
                limit(NO_LIMIT);
                thread::sleep(Duration::from_millis(1));
                turns += 1;
            }
            is_over.store(true, SeqCst);
        });
        lab.close().unwrap();
        let lines = folder.lines();
        assert!(holding(&lines).is_empty());
        let over = |how: &str| lines.iter().filter(|it| it.starts_with("end ") && it.contains(how)).count();
        assert_eq!(over(" let_go "), done.load(SeqCst));
    }
    assert_eq!(refused.into_inner(), 0);
    let done = done.into_inner();
    assert!(done > 100, "{done} sessions");
}
