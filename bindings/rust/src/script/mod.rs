//! Scripts: jobs and their sessions, settled beforehand, with a log of what each instrument did. A [`Lab`](crate::Lab) is for sessions that
//! come as they are needed, and has what a script has not: a journal, time limits, and word of whom one waits for.
mod bench;
mod desk;

use crate::ffi::bench as calls;
use crate::Error;
pub use bench::Bench;
pub use desk::{Desk, Session};

/// A command that was done: see [`Session::command`].
///
/// ```
/// let (_bench, mut desks) = labrun::script::Bench::from_text(b"lab 1\njob a\nsession\nscale set 7\nend\n")?;
/// let entry = desks[0].begin()?.unwrap().command()?.unwrap();
/// assert_eq!((entry.session, entry.place, entry.value), (1, (1, 1), 7));
/// # Ok::<(), labrun::Error>(())
/// ```
#[derive(Clone, Copy, Debug, PartialEq, Eq)]
pub struct Entry {
    /// The session, from 1.
    pub session: u32,
    /// Its place among the session's commands on the same instrument, from 1, and how many these are.
    pub place: (u32, u32),
    /// What the dial shows after it.
    pub value: u32,
}

/// A report: see [`run`] and [`Bench::close`].
///
/// ```
/// let report = labrun::script::run(b"lab 1\njob a\nsession\nscale add 1\nend\n", 100)?;
/// assert!(report.finished && report.text.ends_with("finished\n"));
/// # Ok::<(), labrun::Error>(())
/// ```
#[derive(Clone, Debug, PartialEq, Eq)]
pub struct Report {
    /// Whether every job is retired.
    pub finished: bool,
    /// The report as `labrun` prints it.
    pub text: String,
}

impl Report {
    /// The lines of an instrument's log, in the order in which it took the commands; none if there is no such instrument.
    pub fn log(&self, instrument: &str) -> Vec<&str> {
        let head = format!("instrument {instrument} ");
        let lines = self.text.lines().skip_while(|line| !line.starts_with(&head)).skip(1);
        lines.take_while(|line| line.contains(" = ")).collect()
    }
}

/// Runs a script on one thread, at most `limit` rounds, as `labrun rounds LIMIT`.
///
/// ```
/// let report = labrun::script::run(b"lab 1\njob a\nsession\nscale add 1\nend\n", 100)?;
/// assert_eq!(report.log("scale"), ["a 1 1/1 add 1 = 1"]);
/// # Ok::<(), labrun::Error>(())
/// ```
pub fn run(script: &[u8], limit: u32) -> Result<Report, Error> {
    calls::rounds(script, limit)
}

/// Takes the steps that follow the script, as `labrun replay`.
pub fn replay(script: &[u8]) -> Result<Report, Error> {
    calls::replay(script)
}

/// The line of a script's counts, as `labrun check`.
///
/// ```
/// assert_eq!(labrun::script::check(b"lab 1\njob A\n"), Err(labrun::Error::Refused { line: 2, cause: 3 }));
/// ```
pub fn check(script: &[u8]) -> Result<String, Error> {
    calls::check(script).map(|it| it.text)
}

/// The script in version 2, as `labrun upgrade`.
pub fn upgrade(script: &[u8]) -> Result<String, Error> {
    calls::upgrade(script).map(|it| it.text)
}
