//! What may go wrong.
use crate::keeper::{self, Keeper};
use std::fmt;

/// What may go wrong. Each has a text.
///
/// ```
/// assert_eq!(labrun::Error::Stopped.to_string(), "the lab was stopped");
/// ```
#[derive(Clone, Debug, PartialEq, Eq)]
#[non_exhaustive]
pub enum Error {
    /// The time limit passed, and the session is over; the keepers say who holds what it wanted, or for whom it is kept.
    TimedOut(Vec<Keeper>),
    /// The session was ended for its owner, by `take_away`, or because it had held for longer than it may: its instruments are somebody
    /// else's by now.
    TakenAway,
    /// The session of a script was given up: its patience ran out, or somebody withdrew it. The next begin is about the one after it.
    Withdrawn,
    /// There is no station, or the script has no job, of this name.
    NoSuchJob(String),
    /// Whoever asks may not use this instrument: that is settled when the lab is opened.
    MayNotUse {
        /// The station, or `a guest`.
        job: String,
        /// The instrument.
        instrument: String,
        /// What it may use.
        may: Vec<String>,
    },
    /// What was asked for can't be; the text says why.
    Invalid(String),
    /// What was asked for may not be now; the text says why.
    NotNow(String),
    /// The line of a lab has no room for so many sets.
    LineFull,
    /// The lab was stopped.
    Stopped,
    /// The lab, or the bench, is closed.
    Closed,
    /// This is the child of a fork, and what it has is a copy of what the process with this number has: what it would hold, that one may
    /// hold, too.
    OtherProcess(u32),
    /// The journal can't be used: another process has it open; it is another's, or a line of it is refused; or a write failed.
    Journal {
        /// The file.
        path: String,
        /// What is wrong.
        why: String,
        /// The line that differs or is refused, or 0.
        line: usize,
    },
    /// A script or a step is refused: its line, from 1, and 1 to 14 for S1 to S14, or 0 for a step that isn't legal.
    Refused {
        /// The line.
        line: usize,
        /// The cause.
        cause: u32,
    },
    /// The script has more than 16777216 bytes.
    TooLong,
    /// The file of a script can't be read.
    Unread(String),
    /// There is no memory, or the system has no thread.
    NoMemory,
    /// A call of the library answered a status that it doesn't have. Whoever waits at that lab or bench is told so, and whoever calls from
    /// then on: nobody relies on it any more.
    Status {
        /// The call.
        call: &'static str,
        /// What it answered.
        status: u32,
    },
}

impl fmt::Display for Error {
    fn fmt(&self, out: &mut fmt::Formatter<'_>) -> fmt::Result {
        match self {
            Error::TimedOut(keepers) => write!(out, "still waits{}", keeper::because(keepers)),
            Error::TakenAway => write!(out, "the session was taken away"),
            Error::Withdrawn => write!(out, "the session was withdrawn"),
            Error::NoSuchJob(name) => write!(out, "there is no {name}"),
            Error::MayNotUse { job, instrument, may } => {
                let may = if may.is_empty() { "nothing".into() } else { may.join(", ") };
                write!(out, "{job} may not use {instrument}: it may use {may}")
            }
            Error::Invalid(why) | Error::NotNow(why) | Error::Unread(why) => write!(out, "{why}"),
            Error::LineFull => write!(out, "the line is full"),
            Error::Stopped => write!(out, "the lab was stopped"),
            Error::Closed => write!(out, "it is closed"),
            Error::OtherProcess(number) => write!(out, "this belongs to process {number}"),
            Error::Journal { path, why, .. } => write!(out, "{path}: {why}"),
            Error::Refused { line, cause: 0 } => write!(out, "line {line}: step is not legal"),
            Error::Refused { line, cause } => write!(out, "line {line}: S{cause}"),
            Error::TooLong => write!(out, "script longer than 16777216 bytes"),
            Error::NoMemory => write!(out, "no memory"),
            Error::Status { call, status } => write!(out, "{call}: status {status}"),
        }
    }
}

impl std::error::Error for Error {}
