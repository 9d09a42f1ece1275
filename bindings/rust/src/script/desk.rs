//! The owner of a job, and the session that it holds.
use super::bench::{Core, Inner};
use super::{calls, Entry};
use crate::ffi::bench::{Entered, SessionOf, State, Turned};
use crate::ffi::DONE;
use crate::Error;
use std::sync::{Arc, MutexGuard, PoisonError};
use std::time::Duration;

/// While sessions wait, the first of them settles the bench after so long: a patience runs out by the calls that settle.
const TICK: Duration = Duration::from_millis(100);

/// What the owner of a job calls, from whatever thread it is on. There is one for each job.
///
/// ```
/// let (_bench, mut desks) = labrun::script::Bench::from_text(b"lab 1\njob a\nsession\nscale set 7\nend\n")?;
/// assert_eq!(desks[0].job(), "a");
/// assert!(desks[0].begin()?.is_some() && desks[0].begin()?.is_none());
/// # Ok::<(), labrun::Error>(())
/// ```
pub struct Desk {
    inner: Arc<Inner>,
    job: usize,
}

impl Desk {
    pub(super) fn new(inner: &Arc<Inner>, job: usize) -> Desk {
        Desk { inner: Arc::clone(inner), job }
    }

    /// The job's name.
    pub fn job(&self) -> &str {
        &self.inner.jobs[self.job]
    }

    /// Begins the next session, and blocks until it holds all its instruments. None if no session is left. [`Error::Withdrawn`] if it was
    /// given up, because its patience ran out or by [`Bench::withdraw`](super::Bench::withdraw).
    ///
    /// One thread at a time: the compiler refuses a second one.
    ///
    /// ```compile_fail,E0499
    /// let (_bench, mut desks) = labrun::script::Bench::from_text(b"lab 1\njob a\n")?;
    /// std::thread::scope(|threads| {
    ///     threads.spawn(|| desks[0].begin().map(drop));
    ///     threads.spawn(|| desks[0].begin().map(drop));
    /// });
    /// # Ok::<(), labrun::Error>(())
    /// ```
    pub fn begin(&mut self) -> Result<Option<Session<'_>>, Error> {
        let (job, mut state, mut what, mut core) = (self.job as u32, State::default(), SessionOf::default(), self.inner.open()?);
        core.waiting |= 1 << job;
        self.inner.settles(&mut core)?;
        loop {
            self.inner.calls(&mut core, |bench| calls::lab_state(bench, job, &mut state))?;
            if state.holds() {
                let number = state.session;
                self.inner.calls(&mut core, |bench| calls::lab_session_of(bench, job, number, &mut what))?;
                drop(core);
                return Ok(Some(Session { number, needs: what.needs, is_over: false, desk: self }));
            }
            if core.withdrawn >> job & 1 == 1 {
                core.withdrawn &= !(1 << job);
                return Err(Error::Withdrawn);
            }
            if state.has_none_left() {
                return Ok(None);
            }
            core = self.sleeps(core)?;
        }
    }

    fn sleeps<'c>(&self, core: MutexGuard<'c, Core>) -> Result<MutexGuard<'c, Core>, Error> {
        let woken = self.inner.woken[self.job].wait_timeout(core, TICK);
        let (mut core, is_over) = woken.unwrap_or_else(PoisonError::into_inner);
        if is_over.timed_out() && core.waiting.trailing_zeros() as usize == self.job {
            self.inner.settles(&mut core)?;
        }
        Ok(core)
    }
}

/// A session that holds all its instruments. Dropped, also by a panic, it logs the commands that are left and lets go.
///
/// ```
/// let (_bench, mut desks) = labrun::script::Bench::from_text(b"lab 1\njob a\nsession\nscale set 7\nend\n")?;
/// let session = desks[0].begin()?.unwrap();
/// assert_eq!((session.job(), session.number(), session.instruments()), ("a", 1, vec!["scale"]));
/// session.finish()?;
/// # Ok::<(), labrun::Error>(())
/// ```
pub struct Session<'d> {
    number: u32,
    needs: u64,
    is_over: bool,
    /// A desk begins no other meanwhile.
    desk: &'d mut Desk,
}

impl Session<'_> {
    /// Its number, from 1.
    pub fn number(&self) -> u32 {
        self.number
    }

    /// The job's name.
    pub fn job(&self) -> &str {
        self.desk.job()
    }

    /// The instruments that it holds.
    pub fn instruments(&self) -> Vec<&str> {
        let names = self.desk.inner.instruments.iter().enumerate();
        names.filter(|(at, _)| self.needs >> at & 1 == 1).map(|(_, name)| name.as_str()).collect()
    }

    /// Does its next command; None if no command is left.
    ///
    /// ```
    /// let (_bench, mut desks) = labrun::script::Bench::from_text(b"lab 1\njob a\nsession\nscale set 7\nscale add 2\nend\n")?;
    /// let mut session = desks[0].begin()?.unwrap();
    /// assert_eq!(session.command()?, Some(labrun::script::Entry { session: 1, place: (1, 2), value: 7 }));
    /// assert_eq!(session.command()?.map(|it| it.value), Some(9));
    /// assert_eq!(session.command()?, None);
    /// # Ok::<(), labrun::Error>(())
    /// ```
    pub fn command(&mut self) -> Result<Option<Entry>, Error> {
        let (inner, job, mut it) = (&self.desk.inner, self.desk.job as u32, Entered::default());
        let status = inner.calls(&mut *inner.open()?, |bench| calls::lab_command(bench, job, &mut it))?;
        Ok((status == DONE).then_some(Entry { session: it.session, place: (it.place, it.length), value: it.value }))
    }

    /// Lets go, as a drop does, and says whether that went well.
    pub fn finish(mut self) -> Result<(), Error> {
        self.ends()
    }

    fn ends(&mut self) -> Result<(), Error> {
        self.is_over = true;
        let (inner, job) = (&self.desk.inner, self.desk.job as u32);
        let mut core = inner.open()?;
        inner.calls(&mut core, |bench| calls::lab_end(bench, job, &mut Turned::default()))?;
        inner.settles(&mut core)
    }
}

impl Drop for Session<'_> {
    fn drop(&mut self) {
        if !self.is_over {
            let _ = self.ends(); // (what is wrong, the next call tells)
        }
    }
}
