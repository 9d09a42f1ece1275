//! The bench of a script, behind one mutex.
use super::{calls, Desk, Report};
use crate::ffi::bench::{Came, Size, Turned};
use crate::ffi::system::Home;
use crate::ffi::{Handle, Owned, DONE};
use crate::Error;
use std::path::Path;
use std::sync::{Arc, Condvar, Mutex, MutexGuard, PoisonError};

/// What the mutex guards.
pub(super) struct Core {
    bench: Owned,
    /// The jobs whose threads wait, and those whose sessions were given up, which their owners don't know yet: as sets of bits.
    pub waiting: u32,
    pub withdrawn: u32,
}

pub(super) struct Inner {
    core: Mutex<Core>,
    pub woken: Vec<Condvar>,
    pub jobs: Vec<String>,
    pub instruments: Vec<String>,
    home: Home,
}

impl Inner {
    /// The mutex, in the process that opened the bench, as long as that is open and sound.
    pub fn open(&self) -> Result<MutexGuard<'_, Core>, Error> {
        self.home.is_here()?;
        let core = self.core.lock().unwrap_or_else(PoisonError::into_inner);
        core.bench.is_sound().map(|()| core)
    }

    /// A call. One that answers what it never should ends the bench: all that wait are woken, and told so.
    pub fn calls<T>(&self, core: &mut Core, call: impl FnOnce(&mut Handle) -> Result<T, Error>) -> Result<T, Error> {
        core.bench.calls(call).map_err(|fault| {
            self.wakes_everybody();
            fault
        })
    }

    fn wakes_everybody(&self) {
        self.woken.iter().for_each(Condvar::notify_all);
    }

    /// All that can be done is done, and those are woken whom that concerns.
    pub fn settles(&self, core: &mut Core) -> Result<(), Error> {
        let (waiting, mut came) = (core.waiting, Came::default());
        self.calls(core, |bench| calls::lab_settle(bench, waiting, &mut came))?;
        core.withdrawn |= came.given_up;
        core.waiting &= !(came.holds | came.given_up | came.none_left);
        let woken = self.woken.iter().enumerate().filter(|(job, _)| (waiting & !core.waiting) >> job & 1 == 1);
        woken.for_each(|(_, it)| it.notify_all());
        Ok(())
    }
}

/// The bench of a script.
///
/// ```
/// let script = b"lab 1\njob a\nsession\nscale add 1\nend\njob b\nsession\nscale add 1\nend\n";
/// let (bench, desks) = labrun::script::Bench::from_text(script)?;
/// std::thread::scope(|threads| {
///     for mut desk in desks {
///         threads.spawn(move || {
///             while let Some(session) = desk.begin().unwrap() { // blocks until all its instruments are held
///                 assert_eq!(session.instruments(), ["scale"]); // the real work
///             } // the session's commands are logged, and it lets go
///         });
///     }
/// });
/// let report = bench.close()?;
/// assert!(report.finished);
/// assert_eq!(report.log("scale").len(), 2);
/// # Ok::<(), labrun::Error>(())
/// ```
pub struct Bench {
    inner: Arc<Inner>,
}

impl Bench {
    /// The bench of the script in a file, and a desk for each job, in the order of the script.
    pub fn open(path: impl AsRef<Path>) -> Result<(Bench, Vec<Desk>), Error> {
        Bench::from_text(&std::fs::read(path).map_err(|why| Error::Unread(why.to_string()))?)
    }

    /// The bench of a script in memory, else the same.
    pub fn from_text(script: &[u8]) -> Result<(Bench, Vec<Desk>), Error> {
        let (mut bench, mut size) = (calls::open(script)?, Size::default());
        bench.calls(|bench| calls::lab_bench_size(bench, &mut size))?;
        let mut names = |count, is_job| (0..count).map(|at| bench.calls(|bench| calls::name(bench, at, is_job))).collect();
        let (jobs, instruments): (Result<Vec<_>, _>, Result<Vec<_>, _>) = (names(size.jobs, true), names(size.instruments, false));
        let (jobs, instruments) = (jobs?, instruments?);
        let core = Mutex::new(Core { bench, waiting: 0, withdrawn: 0 });
        let woken = jobs.iter().map(|_| Condvar::new()).collect();
        let inner = Arc::new(Inner { core, woken, jobs, instruments, home: Home::here() });
        let desks = (0..size.jobs).map(|job| Desk::new(&inner, job)).collect();
        Ok((Bench { inner }, desks))
    }

    /// The jobs' names.
    pub fn jobs(&self) -> &[String] {
        &self.inner.jobs
    }

    /// The instruments' names, in the order in which the script first names them.
    pub fn instruments(&self) -> &[String] {
        &self.inner.instruments
    }

    /// Gives up the session that a job waits for, from any thread, if the script has a patience for it: it logs nothing, and its
    /// [`Desk::begin`] gives [`Error::Withdrawn`]. No if it has none, or doesn't wait.
    pub fn withdraw(&self, job: &str) -> Result<bool, Error> {
        let job = self.inner.jobs.iter().position(|it| it == job).ok_or_else(|| Error::NoSuchJob(job.to_string()))?;
        let mut core = self.inner.open()?;
        if self.inner.calls(&mut core, |bench| calls::lab_withdraw(bench, job as u32))? != DONE {
            return Ok(false);
        }
        core.withdrawn |= 1 << job;
        core.waiting &= !(1 << job);
        self.inner.woken[job].notify_all();
        self.inner.settles(&mut core).map(|()| true)
    }

    /// Closes the bench, and gives its report. A desk that is still there gets [`Error::Closed`]; a session that is held then stays
    /// unfinished in the report.
    pub fn close(self) -> Result<Report, Error> {
        let (inner, mut core) = (&self.inner, self.inner.open()?);
        // (again and again: one may owe a meal, for which it needs forks that others give once they have let go)
        let (mut retired, mut last) = (0, None);
        while last != Some(retired) {
            (last, retired) = (Some(retired), 0);
            for job in 0..inner.jobs.len() as u32 {
                let status = inner.calls(&mut core, |bench| calls::lab_retire(bench, job, 1, &mut Turned::default()))?;
                retired += u32::from(status == DONE);
            }
        }
        let report = inner.calls(&mut core, calls::close);
        core.bench.ends(Error::Closed);
        inner.wakes_everybody();
        report
    }
}
