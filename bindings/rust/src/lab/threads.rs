//! The writer, a thread that writes the journal for whoever has a time limit, and what nobody waits for; it alone tries again what failed.
//! And the timer, which calls at the moments at which something is due. There is none before something has a deadline or a limit.
use super::*;
use std::cmp;
use std::sync::PoisonError;
use std::thread::{sleep, Builder};
use std::time::Duration;

/// After a write that failed, so that a full disk isn't asked all the time.
const PAUSE: Duration = Duration::from_millis(30);
const DAY: u64 = 86_400_000;

pub(super) fn writes(inner: &Arc<Inner>) -> Result<(), Error> {
    let mut shell = inner.lock();
    loop {
        if shell.state.disk.is_bad {
            shell = pauses(shell);
        }
        shell.state.bay.is_sound()?;
        if let Some(job) = shell.takes(0, true)? {
            shell = shell.does(job)?;
        } else if !shell.state.disk.is_bad {
            shell = match shell.state.disk.rests() {
                None => shell.sleeps(&inner.writer)?,
                Some(span) => {
                    let woken = inner.writer.wait_timeout(shell.state, span);
                    Shell { state: woken.unwrap_or_else(PoisonError::into_inner).0, ..shell }
                }
            };
        }
    }
}

fn pauses(shell: Shell<'_>) -> Shell<'_> {
    let inner = shell.inner;
    drop(shell);
    sleep(PAUSE);
    inner.lock()
}

pub(super) fn times(inner: &Arc<Inner>) -> Result<(), Error> {
    let mut shell = inner.lock();
    loop {
        shell.state.wakes = Some(NEVER);
        shell.calls(|_, _| Ok(()))?; // (what follows by now)
        let span = shell.state.wakes.unwrap_or(NEVER).saturating_sub(inner.now());
        let woken = inner.timer.wait_timeout(shell.state, Duration::from_millis(cmp::min(span, DAY)));
        shell = Shell { state: woken.unwrap_or_else(PoisonError::into_inner).0, ..shell };
    }
}

impl Shell<'_> {
    /// Starts a thread, which ends with the lab. (Why, those who call are told.)
    pub fn starts(&mut self, name: &str, does: impl FnOnce(&Arc<Inner>) -> Result<(), Error> + Send + 'static) -> Result<(), Error> {
        let inner = Arc::clone(self.inner);
        let thread = Builder::new().name(name.into()).spawn(move || drop(does(&inner))).map_err(|_| Error::NoMemory)?;
        self.state.threads.push(thread);
        Ok(())
    }

    pub fn starts_timer(&mut self) -> Result<(), Error> {
        if self.state.wakes.is_none() {
            self.starts("labrun timer", times)?;
            self.state.wakes = Some(NEVER);
        }
        Ok(())
    }

    /// A write failed since there were so many failures.
    pub fn has_failed(&self, failures: u64) -> Result<(), Error> {
        if self.state.failures == failures {
            return Ok(());
        }
        Err(self.inner.options.fault(format!("a write failed: {}", self.state.why), 0))
    }

    /// Returns once all that was given to the journal by now is on the disk. An error: a write failed meanwhile, and it is tried again by
    /// itself.
    pub fn waits_for_the_disk(mut self) -> Result<(), Error> {
        if self.inner.options.journal.is_none() {
            return Ok(());
        }
        let (failures, within) = (self.state.failures, self.state.disk.within());
        self.state.disk.waited_for.push(within);
        self.works(0, true, |shell| match shell.state.disk.durable >= within {
            true => Some(Ok(())),
            false => shell.has_failed(failures).err().map(Err),
        })
    }
}
