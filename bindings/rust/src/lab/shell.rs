//! What the mutex guards, and what follows from each call of the bay: whoever was told something is woken, and the writer and the timer if
//! they have to do.
use super::*;
use std::collections::BTreeMap;
use std::sync::{Condvar, Mutex, MutexGuard, PoisonError};
use std::thread::JoinHandle;
use std::time::Instant;

/// What all that belong to a lab share.
pub(super) struct Inner {
    pub state: Mutex<State>,
    pub writer: Condvar,
    pub timer: Condvar,
    pub is_written: Condvar,
    /// When it was opened, in milliseconds by the clock on the wall, because a journal has moments; and by one that isn't set.
    pub base: u64,
    pub begun: Instant,
    /// How it was opened: what is called how, and where the journal is.
    pub options: LabOptions,
    pub home: Home,
}

impl Inner {
    pub fn now(&self) -> u64 {
        self.base.saturating_add(self.begun.elapsed().as_millis() as u64)
    }

    pub fn lock(self: &Arc<Inner>) -> Shell<'_> {
        // (a panic under the mutex leaves nothing half done: what was told is told again until it is given back)
        Shell { inner: self, state: self.state.lock().unwrap_or_else(PoisonError::into_inner) }
    }

    /// The mutex, in the process that opened the lab, as long as that is open and sound.
    pub fn open(self: &Arc<Inner>) -> Result<Shell<'_>, Error> {
        self.home.is_here()?;
        let shell = self.lock();
        shell.state.bay.is_sound().map(|()| shell)
    }
}

/// What a session was told last.
#[derive(Clone, Copy)]
pub(super) enum Told {
    Nothing,
    /// What it holds, and its token.
    Holds(u64, u64),
    /// It lets go, and that isn't durable yet.
    LetsGo,
    /// It is over, and how.
    Over(u32),
}

/// What is known of a session.
pub(super) struct Ask {
    pub told: Told,
    /// Its thread sleeps there, if it waits; and whether it does so, and may be woken to write.
    pub woken: Arc<Condvar>,
    pub sleeps: bool,
}

/// What the mutex guards.
pub(super) struct State {
    pub bay: Owned,
    /// The number of the next ask, and the serial number of what was told last.
    pub next: u64,
    pub serial: u64,
    /// The sessions of this process that aren't over, or whose owners don't know yet; and whom to wake.
    pub asks: BTreeMap<u64, Ask>,
    /// Until when the timer sleeps, if there is one.
    pub wakes: Option<u64>,
    pub disk: Disk,
    /// How many writes failed, and why the last one did.
    pub failures: u64,
    pub why: String,
    pub threads: Vec<JoinHandle<()>>,
}

/// A lab whose mutex is held.
pub(super) struct Shell<'l> {
    pub inner: &'l Arc<Inner>,
    pub state: MutexGuard<'l, State>,
}

impl<'l> Shell<'l> {
    /// A call of the bay from which nothing follows. One that answers what it never should ends the lab: all that wait are woken, and told
    /// so.
    pub fn reads<T>(&mut self, call: impl FnOnce(&mut Handle) -> Result<T, Error>) -> Result<T, Error> {
        let answered = self.state.bay.calls(call);
        if answered.is_err() {
            self.wakes_everybody();
        }
        answered
    }

    /// A call that changes something, at this moment, and then what follows from it: what there is to tell is told, and whoever has to do
    /// something is woken.
    pub fn calls<T>(&mut self, call: impl FnOnce(&mut Handle, u64) -> Result<T, Error>) -> Result<T, Error> {
        let answered = self.changes(call, true)?;
        self.calls_on();
        Ok(answered)
    }

    /// The same for one who waits then, by `works`, or whose change isn't urgent.
    pub fn changes<T>(&mut self, call: impl FnOnce(&mut Handle, u64) -> Result<T, Error>, is_urgent: bool) -> Result<T, Error> {
        let now = self.inner.now();
        let answered = self.reads(|bay| call(bay, now))?;
        self.state.disk.has_more = true;
        self.state.disk.is_urgent |= is_urgent;
        self.tells()?;
        if let Some(wakes) = self.state.wakes {
            let mut next = 0;
            self.reads(|bay| lab_bay_time(bay, now, &mut next))?;
            // (woken only for a moment that comes before the one that it sleeps until)
            if next < wakes {
                self.state.wakes = Some(next);
                self.inner.timer.notify_one();
            }
            self.tells()?;
        }
        Ok(answered)
    }

    /// Hands on what there is to tell. The serial number is given back with the next tell, when whoever was told has it: so nothing is lost
    /// between the two.
    pub fn tells(&mut self) -> Result<(), Error> {
        let mut it = Outcome { serial: self.state.serial, ..Outcome::default() };
        while self.reads(|bay| lab_bay_tell(bay, it.serial, &mut it))? == DONE {
            if let Some(one) = self.state.asks.get_mut(&it.number) {
                one.told = if it.what == HOLDS { Told::Holds(it.needs, it.token) } else { Told::Over(it.what) };
                one.woken.notify_one();
            }
            self.state.serial = it.serial;
        }
        Ok(())
    }

    /// What a session was told last. One that nobody asks about any more has let go.
    pub fn told(&self, number: u64) -> Told {
        self.state.asks.get(&number).map_or(Told::Over(LET_GO), |it| it.told)
    }

    pub fn is_told(&mut self, number: u64, told: Told) {
        self.state.asks.entry(number).or_insert_with(|| Ask { told, woken: Arc::default(), sleeps: false }).told = told;
    }

    /// All in the bay's book, in the order in which they asked; and the next number is beyond theirs.
    pub fn standing(&mut self) -> Result<Vec<Standing>, Error> {
        let (mut found, mut it, mut next) = (Vec::new(), Standing::default(), 0);
        while self.reads(|bay| lab_bay_look(bay, found.len(), &mut it, &mut next))? == DONE {
            found.push(it);
        }
        self.state.next = self.state.next.max(next);
        Ok(found)
    }

    /// All that wait look for themselves.
    pub fn wakes_everybody(&self) {
        self.state.asks.values().for_each(|it| it.woken.notify_one());
        [&self.inner.writer, &self.inner.timer, &self.inner.is_written].iter().for_each(|it| it.notify_all());
    }

    /// Sleeps until a session is told something, or there is another reason to look: with `may` also that there is something to do. Number 0
    /// is none, and waits for the disk.
    pub fn sleeps_until_told(mut self, number: u64, may: bool) -> Result<Shell<'l>, Error> {
        if number == 0 {
            self.state.disk.lines += 1;
            let inner = self.inner;
            let mut shell = self.sleeps(&inner.is_written)?;
            shell.state.disk.lines -= 1;
            return Ok(shell);
        }
        let Some(it) = self.state.asks.get_mut(&number) else { return Ok(self) };
        it.sleeps = may;
        let woken = Arc::clone(&it.woken);
        let mut shell = self.sleeps(&woken)?;
        if let Some(it) = shell.state.asks.get_mut(&number) {
            it.sleeps = false;
        }
        Ok(shell)
    }

    /// Sleeps until woken, as long as the lab is open and sound.
    pub fn sleeps(self, on: &Condvar) -> Result<Shell<'l>, Error> {
        self.state.bay.is_sound()?;
        Ok(Shell { state: on.wait(self.state).unwrap_or_else(PoisonError::into_inner), ..self })
    }
}
