//! A lab: instruments that threads share, over the bay of the C library. It has a mutex, a writer and a timer, and no rule of its own.
mod asking;
mod disk;
mod opening;
mod options;
mod session;
mod shell;
mod threads;
mod who;

// (all that its parts have in common, which they take from here)
use crate::ffi::bay::{self, *};
use crate::ffi::system::Home;
use crate::ffi::{Handle, Owned, DONE, NO_MEMORY, NO_ROOM};
use crate::kept::Kept;
use crate::{Error, Keeper, SyncTo};
pub use asking::Hold;
use disk::Disk;
use options::milliseconds;
pub use options::LabOptions;
pub use session::Held;
use shell::{Ask, Inner, Shell, State, Told};
use std::sync::Arc;
use std::time::Duration;
pub use who::Who;

/// Instruments that threads share. A session holds all its instruments from its beginning to its end, and no two hold one at once.
///
/// Any thread may use it: by a reference, or an [`Arc`]. Dropped, it is closed, as by [`Lab::close`].
///
/// ```
/// let lab = labrun::Lab::new(["scope", "supply"])?;
/// std::thread::scope(|threads| {
///     for _ in 0..4 {
///         threads.spawn(|| {
///             let held = lab.hold(&["scope", "supply"]).begin().unwrap(); // blocks until it holds both
///             assert_eq!(held.instruments(), ["scope", "supply"]); // the real work
///         });
///     }
/// });
/// lab.close()?;
/// # Ok::<(), labrun::Error>(())
/// ```
pub struct Lab {
    inner: Arc<Inner>,
}

impl Lab {
    /// A lab of these instruments, 1 to 64, of which whoever asks may use all. [`LabOptions`] has all else: stations, a journal.
    pub fn new(instruments: impl IntoIterator<Item = impl AsRef<str>>) -> Result<Lab, Error> {
        LabOptions::new(instruments).open()
    }

    /// A guest's session of all these instruments, which is asked for by [`Hold::begin`].
    ///
    /// ```
    /// let lab = labrun::Lab::new(["scope", "supply"])?;
    /// let mut held = lab.hold(&["scope", "supply"]).begin()?;
    /// held.finish()?; // a drop lets go, too, but can't say that the disk is full
    /// # Ok::<(), labrun::Error>(())
    /// ```
    pub fn hold(&self, instruments: &[&str]) -> Hold {
        self.any_of(&[instruments])
    }

    /// The first of these that is free; [`Held::instruments`] says which.
    ///
    /// ```
    /// let lab = labrun::Lab::new(["load-1", "load-2"])?;
    /// let _busy = lab.hold(&["load-1"]).begin()?;
    /// let held = lab.any_of(&[&["load-1"], &["load-2"]]).begin()?;
    /// assert_eq!(held.instruments(), ["load-2"]);
    /// # Ok::<(), labrun::Error>(())
    /// ```
    pub fn any_of(&self, choices: &[&[&str]]) -> Hold {
        Hold::new(&self.inner, 0, choices)
    }

    /// A station by its name; [`Error::NoSuchJob`] if there is none.
    pub fn station(&self, name: &str) -> Result<Station, Error> {
        let at = self.inner.options.stations.iter().position(|it| it == name).ok_or_else(|| Error::NoSuchJob(name.into()))?;
        Ok(Station { inner: Arc::clone(&self.inner), kind: at as u32 + 1 })
    }

    /// The instruments' names, in their order.
    pub fn instruments(&self) -> &[String] {
        &self.inner.options.instruments
    }

    /// Who holds and who waits, in the order in which they asked.
    pub fn sessions(&self) -> Result<Vec<Who>, Error> {
        self.inner.open()?.sessions()
    }

    /// The sessions that held when the process died that had the journal before, and that nobody took up yet: so a second call gives none.
    /// They hold still. Whoever drops one lets go of it, so bring its instruments to rest first.
    ///
    /// ```no_run
    /// # fn bring_to_rest(_: &str) {}
    /// let lab = labrun::LabOptions::new(["scope"]).journal("bay.journal", labrun::SyncTo::Disk).open()?;
    /// for mut held in lab.resumed()? {
    ///     held.instruments().into_iter().for_each(bring_to_rest);
    ///     held.finish()?;
    /// }
    /// # Ok::<(), labrun::Error>(())
    /// ```
    pub fn resumed(&self) -> Result<Vec<Held>, Error> {
        let (mut found, mut shell) = (Vec::new(), self.inner.open()?);
        for Standing { number, mut needs, token, .. } in shell.standing()?.into_iter().filter(|it| it.what == HOLDS) {
            let is_known = shell.state.asks.contains_key(&number);
            // (its limit may be over just now)
            if !is_known && shell.calls(|bay, now| lab_bay_back(bay, number, 1, number, now, &mut needs))? == DONE {
                shell.is_told(number, Told::Holds(needs, token));
                found.push(Held { inner: Arc::clone(&self.inner), number, needs, token });
            }
        }
        Ok(found)
    }

    /// Ends the session with this number for its owner, whose next call gives [`Error::TakenAway`]; see to it that it stays away from the
    /// instruments until then. Once this returns that is on the disk, if there is a journal; it is so from the call on, also by
    /// [`Error::Journal`]. No if there is no such session, or it doesn't hold.
    ///
    /// ```
    /// let lab = labrun::Lab::new(["scope"])?;
    /// let mut hangs = lab.hold(&["scope"]).begin()?;
    /// assert!(lab.take_away(hangs.number())?);
    /// assert_eq!(hangs.finish(), Err(labrun::Error::TakenAway));
    /// # Ok::<(), labrun::Error>(())
    /// ```
    pub fn take_away(&self, number: u64) -> Result<bool, Error> {
        let mut shell = self.inner.open()?;
        let is_done = shell.changes(|bay, now| lab_bay_take_away(bay, number, now), true)? == DONE;
        shell.waits_for_the_disk().map(|()| is_done)
    }

    /// Nobody begins a session any more: whoever waits gets [`Error::Stopped`]. Those that hold go on to their end.
    pub fn stop(&self) -> Result<(), Error> {
        self.inner.open()?.calls(lab_bay_stop).map(drop)
    }

    /// Stops, waits until all is written, and closes: all calls give [`Error::Closed`] then, and others may open the journal. What is held
    /// then stays held by the journal, and comes back when it is opened again. After [`Error::Journal`] it isn't closed yet: call it again.
    pub fn close(&self) -> Result<(), Error> {
        let stopped = self.inner.open().and_then(|mut shell| shell.calls(lab_bay_stop).map(|_| shell));
        match stopped.and_then(Shell::waits_for_the_disk) {
            Err(open @ (Error::Journal { .. } | Error::OtherProcess(_))) => return Err(open),
            _ => self.ends(),
        }
        // (also of the writer's last calls; another thread may have closed it meanwhile)
        match self.inner.lock().state.bay.is_sound() {
            Err(Error::Closed) => Ok(()),
            ended => ended,
        }
    }

    /// The threads end, and the file is closed.
    fn ends(&self) {
        let mut shell = self.inner.lock();
        shell.state.bay.ends(Error::Closed);
        shell.wakes_everybody();
        let threads = std::mem::take(&mut shell.state.threads);
        drop(shell);
        threads.into_iter().for_each(|it| drop(it.join()));
        self.inner.lock().state.disk.file = None;
    }
}

impl Drop for Lab {
    fn drop(&mut self) {
        // (in the child of a fork its threads aren't there)
        if !matches!(self.close(), Err(Error::OtherProcess(_))) {
            self.ends();
        }
    }
}

/// A station of a lab, which is in one session at a time: see [`Lab::station`]. Of two threads at one station the second waits; so a thread
/// that holds a session of it waits for itself if it asks for another.
///
/// ```
/// let lab = labrun::LabOptions::new(["scope", "supply"]).station("board", ["scope"]).open()?;
/// let board = lab.station("board")?;
/// assert_eq!((board.name(), board.instruments()), ("board", vec!["scope"]));
/// assert!(matches!(board.hold(&["supply"]).begin(), Err(labrun::Error::MayNotUse { .. })));
/// # Ok::<(), labrun::Error>(())
/// ```
#[derive(Clone)]
pub struct Station {
    inner: Arc<Inner>,
    kind: u32,
}

impl Station {
    /// Its name.
    pub fn name(&self) -> &str {
        self.inner.options.station_of(self.kind).unwrap_or("")
    }

    /// The instruments that it may use.
    pub fn instruments(&self) -> Vec<&str> {
        self.inner.options.of(self.inner.options.classes[self.kind as usize].uses)
    }

    /// A session of all these, as [`Lab::hold`].
    pub fn hold(&self, instruments: &[&str]) -> Hold {
        self.any_of(&[instruments])
    }

    /// The first of these that is free, as [`Lab::any_of`].
    pub fn any_of(&self, choices: &[&[&str]]) -> Hold {
        Hold::new(&self.inner, self.kind, choices)
    }
}
