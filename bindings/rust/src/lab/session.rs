//! A session that holds, until nobody has it any more.
use super::*;

/// A session that holds its instruments. It may be sent to any thread. Dropped, also by a panic, it lets go.
///
/// ```
/// let lab = labrun::Lab::new(["scope", "supply"])?;
/// let mut held = lab.hold(&["scope"]).begin()?;
/// assert_eq!((held.number(), held.instruments()), (1, vec!["scope"]));
/// held.finish()?;
/// # Ok::<(), labrun::Error>(())
/// ```
pub struct Held {
    pub(super) inner: Arc<Inner>,
    pub(super) number: u64,
    pub(super) needs: u64,
    pub(super) token: u64,
}

impl Held {
    /// Its number, which no other session of the lab ever has; with a journal not after a restart either.
    pub fn number(&self) -> u64 {
        self.number
    }

    /// Its token: larger than that of each session that was told before that it holds; with a journal also after a restart. So a server before
    /// an instrument can refuse whoever comes with a smaller one than it has seen: a session that was taken away, and doesn't know it yet.
    ///
    /// ```
    /// let lab = labrun::Lab::new(["scope"])?;
    /// let first = lab.hold(&["scope"]).begin()?.token();
    /// assert!(lab.hold(&["scope"]).begin()?.token() > first);
    /// # Ok::<(), labrun::Error>(())
    /// ```
    pub fn token(&self) -> u64 {
        self.token
    }

    /// The instruments that it holds, in the order of the lab's.
    pub fn instruments(&self) -> Vec<&str> {
        self.inner.options.of(self.needs)
    }

    /// Whether it still holds: no if it was taken away, or let go and the disk has that.
    pub fn is_held(&self) -> bool {
        self.inner.open().is_ok_and(|shell| matches!(shell.told(self.number), Told::Holds(..) | Told::LetsGo))
    }

    /// Notes something in the journal: at most 500 bytes, without line feed or carriage return. It is on the disk when this returns. After
    /// [`Error::Journal`] the note may still come into the file, because the write is tried again.
    pub fn note(&self, text: &str) -> Result<(), Error> {
        self.inner.options.keeps()?;
        let mut shell = self.inner.open()?;
        match shell.told(self.number) {
            Told::Holds(..) => {}
            Told::LetsGo | Told::Over(LET_GO) => return Err(Error::NotNow(format!("session {} lets go", self.number))),
            _ => return Err(Error::TakenAway),
        }
        match shell.changes(|bay, _| bay::note(bay, self.number, text), true)? {
            NO_MEMORY => return Err(Error::NoMemory),
            MAY_NOT => return Err(Error::Invalid("a note is one line of at most 500 bytes".into())),
            _ => {}
        }
        shell.waits_for_the_disk()
    }

    /// Lets go, and waits until that is on the disk, if there is a journal. After [`Error::Journal`] the session still holds for all
    /// others, and can be finished again: nobody gets its instruments before the disk has it that it let go. [`Error::TakenAway`] if it was
    /// taken away.
    ///
    /// One thread at a time: the compiler refuses a second one.
    ///
    /// ```compile_fail,E0499
    /// let lab = labrun::Lab::new(["scope"])?;
    /// let mut held = lab.hold(&["scope"]).begin()?;
    /// std::thread::scope(|threads| {
    ///     threads.spawn(|| held.finish());
    ///     threads.spawn(|| held.finish());
    /// });
    /// # Ok::<(), labrun::Error>(())
    /// ```
    pub fn finish(&mut self) -> Result<(), Error> {
        let mut shell = self.inner.open()?;
        // (else it lets go already, and a write failed meanwhile, or is done by now)
        if matches!(shell.told(self.number), Told::Holds(..)) {
            shell.is_told(self.number, Told::LetsGo);
            // (somebody may have taken it away just now: that is told)
            shell.changes(|bay, now| lab_bay_let_go(bay, self.number, now), true)?;
        }
        let (failures, within) = (shell.state.failures, shell.state.disk.within());
        shell.state.disk.waited_for.push(within);
        shell.works(0, true, |shell| match shell.told(self.number) {
            Told::LetsGo => shell.has_failed(failures).err().map(Err),
            Told::Over(LET_GO) => {
                shell.state.asks.remove(&self.number);
                Some(Ok(()))
            }
            _ => Some(Err(Error::TakenAway)),
        })
    }

    /// Nobody is there for it any more, whatever it is at.
    fn leaves(&self) -> Result<(), Error> {
        let mut shell = self.inner.open()?;
        let Some(Ask { told, .. }) = shell.state.asks.remove(&self.number) else { return Ok(()) };
        // (one that holds lets go, which is the journal's word for it; one that still waits, or comes to hold, leaves)
        let call = if matches!(told, Told::Holds(..)) && !std::thread::panicking() { lab_bay_let_go } else { lab_bay_leave };
        // (nobody waits for that: so it goes with the next text, unless somebody else may hold by it)
        let is_urgent = shell.state.asks.values().any(|it| matches!(it.told, Told::Nothing));
        shell.changes(|bay, now| call(bay, self.number, now), is_urgent)?;
        shell.calls_on();
        Ok(())
    }
}

/// It lets go without waiting for the disk: nobody gets its instruments before, but a process that dies before has the session again. (One
/// that was dropped in a panic is `left` in the journal, and not `let_go`.)
impl Drop for Held {
    fn drop(&mut self) {
        let _ = self.leaves(); // (with nobody to tell: what is wrong, the next call tells)
    }
}
