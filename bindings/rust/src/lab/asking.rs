//! Who asks for a session, and waits for it.
use super::*;

/// A session that nobody asked for yet: see [`Lab::hold`](crate::Lab::hold).
///
/// ```
/// # use labrun::{Error, Lab};
/// # use std::time::Duration;
/// let lab = Lab::new(["scope"])?;
/// let held = lab.hold(&["scope"]).limit(Duration::from_secs(30)).begin()?;
/// match lab.hold(&["scope"]).timeout(Duration::from_millis(20)).begin() {
///     Err(Error::TimedOut(keepers)) => assert_eq!((keepers[0].instrument.as_str(), keepers[0].job.as_str()), ("scope", "guest 1")),
///     _ => panic!(),
/// }
/// # drop(held);
/// # Ok::<(), Error>(())
/// ```
#[must_use = "it is asked for by `begin`"]
#[derive(Clone)]
pub struct Hold {
    inner: Arc<Inner>,
    kind: u32,
    /// Or what is wrong with one of them.
    sets: Result<Vec<u64>, Error>,
    timeout: u64,
    limit: u64,
    note: Option<String>,
}

impl Hold {
    pub(super) fn new(inner: &Arc<Inner>, kind: u32, choices: &[&[&str]]) -> Hold {
        let sets = choices.iter().map(|it| inner.options.set(*it)).collect();
        Hold { inner: Arc::clone(inner), kind, sets, timeout: NEVER, limit: NEVER, note: None }
    }

    /// After so long [`Error::TimedOut`] says who keeps it waiting. With 0 it takes what is free, and doesn't wait. It counts in
    /// milliseconds, is never less, and ends the waiting, not the writing: whoever came to hold in time may wait for the disk for
    /// [`LabOptions::disk`](crate::LabOptions::disk).
    pub fn timeout(self, span: Duration) -> Hold {
        Hold { timeout: milliseconds(span), ..self }
    }

    /// For how long it may hold. After that it is taken away as soon as somebody waits for what it has, as by
    /// [`Lab::take_away`](crate::Lab::take_away).
    pub fn limit(self, span: Duration) -> Hold {
        Hold { limit: milliseconds(span), ..self }
    }

    /// What it notes as soon as it holds, as [`Held::note`]; if that can't be, it lets go.
    pub fn note(self, text: impl Into<String>) -> Hold {
        Hold { note: Some(text.into()), ..self }
    }

    /// Asks, and blocks until the session holds all instruments of one of its sets. Whoever doesn't come to hold, by an error or by a
    /// panic, has left the line, and holds nothing.
    pub fn begin(&self) -> Result<Held, Error> {
        let sets = self.sets.as_ref().map_err(Error::clone)?;
        if self.note.is_some() {
            self.inner.options.keeps()?;
        }
        // (before the mutex, so that it goes behind it: dropped, it leaves the line)
        let mut held = Held { inner: Arc::clone(&self.inner), number: 0, needs: 0, token: 0 };
        let mut shell = self.inner.open()?;
        if self.timeout.min(self.limit) != NEVER {
            shell.starts_timer()?;
        }
        held.number = shell.state.next;
        shell.state.next += 1;
        shell.is_told(held.number, Told::Nothing);
        self.ask(&mut shell, held.number, sets)?;
        (held.needs, held.token) = self.wait(shell, held.number)?;
        if let Some(text) = &self.note {
            held.note(text)?;
        }
        Ok(held)
    }

    fn ask(&self, shell: &mut Shell, number: u64, sets: &[u64]) -> Result<(), Error> {
        let asked = Asked { number, owner: [1, number], limit: self.limit, kind: self.kind, ..Asked::default() };
        let asked = |now: u64| Asked { deadline: now.saturating_add(self.timeout), ..asked };
        match shell.changes(|bay, now| bay::ask(bay, &asked(now), sets, now), true)? {
            DONE => Ok(()),
            NO_MEMORY => Err(Error::NoMemory),
            STOPPED => Err(Error::Stopped),
            EMPTY => Err(Error::Invalid("a session needs an instrument".into())),
            MAY_NOT => Err(self.may_not()),
            _ => Err(Error::LineFull),
        }
    }

    /// Returns once it holds: what it holds, and its token, or why it doesn't.
    fn wait(&self, shell: Shell<'_>, number: u64) -> Result<(u64, u64), Error> {
        shell.works(number, self.timeout == NEVER, |shell| match shell.told(number) {
            Told::Holds(needs, token) => Some(Ok((needs, token))),
            Told::Over(how) => Some(Err(self.why(shell, number, how))),
            _ => None,
        })
    }

    fn why(&self, shell: &mut Shell, number: u64, how: u32) -> Error {
        match how {
            LAPSED => shell.keepers(number, self.wants(), self.kind).map_or_else(|fault| fault, Error::TimedOut),
            WAS_STOPPED => Error::Stopped,
            NOT_WRITTEN => {
                let why = format!("it wasn't written in time that session {number} holds {}", shell.state.why);
                self.inner.options.fault(why.trim_end(), 0)
            }
            _ => Error::TakenAway,
        }
    }

    /// All instruments of its sets.
    fn wants(&self) -> u64 {
        self.sets.iter().flatten().fold(0, |all, it| all | it)
    }

    fn may_not(&self) -> Error {
        let (options, kind) = (&self.inner.options, self.kind);
        let uses = options.classes[kind as usize].uses;
        let may = options.of(uses).into_iter().map(String::from).collect();
        let job = options.station_of(kind).unwrap_or("a guest").to_string();
        Error::MayNotUse { job, instrument: options.of(self.wants() & !uses).join(", "), may }
    }
}
