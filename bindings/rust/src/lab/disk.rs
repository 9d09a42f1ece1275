//! The text of a bay on its way to the disk. Whoever waits for it writes and syncs it, unless somebody does: then it waits, and shares what
//! comes next. One may write while another syncs what was written before.
//!
//! After a call that failed the rest is written again, from what is durable on. The bay hands out the same bytes again, and each text has
//! its place: so the file is a beginning of the one text at all times.
use super::*;
use std::collections::BTreeMap;
use std::io;
use std::time::Instant;

/// Within twice so long that what nobody waits for is on the disk.
const SOON: Duration = Duration::from_millis(50);

/// What somebody does without the mutex: a text to be written at this place; or none, and a sync. It is this hand-out, up to this position
/// of the journal.
pub(super) struct Job {
    text: Vec<u8>,
    position: u64,
    handed: u64,
}

/// The part of a lab's state that is about its journal.
#[derive(Default)]
pub(super) struct Disk {
    pub file: Option<Arc<Kept>>,
    /// There may be text that wasn't handed out; and somebody waits for it.
    pub has_more: bool,
    pub is_urgent: bool,
    /// How often text was handed out, and up to which of these it is written, and durable; and how long the journal is that is written.
    handed: u64,
    written: u64,
    pub durable: u64,
    position: u64,
    is_writing: bool,
    is_syncing: bool,
    /// Whose hold isn't durable yet, and which hand-out has it; and up to which hand-outs others wait.
    comes: BTreeMap<u64, u64>,
    pub waited_for: Vec<u64>,
    /// How many of those sleep.
    pub lines: usize,
    /// What isn't durable has to be written again; and the last call failed, so that the writer alone tries, after a pause.
    is_torn: bool,
    pub is_bad: bool,
    /// What the writer saw when it looked last, and when that has to be synced.
    due: Option<(u64, Instant)>,
    room: Vec<u8>,
}

impl Disk {
    /// There is the head of the journal to write, at least.
    pub fn new(file: Option<Kept>) -> Disk {
        Disk { file: file.map(Arc::new), has_more: true, is_urgent: true, ..Disk::default() }
    }

    /// The hand-out that has all that was given by now.
    pub fn within(&self) -> u64 {
        self.handed + u64::from(self.has_more)
    }

    fn wants_sync(&self) -> bool {
        let is_written = |handed: &u64| *handed <= self.written;
        self.is_bad || self.comes.values().any(is_written) || self.waited_for.iter().any(|it| *it > self.durable && is_written(it))
    }

    fn is_due(&self) -> bool {
        self.due.is_some_and(|(seen, moment)| self.durable < seen && moment <= Instant::now())
    }

    /// For how long the writer sleeps; None: until it is woken.
    pub fn rests(&mut self) -> Option<Duration> {
        if !self.has_more && self.written == self.durable {
            self.due = None;
            return None;
        }
        if self.due.map_or(true, |(seen, _)| self.durable >= seen) {
            self.due = Some((self.within(), Instant::now() + SOON));
        }
        // (if it is due, somebody else is just at it)
        self.due.map(|(_, moment)| moment.saturating_duration_since(Instant::now())).filter(|it| !it.is_zero()).or(Some(SOON))
    }

    /// The asks that come to hold by these lines, whose words are behind a sum.
    fn notes_who_comes(&mut self, text: &[u8]) {
        for words in text.split(|it| *it == b'\n').filter_map(|line| line.get(17..)?.strip_prefix(b"hold ")) {
            let number = words.get(..16).and_then(|it| std::str::from_utf8(it).ok()).and_then(|it| u64::from_str_radix(it, 16).ok());
            self.comes.extend(number.map(|it| (it, self.handed)));
        }
    }

    fn syncs(&mut self, is_due: bool) -> Option<Job> {
        if self.is_syncing || self.written == self.durable || !(is_due || self.wants_sync()) {
            return None;
        }
        self.is_syncing = true;
        Some(Job { text: Vec::new(), position: self.position, handed: self.written })
    }
}

impl<'l> Shell<'l> {
    /// What nobody does yet. The writer, which is no ask and `is_last`, also does what is due, and what failed before.
    pub fn takes(&mut self, number: u64, is_last: bool) -> Result<Option<Job>, Error> {
        let is_due = is_last && self.state.disk.is_due();
        let (is_torn, is_bad) = (self.state.disk.is_torn, self.state.disk.is_bad);
        if (is_torn || is_bad) && (!is_last || is_torn && !self.mends()?) {
            return Ok(None);
        }
        let disk = &mut self.state.disk;
        // (what it wants itself comes first)
        if disk.comes.get(&number).is_some_and(|handed| *handed <= disk.written) {
            if let Some(job) = disk.syncs(is_due) {
                return Ok(Some(job));
            }
        }
        if disk.has_more && !disk.is_writing && (!is_last || is_due || disk.is_urgent) {
            if let Some(job) = self.text()? {
                return Ok(Some(job));
            }
        }
        Ok(self.state.disk.syncs(is_due))
    }

    fn mends(&mut self) -> Result<bool, Error> {
        if self.state.disk.is_writing || self.state.disk.is_syncing {
            return Ok(false);
        }
        self.reads(lab_bay_failed)?;
        let disk = &mut self.state.disk;
        (disk.is_torn, disk.has_more, disk.is_urgent, disk.written) = (false, true, true, disk.durable);
        Ok(true)
    }

    fn text(&mut self) -> Result<Option<Job>, Error> {
        let mut room = std::mem::take(&mut self.state.disk.room);
        room.resize(room.len().max(4096), 0);
        let mut answer = self.reads(|bay| bay::journal(bay, &mut room))?;
        while answer.0 == NO_ROOM {
            room.resize(2 * answer.1, 0);
            answer = self.reads(|bay| bay::journal(bay, &mut room))?;
        }
        let (status, length, position) = answer;
        let text = room[..if status == DONE { length } else { 0 }].to_vec();
        let disk = &mut self.state.disk;
        disk.room = room;
        if status == NO_MEMORY {
            // (nothing was handed out, and it is asked for again)
            disk.is_bad = true;
            return Ok(None);
        }
        (disk.has_more, disk.is_urgent, disk.handed) = (false, false, disk.handed + 1);
        if text.is_empty() {
            // (then it was all written before)
            if disk.durable == disk.written {
                (disk.durable, disk.is_bad) = (disk.handed, false);
            }
            disk.written = disk.handed;
            self.wakes_lines();
            return Ok(None);
        }
        disk.notes_who_comes(&text);
        disk.is_writing = true;
        Ok(Some(Job { text, position, handed: disk.handed }))
    }

    /// Does it, without the mutex: those who ask while the disk is busy share the next sync.
    pub fn does(self, job: Job) -> Result<Shell<'l>, Error> {
        let inner = self.inner;
        let Some(file) = self.state.disk.file.clone() else { return Ok(self) };
        drop(self);
        let done = if job.text.is_empty() { file.sync() } else { file.put(&job.text, job.position) };
        let mut shell = inner.lock();
        shell.did(&job, done, file.syncs)?;
        Ok(shell)
    }

    fn did(&mut self, job: &Job, done: io::Result<()>, syncs: bool) -> Result<(), Error> {
        let disk = &mut self.state.disk;
        *(if job.text.is_empty() { &mut disk.is_syncing } else { &mut disk.is_writing }) = false;
        // (after a panic within all is done again)
        let was_torn = std::mem::replace(&mut disk.is_torn, true);
        if let Err(why) = done {
            disk.is_bad = true;
            self.state.failures += 1;
            self.state.why = why.to_string();
            self.wakes_everybody();
            return Ok(());
        }
        if !job.text.is_empty() {
            (disk.written, disk.position) = (job.handed, job.position);
        }
        if job.text.is_empty() || !syncs {
            self.reads(|bay| lab_bay_durable(bay, job.position))?;
            let disk = &mut self.state.disk;
            disk.durable = job.handed;
            disk.comes.retain(|_, handed| *handed > job.handed);
            disk.waited_for.retain(|handed| *handed > job.handed);
            disk.is_bad &= was_torn;
            self.tells()?;
            self.wakes_lines();
        }
        self.state.disk.is_torn = was_torn;
        Ok(())
    }

    fn wakes_lines(&self) {
        if self.state.disk.lines != 0 {
            self.inner.is_written.notify_all();
        }
    }

    /// Whoever may do what there is to do is woken.
    pub fn calls_on(&self) {
        let (disk, asks) = (&self.state.disk, &self.state.asks);
        if disk.file.is_none() {
            return;
        }
        let wakes = |one: Option<&Ask>| match one {
            Some(it) => it.woken.notify_one(),
            None if disk.lines != 0 => self.inner.is_written.notify_one(),
            None => self.inner.writer.notify_one(),
        };
        if disk.is_torn || disk.is_bad {
            return self.inner.writer.notify_one();
        }
        if disk.has_more && !disk.is_writing {
            if disk.is_urgent {
                wakes(if disk.lines == 0 { asks.values().find(|it| it.sleeps) } else { None });
            } else if disk.due.is_none() {
                self.inner.writer.notify_one();
            }
        }
        if disk.written > disk.durable && !disk.is_syncing {
            if disk.wants_sync() {
                let those = disk.comes.iter().filter(|it| *it.1 <= disk.written).filter_map(|it| asks.get(it.0));
                wakes(those.into_iter().find(|it| it.sleeps));
            } else if disk.due.is_none() {
                self.inner.writer.notify_one();
            }
        }
    }

    /// Returns once it is over. Meanwhile it does what nobody does, or sleeps; an ask with a time limit, which `may` not, only sleeps, so
    /// that it is told in time by a disk that hangs, too.
    pub fn works<T>(mut self, number: u64, may: bool, mut is_over: impl FnMut(&mut Shell) -> Option<Result<T, Error>>) -> Result<T, Error> {
        loop {
            let mut over = is_over(&mut self);
            let job = if may && over.is_none() { self.takes(number, false)? } else { None };
            if over.is_none() && job.is_none() {
                // (there may have been nothing to write)
                over = is_over(&mut self);
            }
            // (what it leaves somebody else does)
            self.calls_on();
            self = match (over, job) {
                (Some(over), _) => return over,
                (None, Some(job)) => self.does(job)?,
                (None, None) => self.sleeps_until_told(number, may)?,
            };
        }
    }
}
