//! How a lab begins: with what its journal tells.
use super::*;
use std::collections::BTreeMap;
use std::sync::{Condvar, Mutex};
use std::time::{Instant, SystemTime, UNIX_EPOCH};

impl LabOptions {
    /// Opens the lab. [`Error::Invalid`] if an instrument or station has the name of another, or none; or if there are too many.
    /// [`Error::Journal`] if the journal is another lab's, or a byte of it was changed, or another process has it, or it can't be written.
    pub fn open(&self) -> Result<Lab, Error> {
        self.is_right()?;
        let (base, begun) = (SystemTime::now().duration_since(UNIX_EPOCH).map_or(0, |it| it.as_millis() as u64), Instant::now());
        let (bay, file) = match &self.journal {
            None => (self.begun()?, None),
            Some((path, to)) => {
                let (mut file, text) = Kept::open(path, *to).map_err(|why| self.fault(why, 0))?;
                let (bay, used) = self.resumed(&text, base)?;
                file.base = base_of(&text);
                file.begin(path, used).map_err(|why| self.fault(why, 0))?;
                (bay, Some(file))
            }
        };
        let (asks, why, threads) = (BTreeMap::new(), String::new(), Vec::new());
        let disk = Disk::new(file);
        let state = State { bay, next: 1, serial: 0, asks, wakes: None, disk, failures: 0, why, threads };
        let (state, writer, timer, is_written) = (Mutex::new(state), Condvar::new(), Condvar::new(), Condvar::new());
        let (options, home) = (self.clone(), Home::here());
        let lab = Lab { inner: Arc::new(Inner { state, writer, timer, is_written, base, begun, options, home }) };
        lab.begins()?;
        Ok(lab)
    }

    fn terms(&self) -> Terms {
        let (disk, keeps) = (milliseconds(self.disk), u32::from(self.journal.is_some()));
        Terms { bay: self.hash(), line: self.line, grace: NEVER, disk, overtakes: self.overtakes, keeps }
    }

    fn begun(&self) -> Result<Owned, Error> {
        let mut bay = Owned::new(lab_bay_free);
        match bay.calls(|bay| bay::open(bay, &self.classes, &self.terms()))? {
            DONE => Ok(bay),
            status => Err(refused(status)),
        }
    }

    /// The bay that the text of a journal tells of, and how many of its bytes.
    fn resumed(&self, text: &[u8], now: u64) -> Result<(Owned, u64), Error> {
        if !text.contains(&b'\n') {
            return self.begun_again(text).map(|bay| (bay, 0));
        }
        let mut bay = Owned::new(lab_bay_free);
        match bay.calls(|bay| bay::resume(bay, &self.classes, &self.terms(), text, now))? {
            (DONE, used) => Ok((bay, used)),
            (MAY_NOT, who) => Err(self.fault(format!("session {who} held, and may not by these stations"), 0)),
            (ANOTHER, _) => Err(self.fault("it is the journal of another lab", 1)),
            (UNSOUND, line) => Err(self.fault(format!("line {line} was changed, or isn't in its place"), line)),
            (status, _) => Err(refused(status)),
        }
    }

    /// Whoever was killed in the first write left a file without a whole line, in which nobody was told anything: it is begun again. Any
    /// other text isn't a journal, and stays as it is.
    fn begun_again(&self, text: &[u8]) -> Result<Owned, Error> {
        let (mut bay, mut head) = (self.begun()?, [0; 200]);
        let (status, length, _) = bay.calls(|bay| bay::journal(bay, &mut head))?;
        match status {
            DONE if head[..length].starts_with(text) => bay.calls(lab_bay_failed).map(|_| bay),
            DONE => Err(self.fault("it is no journal", 1)),
            _ => Err(Error::NoMemory),
        }
    }
}

impl Lab {
    /// Who held is there still; and with a journal the writer begins, and its first line is there.
    fn begins(&self) -> Result<(), Error> {
        let mut shell = self.inner.lock();
        if shell.state.disk.file.is_some() {
            if let Err(fault) = shell.starts("labrun writer", threads::writes) {
                shell.state.bay.ends(fault); // (so that nobody waits for a writer that isn't there)
            }
        }
        if !shell.standing()?.is_empty() {
            shell.starts_timer()?; // (one of them may have a limit)
        }
        shell.waits_for_the_disk()
    }
}

/// How many bytes the files before a journal had, by its first line (`docs/BAY.md`).
fn base_of(text: &[u8]) -> u64 {
    text.get(86..102).and_then(|it| std::str::from_utf8(it).ok()).and_then(|it| u64::from_str_radix(it, 16).ok()).unwrap_or(0)
}

/// Why there is no bay.
fn refused(status: u32) -> Error {
    match status {
        NO_MEMORY => Error::NoMemory,
        _ => Error::Invalid("a lab has at most 31 stations".into()),
    }
}
