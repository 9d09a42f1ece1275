//! The file of a journal: locked, so that one process has it; whatever a write that failed left is cut off.
use crate::ffi::system::{self, Home};
use std::fs::{File, OpenOptions};
use std::io;
use std::os::unix::fs::FileExt;
use std::path::Path;
use std::sync::atomic::{AtomicU64, Ordering::Relaxed};
use std::thread::sleep;
use std::time::Duration;

/// How often a lock is tried again that somebody has, and after how long.
const TRIES: u32 = 30;
const PAUSE: Duration = Duration::from_millis(10);

/// `ENOSPC` on Linux.
const NO_SPACE: i32 = 28;

/// Where a journal is before a call returns.
///
/// ```no_run
/// let lab = labrun::LabOptions::new(["scope"]).journal("bay.journal", labrun::SyncTo::Disk).open()?;
/// # Ok::<(), labrun::Error>(())
/// ```
#[derive(Clone, Copy, Debug, PartialEq, Eq)]
pub enum SyncTo {
    /// On the disk.
    Disk,
    /// In the system's memory, which outlives the process and not the machine.
    Memory,
}

/// The file. (A child of a fork has closed it.)
pub(crate) struct Kept {
    file: Option<File>,
    home: Home,
    /// Whether what is written has to be on the disk.
    pub syncs: bool,
    /// How long the journals before it were.
    pub base: u64,
    /// How much of it is whole lines.
    whole: AtomicU64,
}

impl Kept {
    /// The file, which is made if it isn't there, and what it has.
    pub fn open(path: &Path, to: SyncTo) -> io::Result<(Kept, Vec<u8>)> {
        let file = OpenOptions::new().read(true).write(true).create(true).truncate(false).open(path)?;
        system::closes_in_a_child(&file);
        let kept = Kept { file: Some(file), home: Home::here(), syncs: to == SyncTo::Disk, base: 0, whole: AtomicU64::new(0) };
        lock(kept.file()?)?;
        let mut text = vec![0; kept.file()?.metadata()?.len() as usize];
        kept.file()?.read_exact_at(&mut text, 0)?;
        Ok((kept, text))
    }

    fn file(&self) -> io::Result<&File> {
        self.file.as_ref().ok_or_else(|| io::ErrorKind::NotFound.into())
    }

    /// So much of what was read stays. It is on the disk before anybody is told of it, because a process that was killed may have left it
    /// in memory alone; and so is the file's name, which its folder has.
    pub fn begin(&self, path: &Path, length: u64) -> io::Result<()> {
        let file = self.file()?;
        file.set_len(length)?;
        self.whole.store(length, Relaxed);
        if self.syncs {
            // (if a sync failed before its process was killed, the system may take for written what isn't on the disk: then a sync alone
            // would say that all is well; where a full disk doesn't take even the same bytes, there is the sync alone)
            let mut text = vec![0; length as usize];
            file.read_exact_at(&mut text, 0)?;
            match file.write_all_at(&text, 0) {
                Err(why) if why.raw_os_error() != Some(NO_SPACE) => return Err(why),
                _ => (),
            }
            file.sync_data()?;
            let folder = path.parent().filter(|it| !it.as_os_str().is_empty()).unwrap_or(Path::new("."));
            File::open(folder)?.sync_all()?;
        }
        Ok(())
    }

    /// The text is in its place: the journal is so long behind it. If that fails, it is written again, to the same place; meanwhile the file
    /// has what it had, so that nothing that was refused is read. One thread at a time may call it.
    pub fn put(&self, text: &[u8], position: u64) -> io::Result<()> {
        let (file, end) = (self.file()?, position - self.base);
        let done = file.write_all_at(text, end - text.len() as u64);
        match &done {
            Ok(()) => drop(self.whole.fetch_max(end, Relaxed)),
            Err(_) => drop(file.set_len(self.whole.load(Relaxed))),
        }
        done
    }

    /// What was written is on the disk. (If that fails nobody knows what is, and the next one would say that all is well: so the same text
    /// is written again.)
    pub fn sync(&self) -> io::Result<()> {
        if self.syncs {
            self.file()?.sync_data()?;
        }
        Ok(())
    }
}

impl Drop for Kept {
    fn drop(&mut self) {
        match self.file.take() {
            Some(file) if self.home.is_here().is_ok() => system::is_closed_here(&file),
            // (its number may be another file's by now)
            file => std::mem::forget(file),
        }
    }
}

fn lock(file: &File) -> io::Result<()> {
    for _ in 0..TRIES {
        match system::lock(file) {
            // (a child that another thread began just now has the lock too, until it runs its program)
            Err(why) if why.kind() == io::ErrorKind::WouldBlock => sleep(PAUSE),
            it => return it,
        }
    }
    Err(io::Error::new(io::ErrorKind::WouldBlock, "another process has it open"))
}
