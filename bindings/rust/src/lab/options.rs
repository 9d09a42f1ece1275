//! How a lab is opened, and what its instruments and stations are called.
use super::*;
use std::path::{Path, PathBuf};

/// How a lab is opened.
///
/// ```
/// let lab = labrun::LabOptions::new(["scope", "supply", "load"])
///     .station("board", ["scope", "supply"]) // one session at a time
///     .guests(["scope"], 8) // at most 8 at once
///     .overtakes(4)
///     .open()?;
/// lab.station("board")?.hold(&["supply"]).begin()?.finish()?;
/// # Ok::<(), labrun::Error>(())
/// ```
#[derive(Clone, Debug)]
pub struct LabOptions {
    /// Instruments are bits in their order; the guests' class is the first, and those of the stations are behind it.
    pub(super) instruments: Vec<String>,
    pub(super) stations: Vec<String>,
    pub(super) classes: Vec<Class>,
    pub(super) overtakes: u32,
    pub(super) line: u64,
    pub(super) disk: Duration,
    pub(super) journal: Option<(PathBuf, SyncTo)>,
    /// What `open` says is wrong.
    wrong: Option<Error>,
}

impl LabOptions {
    /// By how many that came later one is passed, unless said otherwise.
    pub const OVERTAKES: u32 = 64;

    /// A lab of these instruments, 1 to 64: without a journal, and as many guests as come may use all of them.
    pub fn new(instruments: impl IntoIterator<Item = impl AsRef<str>>) -> LabOptions {
        let instruments: Vec<String> = instruments.into_iter().map(|it| it.as_ref().to_string()).collect();
        let is_wrong = !(1..=64).contains(&instruments.len());
        let uses = if is_wrong { 0 } else { u64::MAX >> (64 - instruments.len()) };
        LabOptions {
            instruments,
            stations: Vec::new(),
            classes: vec![Class { uses, places: u32::MAX, unused: 0 }],
            overtakes: LabOptions::OVERTAKES,
            line: 1 << 20,
            disk: Duration::from_secs(10),
            journal: None,
            wrong: is_wrong.then(|| Error::Invalid("a lab has 1 to 64 instruments".into())),
        }
    }

    /// A station, which may use these, in one session at a time. There are at most 31.
    pub fn station(mut self, name: impl Into<String>, uses: impl IntoIterator<Item = impl AsRef<str>>) -> LabOptions {
        let class = self.class(uses, 1);
        self.stations.push(name.into());
        self.classes.push(class);
        self
    }

    /// What guests may use, and how many of them hold at once at most.
    pub fn guests(mut self, uses: impl IntoIterator<Item = impl AsRef<str>>, places: u32) -> LabOptions {
        self.classes[0] = self.class(uses, places);
        self
    }

    fn class(&mut self, uses: impl IntoIterator<Item = impl AsRef<str>>, places: u32) -> Class {
        let uses = self.set(uses).map_err(|wrong| self.wrong.get_or_insert(wrong).clone());
        Class { uses: uses.unwrap_or(0), places, unused: 0 }
    }

    /// By how many that came later, and need one of its instruments, a session that waits is passed at most. 0: nobody who comes later and
    /// needs one of them goes first, so waits are short, and work is left undone that could be done; a large number: whoever finds all its
    /// instruments free goes first, so a session of many may wait for long.
    pub fn overtakes(self, overtakes: u32) -> LabOptions {
        LabOptions { overtakes, ..self }
    }

    /// For how many sets the line has room, 2^20 unless said otherwise; a session that chooses has as many as it names. Whoever finds no
    /// room gets [`Error::LineFull`].
    pub fn line(self, line: u64) -> LabOptions {
        LabOptions { line, ..self }
    }

    /// With a journal: who holds, and what is noted, is in this file before a call returns. If it is there, the lab goes on where it ends:
    /// [`Lab::resumed`](crate::Lab::resumed).
    pub fn journal(self, path: impl AsRef<Path>, to: SyncTo) -> LabOptions {
        LabOptions { journal: Some((path.as_ref().to_path_buf(), to)), ..self }
    }

    /// For how long a session with a time limit waits for the disk once it came to hold, 10 seconds unless said otherwise, and always until
    /// that limit; then it holds nothing, and gets [`Error::Journal`]. One without a time limit waits for ever.
    pub fn disk(self, disk: Duration) -> LabOptions {
        LabOptions { disk, ..self }
    }

    /// Whether it can be a lab: each name is there once.
    pub(super) fn is_right(&self) -> Result<(), Error> {
        self.wrong.clone().map_or(Ok(()), Err)?;
        for names in [&self.instruments, &self.stations] {
            let is_wrong = |(at, name): &(usize, &String)| name.is_empty() || names[..*at].contains(name);
            if let Some((_, name)) = names.iter().enumerate().find(is_wrong) {
                return Err(Error::Invalid(format!("there are two of the name {name:?}, or it is empty")));
            }
        }
        Ok(())
    }

    /// The set of these instruments.
    pub(super) fn set(&self, names: impl IntoIterator<Item = impl AsRef<str>>) -> Result<u64, Error> {
        names.into_iter().try_fold(0, |set, name| {
            let at = self.instruments.iter().take(64).position(|it| it == name.as_ref());
            at.map(|at| set | 1 << at).ok_or_else(|| Error::Invalid(format!("there is no instrument {}", name.as_ref())))
        })
    }

    pub(super) fn of(&self, set: u64) -> Vec<&str> {
        self.instruments.iter().enumerate().filter(|(at, _)| set >> at & 1 == 1).map(|(_, name)| name.as_str()).collect()
    }

    /// The name of the station whose class it is; none of the guests'.
    pub(super) fn station_of(&self, kind: u32) -> Option<&str> {
        self.stations.get((kind as usize).checked_sub(1)?).map(String::as_str)
    }

    /// An error unless it has a journal.
    pub(super) fn keeps(&self) -> Result<(), Error> {
        self.journal.as_ref().map(drop).ok_or_else(|| Error::NotNow("the lab has no journal".into()))
    }

    /// What is wrong with its journal.
    pub(super) fn fault(&self, why: impl ToString, line: u64) -> Error {
        let path = self.journal.as_ref().map_or(String::new(), |it| it.0.display().to_string());
        Error::Journal { path, why: why.to_string(), line: line as usize }
    }

    /// Which lab it is, for its journal: a sum of all names, and of what each class may use. (It is for mistakes, and not against anybody.)
    pub(super) fn hash(&self) -> [u8; 32] {
        let mut text = self.instruments.join("\0");
        for (kind, class) in (0..).zip(&self.classes) {
            text += &format!("\0\0{}\0{:x}", self.station_of(kind).unwrap_or(""), class.uses);
        }
        let mut sums = [0; 32];
        for (begun, part) in (0xcbf29ce484222325_u64..).zip(sums.chunks_mut(8)) {
            let sum = text.bytes().fold(begun, |sum, byte| (sum ^ u64::from(byte)).wrapping_mul(0x100000001b3));
            part.copy_from_slice(&sum.to_be_bytes());
        }
        sums
    }
}

/// As milliseconds, never less than the span: a moment is cut to whole ones, and so is this one's end.
pub(super) fn milliseconds(span: Duration) -> u64 {
    match span.as_nanos() {
        0 => 0,
        it => u64::try_from((it + 999_999) / 1_000_000 + 1).unwrap_or(NEVER),
    }
}
