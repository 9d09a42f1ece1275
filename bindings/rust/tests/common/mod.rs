//! What the tests of a lab have in common.
#![allow(dead_code)] // (each file of tests uses some of it)
use labrun::{Error, Held, Lab, LabOptions, SyncTo};
use std::path::{Path, PathBuf};
use std::sync::atomic::{AtomicBool, Ordering::SeqCst};
use std::thread;
use std::time::{Duration, Instant};

pub const LONG: Duration = Duration::from_secs(300);
pub const SHORT: Duration = Duration::from_millis(20);

/// Sleeps until this is so.
pub fn until(is_so: impl Fn() -> bool) {
    let begun = Instant::now();
    while !is_so() {
        assert!(begun.elapsed() < LONG);
        thread::sleep(Duration::from_millis(1));
    }
}

/// How many wait.
pub fn waiting(lab: &Lab) -> usize {
    lab.sessions().unwrap().iter().filter(|it| !it.holds).count()
}

/// Who keeps it waiting, as `INSTRUMENT WHO`, first whoever has held longest.
pub fn keepers<T>(came: Result<T, Error>) -> Vec<String> {
    match came {
        Err(Error::TimedOut(keepers)) => keepers.iter().map(|it| format!("{} {}", it.instrument, it.job)).collect(),
        Err(fault) => panic!("{fault}"),
        Ok(_) => panic!("it holds"),
    }
}

/// A text with each number of seconds left out.
pub fn untimed(text: &str) -> String {
    let mut words: Vec<&str> = text.split(' ').collect();
    for at in 1..words.len() {
        if words[at - 1] == "for" && words[at].parse::<f64>().is_ok() {
            words[at] = "_";
        }
    }
    words.join(" ")
}

/// Numbers by a generator of their own.
pub struct Chance(pub u64);

impl Chance {
    pub fn below(&mut self, limit: usize) -> usize {
        self.0 = self.0.wrapping_mul(6364136223846793005).wrapping_add(1442695040888963407);
        (self.0 >> 33) as usize % limit
    }
}

/// Simulated instruments, each of which refuses a second client.
pub struct Instruments(Vec<AtomicBool>);

impl Instruments {
    pub fn new(count: usize) -> Instruments {
        Instruments((0..count).map(|_| AtomicBool::new(false)).collect())
    }

    /// A client comes to these, called `i-0` and so on, and goes; no if one refused.
    pub fn work(&self, names: &[&str]) -> bool {
        let its = || names.iter().map(|it| &self.0[it[2..].parse::<usize>().unwrap()]);
        let came = its().all(|it| !it.swap(true, SeqCst));
        thread::yield_now();
        its().for_each(|it| it.store(false, SeqCst));
        came
    }
}

pub fn names(count: usize) -> Vec<String> {
    (0..count).map(|at| format!("i-{at}")).collect()
}

/// A folder of a test's own, in memory if there is such a place.
pub struct Folder(pub PathBuf);

impl Folder {
    pub fn new(name: &str) -> Folder {
        let shared = Path::new("/dev/shm");
        let top = if shared.is_dir() { shared.to_path_buf() } else { std::env::temp_dir() };
        let it = top.join(format!("labrun-{}-lab-{name}", std::process::id()));
        std::fs::create_dir(&it).unwrap();
        Folder(it)
    }

    pub fn file(&self) -> PathBuf {
        self.0.join("bay.journal")
    }

    pub fn text(&self) -> String {
        std::fs::read_to_string(self.file()).unwrap()
    }

    /// The words of the journal's lines, without the sums before them.
    pub fn lines(&self) -> Vec<String> {
        self.text().lines().map(|it| it[17..].to_string()).collect()
    }
}

impl Drop for Folder {
    fn drop(&mut self) {
        let _ = std::fs::remove_dir_all(&self.0);
    }
}

/// A lab of three instruments and a station, with this journal.
pub fn options(path: &Path) -> LabOptions {
    LabOptions::new(["scope", "supply", "load"]).station("board", ["scope", "supply"]).journal(path, SyncTo::Memory)
}

pub fn opened(folder: &Folder) -> Lab {
    options(&folder.file()).open().unwrap()
}

pub fn held(lab: &Lab, instruments: &[&str]) -> Held {
    lab.hold(instruments).begin().unwrap()
}

/// Whether it couldn't be written.
pub fn fails<T>(came: Result<T, Error>) -> bool {
    match came {
        Err(Error::Journal { why, .. }) => !why.is_empty(),
        Err(other) => panic!("{other}"),
        Ok(_) => false,
    }
}

/// The numbers of those that hold by these lines, without the sums before them.
pub fn holding(lines: &[String]) -> Vec<u64> {
    let mut numbers = Vec::new();
    for line in lines {
        let words: Vec<&str> = line.split(' ').collect();
        let number = || u64::from_str_radix(words[1], 16).unwrap();
        match words[0] {
            "hold" => numbers.push(number()),
            "end" => numbers.retain(|it| *it != number()),
            _ => {}
        }
    }
    numbers
}
