//! The broker of examples/broker in Rust: stations share instruments that refuse a second client while one talks to them.
//!
//! usage: cargo run --release --example broker -- FOLDER        FOLDER is examples/broker; python3 runs its instruments
//!        ... broker -- FOLDER --threads N --sessions M         M short sessions by N guests
//!        ... --overtakes N                                     by how many that came later a session may be passed; 64
use labrun::{Lab, LabOptions};
use std::collections::HashMap;
use std::error::Error;
use std::io::{BufRead, BufReader, Write};
use std::net::TcpStream;
use std::process::{Child, Command, ExitCode, Stdio};
use std::sync::atomic::{AtomicU32, Ordering::SeqCst};
use std::thread;
use std::time::{Duration, Instant};

/// The instruments, as a process of their own.
struct Bay {
    process: Child,
    ports: HashMap<String, u16>,
}

impl Bay {
    fn start(folder: &str, names: &[&str]) -> Result<Bay, Box<dyn Error>> {
        let words = [format!("{folder}/instruments.py")].into_iter().chain(names.iter().map(|it| it.to_string()));
        let mut process = Command::new("python3").args(words).stdin(Stdio::piped()).stdout(Stdio::piped()).spawn()?;
        let mut ports = HashMap::new();
        let mut out = BufReader::with_capacity(1, process.stdout.take().unwrap());
        loop {
            let mut line = String::new();
            out.read_line(&mut line)?;
            match line.trim_end().split_once(' ') {
                Some((name, port)) => ports.insert(name.to_string(), port.parse()?),
                None => break,
            };
        }
        process.stdout = Some(out.into_inner());
        Ok(Bay { process, ports })
    }

    /// Ends the process, and gives its lines `NAME talks T refused R`.
    fn stop(mut self) -> Result<String, Box<dyn Error>> {
        drop(self.process.stdin.take());
        Ok(String::from_utf8(self.process.wait_with_output()?.stdout)?)
    }
}

/// A talk with an instrument. It is over when the instrument has said so.
struct Talk(BufReader<TcpStream>);

impl Talk {
    fn begin(port: u16) -> std::io::Result<Option<Talk>> {
        let mut talk = Talk(BufReader::new(TcpStream::connect(("127.0.0.1", port))?));
        Ok((talk.line()? == "READY").then_some(talk))
    }

    fn line(&mut self) -> std::io::Result<String> {
        let mut line = String::new();
        self.0.read_line(&mut line)?;
        Ok(line.trim_end().to_string())
    }

    fn ask(&mut self, line: &str) -> std::io::Result<String> {
        self.0.get_mut().write_all(format!("{line}\n").as_bytes())?;
        self.line()
    }
}

/// The real work of a session: talks to all its instruments, for some time. No if one refused.
fn work(bay: &Bay, names: &[&str], time: Duration) -> std::io::Result<bool> {
    let mut talks = Vec::new();
    for name in names {
        let Some(mut talk) = Talk::begin(bay.ports[*name])? else { return Ok(false) };
        assert_eq!(talk.ask("*IDN?")?, *name);
        talks.push(talk);
    }
    thread::sleep(time);
    talks.iter_mut().try_for_each(|talk| talk.ask("BYE").map(|_| ()))?;
    Ok(true)
}

/// Four stations, and which instruments each of their sessions needs, in an order of its own.
const STATIONS: [(&str, [&[&str]; 3]); 4] = [
    ("board", [&["scope", "supply-1", "meter"], &["supply-1", "meter"], &["scope", "supply-1", "meter"]]),
    ("radio", [&["generator", "analyser", "scope"], &["meter", "generator"], &["analyser", "scope", "generator"]]),
    ("drive", [&["meter", "supply-2", "scope"], &["supply-2", "supply-1"], &["scope", "meter", "supply-2"]]),
    ("burn-in", [&["supply-2", "meter", "supply-1"], &["analyser", "supply-2"], &["meter", "supply-1", "supply-2"]]),
];
const INSTRUMENTS: [&str; 6] = ["scope", "supply-1", "supply-2", "meter", "generator", "analyser"];

/// Each session of each station once, with time for its work; how many were refused.
fn each_once(lab: &Lab, bay: &Bay) -> u32 {
    let refused = AtomicU32::new(0);
    thread::scope(|threads| {
        for (name, sessions) in STATIONS {
            let (station, refused) = (lab.station(name).unwrap(), &refused);
            threads.spawn(move || {
                for (number, needs) in (1..).zip(sessions) {
                    let mut held = station.hold(needs).begin().unwrap();
                    println!("{name} session {number} holds {}", held.instruments().join(", "));
                    let time = Duration::from_millis(10 + number * 60);
                    refused.fetch_add(u32::from(!work(bay, &held.instruments(), time).unwrap()), SeqCst);
                    held.finish().unwrap();
                }
            });
        }
    });
    refused.into_inner()
}

/// Guests do this many short sessions, each of one to three instruments; how many were refused.
fn load(lab: &Lab, bay: &Bay, guests: u64, wanted: u32) -> u32 {
    let (begun, done, refused) = (Instant::now(), AtomicU32::new(0), AtomicU32::new(0));
    thread::scope(|threads| {
        for mut state in 0..guests {
            let (done, refused) = (&done, &refused);
            let mut below = move |limit: usize| {
                state = state.wrapping_mul(6364136223846793005).wrapping_add(1442695040888963407);
                (state >> 33) as usize % limit
            };
            threads.spawn(move || {
                while done.fetch_add(1, SeqCst) < wanted {
                    let needs: Vec<&str> = (0..=below(3)).map(|_| INSTRUMENTS[below(6)]).collect();
                    let held = lab.hold(&needs).begin().unwrap();
                    refused.fetch_add(u32::from(!work(bay, &held.instruments(), Duration::ZERO).unwrap()), SeqCst);
                }
            });
        }
    });
    println!("{wanted} sessions by {guests} threads in {:.1} s", begun.elapsed().as_secs_f64());
    refused.into_inner()
}

fn main() -> Result<ExitCode, Box<dyn Error>> {
    let words: Vec<String> = std::env::args().skip(1).collect();
    let number_after = |word: &str| words.iter().position(|it| it == word).and_then(|at| words.get(at + 1)?.parse().ok());
    let folder = words.first().ok_or("usage: broker FOLDER [--threads N --sessions M]")?;
    let mut options = LabOptions::new(INSTRUMENTS).overtakes(number_after("--overtakes").unwrap_or(LabOptions::OVERTAKES));
    for (name, sessions) in STATIONS {
        options = options.station(name, sessions.concat());
    }
    let (lab, bay) = (options.open()?, Bay::start(folder, &INSTRUMENTS)?);
    let refused = match (number_after("--threads"), number_after("--sessions")) {
        (Some(guests), Some(sessions)) => load(&lab, &bay, guests.into(), sessions),
        _ => each_once(&lab, &bay),
    };
    lab.close()?;
    print!("{}", bay.stop()?);
    println!("{refused} sessions refused");
    Ok(ExitCode::from(u8::from(refused != 0)))
}
