//! What the peers share: a script that is read, a log, the report. Scripts are taken to be good ones.
#![allow(dead_code)]
use std::collections::HashMap;
use std::io::{Read, Write};
use std::time::Instant;

pub const SET: u8 = 0;
pub const ADD: u8 = 1;
pub const READ: u8 = 2;

#[derive(Clone, Copy)]
pub struct Command {
    pub instrument: u8,
    pub verb: u8,
    pub number: u32,
    /// which of the session's commands on this instrument it is, from 1, and how many they are
    pub place: u32,
    pub length: u32,
}

pub struct Session {
    pub patience: Option<u32>,
    /// the instruments that it names, a bit for each
    pub needs: u64,
    /// where its commands are among those of the plan
    pub commands: std::ops::Range<usize>,
}

pub struct Edge {
    pub lower: usize,
    pub higher: usize,
    /// the instruments in common
    pub common: u64,
}

#[derive(Default)]
pub struct Plan {
    pub version: u8,
    pub job_names: Vec<String>,
    pub instrument_names: Vec<String>,
    pub jobs: Vec<Vec<Session>>,
    /// the commands of all sessions, in the order of the script
    pub commands: Vec<Command>,
    pub edges: Vec<Edge>,
    /// for each job the numbers of its edges, ascending
    pub edges_of: Vec<Vec<usize>>,
}

/// Places and length of a session's commands on each of its instruments.
fn close(session: &mut Session, commands: &mut Vec<Command>) {
    let mut counts = [0u32; 56];
    session.commands.end = commands.len();
    let own = &mut commands[session.commands.clone()];
    for command in own.iter_mut() {
        let count = &mut counts[command.instrument as usize];
        *count += 1;
        command.place = *count;
        session.needs |= 1 << command.instrument;
    }
    for command in own {
        command.length = counts[command.instrument as usize];
    }
}

fn command<'a>(plan: &mut Plan, numbers: &mut HashMap<&'a str, u8>, name: &'a str, verb: &str, number: Option<&str>) -> Command {
    let next = numbers.len() as u8;
    let instrument = *numbers.entry(name).or_insert_with(|| {
        plan.instrument_names.push(name.to_string());
        next
    });
    let verb = match verb {
        "set" => SET,
        "add" => ADD,
        _ => READ,
    };
    let number = number.map_or(0, |digits| digits.parse().expect("a number"));
    Command { instrument, verb, number, place: 0, length: 0 }
}

fn find_edges(plan: &mut Plan) {
    let named: Vec<u64> = plan.jobs.iter().map(|own| own.iter().fold(0, |all, session| all | session.needs)).collect();
    plan.edges_of = vec![Vec::new(); named.len()];
    for lower in 0..named.len() {
        for higher in lower + 1..named.len() {
            let common = named[lower] & named[higher];
            if common != 0 {
                plan.edges_of[lower].push(plan.edges.len());
                plan.edges_of[higher].push(plan.edges.len());
                plan.edges.push(Edge { lower, higher, common });
            }
        }
    }
}

// (a function of its own in the program, so that its instructions can be counted)
#[inline(never)]
pub fn read_plan(text: &str) -> Plan {
    let (mut plan, mut numbers) = (Plan::default(), HashMap::new());
    for line in text.lines() {
        let mut fields = line.split_ascii_whitespace();
        let Some(first) = fields.next() else { continue };
        match first {
            _ if first.starts_with('#') => {}
            "lab" => plan.version = fields.next().expect("a version").parse().expect("a number"),
            "job" => {
                plan.job_names.push(fields.next().expect("a name").to_string());
                plan.jobs.push(Vec::new());
            }
            "session" => {
                let patience = fields.nth(1).map(|digits| digits.parse().expect("a number"));
                let from = plan.commands.len();
                let session = Session { patience, needs: 0, commands: from..from };
                plan.jobs.last_mut().expect("a job").push(session);
            }
            "end" => close(plan.jobs.last_mut().and_then(|own| own.last_mut()).expect("a session"), &mut plan.commands),
            name => {
                let verb = fields.next().expect("a verb");
                let found = command(&mut plan, &mut numbers, name, verb, fields.next());
                plan.commands.push(found);
            }
        }
    }
    find_edges(&mut plan);
    plan
}

/// An entry of a log in 16 bytes: job 8 bits, session 16, place 24, verb 8; length 20, number 20, value 20.
#[derive(Clone, Copy)]
pub struct Entry(u64, u64);

/// The log of one instrument, with room for all that may come.
pub struct Log {
    pub entries: Vec<Entry>,
    pub dial: u32,
}

impl Log {
    pub fn append(&mut self, job: usize, session: usize, command: &Command) {
        self.dial = match command.verb {
            SET => command.number,
            ADD => (self.dial + command.number) % 1_000_000,
            _ => self.dial,
        };
        let number = if command.verb == READ { 0 } else { command.number as u64 };
        self.entries.push(Entry(
            job as u64 | (session as u64) << 8 | (command.place as u64) << 24 | (command.verb as u64) << 48,
            command.length as u64 | number << 20 | (self.dial as u64) << 40,
        ));
    }
}

pub fn empty_logs(plan: &Plan) -> Vec<Log> {
    let mut rooms = vec![0; plan.instrument_names.len()];
    for command in &plan.commands {
        rooms[command.instrument as usize] += 1;
    }
    rooms.into_iter().map(|room| Log { entries: Vec::with_capacity(room), dial: 0 }).collect()
}

#[derive(Clone, Copy, Default)]
pub struct Counts {
    pub done: u32,
    pub withdrawn: u32,
    pub meals: u32,
    pub retired: bool,
}

fn put_number(out: &mut Vec<u8>, number: u32) {
    let mut digits = [0u8; 10];
    let (mut at, mut left) = (10, number);
    loop {
        at -= 1;
        digits[at] = b'0' + (left % 10) as u8;
        left /= 10;
        if left == 0 {
            break;
        }
    }
    out.extend_from_slice(&digits[at..]);
}

fn put_entry(out: &mut Vec<u8>, plan: &Plan, &Entry(first, second): &Entry) {
    let bits = |word: u64, from: u32, count: u32| (word >> from & ((1 << count) - 1)) as u32;
    out.extend_from_slice(plan.job_names[bits(first, 0, 8) as usize].as_bytes());
    out.push(b' ');
    put_number(out, bits(first, 8, 16));
    out.push(b' ');
    put_number(out, bits(first, 24, 24));
    out.push(b'/');
    put_number(out, bits(second, 0, 20));
    let verb = bits(first, 48, 8) as u8;
    out.extend_from_slice(match verb {
        SET => b" set ",
        ADD => b" add ",
        _ => b" read",
    });
    if verb != READ {
        put_number(out, bits(second, 20, 20));
    }
    out.extend_from_slice(b" = ");
    put_number(out, bits(second, 40, 20));
    out.push(b'\n');
}

/// Writes the report, by a buffer; answers whether every job is retired.
// (a function of its own, as read_plan is)
#[inline(never)]
fn write_report(plan: &Plan, logs: &[Log], counts: &[Counts]) -> bool {
    let mut writer = std::io::BufWriter::new(std::io::stdout().lock());
    let mut out = Vec::with_capacity(256);
    writeln!(writer, "lab {}", plan.version).expect("written");
    for (name, log) in plan.instrument_names.iter().zip(logs) {
        writeln!(writer, "instrument {} {}", name, log.entries.len()).expect("written");
        for entry in &log.entries {
            out.clear();
            put_entry(&mut out, plan, entry);
            writer.write_all(&out).expect("written");
        }
    }
    for ((name, own), count) in plan.job_names.iter().zip(&plan.jobs).zip(counts) {
        write!(writer, "job {} sessions {} of {}", name, count.done, own.len()).expect("written");
        if plan.version == 2 {
            write!(writer, " withdrawn {}", count.withdrawn).expect("written");
        }
        let state = if count.retired { "retired" } else { "waiting" };
        writeln!(writer, " meals {} {}", count.meals, state).expect("written");
    }
    let finished = counts.iter().all(|count| count.retired);
    writeln!(writer, "{}", if finished { "finished" } else { "unfinished" }).expect("written");
    writer.flush().expect("flushed");
    finished
}

/// The nanoseconds of the parts of a run, told on standard error if the variable PEER_TIMES is set.
pub struct Times {
    begun: Instant,
    parts: Vec<(&'static str, u128)>,
}

impl Times {
    pub fn new() -> Times {
        Times { begun: Instant::now(), parts: Vec::new() }
    }

    pub fn part(&mut self, name: &'static str) {
        self.parts.push((name, self.begun.elapsed().as_nanos()));
        self.begun = Instant::now();
    }

    pub fn tell(&self) {
        if std::env::var_os("PEER_TIMES").is_some() {
            let parts: Vec<String> = self.parts.iter().map(|(name, nanos)| format!("{name} {nanos}")).collect();
            eprintln!("{}", parts.join(" "));
        }
    }
}

/// The script on standard input.
pub fn read_input() -> String {
    let mut text = String::new();
    std::io::stdin().lock().read_to_string(&mut text).expect("a script");
    text
}

/// The words of the command line as the program takes them: how many workers (0: rounds on one thread), and turns.
pub fn words() -> (usize, u64) {
    let words: Vec<String> = std::env::args().skip(1).collect();
    let words: Vec<&str> = words.iter().map(String::as_str).collect();
    match words[..] {
        [] => (0, 10000),
        ["rounds", turns] => (0, turns.parse().expect("a number")),
        ["threads", workers, turns] => (workers.parse().expect("a number"), turns.parse().expect("a number")),
        _ => {
            eprintln!("labrun: command line refused");
            std::process::exit(2)
        }
    }
}

/// Drives each job on a thread of its own, or none if there are no turns.
pub fn thread_a_job(jobs: usize, turns: u64, drive: impl Fn(usize) -> Counts + Sync) -> Vec<Counts> {
    let mut counts = vec![Counts::default(); jobs];
    if turns > 0 {
        let drive = &drive;
        std::thread::scope(|scope| {
            let running: Vec<_> = (0..jobs).map(|job| scope.spawn(move || drive(job))).collect();
            for (job, one) in running.into_iter().enumerate() {
                counts[job] = one.join().expect("a whole run");
            }
        });
    }
    counts
}

/// Writes the report and the times, and ends the program as labrun does.
pub fn end(plan: &Plan, logs: &[Log], counts: &[Counts], mut times: Times) -> ! {
    let finished = write_report(plan, logs, counts);
    times.part("print");
    times.tell();
    std::process::exit(if finished { 0 } else { 3 });
}
