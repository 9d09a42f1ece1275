//! A load: threads, stations among them, hold at random, choose, wait for a while, have limits, are taken away, and note; without a journal
//! and with one. With `LABRUN_SESSIONS=N` each load is of N sessions (20000); with `-- --nocapture` it says what it counted.
mod common;

use common::{names, Chance, Folder};
use labrun::{Error, Held, Hold, Lab, LabOptions, SyncTo};
use std::collections::HashSet;
use std::io::{BufRead, BufReader};
use std::sync::atomic::{AtomicUsize, Ordering::SeqCst};
use std::sync::Mutex;
use std::thread;
use std::time::{Duration, Instant};

const THREADS: u64 = 8;
const INSTRUMENTS: usize = 6;

#[derive(Default)]
struct Counts {
    done: AtomicUsize,
    gave_up: AtomicUsize,
    taken_away: AtomicUsize,
}

fn counts(it: &AtomicUsize) {
    it.fetch_add(1, SeqCst);
}

/// Simulated instruments, each with the sessions whose clients are there.
#[derive(Default)]
struct Bay {
    clients: [Mutex<Vec<u64>>; INSTRUMENTS],
    /// The sessions that met another one's client; and those whose owners were told that they were taken away, and who may have been there
    /// still, or came late.
    met: Mutex<Vec<(u64, u64)>>,
    taken: Mutex<HashSet<u64>>,
}

impl Bay {
    /// A client comes to these, works, and goes.
    fn work(&self, held: &Held, pause: Duration) {
        let number = held.number();
        let its: Vec<_> = held.instruments().iter().map(|it| &self.clients[it[2..].parse::<usize>().unwrap()]).collect();
        for it in &its {
            let mut clients = it.lock().unwrap();
            self.met.lock().unwrap().extend(clients.iter().map(|other| (*other, number)));
            clients.push(number);
        }
        if pause.is_zero() {
            thread::yield_now();
        } else {
            thread::sleep(pause);
        }
        its.iter().for_each(|it| it.lock().unwrap().retain(|it| *it != number));
    }

    /// How many clients an instrument has to refuse: both sessions hold.
    fn refused(&self) -> usize {
        let taken = self.taken.lock().unwrap();
        self.met.lock().unwrap().iter().filter(|(one, other)| !taken.contains(one) && !taken.contains(other)).count()
    }
}

/// A session that somebody asks for: of a guest or a station, of one to three instruments or a choice, some with a time limit, some with a
/// limit on holding, some with a note.
fn asked(lab: &Lab, names: &[String], chance: &mut Chance, keeps: bool) -> Hold {
    let mut set = || (0..=chance.below(3)).map(|_| names[chance.below(INSTRUMENTS)].as_str()).collect::<Vec<_>>();
    let (one, other) = (set(), set());
    let choices: &[&[&str]] = if chance.below(4) == 0 { &[&one, &other] } else { &[&one] };
    let mut hold = match chance.below(4) {
        0 => lab.station(["board", "radio"][chance.below(2)]).unwrap().any_of(choices),
        _ => lab.any_of(choices),
    };
    if chance.below(4) == 0 {
        hold = hold.timeout(Duration::from_millis(chance.below(3) as u64));
    }
    if chance.below(4) == 0 {
        hold = hold.limit(Duration::from_millis(chance.below(2) as u64));
    }
    if keeps && chance.below(8) == 0 {
        hold = hold.note("4.998 V");
    }
    hold
}

/// Works, and lets go; now and then by a drop.
fn works(bay: &Bay, mut held: Held, chance: &mut Chance, counted: &Counts) {
    bay.work(&held, Duration::from_millis(u64::from(chance.below(64) == 0) * 3));
    let holds = if chance.below(2) == 0 { held.is_held() } else { held.finish().is_ok() };
    if !holds {
        assert_eq!(held.finish(), Err(Error::TakenAway));
        assert!(bay.taken.lock().unwrap().insert(held.number()));
        counts(&counted.taken_away);
    }
}

/// Takes away what somebody holds.
fn takes(lab: &Lab, chance: &mut Chance) {
    let all = lab.sessions().unwrap();
    if !all.is_empty() {
        lab.take_away(all[chance.below(all.len())].number).unwrap();
    }
}

/// The sessions of a thread, until all have done so many.
fn drives(lab: &Lab, bay: &Bay, seed: u64, wanted: usize, keeps: bool, counted: &Counts) {
    let (names, mut chance) = (names(INSTRUMENTS), Chance(seed));
    while counted.done.load(SeqCst) < wanted {
        match asked(lab, &names, &mut chance, keeps).begin() {
            Ok(held) => {
                counts(&counted.done);
                works(bay, held, &mut chance, counted);
            }
            Err(Error::TimedOut(keepers)) => {
                assert!(keepers.iter().all(|it| it.end().holds), "{keepers:?}");
                counts(&counted.gave_up);
            }
            // (before its note was written)
            Err(Error::TakenAway) => counts(&counted.taken_away),
            Err(fault) => panic!("{fault}"),
        }
        if chance.below(200) == 0 {
            takes(lab, &mut chance);
        }
    }
}

/// Of the holds of a journal, how many there are, and how many have no end.
fn kept(folder: &Folder) -> (usize, usize) {
    let (mut count, mut holding) = (0, HashSet::new());
    for line in BufReader::new(std::fs::File::open(folder.file()).unwrap()).lines().map(Result::unwrap) {
        let words: Vec<&str> = line.split(' ').collect();
        match words[1] {
            "hold" => {
                count += 1;
                assert!(holding.insert(words[2].to_string()));
            }
            "end" => assert!(holding.remove(words[2])),
            _ => {}
        }
    }
    (count, holding.len())
}

fn load(folder: Option<&Folder>) {
    let wanted: usize = std::env::var("LABRUN_SESSIONS").map_or(20000, |it| it.parse().unwrap());
    let (begun, counted, names, mut refused) = (Instant::now(), Counts::default(), names(INSTRUMENTS), 0);
    for (part, overtakes) in (1..).zip([0, 3, 64]) {
        let mut options = LabOptions::new(&names).station("board", &names).station("radio", &names).overtakes(overtakes);
        if let Some(folder) = folder {
            options = options.journal(folder.file(), SyncTo::Memory);
        }
        let (lab, bay) = (options.open().unwrap(), Bay::default());
        thread::scope(|threads| {
            for seed in 0..THREADS {
                let (lab, bay, counted) = (&lab, &bay, &counted);
                threads.spawn(move || drives(lab, bay, part * THREADS + seed, wanted * part as usize / 3, folder.is_some(), counted));
            }
        });
        assert!(lab.sessions().unwrap().is_empty());
        lab.close().unwrap();
        refused += bay.refused();
    }
    let (done, gave_up, taken_away) = (counted.done.into_inner(), counted.gave_up.into_inner(), counted.taken_away.into_inner());
    let how = if folder.is_some() { "with" } else { "without" };
    let span = begun.elapsed().as_secs_f64();
    println!("{how} a journal: {done} sessions, {gave_up} gave up, {taken_away} were taken away, {refused} were refused, in {span:.1} s");
    assert_eq!(refused, 0);
    assert!(done >= wanted && gave_up > 0 && taken_away > 0);
    if let Some(folder) = folder {
        let (count, holding) = kept(folder);
        assert!(count >= done && holding == 0);
    }
}

#[test]
fn no_instrument_has_two_holders() {
    load(None);
}

#[test]
fn no_instrument_has_two_holders_with_a_journal() {
    load(Some(&Folder::new("soak")));
}
