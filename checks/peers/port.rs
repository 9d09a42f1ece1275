//! The same algorithm as labrun's, without proofs: a word an edge on a cache line of its own, a phase word a job, private
//! marks, one look and at most one exchange an edge and turn, then one act of the job's phase. It takes the same words and
//! prints the same report.
//!
//!     rustc -O checks/peers/port.rs && ./port threads 2 1000000 < SCRIPT
//!
//! What makes it fast: an edge that is as last seen, while nothing was due there and the own phase is as it was then, is
//! passed over after its load and one comparison; a worker whose round was all idle yields.
mod shared;
use shared::{Command, Counts, Edge, Log, Plan, Times};
use std::cell::UnsafeCell;
use std::sync::atomic::{AtomicU64, Ordering::SeqCst};

const THINKING: u64 = 0;
const HUNGRY: u64 = 1;
const EATING: u64 = 2;
const TRANQUIL: u64 = 0;
const THIRSTY: u64 = 1;
const DRINKING: u64 = 2;
const REACHING: u64 = 3;
const RETIRED: u64 = 4;

#[repr(align(128))]
struct Word(AtomicU64);

#[repr(align(128))]
struct Slot(UnsafeCell<Log>);

/// Only a job that drinks reaches a log, and two jobs never hold one instrument.
unsafe impl Sync for Slot {}

struct Bench<'a> {
    plan: &'a Plan,
    phases: Vec<Word>,
    slots: Vec<Slot>,
}

/// A job's end of an edge. A word of it is turned by `turn` so that a bit says "here": 0 the fork, 2 its token, from 4 on
/// the bottles, from 32 on their tokens; bit 1 is dirt.
struct End {
    turn: u64,
    common: u64,
    all: u64,
    needed: u64,
    seen: u64,
}

/// No word of an edge.
const NOT_CALM: u64 = u64::MAX;

/// One job's seat. `forks` and `bottles` have a bit for each own edge: a fork mark; a mark on each needed bottle. `calm` has
/// the word last seen where nothing was due there and the phase is as it was then, and no word elsewhere. As labrun's it is kept off
/// the cache lines of the next.
#[repr(align(128))]
struct Desk<'a> {
    job: usize,
    words: Vec<&'a AtomicU64>,
    calm: Vec<u64>,
    ends: Vec<End>,
    every: u32,
    forks: u32,
    bottles: u32,
    dining: u64,
    drinking: u64,
    session: usize,
    position: usize,
    /// the commands of the session
    commands: &'a [Command],
    waited: u32,
    counts: Counts,
}

fn opening(edge: &Edge) -> u64 {
    6 + (((1u64 << edge.common.count_ones()) - 1) << 32)
}

fn open_desk<'a>(plan: &Plan, words: &'a [Word], job: usize) -> Desk<'a> {
    let own = &plan.edges_of[job];
    let end = |&number: &usize| {
        let edge = &plan.edges[number];
        let all = (1u64 << edge.common.count_ones()) - 1;
        let turn = if edge.lower == job { 5 | all << 4 | all << 32 } else { 0 };
        End { turn, common: edge.common, all, needed: 0, seen: opening(edge) }
    };
    Desk {
        job,
        words: own.iter().map(|&number| &words[number].0).collect(),
        calm: vec![NOT_CALM; own.len()],
        ends: own.iter().map(end).collect(),
        every: ((1u64 << own.len()) - 1) as u32,
        forks: 0,
        bottles: 0,
        dining: THINKING,
        drinking: TRANQUIL,
        session: 0,
        position: 0,
        commands: &[],
        waited: 0,
        counts: Counts::default(),
    }
}

#[derive(PartialEq)]
enum Turned {
    Acted,
    Lost,
    Idle,
}

impl<'a> Desk<'a> {
    /// The marks that a look at a word, turned, sets.
    fn mark(&mut self, at: usize, here: u64) {
        let bit = 1u32 << at;
        let fork = if self.dining == EATING { here & 3 == 3 } else { here & 1 == 1 && here & 6 != 6 };
        let end = &self.ends[at];
        let bottles = (here >> 4) & end.needed == end.needed;
        self.forks = if fork { self.forks | bit } else { self.forks & !bit };
        self.bottles = if bottles { self.bottles | bit } else { self.bottles & !bit };
    }

    /// What a word, turned, is after all that is due.
    fn due(&self, end: &End, here: u64) -> u64 {
        let mut after = here;
        if self.dining != EATING && here & 7 == 7 {
            after &= !3;
        }
        let keeps = self.drinking == DRINKING || after & 1 == 1;
        let firm = if keeps { end.needed } else { 0 };
        let given = (after >> 4) & (after >> 32) & end.all & !firm;
        after &= !(given << 4);
        if self.dining == HUNGRY && after & 5 == 4 {
            after &= !4;
        }
        if self.drinking == THIRSTY {
            let wanted = end.needed & !(after >> 4) & (after >> 32);
            after &= !(wanted << 32);
        }
        if self.dining == EATING && after & 3 == 1 {
            after |= 2;
        }
        after
    }

    /// A look at an edge where something may be due, and the exchange.
    #[inline(never)]
    fn visit(&mut self, at: usize, word: u64) -> Turned {
        self.ends[at].seen = word;
        let here = word ^ self.ends[at].turn;
        let after = self.due(&self.ends[at], here);
        if after == here {
            self.mark(at, here);
            self.calm[at] = word;
            return Turned::Idle;
        }
        self.calm[at] = NOT_CALM;
        let new = after ^ self.ends[at].turn;
        if self.words[at].compare_exchange(word, new, SeqCst, SeqCst).is_err() {
            self.mark(at, here);
            return Turned::Lost;
        }
        self.ends[at].seen = new;
        // what was given leaves no mark, and what was soiled leaves one: just what a look would set now
        self.mark(at, after);
        Turned::Acted
    }

    fn store(&mut self, bench: &Bench) {
        let word = self.dining | self.drinking << 2 | (self.session as u64) << 8 | (self.position as u64) << 32;
        bench.phases[self.job].0.store(word, SeqCst);
    }

    /// Begins the next session: what it needs of each edge becomes a set of bottles.
    fn thirst(&mut self, plan: &'a Plan) {
        let session = &plan.jobs[self.job][self.session];
        let needs = session.needs;
        self.commands = &plan.commands[session.commands.clone()];
        self.session += 1;
        self.position = 0;
        self.drinking = THIRSTY;
        self.waited = 0;
        self.bottles = 0;
        for (at, end) in self.ends.iter_mut().enumerate() {
            let mut left = needs & end.common;
            end.needed = 0;
            while left != 0 {
                let lowest = left & left.wrapping_neg();
                end.needed |= 1 << (end.common & (lowest - 1)).count_ones();
                left &= left - 1;
            }
            let here = (end.seen ^ end.turn) >> 4;
            if here & end.needed == end.needed {
                self.bottles |= 1 << at;
            }
        }
    }

    fn command(&mut self, bench: &Bench) {
        let command = &self.commands[self.position];
        self.drinking = REACHING;
        self.store(bench);
        // SAFETY: this job drinks, so it alone holds the instrument
        let log = unsafe { &mut *bench.slots[command.instrument as usize].0.get() };
        log.append(self.job, self.session, command);
        self.position += 1;
        self.drinking = DRINKING;
        self.store(bench);
    }

    /// The session is over: nothing is needed any more.
    fn tranquil(&mut self) {
        self.drinking = TRANQUIL;
        self.position = 0;
        for end in &mut self.ends {
            end.needed = 0;
        }
    }

    /// The first act that is legal; whether there was one.
    fn act(&mut self, bench: &Bench<'a>, waited: u32) -> bool {
        let own = &bench.plan.jobs[self.job];
        if self.drinking == DRINKING {
            if self.position < self.commands.len() {
                self.command(bench);
                return true;
            }
            self.tranquil();
            self.counts.done += 1;
        } else if self.drinking == THIRSTY && self.bottles == self.every {
            self.drinking = DRINKING;
        } else if self.drinking == THIRSTY && own[self.session - 1].patience.is_some_and(|patience| waited >= patience) {
            self.tranquil();
            self.counts.withdrawn += 1;
        } else if self.dining == EATING && self.drinking != THIRSTY && self.forks == self.every {
            self.dining = THINKING;
            self.forks = 0;
        } else if self.dining == HUNGRY && self.forks == self.every {
            self.dining = EATING;
            self.forks = 0;
            self.counts.meals += 1;
        } else if self.drinking == TRANQUIL && self.dining != EATING && self.session < own.len() {
            self.thirst(bench.plan);
        } else if self.drinking == THIRSTY && self.dining == THINKING {
            self.dining = HUNGRY;
        } else if self.drinking == TRANQUIL && self.dining == THINKING {
            self.drinking = RETIRED;
            self.counts.retired = true;
        } else {
            return false;
        }
        self.calm.fill(NOT_CALM);
        self.store(bench);
        true
    }

    /// Looks at the own edges from one on, up to the first where something may be due: its place and its word.
    fn next_not_calm(&self, from: usize) -> Option<(usize, u64)> {
        let looks = self.words[from..].iter().zip(&self.calm[from..]).enumerate();
        looks.map(|(k, (word, calm))| (from + k, word.load(SeqCst), calm)).find(|(_, word, calm)| word != *calm).map(|(at, word, _)| (at, word))
    }

    fn turn(&mut self, bench: &Bench<'a>) -> Turned {
        let (thirsty, waited) = (self.drinking == THIRSTY, self.waited);
        let (mut acted, mut lost) = (false, false);
        let mut from = 0;
        while let Some((at, word)) = self.next_not_calm(from) {
            match self.visit(at, word) {
                Turned::Acted => acted = true,
                Turned::Lost => lost = true,
                Turned::Idle => {}
            }
            from = at + 1;
        }
        acted |= self.act(bench, waited);
        if thirsty && self.drinking == THIRSTY {
            self.waited = waited.saturating_add(1);
        }
        if acted {
            Turned::Acted
        } else if lost {
            Turned::Lost
        } else {
            Turned::Idle
        }
    }

    fn all_retired(&self, bench: &Bench) -> bool {
        self.counts.retired && bench.phases.iter().all(|phase| phase.0.load(SeqCst) >> 2 & 7 == RETIRED)
    }
}

/// Rounds on one thread, a turn of every desk in each.
fn rounds<'a>(bench: &Bench<'a>, desks: &mut [Desk<'a>], limit: u64) {
    for _ in 0..limit {
        if desks.iter().all(|desk| desk.counts.retired) {
            return;
        }
        for desk in desks.iter_mut() {
            desk.turn(bench);
        }
    }
}

/// One worker: a turn of each of its desks in each round, until its turns are used or every job is retired.
fn work<'a>(bench: &Bench<'a>, mut desks: Vec<&mut Desk<'a>>, turns: u64) {
    for _ in 0..turns {
        let mut idle = true;
        for desk in desks.iter_mut() {
            idle &= desk.turn(bench) == Turned::Idle;
        }
        if desks[0].all_retired(bench) {
            return;
        }
        if idle {
            std::thread::yield_now();
        }
    }
}

fn threads<'a>(bench: &Bench<'a>, desks: &mut [Desk<'a>], workers: usize, turns: u64) {
    let mut teams: Vec<Vec<&mut Desk<'a>>> = (0..workers).map(|_| Vec::new()).collect();
    for desk in desks {
        teams[desk.job % workers].push(desk);
    }
    let mut teams = teams.into_iter().filter(|team| !team.is_empty());
    let Some(own) = teams.next() else { return };
    std::thread::scope(|scope| {
        for team in teams {
            scope.spawn(move || work(bench, team, turns));
        }
        work(bench, own, turns);
    });
}

fn main() {
    let (workers, turns) = shared::words();
    let mut times = Times::new();
    let plan = shared::read_plan(&shared::read_input());
    times.part("read");
    let words: Vec<Word> = plan.edges.iter().map(|edge| Word(AtomicU64::new(opening(edge)))).collect();
    let phases = plan.jobs.iter().map(|_| Word(AtomicU64::new(0))).collect();
    let slots = shared::empty_logs(&plan).into_iter().map(|log| Slot(UnsafeCell::new(log))).collect();
    let bench = Bench { plan: &plan, phases, slots };
    let mut desks: Vec<Desk> = (0..plan.jobs.len()).map(|job| open_desk(&plan, &words, job)).collect();
    times.part("open");
    if workers == 0 {
        rounds(&bench, &mut desks, turns);
    } else {
        threads(&bench, &mut desks, workers, turns);
    }
    times.part("run");
    let counts: Vec<Counts> = desks.iter().map(|desk| desk.counts).collect();
    let logs: Vec<Log> = bench.slots.into_iter().map(|slot| slot.0.into_inner()).collect();
    shared::end(&plan, &logs, &counts, times)
}
