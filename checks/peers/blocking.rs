//! A thread a job and a lock an instrument: a session takes the locks of its instruments in ascending order, does its
//! commands, and gives them back. It has no patience, no meals, and no turns: with 0 turns it does nothing, else all.
//!
//!     rustc -O checks/peers/blocking.rs && ./blocking threads 1 1 < SCRIPT
mod shared;
use shared::{Counts, Log, Plan, Times};
use std::sync::Mutex;

#[repr(align(64))]
struct Slot(Mutex<Log>);

fn drive(plan: &Plan, job: usize, slots: &[Slot]) -> Counts {
    let mut counts = Counts { retired: true, ..Counts::default() };
    let mut held: Vec<Option<std::sync::MutexGuard<Log>>> = (0..slots.len()).map(|_| None).collect();
    for (number, session) in plan.jobs[job].iter().enumerate() {
        let mut needs = session.needs;
        while needs != 0 {
            let instrument = needs.trailing_zeros() as usize;
            held[instrument] = Some(slots[instrument].0.lock().expect("a lock"));
            needs &= needs - 1;
        }
        for command in &plan.commands[session.commands.clone()] {
            let log = held[command.instrument as usize].as_mut().expect("held");
            log.append(job, number + 1, command);
        }
        let mut needs = session.needs;
        while needs != 0 {
            held[needs.trailing_zeros() as usize] = None;
            needs &= needs - 1;
        }
        counts.done += 1;
    }
    counts
}

fn main() {
    let (_, turns) = shared::words();
    let mut times = Times::new();
    let plan = shared::read_plan(&shared::read_input());
    times.part("read");
    let slots: Vec<Slot> = shared::empty_logs(&plan).into_iter().map(|log| Slot(Mutex::new(log))).collect();
    times.part("open");
    let counts = shared::thread_a_job(plan.jobs.len(), turns, |job| drive(&plan, job, &slots));
    times.part("run");
    let logs: Vec<Log> = slots.into_iter().map(|slot| slot.0.into_inner().expect("a log")).collect();
    shared::end(&plan, &logs, &counts, times)
}
