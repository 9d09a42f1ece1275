//! A thread a job and one broker: a session waits until all its instruments are free at once, takes them all, does its
//! commands, and gives them all back. No patience, no meals, no turns: with 0 turns it does nothing, else all.
//!
//!     rustc -O checks/peers/condvar.rs && ./condvar threads 1 1 < SCRIPT
mod shared;
use shared::{Counts, Log, Plan, Times};
use std::cell::UnsafeCell;
use std::sync::{Condvar, Mutex};

#[repr(align(64))]
struct Slot(UnsafeCell<Log>);

/// Who is given an instrument by the broker alone reaches its log.
unsafe impl Sync for Slot {}

struct Broker {
    taken: Mutex<u64>,
    freed: Condvar,
}

impl Broker {
    fn take(&self, needs: u64) {
        let mut taken = self.taken.lock().expect("a lock");
        while *taken & needs != 0 {
            taken = self.freed.wait(taken).expect("a lock");
        }
        *taken |= needs;
    }

    fn give_back(&self, needs: u64) {
        *self.taken.lock().expect("a lock") &= !needs;
        self.freed.notify_all();
    }
}

fn drive(plan: &Plan, job: usize, broker: &Broker, slots: &[Slot]) -> Counts {
    let mut counts = Counts { retired: true, ..Counts::default() };
    for (number, session) in plan.jobs[job].iter().enumerate() {
        broker.take(session.needs);
        for command in &plan.commands[session.commands.clone()] {
            // SAFETY: the broker gave this instrument to this job alone, until it is given back
            let log = unsafe { &mut *slots[command.instrument as usize].0.get() };
            log.append(job, number + 1, command);
        }
        broker.give_back(session.needs);
        counts.done += 1;
    }
    counts
}

fn main() {
    let (_, turns) = shared::words();
    let mut times = Times::new();
    let plan = shared::read_plan(&shared::read_input());
    times.part("read");
    let slots: Vec<Slot> = shared::empty_logs(&plan).into_iter().map(|log| Slot(UnsafeCell::new(log))).collect();
    let broker = Broker { taken: Mutex::new(0), freed: Condvar::new() };
    times.part("open");
    let counts = shared::thread_a_job(plan.jobs.len(), turns, |job| drive(&plan, job, &broker, &slots));
    times.part("run");
    let logs: Vec<Log> = slots.into_iter().map(|slot| slot.0.into_inner()).collect();
    shared::end(&plan, &logs, &counts, times)
}
