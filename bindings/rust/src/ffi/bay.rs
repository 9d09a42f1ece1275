//! `include/labrun_bay.h`: its calls, structures and numbers.
use super::{calls, numbers, structures, Handle, NOT_YET, NO_MEMORY, NO_ROOM};
use crate::Error;

numbers! { STOPPED = 21, NO_CLASS = 22, EMPTY = 23, MAY_NOT = 24, LINE_FULL = 25, OVER = 26, ANOTHER = 27, UNSOUND = 28 }
// what an ask is told; the last of a look and of a keeper alone
numbers! { HOLDS = 0, LET_GO = 1, LAPSED = 3, NOT_WRITTEN = 4, WAS_STOPPED = 9, WAITS = 10 }
pub(crate) const NEVER: u64 = u64::MAX;

structures! {
    struct Class { uses: u64, places: u32, unused: u32 }
    struct Terms { bay: [u8; 32], line: u64, grace: u64, disk: u64, overtakes: u32, keeps: u32 }
    struct Asked { number: u64, owner: [u64; 2], deadline: u64, limit: u64, kind: u32, urgent: u32 }
    struct Outcome { serial: u64, number: u64, needs: u64, token: u64, what: u32, unused: u32 }
    struct Standing { number: u64, owner: [u64; 2], needs: u64, since: u64, token: u64, kind: u32, what: u32 }
}

calls! {
    unsafe fn lab_bay_open(classes: *const Class, count: usize, terms: &Terms, bay: &mut Handle) -> [NO_MEMORY, NO_CLASS];
    unsafe fn lab_bay_resume(classes: *const Class, count: usize, terms: &Terms, journal: *const u8, length: usize, now: u64,
        bay: &mut Handle, used: &mut usize, fault: &mut u64) -> [NO_MEMORY, NO_CLASS, MAY_NOT, ANOTHER, UNSOUND];
    unsafe fn lab_bay_ask(bay: &mut Handle, asked: &Asked, sets: *const u64, count: usize, now: u64)
        -> [NO_MEMORY, STOPPED, EMPTY, MAY_NOT, LINE_FULL];
    pub fn lab_bay_let_go(bay: &mut Handle, number: u64, now: u64) -> [OVER];
    pub fn lab_bay_leave(bay: &mut Handle, number: u64, now: u64) -> [];
    pub fn lab_bay_take_away(bay: &mut Handle, number: u64, now: u64) -> [NOT_YET, OVER];
    pub fn lab_bay_back(bay: &mut Handle, number: u64, owner_high: u64, owner_low: u64, now: u64, needs: &mut u64) -> [OVER];
    pub fn lab_bay_time(bay: &mut Handle, now: u64, next: &mut u64) -> [];
    pub fn lab_bay_stop(bay: &mut Handle, now: u64) -> [];
    unsafe fn lab_bay_note(bay: &mut Handle, number: u64, text: *const u8, length: usize, position: &mut u64) -> [NO_MEMORY, MAY_NOT];
    unsafe fn lab_bay_journal(bay: &mut Handle, text: *mut u8, room: usize, written: &mut usize, position: &mut u64) -> [NO_MEMORY, NO_ROOM];
    pub fn lab_bay_durable(bay: &mut Handle, position: u64) -> [];
    pub fn lab_bay_failed(bay: &mut Handle) -> [];
    pub fn lab_bay_tell(bay: &mut Handle, done: u64, outcome: &mut Outcome) -> [NOT_YET];
    pub fn lab_bay_look(bay: &mut Handle, place: usize, standing: &mut Standing, next: &mut u64) -> [NOT_YET];
    pub fn lab_bay_keeper(bay: &mut Handle, number: u64, instrument: u32, keeper: &mut Standing) -> [NOT_YET];
    pub fn lab_bay_waits(bay: &mut Handle, number: u64, set: usize, needs: &mut u64, passed: &mut u32) -> [NOT_YET];
    pub fn lab_bay_free(bay: &mut Handle) -> [];
}

// SAFETY (of all calls below): each pointer and length are those of one slice.

pub(crate) fn open(bay: &mut Handle, classes: &[Class], terms: &Terms) -> Result<u32, Error> {
    unsafe { lab_bay_open(classes.as_ptr(), classes.len(), terms, bay) }
}

/// With how many bytes of the journal were read, or what `fault` says.
pub(crate) fn resume(bay: &mut Handle, classes: &[Class], terms: &Terms, text: &[u8], now: u64) -> Result<(u32, u64), Error> {
    let (mut used, mut fault, count, length) = (0, 0, classes.len(), text.len());
    let status = unsafe { lab_bay_resume(classes.as_ptr(), count, terms, text.as_ptr(), length, now, bay, &mut used, &mut fault) }?;
    Ok((status, if status == super::DONE { used as u64 } else { fault }))
}

pub(crate) fn ask(bay: &mut Handle, asked: &Asked, sets: &[u64], now: u64) -> Result<u32, Error> {
    unsafe { lab_bay_ask(bay, asked, sets.as_ptr(), sets.len(), now) }
}

pub(crate) fn note(bay: &mut Handle, number: u64, text: &str) -> Result<u32, Error> {
    unsafe { lab_bay_note(bay, number, text.as_ptr(), text.len(), &mut 0) }
}

/// With how many bytes were written or are wanted, and how long the journal is behind them.
pub(crate) fn journal(bay: &mut Handle, room: &mut [u8]) -> Result<(u32, usize, u64), Error> {
    let (mut length, mut position) = (0, 0);
    let status = unsafe { lab_bay_journal(bay, room.as_mut_ptr(), room.len(), &mut length, &mut position) }?;
    Ok((status, length, position))
}
