//! `include/labrun.h`: the calls, structures and numbers of whole runs, and of the bench of a script.
use super::{calls, numbers, structures, Handle, Owned, DONE, NOT_YET, NO_MEMORY, NO_ROOM};
use crate::script::Report;
use crate::Error;

numbers! { REFUSED = 1, UNFINISHED = 3, TOO_LONG = 4, SESSIONS_LEFT = 10 }

structures! {
    struct Told { written: usize, line: usize, cause: u32 }
    struct Size { jobs: usize, instruments: usize }
    struct SessionOf { needs: u64, commands: usize, patience: u32, has_patience: u32 }
    struct Turned { what: u32, count: u32 }
    struct Came { holds: u32, given_up: u32, none_left: u32, deeds: u32 }
    struct State { turns: u64, dining: u32, drinking: u32, session: u32, sessions: u32, position: u32, sessions_done: u32, withdrawn: u32,
        meals: u32, waited: u32 }
    struct Entered { session: u32, place: u32, length: u32, verb: u32, number: u32, value: u32 }
}

calls! {
    unsafe fn lab_rounds(script: *const u8, length: usize, limit: u32, report: *mut u8, room: usize, told: &mut Told)
        -> [REFUSED, UNFINISHED, TOO_LONG, NO_MEMORY, NO_ROOM];
    unsafe fn lab_replay(script: *const u8, length: usize, report: *mut u8, room: usize, told: &mut Told)
        -> [REFUSED, UNFINISHED, TOO_LONG, NO_MEMORY, NO_ROOM];
    unsafe fn lab_check(script: *const u8, length: usize, report: *mut u8, room: usize, told: &mut Told)
        -> [REFUSED, TOO_LONG, NO_MEMORY, NO_ROOM];
    unsafe fn lab_upgrade(script: *const u8, length: usize, report: *mut u8, room: usize, told: &mut Told)
        -> [REFUSED, TOO_LONG, NO_MEMORY, NO_ROOM];
    unsafe fn lab_bench_open(script: *const u8, length: usize, bench: &mut Handle, told: &mut Told) -> [REFUSED, TOO_LONG, NO_MEMORY];
    pub fn lab_bench_size(bench: &mut Handle, size: &mut Size) -> [];
    unsafe fn lab_job_name(bench: &mut Handle, job: u32, name: *mut u8, room: usize, written: &mut usize) -> [];
    unsafe fn lab_instrument_name(bench: &mut Handle, instrument: u32, name: *mut u8, room: usize, written: &mut usize) -> [];
    pub fn lab_session_of(bench: &mut Handle, job: u32, session: u32, what: &mut SessionOf) -> [];
    pub fn lab_state(bench: &mut Handle, job: u32, state: &mut State) -> [];
    pub fn lab_settle(bench: &mut Handle, waiting: u32, came: &mut Came) -> [];
    pub fn lab_command(bench: &mut Handle, job: u32, entry: &mut Entered) -> [NOT_YET];
    pub fn lab_end(bench: &mut Handle, job: u32, turned: &mut Turned) -> [];
    pub fn lab_withdraw(bench: &mut Handle, job: u32) -> [NOT_YET];
    pub fn lab_retire(bench: &mut Handle, job: u32, turns: u32, turned: &mut Turned) -> [NOT_YET, SESSIONS_LEFT];
    unsafe fn lab_bench_close(bench: &mut Handle, report: *mut u8, room: usize, told: &mut Told) -> [UNFINISHED, NO_MEMORY, NO_ROOM];
    pub fn lab_bench_free(bench: &mut Handle) -> [];
}

impl State {
    pub fn holds(&self) -> bool {
        [2, 3].contains(&self.drinking)
    }

    pub fn has_none_left(&self) -> bool {
        self.drinking != 1 && self.session == self.sessions
    }
}

fn refused(status: u32, told: &Told) -> Error {
    match status {
        REFUSED => Error::Refused { line: told.line, cause: told.cause },
        TOO_LONG => Error::TooLong,
        _ => Error::NoMemory,
    }
}

/// Calls with ever more room, until the text fits.
fn text(mut call: impl FnMut(*mut u8, usize, &mut Told) -> Result<u32, Error>) -> Result<Report, Error> {
    let mut text = vec![0; 16384];
    loop {
        let mut told = Told::default();
        match call(text.as_mut_ptr(), text.len(), &mut told)? {
            NO_ROOM => text.resize(told.written, 0),
            status @ (DONE | UNFINISHED) => {
                text.truncate(told.written);
                return Ok(Report { finished: status == DONE, text: String::from_utf8_lossy(&text).into_owned() });
            }
            status => return Err(refused(status, &told)),
        }
    }
}

// SAFETY (of all calls below): each pointer and length are those of one slice, which are apart.

pub(crate) fn rounds(script: &[u8], limit: u32) -> Result<Report, Error> {
    text(|to, room, told| unsafe { lab_rounds(script.as_ptr(), script.len(), limit, to, room, told) })
}

pub(crate) fn replay(script: &[u8]) -> Result<Report, Error> {
    text(|to, room, told| unsafe { lab_replay(script.as_ptr(), script.len(), to, room, told) })
}

pub(crate) fn check(script: &[u8]) -> Result<Report, Error> {
    text(|to, room, told| unsafe { lab_check(script.as_ptr(), script.len(), to, room, told) })
}

pub(crate) fn upgrade(script: &[u8]) -> Result<Report, Error> {
    text(|to, room, told| unsafe { lab_upgrade(script.as_ptr(), script.len(), to, room, told) })
}

pub(crate) fn open(script: &[u8]) -> Result<Owned, Error> {
    let (mut bench, mut told) = (Owned::new(lab_bench_free), Told::default());
    match bench.calls(|bench| unsafe { lab_bench_open(script.as_ptr(), script.len(), bench, &mut told) })? {
        DONE => Ok(bench),
        status => Err(refused(status, &told)),
    }
}

/// The name of a job, or of an instrument: they have 1 to 16 bytes.
pub(crate) fn name(bench: &mut Handle, at: usize, is_job: bool) -> Result<String, Error> {
    let (mut bytes, mut length, call) = ([0; 16], 0, if is_job { lab_job_name } else { lab_instrument_name });
    unsafe { call(bench, at as u32, bytes.as_mut_ptr(), bytes.len(), &mut length) }?;
    Ok(String::from_utf8_lossy(&bytes[..length.min(16)]).into_owned())
}

pub(crate) fn close(bench: &mut Handle) -> Result<Report, Error> {
    text(|to, room, told| unsafe { lab_bench_close(bench, to, room, told) })
}
