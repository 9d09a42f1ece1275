//! labrun in a Rust program, safe but for one call: rustc -O calls.rs -L FOLDER -l static=labrun
unsafe extern "C" {
    fn lab_rounds(script: *const u8, length: usize, limit: u32, report: *mut u8, room: usize, told: *mut Told) -> u32;
}

/// `struct lab_told` of labrun.h.
#[repr(C)]
#[derive(Clone, Copy, Debug, Default)]
pub struct Told {
    pub written: usize,
    pub line: usize,
    pub cause: u32,
}

/// Runs a script in rounds; the status of the program, and its report.
pub fn rounds(script: &[u8], limit: u32) -> (u32, Vec<u8>) {
    let mut report = vec![0; 4096];
    loop {
        let mut told = Told::default();
        // SAFETY: each pointer and length are those of one slice, all are apart, and none is null.
        let status = unsafe {
            lab_rounds(script.as_ptr(), script.len(), limit, report.as_mut_ptr(), report.len(), &mut told)
        };
        if status != 6 {
            report.truncate(told.written);
            return (status, report);
        }
        report.resize(told.written, 0);
    }
}

fn main() {
    let words: Vec<String> = std::env::args().collect();
    let script = std::fs::read(&words[1]).expect("a script");
    let (status, report) = rounds(&script, 10000);
    print!("{}", String::from_utf8_lossy(&report));
    std::process::exit(status as i32);
}
