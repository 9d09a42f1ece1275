//! Tests that change what holds for a whole process, such as how long its files may grow: each runs in one of its own.
#![allow(dead_code)] // (each file of tests uses some of it)

extern "C" {
    fn setrlimit(what: i32, to: *const [u64; 2]) -> i32;
    fn signal(number: i32, to: usize) -> usize;
}

/// The files of this process may not grow beyond so many bytes.
pub fn limit(bytes: usize) {
    let to = [bytes as u64, u64::MAX];
    // SAFETY: RLIMIT_FSIZE with the two words that it wants.
    assert_eq!(unsafe { setrlimit(1, &to) }, 0);
}

const CHILD: &str = "LABRUN_TEST_CHILD";

/// Runs a test in a process of its own, in which a write beyond the limit fails and no signal ends it. Not in the child of a fork: the
/// threads of other tests are gone there, and what they were in the midst of stays so.
pub fn alone(name: &str, test: fn()) {
    often_alone(1, name, test);
}

/// The same so many times, each in a new process.
pub fn often_alone(times: usize, name: &str, test: fn()) {
    if std::env::var_os(CHILD).is_some() {
        // SAFETY: SIGXFSZ is ignored.
        unsafe { signal(25, 1) };
        return test();
    }
    let it = std::env::current_exe().unwrap();
    for _ in 0..times {
        let ran = std::process::Command::new(&it).args(["--exact", name, "--nocapture"]).env(CHILD, "1").output().unwrap();
        assert!(ran.status.success(), "{}", String::from_utf8_lossy(&ran.stderr));
    }
}
