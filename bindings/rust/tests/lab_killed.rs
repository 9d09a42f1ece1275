//! A lab whose process is killed at any moment.
mod common;

use common::{holding, options, Chance, Folder};
use labrun::Held;
use std::collections::HashSet;
use std::io::Write;
use std::path::Path;
use std::process::{Command, Stdio};
use std::thread;
use std::time::Duration;

const DIES: &str = "LABRUN_TEST_DIES";

/// Threads hold and let go for as long as they live, and say in a file of their own what they were told.
fn works_until_killed(path: &Path) -> ! {
    let lab = options(path).open().unwrap();
    for mut held in lab.resumed().unwrap() {
        held.finish().unwrap();
        says(path, "over", &held);
    }
    thread::scope(|threads| {
        for seed in 0..4 {
            let lab = &lab;
            threads.spawn(move || {
                let mut chance = Chance(seed + u64::from(std::process::id()));
                loop {
                    let it = ["scope", "supply", "load"][chance.below(3)];
                    let mut held = lab.any_of(&[&[it, "load"], &[it]]).begin().unwrap();
                    says(path, "held", &held);
                    held.finish().unwrap();
                    says(path, "over", &held);
                }
            });
        }
    });
    unreachable!()
}

fn says(path: &Path, what: &str, held: &Held) {
    let mut told = std::fs::OpenOptions::new().append(true).create(true).open(path.with_extension("told")).unwrap();
    told.write_all(format!("{what} {}\n", held.number()).as_bytes()).unwrap();
}

/// Killed at any moment: whoever was told that it holds is in the journal, and holds there unless it let go; whoever was told that it let
/// go doesn't.
#[test]
fn killed_at_any_moment() {
    if let Some(path) = std::env::var_os(DIES) {
        works_until_killed(Path::new(&path));
    }
    let (folder, mut chance) = (Folder::new("killed"), Chance(1));
    for _ in 0..20 {
        let mut child = Command::new(std::env::current_exe().unwrap());
        child.args(["--exact", "killed_at_any_moment"]).env(DIES, folder.file()).stdout(Stdio::null()).stderr(Stdio::null());
        let mut child = child.spawn().unwrap();
        thread::sleep(Duration::from_millis(20 + chance.below(60) as u64));
        child.kill().unwrap();
        child.wait().unwrap();
        let told = std::fs::read_to_string(folder.file().with_extension("told")).unwrap_or_default();
        let said = |what: &str| told.lines().filter_map(|it| it.strip_prefix(what)?.trim().parse().ok()).collect::<HashSet<u64>>();
        let text = std::fs::read_to_string(folder.file()).unwrap_or_default();
        let lines: Vec<String> =
            text.split_inclusive('\n').filter(|it| it.ends_with('\n')).map(|it| it[17..].trim_end().to_string()).collect();
        let number = |line: &String| u64::from_str_radix(line.split(' ').nth(1).unwrap(), 16).ok();
        let came: HashSet<u64> = lines.iter().filter(|it| it.starts_with("hold ")).filter_map(number).collect();
        let holds: HashSet<u64> = holding(&lines).into_iter().collect();
        assert!(said("held").is_subset(&came) && said("over").is_disjoint(&holds));
        let over: HashSet<u64> = lines.iter().filter(|it| it.starts_with("end ") && it.contains(" let_go ")).filter_map(number).collect();
        assert!(said("held").iter().all(|it| holds.contains(it) != over.contains(it)));
    }
    let told = std::fs::read_to_string(folder.file().with_extension("told")).unwrap();
    assert!(told.lines().count() > 100);
}
