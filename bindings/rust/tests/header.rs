//! The structures and numbers of this crate are those of `include/labrun.h` and `labrun_bay.h`. (Its calls are compared by
//! `scripts/make_calls`.)
use std::collections::HashMap;

const STRUCTURES: [(&str, &str); 14] = [
    ("bench", "Handle"),
    ("bay", "Handle"),
    ("told", "Told"),
    ("size", "Size"),
    ("session", "SessionOf"),
    ("turned", "Turned"),
    ("came", "Came"),
    ("state", "State"),
    ("entry", "Entered"),
    ("class", "Class"),
    ("terms", "Terms"),
    ("asked", "Asked"),
    ("outcome", "Outcome"),
    ("standing", "Standing"),
];

/// A number as the header calls it, where this crate calls it otherwise.
const CALLED: [(&str, &str); 9] = [
    ("NO_CLASS", "BAY_NO_CLASS"),
    ("STOPPED", "BAY_STOPPED"),
    ("EMPTY", "BAY_EMPTY"),
    ("MAY_NOT", "BAY_MAY_NOT"),
    ("LINE_FULL", "BAY_LINE_FULL"),
    ("OVER", "BAY_OVER"),
    ("ANOTHER", "BAY_ANOTHER"),
    ("UNSOUND", "BAY_UNSOUND"),
    ("WAS_STOPPED", "STOPPED"),
];

fn text_of(path: &str) -> String {
    std::fs::read_to_string(format!("{}/{path}", env!("CARGO_MANIFEST_DIR"))).unwrap()
}

/// Without comments, which lie between `from` and `to`.
fn without(text: &str, from: &str, to: &str) -> String {
    let mut parts = text.split(from);
    let mut kept = parts.next().unwrap().to_string();
    parts.for_each(|it| kept += it.split_once(to).map_or("", |it| it.1));
    kept
}

fn header() -> String {
    without(&(text_of("../../include/labrun.h") + &text_of("../../include/labrun_bay.h")), "/*", "*/")
}

fn ours() -> String {
    let text: String = ["mod", "bay", "bench"].iter().map(|it| text_of(&format!("src/ffi/{it}.rs"))).collect();
    without(&text, "//", "\n")
}

/// What stands in a text between the first of these and the next of those.
fn between<'t>(text: &'t str, from: &str, to: &str) -> &'t str {
    text.split_once(from).and_then(|it| it.1.split_once(to)).unwrap_or_else(|| panic!("there is no {from}")).0
}

/// A field of C, as `void *at` or `uint64_t owner[2]`, as ours: its name, and its type.
fn declared(it: &str) -> (String, String) {
    let (kind, mut name) = it.trim().rsplit_once([' ', '*']).unwrap();
    let kind = match kind.trim() {
        "uint8_t" => "u8",
        "uint32_t" => "u32",
        "uint64_t" => "u64",
        "size_t" => "usize",
        "void" => "*mut std::ffi::c_void",
        other => panic!("{other}"),
    };
    let mut kind = kind.to_string();
    if let Some((before, count)) = name.split_once('[') {
        (name, kind) = (before, format!("[{kind}; {}]", count.trim_end_matches(']')));
    }
    (name.to_string(), kind)
}

/// `size_t a, b` is two declarations.
fn fields(text: &str) -> Vec<(String, String)> {
    let mut found = Vec::new();
    for line in text.split(';').map(str::trim).filter(|it| !it.is_empty()) {
        let mut names = line.split(',');
        let first = declared(names.next().unwrap());
        let more: Vec<_> = names.map(|it| (it.trim().to_string(), first.1.clone())).collect();
        found.push(first);
        found.extend(more);
    }
    found
}

/// Names and types.
fn pairs(text: &str) -> Vec<(String, String)> {
    let words = |it: &str| it.trim().split_once(": ").map(|(name, kind)| (name.to_string(), kind.trim().to_string()));
    text.split(',').filter_map(words).collect()
}

#[test]
fn structures() {
    let (header, ours) = (header(), ours());
    for (theirs, called) in STRUCTURES {
        let wanted = fields(between(&header, &format!("\nstruct lab_{theirs} {{"), "};"));
        assert!(!wanted.is_empty());
        assert_eq!(pairs(between(&ours, &format!("struct {called} {{"), "}")), wanted, "{called}");
    }
    // (of C's two kinds of handles both are the same to us)
    assert_eq!(ours.matches("\n    struct ").count() + 1, STRUCTURES.len() - 1);
}

#[test]
fn numbers() {
    let (header, ours) = (header(), ours());
    let lines = |text: &str, from: &str| text.lines().filter_map(|it| it.trim().strip_prefix(from).map(str::to_string)).collect::<Vec<_>>();
    let there: HashMap<String, u32> = lines(&header, "#define LAB_")
        .iter()
        .filter_map(|it| it.split_once(' '))
        .filter_map(|(name, number)| Some((name.to_string(), number.trim().trim_end_matches('u').parse().ok()?)))
        .collect();
    let mut count = 0;
    for row in lines(&ours, "numbers! { ") {
        for one in row.trim_end_matches(" }").split(", ") {
            let (name, number) = one.split_once(" = ").unwrap();
            let called = CALLED.iter().find(|it| it.0 == name).map_or(name, |it| it.1);
            assert_eq!(there.get(called), Some(&number.parse().unwrap()), "{name}");
            count += 1;
        }
    }
    assert!(count > 20);
}
