//! Who keeps a session waiting, up to who holds, and since when.
use std::fmt;
use std::time::Duration;

/// Somebody who keeps an instrument from a waiting session: it holds it, or is in line for it and comes first.
///
/// ```
/// let lab = labrun::Lab::new(["scope"])?;
/// let held = lab.hold(&["scope"]).begin()?;
/// let Err(labrun::Error::TimedOut(keepers)) = lab.hold(&["scope"]).timeout(std::time::Duration::ZERO).begin() else { panic!() };
/// assert!(keepers[0].holds && keepers[0].to_string().starts_with("scope has been held by guest 1 for "));
/// # drop(held);
/// # Ok::<(), labrun::Error>(())
/// ```
#[derive(Clone, Debug, PartialEq, Eq)]
pub struct Keeper {
    /// The instrument; `its place` if nobody keeps one, and the session waits for its station, or a guest's place.
    pub instrument: String,
    /// The other one: a station, or a guest with its number.
    pub job: String,
    /// Whether it holds the instrument; if nobody does, it waits itself, and comes first.
    pub holds: bool,
    /// For how long it has held, if it holds.
    pub held_for: Option<Duration>,
    /// If it waits itself, why: the keeper that it waits for, whose own is the next, and the last of them holds.
    pub behind: Option<Box<Keeper>>,
}

impl Keeper {
    /// The end of the chain: who holds.
    pub fn end(&self) -> &Keeper {
        self.behind.as_deref().map_or(self, Keeper::end)
    }

    /// As ` for 125 s`, of one that holds; with one decimal below ten seconds.
    fn for_long(&self) -> String {
        let span = self.held_for.map(|it| it.as_secs_f64());
        span.map_or(String::new(), |it| format!(" for {it:.0$} s", usize::from(it < 10.0)))
    }
}

/// Who keeps one waiting, behind `waits`. Those at the ends of the chains come first: they are the ones to look after.
pub(crate) fn because(keepers: &[Keeper]) -> String {
    if keepers.is_empty() {
        return ": by now nobody holds what it wants".to_string();
    }
    let mut ends: Vec<String> = Vec::new();
    for end in keepers.iter().filter(|it| it.behind.is_some()).map(Keeper::end) {
        let told = format!("{}, at {}{}", end.job, end.instrument, end.for_long());
        if !ends.contains(&told) {
            ends.push(told);
        }
    }
    let ends = if ends.is_empty() { String::new() } else { format!(" for {}", ends.join(" and ")) };
    let all: Vec<String> = keepers.iter().map(Keeper::to_string).collect();
    format!("{ends}: {}", all.join(", "))
}

impl fmt::Display for Keeper {
    fn fmt(&self, out: &mut fmt::Formatter<'_>) -> fmt::Result {
        let (mut it, mut joins) = (self, if self.held_for.is_some() { " has been" } else { " is" });
        loop {
            write!(out, "{}{joins} {} {}{}", it.instrument, if it.holds { "held by" } else { "kept for" }, it.job, it.for_long())?;
            let Some(next) = &it.behind else { return Ok(()) };
            write!(out, ", which waits for ")?;
            (it, joins) = (next, ",");
        }
    }
}
