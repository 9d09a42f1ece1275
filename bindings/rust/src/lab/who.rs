//! Who holds and who waits.
use super::*;
use std::cmp::Reverse;

/// A session that holds or waits: see [`Lab::sessions`](crate::Lab::sessions).
///
/// ```
/// let lab = labrun::LabOptions::new(["scope", "supply"]).station("board", ["scope"]).open()?;
/// let _held = lab.station("board")?.hold(&["scope"]).begin()?;
/// let all = lab.sessions()?;
/// assert_eq!((all[0].number, all[0].station.as_deref(), all[0].holds), (1, Some("board"), true));
/// # Ok::<(), labrun::Error>(())
/// ```
#[derive(Clone, Debug, PartialEq, Eq)]
pub struct Who {
    /// Its number.
    pub number: u64,
    /// Its station; none if it is a guest's.
    pub station: Option<String>,
    /// What it holds; of one that waits, all that it would take.
    pub instruments: Vec<String>,
    /// Whether it holds; with a journal perhaps just before its owner is told.
    pub holds: bool,
    /// For how long it has held, or waits.
    pub span: Duration,
}

/// For how long it has stood so.
fn since(now: u64, it: &Standing) -> Duration {
    Duration::from_millis(now.saturating_sub(it.since))
}

impl Shell<'_> {
    pub fn sessions(&mut self) -> Result<Vec<Who>, Error> {
        let (now, options) = (self.inner.now(), &self.inner.options);
        let all = self.standing()?.into_iter().filter(|it| [HOLDS, WAITS].contains(&it.what));
        let who = |it: Standing| {
            let (number, holds) = (it.number, it.what == HOLDS);
            let its = if holds { it.needs } else { self.lacks(number)? };
            let instruments = options.of(its).into_iter().map(String::from).collect();
            Ok(Who { number, station: options.station_of(it.kind).map(String::from), instruments, holds, span: since(now, &it) })
        };
        all.map(who).collect()
    }

    /// Who keeps each of these instruments from a session; or, if nobody does, who has its places if all are taken. Those come first whose
    /// chain ends at who has held longest.
    pub fn keepers(&mut self, number: u64, wants: u64, kind: u32) -> Result<Vec<Keeper>, Error> {
        let (now, kept) = (self.inner.now(), self.kept(number, wants)?);
        let mut found = kept.into_iter().map(|it| self.chain(now, it)).collect::<Result<Vec<_>, Error>>()?;
        if found.is_empty() {
            found = self.in_its_places(now, kind)?;
        }
        found.sort_by_key(|it| Reverse(it.end().held_for));
        Ok(found)
    }

    /// A keeper of an instrument, with those behind it, if it waits itself.
    fn chain(&mut self, now: u64, (at, it): (u32, Standing)) -> Result<Keeper, Error> {
        let next = if it.what == HOLDS { None } else { self.next_behind(it.number)? };
        let behind = next.map(|next| self.chain(now, next)).transpose()?.map(Box::new);
        Ok(Keeper { behind, ..self.keeper(now, &self.inner.options.instruments[at as usize], &it) })
    }

    fn keeper(&self, now: u64, instrument: &str, it: &Standing) -> Keeper {
        let job = self.inner.options.station_of(it.kind).map_or_else(|| format!("guest {}", it.number), String::from);
        let holds = it.what == HOLDS;
        Keeper { instrument: instrument.into(), job, holds, held_for: holds.then(|| since(now, it)), behind: None }
    }

    /// Who has the places of a class; nobody if one is free.
    fn in_its_places(&mut self, now: u64, kind: u32) -> Result<Vec<Keeper>, Error> {
        let mut its = self.standing()?;
        its.retain(|it| it.what == HOLDS && it.kind == kind);
        let are_taken = its.len() >= self.inner.options.classes[kind as usize].places as usize;
        Ok(its.iter().filter(|_| are_taken).map(|it| self.keeper(now, "its place", it)).collect())
    }

    /// Which of these instruments are kept from a session, in their order, and by whom.
    fn kept(&mut self, number: u64, wants: u64) -> Result<Vec<(u32, Standing)>, Error> {
        let (mut found, mut it) = (Vec::new(), Standing::default());
        for at in (0..64).filter(|at| wants >> at & 1 == 1) {
            if self.reads(|bay| lab_bay_keeper(bay, number, at, &mut it))? == DONE {
                found.push((at, it));
            }
        }
        Ok(found)
    }

    /// The instruments of all sets for which a session waits.
    fn lacks(&mut self, number: u64) -> Result<u64, Error> {
        let (mut all, mut needs, mut set) = (0, 0, 0);
        while self.reads(|bay| lab_bay_waits(bay, number, set, &mut needs, &mut 0))? == DONE {
            (all, set) = (all | needs, set + 1);
        }
        Ok(all)
    }

    /// For whom one waits that keeps others waiting: somebody who holds, or else who asked before it. (One of its sets may be kept from it
    /// for one that came later, and waits for it in turn. But of those that asked before there is always one, and so the chain has an end.)
    fn next_behind(&mut self, number: u64) -> Result<Option<(u32, Standing)>, Error> {
        let lacks = self.lacks(number)?;
        let mut kept = self.kept(number, lacks)?;
        kept.retain(|(_, it)| it.what == HOLDS || it.number < number);
        Ok(kept.into_iter().min_by_key(|(_, it)| it.what != HOLDS))
    }
}
