//! The waits of a history by the words of the rules, for the model of model.rs: which end, what covers them, what bounds them.
use crate::model::{write_changes, write_event, Claim, Event, Kind, Lock, Status};
use std::collections::{BTreeMap, HashMap, HashSet};
use std::io::{Result, Write};

/// Which wait of its request it is.
#[derive(Clone, Copy, PartialEq)]
pub enum Stage {
    First,
    Rise,
    Ask,
}

impl Stage {
    pub fn word(self) -> &'static str {
        match self {
            Stage::First => "first",
            Stage::Rise => "rise",
            Stage::Ask => "ask",
        }
    }
}

/// A claim by its stamp, and whether it is a write.
type Id = (usize, bool);

/// The moments of a wait at which one and the same write keeps it up; of an ask, all of its moments.
struct Stretch {
    keeper: Option<Id>,
    /// What conflicts and was satisfied at each moment at which the keeper was not, if there was such a moment.
    throughout: Option<Vec<Id>>,
    satisfied: bool,
}

/// A wait that goes on, with its claim as it began to wait.
struct Run {
    claim: Claim,
    stage: Stage,
    stretches: Vec<Stretch>,
}

/// A claim that some request has, as far as bounds ask.
#[derive(Clone, Copy, PartialEq, Eq, Hash)]
pub struct Need {
    seat: usize,
    kind: Kind,
    write: bool,
    reads: u64,
    writes: u64,
    places: u64,
    length: u64,
}

impl Need {
    pub fn of(c: &Claim) -> Need {
        Need { seat: c.seat, kind: c.kind, write: c.write, reads: c.reads, writes: c.writes, places: c.places, length: c.length }
    }
}

/// How many sections count as reads, how many as writes, and what their lengths come to.
pub type Sections = (usize, usize, u64);

/// Which wait the claim at a place of the list has, if it waits. That of an upgrade's write half begins with its rise.
fn wait_at(claims: &[Claim], i: usize) -> Option<Stage> {
    let c = &claims[i];
    let stage = match c.kind {
        Kind::Nested if c.held() != (0, 0) => return if c.asked != 0 { Some(Stage::Ask) } else { None },
        Kind::Upgrade if c.write && i > 0 && claims[i - 1].stamp == c.stamp => return None,
        Kind::Upgrade if c.write => Stage::Rise,
        _ => Stage::First,
    };
    if c.status == Status::Satisfied { None } else { Some(stage) }
}

/// Of each claim the place of the least write of its line, if it is a write.
fn least_of_lines(claims: &[Claim]) -> Vec<usize> {
    let mut least: Vec<usize> = Vec::new();
    for (i, c) in claims.iter().enumerate() {
        let before = claims[..i].iter().zip(&least).filter(|(v, _)| v.before(c)).map(|(_, first)| *first);
        least.push(if c.write { before.min().unwrap_or(i) } else { i });
    }
    least
}

impl Run {
    /// Takes a moment, at which its claim stands at this place.
    fn pass(&mut self, claims: &[Claim], i: usize, least: &[usize], satisfied: &HashSet<Id>) {
        let claim = &claims[i];
        let keeper = match self.stage {
            Stage::Ask => None,
            _ if claim.write => Some(&claims[least[i]]),
            _ => claims.iter().find(|v| v.write && v.status > Status::Waiting && v.conflicts(claim)),
        };
        let id = keeper.map(|v| (v.stamp, v.write));
        if self.stretches.last().map_or(true, |s| s.keeper != id) {
            self.stretches.push(Stretch { keeper: id, throughout: None, satisfied: false });
        }
        let stretch = self.stretches.last_mut().expect("one is there");
        if keeper.is_some_and(|v| v.status == Status::Satisfied) {
            stretch.satisfied = true;
        } else if let Some(before) = &mut stretch.throughout {
            before.retain(|id| satisfied.contains(id));
        } else {
            let part = claim.asked & claim.writes;
            let meets = |c: &&Claim| match keeper {
                Some(v) => c.conflicts(v) && !(claim.write && c.write),
                None => c.writes & claim.asked != 0 || (c.reads | c.writes) & part != 0,
            };
            let there = claims.iter().filter(|c| c.status == Status::Satisfied).filter(meets);
            stretch.throughout = Some(there.map(|c| (c.stamp, c.write)).collect());
        }
    }

    /// The sections of its cover, where each claim has the length that is given.
    fn cover(&self, length: &HashMap<Id, u64>) -> Sections {
        let taken = |s: &Stretch| s.throughout.as_ref().map(|all| *all.iter().min().expect("one is satisfied throughout"));
        let reads: HashSet<_> = self.stretches.iter().filter_map(taken).collect();
        let writes: HashSet<_> = self.stretches.iter().filter(|s| s.satisfied).filter_map(|s| s.keeper).collect();
        let units = reads.iter().chain(&writes).map(|id| length[id]).sum();
        (reads.len(), writes.len(), units)
    }
}

/// The history of a report as it grows; the bounds of waits are put into it at the end.
#[derive(Default)]
pub struct History {
    text: Vec<u8>,
    runs: BTreeMap<usize, Run>,
    needs: HashSet<Need>,
    length: HashMap<Id, u64>,
    /// Where a bound is due, and of which wait.
    gaps: Vec<(usize, Claim, Stage)>,
}

impl History {
    /// Takes an event, and reports it with what it changes and the waits that it ends.
    pub fn take(&mut self, lock: &mut Lock, event: Event) -> Result<()> {
        let before = lock.claims.clone();
        lock.step(event);
        write_event(&mut self.text, event)?;
        write_changes(&mut self.text, &before, &lock.claims)?;
        if let Event::Issue(seat, ..) = event {
            self.needs.extend(lock.of(seat).map(Need::of));
            self.length.extend(lock.of(seat).map(|c| ((c.stamp, c.write), c.length)));
        }
        self.follow(&lock.claims)
    }

    fn follow(&mut self, claims: &[Claim]) -> Result<()> {
        let waits: Vec<_> = (0..claims.len()).filter_map(|i| Some((i, wait_at(claims, i)?))).collect();
        let goes_on = |stamp: usize, run: &Run| waits.iter().any(|&(i, stage)| claims[i].stamp == stamp && stage == run.stage);
        let ended: Vec<_> = self.runs.iter().filter(|(stamp, run)| !goes_on(**stamp, run)).map(|(stamp, _)| *stamp).collect();
        for stamp in ended {
            let run = self.runs.remove(&stamp).expect("it went on");
            let word = run.stage.word();
            let (reads, writes, units) = run.cover(&self.length);
            write!(self.text, "wait,t{},{word},{reads},{writes},{units}", run.claim.seat)?;
            self.gaps.push((self.text.len(), run.claim, run.stage));
        }
        let least = least_of_lines(claims);
        let satisfied = claims.iter().filter(|c| c.status == Status::Satisfied).map(|c| (c.stamp, c.write)).collect();
        for (i, stage) in waits {
            let claim = &claims[i];
            let run = self.runs.entry(claim.stamp).or_insert_with(|| Run { claim: claim.clone(), stage, stretches: Vec::new() });
            run.pass(claims, i, &least, &satisfied);
        }
        Ok(())
    }

    /// How much is reported so far.
    pub fn told(&self) -> usize {
        self.text.len()
    }

    /// The lines that were reported from there on, those of waits without their bounds.
    pub fn lines_from(&self, mut at: usize) -> Vec<String> {
        let mut parts = Vec::new();
        let ends = self.gaps.iter().map(|gap| gap.0).filter(|to| *to > at).chain([self.text.len()]);
        for to in ends.collect::<Vec<_>>() {
            let part = std::str::from_utf8(&self.text[at..to]).expect("names are letters");
            parts.extend(part.lines().map(str::to_string));
            at = to;
        }
        parts
    }

    /// The bounds of the reported waits, by all needs.
    pub fn bounds(&self, cap: usize) -> Vec<Sections> {
        let mut bounds = Bounds::of(&self.needs, cap);
        self.gaps.iter().map(|(_, claim, stage)| bounds.of_wait(claim, *stage)).collect()
    }

    /// Writes what was reported, with the bounds by all needs.
    pub fn write(&self, out: &mut impl Write, cap: usize) -> Result<()> {
        let mut at = 0;
        for ((to, ..), (reads, writes, units)) in self.gaps.iter().zip(self.bounds(cap)) {
            out.write_all(&self.text[at..*to])?;
            writeln!(out, ",{reads},{writes},{units}")?;
            at = *to;
        }
        out.write_all(&self.text[at..])
    }
}

/// The bounds of waits by what all requests need; those that were asked for once are kept.
pub struct Bounds<'a> {
    needs: &'a HashSet<Need>,
    cap: usize,
    zones: Vec<u64>,
    kept: HashMap<(u8, usize, u64), Sections>,
}

impl<'a> Bounds<'a> {
    pub fn of(needs: &'a HashSet<Need>, cap: usize) -> Bounds<'a> {
        let mut zones: Vec<u64> = Vec::new();
        for need in needs {
            let met = zones.iter().filter(|z| **z & need.places != 0).fold(need.places, |all, z| all | z);
            zones.retain(|z| z & need.places == 0);
            zones.push(met);
        }
        Bounds { needs, cap, zones, kept: HashMap::new() }
    }

    pub fn of_wait(&mut self, c: &Claim, stage: Stage) -> Sections {
        let key = match stage {
            Stage::Ask => (0, c.seat, c.asked & c.writes),
            _ if c.write => (1, c.seat, *self.zones.iter().find(|z| **z & c.places != 0).expect("it was told")),
            _ => (2, c.seat, c.reads),
        };
        if let Some(found) = self.kept.get(&key) {
            return *found;
        }
        let found = match key.0 {
            0 => self.of_ask(c.seat, key.2),
            1 => self.of_write(c.seat, key.2),
            _ => self.of_read(c.seat, key.2),
        };
        self.kept.insert(key, found);
        found
    }

    fn of_ask(&self, seat: usize, part: u64) -> Sections {
        let readers = || self.needs.iter().filter(|n| n.seat != seat && n.reads & part != 0);
        (usize::from(readers().next().is_some()), 0, longest(readers()))
    }

    fn of_write(&self, seat: usize, zone: u64) -> Sections {
        let there = || self.needs.iter().filter(|n| n.seat != seat && n.places & zone != 0);
        let readers: HashSet<_> = there().filter(|n| !n.write).map(|n| n.seat).collect();
        let mut writers = [None; 64];
        for n in there().filter(|n| n.write) {
            writers[n.seat] = writers[n.seat].max(Some(n.length));
        }
        let mut lengths: Vec<u64> = writers.iter().flatten().copied().collect();
        lengths.sort_by(|a, b| b.cmp(a));
        let w = lengths.len().min(self.cap - 1);
        let rises = there().any(|n| n.kind == Kind::Upgrade);
        let few = !rises && (w == self.cap - 1 || readers.iter().all(|r| writers[*r].is_some()));
        let r = if readers.is_empty() { 0 } else if few { w } else { w + 1 };
        (r, w, lengths[..w].iter().sum::<u64>() + r as u64 * longest(there().filter(|n| !n.write)))
    }

    fn of_read(&self, seat: usize, reads: u64) -> Sections {
        let keepers = || self.needs.iter().filter(|v| v.write && v.seat != seat && v.writes & reads != 0);
        let Some(length) = keepers().map(|v| v.length).max() else { return (0, 0, 0) };
        let mut written = [0; 64];
        keepers().for_each(|v| written[v.seat] |= v.writes);
        // A claim holds up a keeper of another task that writes what it reads, or as read half its own write half.
        let of_others = |t: usize| (0..64).filter(|s| *s != t).fold(0, |all, s| all | written[s]);
        let beneath: Vec<u64> = (0..64).map(of_others).collect();
        let own_half = |c: &Need| c.kind == Kind::Upgrade && !c.write && c.reads & reads != 0;
        let holders = || self.needs.iter().filter(|c| c.seat != seat && (c.reads & beneath[c.seat] != 0 || own_half(c)));
        (usize::from(holders().next().is_some()), 1, length + longest(holders()))
    }
}

/// The longest of some needs; 0 where there is none.
fn longest<'a>(needs: impl Iterator<Item = &'a Need>) -> u64 {
    needs.map(|n| n.length).max().unwrap_or(0)
}
