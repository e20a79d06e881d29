//! The rules of a lock by their words, written apart from the crates: what lists.rs and answers.rs settle their lists by.
use std::io::{Result, Write};

#[derive(Clone, Copy, PartialEq, Eq, Hash)]
pub enum Kind {
    Read,
    Write,
    Mixed,
    Upgrade,
    Nested,
}

#[derive(Clone, Copy, PartialEq, PartialOrd)]
pub enum Status {
    Waiting,
    Entitled,
    Satisfied,
}

#[derive(Clone)]
pub struct Claim {
    pub stamp: usize,
    pub seat: usize,
    pub kind: Kind,
    pub write: bool,
    pub reads: u64,
    pub writes: u64,
    pub places: u64,
    pub length: u64,
    pub status: Status,
    pub asked: u64,
    pub granted: u64,
}

impl Claim {
    pub fn held(&self) -> (u64, u64) {
        match (self.kind, self.status) {
            (Kind::Nested, _) => (self.granted & self.reads, self.granted & self.writes),
            (_, Status::Satisfied) => (self.reads, self.writes),
            _ => (0, 0),
        }
    }

    pub fn conflicts(&self, other: &Claim) -> bool {
        self.writes & (other.reads | other.writes) != 0 || other.writes & (self.reads | self.writes) != 0
    }

    pub fn before(&self, other: &Claim) -> bool {
        self.write && self.stamp < other.stamp && self.places & other.places != 0
    }
}

/// What a task asks for, in normal form. An upgrade has its set in `reads`; lengths that its kind has not are 0.
#[derive(Clone, Copy)]
pub struct Request {
    pub kind: Kind,
    pub reads: u64,
    pub writes: u64,
    pub first: u64,
    pub length: u64,
    pub later: u64,
}

#[derive(Clone, Copy)]
pub enum Event {
    Issue(usize, Request),
    Finish(usize),
    Rise(usize),
    Ask(usize, u64),
}

/// The claims of a lock, and what is shared with each of its resources.
pub struct Lock {
    pub claims: Vec<Claim>,
    issued: usize,
    shared: Vec<u64>,
}

impl Lock {
    pub fn new(resources: usize, groups: &[u64]) -> Lock {
        let with = |l: usize| groups.iter().filter(|g| *g >> l & 1 == 1).fold(1 << l, |all, g| all | g);
        Lock { claims: Vec::new(), issued: 0, shared: (0..resources).map(with).collect() }
    }

    fn places(&self, reads: u64, writes: u64) -> u64 {
        self.shared.iter().enumerate().filter(|(l, _)| writes >> l & 1 == 1).fold(reads, |all, (_, places)| all | places)
    }

    fn add(&mut self, seat: usize, request: &Request, write: bool) {
        let Request { kind, first: asked, .. } = *request;
        let (reads, writes, length) = match (kind, write) {
            (Kind::Upgrade, true) => (0, request.reads, request.later),
            _ => (request.reads, request.writes, request.length),
        };
        let places = if write { self.places(reads, writes) } else { reads };
        let (stamp, status, granted) = (self.issued, Status::Waiting, 0);
        self.claims.push(Claim { stamp, seat, kind, write, reads, writes, places, length, status, asked, granted });
    }

    fn change(&mut self, event: Event) {
        match event {
            Event::Issue(seat, request) => {
                if matches!(request.kind, Kind::Read | Kind::Upgrade) {
                    self.add(seat, &request, false);
                }
                if request.kind != Kind::Read {
                    self.add(seat, &request, true);
                }
                self.issued += 1;
            }
            Event::Finish(seat) => self.claims.retain(|c| c.seat != seat),
            Event::Rise(seat) => self.claims.retain(|c| c.seat != seat || c.write),
            Event::Ask(seat, set) => self.claims.iter_mut().filter(|c| c.seat == seat).for_each(|c| c.asked = set),
        }
    }

    /// The four rules, each as it is written: reads, then writes by rising stamp, then which reads are kept for.
    fn settle(&mut self) {
        let old = self.claims.clone();
        for i in 0..old.len() {
            let kept_out = |c: &Claim| old.iter().any(|w| w.write && w.status > Status::Waiting && w.conflicts(c));
            if !old[i].write && !kept_out(&old[i]) {
                self.claims[i].status = Status::Satisfied;
            }
        }
        for i in 0..old.len() {
            let c = self.claims[i].clone();
            if !c.write || c.status == Status::Satisfied {
                continue;
            }
            let now = &self.claims;
            let between = |v: &Claim| {
                now.iter().any(|r| {
                    !r.write && r.status < Status::Satisfied && r.conflicts(v) && (r.reads | r.writes) & c.places != 0
                })
            };
            let makes_way = |v: &Claim| v.status == Status::Satisfied && v.writes & c.places == 0 && !between(v);
            if c.status == Status::Waiting && !now.iter().filter(|v| v.before(&c)).all(makes_way) {
                continue;
            }
            let held_up = now.iter().any(|v| {
                v.status == Status::Satisfied && v.conflicts(&c) && (!v.write || v.stamp < c.stamp)
            });
            self.claims[i].status = if held_up { Status::Entitled } else { Status::Satisfied };
        }
        for i in 0..old.len() {
            let now = &self.claims;
            let kept = now.iter().any(|w| w.write && w.status == Status::Satisfied && w.conflicts(&now[i]));
            if !now[i].write && now[i].status < Status::Satisfied {
                self.claims[i].status = if kept { Status::Entitled } else { Status::Waiting };
            }
        }
    }

    fn give(&mut self) {
        let now = self.claims.clone();
        for c in self.claims.iter_mut() {
            let part = c.asked & c.writes;
            let kept = now.iter().any(|v| {
                v.status == Status::Satisfied && (v.writes & c.asked != 0 || (v.reads | v.writes) & part != 0)
            });
            if c.status == Status::Satisfied || c.status == Status::Entitled && !kept {
                c.granted |= c.asked;
                c.asked = 0;
            }
        }
    }

    pub fn step(&mut self, event: Event) {
        self.change(event);
        self.settle();
        self.give();
    }

    pub fn of(&self, seat: usize) -> impl Iterator<Item = &Claim> {
        self.claims.iter().filter(move |c| c.seat == seat)
    }

    pub fn is_idle(&self, seat: usize) -> bool {
        self.of(seat).next().is_none()
    }

    pub fn asks(&self, seat: usize) -> bool {
        self.of(seat).any(|c| c.asked != 0)
    }

    pub fn holds(&self, seat: usize) -> (u64, u64) {
        self.of(seat).map(Claim::held).fold((0, 0), |a, b| (a.0 | b.0, a.1 | b.1))
    }
}

/// Numbers by xorshift, the same at each run.
pub struct Dice(pub u64);

impl Dice {
    pub fn below(&mut self, n: usize) -> usize {
        self.0 ^= self.0 << 13;
        self.0 ^= self.0 >> 7;
        self.0 ^= self.0 << 17;
        (self.0 >> 11) as usize % n
    }
}

/// The resources of a set, each `r` with its number.
pub fn set(members: u64) -> String {
    let names: Vec<_> = (0..64).filter(|l| members >> l & 1 == 1).map(|l| format!("r{l}")).collect();
    if names.is_empty() { "-".to_string() } else { names.join("+") }
}

pub fn write_event(out: &mut impl Write, event: Event) -> Result<()> {
    let (s, request) = match event {
        Event::Issue(s, request) => (s, request),
        Event::Finish(s) => return writeln!(out, "finish,t{s}"),
        Event::Rise(s) => return writeln!(out, "rise,t{s}"),
        Event::Ask(s, part) => return writeln!(out, "ask,t{s},{}", set(part)),
    };
    let Request { reads, writes, first, length, later, .. } = request;
    match request.kind {
        Kind::Read => writeln!(out, "issue,t{s},read,{},{length}", set(reads)),
        Kind::Write => writeln!(out, "issue,t{s},write,{},{length}", set(writes)),
        Kind::Mixed => writeln!(out, "issue,t{s},mixed,{},{},{length}", set(reads), set(writes)),
        Kind::Upgrade => writeln!(out, "issue,t{s},upgrade,{},{length},{later}", set(reads)),
        Kind::Nested => writeln!(out, "issue,t{s},nested,{},{},{},{length}", set(reads), set(writes), set(first)),
    }
}

/// What changed from the claims before to those now, as a report says it.
pub fn write_changes(out: &mut impl Write, before: &[Claim], now: &[Claim]) -> Result<()> {
    let was = |c: &Claim| before.iter().find(|b| b.stamp == c.stamp && b.write == c.write);
    for c in now {
        if was(c).map_or(Status::Waiting, |b| b.status) != c.status {
            let half = if c.write { "write" } else { "read" };
            let status = if c.status == Status::Satisfied { "satisfied" } else { "entitled" };
            writeln!(out, "now,t{},{half},{status}", c.seat)?;
        }
    }
    for c in now {
        let (had, has) = (was(c).map_or((0, 0), Claim::held), c.held());
        if has.0 & !had.0 != 0 || has.1 & !had.1 != 0 {
            writeln!(out, "grant,t{},{}", c.seat, set(has.0 | has.1))?;
        }
    }
    Ok(())
}
