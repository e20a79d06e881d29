//! What `rnlp replay` must answer to a list, and `rnlp audit` to a report, by the words of the formats: the first fault, or what is
//! due.
use crate::model::{set, Event, Kind, Lock, Request};
use crate::waits::History;
use std::io::Write;

/// A code, and for a refused event why.
pub type Fault = (u8, Option<u8>);

const FIELD: Fault = (1, None);
pub const NAME: Fault = (2, None);
pub const ORDER: Fault = (3, None);

/// What stood last in the list.
#[derive(Clone, Copy, PartialEq, PartialOrd)]
pub enum Place {
    Start,
    Version,
    Resources,
    Groups,
    Tasks,
    Cap,
    Events,
    Ledgers,
    End,
}

/// A list as far as it was read without a fault.
pub struct Judge {
    pub place: Place,
    pub resources: usize,
    pub groups: Vec<u64>,
    pub tasks: usize,
    pub cap: Option<usize>,
    pub lock: Lock,
    pub history: History,
}

/// Why a request is none, or is not admitted under these groups: 7 it is about nothing, 9 its first part, 8 it is not declared.
pub fn request_refusal(groups: &[u64], request: &Request) -> Option<u8> {
    let all = request.reads | request.writes;
    let reads_alone = matches!(request.kind, Kind::Read | Kind::Upgrade);
    if if reads_alone { request.reads == 0 } else { request.writes == 0 } {
        Some(7)
    } else if request.kind == Kind::Nested && (request.first == 0 || request.first & !all != 0) {
        Some(9)
    } else if reads_alone && all.count_ones() > 1 && !groups.iter().any(|g| all & !g == 0) {
        Some(8)
    } else {
        None
    }
}

fn refused(sub: u8) -> Result<(), Fault> {
    Err((4, Some(sub)))
}

pub fn number(field: &str, most: u64) -> Result<u64, Fault> {
    let digits = (1..=20).contains(&field.len()) && field.bytes().all(|b| b.is_ascii_digit());
    field.parse().ok().filter(|n| digits && *n <= most).ok_or(FIELD)
}

/// The number of a name, which is a letter with that number; only such names are declared.
pub fn numbered(field: &str, letter: char, below: usize) -> Option<usize> {
    let digits = field.strip_prefix(letter)?;
    digits.parse().ok().filter(|n: &usize| *n < below && n.to_string() == digits)
}

pub fn is_name(field: &str) -> bool {
    let inner = |b: u8| b.is_ascii_lowercase() || b.is_ascii_digit() || b == b'_';
    field.len() <= 16 && field.bytes().all(inner) && field.bytes().next().is_some_and(|b| b.is_ascii_lowercase())
}

impl Judge {
    pub fn new() -> Judge {
        let lock = Lock::new(0, &[]);
        Judge { place: Place::Start, resources: 0, groups: Vec::new(), tasks: 0, cap: None, lock, history: History::default() }
    }

    pub fn most(&self) -> usize {
        self.cap.unwrap_or(self.tasks)
    }

    pub fn resource_set(&self, field: &str) -> Result<u64, Fault> {
        if field == "-" {
            return Ok(0);
        }
        let piece = |name| numbered(name, 'r', self.resources).ok_or(NAME);
        field.split('+').try_fold(0, |all, name| Ok(all | 1 << piece(name)?))
    }

    /// Takes a record of the list, or answers its fault.
    pub fn take(&mut self, fields: &[&str]) -> Result<(), Fault> {
        match fields {
            ["rnlp", version] => {
                demand(*version == "1", FIELD)?;
                self.stand(&[Place::Start], Place::Version)
            }
            ["resource", name] => {
                let known = numbered(name, 'r', self.resources).is_some();
                demand(is_name(name) && !known && self.resources < 64, FIELD)?;
                self.stand(&[Place::Version, Place::Resources], Place::Resources)?;
                self.resources += 1;
                Ok(())
            }
            ["group", field] => {
                demand(self.groups.len() < 256 && *field != "-", FIELD)?;
                let group = self.resource_set(field)?;
                self.stand(&[Place::Resources, Place::Groups], Place::Groups)?;
                self.groups.push(group);
                Ok(())
            }
            ["task", name] => {
                let known = numbered(name, 't', self.tasks).is_some();
                demand(is_name(name) && !known && self.tasks < 64, FIELD)?;
                self.stand(&[Place::Resources, Place::Groups, Place::Tasks], Place::Tasks)?;
                self.tasks += 1;
                Ok(())
            }
            ["cap", field] => {
                let cap = number(field, 64)?;
                demand(cap > 0, FIELD)?;
                self.stand(&[Place::Tasks], Place::Cap)?;
                self.cap = Some(cap as usize);
                Ok(())
            }
            ["end"] => self.stand(&[Place::Tasks, Place::Cap, Place::Events], Place::End),
            ["issue", task, kind, rest @ ..] => self.issue(task, kind, rest),
            ["finish", task] => self.step(task, Event::Finish),
            ["rise", task] => self.step(task, Event::Rise),
            ["ask", task, field] => {
                let part = numbered(task, 't', self.tasks).ok_or(NAME).and_then(|_| self.resource_set(field))?;
                self.step(task, |seat| Event::Ask(seat, part))
            }
            _ => Err(FIELD),
        }
    }

    fn stand(&mut self, behind: &[Place], place: Place) -> Result<(), Fault> {
        demand(behind.contains(&self.place), ORDER)?;
        self.place = place;
        Ok(())
    }

    fn issue(&mut self, task: &str, kind: &str, rest: &[&str]) -> Result<(), Fault> {
        let (kind, sets, lengths) = match (kind, rest) {
            ("read", [s, l]) => (Kind::Read, [*s, "-", "-"], [*l, "0"]),
            ("write", [s, l]) => (Kind::Write, ["-", *s, "-"], [*l, "0"]),
            ("mixed", [r, w, l]) => (Kind::Mixed, [*r, *w, "-"], [*l, "0"]),
            ("upgrade", [s, l, later]) => (Kind::Upgrade, [*s, "-", "-"], [*l, *later]),
            ("nested", [r, w, f, l]) => (Kind::Nested, [*r, *w, *f], [*l, "0"]),
            _ => return Err(FIELD),
        };
        let (length, later) = (number(lengths[0], 1_000_000)?, number(lengths[1], 1_000_000)?);
        numbered(task, 't', self.tasks).ok_or(NAME)?;
        let (reads, writes, first) = (self.resource_set(sets[0])?, self.resource_set(sets[1])?, self.resource_set(sets[2])?);
        self.step(task, |seat| Event::Issue(seat, Request { kind, reads: reads & !writes, writes, first, length, later }))
    }

    fn step(&mut self, task: &str, event: impl FnOnce(usize) -> Event) -> Result<(), Fault> {
        let seat = numbered(task, 't', self.tasks).ok_or(NAME)?;
        let event = event(seat);
        let place = self.place;
        self.stand(&[Place::Tasks, Place::Cap, Place::Events], Place::Events)?;
        if place != Place::Events {
            self.lock = Lock::new(self.resources, &self.groups);
        }
        self.may_be(event)?;
        self.history.take(&mut self.lock, event).expect("memory takes all");
        Ok(())
    }

    /// Why an event is refused, the first reason in the order of the formats.
    fn may_be(&self, event: Event) -> Result<(), Fault> {
        let (Event::Issue(seat, _) | Event::Finish(seat) | Event::Rise(seat) | Event::Ask(seat, _)) = event;
        if let Event::Issue(_, request) = event {
            return self.may_be_issued(seat, &request);
        }
        let held = self.lock.holds(seat);
        if held == (0, 0) || self.lock.asks(seat) {
            return refused(3);
        }
        let own = self.lock.of(seat).next().expect("it holds something");
        match event {
            Event::Rise(_) if own.kind != Kind::Upgrade || own.write => refused(4),
            Event::Ask(..) if own.kind != Kind::Nested => refused(5),
            Event::Ask(_, part) if part == 0 || part & !(own.reads | own.writes) != 0 => refused(6),
            _ => Ok(()),
        }
    }

    fn may_be_issued(&self, seat: usize, request: &Request) -> Result<(), Fault> {
        if let Some(sub) = request_refusal(&self.groups, request) {
            refused(sub)
        } else if !self.lock.is_idle(seat) {
            refused(1)
        } else if (0..self.tasks).filter(|t| !self.lock.is_idle(*t)).count() >= self.most() {
            refused(2)
        } else {
            Ok(())
        }
    }

    /// The report of the list, which has ended.
    pub fn report(&self) -> Vec<u8> {
        let mut out = b"rnlp,1\n".to_vec();
        let mut line = |text: String| writeln!(out, "{text}").expect("memory takes all");
        (0..self.resources).for_each(|l| line(format!("resource,r{l}")));
        self.groups.iter().for_each(|g| line(format!("group,{}", set(*g))));
        (0..self.tasks).for_each(|t| line(format!("task,t{t}")));
        line(format!("cap,{}", self.most()));
        self.history.write(&mut out, self.most()).expect("memory takes all");
        (0..self.resources).for_each(|l| writeln!(out, "ledger,r{l},0,0").expect("memory takes all"));
        out.extend_from_slice(b"end\n");
        out
    }
}

pub fn demand(holds: bool, fault: Fault) -> Result<(), Fault> {
    if holds { Ok(()) } else { Err(fault) }
}
