//! What `rnlp bound` must answer to a script: its first fault by the words of the formats, or the bounds of its waits.
use crate::judge::{is_name, numbered, request_refusal};
use crate::model::{Claim, Event, Kind, Lock, Request};
use crate::waits::{Bounds, Need, Stage};
use std::collections::HashSet;
use std::fmt::Write;

/// The code of a record's fault.
type Code = u8;

/// What stood last in the script.
#[derive(Clone, Copy, PartialEq, PartialOrd)]
pub enum Place {
    Start,
    Version,
    Resources,
    Groups,
    Tasks,
    End,
}

/// A section that has not finished.
#[derive(Clone, Copy)]
pub struct Section {
    pub request: Request,
    pub held: u64,
    pub writable: u64,
    pub risen: bool,
}

/// A script as far as it was read without a fault.
pub struct Clerk {
    pub place: Place,
    pub resources: usize,
    pub groups: Vec<u64>,
    pub section: Option<Section>,
    /// Of each task its requests, each with the asks of its section.
    pub tasks: Vec<Vec<(Request, Vec<u64>)>>,
}

fn demand(holds: bool, code: Code) -> Result<(), Code> {
    if holds { Ok(()) } else { Err(code) }
}

fn number(field: &str, most: u64) -> Result<u64, Code> {
    crate::judge::number(field, most).map_err(|_| 9)
}

impl Clerk {
    pub fn new() -> Clerk {
        Clerk { place: Place::Start, resources: 0, groups: Vec::new(), section: None, tasks: Vec::new() }
    }

    fn resource(&self, name: &str) -> Result<usize, Code> {
        numbered(name, 'r', self.resources).ok_or(8)
    }

    fn set(&self, field: &str) -> Result<u64, Code> {
        let pieces = field.split('+').filter(|_| field != "-");
        pieces.into_iter().try_fold(0, |all, name| Ok(all | 1 << self.resource(name)?))
    }

    /// A name that is declared, of which there are so many.
    fn declare(name: &str, letter: char, there: usize) -> Result<(), Code> {
        demand(is_name(name), 1)?;
        demand(numbered(name, letter, there).is_none(), 2)?;
        demand(there < 64, 3)
    }

    /// Whether a record may stand here that belongs outside sections, or in them.
    fn stand(&self, from: Place, to: Place, inside: bool) -> Result<(), Code> {
        demand(from <= self.place && self.place <= to && self.section.is_some() == inside, 11)
    }

    /// Takes a record of the script, or answers its code.
    pub fn take(&mut self, fields: &[&str]) -> Result<(), Code> {
        match fields {
            ["rnlp", "1"] => {
                self.stand(Place::Start, Place::Start, false)?;
                self.place = Place::Version;
            }
            ["resource", name] => {
                self.stand(Place::Version, Place::Resources, false)?;
                Clerk::declare(name, 'r', self.resources)?;
                (self.place, self.resources) = (Place::Resources, self.resources + 1);
            }
            ["group", field] => {
                self.stand(Place::Resources, Place::Groups, false)?;
                demand(self.groups.len() < 256, 3)?;
                let group = self.set(field)?;
                demand(group != 0, 4)?;
                self.place = Place::Groups;
                self.groups.push(group);
            }
            ["task", name] => {
                self.stand(Place::Version, Place::Tasks, false)?;
                demand(self.resources > 0, 15)?;
                Clerk::declare(name, 't', self.tasks.len())?;
                self.place = Place::Tasks;
                self.tasks.push(Vec::new());
            }
            ["end"] => {
                self.stand(Place::Version, Place::Tasks, false)?;
                demand(self.resources > 0, 15)?;
                demand(!self.tasks.is_empty(), 16)?;
                self.place = Place::End;
            }
            ["read", s, l] => self.begin(Kind::Read, [s, "-", "-"], [l, "0"])?,
            ["write", s, l] => self.begin(Kind::Write, ["-", s, "-"], [l, "0"])?,
            ["mixed", r, w, l] => self.begin(Kind::Mixed, [r, w, "-"], [l, "0"])?,
            ["upgrade", s, l, later] => self.begin(Kind::Upgrade, [s, "-", "-"], [l, later])?,
            ["nested", r, w, first, l] => self.begin(Kind::Nested, [r, w, first], [l, "0"])?,
            _ => self.inside(fields)?,
        }
        Ok(())
    }

    fn begin(&mut self, kind: Kind, sets: [&str; 3], lengths: [&str; 2]) -> Result<(), Code> {
        self.stand(Place::Tasks, Place::Tasks, false)?;
        let (reads, writes, first) = (self.set(sets[0])?, self.set(sets[1])?, self.set(sets[2])?);
        let (length, later) = (number(lengths[0], 1_000_000)?, number(lengths[1], 1_000_000)?);
        let request = Request { kind, reads: reads & !writes, writes, first, length, later };
        let code = |refusal: u8| if refusal == 7 { 5 } else if refusal == 8 { 6 } else { 7 };
        request_refusal(&self.groups, &request).map_or(Ok(()), |refusal| Err(code(refusal)))?;
        let held = if kind == Kind::Nested { first } else { request.reads | writes };
        self.section = Some(Section { request, held, writable: writes, risen: false });
        self.tasks.last_mut().expect("a task stands before").push((request, Vec::new()));
        Ok(())
    }

    /// A record that belongs into a section.
    fn inside(&mut self, fields: &[&str]) -> Result<(), Code> {
        let known = matches!(fields, ["show", _] | ["add" | "take" | "set", _, _] | ["ask", _] | ["rise"] | ["finish"]);
        demand(known, 10)?;
        self.stand(Place::Tasks, Place::Tasks, true)?;
        let section = self.section.expect("one is open");
        let Section { request, held, writable, risen } = section;
        match fields {
            ["show", name] => demand(held >> self.resource(name)? & 1 == 1, 12),
            [_, name, amount] => {
                let l = self.resource(name)?;
                number(amount, u64::MAX)?;
                demand(held >> l & 1 == 1, 12)?;
                demand(writable >> l & 1 == 1, 13)
            }
            ["ask", field] => {
                demand(request.kind == Kind::Nested, 11)?;
                let part = self.set(field)?;
                demand(part != 0 && part & !(request.reads | request.writes) == 0, 12)?;
                self.section = Some(Section { held: held | part, ..section });
                self.tasks.last_mut().and_then(|task| task.last_mut()).expect("its request is there").1.push(part);
                Ok(())
            }
            ["rise"] => {
                demand(request.kind == Kind::Upgrade && !risen, 11)?;
                self.section = Some(Section { writable: held, risen: true, ..section });
                Ok(())
            }
            _ => {
                self.section = None;
                Ok(())
            }
        }
    }

    /// The claims of a request of a task.
    fn claims(&self, task: usize, request: &Request) -> Vec<Claim> {
        let mut lock = Lock::new(self.resources, &self.groups);
        lock.step(Event::Issue(task, *request));
        lock.claims
    }

    /// The bounds of the script, which has ended.
    pub fn bounds(&self) -> String {
        let requests = || self.tasks.iter().enumerate().flat_map(|(t, all)| all.iter().enumerate().map(move |(k, one)| (t, k, one)));
        let needs: HashSet<_> = requests().flat_map(|(t, _, (request, _))| self.claims(t, request)).map(|c| Need::of(&c)).collect();
        let (mut bounds, mut text) = (Bounds::of(&needs, self.tasks.len()), String::new());
        for (t, k, (request, asks)) in requests() {
            let claims = self.claims(t, request);
            let asking = |part: &u64| (Claim { asked: *part, ..claims[0].clone() }, Stage::Ask);
            let rise = claims.get(1).map(|half| (half.clone(), Stage::Rise));
            let waits = [(claims[0].clone(), Stage::First)].into_iter().chain(rise).chain(asks.iter().map(asking));
            for (claim, stage) in waits {
                let (reads, writes, units) = bounds.of_wait(&claim, stage);
                writeln!(text, "bound,t{t},{},{},{reads},{writes},{units}", k + 1, stage.word()).expect("a text grows");
            }
        }
        text + "end\n"
    }
}
