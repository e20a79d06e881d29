//! What `rnlp audit` must answer to a report: its first fault, or how many events and waits it has.
use crate::judge::{demand, number, numbered, Fault, Judge, Place, NAME, ORDER};
use crate::model::set;

const CHANGE: Fault = (5, None);
const ANSWER: Fault = (6, None);
const LEDGER: Fault = (7, None);

/// The greatest balance.
const MOST: u128 = 1_000_000_000_000_000_000;

/// What a section did that an event ends or raises: what it held, and whether edits may follow the event.
#[derive(Clone, Copy)]
struct Acts {
    reads: u64,
    writes: u64,
    edits: bool,
}

/// An act as it is reported.
pub enum Act<'a> {
    Show(usize, u64),
    Edit(&'a str, usize, u64, bool),
}

/// A report as far as it was read without a fault.
pub struct Auditor {
    pub judge: Judge,
    pub events: usize,
    /// Of each resource its balance, and how many edits were taken.
    pub ledgers: Vec<(u64, u64)>,
    ledgers_told: usize,
    /// The lines that are due after the last event, and how many of them were read.
    due: Vec<String>,
    read: usize,
    acts: Option<Acts>,
    /// The record of each wait, and the bound that it gives.
    waits: Vec<(usize, [u64; 3])>,
}

impl Auditor {
    pub fn new() -> Auditor {
        let (ledgers, due, waits) = (Vec::new(), Vec::new(), Vec::new());
        Auditor { judge: Judge::new(), events: 0, ledgers, ledgers_told: 0, due, read: 0, acts: None, waits }
    }

    /// What the section of the last event held, for reading and for writing, while acts may stand.
    pub fn section(&self) -> Option<(u64, u64, bool)> {
        self.acts.map(|acts| (acts.reads, acts.writes, acts.edits))
    }

    fn resource(&self, field: &str) -> Result<usize, Fault> {
        numbered(field, 'r', self.judge.resources).ok_or(NAME)
    }

    fn task(&self, field: &str) -> Result<usize, Fault> {
        numbered(field, 't', self.judge.tasks).ok_or(NAME)
    }

    /// Takes a record of the report, or answers its fault.
    pub fn take(&mut self, record: usize, fields: &[&str]) -> Result<(), Fault> {
        match fields {
            ["show", resource, shown] => {
                let shown = number(shown, u64::MAX)?;
                let act = Act::Show(self.resource(resource)?, shown);
                self.act(act)
            }
            [word @ ("add" | "take" | "set"), resource, amount, answer @ ("yes" | "no")] => {
                let amount = number(amount, u64::MAX)?;
                let act = Act::Edit(word, self.resource(resource)?, amount, *answer == "yes");
                self.act(act)
            }
            ["now", task, half @ ("read" | "write"), status @ ("entitled" | "satisfied")] => {
                let line = format!("now,t{},{half},{status}", self.task(task)?);
                self.line(record, line, None)
            }
            ["grant", task, field] => {
                let line = format!("grant,t{},{}", self.task(task)?, set(self.judge.resource_set(field)?));
                self.line(record, line, None)
            }
            ["wait", task, which @ ("first" | "rise" | "ask"), numbers @ ..] if numbers.len() == 6 => {
                let n: Vec<_> = numbers.iter().map(|field| number(field, u64::MAX)).collect::<Result<_, _>>()?;
                let line = format!("wait,t{},{which},{},{},{}", self.task(task)?, n[0], n[1], n[2]);
                self.line(record, line, Some([n[3], n[4], n[5]]))
            }
            ["ledger", resource, balance, edits] => {
                let (balance, edits) = (number(balance, u64::MAX)?, number(edits, u64::MAX)?);
                let resource = self.resource(resource)?;
                self.ledger(resource, (balance, edits))
            }
            ["end"] => self.end(),
            _ => self.other(fields),
        }
    }

    fn is_due(&self) -> bool {
        self.read < self.due.len()
    }

    fn act(&mut self, act: Act) -> Result<(), Fault> {
        let Some(acts) = self.acts else { return Err(if self.is_due() { CHANGE } else { ORDER }) };
        match act {
            Act::Show(l, shown) => {
                let held = (acts.reads | acts.writes) >> l & 1 == 1;
                demand(held && self.ledgers[l].0 == shown, ANSWER)
            }
            Act::Edit(word, l, amount, taken) => {
                demand(acts.edits && acts.writes >> l & 1 == 1 && self.is_taken(word, l, amount) == taken, ANSWER)?;
                if taken {
                    self.ledgers[l] = (after(self.ledgers[l].0, word, amount) as u64, self.ledgers[l].1 + 1);
                }
                Ok(())
            }
        }
    }

    pub fn is_taken(&self, word: &str, l: usize, amount: u64) -> bool {
        (0..=MOST as i128).contains(&after(self.ledgers[l].0, word, amount))
    }

    fn line(&mut self, record: usize, line: String, bound: Option<[u64; 3]>) -> Result<(), Fault> {
        if !self.is_due() {
            return Err(if self.judge.place == Place::End { ORDER } else { CHANGE });
        }
        demand(self.due[self.read] == line, CHANGE)?;
        self.read += 1;
        self.acts = None;
        self.waits.extend(bound.map(|bound| (record, bound)));
        Ok(())
    }

    /// What follows the entries begins with the first ledger.
    fn leave_entries(&mut self) -> Result<(), Fault> {
        demand(!self.is_due(), CHANGE)?;
        let behind = matches!(self.judge.place, Place::Tasks | Place::Cap | Place::Events | Place::Ledgers);
        demand(behind, ORDER)
    }

    fn ledger(&mut self, l: usize, told: (u64, u64)) -> Result<(), Fault> {
        self.leave_entries()?;
        self.open_ledgers();
        demand(self.ledgers_told < self.judge.resources, ORDER)?;
        demand(l == self.ledgers_told && told == self.ledgers[l], LEDGER)?;
        self.ledgers_told += 1;
        self.judge.place = Place::Ledgers;
        self.acts = None;
        Ok(())
    }

    fn end(&mut self) -> Result<(), Fault> {
        self.leave_entries()?;
        demand(self.ledgers_told == self.judge.resources, LEDGER)?;
        self.judge.place = Place::End;
        self.acts = None;
        Ok(())
    }

    fn open_ledgers(&mut self) {
        self.ledgers.resize(self.judge.resources, (0, 0));
    }

    /// A record of the head, or of an event.
    fn other(&mut self, fields: &[&str]) -> Result<(), Fault> {
        if self.is_due() {
            let place = std::mem::replace(&mut self.judge.place, Place::Ledgers);
            let fault = self.judge.take(fields).expect_err("nothing may follow the ledgers");
            self.judge.place = place;
            return Err(if fault == ORDER { CHANGE } else { fault });
        }
        let seat = fields.get(1).and_then(|task| self.task(task).ok());
        let (reads, writes) = seat.map_or((0, 0), |seat| self.judge.lock.holds(seat));
        let told = self.judge.history.told();
        self.judge.take(fields)?;
        if self.judge.place == Place::Events {
            self.open_ledgers();
            self.events += 1;
            self.due = self.judge.history.lines_from(told).split_off(1);
            self.read = 0;
            let acts = Acts { reads, writes, edits: fields[0] == "finish" };
            self.acts = matches!(fields[0], "finish" | "rise").then_some(acts);
        }
        Ok(())
    }

    /// What is answered once there are no more records, of which there were so many.
    pub fn answer(&self, records: usize) -> Result<String, (usize, Fault)> {
        if self.judge.place != Place::End {
            return Err((records + 1, (8, None)));
        }
        let due = self.judge.history.bounds(self.judge.most());
        let right = |told: &[u64; 3], (r, w, u): &(usize, usize, u64)| *told == [*r as u64, *w as u64, *u];
        match self.waits.iter().zip(&due).find(|((_, told), bound)| !right(told, bound)) {
            Some(((record, _), _)) => Err((*record, (9, None))),
            None => Ok(format!("audit,{},{}\nend\n", self.events, self.waits.len())),
        }
    }
}

/// The balance that an edit makes, where it is taken.
fn after(balance: u64, word: &str, amount: u64) -> i128 {
    let (balance, amount) = (i128::from(balance), i128::from(amount));
    match word {
        "add" => balance + amount,
        "take" => balance - amount,
        _ => amount,
    }
}
