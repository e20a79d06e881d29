//! Event lists, each drawn from its number alone. About half of them have no fault. In the others some records are spoiled: a field is
//! lost, added or exchanged, a record stands twice, at a wrong place or after the end, an event is drawn without a look at who holds
//! what.
use crate::draw::{all, is_too_many, SPOILT};
use crate::judge::{Fault, Judge, Place};
use crate::model::{Dice, Kind};

const MISPLACED: [&str; 7] = ["rnlp,1", "resource,r0", "group,r0", "task,t0", "cap,3", "end", "finish,t0"];

/// Of how many lists one is long.
const LONG: usize = 250;

/// A list as it is drawn, with what its judge says of it.
pub struct List {
    pub dice: Dice,
    judge: Judge,
    pub text: String,
    records: usize,
    fault: Option<(usize, Fault)>,
    /// Of how many records one is spoiled; 0 for none.
    spoils: usize,
    /// What its lines end with.
    ending: &'static str,
}

impl List {
    pub fn drawn(number: u64, faultless: bool) -> List {
        let mut dice = Dice::of(number);
        let spoils = if dice.below(2) == 0 || faultless { 0 } else { 4 + dice.below(60) };
        let ending = dice.ending();
        let mut list = List { dice, judge: Judge::new(), text: String::new(), records: 0, fault: None, spoils, ending };
        list.head();
        let events = if list.dice.once_in(LONG) { 2000 } else { list.dice.below(100) };
        for _ in 0..events {
            list.event();
        }
        if list.spoils == 0 || list.dice.below(20) > 0 {
            list.put("end".to_string());
        }
        if list.spoils > 0 && list.dice.below(20) == 0 {
            list.event();
        }
        list
    }

    fn head(&mut self) {
        let (most, many) = ([2, 4, 8, 64][self.dice.below(4)], [2, 5, 9, 64][self.dice.below(4)]);
        let faulty = self.spoils > 0;
        let (resources, tasks) = (self.dice.count(1, most, faulty), self.dice.count(1, many, faulty));
        let groups = self.dice.groups(faulty);
        if is_too_many(resources, groups, tasks) {
            self.spoils = 0;
        }
        self.put("rnlp,1".to_string());
        (0..resources).for_each(|l| self.put(format!("resource,r{l}")));
        for _ in 0..groups {
            let group = self.dice.some(all(resources), 5);
            let field = self.dice.field(group);
            self.put(format!("group,{field}"));
        }
        (0..tasks).for_each(|t| self.put(format!("task,t{t}")));
        if self.dice.below(2) == 0 {
            let cap = 1 + self.dice.below(tasks.min(63) + 1);
            self.put(format!("cap,{cap}"));
        }
    }

    /// Draws the next event: of a seat that may act, unless records are spoiled.
    fn event(&mut self) {
        let tasks = self.judge.tasks.max(1);
        let start = self.dice.below(tasks);
        let blind = self.dice.once_in(self.spoils);
        let acts = |judge: &Judge, t: usize| match judge.lock.is_idle(t) {
            true => (0..tasks).filter(|t| !judge.lock.is_idle(*t)).count() < judge.most(),
            false => judge.lock.holds(t) != (0, 0) && !judge.lock.asks(t),
        };
        let found = (0..tasks).map(|d| (start + d) % tasks).find(|t| blind || acts(&self.judge, *t));
        let seat = found.unwrap_or(start);
        let own = self.judge.lock.of(seat).next().map(|c| (c.kind, c.write, c.reads | c.writes));
        let record = match (own, self.dice.below(6)) {
            (Some((Kind::Upgrade, false, _)), 0..=2) => format!("rise,t{seat}"),
            (Some((Kind::Nested, _, within)), 0..=2) => {
                let part = if blind { self.dice.some(all(self.judge.resources), 3) & !within } else { self.dice.some(within, 3) };
                format!("ask,t{seat},{}", self.dice.field(part))
            }
            (None, _) if !blind || self.dice.below(2) == 0 => self.issue(seat),
            (Some(_), 5) if blind => self.issue(seat),
            (_, 4) if blind => format!("rise,t{seat}"),
            (_, 3) if blind => format!("ask,t{seat},r0"),
            _ => format!("finish,t{seat}"),
        };
        self.put(record);
    }

    fn issue(&mut self, seat: usize) -> String {
        let spoilt = self.dice.once_in(self.spoils);
        let request = self.dice.request(self.judge.resources, &self.judge.groups, spoilt);
        format!("issue,t{seat},{request}")
    }

    /// Puts a record into the list, at times spoiled.
    fn put(&mut self, record: String) {
        if self.dice.once_in(2 * self.spoils) {
            let mut fields: Vec<String> = record.split(',').map(str::to_string).collect();
            let at = self.dice.below(fields.len());
            let names = matches!(fields[0].as_str(), "resource" | "task");
            match self.dice.below(7) {
                0 => drop(fields.remove(at)),
                1 => fields.insert(at, SPOILT[self.dice.below(SPOILT.len())].to_string()),
                2 if !names => fields[at] = SPOILT[self.dice.below(SPOILT.len())].to_string(),
                3 => self.line(&record),
                4 => {
                    let at = self.dice.below(MISPLACED.len());
                    self.line(MISPLACED[at]);
                }
                5 => self.text.push_str(self.ending),
                _ => fields[at] = format!("\"{}\"", fields[at]),
            }
            self.line(&fields.join(","));
        } else {
            self.line(&record);
        }
    }

    /// Adds a line, and has it judged if it is a record and none before it has a fault.
    fn line(&mut self, line: &str) {
        self.text.push_str(line);
        self.text.push_str(self.ending);
        if line.is_empty() {
            return;
        }
        self.records += 1;
        if self.fault.is_none() {
            let fields: Vec<_> = line.split(',').map(|field| field.trim_matches('"')).collect();
            self.fault = self.judge.take(&fields).err().map(|fault| (self.records, fault));
        }
    }

    pub fn due(&self) -> String {
        match self.fault {
            Some(fault) => error_line(fault),
            None if self.judge.place != Place::End => error_line((self.records + 1, (8, None))),
            None => String::from_utf8(self.judge.report()).expect("names are letters"),
        }
    }
}

/// The line of the fault of a record.
pub fn error_line((record, (code, sub)): (usize, Fault)) -> String {
    match sub {
        Some(sub) => format!("error,{record},{code},{sub}\n"),
        None => format!("error,{record},{code}\n"),
    }
}
