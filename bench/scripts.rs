//! Scripts, each drawn from its number alone: tasks with sections of every kind, their acts and asks, and in about half of them records
//! that are spoiled.
use crate::clerk::{Clerk, Place, Section};
use crate::draw::{all, is_too_many, SPOILT};
use crate::model::{Dice, Kind};

const MISPLACED: [&str; 12] = [
    "rnlp,1", "resource,r0", "group,r0", "group,-", "task,t0", "end", "finish", "rise", "ask,r0", "show,r0", "set,r0,1", "write,r0,1",
];

/// A script as it is drawn, with what its clerk says of it.
pub struct Script {
    dice: Dice,
    clerk: Clerk,
    pub text: String,
    records: usize,
    fault: Option<(usize, u8)>,
    /// Of how many records one is spoiled; 0 for none.
    spoils: usize,
    /// What its lines end with.
    ending: &'static str,
}

impl Script {
    pub fn drawn(number: u64) -> Script {
        let mut dice = Dice::of(number);
        let spoils = if dice.below(2) == 0 { 0 } else { 4 + dice.below(60) };
        let ending = dice.ending();
        let mut script = Script { dice, clerk: Clerk::new(), text: String::new(), records: 0, fault: None, spoils, ending };
        let (faulty, least) = (spoils > 0, if spoils > 0 { 0 } else { 1 });
        let (most, many) = ([2, 4, 8, 64][script.dice.below(4)], [2, 5, 9, 64][script.dice.below(4)]);
        let (resources, tasks) = (script.dice.count(least, most, faulty), script.dice.count(least, many, faulty));
        let groups = script.dice.groups(faulty) * resources.min(1);
        if is_too_many(resources, groups, tasks) {
            script.spoils = 0;
        }
        script.head(resources, groups);
        for task in 0..tasks {
            script.put(&format!("task,t{task}"));
            for _ in 0..script.dice.below(6) {
                script.section();
            }
        }
        if spoils == 0 || script.dice.below(20) > 0 {
            script.put("end");
        }
        script
    }

    fn head(&mut self, resources: usize, groups: usize) {
        self.put("rnlp,1");
        (0..resources).for_each(|l| self.put(&format!("resource,r{l}")));
        for _ in 0..groups {
            let group = self.dice.some(all(resources), 5);
            let field = self.dice.field(group);
            self.put(&format!("group,{field}"));
        }
    }

    fn section(&mut self) {
        let spoilt = self.dice.once_in(self.spoils);
        let request = self.dice.request(self.clerk.resources, &self.clerk.groups, spoilt);
        self.put(&request);
        for _ in 0..self.dice.below(6) {
            let Some(section) = self.clerk.section else { break };
            let blind = self.dice.once_in(self.spoils);
            let record = self.statement(section, blind);
            self.put(&record);
        }
        self.put("finish");
    }

    fn statement(&mut self, section: Section, blind: bool) -> String {
        let Section { request, held, writable, risen } = section;
        let of = |part: u64| if blind { all(self.clerk.resources) } else { part };
        let (shown, edited, asked) = (of(held), of(held & writable), of(request.reads | request.writes));
        match self.dice.below(4) {
            0 if request.kind == Kind::Nested || blind => {
                let part = self.dice.some(asked, 3);
                format!("ask,{}", self.dice.field(part))
            }
            1 if request.kind == Kind::Upgrade && !risen || blind => "rise".to_string(),
            2 if edited != 0 => {
                let (word, amount) = (["add", "take", "set"][self.dice.below(3)], self.amount());
                format!("{word},r{},{amount}", self.dice.member(edited))
            }
            _ => format!("show,r{}", self.dice.member(shown)),
        }
    }

    fn amount(&mut self) -> u64 {
        if self.dice.once_in(20) { u64::MAX } else { self.dice.below(1000) as u64 }
    }

    /// Puts a record into the script, at times spoiled.
    fn put(&mut self, record: &str) {
        if !self.dice.once_in(2 * self.spoils) {
            return self.line(record);
        }
        let mut fields: Vec<String> = record.split(',').map(str::to_string).collect();
        let at = self.dice.below(fields.len());
        // A name that is declared stays the letter with its number, by which it is known.
        let declares = matches!(fields[0].as_str(), "resource" | "task");
        match self.dice.below(8) {
            0 => drop(fields.remove(at)),
            1 => fields.insert(at, SPOILT[self.dice.below(SPOILT.len())].to_string()),
            2 if !declares => fields[at] = SPOILT[self.dice.below(SPOILT.len())].to_string(),
            2 => fields[1] = ["", "R1", "9", "a-b", "abcdefghijklmnopq"][self.dice.below(5)].to_string(),
            3 => self.line(record),
            4 | 5 => {
                let which = self.dice.below(MISPLACED.len());
                self.line(MISPLACED[which]);
            }
            6 if !declares => return,
            _ => fields[at] = format!("\"{}\"", fields[at]),
        }
        self.line(&fields.join(","));
    }

    fn line(&mut self, line: &str) {
        self.text.push_str(line);
        self.text.push_str(self.ending);
        if line.is_empty() {
            return;
        }
        self.records += 1;
        if self.fault.is_none() {
            let fields: Vec<_> = line.split(',').map(|field| field.trim_matches('"')).collect();
            self.fault = self.clerk.take(&fields).err().map(|code| (self.records, code));
        }
    }

    pub fn due(&self) -> String {
        match self.fault {
            Some((record, code)) => format!("error,{record},{code}\n"),
            None if self.clerk.place != Place::End => format!("error,{},14\n", self.records + 1),
            None => self.clerk.bounds(),
        }
    }
}
