//! Reports to be audited, each drawn from its number alone: that of a list without faults, with acts of its sections, and in about
//! half of them with records that are spoiled. A long one has one such record.
use crate::auditor::Auditor;
use crate::draw::all;
use crate::events::error_line;
use crate::judge::Fault;
use crate::model::Dice;

/// Words that are taken for each other.
const WORDS: [(&str, &str); 8] = [
    ("yes", "no"),
    ("entitled", "satisfied"),
    ("read", "write"),
    ("first", "rise"),
    ("show", "take"),
    ("now", "grant"),
    ("take", "add"),
    ("set", "show"),
];

/// What a field is exchanged for.
const WRONG: [&str; 14] = [
    "-",
    "zz",
    "t0",
    "r0",
    "r0+",
    "+r0",
    "1",
    "+1",
    "-1",
    "00000000000000000001",
    "000000000000000000001",
    "18446744073709551615",
    "18446744073709551616",
    "wait,t0,ask,1,0,1,1,0,1",
];

/// Of a report with more bytes than an audit reads at once, one record alone is spoiled.
const WINDOW: usize = 65_536;

pub struct Report {
    dice: Dice,
    auditor: Auditor,
    pub text: String,
    records: usize,
    fault: Option<(usize, Fault)>,
    /// Of how many records one is spoiled; 0 for none.
    spoils: usize,
    /// The number of the record that alone is spoiled, of a long report.
    alone: Option<usize>,
    /// How many records were put.
    puts: usize,
    /// What its lines end with.
    ending: &'static str,
}

impl Report {
    /// Draws acts into a report without them, and spoils it.
    pub fn drawn(mut dice: Dice, bare: &str) -> Report {
        let long = bare.len() > WINDOW;
        let spoils = if long || dice.below(2) == 0 { 0 } else { 10 + dice.below(200) };
        let alone = long.then(|| 1 + dice.below(bare.lines().count()));
        let ending = dice.ending();
        let (auditor, text) = (Auditor::new(), String::new());
        let mut report = Report { dice, auditor, text, records: 0, fault: None, spoils, alone, puts: 0, ending };
        for line in bare.lines() {
            if line.starts_with("ledger,") {
                report.ledger(line);
            } else {
                report.put(line);
            }
            if line.starts_with("finish,") || line.starts_with("rise,") {
                report.acts();
            }
        }
        report
    }

    fn ledger(&mut self, bare: &str) {
        let name = bare.split(',').nth(1).expect("a ledger names its resource");
        let l: usize = name[1..].parse().expect("a number");
        let (balance, edits) = self.auditor.ledgers.get(l).copied().unwrap_or((0, 0));
        self.put(&format!("ledger,{name},{balance},{edits}"));
    }

    /// What the section that ends or rises did.
    fn acts(&mut self) {
        for _ in 0..self.dice.below(4) {
            let Some((reads, writes, edits)) = self.auditor.section() else { return };
            let blind = self.dice.once_in(self.spoils);
            let l = self.dice.member(if blind { all(self.auditor.ledgers.len()) } else { reads | writes });
            let balance = self.auditor.ledgers[l].0;
            let line = if blind && self.dice.below(2) == 0 || edits && writes >> l & 1 == 1 && self.dice.below(3) > 0 {
                let word = ["add", "take", "set"][self.dice.below(3)];
                let amount = match self.dice.below(12) {
                    0 => balance,
                    1 => balance + 1,
                    2 => 1_000_000_000_000_000_000 - balance,
                    3 => 1_000_000_000_000_000_001 - balance,
                    4 => u64::MAX,
                    _ => self.dice.below(1000) as u64,
                };
                let answer = if self.auditor.is_taken(word, l, amount) { "yes" } else { "no" };
                format!("{word},r{l},{amount},{answer}")
            } else {
                format!("show,r{l},{balance}")
            };
            self.put(&line);
        }
    }

    /// Puts a record into the report, at times spoiled.
    fn put(&mut self, record: &str) {
        self.puts += 1;
        if self.alone != Some(self.puts) && !self.dice.once_in(self.spoils) {
            return self.line(record);
        }
        let mut fields: Vec<String> = record.split(',').map(str::to_string).collect();
        let at = self.dice.below(fields.len());
        // A name that is declared stays the letter with its number, by which it is known.
        let declares = matches!(fields[0].as_str(), "resource" | "task");
        match self.dice.below(9) {
            0 if !declares => return,
            1 => self.line(record),
            2 => drop(fields.remove(at)),
            3 => fields.insert(at, "0".to_string()),
            4 if !declares => fields[at] = turned(&fields[at]),
            5 => fields[at] = format!("\"{}\"", fields[at]),
            6 => fields[at] = format!("0{}", fields[at]),
            7 => {
                let other = ["end", "ledger,r0,0,0", "now,t0,write,satisfied", "grant,t0,r0", "show,r0,0", "add,r0,1,yes", "cap,2", "finish,t0"];
                let which = self.dice.below(other.len());
                self.line(other[which]);
            }
            _ if declares => fields[at].push('-'),
            _ => fields[at] = WRONG[self.dice.below(WRONG.len())].to_string(),
        }
        self.line(&fields.join(","));
    }

    fn line(&mut self, line: &str) {
        self.text.push_str(line);
        self.text.push_str(self.ending);
        if line.is_empty() {
            return;
        }
        self.records += 1;
        if self.fault.is_none() {
            let fields: Vec<_> = line.split(',').map(|field| field.trim_matches('"')).collect();
            self.fault = self.auditor.take(self.records, &fields).err().map(|fault| (self.records, fault));
        }
    }

    pub fn due(&self) -> String {
        let answer = match self.fault {
            Some(fault) => Err(fault),
            None => self.auditor.answer(self.records),
        };
        answer.unwrap_or_else(error_line)
    }
}

/// Another field in its place: a number one more or less, a word's opposite.
fn turned(field: &str) -> String {
    let other = WORDS.iter().flat_map(|(a, b)| [(*a, *b), (*b, *a)]).find(|(a, _)| *a == field);
    match (field.parse::<u64>(), other) {
        (Ok(n), _) if n % 2 == 1 => (n - 1).to_string(),
        (Ok(n), _) => (n + 1).to_string(),
        (_, Some((_, word))) => word.to_string(),
        _ if field.starts_with('t') => if field == "t0" { "t1" } else { "t0" }.to_string(),
        _ => if field == "r0" { "r1" } else { "r0" }.to_string(),
    }
}
