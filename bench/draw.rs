//! What generated inputs are drawn from: sets, lengths, requests, and what a field is spoiled with.
use crate::model::Dice;

/// Fields that are none, or none at their place; and numbers of twenty digits.
pub const SPOILT: [&str; 21] = [
    "",
    "-",
    "zz",
    "R0",
    "r99",
    "t99",
    "0",
    "1",
    "64",
    "65",
    "1000001",
    "+1",
    "-1",
    "00000000000000000001",
    "000000000000000000001",
    "18446744073709551615",
    "18446744073709551616",
    "r0+-",
    "r0+",
    "+r0",
    "r0++r0",
];

/// The set of so many resources, 64 at most.
pub fn all(resources: usize) -> u64 {
    u64::MAX >> (64 - resources.clamp(1, 64))
}

/// Whether one more is declared of something than there may be. No other record is spoiled then, so that this one is reported.
pub fn is_too_many(resources: usize, groups: usize, tasks: usize) -> bool {
    resources > 64 || groups > 256 || tasks > 64
}

impl Dice {
    /// The dice of the input of this number.
    pub fn of(number: u64) -> Dice {
        let mut dice = Dice(number.wrapping_mul(0x9E37_79B9_7F4A_7C15) | 1);
        for _ in 0..8 {
            dice.below(2);
        }
        dice
    }

    /// Once in so many times; never for 0.
    pub fn once_in(&mut self, times: usize) -> bool {
        times > 0 && self.below(times) == 0
    }

    /// What the lines of an input end with.
    pub fn ending(&mut self) -> &'static str {
        if self.once_in(8) { "\r\n" } else { "\n" }
    }

    /// How many resources or tasks are declared, from `least` on: one more than there may be where that is a fault that is asked for.
    pub fn count(&mut self, least: usize, most: usize, faulty: bool) -> usize {
        if faulty && self.once_in(50) { 65 } else { least + self.below(most + 1 - least) }
    }

    /// How many groups are declared: at times as many as there may be, or one more.
    pub fn groups(&mut self, faulty: bool) -> usize {
        match self.below(100) {
            0 => 256,
            1 if faulty => 257,
            _ => self.below(6),
        }
    }

    /// A member of a set.
    pub fn member(&mut self, of: u64) -> usize {
        let members: Vec<_> = (0..64).filter(|l| of >> l & 1 == 1).collect();
        members[self.below(members.len())]
    }

    /// Some of the members of a set, at least one and at most so many; none of the empty set.
    pub fn some(&mut self, of: u64, most: usize) -> u64 {
        let count = if of == 0 { 0 } else { 1 + self.below(most) };
        (0..count).fold(0, |all, _| all | 1 << self.member(of))
    }

    /// A set as a field, in some order, at times with repeats.
    pub fn field(&mut self, set: u64) -> String {
        let mut names: Vec<_> = (0..64).filter(|l| set >> l & 1 == 1).map(|l| format!("r{l}")).collect();
        if names.is_empty() {
            return "-".to_string();
        }
        for i in 1..names.len() {
            let other = self.below(i + 1);
            names.swap(i, other);
        }
        if self.below(8) == 0 {
            names.push(names[0].clone());
        }
        names.join("+")
    }

    fn length(&mut self) -> String {
        match self.below(20) {
            0 => "1000000".to_string(),
            1 => format!("000{}", self.below(100)),
            2 => format!("{:020}", self.below(100)),
            _ => self.below(12).to_string(),
        }
    }

    /// The kind of a request with its sets and lengths, as fields; one that is spoiled may be about nothing, undeclared, or have a
    /// first part outside its sets.
    pub fn request(&mut self, resources: usize, groups: &[u64], spoilt: bool) -> String {
        let whole = all(resources);
        let (mut reads, mut writes) = (self.some(whole, 3), self.some(whole, 3));
        let length = self.length();
        if self.below(4) == 0 {
            reads = 0;
        }
        if spoilt && self.below(3) == 0 {
            writes = 0;
        }
        let declared = match groups.len() {
            _ if spoilt => writes,
            0 => self.some(whole, 1),
            count => groups[self.below(count)],
        };
        let part = self.some(declared, 4);
        let (r, w, s) = (self.field(reads), self.field(writes), self.field(part));
        match self.below(5) {
            0 => format!("read,{s},{length}"),
            1 => format!("write,{w},{length}"),
            2 => format!("mixed,{r},{w},{length}"),
            3 => format!("upgrade,{s},{length},{}", self.length()),
            _ => {
                let first = if spoilt { self.some(whole, 2) & !reads } else { self.some(reads | writes, 2) };
                format!("nested,{r},{w},{},{length}", self.field(first))
            }
        }
    }
}
