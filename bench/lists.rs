//! Writes a large event list, or the report that is due for it, by a model of the rules that is written apart from the crates.
//!
//! `lists NAME N list` and `lists NAME N report` write the list NAME of N events, and its report. Each seat that may act
//! is as likely to act next as any other; where it holds something it finishes, or rises or asks if it can.
//! `lists NAME N replay` reads such a list, and writes its report: the same work as `rnlp replay`, with nothing proved.
//! `lists drill N drill` draws a drill of N events, and writes its summary, as `rnlp drill N` does.
mod model;
// answers.rs uses all of it.
#[allow(dead_code)]
mod waits;

use model::{write_event, Claim, Dice, Event, Kind, Lock, Request, Status};
use std::collections::HashMap;
use std::env;
use std::io::{BufWriter, Read, Result, Write, stdin, stdout};
use waits::History;

/// What a list is about: how many resources there are, whether neighbours share a group, and how many tasks issue.
struct Shape {
    resources: usize,
    groups: bool,
    tasks: usize,
    kinds: &'static [Kind],
    most: usize,
}

impl Shape {
    fn lock(&self) -> Lock {
        let pairs: Vec<_> = (1..self.resources).filter(|_| self.groups).map(|l| 3 << (l - 1)).collect();
        Lock::new(self.resources, &pairs)
    }

    /// What the seat does next, if it may act.
    fn choose(&self, lock: &Lock, seat: usize, dice: &mut Dice) -> Option<Event> {
        let Some(own) = lock.of(seat).next() else {
            if lock.claims.len() >= self.most {
                return None;
            }
            let kind = self.kinds[dice.below(self.kinds.len())];
            let last = if self.groups { self.resources - 1 } else { self.resources };
            let (l, k) = (dice.below(last), dice.below(last));
            let pair = if self.groups { 3 << l } else { 1 << l };
            return Some(match kind {
                Kind::Read | Kind::Upgrade => issue(seat, kind, pair, 0, 0),
                Kind::Write if self.kinds.len() == 2 => issue(seat, kind, 0, 1 << l | 1 << k, 0),
                Kind::Write => issue(seat, kind, 0, 1 << l, 0),
                Kind::Mixed => issue(seat, kind, pair & !(1 << l), 1 << l, 0),
                Kind::Nested => issue(seat, kind, 0, pair, 1 << l),
            });
        };
        let (reads, writes) = lock.holds(seat);
        if reads | writes == 0 || lock.asks(seat) {
            return None;
        }
        let rest = (own.reads | own.writes) & !(reads | writes);
        Some(match own.kind {
            Kind::Upgrade if !own.write && dice.below(2) == 0 => Event::Rise(seat),
            Kind::Nested if rest != 0 && dice.below(2) == 0 => Event::Ask(seat, rest),
            _ => Event::Finish(seat),
        })
    }
}

/// A request whose lengths are 1.
fn issue(seat: usize, kind: Kind, reads: u64, writes: u64, first: u64) -> Event {
    let later = u64::from(kind == Kind::Upgrade);
    Event::Issue(seat, Request { kind, reads, writes, first, length: 1, later })
}

fn shape_of(name: &str) -> Shape {
    use Kind::*;
    let (resources, groups, kinds, most): (_, _, &[Kind], _) = match name {
        "alone" => (32, false, &[Write], 1),
        "queues" => (32, false, &[Write], 128),
        "short-queues" => (64, false, &[Write], 128),
        "readers-and-writers" => (32, false, &[Read, Write], 128),
        "few-resources" => (16, false, &[Read, Write], 128),
        "all-kinds" => (32, true, &[Read, Write, Mixed, Upgrade, Nested], 128),
        "drill" => (8, true, &[Read, Write, Mixed, Upgrade, Nested], 128),
        _ => panic!("no list is named {}", name),
    };
    Shape { resources, groups, tasks: if name == "drill" { 8 } else { 64 }, kinds, most }
}

/// The numbers of the names that a list declares, and its events as they stand.
struct Names<'a> {
    resources: HashMap<&'a str, usize>,
    tasks: HashMap<&'a str, usize>,
}

impl<'a> Names<'a> {
    fn set(&self, field: &str) -> u64 {
        if field == "-" { 0 } else { field.split('+').fold(0, |all, name| all | 1 << self.resources[name]) }
    }

    fn event(&self, fields: &[&str]) -> Event {
        let (seat, set) = (self.tasks[fields[1]], |i: usize| self.set(fields[i]));
        match (fields[0], fields.get(2)) {
            ("issue", Some(&"read")) => issue(seat, Kind::Read, set(3), 0, 0),
            ("issue", Some(&"write")) => issue(seat, Kind::Write, 0, set(3), 0),
            ("issue", Some(&"mixed")) => issue(seat, Kind::Mixed, set(3) & !set(4), set(4), 0),
            ("issue", Some(&"upgrade")) => issue(seat, Kind::Upgrade, set(3), 0, 0),
            ("issue", _) => issue(seat, Kind::Nested, set(3) & !set(4), set(4), set(5)),
            ("finish", _) => Event::Finish(seat),
            ("rise", _) => Event::Rise(seat),
            _ => Event::Ask(seat, set(2)),
        }
    }
}

fn write_head(out: &mut impl Write, shape: &Shape, report: bool) -> Result<()> {
    writeln!(out, "rnlp,1")?;
    (0..shape.resources).try_for_each(|l| writeln!(out, "resource,r{l}"))?;
    (1..shape.resources).filter(|_| shape.groups).try_for_each(|l| writeln!(out, "group,r{}+r{l}", l - 1))?;
    (0..shape.tasks).try_for_each(|t| writeln!(out, "task,t{t}"))?;
    if report { writeln!(out, "cap,{}", shape.tasks) } else { Ok(()) }
}

fn write_tail(out: &mut impl Write, shape: &Shape, report: bool) -> Result<()> {
    if report {
        (0..shape.resources).try_for_each(|l| writeln!(out, "ledger,r{l},0,0"))?;
    }
    writeln!(out, "end")
}

fn generate(shape: &Shape, out: &mut impl Write, count: usize, report: bool) -> Result<()> {
    let (mut dice, mut lock, mut history) = (Dice(88172645463325252), shape.lock(), History::default());
    let tasks = shape.tasks;
    write_head(out, shape, report)?;
    for _ in 0..count {
        let start = dice.below(tasks);
        let event = (0..tasks).find_map(|d| shape.choose(&lock, (start + d) % tasks, &mut dice)).expect("somebody holds");
        if report {
            history.take(&mut lock, event)?;
        } else {
            lock.step(event);
            write_event(out, event)?;
        }
    }
    history.write(out, tasks)?;
    write_tail(out, shape, report)
}

fn replay(shape: &Shape, out: &mut impl Write) -> Result<()> {
    let mut text = String::new();
    stdin().read_to_string(&mut text)?;
    let mut names = Names { resources: HashMap::new(), tasks: HashMap::new() };
    let (mut lock, mut history) = (shape.lock(), History::default());
    write_head(out, shape, true)?;
    for line in text.lines() {
        let mut all = [""; 8];
        let count = line.split(',').zip(all.iter_mut()).map(|(field, place)| *place = field).count();
        let fields = &all[..count];
        match fields[0] {
            "resource" => drop(names.resources.insert(fields[1], names.resources.len())),
            "task" => drop(names.tasks.insert(fields[1], names.tasks.len())),
            "rnlp" | "group" | "end" => {}
            _ => history.take(&mut lock, names.event(fields))?,
        }
    }
    history.write(out, shape.tasks)?;
    write_tail(out, shape, true)
}

/// The drawing numbers of a drill.
struct Draws(usize);

impl Draws {
    fn below(&mut self, n: usize) -> usize {
        self.0 = (75 * self.0 + 74) % 65537;
        self.0 % n
    }
}

/// The event that a drill draws next.
fn drawn(shape: &Shape, lock: &Lock, draws: &mut Draws) -> Event {
    let start = draws.below(8);
    let acts = |seat: &usize| lock.is_idle(*seat) || lock.holds(*seat) != (0, 0) && !lock.asks(*seat);
    let seat = (0..8).map(|d| (start + d) % 8).find(acts).expect("somebody holds");
    let Some(own) = lock.of(seat).next() else {
        let kind = shape.kinds[draws.below(5)];
        let l = draws.below(7);
        return match kind {
            Kind::Read | Kind::Upgrade => issue(seat, kind, 3 << l, 0, 0),
            Kind::Write => issue(seat, kind, 0, 1 << l, 0),
            Kind::Mixed => issue(seat, kind, 2 << l, 1 << l, 0),
            Kind::Nested => issue(seat, kind, 0, 3 << l, 1 << l),
        };
    };
    let (reads, writes) = lock.holds(seat);
    let rest = (own.reads | own.writes) & !(reads | writes);
    match own.kind {
        Kind::Upgrade if !own.write && draws.below(2) == 0 => Event::Rise(seat),
        Kind::Nested if rest != 0 && draws.below(2) == 0 => Event::Ask(seat, rest),
        _ => Event::Finish(seat),
    }
}

/// Adds what an event weighs for each of the seven kinds, in the order of the summary.
fn count_step(counts: &mut [u64; 7], event: Event, before: &[Claim], now: &[Claim]) {
    let was = |c: &Claim| before.iter().find(|b| b.seat == c.seat && b.write == c.write);
    counts[match event {
        Event::Issue(..) => 0,
        Event::Finish(_) => 1,
        Event::Rise(_) => 2,
        Event::Ask(..) => 3,
    }] += 1;
    for c in now {
        if was(c).map_or(Status::Waiting, |b| b.status) != c.status {
            counts[if c.status == Status::Satisfied { 5 } else { 4 }] += 1;
        }
        let (had, has) = (was(c).map_or((0, 0), Claim::held), c.held());
        counts[6] += u64::from(has.0 & !had.0 != 0 || has.1 & !had.1 != 0);
    }
}

fn drill(shape: &Shape, out: &mut impl Write, count: usize) -> Result<()> {
    let (mut lock, mut draws, mut counts) = (shape.lock(), Draws(1), [0; 7]);
    for _ in 0..count {
        let before = lock.claims.clone();
        let event = drawn(shape, &lock, &mut draws);
        lock.step(event);
        count_step(&mut counts, event, &before, &lock.claims);
    }
    writeln!(out, "drill,{count}")?;
    let words = ["issues", "finishes", "rises", "asks", "entitled", "satisfied", "grants"];
    words.iter().zip(counts).try_for_each(|(word, n)| writeln!(out, "{word},{n}"))?;
    let incomplete = (0..8).filter(|&s| !lock.is_idle(s)).count();
    let holding = (0..8).filter(|&s| lock.holds(s) != (0, 0)).count();
    writeln!(out, "incomplete,{incomplete}\nholding,{holding}\nend")
}

fn main() -> Result<()> {
    let words: Vec<_> = env::args().collect();
    let shape = shape_of(&words[1]);
    let mut out = BufWriter::new(stdout().lock());
    let count = || words[2].parse().expect("a number");
    match words[3].as_str() {
        "replay" => replay(&shape, &mut out),
        "drill" => drill(&shape, &mut out, count()),
        word => generate(&shape, &mut out, count(), word == "report"),
    }
}
