//! Writes lists and scripts that are made to be slow, and as large ones that are not.
//!
//! `crafted mixed BYTES` and `mixed-beside BYTES` write lists of mixed requests of one task, and so do `one-shelf BYTES` and
//! `one-shelf-beside BYTES`; `asks`, `asks-beside`, `short-asks` and `short-asks-beside` write lists of asks of one nested request,
//! and `zones` writes a script. See bench/crafted.
#[allow(dead_code)]
mod model;

use model::{set, Dice};
use std::env;
use std::io::{stdout, BufWriter, Result, Write};

const PLACES: u32 = 64;
const ASKS: usize = 47_756;

/// The numbers of the hash that was once used: its multiplier, and how it began.
const FACTOR: u64 = 0x9e37_79b9_7f4a_7c15;
const BEGIN: u64 = 0x243f_6a88_85a3_08d3;

/// The number of shelves of rbound_history, and its word of a mixed request of the first task.
const SHELVES: u64 = 4096;
const MIXED: u64 = 2;

/// The bits of a hash by which the groups of a table of so many asks were chosen.
const GROUPS: u32 = (1 << 13) - 1;

/// The next set of so many members after this one.
fn next_set(members: u64) -> Option<u64> {
    let low = members & members.wrapping_neg();
    let risen = members.checked_add(low)?;
    Some((members ^ risen) >> 2 >> low.trailing_zeros() | risen)
}

/// The sets of one member, of two, and so on.
fn all_sets() -> impl Iterator<Item = u64> {
    (1..PLACES).flat_map(|many| std::iter::successors(Some((1 << many) - 1), |members| next_set(*members)))
}

/// So many members outside a set, drawn at random.
fn some(dice: &mut Dice, many: u32, outside: u64) -> u64 {
    let mut members = 0u64;
    while members.count_ones() < many {
        members |= 1 << dice.below(PLACES as usize) & !outside;
    }
    members
}

/// The word of rbound_history for these members after a word.
fn word_of(word: u64, members: u64) -> u64 {
    let rest = std::iter::successors(Some(members), |rest| Some(rest & rest.wrapping_sub(1))).take_while(|rest| *rest != 0);
    rest.fold(word, |word, rest| word.wrapping_mul(FACTOR).wrapping_add(rest.trailing_zeros().into()))
}

/// Mixed requests that stand on one shelf; or as many that read the same and write the same but for one resource.
fn write_shelf(out: &mut impl Write, bytes: usize, beside: bool) -> Result<()> {
    let (mut left, mut dice, mut others) = (bytes, Dice(88172645463325252), Dice(88172645463325253));
    writeln!(out, "task,t")?;
    loop {
        let reads = some(&mut dice, 3, 0);
        let writes = some(&mut dice, 3, reads | !0 << 16);
        let last = word_of(word_of(MIXED, reads), writes).wrapping_mul(FACTOR).wrapping_neg() % SHELVES;
        if last >= u64::from(PLACES) || 1 << last <= writes || reads >> last & 1 == 1 {
            continue;
        }
        let more = if beside { some(&mut others, 1, reads | writes) } else { 1 << last };
        let line = format!("issue,t,mixed,{},{},1\nfinish,t\n", set(reads), set(writes | more));
        match left.checked_sub(line.len()) {
            Some(less) => left = less,
            None => return writeln!(out, "end"),
        }
        out.write_all(line.as_bytes())?;
    }
}

/// The hash of an ask.
fn ask_hash(members: u64) -> u32 {
    let product = u128::from(members ^ BEGIN) * u128::from(FACTOR ^ 16);
    let hash = product as u64 ^ (product >> 64) as u64;
    (hash ^ hash >> 32) as u32
}

fn write_head(out: &mut impl Write) -> Result<()> {
    writeln!(out, "rnlp,1")?;
    (0..PLACES).try_for_each(|l| writeln!(out, "resource,r{l}"))
}

/// Mixed requests with one hash; or as many that read the same and write as many resources.
fn write_mixed(out: &mut impl Write, bytes: usize, beside: bool) -> Result<()> {
    let (mut left, mut dice) = (bytes, Dice(88172645463325252));
    writeln!(out, "task,t")?;
    for reads in all_sets() {
        let writes = 0x0123_4567_89ab_cdef_u64.wrapping_sub(reads.wrapping_mul(FACTOR));
        if writes == 0 || reads & writes != 0 {
            continue;
        }
        let others = if beside { some(&mut dice, writes.count_ones(), reads) } else { writes };
        let line = format!("issue,t,mixed,{},{},1\nfinish,t\n", set(reads), set(others));
        match left.checked_sub(line.len()) {
            Some(less) => left = less,
            None => break,
        }
        out.write_all(line.as_bytes())?;
    }
    writeln!(out, "end")
}

/// Asks for these sets; or as many for one set, which has as many members as these have on average.
fn write_asks(out: &mut impl Write, asks: &[u64], beside: bool) -> Result<()> {
    let members: u32 = asks.iter().map(|ask| ask.count_ones()).sum();
    let equal = (1 << (f64::from(members) / asks.len() as f64).round() as u32) - 1;
    writeln!(out, "task,t\nissue,t,nested,-,{},r0,1", set(u64::MAX))?;
    asks.iter().try_for_each(|ask| writeln!(out, "ask,t,{}", set(if beside { equal } else { *ask })))?;
    writeln!(out, "finish,t\nend")
}

/// In each of 64 zones a write section of each of 64 tasks.
fn write_zones(out: &mut impl Write) -> Result<()> {
    let mut dice = Dice(88172645463325252);
    for task in 0..64 {
        writeln!(out, "task,t{task}")?;
        (0..PLACES).try_for_each(|l| writeln!(out, "write,r{l},{}\nfinish", dice.below(1_000_001)))?;
    }
    writeln!(out, "end")
}

fn main() -> Result<()> {
    let words: Vec<_> = env::args().skip(1).collect();
    let out = &mut BufWriter::new(stdout());
    let crafted = || all_sets().filter(|members| ask_hash(*members) & GROUPS == 0).take(ASKS).collect::<Vec<_>>();
    let short = || all_sets().take(ASKS).collect::<Vec<_>>();
    write_head(out)?;
    match words[0].as_str() {
        "mixed" => write_mixed(out, words[1].parse().unwrap(), false),
        "mixed-beside" => write_mixed(out, words[1].parse().unwrap(), true),
        "one-shelf" => write_shelf(out, words[1].parse().unwrap(), false),
        "one-shelf-beside" => write_shelf(out, words[1].parse().unwrap(), true),
        "asks" => write_asks(out, &crafted(), false),
        "asks-beside" => write_asks(out, &crafted(), true),
        "short-asks" => write_asks(out, &short(), false),
        "short-asks-beside" => write_asks(out, &short(), true),
        "zones" => write_zones(out),
        word => panic!("nothing is named {word}"),
    }
}
