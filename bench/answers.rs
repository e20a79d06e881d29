//! `answers FROM TO lists` writes the event lists of these numbers, each drawn from its number alone, and what `rnlp replay` must
//! answer to each: a line `NUMBER BYTES DUE`, the list of so many bytes, and the answer of so many. `answers FROM TO reports` does so
//! with reports and `rnlp audit`, `answers FROM TO scripts` with scripts and `rnlp bound`.
mod auditor;
mod clerk;
mod draw;
mod events;
mod judge;
mod model;
mod reports;
mod scripts;
mod waits;

use events::List;
use reports::Report;
use scripts::Script;
use std::env;
use std::io::{BufWriter, Result, Write, stdout};

/// The text of a number, and the answer that is due.
fn case(word: &str, number: u64) -> (String, String) {
    match word {
        "lists" => {
            let list = List::drawn(number, false);
            (list.text.clone(), list.due())
        }
        "reports" => {
            let list = List::drawn(number, true);
            let bare = list.due();
            let report = Report::drawn(list.dice, &bare);
            (report.text.clone(), report.due())
        }
        _ => {
            let script = Script::drawn(number);
            (script.text.clone(), script.due())
        }
    }
}

fn main() -> Result<()> {
    let words: Vec<_> = env::args().collect();
    let number = |at: usize| words[at].parse::<u64>().expect("a number");
    let mut out = BufWriter::new(stdout().lock());
    for number in number(1)..number(2) {
        let (text, due) = case(&words[3], number);
        write!(out, "{number} {} {}\n{text}{due}", text.len(), due.len())?;
    }
    Ok(())
}
