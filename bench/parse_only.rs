//! Reads standard input whole, splits it into records and fields, and writes how many there were: the least that a reader of
//! an event list has to do.
use std::io::{Read, Result, stdin};

fn main() -> Result<()> {
    let mut bytes = Vec::new();
    stdin().read_to_end(&mut bytes)?;
    let records = bytes.split(|b| *b == b'\n').filter(|record| !record.is_empty());
    let (mut lines, mut fields) = (0u64, 0u64);
    for record in records {
        lines += 1;
        fields += record.split(|b| *b == b',').count() as u64;
    }
    println!("{lines},{fields}");
    Ok(())
}
