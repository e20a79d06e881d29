//! What sections cost with std's locks: `locks KIND THREADS SECTIONS RESOURCES WHERE`.
//!
//! KIND is `rwlocks` (an RwLock for each record, taken in order) or `mutex` (one Mutex for all records). Each of THREADS threads
//! makes SECTIONS sections of RESOURCES records; WHERE is `hot` (all of them the same records), `apart` (each thread its own) or
//! `reads` (the same records, but only each tenth section writes them; the others read the first one). A section that writes
//! adds 1 to each of its records. The sum is written at the end.
use std::env;
use std::hint::black_box;
use std::sync::{Mutex, RwLock};
use std::thread;

const RECORDS: usize = 64;

/// A record on lines of memory of its own, so that locks of different records do not slow each other.
#[repr(align(128))]
struct Record(RwLock<u64>);

/// What is measured.
#[derive(Clone, Copy)]
struct Asked {
    threads: usize,
    sections: usize,
    resources: usize,
    apart: bool,
    reads: bool,
}

impl Asked {
    fn places(self, thread: usize) -> std::ops::Range<usize> {
        let first = if self.apart { thread * self.resources } else { 0 };
        first..first + self.resources
    }

    fn writes_at(self, k: usize) -> bool {
        !self.reads || k % 10 == 9
    }
}

fn with_rwlocks(asked: Asked) -> u64 {
    let records: Vec<Record> = (0..RECORDS).map(|_| Record(RwLock::new(0))).collect();
    thread::scope(|scope| {
        for t in 0..asked.threads {
            let records = &records;
            scope.spawn(move || {
                for k in 0..asked.sections {
                    if asked.writes_at(k) {
                        let mut held: Vec<_> = asked.places(t).map(|l| records[l].0.write().unwrap()).collect();
                        held.iter_mut().for_each(|record| **record += 1);
                    } else {
                        black_box(*records[0].0.read().unwrap());
                    }
                }
            });
        }
    });
    records.iter().map(|record| *record.0.read().unwrap()).sum()
}

fn with_mutex(asked: Asked) -> u64 {
    let records = Mutex::new(vec![0u64; RECORDS]);
    thread::scope(|scope| {
        for t in 0..asked.threads {
            let records = &records;
            scope.spawn(move || {
                for k in 0..asked.sections {
                    let mut held = records.lock().unwrap();
                    if asked.writes_at(k) {
                        asked.places(t).for_each(|l| held[l] += 1);
                    } else {
                        black_box(held[0]);
                    }
                }
            });
        }
    });
    records.into_inner().unwrap().iter().sum()
}

fn main() {
    let words: Vec<_> = env::args().collect();
    let number = |i: usize| words[i].parse::<usize>().expect("a number");
    let asked = Asked {
        threads: number(2),
        sections: number(3),
        resources: number(4),
        apart: words[5] == "apart",
        reads: words[5] == "reads",
    };
    let sum = match words[1].as_str() {
        "rwlocks" => with_rwlocks(asked),
        _ => with_mutex(asked),
    };
    println!("{sum}");
}
