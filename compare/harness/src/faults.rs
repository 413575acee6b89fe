//! Shows that the corpus sees deliberate faults in copies of the Rust.

use std::time::{Duration, Instant};

use reference::{FAULTS, Fault, UNSEEN};

use crate::corpus::Corpus;
use crate::oracle::{Verdict, answer, answer_by};

/// A sheet that takes longer is tried only on faults not seen yet.
const SLOW: Duration = Duration::from_millis(5);

pub fn named(name: &str) -> Option<&'static Fault> {
    FAULTS.iter().chain(UNSEEN).find(|f| f.name == name)
}

/// Whether the copy with the fault answers otherwise; a copy that panics does.
pub fn sees(fault: &Fault, bytes: &[u8], verdict: &Verdict) -> bool {
    std::panic::catch_unwind(|| answer_by(bytes, fault.schedule)).map_or(true, |found| found.answer != verdict.answer)
}

/// Prints for each fault how many sheets see it; gives how many faults none sees.
pub fn print(corpus: &Corpus) -> std::io::Result<usize> {
    let mut seen = vec![0usize; FAULTS.len()];
    let mut tried = vec![0usize; FAULTS.len()];
    let mut first = vec![None; FAULTS.len()];
    corpus.each(|number, _, bytes| {
        let begun = Instant::now();
        let verdict = answer(bytes);
        let slow = begun.elapsed() > SLOW;
        if !verdict.agrees || verdict.need.is_none() {
            return;
        }
        for (k, fault) in FAULTS.iter().enumerate() {
            if !slow || seen[k] == 0 {
                tried[k] += 1;
                if sees(fault, bytes, &verdict) {
                    seen[k] += 1;
                    first[k].get_or_insert(number);
                }
            }
        }
    })?;
    for (k, fault) in FAULTS.iter().enumerate() {
        let from = first[k].map_or("none".into(), |n| format!("first {n}"));
        println!("{:7} of {:6} sheets ({from}) see {}: {}", seen[k], tried[k], fault.name, fault.what);
    }
    Ok(seen.iter().filter(|n| **n == 0).count())
}
