//! The patched copies agree with the text as given, the deliberate faults don't.

use compare::faults::sees;
use compare::generator::sheet;
use compare::minimise::minimise;
use compare::oracle::{answer, answer_by};
use compare::project::{day_lengths_agree, project};
use compare::read::read;
use compare::record::decode;
use reference::{FAULTS, own_lengths, sited, with_times};

/// Sheets of the generator without the largest and the longest walks.
fn sheets(count: usize) -> impl Iterator<Item = Vec<u8>> {
    (0..count).filter(|n| !(58..62).contains(&(n % 180)) && !(76..86).contains(&(n % 180))).map(|n| sheet(5, n).1)
}

#[test]
fn copies_agree() {
    for bytes in sheets(1_000) {
        let Ok(read) = read(&bytes) else { continue };
        if read.calendars.iter().any(|c| c.week.is_empty()) {
            continue;
        }
        let project = project(&read);
        let timed = with_times::answer(&project);
        assert_eq!(timed, sited::answer(&project));
        if day_lengths_agree(&read, &project) {
            assert_eq!(timed, own_lengths::answer(&project));
        }
    }
}

#[test]
fn every_fault_is_seen_and_its_sheet_made_small() {
    let mut unseen: Vec<_> = FAULTS.iter().collect();
    for bytes in sheets(6_000) {
        let verdict = answer(&bytes);
        if !verdict.agrees || verdict.need.is_none() {
            continue;
        }
        unseen.retain(|fault| {
            let seen = sees(fault, &bytes, &verdict);
            if seen && fault.name != "span-strict" {
                let small = minimise(&bytes, |b| sees(fault, b, &answer(b)));
                assert!(answer_by(&small, fault.schedule).answer != answer(&small).answer);
                let records = decode(&small);
                assert!(records.len() < 25, "{}: {} records", fault.name, records.len());
            }
            !seen
        });
    }
    assert!(unseen.is_empty(), "{:?}", unseen.iter().map(|f| f.name).collect::<Vec<_>>());
}
