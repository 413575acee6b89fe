//! The hand-written cases hold, and the text form gives back what it was given.

use compare::cases::{FILES, cases};
use compare::generator::sheet;
use compare::text::{assemble, disassemble};

#[test]
fn cases_hold() {
    let mut failed = 0;
    for (file, text) in FILES {
        for case in cases(text) {
            if !case.holds() {
                failed += 1;
                println!("{file}, {}:\n  expected {:#?}\n  found {:#?}", case.title, case.expected, case.found());
            }
        }
    }
    assert_eq!(failed, 0);
}

#[test]
fn every_file_has_cases() {
    let counts: Vec<usize> = FILES.iter().map(|(_, text)| cases(text).len()).collect();
    assert!(counts.iter().all(|n| *n > 5), "{counts:?}");
}

#[test]
fn text_form_keeps_any_bytes() {
    for number in (0..2_000).filter(|n| n % 180 != 59) {
        let (_, bytes) = sheet(7, number);
        let text = disassemble(&bytes);
        assert_eq!(assemble(&text).as_deref(), Ok(&bytes[..]), "sheet {number}\n{text}");
    }
}
