//! The recorded answers are the oracle's.

use compare::oracle::{Lent, PLAN_BYTES, answer};
use compare::recorded::entries;

const LIST: &[u8] = include_bytes!("../../../recorded/answers.bin");

#[test]
fn the_recorded_answers_are_the_oracles() {
    let entries = entries(LIST);
    assert!(entries.len() > 3_000);
    for (sheet, text, names) in entries {
        let verdict = answer(sheet);
        assert!(sheet.len() <= PLAN_BYTES);
        assert_eq!(verdict.plan_text(sheet).as_bytes(), text);
        assert_eq!(verdict.lent(&Lent::PLAN).names(), names);
    }
}
