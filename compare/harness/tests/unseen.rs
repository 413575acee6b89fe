//! What no answer shows: some changes to the Rust, the order among ready activities first, and the float kind.

use compare::faults::sees;
use compare::generator::sheet;
use compare::oracle::answer;
use compare::record::{Record, decode, encode};
use reference::UNSEEN;

/// Sheets of the generator without the largest and the longest walks.
fn sheets(count: usize) -> impl Iterator<Item = Vec<u8>> {
    (0..count).filter(|n| !(58..62).contains(&(n % 180)) && !(76..86).contains(&(n % 180))).map(|n| sheet(6, n).1)
}

#[test]
fn changes_to_the_rust() {
    for bytes in sheets(1_500) {
        let verdict = answer(&bytes);
        for change in UNSEEN {
            assert!(!sees(change, &bytes, &verdict), "{}", change.name);
        }
    }
}

#[test]
fn the_float_kind() {
    for bytes in sheets(1_500) {
        let of_kind = |kind: u8| {
            let mut records = decode(&bytes);
            if let Some(Record::P(p)) = records.first_mut()
                && p.float_kind <= 2
            {
                p.float_kind = kind;
            }
            answer(&encode(&records))
        };
        let finish = of_kind(0);
        assert_eq!(finish, of_kind(1));
        assert_eq!(finish, of_kind(2));
    }
}
