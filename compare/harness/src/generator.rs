//! Sheets by seed and number: every theme comes round at fixed numbers, its details are random.

pub(crate) mod calendars;
mod edges;
pub(crate) mod plans;
pub(crate) mod random;
mod refusals;
mod sheet_faults;

use crate::read::{MAX_ACTIVITIES, MAX_LINKS, Sheet};
use crate::record::{Record, encode};
use plans::{large, ordinary, plan_of, records};
use random::Random;
use refusals::{ROWS, one_past, refuse};

/// What a sheet was made for.
#[derive(Debug, Clone, Copy, PartialEq, Eq)]
pub enum Theme {
    Ordinary,
    Fault,
    TwoFaults,
    Way,
    Limit,
    Large,
    Cut,
    Flipped,
    RandomBytes,
}

impl Theme {
    pub const ALL: [Theme; 9] = [
        Theme::Ordinary,
        Theme::Fault,
        Theme::TwoFaults,
        Theme::Way,
        Theme::Limit,
        Theme::Large,
        Theme::Cut,
        Theme::Flipped,
        Theme::RandomBytes,
    ];
}

/// The themes come round after this many sheets: each then has more than 100 among 20,000.
const ROUND: usize = 180;

/// Sheet number `number` of the corpus with this seed.
pub fn sheet(seed: u64, number: usize) -> (Theme, Vec<u8>) {
    let r = &mut Random::new(seed, number as u64);
    let even = (number / ROUND).is_multiple_of(2);
    let rows = usize::from(ROWS.end() - ROWS.start()) + 1;
    let fast = edges::SLOW_WAYS;
    match number % ROUND {
        k if k < 2 * rows => (Theme::Fault, faulty(r, &[ROWS.start() + (k % rows) as u8])),
        k if k < 2 * rows + 8 => {
            let two = [r.within(2, 15) as u8, r.within(2, 15) as u8];
            (Theme::TwoFaults, faulty(r, &two))
        }
        40..43 => (Theme::Cut, damaged(r, |r, bytes| bytes.truncate(r.below(bytes.len() + 1)))),
        43..48 => (Theme::Flipped, damaged(r, |r, bytes| flip(r, bytes))),
        48..50 => (Theme::RandomBytes, random_bytes(r)),
        50..58 | 90..98 => (Theme::Limit, encoded(r, edges::limits)),
        98..104 => {
            let count = r.below(12);
            let mut made = records(&plan_of(r, count));
            one_past(r, &mut made);
            (Theme::Limit, encode(&made))
        }
        58 => (Theme::Large, encoded(r, |r| large(r, 500, 1_000))),
        59 => (Theme::Large, encoded(r, |r| large(r, MAX_ACTIVITIES, if even { MAX_LINKS } else { 4_000 }))),
        60 => (Theme::Large, encoded(r, |r| large(r, 40, if even { MAX_LINKS } else { MAX_LINKS + 1 }))),
        61 if even => (Theme::Large, encoded(r, |r| large(r, MAX_ACTIVITIES + 1, 10))),
        62 => (Theme::Large, encoded(r, more_than_plan_lends)),
        63 | 86 => {
            let way = r.pick(&[0, 0, 1, 2, 6]);
            (Theme::Way, encode(&records(&edges::way(r, way))))
        }
        k @ 64.. if k < 64 + fast => (Theme::Way, encode(&records(&edges::way(r, k - 64)))),
        k @ 80.. if even && fast + k - 80 < edges::WAYS => {
            (Theme::Way, encode(&records(&edges::way(r, fast + k - 80))))
        }
        81 => (Theme::Way, encode(&records(&edges::way(r, fast + 1)))),
        87 => (Theme::Ordinary, encoded(r, |r| plan_of(r, 64))),
        88 => (Theme::Ordinary, encoded(r, |r| plan_of(r, 40))),
        _ => (Theme::Ordinary, encoded(r, ordinary)),
    }
}

/// A sheet's bytes; one in ten has day lengths of its own, which the Rust doesn't know.
fn encoded(r: &mut Random, make: impl Fn(&mut Random) -> Sheet) -> Vec<u8> {
    let mut s = make(r);
    if r.percent(10) {
        for c in &mut s.calendars {
            if r.percent(60) {
                c.day_length = r.pick(&[0, 1, 60, 450, 480, 600, 1_439, 1_440]);
            }
        }
    }
    encode(&records(&s))
}

/// One record more than the program `plan` has memory for, or some.
fn more_than_plan_lends(r: &mut Random) -> Sheet {
    let more = 1 + r.below(60);
    if r.percent(50) { large(r, 64 + more, 50) } else { large(r, 64, 128 + more) }
}

fn faulty(r: &mut Random, rows: &[u8]) -> Vec<u8> {
    let count = r.below(12);
    let mut made: Vec<Record> = records(&plan_of(r, count));
    for &row in rows {
        if matches!(made.first(), Some(Record::P(_))) {
            refuse(r, &mut made, row);
        }
    }
    encode(&made)
}

fn damaged(r: &mut Random, damage: impl Fn(&mut Random, &mut Vec<u8>)) -> Vec<u8> {
    let mut bytes = encoded(r, |r| {
        let count = r.below(8);
        plan_of(r, count)
    });
    damage(r, &mut bytes);
    bytes
}

fn flip(r: &mut Random, bytes: &mut [u8]) {
    for _ in 0..1 + r.below(3) {
        let at = r.below(bytes.len());
        bytes[at] ^= 1 << r.below(8);
    }
}

/// Bytes that begin like a sheet now and then.
fn random_bytes(r: &mut Random) -> Vec<u8> {
    let mut bytes = if r.percent(50) { encode(&[Record::P(plan_of(r, 0).plan)]) } else { Vec::new() };
    for _ in 0..r.below(200) {
        let any = r.next() as u8;
        bytes.push(r.pick(&[any, any, 0, b'C', b'W', b'E', b'A', b'L']));
    }
    bytes
}
