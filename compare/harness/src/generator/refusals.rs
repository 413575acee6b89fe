//! Faults put into a plan's records, one mutator for each row of document 01's table.

use super::random::Random;
use super::sheet_faults::{exceed, misplace, spoil};
use crate::record::{Activity, FIRST_DAY, Hours, LAST_DAY, Link, Record};

/// The rows that a mutator can bring about, 1 and the largest limits apart.
pub const ROWS: std::ops::RangeInclusive<u8> = 2..=15;

pub type Records = Vec<Record>;

pub fn places(records: &Records, kind: fn(&Record) -> bool) -> Vec<usize> {
    (0..records.len()).filter(|&k| kind(&records[k])).collect()
}

fn is_activity(r: &Record) -> bool {
    matches!(r, Record::A(_))
}

pub fn is_link(r: &Record) -> bool {
    matches!(r, Record::L(_))
}

/// A record of this kind, put in at the end of its kind's place if there is none.
pub fn some<'a>(
    r: &mut Random,
    records: &'a mut Records,
    kind: fn(&Record) -> bool,
    make: impl Fn() -> Record,
) -> &'a mut Record {
    let found = places(records, kind);
    let at = if found.is_empty() {
        let made = make();
        let at = if is_link(&made) { records.len() } else { records.iter().position(is_link).unwrap_or(records.len()) };
        records.insert(at, made);
        at
    } else {
        r.pick(&found)
    };
    &mut records[at]
}

pub fn activity<'a>(r: &mut Random, records: &'a mut Records) -> &'a mut Activity {
    match some(r, records, is_activity, || Record::A(Activity { id: 1, minutes: 480, ..Activity::default() })) {
        Record::A(a) => a,
        _ => unreachable!(),
    }
}

/// At least `count` activities; gives the places of all.
fn activities(records: &mut Records, count: u32) -> Vec<usize> {
    for k in 0..count {
        if places(records, is_activity).len() < count as usize {
            let id = 4_000_000_000 + k;
            let at = records.iter().position(is_link).unwrap_or(records.len());
            records.insert(at, Record::A(Activity { id, minutes: 60, ..Activity::default() }));
        }
    }
    places(records, is_activity)
}

fn at(records: &mut Records, place: usize) -> &mut Activity {
    match &mut records[place] {
        Record::A(a) => a,
        _ => unreachable!("the place of an activity"),
    }
}

fn link(r: &mut Random, records: &mut Records, predecessor: u32, successor: u32) {
    let first = records.iter().position(is_link).unwrap_or(records.len());
    let place = first + r.below(records.len() - first + 1);
    records.insert(place, Record::L(Link { predecessor, successor, kind: r.below(4) as u8, ..Link::default() }));
}

/// Brings about `row` (or, for what another fault hides, would).
pub fn refuse(r: &mut Random, records: &mut Records, row: u8) {
    match row {
        2 => misplace(r, records),
        3 => spoil(r, records),
        4 => exceed(r, records),
        5 => empty_week(r, records),
        6 => {
            let all = activities(records, 2);
            let (a, b) = (r.below(all.len() - 1), all.len() - 1);
            at(records, all[b]).id = at(records, all[a]).id;
        }
        7 => {
            let minutes = r.pick(&[-1, -480, i32::MIN, i32::MIN + 1]);
            let a = activity(r, records);
            (a.kind, a.minutes) = (0, minutes);
        }
        8 => too_long(r, records),
        9 => {
            let count = places(records, |x| matches!(x, Record::C(_))).len() as u8;
            activity(r, records).calendar = if r.percent(50) { count } else { r.pick(&[15, 16, 255]) };
        }
        10 => activity(r, records).parent = 3_999_999_999,
        11 => {
            let all = activities(records, 2);
            let (child, parent) = (r.pick(&all[1..]), all[0]);
            let p = at(records, parent);
            (p.kind, p.minutes, p.parent) = (1 + r.below(2) as u8, 0, 0);
            at(records, child).parent = at(records, parent).id;
        }
        12 => parent_loop(r, records),
        13 => {
            let id = at_some_id(r, records);
            let unknown = r.pick(&[0, 3_999_999_999]);
            let (p, s) = r.pick(&[(unknown, id), (id, unknown), (unknown, unknown), (unknown, 3_999_999_998)]);
            link(r, records, p, s);
        }
        14 => {
            let id = at_some_id(r, records);
            link(r, records, id, id);
        }
        15 => link_loop(r, records),
        _ => unreachable!("no such row"),
    }
}

/// One past a limit or a range.
pub fn one_past(r: &mut Random, records: &mut Records) {
    let all = activities(records, 2);
    let (a, b) = (at(records, all[0]).id, at(records, all[1]).id);
    all.iter().for_each(|&k| at(records, k).parent = 0);
    match r.below(10) {
        unit @ 0..2 => {
            let lag = r.pick(&[1, -1]) * [100_001, 144_000_001][unit];
            let l = Link { predecessor: a, successor: b, kind: 0, basis: r.pick(&[0, 1]), unit: unit as u8, lag };
            let first = records.iter().position(is_link).unwrap_or(records.len());
            records.insert(first, Record::L(l));
        }
        2..4 => {
            let x = activity(r, records);
            (x.kind, x.minutes) = (0, 48_000_001);
        }
        4..6 => {
            let day = r.pick(&[FIRST_DAY - 1, LAST_DAY + 1]);
            let x = activity(r, records);
            match r.below(4) {
                0 => x.actual_start = day,
                1 => x.levelled = day,
                2 => x.constraints[0] = (1, day),
                _ => x.expected_finish = day,
            }
        }
        6..8 => {
            let c = records.iter().position(|x| matches!(x, Record::C(_))).expect("a plan has a calendar");
            if r.percent(50) {
                records[c] = Record::C(1_441);
            } else {
                records.insert(c + 1, Record::W(Hours { day: 0, from: 480, to: 1_441 }));
            }
        }
        _ => exceed(r, records),
    }
}

pub fn at_some_id(r: &mut Random, records: &mut Records) -> u32 {
    let all = activities(records, 1);
    at(records, r.pick(&all)).id
}

fn empty_week(r: &mut Random, records: &mut Records) {
    let cs = places(records, |x| matches!(x, Record::C(_)));
    if cs.is_empty() {
        return;
    }
    let c = r.pick(&cs) + 1;
    while matches!(records.get(c), Some(Record::W(_))) {
        records.remove(c);
    }
    if r.percent(50) && !matches!(records.get(c), Some(Record::E(_))) {
        records.insert(c, Record::E(Hours { day: 20_000, from: 480, to: 960 }));
    }
}

fn too_long(r: &mut Random, records: &mut Records) {
    let all = activities(records, 2);
    let (a, b) = (at(records, all[0]).id, at(records, all[1]).id);
    let sign = r.pick(&[1, -1]);
    let (basis, unit, lag) = match r.below(6) {
        0 => {
            let x = activity(r, records);
            (x.kind, x.minutes) = (0, r.pick(&[48_000_001, 144_000_001, i32::MAX]));
            return;
        }
        1 => (r.pick(&[0, 1]), 0, sign * r.pick(&[100_001, 144_000_000])),
        2 => (r.pick(&[0, 1]), 1, sign * r.pick(&[144_000_001, i32::MAX])),
        3 => (r.pick(&[0, 1]), r.pick(&[0, 1]), i32::MIN),
        _ => {
            let x = at(records, all[0]);
            // 1,000,000 hundredths of a percent are a hundredfold.
            (x.kind, x.minutes) = (0, r.pick(&[1_440_001, 2_000_000, 48_000_000]));
            (2, 0, sign * r.pick(&[1_000_000, 1_000_001, i32::MAX]))
        }
    };
    at(records, all[0]).parent = 0;
    let l = Link { predecessor: a, successor: b, kind: r.below(4) as u8, basis, unit, lag };
    let first = records.iter().position(is_link).unwrap_or(records.len());
    records.insert(first, Record::L(l));
}

fn parent_loop(r: &mut Random, records: &mut Records) {
    let length = r.pick(&[1, 2, 2, 3, 5]);
    let mut all = activities(records, length as u32 + 1);
    r.shuffle(&mut all);
    let ids: Vec<u32> = all.iter().map(|&k| at(records, k).id).collect();
    for k in 0..length {
        let a = at(records, all[k]);
        (a.kind, a.parent) = (0, ids[(k + 1) % length]);
    }
    // One below the loop, which no name is asked for.
    at(records, all[length]).parent = ids[0];
}

fn link_loop(r: &mut Random, records: &mut Records) {
    let length = r.pick(&[2, 2, 3, 4, 7]);
    let mut all = activities(records, length as u32);
    // Without parents nothing is a summary, so that every link is kept.
    all.iter().for_each(|&k| at(records, k).parent = 0);
    r.shuffle(&mut all);
    let ids: Vec<u32> = all.iter().map(|&k| at(records, k).id).collect();
    for k in 0..length {
        link(r, records, ids[k], ids[(k + 1) % length]);
    }
    if r.percent(30) {
        link(r, records, ids[0], ids[length - 1]);
    }
}
