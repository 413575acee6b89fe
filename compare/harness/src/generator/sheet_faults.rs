//! Faults that the reading of a sheet finds: rows 2, 3 and 4.

use super::random::Random;
use super::refusals::{Records, activity, at_some_id, is_link, places, some};
use crate::read::{MAX_CALENDARS, read};
use crate::record::{ABSENT, Activity, FIRST_DAY, Hours, LAST_DAY, Link, Record, encode};

/// Row 2: a record out of its place, cut, unknown or missing.
pub fn misplace(r: &mut Random, records: &mut Records) {
    let length = records.len();
    let what = r.below(10);
    // A fault before this one may have left nothing, or a single byte at the end.
    if length == 0 && matches!(what, 1 | 3 | 5 | 8 | 9) {
        return;
    }
    match what {
        0 => records.clear(),
        1 => {
            records.remove(0);
        }
        2 => records.retain(|x| !matches!(x, Record::C(_) | Record::W(_) | Record::E(_))),
        3 => records.insert(1 + r.below(length), records[0].clone()),
        4 => records.insert(r.below(length + 1), Record::Raw(vec![r.pick(&[0u8, b'p', b'Q', b'D', 255])])),
        5 => {
            let mut bytes = encode(&[records.pop().expect("a plan has a P")]);
            if bytes.len() > 1 {
                bytes.truncate(1 + r.below(bytes.len() - 1));
            }
            records.push(Record::Raw(bytes));
        }
        6 => records.push(Record::C(480)),
        7 => records.push(Record::A(Activity { id: 77, minutes: 1, ..Activity::default() })),
        8 => {
            let c = records.iter().rposition(|x| matches!(x, Record::C(_) | Record::W(_) | Record::E(_))).unwrap_or(0);
            records.insert(c + 1, Record::E(Hours { day: LAST_DAY, from: 0, to: 0 }));
            records.insert(c + 2, Record::W(Hours { day: 6, from: 1_439, to: 1_440 }));
        }
        _ => records.insert(1, Record::W(Hours { day: 0, from: 0, to: 1 })),
    }
    // An A after the last A is in its place where no link follows.
    if read(&encode(records)).is_ok() {
        records.push(Record::Raw(vec![b'?']));
    }
}

/// A day out of range.
fn no_day(r: &mut Random) -> i32 {
    r.pick(&[FIRST_DAY - 1, LAST_DAY + 1, i32::MAX, i32::MIN + 1])
}

/// Row 3: a field out of its range.
pub fn spoil(r: &mut Random, records: &mut Records) {
    let bad = no_day(r);
    let bad_or_absent = if r.percent(30) { ABSENT } else { bad };
    let what = r.below(24);
    let Record::P(p) = &mut records[0] else { return };
    match what {
        0 => p.start = bad_or_absent,
        1 => p.data = bad,
        2 => p.must_finish = bad,
        3 => p.lag_calendar = r.pick(&[4, 255]),
        4 => p.float_kind = r.pick(&[3, 255]),
        5 => p.progress = r.pick(&[2, 255]),
        6 => p.critical_by = r.pick(&[2, 255]),
        7..13 => spoil_calendar(r, records, what, bad_or_absent),
        13..20 => {
            let a = activity(r, records);
            match what {
                13 => a.id = 0,
                14 => a.kind = r.pick(&[3, 255]),
                15 => (a.kind, a.minutes) = (r.pick(&[1, 2]), r.pick(&[1, -1, 480, i32::MIN])),
                16 => a.actual_start = bad,
                17 => a.actual_finish = bad,
                18 => a.expected_finish = bad,
                _ => a.levelled = bad,
            }
        }
        20 => activity(r, records).constraints[r.below(2)].0 = r.pick(&[10, 255]),
        21 => activity(r, records).constraints[r.below(2)] = (r.within(1, 8) as u8, bad_or_absent),
        _ => {
            let id = at_some_id(r, records);
            let l = Link { predecessor: id, successor: id, ..Link::default() };
            let Record::L(l) = some(r, records, is_link, || Record::L(l.clone())) else {
                return;
            };
            match r.below(3) {
                0 => l.kind = r.pick(&[4, 255]),
                1 => l.basis = r.pick(&[3, 255]),
                _ => (l.basis, l.unit) = (r.pick(&[0, 1]), r.pick(&[2, 255])),
            }
        }
    }
}

fn spoil_calendar(r: &mut Random, records: &mut Records, what: usize, bad: i32) {
    let cs = places(records, |x| matches!(x, Record::C(_)));
    let Some(&last) = cs.last() else { return };
    if what == 7 {
        records[r.pick(&cs)] = Record::C(r.pick(&[1_441, u16::MAX]));
        return;
    }
    // A last calendar of its own keeps the other faults of a sheet apart from this one.
    let hours = |day, from, to| Hours { day, from, to };
    let weeks: &[&[Hours]] = &[
        &[hours(7, 0, 60)],
        &[hours(255, 0, 60)],
        &[hours(0, 60, 60)],
        &[hours(0, 61, 60)],
        &[hours(0, 0, 1_441)],
        &[hours(0, 0, 0)],
        &[hours(0, 0, 60), hours(0, 59, 120)],
        &[hours(0, 60, 120), hours(0, 0, 30)],
        &[hours(1, 0, 60), hours(0, 60, 120)],
    ];
    let days: &[&[Hours]] = &[
        &[hours(bad, 0, 0)],
        &[hours(9, 0, 60), hours(8, 0, 60)],
        &[hours(9, 0, 60), hours(9, 59, 120)],
        &[hours(9, 60, 120), hours(9, 0, 60)],
        &[hours(9, 0, 0), hours(9, 0, 0)],
        &[hours(9, 0, 0), hours(9, 60, 120)],
        &[hours(9, 60, 120), hours(9, 0, 0)],
        &[hours(9, 60, 60)],
        &[hours(9, 0, 1_441)],
        &[hours(9, 5, 0)],
    ];
    let mut made: Vec<Record> = vec![Record::C(480)];
    if r.percent(50) {
        made.extend(r.pick(weeks).iter().copied().map(Record::W));
    } else {
        made.push(Record::W(hours(0, 480, 960)));
        made.extend(r.pick(days).iter().copied().map(Record::E));
    }
    if cs.len() == MAX_CALENDARS {
        let end = records.iter().rposition(|x| matches!(x, Record::C(_) | Record::W(_) | Record::E(_))).unwrap_or(last);
        records.drain(last..=end);
        records.splice(last..last, made);
    } else {
        records.splice(last..last, made);
    }
}

/// Row 4: one past a limit of the calendars.
pub fn exceed(r: &mut Random, records: &mut Records) {
    let cs = places(records, |x| matches!(x, Record::C(_)));
    let Some(&last) = cs.last() else { return };
    let end = last + 1;
    match r.below(3) {
        0 => (cs.len()..=MAX_CALENDARS).for_each(|_| records.insert(end, Record::C(1_440))),
        1 => {
            let made = (0..9).map(|k| Record::W(Hours { day: 0, from: 100 + k * 20, to: 110 + k * 20 }));
            records.splice(end..end, made);
        }
        _ => {
            // The last is out of order too: row 4 comes first.
            let first = if r.percent(50) { 0 } else { 1 };
            let made: Vec<Record> = (0..257)
                .map(|k| Record::E(Hours { day: if k == 256 { first } else { k + 1 }, from: 0, to: 0 }))
                .collect();
            while matches!(records.get(end), Some(Record::W(_) | Record::E(_))) {
                records.remove(end);
            }
            records.splice(end..end, made);
            records.insert(end, Record::W(Hours { day: 0, from: 0, to: 1 }));
        }
    }
}
