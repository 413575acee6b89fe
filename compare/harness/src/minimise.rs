//! Makes a differing sheet smaller and plainer while it still differs.

use crate::record::{Activity, Hours, Link, Plan, Record, decode, encode};

/// The smallest sheet found on which `differs` still holds.
pub fn minimise(bytes: &[u8], differs: impl Fn(&[u8]) -> bool) -> Vec<u8> {
    let mut best = decode(bytes);
    loop {
        let before = best.clone();
        plain_calendars(&mut best, &differs);
        remove(&mut best, &differs);
        renumber(&mut best, &differs);
        plainer(&mut best, &differs);
        if best == before {
            return encode(&best);
        }
    }
}

fn keep(best: &mut Vec<Record>, tried: Vec<Record>, differs: &impl Fn(&[u8]) -> bool) -> bool {
    let better = tried != *best && differs(&encode(&tried));
    if better {
        *best = tried;
    }
    better
}

/// Drops records, by halves first.
fn remove(best: &mut Vec<Record>, differs: &impl Fn(&[u8]) -> bool) {
    let mut size = best.len().max(1);
    while size > 0 {
        let mut at = 0;
        while at < best.len() {
            let mut tried = best.clone();
            tried.drain(at..(at + size).min(best.len()));
            if !keep(best, tried, differs) {
                at += size;
            }
        }
        size /= 2;
    }
}

/// Drops a calendar, or takes a plainer one in its place; day lengths stay those of the first weekday.
fn plain_calendars(best: &mut Vec<Record>, differs: &impl Fn(&[u8]) -> bool) {
    for k in (0..best.iter().filter(|r| r.kind() == Some(b'C')).count()).rev() {
        let starts: Vec<usize> = (0..best.len()).filter(|&i| best[i].kind() == Some(b'C')).collect();
        let from = starts[k];
        let length = best[from + 1..].iter().take_while(|r| matches!(r, Record::W(_) | Record::E(_))).count();
        let block = from..from + 1 + length;
        let mut without = best.clone();
        without.drain(block.clone());
        for r in &mut without {
            if let Record::A(a) = r {
                a.calendar = if usize::from(a.calendar) > k { a.calendar - 1 } else { a.calendar % k.max(1) as u8 };
            }
        }
        if keep(best, without, differs) {
            continue;
        }
        let week = |days: std::ops::Range<i32>, from, to| days.map(move |day| Record::W(Hours { day, from, to }));
        let office: Vec<Record> = [Record::C(480)].into_iter().chain(week(0..5, 480, 960)).collect();
        let clock: Vec<Record> = [Record::C(1_440)].into_iter().chain(week(0..7, 0, 1_440)).collect();
        if best[block.clone()] == office || best[block.clone()] == clock {
            continue;
        }
        for plain in [office, clock] {
            let mut tried = best.clone();
            tried.splice(block.clone(), plain);
            if keep(best, tried, differs) {
                break;
            }
        }
    }
}

/// Gives the activities the ids 1, 2, 3 and so on, everywhere at once.
fn renumber(best: &mut Vec<Record>, differs: &impl Fn(&[u8]) -> bool) {
    let ids: Vec<u32> = best.iter().filter_map(|r| if let Record::A(a) = r { Some(a.id) } else { None }).collect();
    let new = |id: u32| ids.iter().position(|x| *x == id).map_or(id, |k| k as u32 + 1);
    let mut tried = best.clone();
    for r in &mut tried {
        match r {
            Record::A(a) => (a.id, a.parent) = (new(a.id), new(a.parent)),
            Record::L(l) => (l.predecessor, l.successor) = (new(l.predecessor), new(l.successor)),
            _ => {}
        }
    }
    keep(best, tried, differs);
}

/// Takes plainer values, field by field.
fn plainer(best: &mut [Record], differs: &impl Fn(&[u8]) -> bool) {
    for k in 0..best.len() {
        while let Some(record) = candidates(&best[k]).into_iter().find(|c| {
            let mut tried = best.to_vec();
            tried[k] = c.clone();
            differs(&encode(&tried))
        }) {
            best[k] = record;
        }
    }
}

/// Nearer to 0, in few steps from any number.
fn smaller(n: i32) -> Vec<i32> {
    vec![0, n / 2, n - n / 16, if n.unsigned_abs() < 32 { n - n.signum() } else { n }]
}

fn candidates(record: &Record) -> Vec<Record> {
    let mut made = Vec::new();
    match record {
        Record::P(p) => {
            let d = Plan { start: p.start, ..Plan::default() };
            made.extend(
                [
                    Plan { data: d.data, ..p.clone() },
                    Plan { must_finish: d.must_finish, ..p.clone() },
                    Plan { lag_calendar: 0, ..p.clone() },
                    Plan { float_kind: 0, ..p.clone() },
                    Plan { progress: 0, ..p.clone() },
                    Plan { critical_by: 0, ..p.clone() },
                    Plan { threshold: 0, ..p.clone() },
                ]
                .into_iter()
                .map(Record::P),
            );
        }
        Record::A(a) => {
            let d = Activity::default();
            let marks = a.constraints;
            made.extend(
                [
                    Activity { kind: 0, ..a.clone() },
                    Activity { calendar: 0, ..a.clone() },
                    Activity { parent: 0, ..a.clone() },
                    Activity { actual_start: d.actual_start, ..a.clone() },
                    Activity { actual_finish: d.actual_finish, ..a.clone() },
                    Activity { remaining: d.remaining, ..a.clone() },
                    Activity { expected_finish: d.expected_finish, ..a.clone() },
                    Activity { constraints: [(0, 0), marks[1]], ..a.clone() },
                    Activity { constraints: [marks[0], (0, 0)], ..a.clone() },
                    Activity { constraints: [marks[1], (0, 0)], ..a.clone() },
                    Activity { constraints: [(marks[0].0, 0), marks[1]], ..a.clone() },
                    Activity { levelled: d.levelled, ..a.clone() },
                ]
                .into_iter()
                .map(Record::A),
            );
            made.extend(smaller(a.minutes).into_iter().map(|minutes| Record::A(Activity { minutes, ..a.clone() })));
        }
        Record::L(l) => {
            made.extend(
                [Link { kind: 0, ..l.clone() }, Link { basis: 0, ..l.clone() }, Link { unit: 0, ..l.clone() }]
                    .into_iter()
                    .map(Record::L),
            );
            made.extend(smaller(l.lag).into_iter().map(|lag| Record::L(Link { lag, ..l.clone() })));
        }
        _ => {}
    }
    made.retain(|r| r != record);
    made
}
