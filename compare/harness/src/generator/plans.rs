//! Ordinary plans, nearly all of which are accepted.

use super::calendars::{calendar, exceptions, office};
use super::random::Random;
use crate::read::Sheet;
use crate::record::{ABSENT, Activity, FIRST_DAY, LAST_DAY, Link, Mark, Plan, Record};

/// A sheet's records in their order.
pub fn records(s: &Sheet) -> Vec<Record> {
    let mut made = vec![Record::P(s.plan.clone())];
    for c in &s.calendars {
        made.push(Record::C(c.day_length));
        made.extend(c.week.iter().copied().map(Record::W));
        made.extend(c.exceptions.iter().copied().map(Record::E));
    }
    made.extend(s.activities.iter().cloned().map(Record::A));
    made.extend(s.links.iter().cloned().map(Record::L));
    made
}

fn day_near(r: &mut Random, near: i32, before: i32, after: i32) -> i32 {
    r.within(near - before, near + after).clamp(FIRST_DAY, LAST_DAY)
}

/// `value` on `share` percent, else absent.
fn maybe(r: &mut Random, share: u32, value: i32) -> i32 {
    if r.percent(share) { value } else { ABSENT }
}

fn plan(r: &mut Random) -> Plan {
    let start = match r.below(20) {
        0 => r.within(FIRST_DAY, LAST_DAY),
        1 => r.within(-400, 400),
        _ => r.within(19_000, 20_500),
    };
    let data = day_near(r, start, 5, 25);
    let must_finish = day_near(r, start, 10, 120);
    let critical_by = u8::from(r.percent(30));
    Plan {
        start,
        data: maybe(r, 45, data),
        must_finish: maybe(r, 30, must_finish),
        lag_calendar: r.below(4) as u8,
        float_kind: r.below(3) as u8,
        progress: u8::from(r.percent(40)),
        critical_by,
        threshold: if critical_by == 1 { r.next() as i32 } else { r.pick(&[0, 0, 0, 1, 5, -1, i32::MIN, i32::MAX]) },
    }
}

/// How much of what a plan has, as shares in percent.
struct Taste {
    milestones: u32,
    marks: u32,
    progress: u32,
    expected: u32,
    levelled: u32,
    summaries: u32,
    links: usize,
}

fn taste(r: &mut Random) -> Taste {
    Taste {
        milestones: r.pick(&[0, 15, 30]),
        marks: r.pick(&[0, 0, 12, 50]),
        progress: r.pick(&[0, 0, 30, 70]),
        expected: r.pick(&[0, 0, 20]),
        levelled: r.pick(&[0, 0, 20]),
        summaries: r.pick(&[0, 0, 15, 30]),
        links: r.pick(&[50, 100, 150, 200]),
    }
}

fn minutes(r: &mut Random) -> i32 {
    match r.below(10) {
        0 => 0,
        1 => r.within(1, 60),
        2..7 => 480 * r.within(1, 6),
        7 => r.within(1, 5_000),
        8 => 240,
        _ => r.within(1, 960),
    }
}

fn mark(r: &mut Random, near: i32) -> Mark {
    let code = r.within(1, 9) as u8;
    (code, if code == 9 { r.next() as i32 } else { day_near(r, near, 8, 40) })
}

fn activity(r: &mut Random, id: u32, near: i32, calendars: usize, t: &Taste) -> Activity {
    let kind = if r.percent(t.milestones) { 1 + r.below(2) as u8 } else { 0 };
    let mut a = Activity {
        id,
        kind,
        calendar: r.below(calendars) as u8,
        minutes: if kind == 0 { minutes(r) } else { 0 },
        ..Activity::default()
    };
    for place in 0..2 {
        if r.percent(t.marks) {
            a.constraints[place] = mark(r, near);
        } else if r.percent(20) {
            a.constraints[place].1 = r.next() as i32;
        }
    }
    if r.percent(t.progress) {
        match r.below(4) {
            0 => a.actual_finish = day_near(r, near, 15, 15),
            1 => {
                a.actual_start = day_near(r, near, 20, 10);
                a.actual_finish = day_near(r, a.actual_start, 2, 12);
            }
            _ => a.actual_start = day_near(r, near, 20, 15),
        }
        let left = r.pick(&[0, 1, 60, 480, 961, 2_400, -5, i32::MIN + 1]);
        a.remaining = maybe(r, 50, left);
    }
    if r.percent(t.expected) {
        a.expected_finish = day_near(r, near, 5, 40);
    }
    if r.percent(t.levelled) {
        a.levelled = day_near(r, near, 5, 30);
    }
    a
}

fn lag(r: &mut Random, l: &mut Link) {
    l.basis = r.pick(&[0, 0, 0, 1, 2]);
    l.unit = r.below(2) as u8;
    l.lag = match (l.basis, l.unit) {
        _ if r.percent(40) => 0,
        (2, _) => r.pick(&[5_000, -5_000, 10_000, 2_500, 3_333, -3_333, 15_000, 1]),
        (_, 0) => r.within(-4, 8),
        _ => r.within(-1_500, 3_000),
    };
    if l.basis == 2 && r.percent(30) {
        l.unit = r.next() as u8;
    }
}

fn ids(r: &mut Random, count: usize) -> Vec<u32> {
    let mut ids: Vec<u32> = match r.below(4) {
        0 => {
            let first = r.next() as u32 % (u32::MAX - 1_000_000) + 1;
            (0..count as u32).map(|k| first + 7 * k).collect()
        }
        _ => (1..=count as u32).collect(),
    };
    if r.percent(40) {
        r.shuffle(&mut ids);
    }
    ids
}

pub fn count(r: &mut Random) -> usize {
    match r.below(100) {
        0..2 => 0,
        2..6 => 1,
        6..60 => 2 + r.below(7),
        60..90 => 9 + r.below(12),
        90..93 => 40,
        93..96 => 64,
        _ => r.below(64),
    }
}

/// A plan of `count` activities.
pub fn plan_of(r: &mut Random, count: usize) -> Sheet {
    let t = taste(r);
    let plan = plan(r);
    let calendars = match r.below(10) {
        0..4 => 1,
        4..8 => 2 + r.below(3),
        _ => 5 + r.below(11),
    };
    let mut calendars: Vec<_> = (0..calendars).map(|_| calendar(r, plan.start)).collect();
    if r.percent(1) {
        calendars[0].exceptions = exceptions(r, plan.start, 256);
    }
    let near = if plan.data == ABSENT { plan.start } else { plan.start.max(plan.data) };
    let mut activities: Vec<Activity> =
        ids(r, count).into_iter().map(|id| activity(r, id, near, calendars.len(), &t)).collect();
    // Parents and links go along hidden orders, so that neither closes a loop.
    let mut order: Vec<usize> = (0..count).collect();
    r.shuffle(&mut order);
    let mut above: Vec<usize> = Vec::new();
    for &i in &order {
        if !above.is_empty() && r.percent(60) {
            activities[i].parent = activities[r.pick(&above)].id;
        }
        if activities[i].kind == 0 && r.percent(t.summaries) {
            above.push(i);
        }
    }
    r.shuffle(&mut order);
    let mut links = Vec::new();
    if count > 1 {
        for _ in 0..count * t.links / 100 {
            let from = r.below(count - 1);
            let to = (from + 1 + r.below(4)).min(count - 1);
            let mut l = Link {
                predecessor: activities[order[from]].id,
                successor: activities[order[to]].id,
                kind: r.pick(&[0, 0, 0, 1, 2, 3]),
                ..Link::default()
            };
            lag(r, &mut l);
            links.push(l);
        }
    }
    Sheet { plan, calendars, activities, links }
}

pub fn ordinary(r: &mut Random) -> Sheet {
    let count = count(r);
    plan_of(r, count)
}

/// A network of many plain tasks and links, cheap to schedule for its size.
pub fn large(r: &mut Random, activities: usize, links: usize) -> Sheet {
    let mut s = plan_of(r, 8);
    s.links.clear();
    let t = Taste { milestones: 5, marks: 2, progress: 3, expected: 1, levelled: 2, summaries: 0, links: 0 };
    // A long chain on a sparse calendar would leave the span.
    s.calendars
        .iter_mut()
        .filter(|c| c.week.iter().map(|w| w.to - w.from).sum::<u16>() < 1_200)
        .for_each(|c| *c = office());
    let calendars = s.calendars.len();
    s.activities = (1..=activities as u32).map(|id| activity(r, id, s.plan.start, calendars, &t)).collect();
    for a in &mut s.activities {
        a.minutes %= 481;
        // Every sixteenth is a summary, under the one before now and then.
        if a.id % 16 == 3 {
            a.kind = 0;
            if a.id > 16 && r.percent(20) {
                a.parent = a.id - 16;
            }
        } else if a.id > 16 && r.percent(30) {
            a.parent = a.id / 16 * 16 - 13;
        }
    }
    while s.links.len() < links {
        let from = r.below(activities) as u32;
        let to = from + 1 + r.below(64) as u32;
        if to < activities as u32 {
            let mut l = Link { predecessor: from + 1, successor: to + 1, kind: r.below(4) as u8, ..Link::default() };
            if r.percent(20) {
                lag(r, &mut l);
            }
            s.links.push(l);
        }
    }
    s
}
