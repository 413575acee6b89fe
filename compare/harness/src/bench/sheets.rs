//! The benchmark's sheets: networks of raceway works like real ones, the same on every machine.

use std::collections::HashSet;

use crate::generator::calendars::{calendar, office, week};
use crate::generator::plans::records;
use crate::generator::random::Random;
use crate::oracle::{Answer, answer};
use crate::read::{Calendar, MAX_CALENDARS, MAX_EXCEPTIONS, Sheet};
use crate::record::{Activity, Hours, Link, Plan, encode};

/// A Monday.
pub const START: i32 = 19_723;
/// 100 years in days.
pub const CENTURY: i32 = 36_525;
/// Activities and links; a step of eight times both leads from each of `GROWTH` to the next.
pub const SIZES: [(usize, usize); 5] = [(2, 1), (64, 128), (512, 1_024), (4_096, 8_192), (4_096, 16_384)];
pub const GROWTH: [(usize, usize); 3] = [(64, 128), (512, 1_024), (4_096, 8_192)];
/// The seed of the plan that stands in the tables, and of the first of as many plans as a step of `GROWTH` is times as large.
const FIRST_SEED: u64 = 1;
pub const IN_TURN: std::ops::RangeInclusive<u64> = FIRST_SEED..=8;
/// Works that follow one another; those of a layer go on side by side.
const LAYERS: usize = 16;
const DAY: i32 = 480;
/// Ids rise in steps, as planning programs give them.
const FIRST_ID: u32 = 1_000;
const ID_STEP: u32 = 10;

/// What a sheet is made for.
#[derive(Debug, Clone, Copy, PartialEq, Eq)]
pub enum Kind {
    /// Works of 1 to 10 days, some months in all.
    Months,
    /// The same works and lags, each so many times as long that all take 100 years.
    Century,
    /// Works of 1 to 10 days that dates spread over 100 years.
    Dates,
    /// Ids whose search is as long as it can be.
    LongIds,
    /// Eight periods on each of seven days.
    ManyHours,
    /// All calendars, lags on others, every type of link and of constraint.
    Mix,
}

/// The kinds that are made in every size, without exceptions and with as many as there may be.
pub const SPANS: [Kind; 3] = [Kind::Months, Kind::Century, Kind::Dates];

/// A sheet to time: its kind, its activities and links, and the E of the project's calendar.
#[derive(Debug, Clone, Copy, PartialEq, Eq)]
pub struct Case {
    pub kind: Kind,
    pub size: (usize, usize),
    pub exceptions: usize,
}

impl Case {
    pub fn plan(&self) -> &'static str {
        match self.kind {
            Kind::Months => "months",
            Kind::Century => "century",
            Kind::Dates => "dates",
            Kind::LongIds => "long-ids",
            Kind::ManyHours => "many-hours",
            Kind::Mix => "mix",
        }
    }

    /// What a file is called after it.
    pub fn name(&self) -> String {
        format!("{}-{}-{}-{}", self.plan(), self.size.0, self.size.1, self.exceptions)
    }

    /// The sheet of a seed: others have other works and links of the same sort.
    pub fn sheet(&self, seed: u64) -> Sheet {
        let mut s = works(seed, self.size);
        match self.kind {
            Kind::Months => {}
            Kind::Century => stretch(&mut s),
            Kind::Dates => date(&mut s),
            Kind::LongIds => long_ids(&mut s),
            Kind::ManyHours => many_hours(&mut s),
            Kind::Mix => mix(&mut s),
        }
        if self.exceptions > 0 {
            s.calendars[0].exceptions = spread(self.exceptions, days(&s));
            // Days off make a short plan longer.
            s.calendars[0].exceptions = spread(self.exceptions, days(&s));
        }
        s
    }

    pub fn bytes(&self) -> Vec<u8> {
        self.bytes_of(FIRST_SEED)
    }

    pub fn bytes_of(&self, seed: u64) -> Vec<u8> {
        encode(&records(&self.sheet(seed)))
    }
}

/// Every sheet of the benchmark.
pub fn cases() -> Vec<Case> {
    let mut made = Vec::new();
    for kind in SPANS {
        for size in SIZES {
            made.extend([0, MAX_EXCEPTIONS].map(|exceptions| Case { kind, size, exceptions }));
        }
    }
    let plain = |kind: Kind, size: (usize, usize)| Case { kind, size, exceptions: 0 };
    made.extend([(512, 1_024), (4_096, 16_384)].map(|size| plain(Kind::LongIds, size)));
    made.push(plain(Kind::ManyHours, (64, 128)));
    made.extend([(64, 128), (512, 1_024)].map(|size| plain(Kind::Mix, size)));
    made
}

/// Days from the start to the finish; the oracle must accept the sheet.
pub fn days(sheet: &Sheet) -> i32 {
    match answer(&encode(&records(sheet))).answer {
        Answer::Accepted { finish, .. } => finish as i32 - sheet.plan.start,
        refused => panic!("the oracle says {refused:?}"),
    }
}

fn works_week() -> Calendar {
    Calendar { day_length: DAY as u16, week: week(0..5, &[(480, 720), (780, 1_020)]), exceptions: Vec::new() }
}

/// The layer of the activity at place `i` of `count`.
fn layer(i: usize, count: usize) -> usize {
    i * LAYERS.min(count) / count
}

/// A place in one of the layers from `first` to `last`.
fn within_layers(r: &mut Random, count: usize, first: usize, last: usize) -> usize {
    let begins = |k: usize| (k * count).div_ceil(LAYERS.min(count));
    begins(first) + r.below(begins(last + 1) - begins(first))
}

/// From and to of each link: all works but the first layer's follow one, all but the last's lead to one.
fn network(r: &mut Random, activities: usize, links: usize) -> Vec<(usize, usize)> {
    let last = layer(activities - 1, activities);
    let mut pairs = HashSet::new();
    let mut led = HashSet::new();
    for to in (0..activities).filter(|&i| layer(i, activities) > 0) {
        let before = layer(to, activities) - 1;
        let from = within_layers(r, activities, before, before);
        led.insert(from);
        pairs.insert((from, to));
    }
    for from in (0..activities).filter(|&i| layer(i, activities) < last) {
        let after = layer(from, activities) + 1;
        if pairs.len() < links && !led.contains(&from) {
            pairs.insert((from, within_layers(r, activities, after, after)));
        }
    }
    while pairs.len() < links {
        let to = within_layers(r, activities, 1, last);
        let after = layer(to, activities);
        pairs.insert((within_layers(r, activities, after.saturating_sub(3), after - 1), to));
    }
    let mut pairs: Vec<_> = pairs.into_iter().collect();
    pairs.sort_unstable_by_key(|&(from, to)| (to, from));
    pairs
}

/// Mostly FS without a lag.
fn link(r: &mut Random, predecessor: u32, successor: u32) -> Link {
    let (kind, lag) = match r.below(20) {
        0..13 => (0, 0),
        13..15 => (0, r.within(1, 3)),
        15..17 => (1, r.within(1, 3)),
        17..19 => (2, r.within(0, 2)),
        _ => (3, r.within(1, 5)),
    };
    let basis = u8::from(lag != 0 && r.percent(10));
    let unit = u8::from(lag != 0 && r.percent(20));
    Link { predecessor, successor, kind, basis, unit, lag: if unit == 1 { lag * DAY - 60 } else { lag } }
}

/// Works of 1 to 10 days in layers.
fn works(seed: u64, (activities, links): (usize, usize)) -> Sheet {
    let r = &mut Random::new(seed, activities as u64);
    let made = (0..activities).map(|i| {
        let milestone = i % 32 == 31;
        Activity {
            id: FIRST_ID + ID_STEP * i as u32,
            kind: if milestone { 2 } else { 0 },
            minutes: if milestone { 0 } else { DAY * r.within(1, 10) },
            ..Activity::default()
        }
    });
    let mut activities: Vec<Activity> = made.collect();
    let pairs = network(r, activities.len(), links);
    let mut links: Vec<Link> = pairs.iter().map(|&(i, j)| link(r, activities[i].id, activities[j].id)).collect();
    if let ([first, second], [only]) = (&mut activities[..], &mut links[..]) {
        (first.minutes, second.minutes) = (10 * DAY, 10 * DAY);
        *only = Link { predecessor: first.id, successor: second.id, lag: 60, ..Link::default() };
    }
    Sheet { plan: Plan { start: START, ..Plan::default() }, calendars: vec![works_week()], activities, links }
}

/// Monday is 0.
fn weekday(day: i32) -> i32 {
    (day + 3).rem_euclid(7)
}

/// `count` records over so many days from the start, on Mondays to Fridays; those of one day are its periods.
fn spread(count: usize, days: i32) -> Vec<Hours> {
    let at = |k: usize| {
        let day = START + 1 + (k as i64 * i64::from(days) / count as i64) as i32;
        day + (7 - weekday(day)) % 7 * i32::from(weekday(day) > 4)
    };
    let mut made: Vec<Hours> = Vec::new();
    for day in at(0)..=at(count - 1) {
        let periods = (0..count).filter(|&k| at(k) == day).count() as u16;
        let length = 540 / periods.max(1);
        let hours = |k: u16| Hours { day, from: 480 + k * length, to: 450 + (k + 1) * length };
        match (periods, made.len() % 4) {
            (1, 0) => made.push(Hours { day, from: 0, to: 0 }),
            (1, 1) => made.push(Hours { day, from: 480, to: 720 }),
            _ => made.extend((0..periods).map(hours)),
        }
    }
    made
}

fn stretch(s: &mut Sheet) {
    let times = (CENTURY + days(s) / 2) / days(s);
    s.activities.iter_mut().for_each(|a| a.minutes *= times);
    s.links.iter_mut().for_each(|l| l.lag *= times);
}

fn date(s: &mut Sheet) {
    let last = s.activities.len() as i64 - 1;
    for (i, a) in (0..).zip(&mut s.activities) {
        a.constraints[0] = (1, START + (i * i64::from(CENTURY) / last) as i32);
    }
}

/// How many of their lowest bits so many ids share: as many as can be, with one of the highest for each doubling.
pub fn shared_bits(count: usize) -> u32 {
    u32::BITS - count.ilog2()
}

/// Ids that differ in their highest bits alone. Their number is a power of two, so they share their remainder by it and stand in
/// one tree of the index of `ids`, and the bits that lead to them differ last.
fn long_ids(s: &mut Sheet) {
    let bits = shared_bits(s.activities.len());
    let renamed = |id: u32| (((id - FIRST_ID) / ID_STEP) << bits) + 1;
    s.activities.iter_mut().for_each(|a| a.id = renamed(a.id));
    s.links.iter_mut().for_each(|l| (l.predecessor, l.successor) = (renamed(l.predecessor), renamed(l.successor)));
}

fn many_hours(s: &mut Sheet) {
    let hours: Vec<(u16, u16)> = (0..8).map(|k| (360 + 120 * k, 420 + 120 * k)).collect();
    s.calendars[0].week = week(0..7, &hours);
}

/// Lags on the successor's calendar; summaries and work under way as well.
fn mix(s: &mut Sheet) {
    let count = s.activities.len();
    let r = &mut Random::new(2, count as u64);
    s.plan = Plan { data: START + 14, lag_calendar: 1, float_kind: 2, critical_by: 1, ..s.plan.clone() };
    while s.calendars.len() < MAX_CALENDARS {
        let made = calendar(r, START);
        // A sparse one would stretch the plan over many years.
        let enough = made.week.iter().map(|w| w.to - w.from).sum::<u16>() >= 1_200;
        s.calendars.push(if enough { made } else { office() });
    }
    let mut above = 0;
    for (i, a) in s.activities.iter_mut().enumerate() {
        a.calendar = r.below(MAX_CALENDARS) as u8;
        if i % 16 == 0 {
            above = a.id;
            continue;
        }
        a.parent = above;
        let near = START + 12 * layer(i, count) as i32;
        if r.percent(25) {
            a.constraints[0] = (r.within(1, 9) as u8, near + r.within(-5, 20));
        }
        if r.percent(5) {
            a.constraints[1] = (r.within(1, 4) as u8, near + r.within(-5, 20));
        }
        if layer(i, count) == 0 {
            a.actual_start = START + r.within(0, 4);
            if r.percent(50) {
                a.actual_finish = a.actual_start + r.within(0, 9);
            }
        }
    }
    for l in &mut s.links {
        l.kind = r.below(4) as u8;
        (l.basis, l.unit, l.lag) = match r.below(6) {
            0 => (0, 0, r.within(-2, 5)),
            1 => (0, 1, r.within(-600, 1_500)),
            2 => (1, 0, r.within(1, 7)),
            3 => (2, 0, r.pick(&[2_500, 5_000, 10_000, -2_500])),
            _ => (0, 0, 0),
        };
    }
}
