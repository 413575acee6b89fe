//! Calendars of every style: shifts, nights, round the clock, a minute a week, days that differ.

use super::random::Random;
use crate::read::{Calendar, MAX_EXCEPTIONS};
use crate::record::{FIRST_DAY, Hours, LAST_DAY};

/// The first worked weekday's minutes, which the Rust takes for a day.
pub fn first_weekday_minutes(c: &Calendar) -> u16 {
    let first = c.week.first().map_or(0, |w| w.day);
    c.week.iter().filter(|w| w.day == first).map(|w| w.to - w.from).sum()
}

/// `count` periods in order, touching now and then, some to 24:00.
fn periods(r: &mut Random, count: usize) -> Vec<(u16, u16)> {
    let mut marks: Vec<u16> = Vec::new();
    while marks.len() < 2 * count {
        let m = if r.percent(50) { 15 * r.within(0, 96) } else { r.within(0, 1_440) } as u16;
        if !marks.contains(&m) {
            marks.push(m);
        }
    }
    marks.sort_unstable();
    let mut made: Vec<(u16, u16)> = marks.chunks(2).map(|p| (p[0], p[1])).collect();
    for k in 1..made.len() {
        if r.percent(15) {
            made[k].0 = made[k - 1].1;
        }
    }
    if r.percent(20)
        && let Some(last) = made.last_mut()
    {
        last.1 = 1_440;
    }
    made
}

pub fn week(days: impl Iterator<Item = i32>, hours: &[(u16, u16)]) -> Vec<Hours> {
    days.flat_map(|day| hours.iter().map(move |&(from, to)| Hours { day, from, to })).collect()
}

pub fn round_the_clock() -> Calendar {
    Calendar { day_length: 1_440, week: week(0..7, &[(0, 1_440)]), exceptions: Vec::new() }
}

pub fn minute_a_week(weekday: i32, minute: u16) -> Calendar {
    Calendar { day_length: 1, week: vec![Hours { day: weekday, from: minute, to: minute + 1 }], exceptions: Vec::new() }
}

pub fn office() -> Calendar {
    Calendar { day_length: 480, week: week(0..5, &[(480, 960)]), exceptions: Vec::new() }
}

fn style(r: &mut Random) -> Vec<Hours> {
    match r.below(20) {
        0..6 => office().week,
        6..9 => week(0..5, &[(480, 720), (780, 1_020)]),
        9 => week(0..6, &[(0, 360), (960, 1_440)]),
        10 => week(0..7, &[(1_320, 1_440)]),
        11 => round_the_clock().week,
        12 if r.percent(50) => minute_a_week(r.within(0, 6), r.pick(&[0, 480, 720, 1_439])).week,
        13 => week(0..5, &[(480, 720), (720, 960)]),
        14 => (0..7)
            .filter(|_| r.percent(70))
            .collect::<Vec<_>>()
            .into_iter()
            .flat_map(|d| week(d..d + 1, &periods(r, 8)))
            .collect(),
        _ => {
            let mut hours = Vec::new();
            for day in 0..7 {
                if r.percent(60) {
                    let count = 1 + r.below(3);
                    hours.extend(week(day..day + 1, &periods(r, count)));
                }
            }
            hours
        }
    }
}

/// Days around `near` that differ from the week.
pub fn exceptions(r: &mut Random, near: i32, days: usize) -> Vec<Hours> {
    let mut at: Vec<i32> =
        (0..days).map(|_| r.within(near - 10, near + 30 + 3 * days as i32).clamp(FIRST_DAY, LAST_DAY)).collect();
    at.sort_unstable();
    at.dedup();
    let mut made = Vec::new();
    for day in at {
        let hours = match r.below(12) {
            0..5 => vec![(0, 0)],
            5..8 => periods(r, 1),
            8 => vec![(480, 1_440)],
            9 => {
                let count = 9 + r.below(20);
                periods(r, count)
            }
            _ => periods(r, 2),
        };
        made.extend(hours.into_iter().map(|(from, to)| Hours { day, from, to }));
    }
    made.truncate(MAX_EXCEPTIONS);
    made
}

/// A calendar with weekly hours and the Rust's own day length.
pub fn calendar(r: &mut Random, near: i32) -> Calendar {
    let mut week = style(r);
    if week.is_empty() {
        week = office().week;
    }
    let days = if r.percent(60) { 0 } else { 1 + r.below(12) };
    let mut made = Calendar { day_length: 0, week, exceptions: exceptions(r, near, days) };
    made.day_length = first_weekday_minutes(&made);
    made
}
