//! Plans at the limits of spans, years and fields, and one past them.

use mkperth_core::Date;

use super::calendars::{exceptions, first_weekday_minutes, minute_a_week, office, round_the_clock};
use super::plans::ordinary;
use super::random::Random;
use crate::read::{Calendar, MAX_EXCEPTIONS, Sheet};
use crate::record::{ABSENT, Activity, FIRST_DAY, Hours, LAST_DAY, Link, Plan};

/// Days on either side of the start that a time may lie away.
const SPAN: i32 = 200_000;
/// The longest lag in minutes.
const LONGEST_LAG: i32 = 144_000_000;

fn task(id: u32, minutes: i32) -> Activity {
    Activity { id, minutes, ..Activity::default() }
}

fn plan(start: i32, calendars: Vec<Calendar>, activities: Vec<Activity>) -> Sheet {
    Sheet { plan: Plan { start, ..Plan::default() }, calendars, activities, links: Vec::new() }
}

fn link(predecessor: u32, successor: u32, kind: u8, basis: u8, unit: u8, lag: i32) -> Link {
    Link { predecessor, successor, kind, basis, unit, lag }
}

/// A start from which the span lies within the sheet's days on both sides.
fn middle(r: &mut Random) -> i32 {
    r.within(FIRST_DAY + SPAN + 10, LAST_DAY - SPAN - 10)
}

/// The ways from this one on walk to the end of the years, which takes long.
pub const SLOW_WAYS: usize = 12;
pub const WAYS: usize = 18;

/// A plan that leaves the span or the years in the `way`th manner, or just stays within.
pub fn way(r: &mut Random, way: usize) -> Sheet {
    let start = middle(r);
    let clock = || vec![round_the_clock()];
    let side = r.pick(&[1, -1]);
    // Within, on and past the edge.
    let minutes_past = side * r.pick(&[-1, 0, 0, 1, 1, 1_440]);
    let days_past = r.pick(&[-1, 0, 0, 1, 1, 2]);
    match way {
        // Links forward: two of the longest lags reach the edge itself.
        0 => {
            if side < 0 {
                // Nothing but recorded work lies before the floor; a lead from it reaches the edge.
                let mut done = task(1, 0);
                done.actual_finish = start - SPAN / 2 - 2;
                let mut s = plan(start, clock(), vec![done, task(2, 0)]);
                s.links = vec![link(1, 2, r.pick(&[0, 1]), 1, 1, 1_440 - LONGEST_LAG + minutes_past)];
                return s;
            }
            let mut s = plan(start, clock(), vec![task(1, 0), task(2, 0), task(3, 0)]);
            let (a, b) = (LONGEST_LAG - 1_440, LONGEST_LAG - 1_440 + minutes_past);
            s.activities[0].minutes = 2_880;
            s.links = vec![link(1, 2, 0, 1, 1, a), link(2, 3, r.pick(&[0, 1, 2, 3]), r.pick(&[0, 1]), 1, b)];
            s
        }
        // Dates of constraints, of levelling and of expected finishes.
        1 | 2 | 4 => {
            let day = start + side * (SPAN + days_past);
            let mut a = task(1, 0);
            match way {
                1 => a.constraints[r.below(2)] = (r.within(1, 8) as u8, day),
                2 => a.levelled = day,
                _ => a.expected_finish = day,
            }
            plan(start, clock(), vec![a, task(2, 480)])
        }
        // A start moved past the edge by a day without work.
        3 => {
            let mut a = task(1, 0);
            let start = (start - 6..=start).find(|d| (d + SPAN + 3).rem_euclid(7) == 5).expect("a week has a Saturday");
            let start = start + r.pick(&[0, 0, 1, 2]);
            a.constraints[0] = (r.pick(&[1, 5, 7]), start + SPAN);
            plan(start, vec![office()], vec![a])
        }
        // A finish past the edge, on a calendar of a minute a week.
        5 => plan(start, vec![minute_a_week(r.within(0, 6), 0)], vec![task(1, SPAN / 7 + r.within(-2, 400))]),
        6 => {
            let mut s = plan(start, clock(), if r.percent(50) { Vec::new() } else { vec![task(1, 480)] });
            s.plan.must_finish = start + side * (SPAN + days_past);
            s
        }
        // Links backward, seen first there since their successors are recorded.
        7 => {
            let mut done = task(2, 0);
            done.actual_finish = start + side * r.within(SPAN - 50_000, SPAN - 1);
            let mut s = plan(start, clock(), vec![task(1, 480), done]);
            s.links = vec![link(1, 2, r.below(4) as u8, 1, 0, -side * r.within(0, 100_000))];
            s
        }
        // A finish constraint of work in progress, which only the backward pass reads.
        8 => {
            let mut a = task(1, 480);
            a.actual_start = start;
            a.constraints[r.below(2)] = (r.pick(&[3, 4, 6, 8]), start + side * (SPAN + days_past));
            plan(start, clock(), vec![a])
        }
        // A late finish moved past the edge by days without work, and a late start by its own work.
        9 => {
            let mut s = plan(start, vec![minute_a_week(r.within(0, 6), 0)], vec![task(1, r.pick(&[0, 1]))]);
            s.plan.must_finish = start - SPAN - 1;
            s
        }
        10 => {
            let mut s = plan(start, clock(), vec![task(1, 1_440 * 30)]);
            s.plan.must_finish = start - SPAN + r.within(0, 28);
            s
        }
        // Completed work far from the start, with a link between: only free float measures it.
        11 => {
            let mut s = plan(start, clock(), vec![task(1, 0), task(2, 0)]);
            for a in &mut s.activities {
                a.actual_finish = start + side * (SPAN + r.within(-1, 9));
            }
            s.links = vec![link(1, 2, r.below(4) as u8, 0, 0, 0)];
            s
        }
        _ => years(r, way),
    }
}

/// Walks on a minute a week to the end of the years.
fn years(r: &mut Random, way: usize) -> Sheet {
    let sparse = vec![minute_a_week(r.within(0, 6), 480), round_the_clock()];
    let long = r.within(700_000, 1_400_000);
    match way {
        12 => plan(LAST_DAY, sparse, vec![task(1, long)]),
        // A finish bound takes the minutes before the expected finish replaces them: the first day of the years, or not.
        13 => {
            let first = Date::from_ymd(-9_999, 1, 1).expect("the first day of the years").days();
            let weekday = sparse[0].week[0].day;
            let first_worked =
                (first..first + 7).find(|d| (d + 3).rem_euclid(7) == weekday).expect("a week has every day");
            let last_worked =
                (FIRST_DAY - 6..=FIRST_DAY).find(|d| (d + 3).rem_euclid(7) == weekday).expect("a week has every day");
            let weeks = (last_worked - first_worked) / 7 + 1;
            let mut a = task(2, weeks + r.pick(&[0, 0, 1, 2, 3]));
            a.expected_finish = FIRST_DAY + r.within(0, 40);
            let mut predecessor = task(1, 0);
            predecessor.calendar = 1;
            let mut s = plan(FIRST_DAY, sparse, vec![predecessor, a]);
            s.links = vec![link(1, 2, r.pick(&[2, 3]), 0, 0, 0)];
            s
        }
        // A lag into completed work: first walked backward if its predecessor isn't completed, else in free float.
        _ => {
            let (after, completed) = (way.is_multiple_of(2), way >= 16);
            let start = if after { LAST_DAY - 20 } else { FIRST_DAY + 20 };
            let mut done = task(2, 0);
            done.actual_finish = start;
            let mut s = plan(start, sparse, vec![task(1, 1), done]);
            if completed {
                s.activities[0].actual_finish = start;
            }
            let lag = if after == completed { long } else { -long };
            s.links = vec![link(1, 2, r.below(4) as u8, 0, 1, lag)];
            s
        }
    }
}

/// Fields at their limits, or one past, in a plan that is accepted otherwise.
pub fn limits(r: &mut Random) -> Sheet {
    match r.below(16) {
        0..3 => {
            // Days at both ends of the sheet's range.
            let day = r.pick(&[FIRST_DAY, LAST_DAY]);
            let mut s = ordinary(r);
            s.plan.start = day;
            s.plan.data = if r.percent(50) { day } else { ABSENT };
            s.plan.must_finish = if r.percent(50) { day } else { ABSENT };
            for a in &mut s.activities {
                for d in [&mut a.actual_start, &mut a.actual_finish, &mut a.expected_finish, &mut a.levelled] {
                    if *d != ABSENT {
                        *d = day;
                    }
                }
                a.constraints.iter_mut().for_each(|c| c.1 = day);
            }
            s
        }
        3..5 => {
            let mut s =
                plan(r.within(0, 20_000), vec![office(), round_the_clock()], vec![task(1, 48_000_000), task(2, 480)]);
            s.activities[0].calendar = r.below(2) as u8;
            s
        }
        k @ 5..9 => {
            let mut s = plan(0, vec![round_the_clock(), office()], vec![task(1, 480), task(2, 480)]);
            s.plan.lag_calendar = r.below(4) as u8;
            let sign = r.pick(&[1, -1]);
            let (unit, lag) = if k < 7 { (0, 100_000) } else { (1, LONGEST_LAG) };
            s.links = vec![link(1, 2, r.below(4) as u8, r.pick(&[0, 1]), unit, sign * lag)];
            s.activities[1].calendar = r.below(2) as u8;
            s
        }
        9..11 => {
            // A percent is clamped; its minutes are judged afterwards.
            let minutes = r.pick(&[1, 99, 961, 1_440_000]);
            let mut s = plan(0, vec![round_the_clock()], vec![task(1, minutes), task(2, 480)]);
            let lag = r.pick(&[1_000_000, 1_000_001, i32::MAX, 999_999]) * r.pick(&[1, -1]);
            s.links = vec![link(1, 2, r.below(4) as u8, 2, 0, lag)];
            s
        }
        11..13 => {
            let mut a = task(1, 480);
            a.actual_start = 0;
            a.remaining = r.pick(&[LONGEST_LAG, LONGEST_LAG + 1, i32::MAX, LONGEST_LAG - 1]);
            plan(0, vec![round_the_clock()], vec![a])
        }
        13..15 => {
            // As many days that differ as a calendar holds.
            let mut s = ordinary(r);
            let start = s.plan.start.clamp(FIRST_DAY, LAST_DAY - 2_000);
            s.plan.start = start;
            let c = &mut s.calendars[0];
            c.exceptions = exceptions(r, start, 400);
            if r.percent(50) {
                // Every worked day of some years is closed.
                let weekdays: Vec<i32> = c.week.iter().map(|w| w.day).collect();
                let worked = (start..start + 2_000).filter(|d| weekdays.contains(&(d + 3).rem_euclid(7)));
                c.exceptions = worked.take(MAX_EXCEPTIONS).map(|day| Hours { day, from: 0, to: 0 }).collect();
            }
            s
        }
        _ => {
            let mut s = ordinary(r);
            let eight = (0..8).map(|k| Hours { day: 0, from: k * 100, to: k * 100 + 50 + k });
            s.calendars[0].week = eight.collect();
            s.calendars[0].day_length = first_weekday_minutes(&s.calendars[0]);
            s
        }
    }
}
