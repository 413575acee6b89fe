//! Document 01's reading of a sheet: rows 2, 3 and 4, written from its text alone.

use crate::record::{ABSENT, Activity, FIRST_DAY, Hours, LAST_DAY, Link, Plan, Record};

pub const MAX_CALENDARS: usize = 15;
pub const MAX_PERIODS: usize = 8;
pub const MAX_EXCEPTIONS: usize = 256;
pub const MAX_ACTIVITIES: usize = 4_096;
pub const MAX_LINKS: usize = 16_384;

#[derive(Debug, Clone, PartialEq, Eq, Default)]
pub struct Calendar {
    pub day_length: u16,
    pub week: Vec<Hours>,
    pub exceptions: Vec<Hours>,
}

#[derive(Debug, Clone, PartialEq, Eq, Default)]
pub struct Sheet {
    pub plan: Plan,
    pub calendars: Vec<Calendar>,
    pub activities: Vec<Activity>,
    pub links: Vec<Link>,
}

/// The sheet that the bytes are, or the row (2, 3 or 4) that refuses them.
pub fn read(bytes: &[u8]) -> Result<Sheet, u8> {
    let mut rest = bytes;
    let mut plan: Option<Plan> = None;
    let mut sheet = Sheet::default();
    while !rest.is_empty() {
        let (record, length) = Record::first(rest).ok_or(2u8)?;
        rest = &rest[length..];
        if plan.is_none() != matches!(record, Record::P(_)) {
            return Err(2);
        }
        match record {
            Record::P(p) => {
                check_plan(&p)?;
                plan = Some(p);
            }
            other => sheet.add(other)?,
        }
    }
    sheet.plan = plan.ok_or(2u8)?;
    if sheet.calendars.is_empty() { Err(2) } else { Ok(sheet) }
}

fn require(row: u8, holds: bool) -> Result<(), u8> {
    if holds { Ok(()) } else { Err(row) }
}

fn is_day(day: i32) -> bool {
    (FIRST_DAY..=LAST_DAY).contains(&day)
}

fn is_day_or_absent(day: i32) -> bool {
    day == ABSENT || is_day(day)
}

fn check_plan(p: &Plan) -> Result<(), u8> {
    let days = is_day(p.start) && is_day_or_absent(p.data) && is_day_or_absent(p.must_finish);
    require(3, days && p.lag_calendar <= 3 && p.float_kind <= 2 && p.progress <= 1 && p.critical_by <= 1)
}

/// Hours within a day.
fn are_hours(h: &Hours) -> bool {
    h.from < h.to && h.to <= 1_440
}

impl Sheet {
    /// Takes the next record after P: its place (2), its limit (4), its fields (3).
    fn add(&mut self, record: Record) -> Result<(), u8> {
        let before_activities = self.activities.is_empty() && self.links.is_empty();
        match record {
            Record::C(day_length) => {
                require(2, before_activities)?;
                require(4, self.calendars.len() < MAX_CALENDARS)?;
                require(3, day_length <= 1_440)?;
                self.calendars.push(Calendar { day_length, ..Calendar::default() });
            }
            Record::W(h) => {
                require(2, before_activities)?;
                let calendar = self.calendars.last_mut().ok_or(2u8)?;
                require(2, calendar.exceptions.is_empty())?;
                let of_weekday = calendar.week.iter().filter(|w| w.day == h.day).count();
                require(4, h.day > 6 || of_weekday < MAX_PERIODS)?;
                let in_order = calendar.week.last().is_none_or(|w| w.day < h.day || (w.day == h.day && w.to <= h.from));
                require(3, h.day <= 6 && are_hours(&h) && in_order)?;
                calendar.week.push(h);
            }
            Record::E(h) => {
                require(2, before_activities)?;
                let calendar = self.calendars.last_mut().ok_or(2u8)?;
                require(4, calendar.exceptions.len() < MAX_EXCEPTIONS)?;
                let closed = h.from == 0 && h.to == 0;
                let in_order = calendar
                    .exceptions
                    .last()
                    .is_none_or(|e| e.day < h.day || (e.day == h.day && !closed && e.to != 0 && e.to <= h.from));
                require(3, is_day(h.day) && (closed || are_hours(&h)) && in_order)?;
                calendar.exceptions.push(h);
            }
            Record::A(a) => {
                require(2, self.links.is_empty())?;
                require(4, self.activities.len() < MAX_ACTIVITIES)?;
                let days = [a.actual_start, a.actual_finish, a.expected_finish, a.levelled];
                let marks = a.constraints.iter().all(|&(code, day)| match code {
                    0 | 9 => true,
                    1..=8 => is_day(day),
                    _ => false,
                });
                let minutes = a.kind == 0 || a.minutes == 0;
                require(3, a.id != 0 && a.kind <= 2 && minutes && days.into_iter().all(is_day_or_absent) && marks)?;
                self.activities.push(a);
            }
            Record::L(l) => {
                require(4, self.links.len() < MAX_LINKS)?;
                require(3, l.kind <= 3 && l.basis <= 2 && (l.basis == 2 || l.unit <= 1))?;
                self.links.push(l);
            }
            // The caller has taken P, and bytes that are no record.
            Record::P(_) | Record::Raw(_) => return Err(2),
        }
        Ok(())
    }
}
