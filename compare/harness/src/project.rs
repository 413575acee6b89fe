//! A sheet that was read as the Rust's `Project`.

use mkperth_core::{
    Activity, ActivityKind, Calendar, Constraint, CriticalBy, Date, FloatKind, LagCalendar, LagKind, Levelled,
    ProgressMode, Project, Relationship, RelationshipType,
};
use reference::calendar_name;

use crate::read::{self, Sheet};
use crate::record::{self, ABSENT, Mark};

fn date(day: i32) -> Date {
    Date::from_days(day).expect("the sheet's days lie within the years")
}

fn day(day: i32) -> Option<Date> {
    (day != ABSENT).then(|| date(day))
}

/// The value that a code stands for, in its enum's order.
fn coded<T: Copy>(code: u8, values: &[T]) -> T {
    values[usize::from(code)]
}

fn calendar(k: usize, c: &read::Calendar) -> Calendar {
    let mut made = Calendar { name: calendar_name(k, c.day_length), week: [false; 7], ..Calendar::default() };
    for w in &c.week {
        let weekday = usize::try_from(w.day).expect("checked");
        made.week[weekday] = true;
        made.periods[weekday].push((w.from, w.to));
    }
    for e in &c.exceptions {
        let periods = made.exceptions.entry(date(e.day)).or_default();
        if e.to > 0 {
            periods.push((e.from, e.to));
        }
    }
    made
}

fn constraint((code, day): Mark) -> Option<Constraint> {
    let dated: fn(Date) -> Constraint = match code {
        0 => return None,
        1 => Constraint::StartOnOrAfter,
        2 => Constraint::StartOnOrBefore,
        3 => Constraint::FinishOnOrAfter,
        4 => Constraint::FinishOnOrBefore,
        5 => Constraint::StartOn,
        6 => Constraint::FinishOn,
        7 => Constraint::MandatoryStart,
        8 => Constraint::MandatoryFinish,
        _ => return Some(Constraint::AsLateAsPossible),
    };
    Some(dated(date(day)))
}

fn activity(sheet: &Sheet, a: &record::Activity) -> Activity {
    let k = usize::from(a.calendar);
    Activity {
        id: a.id.to_string(),
        kind: coded(a.kind, &[ActivityKind::Task, ActivityKind::StartMilestone, ActivityKind::FinishMilestone]),
        // Negative minutes are row 7, which the Rust says of days.
        duration: i64::from(a.minutes.min(0)),
        duration_minutes: (a.minutes >= 0).then_some(i64::from(a.minutes)),
        actual_start: day(a.actual_start),
        actual_finish: day(a.actual_finish),
        remaining_minutes: (a.remaining != ABSENT).then_some(i64::from(a.remaining)),
        expected_finish: day(a.expected_finish),
        constraint: constraint(a.constraints[0]),
        secondary_constraint: constraint(a.constraints[1]),
        calendar: Some(calendar_name(k, sheet.calendars.get(k).map_or(0, |c| c.day_length))),
        parent: (a.parent != 0).then(|| a.parent.to_string()),
        levelled: day(a.levelled).map(|start| Levelled { start, resource: String::new() }),
        ..Activity::default()
    }
}

fn relationship(l: &record::Link) -> Relationship {
    use RelationshipType::{FinishToFinish, FinishToStart, StartToFinish, StartToStart};
    let lag = i64::from(l.lag);
    let percent = l.basis == 2;
    let in_minutes = !percent && l.unit == 1;
    Relationship {
        predecessor: l.predecessor.to_string(),
        successor: l.successor.to_string(),
        kind: coded(l.kind, &[FinishToStart, StartToStart, FinishToFinish, StartToFinish]),
        lag: if percent || in_minutes { 0 } else { lag },
        lag_minutes: in_minutes.then_some(lag),
        lag_kind: coded(l.basis, &[LagKind::Working, LagKind::Elapsed, LagKind::Percent(lag)]),
    }
}

pub fn project(sheet: &Sheet) -> Project {
    let p = &sheet.plan;
    let mut calendars: Vec<Calendar> = sheet.calendars.iter().enumerate().map(|(k, c)| calendar(k, c)).collect();
    Project {
        start: date(p.start),
        calendar: calendars.remove(0),
        calendars,
        lag_calendar: coded(
            p.lag_calendar,
            &[LagCalendar::Predecessor, LagCalendar::Successor, LagCalendar::TwentyFourHour, LagCalendar::Project],
        ),
        float_kind: coded(p.float_kind, &[FloatKind::Finish, FloatKind::Start, FloatKind::Smallest]),
        critical_by: coded(p.critical_by, &[CriticalBy::TotalFloat(i64::from(p.threshold)), CriticalBy::LongestPath]),
        data_date: day(p.data),
        progress_mode: coded(p.progress, &[ProgressMode::RetainedLogic, ProgressMode::ProgressOverride]),
        must_finish_by: day(p.must_finish),
        activities: sheet.activities.iter().map(|a| activity(sheet, a)).collect(),
        relationships: sheet.links.iter().map(relationship).collect(),
        name: String::new(),
        bands: Vec::new(),
        markers: Vec::new(),
        month_marks: Vec::new(),
        resources: Vec::new(),
        roles: Vec::new(),
        assignments: Vec::new(),
        comments: Vec::new(),
        levelling: Default::default(),
        baselines: Vec::new(),
        baseline_in_use: None,
        expenses: Vec::new(),
        cost_accounts: Vec::new(),
        currency: String::new(),
        budget: Default::default(),
        earned_value: Default::default(),
        classification: Default::default(),
        external: Vec::new(),
        organisation: Default::default(),
        extra: Default::default(),
    }
}

/// Whether the Rust's `day_minutes` gives the sheet's day length on every calendar.
pub fn day_lengths_agree(sheet: &Sheet, project: &Project) -> bool {
    let calendars = std::iter::once(&project.calendar).chain(&project.calendars);
    sheet.calendars.iter().zip(calendars).all(|(c, made)| i64::from(c.day_length) == made.day_minutes())
}
