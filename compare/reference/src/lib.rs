//! The Rust's `schedule`, unchanged and in patched copies, behind one kind of answer.

use std::cell::{Cell, RefCell};

use mkperth_core::{Calendar, Project};

/// What `schedule` says of a project, numbered as document 01 does.
pub type Outcome = Result<Dates, Refusal>;

#[derive(Debug, Clone, PartialEq, Eq)]
pub struct Dates {
    pub finish: i64,
    /// Positions among the links.
    pub ignored: Vec<u32>,
    /// Fields 1 to 13 of each activity.
    pub fields: Vec<[i64; 13]>,
    /// `es` and `ef` as the run ends; none from the unchanged text, which keeps them to itself.
    pub times: Vec<(i64, i64)>,
}

#[derive(Debug, Clone, PartialEq, Eq)]
pub struct Refusal {
    pub number: u8,
    pub id: u32,
    /// The ids of a loop, its first repeated at its end.
    pub names: Vec<u32>,
}

/// A copy with one change: a deliberate fault (`FAULTS`), or one that no answer shows (`UNSEEN`).
pub struct Fault {
    pub name: &'static str,
    pub what: &'static str,
    pub schedule: fn(&Project) -> Outcome,
}

thread_local! {
    static TIMES: RefCell<Vec<(i64, i64)>> = const { RefCell::new(Vec::new()) };
    static PASS: Cell<&'static str> = const { Cell::new("") };
    static SITE: Cell<&'static str> = const { Cell::new("") };
}

/// Called by the patched copies as a run ends.
pub(crate) fn keep_times(es: &[i64], ef: &[i64]) {
    TIMES.with_borrow_mut(|t| *t = es.iter().copied().zip(ef.iter().copied()).collect());
}

/// Called by the copy that marks its passes.
pub(crate) fn enter(pass: &'static str) {
    PASS.set(pass);
}

/// Called by the copy that marks the places at which it can say too long.
pub(crate) fn mark(site: &'static str) {
    SITE.set(site);
}

pub(crate) fn at<E>(site: &'static str, bounded: impl Fn(i64) -> Result<i64, E>) -> impl Fn(i64) -> Result<i64, E> {
    move |t| {
        mark(site);
        bounded(t)
    }
}

/// The pass and the place at which the project is refused as too long, if it is.
pub fn way_to_too_long(project: &Project) -> Option<(&'static str, &'static str)> {
    PASS.set("checks");
    match sited::answer(project) {
        Err(Refusal { number: 8, .. }) => Some((PASS.get(), SITE.get())),
        _ => None,
    }
}

/// The name of calendar `k` with its own day length, by which `day_length` finds it.
pub fn calendar_name(k: usize, day_length: u16) -> String {
    format!("{k}/{day_length}")
}

/// Takes the place of `day_minutes` in the copy that counts by the sheet's day lengths.
pub(crate) fn day_length(calendar: &Calendar) -> i64 {
    match calendar.name.split_once('/') {
        Some((_, length)) => length.parse().expect("calendar_name writes a number"),
        None => calendar.day_minutes(),
    }
}

/// Turns the answer of the copy `$copy` into ours.
macro_rules! adapter {
    ($copy:ident) => {
        pub fn answer(project: &mkperth_core::Project) -> $crate::Outcome {
            use $copy::{ScheduleError as E, Status};
            let id = |s: &String| s.parse::<u32>().expect("ids are numbers");
            let refused = |number, s: &String| $crate::Refusal { number, id: id(s), names: Vec::new() };
            let looped = |number, ids: &[String]| {
                let names: Vec<u32> = ids.iter().map(id).collect();
                $crate::Refusal { number, id: names[0], names }
            };
            $crate::TIMES.take();
            let s = $copy::schedule(project).map_err(|e| match e {
                E::DuplicateActivity(a) => refused(6, &a),
                E::NegativeDuration(a) => refused(7, &a),
                E::TooLong => $crate::Refusal { number: 8, id: 0, names: Vec::new() },
                E::UnknownCalendar(a, _) => refused(9, &a),
                E::UnknownParent(a, _) => refused(10, &a),
                E::MilestoneParent(a) => refused(11, &a),
                E::ParentLoop(ids) => looped(12, &ids),
                E::UnknownActivity(a) => refused(13, &a),
                E::SelfRelationship(a) => refused(14, &a),
                E::Loop(ids) => looped(15, &ids),
                E::TooMany(..) | E::Calendar(_) => unreachable!("the sheet's limits and row 5 come first: {e}"),
            })?;
            let day = |d: mkperth_core::Date| i64::from(d.days());
            let fields = s.activities.iter().map(|a| {
                let status = match a.status {
                    Status::NotStarted => 0,
                    Status::InProgress => 1,
                    Status::Completed => 2,
                };
                [
                    i64::from(id(&a.id)),
                    day(a.early_start),
                    day(a.early_finish),
                    day(a.late_start),
                    day(a.late_finish),
                    a.total_float,
                    a.free_float,
                    a.total_float_minutes,
                    a.free_float_minutes,
                    i64::from(a.critical),
                    i64::from(a.longest_path),
                    status,
                    a.remaining_minutes,
                ]
            });
            let ignored = s.ignored.iter().map(|&k| u32::try_from(k).expect("links are few")).collect();
            Ok($crate::Dates { finish: day(s.finish), ignored, fields: fields.collect(), times: $crate::TIMES.take() })
        }
    };
}

/// The text as given.
pub mod unchanged {
    use mkperth_sched as copy;
    adapter!(copy);
}

include!(concat!(env!("OUT_DIR"), "/modules.rs"));
