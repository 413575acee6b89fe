//! Stands in for explanations: `schedule` asks for none, so nothing here is ever made.

use mkperth_core::{Calendar, Constraint, Date, RelationshipType};

use super::Scheduled;

pub enum Moment {}
pub fn moment(_: i64, _: bool, _: &Calendar) -> Option<Moment> {
    None
}
pub fn constraint_name() {}
pub enum Source {
    ProjectStart,
    DataDate,
    ProjectFinish,
    MustFinishBy,
    Relationship { other: String, kind: RelationshipType, lag: i64 },
    Constraint(Constraint),
    Levelled(String),
}
pub struct Bound {
    pub source: Source,
    pub moment: Moment,
    pub via: Option<Moment>,
    pub overrides: bool,
}
pub struct Slack {
    pub source: Source,
    pub minutes: i64,
}
pub struct Driver {
    pub name: String,
    pub calendar: String,
    pub minutes: i64,
    pub day_minutes: i64,
}
pub struct Explanation {
    pub id: String,
    pub calendar: String,
    pub duration: i64,
    pub expected: Option<Date>,
    pub resources: Vec<Driver>,
    pub day_minutes: i64,
    pub children: Vec<String>,
    pub early: Vec<Bound>,
    pub earliest: Moment,
    pub early_start: Moment,
    pub early_finish: Moment,
    pub late: Vec<Bound>,
    pub latest: Moment,
    pub late_start: Moment,
    pub late_finish: Moment,
    pub free: Vec<Slack>,
    pub held_late: i64,
    pub scheduled: Scheduled,
}
