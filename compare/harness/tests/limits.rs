//! The limits that are too long to write by hand.

use compare::oracle::{Answer, answer};
use compare::record::{Activity, Hours, Link, Plan, Record, encode};

fn opening() -> Vec<Record> {
    let plan = Plan { start: 19_723, ..Plan::default() };
    vec![Record::P(plan), Record::C(480), Record::W(Hours { day: 0, from: 480, to: 960 })]
}

fn with(more: impl Iterator<Item = Record>) -> Vec<u8> {
    let mut records = opening();
    records.extend(more);
    encode(&records)
}

fn number(bytes: &[u8]) -> u8 {
    answer(bytes).answer.number()
}

/// Closed days, one after another.
fn closed(days: impl Iterator<Item = i32>) -> impl Iterator<Item = Record> {
    days.map(|day| Record::E(Hours { day, from: 0, to: 0 }))
}

fn activities(count: u32) -> impl Iterator<Item = Record> {
    (1..=count).map(|id| Record::A(Activity { id, minutes: 1, ..Activity::default() }))
}

fn links(count: u32) -> impl Iterator<Item = Record> {
    (0..count).map(|_| Record::L(Link { predecessor: 1, successor: 2, ..Link::default() }))
}

#[test]
fn a_257th_e_is_row_4_even_with_a_falling_day() {
    assert_eq!(number(&with(closed(0..256))), 0);
    assert_eq!(number(&with(closed(0..257))), 4);
    assert_eq!(number(&with(closed((0..256).chain([5])))), 4);
    assert_eq!(number(&with(closed((0..255).chain([5])))), 3);
}

#[test]
fn closing_256_weeks_starves_no_search() {
    let mondays = (0..256).map(|k| 19_723 + 7 * k);
    let a = Record::A(Activity { id: 1, minutes: 480, ..Activity::default() });
    match answer(&with(closed(mondays).chain([a]))).answer {
        Answer::Accepted { finish, .. } => assert_eq!(finish, 19_723 + 7 * 256),
        refused => panic!("{refused:?}"),
    }
}

#[test]
fn activities_and_links() {
    assert_eq!(number(&with(activities(4_096))), 0);
    assert_eq!(number(&with(activities(4_097))), 4);
    assert_eq!(number(&with(activities(2).chain(links(16_384)))), 0);
    assert_eq!(number(&with(activities(2).chain(links(16_385)))), 4);
}

#[test]
fn what_plan_lends() {
    let text = |bytes: &[u8]| answer(bytes).plan_text(bytes).lines().next().map(String::from);
    assert_eq!(text(&with(activities(64))).as_deref(), Some("plan 19723 64 0 64"));
    assert_eq!(text(&with(activities(65))).as_deref(), Some("refused 1 0"));
    assert_eq!(text(&with(activities(2).chain(links(128)))).as_deref(), Some("plan 19723 2 0 2"));
    assert_eq!(text(&with(activities(2).chain(links(129)))).as_deref(), Some("refused 1 0"));
    let mut bytes = vec![0; 16_384];
    assert_eq!(text(&bytes).as_deref(), Some("refused 2 0"));
    bytes.push(0);
    assert_eq!(text(&bytes).as_deref(), Some("too big"));
}
