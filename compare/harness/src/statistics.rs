//! What a corpus covers, item by item, with the least that each should have among 20,000 sheets.

use std::collections::BTreeMap;

use reference::way_to_too_long;

use crate::corpus::Corpus;
use crate::generator::Theme;
use crate::oracle::{Answer, Lent, PLAN_BYTES, Verdict, answer, summaries};
use crate::project::project;
use crate::read::{Calendar, Sheet, read};
use crate::record::{ABSENT, Activity, FIRST_DAY, Hours, LAST_DAY, Link, Record, decode};

/// A sheet with all that is known of it.
struct Seen<'a> {
    theme: Theme,
    bytes: &'a [u8],
    verdict: Verdict,
    sheet: Sheet,
    /// All records, also of a sheet that isn't read to its end.
    records: Vec<Record>,
    summary: Vec<bool>,
}

impl Seen<'_> {
    fn count(&self, kind: u8) -> usize {
        self.records.iter().filter(|r| r.kind() == Some(kind)).count()
    }

    /// Whether `row` refuses the sheet and a record of it is such a one.
    fn refused_with(&self, row: u8, holds: impl Fn(&Record) -> bool) -> bool {
        self.verdict.answer.number() == row && self.records.iter().any(holds)
    }

    /// The most records of a calendar that `counts` takes.
    fn most_of_a_calendar(&self, counts: impl Fn(&Record) -> bool) -> usize {
        let calendars = self.records.split(|r| matches!(r, Record::C(_)));
        calendars.map(|c| c.iter().filter(|r| counts(r)).count()).max().unwrap_or(0)
    }
}

type Item = (String, usize, Box<dyn Fn(&Seen) -> bool>);

/// Features count where the plan is accepted and more than this many sheets are asked for.
const FEATURE: usize = 100;
const REFUSAL: usize = 50;

#[derive(Default)]
struct Items(Vec<Item>);

impl Items {
    fn add(&mut self, name: impl Into<String>, least: usize, holds: impl Fn(&Seen) -> bool + 'static) {
        self.0.push((name.into(), least, Box::new(holds)));
    }

    /// An item of accepted plans.
    fn plan(&mut self, name: impl Into<String>, holds: impl Fn(&Sheet) -> bool + 'static) {
        self.add(name, FEATURE, move |s| s.verdict.answer.number() == 0 && holds(&s.sheet));
    }

    fn calendar(&mut self, name: &str, holds: impl Fn(&Calendar) -> bool + 'static) {
        self.plan(name, move |s| s.calendars.iter().any(&holds));
    }

    /// An item of activities that aren't summaries, in accepted plans.
    fn activity(&mut self, name: impl Into<String>, holds: impl Fn(&Activity) -> bool + 'static) {
        self.add(name, FEATURE, move |s| {
            let mut of = s.sheet.activities.iter().zip(&s.summary);
            s.verdict.answer.number() == 0 && of.any(|(a, summary)| !summary && holds(a))
        });
    }

    fn link(&mut self, name: impl Into<String>, holds: impl Fn(&Link) -> bool + 'static) {
        self.plan(name, move |s| s.links.iter().any(&holds));
    }
}

fn of_day(hours: &[Hours], day: i32) -> usize {
    hours.iter().filter(|h| h.day == day).count()
}

fn weekday(day: i32) -> i32 {
    (day + 3).rem_euclid(7)
}

fn items() -> Items {
    let mut all = Items::default();
    for kind in *b"PCWEAL" {
        all.add(format!("record {}", char::from(kind)), FEATURE, move |s| s.count(kind) > 0);
    }
    plan_items(&mut all);
    calendar_items(&mut all);
    activity_items(&mut all);
    link_items(&mut all);
    for (name, least, agrees) in
        [("day lengths agree", FEATURE, true), ("day lengths differ (compared apart)", FEATURE, false)]
    {
        all.add(name, least, move |s| s.verdict.need.is_some() && s.verdict.agrees == agrees);
    }
    for count in [0, 1, 40, 64, 500, 4_096] {
        all.plan(format!("{count} activities"), move |s| s.activities.len() == count);
    }
    for row in 2..=15 {
        all.add(format!("refused by row {row}"), REFUSAL, move |s| s.verdict.answer.number() == row);
    }
    all.add("refused by row 1 where `plan` lends", REFUSAL, |s| {
        s.bytes.len() <= PLAN_BYTES && s.verdict.lent(&Lent::PLAN).number() == 1
    });
    all.add("too big for `plan`", REFUSAL, |s| s.bytes.len() > PLAN_BYTES);
    for (name, theme) in [
        ("two faults in one sheet", Theme::TwoFaults),
        ("cut", Theme::Cut),
        ("flipped bits", Theme::Flipped),
        ("random bytes", Theme::RandomBytes),
    ] {
        all.add(name, FEATURE, move |s| s.theme == theme);
    }
    limit_items(&mut all);
    all
}

fn plan_items(all: &mut Items) {
    for code in 0..4 {
        all.plan(format!("lag calendar {code}"), move |s| s.plan.lag_calendar == code);
    }
    for code in 0..3 {
        all.plan(format!("float kind {code}"), move |s| s.plan.float_kind == code);
    }
    for code in 0..2 {
        all.plan(format!("progress mode {code}"), move |s| s.plan.progress == code);
        all.plan(format!("critical by {code}"), move |s| s.plan.critical_by == code);
    }
    all.plan("threshold not 0", |s| s.plan.critical_by == 0 && s.plan.threshold != 0);
    all.plan("data day", |s| s.plan.data != ABSENT);
    all.plan("data day before the start", |s| s.plan.data != ABSENT && s.plan.data < s.plan.start);
    all.plan("must-finish day", |s| s.plan.must_finish != ABSENT);
    all.plan("start before 1970", |s| s.plan.start < 0);
}

fn calendar_items(all: &mut Items) {
    for count in 1..=15 {
        all.plan(format!("{count} calendars"), move |s| s.calendars.len() == count);
    }
    all.calendar("split shift", |c| (0..7).any(|d| of_day(&c.week, d) > 1));
    all.calendar("touching hours", |c| c.week.windows(2).any(|w| w[0].day == w[1].day && w[0].to == w[1].from));
    all.calendar("week to 24:00", |c| c.week.iter().any(|w| w.to == 1_440));
    all.calendar("one minute a week", |c| c.week.iter().map(|w| w.to - w.from).sum::<u16>() == 1);
    all.calendar("closed day", |c| c.exceptions.iter().any(|e| e.to == 0 && of_day(&c.week, weekday(e.day)) > 0));
    all.calendar("extra day", |c| c.exceptions.iter().any(|e| e.to > 0 && of_day(&c.week, weekday(e.day)) == 0));
    all.calendar("day with its own hours", |c| {
        c.exceptions.iter().any(|e| e.to > 0 && of_day(&c.week, weekday(e.day)) > 0)
    });
    all.calendar("day of more than 8 periods", |c| c.exceptions.iter().any(|e| of_day(&c.exceptions, e.day) > 8));
    all.calendar("day to 24:00", |c| c.exceptions.iter().any(|e| e.to == 1_440));
    all.calendar("day length 0", |c| c.day_length == 0);
}

fn activity_items(all: &mut Items) {
    all.add("summary", FEATURE, |s| s.verdict.answer.number() == 0 && s.summary.contains(&true));
    all.add("nested summaries", FEATURE, |s| {
        let mut of = s.sheet.activities.iter().zip(&s.summary);
        s.verdict.answer.number() == 0 && of.any(|(a, &summary)| summary && a.parent != 0)
    });
    all.activity("start milestone", |a| a.kind == 1);
    all.activity("finish milestone", |a| a.kind == 2);
    all.activity("task of 0 minutes", |a| a.kind == 0 && a.minutes == 0);
    for place in 0..2 {
        for code in 1..=9 {
            all.activity(format!("constraint {code} in place {}", place + 1), move |a| {
                a.actual_start == ABSENT && a.actual_finish == ABSENT && a.constraints[place].0 == code
            });
        }
    }
    all.activity("levelled start", |a| a.levelled != ABSENT && a.actual_start == ABSENT && a.actual_finish == ABSENT);
    all.activity("completed", |a| a.actual_start != ABSENT && a.actual_finish != ABSENT);
    all.activity("completed, only a finish", |a| a.actual_start == ABSENT && a.actual_finish != ABSENT);
    all.activity("completed, finish before start", |a| a.actual_finish != ABSENT && a.actual_finish < a.actual_start);
    let in_progress = |a: &Activity| a.actual_start != ABSENT && a.actual_finish == ABSENT;
    all.activity("in progress with remaining", move |a| in_progress(a) && a.remaining != ABSENT);
    all.activity("in progress without remaining", move |a| in_progress(a) && a.remaining == ABSENT);
    all.activity("in progress, negative remaining", move |a| {
        in_progress(a) && a.remaining < 0 && a.remaining != ABSENT
    });
    all.activity("milestone in progress with remaining", move |a| in_progress(a) && a.kind != 0 && a.remaining > 0);
    all.activity("expected finish", |a| a.kind == 0 && a.actual_finish == ABSENT && a.expected_finish != ABSENT);
    all.activity("expected finish in progress", move |a| a.kind == 0 && in_progress(a) && a.expected_finish != ABSENT);
}

fn link_items(all: &mut Items) {
    for code in 0..4 {
        all.link(format!("link type {code}"), move |l| l.kind == code);
    }
    for (basis, unit, name) in
        [(0, 0, "working days"), (0, 1, "working minutes"), (1, 0, "elapsed days"), (1, 1, "elapsed minutes")]
    {
        all.link(format!("lag in {name}"), move |l| l.basis == basis && l.unit == unit && l.lag > 0);
        all.link(format!("lead in {name}"), move |l| l.basis == basis && l.unit == unit && l.lag < 0);
    }
    all.link("percent lag", |l| l.basis == 2 && l.lag > 0);
    all.link("percent lead", |l| l.basis == 2 && l.lag < 0);
    all.add(
        "ignored link",
        FEATURE,
        |s| matches!(&s.verdict.answer, Answer::Accepted { ignored, .. } if !ignored.is_empty()),
    );
    all.add("critical and not", FEATURE, |s| match &s.verdict.answer {
        Answer::Accepted { fields, .. } => fields.iter().any(|f| f[9] == 1) && fields.iter().any(|f| f[9] == 0),
        _ => false,
    });
    all.add("negative float", FEATURE, |s| match &s.verdict.answer {
        Answer::Accepted { fields, .. } => fields.iter().any(|f| f[7] < 0),
        _ => false,
    });
}

fn limit_items(all: &mut Items) {
    all.calendar("8 periods a weekday", |c| (0..7).any(|d| of_day(&c.week, d) == 8));
    all.calendar("256 E", |c| c.exceptions.len() == 256);
    all.plan("16,384 L", |s| s.links.len() == 16_384);
    for (name, kind, limit) in [("16 C", b'C', 15), ("4,097 A", b'A', 4_096), ("16,385 L", b'L', 16_384)] {
        all.add(format!("{name}: row 4"), REFUSAL, move |s| s.verdict.answer.number() == 4 && s.count(kind) > limit);
    }
    all.add("9th period of a weekday: row 4", REFUSAL, |s| {
        let of = |d| s.most_of_a_calendar(|r| matches!(r, Record::W(h) if h.day == d));
        s.verdict.answer.number() == 4 && (0..7).any(|d| of(d) > 8)
    });
    all.add("257 E: row 4", REFUSAL, |s| {
        s.verdict.answer.number() == 4 && s.most_of_a_calendar(|r| matches!(r, Record::E(_))) > 256
    });
    all.add("day just outside the range: row 3", REFUSAL, |s| {
        let outside = |day: i32| day == FIRST_DAY - 1 || day == LAST_DAY + 1;
        s.refused_with(3, |r| match r {
            Record::P(p) => [p.start, p.data, p.must_finish].into_iter().any(outside),
            Record::E(h) => outside(h.day),
            Record::A(a) => {
                let days = [a.actual_start, a.actual_finish, a.expected_finish, a.levelled];
                days.into_iter().chain(a.constraints.map(|c| c.1)).any(outside)
            }
            _ => false,
        })
    });
    all.add("1,441 minutes a day: row 3", REFUSAL, |s| {
        s.refused_with(3, |r| match r {
            Record::C(length) => *length == 1_441,
            Record::W(h) | Record::E(h) => h.to == 1_441,
            _ => false,
        })
    });
    all.add("task of 48,000,001: row 8", REFUSAL, |s| {
        s.refused_with(8, |r| matches!(r, Record::A(a) if a.minutes == 48_000_001))
    });
    for (name, unit, lag) in [("100,001 days", 0, 100_001), ("144,000,001 minutes", 1, 144_000_001)] {
        all.add(format!("lag of {name}: row 8"), REFUSAL, move |s| {
            s.refused_with(
                8,
                |r| matches!(r, Record::L(l) if l.basis < 2 && l.unit == unit && l.lag.unsigned_abs() == lag),
            )
        });
    }
    all.plan("first day of the range", |s| s.plan.start == FIRST_DAY);
    all.plan("last day of the range", |s| s.plan.start == LAST_DAY);
    all.plan("task of 48,000,000", |s| s.activities.iter().any(|a| a.minutes == 48_000_000));
    all.link("lag of 100,000 days", |l| l.basis < 2 && l.unit == 0 && l.lag.unsigned_abs() == 100_000);
    all.link("lag of 144,000,000 minutes", |l| l.basis < 2 && l.unit == 1 && l.lag.unsigned_abs() == 144_000_000);
    all.link("percent at or beyond its clamp", |l| l.basis == 2 && l.lag.unsigned_abs() >= 1_000_000);
    all.activity("remaining at or beyond its clamp", |a| a.actual_start != ABSENT && a.remaining >= 144_000_000);
    all.add("a time on the edge of the span", FEATURE, |s| match &s.verdict.answer {
        Answer::Accepted { fields, .. } => {
            let edge = |t: i64| t != 0 && (t - i64::from(s.sheet.plan.start) * 1_440).abs() == 288_000_000;
            let must = i64::from(s.sheet.plan.must_finish) + 1;
            edge(must * 1_440) || fields.iter().any(|f| edge(f[13]) || edge(f[14]))
        }
        _ => false,
    });
}

/// Prints a line for each item: its count, its name, and a mark where it has too few.
pub fn print(corpus: &Corpus) -> std::io::Result<()> {
    let items = items();
    let mut counts = vec![0usize; items.0.len()];
    let mut ways: BTreeMap<String, usize> = BTreeMap::new();
    let (mut sheets, mut accepted) = (0, 0);
    corpus.each(|_, theme, bytes| {
        let verdict = answer(bytes);
        let sheet = read(bytes).unwrap_or_default();
        if verdict.answer.number() == 8 && verdict.agrees {
            let way = way_to_too_long(&project(&sheet)).map_or("?".into(), |(pass, site)| format!("{pass}: {site}"));
            *ways.entry(way).or_default() += 1;
        }
        let summary = summaries(&sheet);
        let seen = Seen { theme, bytes, verdict, sheet, records: decode(bytes), summary };
        sheets += 1;
        accepted += usize::from(seen.verdict.answer.number() == 0);
        for (count, (_, _, holds)) in counts.iter_mut().zip(&items.0) {
            *count += usize::from(holds(&seen));
        }
    })?;
    println!("{sheets:7} sheets\n{accepted:7} accepted");
    for (count, (name, least, _)) in counts.iter().zip(&items.0) {
        println!("{count:7} {name}{}", if count > least { "" } else { "  (too few)" });
    }
    for (way, count) in &ways {
        println!("{count:7} too long, {way}{}", if *count > REFUSAL { "" } else { "  (too few)" });
    }
    Ok(())
}
