//! The text form of a sheet: a line a record, fields at their default left out, any bytes kept.

use std::fmt::Write;

use crate::record::{ABSENT, Activity, Hours, Link, Mark, Plan, Record, decode, encode};

const LAG_CALENDARS: &[&str] = &["predecessor", "successor", "24h", "project"];
const FLOAT_KINDS: &[&str] = &["finish", "start", "smallest"];
const PROGRESS_MODES: &[&str] = &["retained", "override"];
const CRITICAL_BY: &[&str] = &["total-float", "longest-path"];
const ACTIVITY_KINDS: &[&str] = &["task", "start-milestone", "finish-milestone"];
const LINK_TYPES: &[&str] = &["FS", "SS", "FF", "SF"];
const BASES: &[&str] = &["working", "elapsed", "percent"];
const UNITS: &[&str] = &["days", "minutes"];
const CONSTRAINTS: &[&str] = &[
    "none",
    "start-on-or-after",
    "start-on-or-before",
    "finish-on-or-after",
    "finish-on-or-before",
    "start-on",
    "finish-on",
    "mandatory-start",
    "mandatory-finish",
    "as-late-as-possible",
];

/// A code by its name, or its number where it has none.
fn name(names: &[&str], code: u8) -> String {
    names.get(usize::from(code)).map_or_else(|| code.to_string(), |n| n.to_string())
}

fn day(day: i32) -> String {
    if day == ABSENT { "-".into() } else { day.to_string() }
}

fn mark((code, day): Mark) -> String {
    format!("{}:{day}", name(CONSTRAINTS, code))
}

/// Any bytes as text; `assemble` gives the same bytes back.
pub fn disassemble(bytes: &[u8]) -> String {
    let mut text = String::new();
    for record in decode(bytes) {
        line(&mut text, &record);
        text.push('\n');
    }
    text
}

fn line(text: &mut String, record: &Record) {
    let mut fields: Vec<(&str, String, String)> = Vec::new();
    let head = match record {
        Record::P(p) => {
            let d = Plan::default();
            fields.extend([
                ("data", day(p.data), day(d.data)),
                ("must-finish", day(p.must_finish), day(d.must_finish)),
                ("lag-calendar", name(LAG_CALENDARS, p.lag_calendar), name(LAG_CALENDARS, 0)),
                ("float", name(FLOAT_KINDS, p.float_kind), name(FLOAT_KINDS, 0)),
                ("progress", name(PROGRESS_MODES, p.progress), name(PROGRESS_MODES, 0)),
                ("critical", name(CRITICAL_BY, p.critical_by), name(CRITICAL_BY, 0)),
                ("threshold", p.threshold.to_string(), "0".into()),
            ]);
            format!("P {}", day(p.start))
        }
        Record::C(length) => format!("C {length}"),
        Record::W(h) => format!("W {} {} {}", h.day, h.from, h.to),
        Record::E(h) => format!("E {} {} {}", day(h.day), h.from, h.to),
        Record::A(a) => {
            let d = Activity::default();
            fields.extend([
                ("kind", name(ACTIVITY_KINDS, a.kind), name(ACTIVITY_KINDS, 0)),
                ("calendar", a.calendar.to_string(), "0".into()),
                ("parent", a.parent.to_string(), "0".into()),
                ("actual-start", day(a.actual_start), day(d.actual_start)),
                ("actual-finish", day(a.actual_finish), day(d.actual_finish)),
                ("remaining", day(a.remaining), day(d.remaining)),
                ("expected-finish", day(a.expected_finish), day(d.expected_finish)),
                ("constraint", mark(a.constraints[0]), mark(d.constraints[0])),
                ("second", mark(a.constraints[1]), mark(d.constraints[1])),
                ("levelled", day(a.levelled), day(d.levelled)),
            ]);
            format!("A {} {}", a.id, a.minutes)
        }
        Record::L(l) => {
            fields.extend([
                ("basis", name(BASES, l.basis), name(BASES, 0)),
                ("unit", name(UNITS, l.unit), name(UNITS, 0)),
                ("lag", l.lag.to_string(), "0".into()),
            ]);
            format!("L {} {} {}", l.predecessor, l.successor, name(LINK_TYPES, l.kind))
        }
        Record::Raw(bytes) => bytes.iter().fold("X".into(), |t, b| format!("{t} {b:02x}")),
    };
    text.push_str(&head);
    for (key, value, default) in fields {
        if value != default {
            let _ = write!(text, " {key}={value}");
        }
    }
}

/// The bytes of a text, or what is wrong with it. `#` opens a comment; W takes a span of weekdays (`W 0-4 480 960`).
pub fn assemble(text: &str) -> Result<Vec<u8>, String> {
    let mut records = Vec::new();
    for (number, full) in text.lines().enumerate() {
        let line = full.split('#').next().unwrap_or_default();
        if !line.trim().is_empty() {
            parse(line, &mut records).map_err(|e| format!("line {}: {e}: {full}", number + 1))?;
        }
    }
    Ok(encode(&records))
}

fn number<T: std::str::FromStr>(word: &str) -> Result<T, String> {
    word.parse().map_err(|_| format!("no such number: {word}"))
}

fn parse_day(word: &str) -> Result<i32, String> {
    if word == "-" { Ok(ABSENT) } else { number(word) }
}

fn code(names: &[&str], word: &str) -> Result<u8, String> {
    match names.iter().position(|n| *n == word) {
        Some(code) => Ok(code as u8),
        None => number(word),
    }
}

fn parse_mark(word: &str) -> Result<Mark, String> {
    let (kind, day) = word.split_once(':').unwrap_or((word, "0"));
    Ok((code(CONSTRAINTS, kind)?, parse_day(day)?))
}

fn parse(line: &str, records: &mut Vec<Record>) -> Result<(), String> {
    let words: Vec<&str> = line.split_whitespace().collect();
    let split = words.iter().position(|w| w.contains('=')).unwrap_or(words.len());
    let (heads, fields) = words.split_at(split);
    let fields: Vec<(&str, &str)> = fields.iter().filter_map(|w| w.split_once('=')).collect();
    let unknown = |key: &str| Err(format!("no such field: {key}"));
    match heads {
        ["P", start] => {
            let mut p = Plan { start: parse_day(start)?, ..Plan::default() };
            for (key, value) in fields {
                match key {
                    "data" => p.data = parse_day(value)?,
                    "must-finish" => p.must_finish = parse_day(value)?,
                    "lag-calendar" => p.lag_calendar = code(LAG_CALENDARS, value)?,
                    "float" => p.float_kind = code(FLOAT_KINDS, value)?,
                    "progress" => p.progress = code(PROGRESS_MODES, value)?,
                    "critical" => p.critical_by = code(CRITICAL_BY, value)?,
                    "threshold" => p.threshold = number(value)?,
                    _ => return unknown(key),
                }
            }
            records.push(Record::P(p));
        }
        ["C", length] => records.push(Record::C(number(length)?)),
        ["W", days, from, to] => {
            let (first, last) = days.split_once('-').unwrap_or((days, days));
            for weekday in number::<u8>(first)?..=number::<u8>(last)? {
                records.push(Record::W(Hours { day: weekday.into(), from: number(from)?, to: number(to)? }));
            }
        }
        ["E", at, from, to] => {
            records.push(Record::E(Hours { day: parse_day(at)?, from: number(from)?, to: number(to)? }))
        }
        ["A", id, minutes] => {
            let mut a = Activity { id: number(id)?, minutes: number(minutes)?, ..Activity::default() };
            for (key, value) in fields {
                match key {
                    "kind" => a.kind = code(ACTIVITY_KINDS, value)?,
                    "calendar" => a.calendar = number(value)?,
                    "parent" => a.parent = number(value)?,
                    "actual-start" => a.actual_start = parse_day(value)?,
                    "actual-finish" => a.actual_finish = parse_day(value)?,
                    "remaining" => a.remaining = parse_day(value)?,
                    "expected-finish" => a.expected_finish = parse_day(value)?,
                    "constraint" => a.constraints[0] = parse_mark(value)?,
                    "second" => a.constraints[1] = parse_mark(value)?,
                    "levelled" => a.levelled = parse_day(value)?,
                    _ => return unknown(key),
                }
            }
            records.push(Record::A(a));
        }
        ["L", predecessor, successor, kind] => {
            let kind = code(LINK_TYPES, kind)?;
            let mut l =
                Link { predecessor: number(predecessor)?, successor: number(successor)?, kind, ..Link::default() };
            for (key, value) in fields {
                match key {
                    "basis" => l.basis = code(BASES, value)?,
                    "unit" => l.unit = code(UNITS, value)?,
                    "lag" => l.lag = number(value)?,
                    _ => return unknown(key),
                }
            }
            records.push(Record::L(l));
        }
        ["X", bytes @ ..] => {
            let byte = |b: &&str| u8::from_str_radix(b, 16).map_err(|_| format!("no such byte: {b}"));
            records.push(Record::Raw(bytes.iter().map(byte).collect::<Result<_, _>>()?));
        }
        _ => return Err("no such record".into()),
    }
    Ok(())
}
