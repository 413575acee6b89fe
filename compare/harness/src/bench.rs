//! The benchmark: the Rust and the compared call on plans of every size and span, as tables in Markdown.

pub mod sheets;

use std::path::Path;

use crate::call::Schedule;
use crate::in_process::differs;
use crate::oracle::{Answer, answer};
use crate::read::MAX_EXCEPTIONS;
use crate::timing::{Rounds, Time, Times, shown, times};
use sheets::{Case, GROWTH, IN_TURN, SPANS, START, cases};

/// Seconds for each call on each sheet, where the command line names none.
pub const SECONDS: f64 = 0.3;

/// Writes the sheets, each in a file of its name; those that are called in turn have their seed after it, but for the first.
pub fn write(folder: &str) -> std::io::Result<()> {
    std::fs::create_dir_all(folder)?;
    let put = |name: String, bytes: Vec<u8>| std::fs::write(Path::new(folder).join(name + ".sheet"), bytes);
    for case in cases() {
        put(case.name(), case.bytes())?;
        if SPANS.contains(&case.kind) && GROWTH[..GROWTH.len() - 1].contains(&case.size) {
            IN_TURN.skip(1).try_for_each(|seed| put(format!("{}-{seed}", case.name()), case.bytes_of(seed)))?;
        }
    }
    Ok(())
}

/// How busy the machine is, where it says so.
fn print_load(when: &str) {
    if let Ok(load) = std::fs::read_to_string("/proc/loadavg") {
        println!("Load {when}: {}.", load.split_whitespace().take(3).collect::<Vec<_>>().join(" "));
    }
}

fn thousands(number: usize) -> String {
    if number < 1_000 { number.to_string() } else { format!("{},{:03}", number / 1_000, number % 1_000) }
}

fn size((activities, links): (usize, usize)) -> String {
    format!("{}/{}", thousands(activities), thousands(links))
}

/// Least and median.
fn cell(time: Time) -> String {
    format!("{} ({})", shown(time.least), shown(time.median))
}

/// Ours to the Rust's, by the least and by the median.
fn ratio(ours: Time, rust: Time) -> String {
    format!("{:.2} ({:.2})", ours.least / rust.least, ours.median / rust.median)
}

/// The finish day, once the answer and all memory are as the oracle's.
fn compared(schedule: Schedule, case: &Case, bytes: &[u8]) -> Result<i64, String> {
    let verdict = answer(bytes);
    let Answer::Accepted { finish, .. } = verdict.answer else {
        return Err(format!("{}: the oracle refuses it", case.name()));
    };
    differs(schedule, bytes, &verdict).map_or(Ok(finish), |what| Err(format!("{}: {what}", case.name())))
}

/// Times the sheets whose names hold `part`, after comparing the answers and all memory with the oracle.
pub fn print(schedule: Schedule, seconds: f64, part: &str) -> Result<(), String> {
    if !cfg!(feature = "sched") {
        println!("Built without the feature `sched`: ours is the oracle.\n");
    }
    print_load("before");
    println!("Times are the least (the median) of many rounds; ratios are ours/Rust, so 1 or less isn't slower.\n");
    println!(
        "| plan | activities/links | E | days | Rust `schedule` | Rust with reading | ours | ours/`schedule` | ours/with reading |"
    );
    println!("|---|--:|--:|--:|--:|--:|--:|--:|--:|");
    let mut timed: Vec<(Case, Times)> = Vec::new();
    for case in cases().into_iter().filter(|c| c.name().contains(part)) {
        let bytes = case.bytes();
        let finish = compared(schedule, &case, &bytes)?;
        let t = times(schedule, &[&bytes], Rounds::Seconds(seconds))?;
        println!(
            "| {} | {} | {} | {} | {} | {} | {} | {} | {} |",
            case.plan(),
            size(case.size),
            case.exceptions,
            finish - i64::from(START),
            cell(t.rust),
            cell(t.with_reading),
            cell(t.ours),
            ratio(t.ours, t.rust),
            ratio(t.ours, t.with_reading),
        );
        timed.push((case, t));
    }
    print_growth(schedule, seconds, &timed)?;
    print_load("after");
    Ok(())
}

/// Prints how many times as long 8 times the activities and links take: as eight different plans of the smaller size, called
/// in turn, and as one of them over and over, which a processor's predictions learn by heart.
fn print_growth(schedule: Schedule, seconds: f64, timed: &[(Case, Times)]) -> Result<(), String> {
    let find = |case: Case| timed.iter().find(|(c, _)| *c == case).map(|(_, t)| t);
    let sorts = SPANS.into_iter().flat_map(|kind| [(kind, 0), (kind, MAX_EXCEPTIONS)]);
    let mut rows = Vec::new();
    for (kind, exceptions) in sorts {
        for step in GROWTH.windows(2) {
            let [small, large] = [step[0], step[1]].map(|size| Case { kind, size, exceptions });
            let (Some(alone), Some(more)) = (find(small), find(large)) else { continue };
            let sheets: Vec<Vec<u8>> = IN_TURN.map(|seed| small.bytes_of(seed)).collect();
            for bytes in &sheets {
                compared(schedule, &small, bytes)?;
            }
            let sheets: Vec<&[u8]> = sheets.iter().map(Vec::as_slice).collect();
            let turns = times(schedule, &sheets, Rounds::Seconds(seconds))?;
            let grown = |of: fn(&Times) -> Time| {
                let [in_turn, alone] = [&turns, alone].map(|less| of(more).least / of(less).least);
                format!("{in_turn:.1} ({alone:.1})")
            };
            rows.push(format!(
                "| {} | {exceptions} | {} | {} | {} | {} | {} |",
                small.plan(),
                size(small.size),
                size(large.size),
                grown(|t| t.ours),
                grown(|t| t.rust),
                grown(|t| t.with_reading),
            ));
        }
    }
    if !rows.is_empty() {
        println!(
            "\nHow many times as long 8 times the activities and links take, by the least times, as a plan of the"
        );
        println!("smaller size: eight different ones in turn (and one of them over and over).\n");
        println!("| plan | E | from | to | ours | Rust `schedule` | Rust with reading |");
        println!("|---|--:|--:|--:|--:|--:|--:|");
        rows.iter().for_each(|r| println!("{r}"));
    }
    println!();
    Ok(())
}
