//! The commands of the comparison.

use std::io::{Read, Write};
use std::process::ExitCode;

use compare::call::{self, OURS};
use compare::corpus::Corpus;
use compare::{bench, faults, in_process, minimise, oracle, program, ratio, recorded, statistics, text};

const USAGE: &str = "\
compare answer [--names | --plan] [SHEET]  the oracle's answer as `plan` prints it, with enough memory lent;
                                           then the ignored links or the loop; or with the memory of `plan`
compare assemble [TEXT]                    the bytes of a sheet written as text
compare disassemble [SHEET]                a sheet's bytes as text
compare corpus CORPUS FILE                 writes a corpus
compare sheet CORPUS NUMBER                the bytes of one sheet of a corpus
compare statistics CORPUS                  what a corpus covers
compare program PROGRAM CORPUS             compares a program like `plan`
compare library CORPUS                     compares the linked library in process, all memory before and after
compare faults CORPUS                      how many sheets see each deliberate fault
compare minimise (PROGRAM | --library | --fault NAME) [SHEET]   a smaller sheet that still differs, as text
compare ratio ROUNDS [SHEET]               times of `schedule` and of the linked library, and ours/Rust
compare bench [SECONDS [PART]]             tables of such ratios over plans of many sizes and spans: SECONDS (0.3) for
                                           each call on each sheet, only sheets whose names hold PART
compare bench --sheets FOLDER              writes the benchmark's sheets, named PLAN-ACTIVITIES-LINKS-EXCEPTIONS, those
                                           that are called in turn with -2 to -8 after it
compare call ROUNDS [SHEET..]              only calls the linked library with the sheets in turn, to be profiled, say by
                                           `valgrind --tool=callgrind --toggle-collect=neakspuoy_schedule`
compare record FILE                        writes the recorded answers
A CORPUS is a file, SEED:COUNT, or `bytes`: a small plan cut everywhere and with every byte at every value.
A SHEET or TEXT that isn't named is read from standard input.
Without the feature `sched` the oracle stands in for the library.";

type Outcome = Result<ExitCode, String>;

fn input(name: &[&str]) -> Result<Vec<u8>, String> {
    let mut bytes = Vec::new();
    match name {
        [name] => bytes = std::fs::read(name).map_err(|e| format!("{name}: {e}"))?,
        [] => drop(std::io::stdin().read_to_end(&mut bytes).map_err(|e| e.to_string())?),
        _ => return Err(USAGE.into()),
    }
    Ok(bytes)
}

fn print(bytes: &[u8]) -> Outcome {
    std::io::stdout().write_all(bytes).map_err(|e| e.to_string())?;
    Ok(ExitCode::SUCCESS)
}

fn done(result: std::io::Result<()>) -> Outcome {
    result.map(|()| ExitCode::SUCCESS).map_err(|e| e.to_string())
}

/// Says how a comparison went; fails where anything differs.
fn compared(result: std::io::Result<(usize, usize, usize)>) -> Outcome {
    let (sheets, differing, apart) = result.map_err(|e| e.to_string())?;
    println!("{sheets} sheets, {apart} of them by their own day lengths, {differing} differ");
    Ok(if differing == 0 { ExitCode::SUCCESS } else { ExitCode::FAILURE })
}

fn smallest(sheet: &[u8], differs: impl Fn(&[u8]) -> bool) -> Outcome {
    if !differs(sheet) {
        return Err("the sheet doesn't differ".into());
    }
    print(text::disassemble(&minimise::minimise(sheet, differs)).as_bytes())
}

fn run(words: &[&str]) -> Outcome {
    match words {
        ["answer", "--plan", sheet @ ..] => {
            let bytes = input(sheet)?;
            print(oracle::answer(&bytes).plan_text(&bytes).as_bytes())
        }
        ["answer", "--names", sheet @ ..] => {
            let answer = oracle::answer(&input(sheet)?).answer;
            let names = answer.names().iter().fold("names".to_string(), |t, n| format!("{t} {n}"));
            print(format!("{}{names}\n", answer.text()).as_bytes())
        }
        ["answer", sheet @ ..] => print(oracle::answer(&input(sheet)?).answer.text().as_bytes()),
        ["assemble", name @ ..] => {
            let written = String::from_utf8(input(name)?).map_err(|e| e.to_string())?;
            print(&text::assemble(&written)?)
        }
        ["disassemble", sheet @ ..] => print(text::disassemble(&input(sheet)?).as_bytes()),
        ["corpus", corpus, file] => done(Corpus::named(corpus).write(file)),
        ["sheet", corpus, number] => {
            let mut found = None;
            let each = Corpus::named(corpus).each(|k, _, bytes| {
                if k.to_string() == *number {
                    found = Some(bytes.to_vec());
                }
            });
            each.map_err(|e| e.to_string())?;
            print(&found.ok_or("no such sheet")?)
        }
        ["statistics", corpus] => done(statistics::print(&Corpus::named(corpus))),
        ["program", name, corpus] => compared(program::compare(name, &Corpus::named(corpus))),
        ["library", corpus] => compared(in_process::compare(OURS, &Corpus::named(corpus))),
        ["faults", corpus] => {
            let unseen = faults::print(&Corpus::named(corpus)).map_err(|e| e.to_string())?;
            Ok(if unseen == 0 { ExitCode::SUCCESS } else { ExitCode::FAILURE })
        }
        ["minimise", "--fault", name, sheet @ ..] => {
            let fault = faults::named(name).ok_or("no such fault")?;
            smallest(&input(sheet)?, |bytes| faults::sees(fault, bytes, &oracle::answer(bytes)))
        }
        ["minimise", "--library", sheet @ ..] => {
            smallest(&input(sheet)?, |bytes| in_process::differs(OURS, bytes, &oracle::answer(bytes)).is_some())
        }
        ["minimise", name, sheet @ ..] => smallest(&input(sheet)?, |bytes| program::differs(name, bytes)),
        ["ratio", rounds, sheet @ ..] => {
            let rounds = rounds.parse().map_err(|_| USAGE)?;
            ratio::print(OURS, &input(sheet)?, rounds).map(|()| ExitCode::SUCCESS)
        }
        ["bench", "--sheets", folder] => done(bench::write(folder)),
        ["bench", words @ ..] if words.len() <= 2 => {
            let seconds = words.first().map_or(Ok(bench::SECONDS), |w| w.parse().map_err(|_| USAGE))?;
            let part = words.get(1).copied().unwrap_or_default();
            bench::print(OURS, seconds, part).map(|()| ExitCode::SUCCESS)
        }
        ["call", rounds, names @ ..] => {
            let rounds = rounds.parse().map_err(|_| USAGE)?;
            let names = if names.is_empty() { vec![names] } else { names.chunks(1).collect() };
            let sheets = names.into_iter().map(input).collect::<Result<Vec<_>, _>>()?;
            print(format!("{:?}\n", call::repeat(OURS, &sheets, rounds)).as_bytes())
        }
        ["record", file] => {
            let (list, count) = recorded::list();
            println!("{count} sheets, {} bytes", list.len());
            done(std::fs::write(file, list))
        }
        _ => Err(USAGE.into()),
    }
}

fn main() -> ExitCode {
    let words: Vec<String> = std::env::args().skip(1).collect();
    run(&words.iter().map(String::as_str).collect::<Vec<_>>()).unwrap_or_else(|e| {
        eprintln!("{e}");
        ExitCode::from(2)
    })
}
