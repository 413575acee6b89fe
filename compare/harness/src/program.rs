//! Compares any program like `plan`, sheet by sheet.

use std::io::Write;
use std::process::{Command, Stdio};

use crate::corpus::Corpus;
use crate::oracle::answer;

/// What a program prints for a sheet on its standard input; words after its name are arguments.
pub fn output(program: &str, sheet: &[u8]) -> std::io::Result<Vec<u8>> {
    let mut words = program.split_whitespace();
    let mut child = Command::new(words.next().unwrap_or_default())
        .args(words)
        .stdin(Stdio::piped())
        .stdout(Stdio::piped())
        .spawn()?;
    if let Some(mut input) = child.stdin.take() {
        // A program may answer before it has read all.
        let _ = input.write_all(sheet);
    }
    Ok(child.wait_with_output()?.stdout)
}

/// Whether the program prints something else than `plan` should.
pub fn differs(program: &str, sheet: &[u8]) -> bool {
    output(program, sheet).map_or(true, |found| found != answer(sheet).plan_text(sheet).as_bytes())
}

/// Compares over a corpus; gives the count of sheets, of those that differ and of those with day lengths of their own.
pub fn compare(program: &str, corpus: &Corpus) -> std::io::Result<(usize, usize, usize)> {
    let (mut sheets, mut differing, mut apart) = (0, 0, 0);
    let mut failed = None;
    corpus.each(|number, theme, bytes| {
        if failed.is_some() {
            return;
        }
        let verdict = answer(bytes);
        let expected = verdict.plan_text(bytes);
        sheets += 1;
        apart += usize::from(!verdict.agrees);
        match output(program, bytes) {
            Err(e) => failed = Some(e),
            Ok(found) if found == expected.as_bytes() => {}
            Ok(found) => {
                differing += 1;
                if differing <= 10 {
                    let found = String::from_utf8_lossy(&found).into_owned();
                    let line = expected.lines().zip(found.lines()).find(|(a, b)| a != b);
                    let (a, b) = line.unwrap_or(("another count of lines", ""));
                    println!("sheet {number} ({theme:?}): expected {a}, found {b}");
                }
            }
        }
    })?;
    failed.map_or(Ok((sheets, differing, apart)), Err)
}
