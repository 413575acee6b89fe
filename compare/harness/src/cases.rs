//! Sheets written by hand with the answers that document 01 asks for, each with its reason.

use crate::oracle::{Verdict, answer};
use crate::text::assemble;

/// The hand-written cases, by what they show.
pub const FILES: [(&str, &str); 4] = [
    ("rows", include_str!("../cases/rows.txt")),
    ("differences", include_str!("../cases/differences.txt")),
    ("room", include_str!("../cases/room.txt")),
    ("surprises", include_str!("../cases/surprises.txt")),
];

/// One case: `== title`, a sheet in text form, then `> ` before each line expected of `plan`; the last may begin
/// with `names`. `*` stands for any word, `..` for the rest of a line.
pub struct Case {
    pub title: String,
    pub sheet: Vec<u8>,
    pub expected: Vec<String>,
}

pub fn cases(text: &str) -> Vec<Case> {
    let mut made: Vec<(String, String, Vec<String>)> = Vec::new();
    for line in text.lines() {
        if let Some(title) = line.strip_prefix("== ") {
            made.push((title.into(), String::new(), Vec::new()));
        } else if let Some((_, sheet, expected)) = made.last_mut() {
            match line.strip_prefix("> ") {
                Some(line) => expected.push(line.into()),
                None => *sheet += &format!("{line}\n"),
            }
        }
    }
    let case = |(title, sheet, expected): (String, String, Vec<String>)| {
        let sheet = assemble(&sheet).unwrap_or_else(|e| panic!("{title}: {e}"));
        Case { title, sheet, expected }
    };
    made.into_iter().map(case).collect()
}

impl Case {
    /// What `plan` prints, with the names that the call leaves where some are expected.
    pub fn found(&self) -> Vec<String> {
        let verdict: Verdict = answer(&self.sheet);
        let mut lines: Vec<String> = verdict.plan_text(&self.sheet).lines().map(String::from).collect();
        if self.expected.last().is_some_and(|l| l.starts_with("names")) {
            lines.push(verdict.answer.names().iter().fold("names".into(), |t, n| format!("{t} {n}")));
        }
        lines
    }

    pub fn holds(&self) -> bool {
        let found = self.found();
        found.len() == self.expected.len() && found.iter().zip(&self.expected).all(|(f, e)| fits(f, e))
    }
}

fn fits(found: &str, expected: &str) -> bool {
    let (mut found, expected) = (found.split(' '), expected.split_whitespace());
    for word in expected {
        match (word, found.next()) {
            ("..", _) => return true,
            (_, None) => return false,
            ("*", Some(_)) => {}
            (word, Some(f)) if word == f => {}
            _ => return false,
        }
    }
    found.next().is_none()
}
