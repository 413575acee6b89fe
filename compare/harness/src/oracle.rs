//! The answer that document 01 asks for: its own rows first, then the Rust's `schedule`.

use std::fmt::Write;

use mkperth_core::Project;
use reference::{Dates, Outcome, own_lengths, unchanged, with_times};

use crate::project::{day_lengths_agree, project};
use crate::read::{Sheet, read};

/// What a call hands back.
#[derive(Debug, Clone, PartialEq, Eq)]
pub enum Answer {
    Accepted { finish: i64, fields: Vec<[i64; 15]>, ignored: Vec<u32>, open_ends: usize },
    Refused { number: u8, id: u32, names: Vec<u32> },
}

impl Answer {
    pub fn refused(number: u8) -> Answer {
        Answer::Refused { number, id: 0, names: Vec::new() }
    }

    /// The row that refuses; 0 for an accepted plan.
    pub fn number(&self) -> u8 {
        match self {
            Answer::Accepted { .. } => 0,
            Answer::Refused { number, .. } => *number,
        }
    }

    /// What names holds before its zeros.
    pub fn names(&self) -> &[u32] {
        match self {
            Answer::Accepted { ignored: names, .. } | Answer::Refused { names, .. } => names,
        }
    }

    /// The text that the program `plan` prints.
    pub fn text(&self) -> String {
        let mut text = String::new();
        match self {
            Answer::Accepted { finish, fields, ignored, open_ends } => {
                let _ = writeln!(text, "plan {finish} {} {} {open_ends}", fields.len(), ignored.len());
                for row in fields {
                    let words: Vec<String> = row.iter().map(i64::to_string).collect();
                    let _ = writeln!(text, "{}", words.join(" "));
                }
            }
            Answer::Refused { number, id, .. } => {
                let _ = writeln!(text, "refused {number} {id}");
            }
        }
        text
    }
}

/// How many elements of each kind are lent.
#[derive(Debug, Clone, Copy, PartialEq, Eq)]
pub struct Lent {
    pub results: usize,
    pub names: usize,
    pub work: usize,
}

impl Lent {
    /// What `a` activities and `l` links need.
    pub fn need(a: usize, l: usize) -> Lent {
        Lent { results: 15 * a, names: (a + 1).max(l), work: 64 * a + 16 * l }
    }

    /// What the program `plan` lends.
    pub const PLAN: Lent = Lent { results: 960, names: 128, work: 64 * 64 + 16 * 128 };

    pub fn covers(&self, need: &Lent) -> bool {
        self.results >= need.results && self.names >= need.names && self.work >= need.work
    }
}

/// The most bytes that the program `plan` takes.
pub const PLAN_BYTES: usize = 16_384;

/// The answer to a sheet, where enough is lent.
#[derive(Debug, Clone, PartialEq, Eq)]
pub struct Verdict {
    pub answer: Answer,
    /// What the sheet needs; none where rows 2 to 4 refuse it.
    pub need: Option<Lent>,
    /// Whether the sheet's day lengths are the Rust's, so that the unchanged text gave the answer.
    pub agrees: bool,
}

impl Verdict {
    /// The answer where `lent` is lent.
    pub fn lent(&self, lent: &Lent) -> Answer {
        match &self.need {
            Some(need) if !lent.covers(need) => Answer::refused(1),
            _ => self.answer.clone(),
        }
    }

    /// What the program `plan` prints for the `bytes` of this sheet.
    pub fn plan_text(&self, bytes: &[u8]) -> String {
        if bytes.len() > PLAN_BYTES { "too big\n".into() } else { self.lent(&Lent::PLAN).text() }
    }
}

/// What `schedule` says, with the times; asserts that exposing them changed nothing else.
fn run(project: &Project) -> Outcome {
    let (given, timed) = (unchanged::answer(project), with_times::answer(project));
    let untimed = timed.clone().map(|d| Dates { times: Vec::new(), ..d });
    assert_eq!(given, untimed, "the copy that exposes the times differs from the text as given");
    timed
}

/// The oracle.
pub fn answer(bytes: &[u8]) -> Verdict {
    answer_by(bytes, run)
}

/// The oracle with `schedule` in the place of the unchanged text, where day lengths agree.
pub fn answer_by(bytes: &[u8], schedule: fn(&Project) -> Outcome) -> Verdict {
    let sheet = match read(bytes) {
        Ok(sheet) => sheet,
        Err(row) => {
            return Verdict { answer: Answer::refused(row), need: None, agrees: true };
        }
    };
    let need = Some(Lent::need(sheet.activities.len(), sheet.links.len()));
    if sheet.calendars.iter().any(|c| c.week.is_empty()) {
        return Verdict { answer: Answer::refused(5), need, agrees: true };
    }
    let project = project(&sheet);
    let agrees = day_lengths_agree(&sheet, &project);
    let outcome = if agrees { schedule(&project) } else { own_lengths::answer(&project) };
    let answer = match outcome {
        Ok(dates) => accepted(&sheet, dates),
        Err(r) => Answer::Refused { number: r.number, id: r.id, names: r.names },
    };
    Verdict { answer, need, agrees }
}

/// Which activities are a parent of any.
pub fn summaries(sheet: &Sheet) -> Vec<bool> {
    let parents: std::collections::HashSet<u32> = sheet.activities.iter().map(|a| a.parent).collect();
    sheet.activities.iter().map(|a| parents.contains(&a.id)).collect()
}

fn accepted(sheet: &Sheet, dates: Dates) -> Answer {
    let summary = summaries(sheet);
    let (mut into, mut out_of) = (std::collections::HashSet::new(), std::collections::HashSet::new());
    for (k, l) in sheet.links.iter().enumerate() {
        if dates.ignored.binary_search(&(k as u32)).is_err() {
            out_of.insert(l.predecessor);
            into.insert(l.successor);
        }
    }
    let linked = |id: &u32| into.contains(id) && out_of.contains(id);
    let ends = sheet.activities.iter().zip(&summary).filter(|(a, summary)| !**summary && !linked(&a.id));
    let open_ends = ends.count();
    let fields = dates.fields.iter().zip(&dates.times).zip(&summary).map(|((row, &(es, ef)), &summary)| {
        let mut all = [0; 15];
        all[..13].copy_from_slice(row);
        if !summary {
            (all[13], all[14]) = (es, ef);
        }
        all
    });
    Answer::Accepted { finish: dates.finish, fields: fields.collect(), ignored: dates.ignored, open_ends }
}
