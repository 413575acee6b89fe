//! Compares a scheduling call in process: the answer and every lent cell, before and after.

use crate::call::{ANSWER, Memory, Schedule, invoke};
use crate::corpus::Corpus;
use crate::oracle::{Lent, Verdict, answer};

/// Cells on either side of a lent slice, which no call may touch.
const GUARD: usize = 4;

/// A slice within guards, filled with numbers that no answer leaves there by chance.
fn filled<T: Copy>(length: usize, make: impl Fn(usize) -> T) -> Vec<T> {
    (0..length + 2 * GUARD).map(make).collect()
}

fn inner<T>(all: &mut [T]) -> &mut [T] {
    let end = all.len() - GUARD;
    &mut all[GUARD..end]
}

/// Calls with `lent` memory; says what differs from what `verdict` asks for.
fn difference(schedule: Schedule, bytes: &[u8], verdict: &Verdict, lent: Lent) -> Option<String> {
    let fill = |k: usize| -0x0123_4567_89ab_cdef - k as i64;
    let before = Memory {
        results: filled(lent.results, fill),
        names: filled(lent.names, |k| 0xdead_0000 + k as u32),
        work: filled(lent.work, |k| fill(k) - 1),
        answer: filled(ANSWER, fill),
    };
    let (mut expected, mut found) = (before.clone(), before);
    let mut inside = Memory {
        results: inner(&mut expected.results).to_vec(),
        names: inner(&mut expected.names).to_vec(),
        work: inner(&mut expected.work).to_vec(),
        answer: inner(&mut expected.answer).to_vec(),
    };
    inside.take(&verdict.lent(&lent));
    inner(&mut expected.results).copy_from_slice(&inside.results);
    inner(&mut expected.names).copy_from_slice(&inside.names);
    inner(&mut expected.work).copy_from_slice(&inside.work);
    inner(&mut expected.answer).copy_from_slice(&inside.answer);
    let sheet = bytes.to_vec();
    let Memory { results, names, work, answer } = &mut found;
    invoke(schedule, &sheet, inner(results), inner(names), inner(work), inner(answer));
    if sheet != bytes {
        return Some("the sheet was written".into());
    }
    fn first<T: PartialEq + std::fmt::Debug>(name: &str, expected: &[T], found: &[T]) -> Option<String> {
        let k = (0..expected.len()).find(|&k| expected[k] != found[k])?;
        let at = k as i64 - GUARD as i64;
        Some(format!("{name} {at}: expected {:?}, found {:?}", expected[k], found[k]))
    }
    first("answer", &expected.answer, &found.answer)
        .or_else(|| first("results", &expected.results, &found.results))
        .or_else(|| first("names", &expected.names, &found.names))
        .or_else(|| first("work", &expected.work, &found.work))
}

/// Calls with just enough, with more, with nothing and with each slice one short; says what differs first.
pub fn differs(schedule: Schedule, bytes: &[u8], verdict: &Verdict) -> Option<String> {
    let need = verdict.need.unwrap_or(Lent { results: 3, names: 3, work: 3 });
    let more = Lent { results: need.results + 17, names: need.names + 5, work: need.work + 9 };
    let nothing = Lent { results: 0, names: 0, work: 0 };
    let mut tried = vec![("just enough", need), ("more", more), ("nothing", nothing)];
    let shorter = |what, length: usize, lent: Lent| (length > 0).then_some((what, lent));
    tried.extend(shorter("one result short", need.results, Lent { results: need.results.wrapping_sub(1), ..need }));
    tried.extend(shorter("one name short", need.names, Lent { names: need.names.wrapping_sub(1), ..need }));
    tried.extend(shorter("one work cell short", need.work, Lent { work: need.work.wrapping_sub(1), ..need }));
    tried
        .into_iter()
        .find_map(|(what, lent)| difference(schedule, bytes, verdict, lent).map(|d| format!("{what} lent: {d}")))
}

/// Compares over a corpus; gives how many sheets differ and how many were compared by the sheet's own day lengths.
pub fn compare(schedule: Schedule, corpus: &Corpus) -> std::io::Result<(usize, usize, usize)> {
    let (mut sheets, mut differing, mut apart) = (0, 0, 0);
    corpus.each(|number, theme, bytes| {
        let verdict = answer(bytes);
        sheets += 1;
        apart += usize::from(!verdict.agrees);
        if let Some(what) = differs(schedule, bytes, &verdict) {
            differing += 1;
            if differing <= 10 {
                println!("sheet {number} ({theme:?}): {what}");
            }
        }
    })?;
    Ok((sheets, differing, apart))
}
