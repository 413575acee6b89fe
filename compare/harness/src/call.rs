//! The scheduling call's C form, and the memory that is lent to it before and after.

use crate::oracle::{Answer, Lent, answer};
use crate::read::read;

/// The call in C; each slice is a pointer with its count of elements:
///
/// ```c
/// void neakspuoy_schedule(const uint8_t *sheet, size_t sheet_len, int64_t *results, size_t results_len,
///                         uint32_t *names, size_t names_len, int64_t *work, size_t work_len,
///                         int64_t *answer, size_t answer_len);
/// ```
///
/// `answer` takes five numbers: 0, finish day, A, ignored links, open ends; or 1, row, id, 0, 0.
pub type Schedule =
    unsafe extern "C" fn(*const u8, usize, *mut i64, usize, *mut u32, usize, *mut i64, usize, *mut i64, usize);

pub const ANSWER: usize = 5;

#[cfg(feature = "sched")]
unsafe extern "C" {
    pub fn neakspuoy_schedule(
        sheet: *const u8,
        sheet_len: usize,
        results: *mut i64,
        results_len: usize,
        names: *mut u32,
        names_len: usize,
        work: *mut i64,
        work_len: usize,
        answer: *mut i64,
        answer_len: usize,
    );
}

/// The call that is compared: the library's where it is linked, else the oracle's own.
#[cfg(feature = "sched")]
pub const OURS: Schedule = neakspuoy_schedule;
#[cfg(not(feature = "sched"))]
pub const OURS: Schedule = oracle_schedule;

/// All that a call may write.
#[derive(Debug, Clone, PartialEq, Eq)]
pub struct Memory {
    pub results: Vec<i64>,
    pub names: Vec<u32>,
    pub work: Vec<i64>,
    pub answer: Vec<i64>,
}

impl Memory {
    pub fn zeros(lent: &Lent) -> Memory {
        Memory {
            results: vec![0; lent.results],
            names: vec![0; lent.names],
            work: vec![0; lent.work],
            answer: vec![0; ANSWER],
        }
    }

    pub fn lent(&self) -> Lent {
        Lent { results: self.results.len(), names: self.names.len(), work: self.work.len() }
    }

    /// What document 01 leaves here once `answer` is given.
    pub fn take(&mut self, answer: &Answer) {
        self.answer = match answer {
            Answer::Accepted { finish, fields, ignored, open_ends } => {
                vec![0, *finish, fields.len() as i64, ignored.len() as i64, *open_ends as i64]
            }
            Answer::Refused { number, id, .. } => vec![1, i64::from(*number), i64::from(*id), 0, 0],
        };
        if (1..=4).contains(&answer.number()) {
            return;
        }
        self.work.fill(0);
        self.names.fill(0);
        self.names[..answer.names().len()].copy_from_slice(answer.names());
        if let Answer::Accepted { fields, .. } = answer {
            self.results.iter_mut().zip(fields.iter().flatten()).for_each(|(cell, value)| *cell = *value);
        }
    }

    pub fn call(&mut self, schedule: Schedule, sheet: &[u8]) {
        invoke(schedule, sheet, &mut self.results, &mut self.names, &mut self.work, &mut self.answer);
    }
}

pub fn invoke(
    schedule: Schedule,
    sheet: &[u8],
    results: &mut [i64],
    names: &mut [u32],
    work: &mut [i64],
    answer: &mut [i64],
) {
    // SAFETY: each pointer comes with its own slice's length, and the slices are apart.
    unsafe {
        schedule(
            sheet.as_ptr(),
            sheet.len(),
            results.as_mut_ptr(),
            results.len(),
            names.as_mut_ptr(),
            names.len(),
            work.as_mut_ptr(),
            work.len(),
            answer.as_mut_ptr(),
            answer.len(),
        );
    }
}

/// Calls the sheets in turn so many times and does nothing else that takes time, for a profiler; gives the last call's answer.
pub fn repeat(schedule: Schedule, sheets: &[Vec<u8>], rounds: usize) -> Vec<i64> {
    let sizes = sheets.iter().filter_map(|s| read(s).ok()).map(|s| (s.activities.len(), s.links.len()));
    let (activities, links) = sizes.fold((0, 0), |(a, l), (b, k)| (a.max(b), l.max(k)));
    let mut memory = Memory::zeros(&Lent::need(activities, links));
    for _ in 0..rounds {
        sheets.iter().for_each(|sheet| memory.call(schedule, sheet));
    }
    memory.answer
}

/// The oracle behind the C form.
///
/// # Safety
/// Each pointer is that of a slice of the length beside it; `answer` has five elements.
#[allow(clippy::too_many_arguments)]
pub unsafe extern "C" fn oracle_schedule(
    sheet: *const u8,
    sheet_len: usize,
    results: *mut i64,
    results_len: usize,
    names: *mut u32,
    names_len: usize,
    work: *mut i64,
    work_len: usize,
    answer_to: *mut i64,
    answer_len: usize,
) {
    // SAFETY: the caller's promise.
    let (sheet, results, names, work, answer_to) = unsafe {
        (
            std::slice::from_raw_parts(sheet, sheet_len),
            std::slice::from_raw_parts_mut(results, results_len),
            std::slice::from_raw_parts_mut(names, names_len),
            std::slice::from_raw_parts_mut(work, work_len),
            std::slice::from_raw_parts_mut(answer_to, answer_len),
        )
    };
    let mut after =
        Memory { results: results.to_vec(), names: names.to_vec(), work: work.to_vec(), answer: answer_to.to_vec() };
    after.take(&answer(sheet).lent(&after.lent()));
    results.copy_from_slice(&after.results);
    names.copy_from_slice(&after.names);
    work.copy_from_slice(&after.work);
    answer_to.copy_from_slice(&after.answer);
}
