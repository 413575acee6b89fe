//! The scheduling call for Rust. Nothing is tested here: the call answers every byte string and every length of what is lent.

/// What a call answers.
#[derive(Debug, Clone, Copy, PartialEq, Eq)]
pub enum Answer {
    /// The finish day, and how many activities, ignored links and open ends there are.
    Accepted { finish_day: i64, activities: i64, ignored: i64, open_ends: i64 },
    /// A row of document 01's table and its id.
    Refused { row: i64, id: i64 },
}

unsafe extern "C" {
    fn neakspuoy_schedule(
        sheet: *const u8,
        sheet_len: usize,
        results: *mut i64,
        results_len: usize,
        names: *mut u32,
        names_len: usize,
        work: *mut i64,
        work_len: usize,
        answer: *mut i64,
        answer_len: usize,
    );
}

/// Plans the sheet in the memory that is lent.
pub fn schedule(sheet: &[u8], results: &mut [i64], names: &mut [u32], work: &mut [i64]) -> Answer {
    let mut answer = [0i64; 5];
    // SAFETY: each pointer comes with its own slice's length, and the slices don't overlap.
    unsafe {
        neakspuoy_schedule(
            sheet.as_ptr(),
            sheet.len(),
            results.as_mut_ptr(),
            results.len(),
            names.as_mut_ptr(),
            names.len(),
            work.as_mut_ptr(),
            work.len(),
            answer.as_mut_ptr(),
            answer.len(),
        );
    }
    match answer {
        [0, finish_day, activities, ignored, open_ends] => Answer::Accepted { finish_day, activities, ignored, open_ends },
        [_, row, id, _, _] => Answer::Refused { row, id },
    }
}

#[cfg(test)]
mod tests {
    use super::*;

    const EXAMPLE: &[u8] = include_bytes!("../../../crates/plan/stdin");

    #[test]
    fn the_example_of_document_01() {
        let (mut results, mut names, mut work) = (vec![7; 31], vec![7; 3], vec![7; 144]);
        let answer = schedule(EXAMPLE, &mut results, &mut names, &mut work);
        assert_eq!(answer, Answer::Accepted { finish_day: 19725, activities: 2, ignored: 0, open_ends: 2 });
        assert_eq!(results[15..31], [2, 19725, 19725, 19725, 19725, 0, 0, 0, 0, 1, 1, 0, 480, 28404480, 28404960, 7]);
        assert!(names.iter().all(|n| *n == 0) && work.iter().all(|n| *n == 0));
    }

    #[test]
    fn one_result_too_few() {
        let (mut results, mut names, mut work) = (vec![7; 29], vec![7; 3], vec![7; 144]);
        assert_eq!(schedule(EXAMPLE, &mut results, &mut names, &mut work), Answer::Refused { row: 1, id: 0 });
        assert!(results.iter().all(|n| *n == 7) && names.iter().all(|n| *n == 7) && work.iter().all(|n| *n == 7));
    }
}
