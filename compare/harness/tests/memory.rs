//! Row 1 and the lent memory: the oracle behind the C form passes, calls that are wrong in one place don't.

use compare::call::{Memory, Schedule, invoke, oracle_schedule};
use compare::generator::sheet;
use compare::in_process::differs;
use compare::oracle::{Lent, answer};
use compare::text::assemble;

const PLAN: &str = "P 19723\nC 480\nW 0-4 480 960\nA 1 0\nA 2 960 parent=1\nA 3 480\nL 1 3 FS\nL 2 3 FS\n";
const LOOP: &str = "P 19723\nC 480\nW 0-4 480 960\nA 1 960\nA 2 480\nL 1 2 FS\nL 2 1 FS\n";
const NO_CALENDAR: &str = "P 19723\nA 1 960\n";

fn bytes(text: &str) -> Vec<u8> {
    assemble(text).expect("a sheet")
}

#[test]
fn row_1_comes_before_row_5_and_writes_nothing() {
    let sheet = bytes("P 19723\nC 480\nA 1 480\n");
    let mut memory = Memory { results: vec![9; 14], names: vec![9; 2], work: vec![9; 64], answer: vec![9; 5] };
    memory.call(oracle_schedule, &sheet);
    let expected = Memory { results: vec![9; 14], names: vec![9; 2], work: vec![9; 64], answer: vec![1, 1, 0, 0, 0] };
    assert_eq!(memory, expected);
}

#[test]
fn what_is_needed() {
    assert_eq!(Lent::need(1, 0), Lent { results: 15, names: 2, work: 64 });
    assert_eq!(Lent::need(2, 9), Lent { results: 30, names: 9, work: 272 });
    assert_eq!(Lent::PLAN, Lent { results: 960, names: 128, work: 6_144 });
    assert!(Lent::PLAN.covers(&Lent::need(64, 128)));
    assert!(!Lent::PLAN.covers(&Lent::need(65, 0)));
    assert!(!Lent::PLAN.covers(&Lent::need(1, 129)));
}

#[test]
fn accepted_refused_and_unwritten_memory() {
    let mut memory = Memory { results: vec![9; 46], names: vec![9; 6], work: vec![9; 250], answer: vec![9; 5] };
    memory.call(oracle_schedule, &bytes(PLAN));
    assert_eq!(memory.answer, [0, 19_725, 3, 1, 2]);
    assert_eq!(memory.names, [0; 6], "link 0 is ignored, then zeros");
    assert_eq!(memory.results[45], 9);
    assert!(memory.work.iter().all(|w| *w == 0));
    memory.results.fill(9);
    memory.call(oracle_schedule, &bytes(LOOP));
    assert_eq!((&memory.answer[..], &memory.names[..]), (&[1, 15, 2, 0, 0][..], &[2, 1, 2, 0, 0, 0][..]));
    assert!(memory.results.iter().all(|r| *r == 9));
}

#[test]
fn the_oracle_behind_the_c_form_passes() {
    for number in (0..720).filter(|n| !(58..90).contains(&(n % 180))) {
        let (_, bytes) = sheet(11, number);
        assert_eq!(differs(oracle_schedule, &bytes, &answer(&bytes)), None, "sheet {number}");
    }
}

/// The oracle's call, then `$spoil` on (sheet, results, names, work, answer).
macro_rules! spoilt {
    ($name:ident, $spoil:expr) => {
        #[allow(clippy::too_many_arguments)]
        unsafe extern "C" fn $name(
            sheet: *const u8,
            sheet_len: usize,
            results: *mut i64,
            results_len: usize,
            names: *mut u32,
            names_len: usize,
            work: *mut i64,
            work_len: usize,
            answer: *mut i64,
            answer_len: usize,
        ) {
            type Spoil = fn(*mut u8, (*mut i64, usize), (*mut u32, usize), (*mut i64, usize), &mut [i64]);
            let spoil: Spoil = $spoil;
            // SAFETY: the caller's slices, and cells beside them that its guards own.
            unsafe {
                let sheet_in = std::slice::from_raw_parts(sheet, sheet_len);
                let results_in = std::slice::from_raw_parts_mut(results, results_len);
                let names_in = std::slice::from_raw_parts_mut(names, names_len);
                let work_in = std::slice::from_raw_parts_mut(work, work_len);
                let answer_in = std::slice::from_raw_parts_mut(answer, answer_len);
                invoke(oracle_schedule, sheet_in, results_in, names_in, work_in, answer_in);
                spoil(sheet.cast_mut(), (results, results_len), (names, names_len), (work, work_len), answer_in);
            }
        }
    };
}

spoilt!(writes_past_results, |_, r, _, _, _| unsafe { *r.0.add(r.1) = 0 });
spoilt!(writes_before_names, |_, _, n, _, _| unsafe { *n.0.sub(1) = 0 });
spoilt!(leaves_work, |_, _, _, w, a| unsafe {
    if a[0] == 0 && w.1 > 0 {
        *w.0.add(w.1 - 1) = 1;
    }
});
spoilt!(writes_sheet, |s, _, _, _, _| unsafe { *s = 0 });
spoilt!(miscounts_open_ends, |_, _, _, _, a| a[4] += 1);
spoilt!(turns_the_loop, |_, _, n, _, a| unsafe {
    if a[1] == 15 {
        (*n.0, *n.0.add(1), *n.0.add(2)) = (1, 2, 1);
    }
});
spoilt!(accepts_one_short, |_, _, _, _, a| {
    if a[..2] == [1, 1] {
        a[1] = 2;
    }
});
spoilt!(zeroes_on_row_2, |_, _, n, _, a| unsafe {
    if a[..2] == [1, 2] {
        *n.0 = 0;
    }
});

#[test]
fn calls_that_are_wrong_in_one_place_are_seen() {
    let wrong: [(Schedule, &str); 8] = [
        (writes_past_results, PLAN),
        (writes_before_names, PLAN),
        (leaves_work, PLAN),
        (writes_sheet, PLAN),
        (miscounts_open_ends, PLAN),
        (turns_the_loop, LOOP),
        (accepts_one_short, PLAN),
        (zeroes_on_row_2, NO_CALENDAR),
    ];
    for (k, (call, text)) in wrong.into_iter().enumerate() {
        let sheet = bytes(text);
        assert!(differs(call, &sheet, &answer(&sheet)).is_some(), "wrong call {k}");
    }
}
