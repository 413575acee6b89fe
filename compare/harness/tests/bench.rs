//! The benchmark's sheets are what their names say, and the times are those of its calls.

use compare::bench::sheets::{CENTURY, Kind, cases, days, shared_bits};
use compare::call::{oracle_schedule, repeat};
use compare::oracle::answer;
use compare::read::read;
use compare::timing::{Rounds, shown, times};

#[test]
fn the_sheets_are_what_their_names_say() {
    let all = cases();
    let mut names: Vec<String> = all.iter().map(|c| c.name()).collect();
    names.sort_unstable();
    names.dedup();
    assert_eq!(names.len(), all.len());
    for case in all {
        let (name, bytes) = (case.name(), case.bytes());
        let sheet = read(&bytes).expect("a sheet");
        assert_eq!((sheet.activities.len(), sheet.links.len()), case.size, "{name}");
        assert_eq!(sheet.calendars[0].exceptions.len(), case.exceptions, "{name}");
        assert_eq!(sheet.calendars.len(), if case.kind == Kind::Mix { 15 } else { 1 }, "{name}");
        assert_eq!(sheet.calendars[0].week.len(), if case.kind == Kind::ManyHours { 56 } else { 10 }, "{name}");
        let long = sheet.activities.iter().all(|a| a.id % (1 << shared_bits(sheet.activities.len())) == 1);
        assert_eq!(long, case.kind == Kind::LongIds, "{name}");
        let verdict = answer(&bytes);
        assert!(verdict.answer.number() == 0 && verdict.agrees, "{name}");
        let days = days(&sheet);
        match case.kind {
            Kind::Century | Kind::Dates => assert!((days - CENTURY).abs() < CENTURY / 20, "{name}: {days}"),
            _ => assert!((60..300).contains(&days), "{name}: {days}"),
        }
        // They reach over nearly all of the plan.
        if let [first, .., last] = sheet.calendars[0].exceptions[..] {
            assert!(20 * (last.day - first.day) > 17 * days, "{name}");
        }
    }
}

#[test]
fn times_are_of_as_many_rounds_as_asked_for() {
    let [bytes, other] = [1, 2].map(|seed| cases()[0].bytes_of(seed));
    let counted = times(oracle_schedule, &[&bytes], Rounds::Count(7)).expect("accepted");
    assert_eq!(counted.rounds, 7);
    let timed = times(oracle_schedule, &[&bytes, &other], Rounds::Seconds(0.01)).expect("accepted");
    assert!(timed.rounds > 7);
    for t in [counted.rust, counted.with_reading, counted.ours, timed.rust, timed.with_reading, timed.ours] {
        assert!(0.0 < t.least && t.least <= t.median);
    }
    assert!(times(oracle_schedule, &[&bytes, b""], Rounds::Count(1)).is_err());
    assert_eq!(repeat(oracle_schedule, &[cases()[2].bytes(), bytes], 2)[..3], [0, 19_832, 2]);
}

#[test]
fn seconds_for_a_reader() {
    assert_eq!([1.234e-6, 12.34e-6, 123.4e-6, 1.234e-3].map(shown), ["1.23 µs", "12.3 µs", "123 µs", "1.23 ms"]);
}
