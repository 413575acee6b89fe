//! Changes to lib.rs or clock.rs: the deliberate faults, and some that no answer shows.

pub enum File {
    Lib,
    Clock,
}

pub struct FaultPatch {
    pub name: &'static str,
    pub what: &'static str,
    pub file: File,
    pub old: &'static str,
    pub new: &'static str,
}

const fn lib(name: &'static str, what: &'static str, old: &'static str, new: &'static str) -> FaultPatch {
    FaultPatch { name, what, file: File::Lib, old, new }
}

const fn clock(name: &'static str, what: &'static str, old: &'static str, new: &'static str) -> FaultPatch {
    FaultPatch { name, what, file: File::Clock, old, new }
}

pub const FAULTS: [FaultPatch; 20] = [
    lib("critical-strict", "critical below the threshold only", "total <= threshold", "total < threshold"),
    lib(
        "held-late-calendar",
        "held-late moves on the project's calendar",
        "c.retreat(c.advance(e_f, own)?, dur(i))?",
        "clock(0).retreat(clock(0).advance(e_f, own)?, dur(i))?",
    ),
    lib("late-lag-dropped", "FS without its lag in the backward pass", "=> (back(s_ls)?, None)", "=> (s_ls, None)"),
    lib("late-lift-strict", "a late finish lifted only below the latest", "&& early <= latest", "&& early < latest"),
    lib(
        "late-moment-kept",
        "late times not moved to the successor's next start",
        "(latest_same(t.to, s_ls)?, latest_same(t.to, s_lf)?)",
        "(s_ls, s_lf)",
    ),
    lib("lag-moment-kept", "no next start after a lag back", "else { lag.next_start(v) }", "else { bounded(v) }"),
    lib("span-strict", "the span one minute narrower", ".abs() > MAX_SPAN * 2", ".abs() >= MAX_SPAN * 2"),
    lib(
        "late-milestone-strict",
        "a start milestone's late moment before its bound",
        "if s <= t { s }",
        "if s < t { s }",
    ),
    lib("percent-unclamped", "a percent lag without its clamp", "share.clamp(-1_000_000, 1_000_000)", "share"),
    lib("longest-completed", "completed work on the longest path", "&& status(t.from) != Status::Completed", ""),
    lib("recorded-reversed", "a recorded finish before its start", "MINUTES_PER_DAY)?.max(s)", "MINUTES_PER_DAY)?"),
    lib(
        "late-start-loose",
        "a start date passed in the backward pass",
        "c.advance(c.start_by(t)?",
        "c.advance(c.previous_start(t)?",
    ),
    lib("summaries-outward", "outer summaries before inner ones", "std::cmp::Reverse(depth(i))", "depth(i)"),
    lib("free-from-remaining", "free float from the start of the work left", "begun(i, e_s), e_f)", "e_s, e_f)"),
    lib(
        "mandatory-unfloored",
        "a mandatory start before the floor",
        "(Some(t.max(floor)), None, true)",
        "(Some(t), None, true)",
    ),
    lib("loop-last-predecessor", "a loop along last predecessors", ".find(|&p| stuck(p))", ".rfind(|&p| stuck(p))"),
    clock("finish-at-closing", "a closing minute isn't a finish", "m <= i64::from(*b)", "m < i64::from(*b)"),
    clock("start-at-closing", "a closing minute is a start", "i64::from(*b) > from)", "i64::from(*b) >= from)"),
    clock("finish-at-opening", "an opening minute is a finish", "i64::from(*a) < to)", "i64::from(*a) <= to)"),
    clock("midnight-missed", "work to 24:00 doesn't end at midnight", "m == 0 && self", "m == 1 && self"),
];

pub const UNSEEN: [FaultPatch; 3] = [
    lib("ready-last-first", "the last ready activity first", "ready.pop_front()", "ready.pop_back()"),
    lib("late-lift-unchecked", "no third test before a late finish is lifted", "&& latest_same(i, f)? >= early", ""),
    clock("worked-at-closing", "a closing minute is worked", "<= m && m < i64::from(*b)", "<= m && m <= i64::from(*b)"),
];
