//! Makes the patched copies of lib.rs and clock.rs in the build folder, each beside the stand-ins.

#[path = "src/fault_list.rs"]
mod fault_list;

use fault_list::{FAULTS, File, UNSEEN};

const LIB: &str = "crates/sched/src/lib.rs";
const CLOCK: &str = "crates/sched/src/clock.rs";

/// The places at which a time is held to the span, in lib.rs's order.
const SPAN_SITES: [&str; 11] = [
    "link",
    "constraint",
    "levelled",
    "start",
    "expected finish",
    "finish",
    "must finish",
    "link",
    "constraint",
    "finish",
    "start",
];
/// The other places of lib.rs that say too long, in its order.
const LENGTH_SITES: [&str; 3] = ["task", "lag as given", "lag after conversion"];

fn main() {
    let (lib, clock) = (source::read(LIB), source::read(CLOCK));
    // Hands out the times that the answer leaves out; every copy does.
    let lib = source::patch(
        &lib,
        "    Ok((Schedule { activities: out",
        "    crate::keep_times(&es, &ef);\n    Ok((Schedule { activities: out",
        1,
    );
    // In the Rust the clock stands directly under the crate's root, here a module deeper.
    let clock = source::patch(&clock, "use crate::ScheduleError;", "use super::ScheduleError;", 1);

    let mut modules = add_copy("with_times", &lib, &clock);
    modules += &add_copy("own_lengths", &source::patch(&lib, "c.day_minutes()", "crate::day_length(c)", 5), &clock);
    modules += &add_copy("sited", &with_sites(&lib), &clock_with_site(&clock));
    for (list, patches) in [("FAULTS", &FAULTS[..]), ("UNSEEN", &UNSEEN[..])] {
        modules += &format!("pub const {list}: &[Fault] = &[\n");
        let mut copies = String::new();
        for f in patches {
            let name = f.name.replace('-', "_");
            let (lib, clock) = match f.file {
                File::Lib => (source::patch(&lib, f.old, f.new, 1), clock.clone()),
                File::Clock => (lib.clone(), source::patch(&clock, f.old, f.new, 1)),
            };
            copies += &add_copy(&name, &lib, &clock);
            modules += &format!("    Fault {{ name: {:?}, what: {:?}, schedule: {name}::answer }},\n", f.name, f.what);
        }
        modules += "];\n";
        modules += &copies;
    }
    source::write(&source::out_folder().join("modules.rs"), &modules);
}

/// Writes a copy into a folder of its own and gives the module that holds it.
fn add_copy(name: &str, lib: &str, clock: &str) -> String {
    let folder = source::out_folder().join(name);
    source::write(&folder.join("lib.rs"), lib);
    source::write(&folder.join("clock.rs"), clock);
    source::write_stand_ins(&folder);
    format!(
        "pub mod {name} {{\n#[allow(dead_code, unused_imports)]\n#[path = {:?}]\nmod copy;\nadapter!(copy);\n}}\n",
        folder.join("lib.rs")
    )
}

/// lib.rs with each place that can say too long, and each pass, marking itself as it is met.
fn with_sites(lib: &str) -> String {
    let mut text = String::new();
    let (mut lengths, mut spans) = (LENGTH_SITES.iter(), SPAN_SITES.iter());
    for line in lib.lines() {
        let site = |names: &mut std::slice::Iter<&str>| {
            format!("crate::at({:?}, &bounded)", names.next().expect("a site too many"))
        };
        let line = if line.trim() == "return Err(ScheduleError::TooLong);" {
            format!("crate::mark({:?});\n{line}", lengths.next().expect("a site too many"))
        } else if line.contains(".map(bounded)") {
            line.replace(".map(bounded)", &format!(".map({})", site(&mut spans)))
        } else if line.contains("bounded(") {
            line.replacen("bounded(", &format!("{}(", site(&mut spans)), 1)
        } else {
            line.to_string()
        };
        text += &line;
        text.push('\n');
    }
    assert!(lengths.next().is_none() && spans.next().is_none(), "a site too few");
    let passes = [
        ("    // Forward pass.", "forward"),
        ("    // Backward pass, from", "backward"),
        ("    // Free float, successors", "free float"),
        ("    // The longest path: from", "longest path"),
    ];
    passes
        .iter()
        .fold(text, |t, (comment, pass)| source::patch(&t, comment, &format!("crate::enter({pass:?});\n{comment}"), 1))
}

/// clock.rs with a walk that leaves the years marking itself.
fn clock_with_site(clock: &str) -> String {
    let marked = "ok_or_else(|| { crate::mark(if day < 0 { \"years before\" } else { \"years after\" }); ScheduleError::TooLong })";
    source::patch(clock, "ok_or(ScheduleError::TooLong)", marked, 1)
}
