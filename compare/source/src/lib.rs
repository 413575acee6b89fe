//! What the build scripts share: the Rust's files found, copied into the build folder and patched.

use std::path::{Path, PathBuf};
use std::{env, fs};

/// Names the folder of the Rust's files.
const FOLDER: &str = "MKPERTH_SRC";

/// The files of the Rust's commit a011d96e69, from which the recorded answers come, by their FNV-1a fingerprints.
const FINGERPRINTS: [(&str, u64); 5] = [
    ("crates/sched/src/lib.rs", 0x35fa_c311_2c0f_4ab5),
    ("crates/sched/src/clock.rs", 0x1cce_46b4_3f37_f4d3),
    ("crates/core/src/project.rs", 0x53e3_22a9_9ef8_8441),
    ("crates/core/src/calendar.rs", 0x0b3e_40ac_d710_129e),
    ("crates/core/src/date.rs", 0x1fba_4b87_2071_a963),
];

/// The modules that lib.rs names and that aren't given, each with the smallest text that compiles.
pub const STAND_INS: [(&str, &str); 11] = [
    ("baseline", "pub enum Variance {}\npub fn variances() {}\npub fn working_days_between() {}\n"),
    ("budget", "pub enum BudgetLine {}\npub fn budget() {}\npub fn funding() {}\npub fn spending_by_month() {}\n"),
    (
        "costs",
        "pub enum ActualByKind {}\npub enum Cost {}\npub fn actual_by_kind() {}\npub fn costs() {}\npub fn project_cost() {}\npub fn spending() {}\n",
    ),
    (
        "earned",
        "pub enum Earned {}\npub enum PeriodPoint {}\npub fn earned_value() {}\npub fn performance() {}\npub fn period_points() {}\npub fn planned_curve() {}\npub fn project_earned() {}\n",
    ),
    ("explain", include_str!("explain.rs")),
    ("latex", "pub fn escape() {}\n"),
    (
        "level",
        "pub enum Levelling {}\npub enum Overload {}\npub const MAX_ROUNDS: usize = 0;\npub fn level() {}\npub fn overloads() {}\n",
    ),
    ("pert", "pub enum PertActivity {}\npub enum PertAnalysis {}\npub fn normal() {}\npub fn pert() {}\n"),
    ("tests", ""),
    ("together", "pub enum Link {}\npub fn schedule_together() {}\n"),
    ("usage", "pub fn by_week() {}\npub fn capacity() {}\npub fn usage() {}\n"),
];

/// A file by its path in the Rust's repository, such as `crates/sched/src/clock.rs`; the flat name
/// `src--crates--sched--src--clock.rs.txt` does as well.
pub fn read(path: &str) -> String {
    println!("cargo::rerun-if-env-changed={FOLDER}");
    let folder =
        PathBuf::from(env::var(FOLDER).unwrap_or_else(|_| panic!("{FOLDER} must name the folder of the Rust's files")));
    let flat = format!("src--{}.txt", path.replace('/', "--"));
    let Some(file) = [folder.join(path), folder.join(flat)].into_iter().find(|f| f.is_file()) else {
        panic!("{FOLDER} has no {path}");
    };
    println!("cargo::rerun-if-changed={}", file.display());
    let text = fs::read_to_string(file).expect("the Rust's files are UTF-8");
    if !FINGERPRINTS.contains(&(path, fingerprint(text.as_bytes()))) {
        println!("cargo::warning={path} isn't the text of the Rust's commit a011d96e69");
    }
    text
}

fn fingerprint(bytes: &[u8]) -> u64 {
    bytes.iter().fold(0xcbf2_9ce4_8422_2325, |h, b| (h ^ u64::from(*b)).wrapping_mul(0x0100_0000_01b3))
}

/// Cargo's folder for what a build script makes.
pub fn out_folder() -> PathBuf {
    PathBuf::from(env::var("OUT_DIR").expect("cargo names it"))
}

/// Writes one of the Rust's files and checks that what stands there to be compiled is the given text.
pub fn write_unchanged(file: &Path, path: &str) {
    let given = read(path);
    write(file, &given);
    assert!(fs::read(file).expect("just written") == given.as_bytes(), "{} isn't the given text", file.display());
}

pub fn write(file: &Path, text: &str) {
    fs::create_dir_all(file.parent().expect("a file has a folder")).expect("the build folder can be written");
    fs::write(file, text).expect("the build folder can be written");
}

/// Writes the stand-ins beside a copy of lib.rs.
pub fn write_stand_ins(folder: &Path) {
    for (name, text) in STAND_INS {
        write(&folder.join(format!("{name}.rs")), text);
    }
}

/// `text` with `old`, which must stand there `times` times, replaced.
pub fn patch(text: &str, old: &str, new: &str, times: usize) -> String {
    assert_eq!(text.matches(old).count(), times, "a patch no longer fits: {old}");
    text.replace(old, new)
}
