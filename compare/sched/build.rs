//! Copies lib.rs and clock.rs into the build folder, unchanged, with the stand-ins beside them.

fn main() {
    let out = source::out_folder();
    for name in ["lib", "clock"] {
        source::write_unchanged(&out.join(format!("{name}.rs")), &format!("crates/sched/src/{name}.rs"));
    }
    source::write_stand_ins(&out);
    source::write(
        &out.join("modules.rs"),
        &format!("#[path = {:?}]\nmod unchanged;\npub use unchanged::*;\n", out.join("lib.rs")),
    );
}
