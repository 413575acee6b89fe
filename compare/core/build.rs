//! Copies date.rs, calendar.rs and project.rs into the build folder, unchanged.

fn main() {
    let out = source::out_folder();
    let mut modules = String::new();
    for name in ["date", "calendar", "project"] {
        let file = out.join(format!("{name}.rs"));
        source::write_unchanged(&file, &format!("crates/core/src/{name}.rs"));
        modules += &format!("#[allow(unused_imports)]\n#[path = {file:?}]\nmod {name};\npub use {name}::*;\n");
    }
    source::write(&out.join("modules.rs"), &modules);
}
