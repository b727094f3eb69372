//! Writes the mutants: for each edit of the lists a folder with the independent desk, or with the
//! part of it that looks up quotes, and that edit in it; and `mutants.rs`, which has them as modules
//! and as desks.

use std::fmt::Write;
use std::path::{Path, PathBuf};
use std::{env, fs};

mod list;
mod quotes;
mod wide;

fn main() {
    let page = PathBuf::from("../src/page");
    let out = PathBuf::from(env::var("OUT_DIR").expect("cargo sets it"));
    println!("cargo::rerun-if-changed=list.rs");
    println!("cargo::rerun-if-changed=quotes.rs");
    println!("cargo::rerun-if-changed=wide.rs");
    println!("cargo::rerun-if-changed={}", page.display());
    let mut modules = String::new();
    let mut desks = String::new();
    let whole = edits(list::MUTATIONS).chain(edits(wide::MUTATIONS));
    for (index, (file, edit)) in whole.enumerate() {
        let folder = out.join(format!("m{index}"));
        copy_page(&page, &folder);
        write_mutant(&page, &folder, file, edit);
        module(&mut modules, &folder, &format!("m{index}"));
        let (name, ..) = edit;
        let _ = writeln!(
            modules,
            "harness::desk_of_page!(M{index}, m{index}, {name:?});"
        );
        let _ = writeln!(desks, "    &M{index},");
    }
    let mut quote_desks = String::new();
    for (index, (file, edit)) in edits(quotes::MUTATIONS).enumerate() {
        let folder = out.join(format!("q{index}"));
        copy_quotes(&page, &folder);
        write_mutant(&page, &folder, file, edit);
        module(&mut modules, &folder, &format!("q{index}"));
        let (name, ..) = edit;
        let _ = writeln!(
            modules,
            "struct Q{index};\nharness::quote_desk_of_page!(Q{index}, q{index}, {name:?});"
        );
        let _ = writeln!(quote_desks, "    &Q{index},");
    }
    let text = format!(
        "{modules}const MUTANTS: &[&dyn Desk] = &[\n{desks}];\n\
         const QUOTE_MUTANTS: &[&dyn QuoteDesk] = &[\n{quote_desks}];\n"
    );
    fs::write(out.join("mutants.rs"), text).expect("the list of mutants");
}

/// Every edit, with its file.
fn edits(
    list: &'static [(&str, &[list::Edit])],
) -> impl Iterator<Item = (&'static str, &'static list::Edit)> {
    list.iter()
        .flat_map(|(file, edits)| edits.iter().map(move |edit| (*file, edit)))
}

/// What no mutant of the rulings is asked for; without it each is compiled sooner.
const NOT_ASKED: [&str; 8] = [
    "careful", "explain", "filling", "quotes", "refused", "shown", "told", "writing",
];

/// The whole independent desk, as far as it rules.
fn copy_page(page: &Path, folder: &Path) {
    fs::create_dir_all(folder).expect("a folder");
    for entry in fs::read_dir(page).expect("the page's folder") {
        let entry = entry.expect("a file");
        fs::copy(entry.path(), folder.join(entry.file_name())).expect("a copy");
    }
    let root = fs::read_to_string(page.join("mod.rs")).expect("the module's own file");
    let is_asked = |line: &&str| {
        let names = |part: &str| {
            line.starts_with(&format!("mod {part};"))
                || line.starts_with(&format!("pub use {part}::"))
        };
        !NOT_ASKED.iter().any(|part| names(part))
    };
    let asked: Vec<&str> = root.lines().filter(is_asked).collect();
    fs::write(folder.join("mod.rs"), asked.join("\n")).expect("the module's own file");
}

/// What looks up quotes, tells what was found and fills cases; the rest is the independent desk's own.
fn copy_quotes(page: &Path, folder: &Path) {
    fs::create_dir_all(folder).expect("a folder");
    for file in ["quotes.rs", "told.rs", "filling.rs"] {
        fs::copy(page.join(file), folder.join(file)).expect("a copy");
    }
    let root = "mod filling;\nmod quotes;\nmod told;\npub use filling::fill_case;\n\
                pub use told::{best_told, number_told};\n\
                use harness::page::{case, reading, refusal, units};\n";
    fs::write(folder.join("mod.rs"), root).expect("the module's own file");
}

fn write_mutant(page: &Path, folder: &Path, file: &str, (name, old, new): &list::Edit) {
    let text = fs::read_to_string(page.join(file)).expect("a file of the page");
    if text.matches(old).count() != 1 {
        println!("cargo::error=mutant {name:?}: its text must stand in src/page/{file} once");
    }
    fs::write(folder.join(file), text.replace(old, new)).expect("the edited file");
}

fn module(modules: &mut String, folder: &Path, name: &str) {
    let path = folder.join("mod.rs");
    let _ = writeln!(
        modules,
        "#[allow(warnings)]\n#[path = {path:?}]\nmod {name};"
    );
}
