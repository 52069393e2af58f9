//! Compiles the plain C drive, and writes the wrong drives, the wrong flow boxes and the false wordings of demand 3
//! and of W-207 that are the right ones with a piece of their text changed.

#[path = "edits/drives.rs"]
mod drives;
#[path = "edits/flows.rs"]
mod flows;
#[path = "edits/settle.rs"]
mod settle;
#[path = "edits/wordings.rs"]
mod wordings;

use std::env;
use std::fmt::Write;
use std::fs;
use std::process::Command;

/// A copy of a source file with changes.
pub struct Edit {
    pub name: &'static str,
    /// Old text, which occurs exactly once, and new text.
    pub changes: &'static [(&'static str, &'static str)],
}

pub const fn edit(name: &'static str, changes: &'static [(&'static str, &'static str)]) -> Edit {
    Edit { name, changes }
}

fn main() {
    let root = env::var("CARGO_MANIFEST_DIR").unwrap();
    let out = env::var("OUT_DIR").unwrap();
    println!("cargo:rerun-if-changed={root}/edits");
    plain_c(&root, &out);
    let source = |name| format!("{root}/src/{name}.rs");
    let target = |name| format!("{out}/{name}.rs");
    edited(&source("model"), drives::EDITS, false, &target("drives"));
    edited(&source("flow"), flows::EDITS, false, &target("flows"));
    edited(&source("literal"), wordings::EDITS, true, &target("wordings"));
    edited(&source("settle/claim"), settle::EDITS, true, &target("settle"));
}

fn plain_c(root: &str, out: &str) {
    let (source, object, archive) =
        (format!("{root}/../../c/plain.c"), format!("{out}/plain.o"), format!("{out}/libplain.a"));
    call("cc", &["-O3", "-std=c11", "-Wall", "-Wextra", "-Werror", "-fPIE", "-c", &source, "-o", &object]);
    call("ar", &["crs", &archive, &object]);
    println!("cargo:rustc-link-search=native={out}");
    println!("cargo:rustc-link-lib=static=plain");
    println!("cargo:rerun-if-changed={root}/../../c");
    println!("cargo:rerun-if-changed={root}/../../include");
}

fn call(program: &str, args: &[&str]) {
    let status = Command::new(program).args(args).status();
    assert!(status.is_ok_and(|status| status.success()), "{program} {} failed", args.join(" "));
}

/// Writes a module for each edit, and for wordings `EDITED`, a row of them by their function `broken`.
fn edited(source: &str, edits: &[Edit], wordings: bool, target: &str) {
    println!("cargo:rerun-if-changed={source}");
    let right = fs::read_to_string(source).unwrap();
    let mut text = String::new();
    if wordings {
        let entry =
            |Edit { name, .. }: &Edit| format!("Wording {{ name: {name:?}, broken: {name}::broken }},\n");
        let entries: String = edits.iter().map(entry).collect();
        writeln!(text, "pub const EDITED: &[Wording] = &[\n{entries}];").unwrap();
    }
    for Edit { name, changes } in edits {
        let mut wrong = right.clone();
        for (old, new) in *changes {
            let times = wrong.matches(old).count();
            assert!(times == 1, "{name}: `{old}` occurs {times} times in {source}");
            wrong = wrong.replace(old, new);
        }
        writeln!(text, "#[allow(non_snake_case, unused, clippy::all)]\npub mod {name} {{\n{wrong}}}")
            .unwrap();
    }
    fs::write(target, text).unwrap();
}
