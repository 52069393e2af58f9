//! Links the archives of the proved drive, from the folder DAMPER_ARCHIVES (an absolute path) or from this
//! repository's target/staticlib.

use std::env;
use std::path::PathBuf;
use std::process::exit;

const FOLDER: &str = "DAMPER_ARCHIVES";

fn main() {
    println!("cargo:rerun-if-env-changed={FOLDER}");
    let here = PathBuf::from(env::var_os("CARGO_MANIFEST_DIR").unwrap());
    let folder = env::var_os(FOLDER).map_or_else(|| here.join("../../target/staticlib"), PathBuf::from);
    println!("cargo:rustc-link-search=native={}", folder.display());
    for name in [
        "host",
        "host_replay",
        "host_audit",
        "host_flow",
        "hall_event",
        "hall_tick",
        "hall_page",
        "hall_bill",
    ] {
        let archive = folder.join(format!("lib{name}.a"));
        if !archive.is_file() {
            eprintln!(
                "{} is missing: run `tools/archives`, which writes it to target/staticlib, or set {FOLDER} to \
                 the folder that has it",
                archive.display()
            );
            exit(1);
        }
        println!("cargo:rerun-if-changed={}", archive.display());
        println!("cargo:rustc-link-lib=static={name}");
    }
}
