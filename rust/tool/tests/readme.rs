//! The README's scenario, its explanation and its picture.

mod common;

use common::{as_kept, explained, input, records_of, repository};
use damper_tool::draw;
use std::fs;

/// As the examples are, and as the tool makes them now. `DAMPER_GOLDEN=write` draws the picture anew.
#[test]
fn one_scenario() {
    let readme = fs::read_to_string(repository("README.md")).unwrap();
    let scenario = fs::read_to_string(repository("examples/job.txt")).unwrap();
    let records = records_of(&repository("examples/job.txt"));
    for text in [&scenario, &explained(&records)] {
        assert!(readme.contains(&format!("```text\n{text}```\n")), "not in the README:\n{text}");
    }
    assert!(readme.contains("(examples/job.svg)"));
    let trace = draw::proved(&mut input("records", &records)).unwrap();
    // As `damper draw job.bin -o job.svg` writes it.
    let heading = draw::caption::heading(Some("job.bin".as_ref()), None);
    as_kept(&repository("examples/job.svg"), &draw::svg::draw(&trace, &heading));
}
