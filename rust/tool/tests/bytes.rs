//! `damper bytes` against golden files.

mod binary;

use binary::damper;
use std::fs;
use std::path::Path;

const GOLDEN: &str = concat!(env!("CARGO_MANIFEST_DIR"), "/tests/golden/");

/// The records in hexadecimal digits, one a line.
fn in_hex(bytes: &[u8]) -> String {
    bytes
        .chunks(6)
        .map(|record| record.iter().map(|byte| format!("{byte:02X}")).collect::<String>() + "\n")
        .collect()
}

fn golden(name: &str) -> String {
    fs::read_to_string(format!("{GOLDEN}{name}")).unwrap()
}

#[test]
fn every_event_and_every_way_to_write_it() {
    let output = damper(&["bytes", &format!("{GOLDEN}scenario.txt")], b"");
    assert_eq!(String::from_utf8(output.stderr).unwrap(), "");
    assert_eq!(output.status.code(), Some(0));
    assert_eq!(in_hex(&output.stdout), golden("scenario.hex"));
}

#[test]
fn line_ends() {
    let expected = in_hex(&damper(&["bytes"], b"setpoint 1\ntick 2\n").stdout);
    assert_eq!(expected, "5AC302010000\n5AC301000000\n5AC301000000\n");
    for text in [
        "setpoint 1\ntick 2",
        "setpoint 1\r\ntick 2\r\n",
        "\n\nsetpoint 1\n#\ntick 2 # end",
        "setpoint 1\n\ttick 2\t",
    ] {
        assert_eq!(in_hex(&damper(&["bytes", "-"], text.as_bytes()).stdout), expected);
    }
    assert_eq!(damper(&["bytes"], b"").stdout, b"");
}

/// Each paragraph of the file is a scenario and the message about it. Nothing is written, and no file made or
/// changed.
#[test]
fn errors() {
    let folder = Path::new(env!("CARGO_TARGET_TMPDIR"));
    let (kept, made) = (folder.join("bytes-kept"), folder.join("bytes-made"));
    let _ = fs::remove_file(&made);
    fs::write(&kept, "kept").unwrap();
    let errors = golden("errors.txt");
    for case in errors.trim_end().split("\n\n") {
        let (scenario, message) = case.rsplit_once('\n').unwrap();
        for target in [None, Some(&kept), Some(&made)] {
            let mut arguments = vec!["bytes"];
            if let Some(target) = target {
                arguments.extend(["-o", target.to_str().unwrap()]);
            }
            let output = damper(&arguments, scenario.as_bytes());
            assert_eq!(String::from_utf8(output.stderr).unwrap(), format!("{message}\n"), "{scenario}");
            assert_eq!((output.status.code(), output.stdout.as_slice()), (Some(2), &b""[..]), "{scenario}");
        }
        assert_eq!(fs::read(&kept).unwrap(), b"kept");
        assert!(!made.exists());
    }
}

#[test]
fn what_is_no_utf_8() {
    let output = damper(&["bytes"], b"tick\n# caf\xE9\n");
    let message = "damper: standard input:2:6: a character in UTF-8 is due, not the byte E9\n";
    assert_eq!(String::from_utf8(output.stderr).unwrap(), message);
    assert_eq!((output.status.code(), output.stdout.as_slice()), (Some(2), &b""[..]));
}

#[test]
fn to_a_file() {
    let file = Path::new(env!("CARGO_TARGET_TMPDIR")).join("bytes-file");
    fs::write(&file, "a file that was longer").unwrap();
    let output = damper(&["bytes", "-o", file.to_str().unwrap()], b"restart");
    assert_eq!((output.status.code(), output.stdout.as_slice()), (Some(0), &b""[..]));
    assert_eq!(in_hex(&fs::read(&file).unwrap()), "5AC309000000\n");
}

#[test]
fn two_million_ticks() {
    let bytes = damper(&["bytes"], b"tick 2000000").stdout;
    assert_eq!(bytes.len(), 12_000_000);
    assert!(bytes.chunks(6).all(|record| record == [0x5A, 0xC3, 1, 0, 0, 0]));
}
