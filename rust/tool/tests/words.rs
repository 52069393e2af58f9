//! `damper words` against golden files.

mod binary;

use binary::damper;
use damper::Refusal;
use std::fs;
use std::path::Path;

const GOLDEN: &str = concat!(env!("CARGO_MANIFEST_DIR"), "/tests/golden/");

fn golden(name: &str) -> String {
    fs::read_to_string(format!("{GOLDEN}{name}")).unwrap()
}

/// The bytes of records in hexadecimal digits.
fn from_hex(text: &str) -> Vec<u8> {
    let digits: Vec<u8> =
        text.chars().filter_map(|digit| digit.to_digit(16)).map(|digit| digit as u8).collect();
    digits.chunks(2).map(|pair| 16 * pair[0] + pair[1]).collect()
}

/// Every event, and records that are refused by every number.
#[test]
fn events_and_refusals() {
    let bytes = from_hex(&golden("records.hex"));
    let output = damper(&["words"], &bytes);
    assert_eq!(String::from_utf8(output.stderr).unwrap(), "");
    assert_eq!(output.status.code(), Some(0));
    let words = String::from_utf8(output.stdout).unwrap();
    assert_eq!(words, golden("records.txt"));
    assert_eq!(damper(&["bytes"], words.as_bytes()).stdout, bytes);
    // A drive that begins fresh is well formed: no 1.
    for refusal in &Refusal::ALL[1..] {
        assert!(words.contains(&format!("# refused by {}: {refusal}\n", refusal.number())), "{refusal}");
    }
}

/// The words of the scenario that `damper bytes` is tested with, as they are printed.
#[test]
fn in_the_printed_form() {
    let bytes = from_hex(&golden("scenario.hex"));
    let words = damper(&["words"], &bytes).stdout;
    assert_eq!(String::from_utf8(words).unwrap(), golden("scenario.words.txt"));
}

#[test]
fn from_and_to_files() {
    let folder = Path::new(env!("CARGO_TARGET_TMPDIR"));
    let (records, words) = (folder.join("words-records"), folder.join("words-words"));
    let (records, words) = (records.to_str().unwrap(), words.to_str().unwrap());
    fs::write(records, [0x5A, 0xC3, 2, 7, 0, 0, 0x5A]).unwrap();
    let output = damper(&["words", records, "-o", words], b"");
    assert_eq!((output.status.code(), output.stdout.as_slice()), (Some(0), &b""[..]));
    let expected = "setpoint 7\n\
                    raw 5A                          # refused by 2: the event record does not have six bytes\n";
    assert_eq!(fs::read_to_string(words).unwrap(), expected);

    // An input that cannot be read leaves the output as it was.
    let output = damper(&["words", folder.to_str().unwrap(), "-o", words], b"");
    assert_eq!(output.status.code(), Some(2));
    assert_eq!(fs::read_to_string(words).unwrap(), expected);
}

#[test]
fn no_records() {
    let output = damper(&["words"], b"");
    assert_eq!((output.status.code(), output.stdout.as_slice()), (Some(0), &b""[..]));
}
