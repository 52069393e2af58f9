//! `damper-check` runs all comparisons of the proved drive, hall and flow box with the second implementation,
//! by fixed seeds.
//! `damper-check compare EVENTS STEPS SEED` the same by hand, with these numbers and this seed alone.
//! `damper-check bench PROGRAM` prints times, PROGRAM being the proved `drive`.
//! `damper-check spend proved|model|plain|none mixed|ticks N` replays N records once, and
//! `damper-check spend proved|model|plain|none hall|backup|all1|all8|all64|list|page|bill N` ticks N drives
//! in halls of 64, any or such as BackupValue rules, with quota 64, or such as are all due, with quota 1, 8
//! or 64, gives them events by lists, writes their shift pages, or shares bills out, for a count of
//! instructions; `damper-check spend proved|model|none flow N` gives a flow box N readings, `model` being
//! here the plain box in Rust, by value.
//! `damper-check drive` is document 01's program `drive`.
//! `damper-check gen N SEED` writes N mixed records of six bytes.

use damper_check::bench;
use damper_check::gen;
use damper_check::model::Model;
use damper_check::subject::Subject;
use damper_check::suite;
use std::io::{self, BufReader, BufWriter, Read, Write};
use std::path::Path;
use std::process::ExitCode;

const USAGE: &str = "compare EVENTS STEPS SEED | bench PROGRAM | spend WHO WHAT N | drive | gen N SEED";

fn main() -> ExitCode {
    let args: Vec<String> = std::env::args().skip(1).collect();
    let words: Vec<&str> = args.iter().map(String::as_str).collect();
    let numbers: Option<Vec<u64>> = words.iter().skip(1).map(|word| word.parse().ok()).collect();
    let passed = match (words.first(), numbers.as_deref()) {
        (None, _) => suite::gate(),
        (Some(&"compare"), Some(&[events, steps, seed])) => suite::by_hand(events, steps, seed),
        (Some(&"bench"), None) if words.len() == 2 => finished(bench::run(Path::new(words[1]))),
        (Some(&"spend"), None) if words.len() == 4 => {
            bench::spend(words[1], words[2], words[3].parse().unwrap_or(0));
            true
        }
        (Some(&"drive"), Some([])) => finished(drive()),
        (Some(&"gen"), Some(&[n, seed])) => {
            finished(io::stdout().lock().write_all(&gen::records(n as usize, seed)))
        }
        _ => {
            eprintln!("usage: damper-check [{USAGE}]");
            false
        }
    };
    if passed {
        ExitCode::SUCCESS
    } else {
        ExitCode::FAILURE
    }
}

fn finished(result: io::Result<()>) -> bool {
    result.inspect_err(|error| eprintln!("damper-check: {error}")).is_ok()
}

/// "Program `drive` reads standard input six bytes at a time, a shorter rest being refused by 2, and
/// keeps one drive from fresh."
fn drive() -> io::Result<()> {
    let mut input = BufReader::with_capacity(1 << 16, io::stdin().lock());
    let mut output = BufWriter::with_capacity(1 << 16, io::stdout().lock());
    let mut record = Model.fresh();
    for count in 1u64.. {
        let mut bytes = [0; 6];
        let filled = fill(&mut input, &mut bytes)?;
        if filled == 0 {
            break;
        }
        let (answer, after) = Model.step(&record, &bytes[..filled]);
        record = after;
        writeln!(output, "{count} {answer}")?;
    }
    output.flush()
}

/// Six bytes, or what is left of the input.
fn fill(input: &mut impl Read, bytes: &mut [u8; 6]) -> io::Result<usize> {
    let mut filled = 0;
    while filled < bytes.len() {
        match input.read(&mut bytes[filled..]) {
            Ok(0) => break,
            Ok(n) => filled += n,
            Err(error) if error.kind() == io::ErrorKind::Interrupted => {}
            Err(error) => return Err(error),
        }
    }
    Ok(filled)
}
