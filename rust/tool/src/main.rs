//! The command `damper`.

use damper_tool::command;
use std::env;
use std::process::ExitCode;

fn main() -> ExitCode {
    command::run(env::args_os().skip(1))
}
