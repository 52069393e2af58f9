//! The command line.

use crate::failure::Failure;
use crate::input::Input;
use crate::nearest::nearest;
use crate::output::Output;
use crate::{audit, draw, explain, scenario, words};
use std::ffi::OsString;
use std::io::{self, Write};
use std::process::ExitCode;

/// A command: its name, its help, and what it does with the arguments behind its name. It gives whether all was
/// well: status 0, or otherwise 1.
pub struct Command {
    pub name: &'static str,
    /// One line for the list of commands.
    pub short: &'static str,
    /// All that `--help` says.
    pub help: &'static str,
    pub run: fn(Arguments) -> Result<bool, Failure>,
}

/// Every command, in the order of the help.
pub const COMMANDS: [Command; 5] =
    [scenario::COMMAND, words::COMMAND, explain::COMMAND, draw::COMMAND, audit::COMMAND];

/// The arguments behind a command's name: options first taken out, then what is left by its place.
pub struct Arguments {
    command: &'static str,
    left: Vec<OsString>,
}

impl Arguments {
    /// Whether a flag is among them, which it then is no longer.
    pub fn flag(&mut self, names: &[&str]) -> bool {
        let before = self.options().len();
        let mut at = 0;
        self.left.retain(|word| {
            at += 1;
            at > before || !names.iter().any(|name| word == name)
        });
        self.options().len() < before
    }

    /// The word behind an option, both of which are then taken out.
    pub fn value(&mut self, names: &[&str]) -> Result<Option<OsString>, Failure> {
        let Some(at) = self.options().iter().position(|word| names.iter().any(|name| word == name)) else {
            return Ok(None);
        };
        let option = self.left.remove(at);
        if at == self.left.len() {
            return Err(self.usage(format!("`{}` wants a word behind it", option.to_string_lossy())));
        }
        let value = self.left.remove(at);
        if self.options().contains(&option) {
            return Err(self.usage(format!("`{}` is given twice", option.to_string_lossy())));
        }
        Ok(Some(value))
    }

    /// What is left, at most `most` words, of which none looks like an option.
    pub fn places(mut self, most: usize) -> Result<Vec<OsString>, Failure> {
        let options = self.options().len();
        if let Some(word) = self.left[..options].iter().find(|word| is_option(word)) {
            return Err(self.usage(format!("`{}` is no option here", word.to_string_lossy())));
        }
        if options < self.left.len() {
            self.left.remove(options); // the `--` itself
        }
        if let Some(word) = self.left.get(most) {
            return Err(self.usage(format!("`{}` is one word too many", word.to_string_lossy())));
        }
        Ok(self.left)
    }

    /// What a command reads, at most `most` files, and where it writes by `-o`.
    pub fn from_and_to(mut self, most: usize) -> Result<(Vec<OsString>, Option<OsString>), Failure> {
        let to = self.value(&["-o"])?;
        Ok((self.places(most)?, to))
    }

    /// Carries out a command `NAME [RECORDS] [-o FILE]`, which writes what `tell` makes of the records.
    pub fn tell_records(
        self,
        tell: fn(&mut Input, &mut Output) -> Result<(), Failure>,
    ) -> Result<bool, Failure> {
        let (from, to) = self.from_and_to(1)?;
        let mut input = Input::open(from.first())?;
        input.begin()?;
        let mut output = Output::open(to.as_deref(), &[input.file()])?;
        tell(&mut input, &mut output)?;
        input.hint();
        Ok(true)
    }

    pub fn usage(&self, text: impl Into<String>) -> Failure {
        Failure::Usage { text: text.into(), command: Some(self.command) }
    }

    /// The words up to `--`, behind which nothing is an option.
    fn options(&self) -> &[OsString] {
        let end = self.left.iter().position(|word| word == "--").unwrap_or(self.left.len());
        &self.left[..end]
    }
}

/// A single `-` is a file.
fn is_option(word: &OsString) -> bool {
    let bytes = word.as_encoded_bytes();
    bytes.len() > 1 && bytes[0] == b'-'
}

/// The arguments behind the program's name. Status 0 if all was well, 1 if something was found, 2 if the command
/// could not be carried out.
pub fn run(arguments: impl Iterator<Item = OsString>) -> ExitCode {
    match carry_out(arguments.collect()) {
        Ok(true) => ExitCode::SUCCESS,
        Ok(false) => ExitCode::FAILURE,
        // Nobody reads any more, so nothing is left to say.
        Err(Failure::Closed) => ExitCode::SUCCESS,
        Err(failure) => {
            let _ = writeln!(io::stderr(), "damper: {failure}");
            ExitCode::from(2)
        }
    }
}

fn carry_out(mut words: Vec<OsString>) -> Result<bool, Failure> {
    let usage = |text: String| Failure::Usage { text, command: None };
    if words.is_empty() {
        return Err(usage("a command is missing".to_string()));
    }
    let first = words.remove(0);
    let first = first.to_string_lossy();
    match first.as_ref() {
        "help" if !words.is_empty() => {
            let command = words.remove(0);
            words.insert(0, "--help".into());
            words.insert(0, command);
            return carry_out(words);
        }
        "--help" | "-h" | "help" => return print(&overview()),
        "--version" | "-V" => return print(concat!("damper ", env!("CARGO_PKG_VERSION"), "\n")),
        _ => {}
    }
    let Some(command) = COMMANDS.iter().find(|command| command.name == first) else {
        let names = COMMANDS.each_ref().map(|command| command.name);
        return Err(usage(match nearest(&first, &names) {
            Some(name) => format!("`{first}` is no command; did you mean `{name}`?"),
            None => format!("`{first}` is no command; there are {}", names.join(", ")),
        }));
    };
    let mut arguments = Arguments { command: command.name, left: words };
    if arguments.flag(&["--help", "-h"]) {
        return print(command.help);
    }
    (command.run)(arguments)
}

fn overview() -> String {
    let mut text = String::from(
        "damper: event records of the damper drive in words, and its log explained, drawn and audited\n\n\
         usage: damper COMMAND ..\n\n",
    );
    for Command { name, short, .. } in &COMMANDS {
        text += &format!("    {name:8} {short}\n");
    }
    text += "\n`damper COMMAND --help` tells how; `damper --version` which. Status 0: all well; 1: the audit found\n\
             something; 2: not carried out.\n";
    text
}

fn print(text: &str) -> Result<bool, Failure> {
    let written = io::stdout().lock().write_all(text.as_bytes());
    written.map_err(|error| Failure::stream("standard output", None, error))?;
    Ok(true)
}
