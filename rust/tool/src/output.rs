//! Output: standard output or a file.

use crate::failure::Failure;
use crate::input::{clear_progress, FileId};
use std::ffi::OsStr;
use std::fs::{self, File};
use std::io::{self, BufWriter, Write};

/// Where text or bytes go, and its name for messages.
pub struct Output {
    target: BufWriter<Box<dyn Write>>,
    name: String,
}

impl Output {
    /// The file of that path, which is made anew, or standard output for `-` and for none. It is none of the files
    /// that are read, which it would be written over.
    pub fn open(path: Option<&OsStr>, read: &[Option<FileId>]) -> Result<Output, Failure> {
        let path = path.filter(|path| *path != "-");
        let name = path.map_or("standard output".into(), OsStr::to_string_lossy);
        let file = match path {
            None => FileId::of_stream(io::stdout()),
            Some(path) => fs::metadata(path).ok().and_then(FileId::of),
        };
        if file.is_some() && read.contains(&file) {
            let over = io::Error::other("the output would be written over the input");
            return Err(Failure::stream(&name, None, over));
        }
        let Some(path) = path else { return Ok(Output::new(&name, Standard(io::stdout().lock()))) };
        let file = File::create(path).map_err(|error| Failure::stream(&name, None, error))?;
        Ok(Output::new(&name, file))
    }

    /// Any target under a name.
    pub fn new(name: &str, target: impl Write + 'static) -> Output {
        Output { target: BufWriter::with_capacity(1 << 16, Box::new(target)), name: name.to_string() }
    }

    /// One that keeps nothing.
    pub fn none() -> Output {
        Output::new("nowhere", io::sink())
    }

    pub fn bytes(&mut self, bytes: &[u8]) -> Result<(), Failure> {
        self.target.write_all(bytes).map_err(|error| Failure::stream(&self.name, None, error))
    }

    pub fn line(&mut self, line: &str) -> Result<(), Failure> {
        self.bytes(line.as_bytes())?;
        self.bytes(b"\n")
    }

    pub fn flush(&mut self) -> Result<(), Failure> {
        self.target.flush().map_err(|error| Failure::stream(&self.name, None, error))
    }
}

/// Standard output, which takes the place of progress on a terminal.
struct Standard(io::StdoutLock<'static>);

impl Write for Standard {
    fn write(&mut self, bytes: &[u8]) -> io::Result<usize> {
        clear_progress();
        self.0.write(bytes)
    }

    fn flush(&mut self) -> io::Result<()> {
        self.0.flush()
    }
}
