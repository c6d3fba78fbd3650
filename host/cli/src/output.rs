//! What is written, and what becomes of a write that fails.

use crate::trouble::{End, Trouble};
use std::fmt::Display;
use std::fs::File;
use std::io::{self, BufWriter, ErrorKind, Write};
use std::os::fd::AsFd;

/// Standard output. Every failure to write it is told.
#[derive(Debug)]
pub struct Out {
    to: BufWriter<File>,
}

impl Out {
    /// The standard output that the program was started with.
    pub fn standard() -> Result<Out, End> {
        let own = io::stdout().as_fd().try_clone_to_owned().map_err(failed)?;
        Ok(Out {
            to: BufWriter::new(File::from(own)),
        })
    }

    /// Writes a text as it is.
    pub fn text(&mut self, text: &str) -> Result<(), End> {
        self.bytes(text.as_bytes())
    }

    /// Writes a line.
    pub fn line(&mut self, line: impl Display) -> Result<(), End> {
        writeln!(self.to, "{line}").map_err(failed)
    }

    /// Writes bytes as they are.
    pub fn bytes(&mut self, bytes: &[u8]) -> Result<(), End> {
        self.to.write_all(bytes).map_err(failed)
    }

    /// Sees to it that all of it is written.
    pub fn flush(&mut self) -> Result<(), End> {
        self.to.flush().map_err(failed)
    }
}

fn failed(error: io::Error) -> End {
    match error.kind() {
        ErrorKind::BrokenPipe => End::ClosedPipe,
        _ => Trouble::new(format!("standard output could not be written: {error}")).into(),
    }
}

/// Tells of trouble on standard error. Where that fails too there is nobody left to tell.
pub fn complain(trouble: &Trouble) {
    let _ = writeln!(io::stderr(), "gongcollar: {trouble}");
}

/// Tells what is probably not meant.
pub fn warn(warning: impl Display) {
    let _ = writeln!(io::stderr(), "gongcollar: warning: {warning}");
}
