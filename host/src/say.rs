//! Text on the two standard streams.

use crate::failure::Failure;
use std::fs::File;
use std::io::{self, ErrorKind, Write};
use std::os::fd::AsFd;
use std::path::Path;

/// Text on standard output. A reader that has closed it has what it wanted, which ends the run.
pub fn text(text: &str) -> Result<(), Failure> {
    let mut stream = io::stdout();
    let written = stream.write_all(text.as_bytes()).and_then(|()| stream.flush());
    written.map_err(|cause| match cause.kind() {
        ErrorKind::BrokenPipe => Failure::Closed,
        _ => Failure::of_file("written", Path::new("standard output"), cause),
    })
}

/// A line on standard error. Where it cannot be written nobody reads it, and the run goes on.
pub fn note(line: &str) {
    let _ = io::stderr().write_all(format!("{line}\n").as_bytes());
}

/// Standard output as a file.
pub fn standard_output() -> io::Result<File> {
    io::stdout().as_fd().try_clone_to_owned().map(File::from)
}
