//! Why a run ends early, and the exit status that says so.

use std::path::Path;

pub enum Failure {
    /// The words are not understood.
    Usage(String),
    /// A file, or memory for it, is not as it must be.
    Files(String),
    /// The model refuses.
    Refused(String),
    /// The reader of standard output has closed it.
    Closed,
}

impl Failure {
    pub fn of_file(done: &str, path: &Path, cause: std::io::Error) -> Failure {
        Failure::Files(format!("{}: cannot be {done}: {cause}", path.display()))
    }

    pub fn status(&self) -> u8 {
        match self {
            Failure::Closed => 0,
            Failure::Refused(_) => 1,
            Failure::Usage(_) | Failure::Files(_) => 2,
        }
    }

    /// What is said of it; of a closed output, nothing.
    pub fn said(&self) -> Option<&str> {
        match self {
            Failure::Usage(said) | Failure::Files(said) | Failure::Refused(said) => Some(said),
            Failure::Closed => None,
        }
    }
}
