//! Reading whole files, with room asked for first.

use crate::failure::Failure;
use std::fs::File;
use std::io::Read;
use std::path::Path;

/// An empty vector with room for so many entries.
pub fn room<T>(entries: u64, what: &str) -> Result<Vec<T>, Failure> {
    let mut all = Vec::new();
    let fits = usize::try_from(entries).is_ok_and(|entries| all.try_reserve_exact(entries).is_ok());
    fits.then_some(all).ok_or_else(|| Failure::Files(format!("no memory for {entries} {what}")))
}

pub fn zeros<T: Default + Clone>(entries: u64, what: &str) -> Result<Vec<T>, Failure> {
    let mut all = room(entries, what)?;
    all.resize(entries as usize, T::default());
    Ok(all)
}

/// A file and its length.
pub fn opened(path: &Path) -> Result<(File, u64), Failure> {
    let file = File::open(path).map_err(|cause| Failure::of_file("read", path, cause))?;
    let about = file.metadata().map_err(|cause| Failure::of_file("read", path, cause))?;
    if !about.is_file() {
        return Err(Failure::Files(format!("{}: cannot be read: expected a plain file", path.display())));
    }
    Ok((file, about.len()))
}

/// So many bytes more of a file, appended.
pub fn append(file: &mut File, path: &Path, bytes: u64, to: &mut Vec<u8>) -> Result<(), Failure> {
    let read = file.take(bytes).read_to_end(to).map_err(|cause| Failure::of_file("read", path, cause))?;
    if read as u64 == bytes {
        return Ok(());
    }
    Err(Failure::Files(format!("{}: it ended {} bytes early while it was read", path.display(), bytes - read as u64)))
}
