//! Writes outputs, whole or not at all: each plain file to a new one in its folder first, and all of these to their
//! names when the last is whole. Standard output, a device or a pipe is written as it stands.

use crate::failure::Failure;
use crate::names::{Named, Place};
use crate::say::standard_output;
use std::fs::{File, Metadata, OpenOptions};
use std::io::{self, BufWriter, ErrorKind, Write};
use std::path::{Path, PathBuf};

/// What an output gets.
#[derive(Clone, Copy)]
pub enum Content<'a> {
    Bytes(&'a [u8]),
    /// Numbers of 32 bits, least byte first.
    Numbers(&'a [u32]),
}

impl Content<'_> {
    fn write(self, file: &File) -> io::Result<()> {
        let mut file = BufWriter::new(file);
        match self {
            Content::Bytes(bytes) => file.write_all(bytes)?,
            Content::Numbers(numbers) => {
                numbers.iter().try_for_each(|number| file.write_all(&number.to_le_bytes()))?;
            }
        }
        file.flush()
    }
}

/// Writes them all. Where one cannot be written, every plain file stays as it was; where one cannot be renamed, those
/// before it are new.
pub fn write(outputs: &[(&Named, Content)]) -> Result<(), Failure> {
    let mut parts = Vec::new();
    for (named, content) in outputs {
        parts.extend(done(named, part(named, *content))?.map(|part| (named, part)));
    }
    for (named, content) in outputs {
        done(named, write_directly(named, *content))?;
    }
    for (named, part) in parts {
        done(named, part.rename())?;
    }
    Ok(())
}

fn done<T>(named: &Named, result: io::Result<T>) -> Result<T, Failure> {
    result.map_err(|cause| Failure::of_file("written", &named.name, cause))
}

fn part(named: &Named, content: Content) -> io::Result<Option<Part>> {
    match &named.place {
        Place::Plain(about) => Part::new(&named.name.canonicalize()?, Some(about), content).map(Some),
        Place::Free(path, _) => Part::new(path, None, content).map(Some),
        Place::Standard(_) | Place::Other(_) => Ok(None),
    }
}

// A reader that closes a pipe has what it wanted.
fn write_directly(named: &Named, content: Content) -> io::Result<()> {
    let file = match &named.place {
        Place::Standard(_) => standard_output(),
        Place::Other(_) => OpenOptions::new().write(true).open(&named.name),
        Place::Plain(_) | Place::Free(..) => return Ok(()),
    };
    match file.and_then(|file| content.write(&file)) {
        Err(cause) if cause.kind() == ErrorKind::BrokenPipe => Ok(()),
        other => other,
    }
}

// A whole file that waits for its name. Where it never gets it, the file is removed.
struct Part {
    path: PathBuf,
    to: PathBuf,
    renamed: bool,
}

impl Part {
    // A file that is replaced hands on its permission bits.
    fn new(to: &Path, replaced: Option<&Metadata>, content: Content) -> io::Result<Part> {
        let (path, file) = created_beside(to)?;
        let part = Part { path, to: to.to_path_buf(), renamed: false };
        if let Some(replaced) = replaced {
            file.set_permissions(replaced.permissions())?;
        }
        content.write(&file)?;
        file.sync_all()?;
        Ok(part)
    }

    fn rename(mut self) -> io::Result<()> {
        std::fs::rename(&self.path, &self.to)?;
        self.renamed = true;
        Ok(())
    }
}

impl Drop for Part {
    fn drop(&mut self) {
        if !self.renamed {
            let _ = std::fs::remove_file(&self.path);
        }
    }
}

// A new file in the folder, under a name that no file there has.
fn created_beside(to: &Path) -> io::Result<(PathBuf, File)> {
    let mut n = 0u64;
    loop {
        let path = to.with_file_name(format!(".vp8model-{}-{n}.part", std::process::id()));
        match File::create_new(&path) {
            Err(cause) if cause.kind() == ErrorKind::AlreadyExists => n += 1,
            created => return Ok((path, created?)),
        }
    }
}
