//! Which file a name stands for, and that each output is a file of its own.
//!
//! Links are followed. Two names stand for one file where both exist with one device and inode, or where neither exists
//! and a file made at each would get one name in one folder. A character device, as /dev/null, keeps nothing that could
//! be lost: it may be given for several outputs and gets them one after the other.

use crate::failure::Failure;
use crate::say::standard_output;
use std::ffi::OsStr;
use std::fs::{Metadata, OpenOptions};
use std::io::{self, ErrorKind};
use std::os::unix::fs::{FileTypeExt, MetadataExt};
use std::path::{Path, PathBuf};

/// What a name stands for, and what is known of it.
pub enum Place {
    /// A plain file.
    Plain(Metadata),
    /// No file yet: the path without links of the one that would be made, and what is known of its folder.
    Free(PathBuf, Metadata),
    /// What standard output goes to.
    Standard(Metadata),
    /// A device, a pipe or a folder.
    Other(Metadata),
}

impl Place {
    fn of(name: &Path) -> io::Result<Place> {
        match name.metadata() {
            Ok(about) if is_standard_output(&about) => Ok(Place::Standard(about)),
            Ok(about) if about.is_file() => Ok(Place::Plain(about)),
            Ok(about) => Ok(Place::Other(about)),
            Err(cause) if cause.kind() == ErrorKind::NotFound => Place::free(name, cause),
            Err(cause) => Err(cause),
        }
    }

    // Where a link leads to nothing, the place is the one that it leads to.
    fn free(name: &Path, cause: io::Error) -> io::Result<Place> {
        let last = last_part(name).ok_or(cause)?;
        let folder = name.parent().filter(|folder| *folder != Path::new("")).unwrap_or(Path::new("."));
        let folder = folder.canonicalize()?;
        let path = folder.join(last);
        match path.read_link() {
            Ok(target) => Place::of(&folder.join(target)),
            Err(_) => Ok(Place::Free(path, folder.metadata()?)),
        }
    }

    // Equal exactly where two names stand for one file; none for a character device, which is never compared.
    fn identity(&self) -> Option<(u64, u64, Option<&OsStr>)> {
        match self {
            Place::Free(path, folder) => Some((folder.dev(), folder.ino(), path.file_name())),
            Place::Plain(about) | Place::Standard(about) | Place::Other(about) => {
                (!about.file_type().is_char_device()).then(|| (about.dev(), about.ino(), None))
            }
        }
    }
}

fn is_standard_output(about: &Metadata) -> bool {
    let it = standard_output().and_then(|stream| stream.metadata());
    it.is_ok_and(|it| (it.dev(), it.ino()) == (about.dev(), about.ino()))
}

// The name's last part; a name that ends in a slash, in "." or in ".." is a folder's and has none.
fn last_part(name: &Path) -> Option<&OsStr> {
    let bytes = name.as_os_str().as_encoded_bytes();
    let folder = bytes.ends_with(b"/") || bytes.ends_with(b"/.");
    name.file_name().filter(|_| !folder)
}

/// A file that the words name, and what it is given as.
pub struct Named {
    role: &'static str,
    pub name: PathBuf,
    pub place: Place,
}

impl Named {
    pub fn input(role: &'static str, name: &Path) -> Result<Named, Failure> {
        let place = Place::of(name).map_err(|cause| Failure::of_file("read", name, cause))?;
        Ok(Named { role, name: name.to_path_buf(), place })
    }

    /// A file or a folder that stands there and may not be written is an error now, and not when all is done.
    pub fn output(role: &'static str, name: &Path) -> Result<Named, Failure> {
        let unwritten = |cause| Failure::of_file("written", name, cause);
        let place = Place::of(name).map_err(unwritten)?;
        if matches!(place, Place::Plain(_)) || name.is_dir() {
            OpenOptions::new().write(true).open(name).map_err(unwritten)?;
        }
        Ok(Named { role, name: name.to_path_buf(), place })
    }

    pub fn standard_output() -> Result<Named, Failure> {
        let name = PathBuf::from("standard output");
        let about = standard_output().and_then(|stream| stream.metadata());
        let about = about.map_err(|cause| Failure::of_file("written", &name, cause))?;
        Ok(Named { role: "the output", name, place: Place::Standard(about) })
    }
}

/// No output stands for an input or for another output.
pub fn apart(inputs: &[&Named], outputs: &[&Named]) -> Result<(), Failure> {
    for (i, output) in outputs.iter().enumerate() {
        let one = |other: &&&Named| output.place.identity().is_some_and(|it| other.place.identity() == Some(it));
        if let Some(other) = inputs.iter().chain(&outputs[..i]).find(one) {
            let [first, second] = [other, output].map(|named| format!("{} ({})", named.name.display(), named.role));
            let said = format!("{first} and {second} are one file: each output must be a file of its own");
            return Err(Failure::Files(said));
        }
    }
    Ok(())
}
