//! What `search` and `vectors` are both given: two luma planes of one size and a bitstream version.

use crate::failure::Failure;
use crate::files::{append, opened, room};
use crate::model::Reference;
use crate::names::{Named, apart};
use crate::words::Words;
use std::path::Path;

pub struct Planes {
    pub width: u32,
    pub height: u32,
    pub version: u8,
    reference: Vec<u8>,
    source: Vec<u8>,
}

/// What is made of a file with fewer bytes than the size has samples: an error, or a plane for the model to refuse.
#[derive(Clone, Copy, PartialEq)]
pub enum Fewer {
    Error,
    Left,
}

impl Planes {
    pub fn read(words: &Words, fewer: Fewer) -> Result<Planes, Failure> {
        let (width, height) = (words.number("--width", u32::MAX)?, words.number("--height", u32::MAX)?);
        let version = words.optional("--bitstream", u8::MAX)?.unwrap_or(0);
        let [reference, source] = words.files("REFERENCE.y and SOURCE.y")?;
        let inputs = [Named::input("REFERENCE.y", &reference)?, Named::input("SOURCE.y", &source)?];
        apart(&inputs.each_ref(), &[&Named::standard_output()?])?;
        let samples = u64::from(width) * u64::from(height);
        let (reference, source) = (read_plane(&reference, samples, fewer)?, read_plane(&source, samples, fewer)?);
        Ok(Planes { width, height, version, reference, source })
    }

    pub fn reference(&self) -> Reference<'_> {
        self.sized(&self.reference)
    }

    pub fn source(&self) -> Reference<'_> {
        self.sized(&self.source)
    }

    fn sized<'a>(&self, plane: &'a [u8]) -> Reference<'a> {
        Reference { plane, width: self.width as usize, height: self.height as usize }
    }
}

fn read_plane(path: &Path, samples: u64, fewer: Fewer) -> Result<Vec<u8>, Failure> {
    let (mut file, len) = opened(path)?;
    let taken = len == samples || (len < samples && fewer == Fewer::Left);
    if !taken {
        return Err(Failure::Files(format!("{}: {len} bytes, expected a plane of {samples}", path.display())));
    }
    let mut plane = room(len, "bytes of a plane")?;
    append(&mut file, path, len, &mut plane)?;
    Ok(plane)
}
