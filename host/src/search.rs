//! `vp8model search`: the motion of each macroblock of one luma plane in another.

use crate::failure::Failure;
use crate::model::{self, Place, Reference};
use crate::planes::{Fewer, Planes};
use crate::progress::Progress;
use crate::say;
use crate::words::Words;

const HEADER: &str = "col row | diamond: row col sad sads rounds | half: row col sad | quarter: row col sad";

pub fn run(words: &[String]) -> Result<(), Failure> {
    let words = Words::parse(words, &["--width", "--height", "--limit", "--bitstream"])?;
    let limit = words.optional("--limit", u32::MAX)?.unwrap_or(u32::MAX);
    let planes = Planes::read(&words, Fewer::Error)?;
    let Planes { width, height, version, .. } = planes;
    let (reference, source) = (planes.reference(), planes.source());
    // a plane without samples has one macroblock, for the model to refuse
    let (columns, rows) = (width.div_ceil(16).max(1) as usize, height.div_ceil(16).max(1) as usize);
    let mut progress = Progress::new("search", "macroblock rows", rows as u64);
    for row in 0..rows {
        let mut lines = if row == 0 { format!("{HEADER}\n") } else { String::new() };
        for col in 0..columns {
            lines += &searched(reference, source, (col, row), limit, version)?;
        }
        say::text(&lines)?;
        progress.at(row as u64 + 1);
    }
    Ok(())
}

// One line: the diamond from (0, 0), half refinement of what it found, quarter refinement of that.
fn searched(reference: Reference, source: Reference, place: Place, limit: u32, version: u8) -> Result<String, Failure> {
    let block = macroblock(source, place);
    let d = model::diamond(reference, place, &block, limit)?;
    let h = model::half(reference, place, &block, &d, version)?;
    let q = model::quarter(reference, place, &block, &h, version)?;
    let (col, row) = place;
    let diamond = format!("{} {} {} {} {}", d.row, d.col, d.sad, d.sads, d.rounds);
    Ok(format!("{col} {row} | {diamond} | {} {} {} | {} {} {}\n", h.row, h.col, h.sad, q.row, q.col, q.sad))
}

// The macroblock's samples; past the right and bottom edge, the nearest edge sample.
fn macroblock(source: Reference, (col, row): Place) -> [u8; 256] {
    let Reference { plane, width, height } = source;
    if plane.is_empty() {
        return [0; 256];
    }
    let at = |x: usize, y: usize| plane[y.min(height - 1) * width + x.min(width - 1)];
    std::array::from_fn(|i| at(col * 16 + i % 16, row * 16 + i / 16))
}
