//! `vp8model vectors`: the last vectors of all macroblocks of one luma plane in another, by one call.

use crate::failure::Failure;
use crate::files::zeros;
use crate::model::{self, Lists};
use crate::planes::{Fewer, Planes};
use crate::say::{self, note};
use crate::words::Words;

const HEADER: &str = "col row | row col sad";

/// What bounds the search.
#[derive(Clone, Copy)]
enum Bound {
    /// So many rounds in each macroblock.
    Limit(u32),
    /// So many comparisons for all of them.
    Allowance(u32),
}

pub fn run(words: &[String]) -> Result<(), Failure> {
    let words = Words::parse(words, &["--width", "--height", "--limit", "--allowance", "--bitstream"])?;
    let bound = bound_of(&words)?;
    let planes = Planes::read(&words, Fewer::Left)?;
    let Planes { width, height, .. } = planes;
    let legal = (1..=16383).contains(&width) && (1..=16383).contains(&height);
    let count = if legal { u64::from(width.div_ceil(16) * height.div_ceil(16)) } else { 0 };
    let mut lists = Lists {
        rows: zeros(count, "rows of vectors")?,
        cols: zeros(count, "columns of vectors")?,
        sads: zeros(count, "SADs")?,
    };
    match bound {
        Bound::Limit(limit) => note(&format!("vectors: {count} macroblocks, at most {limit} rounds in each")),
        Bound::Allowance(most) => note(&format!("vectors: {count} macroblocks, at most {most} comparisons for all")),
    }
    let (searched, last) = searched(&planes, bound, &mut lists)?;
    let columns = width.div_ceil(16) as usize;
    for row in 0..searched as usize / columns {
        let mut lines = if row == 0 { format!("{HEADER}\n") } else { String::new() };
        for col in 0..columns {
            let i = row * columns + col;
            lines += &format!("{col} {row} | {} {} {}\n", lists.rows[i], lists.cols[i], lists.sads[i]);
        }
        say::text(&lines)?;
    }
    say::text(&last)
}

fn bound_of(words: &Words) -> Result<Bound, Failure> {
    match (words.optional("--limit", u32::MAX)?, words.optional("--allowance", u32::MAX)?) {
        (Some(_), Some(_)) => Err(Failure::Usage("--limit and --allowance are both given".to_string())),
        (None, Some(allowance)) => Ok(Bound::Allowance(allowance)),
        (limit, None) => Ok(Bound::Limit(limit.unwrap_or(u32::MAX))),
    }
}

// The number of macroblocks, and the line that follows theirs, which an allowance has.
fn searched(planes: &Planes, bound: Bound, lists: &mut Lists) -> Result<(u32, String), Failure> {
    let (reference, source, version) = (planes.reference(), planes.source().plane, planes.version);
    match bound {
        Bound::Limit(limit) => {
            let macroblocks = model::picture(reference, source, limit, version, lists)?;
            Ok((macroblocks, String::new()))
        }
        Bound::Allowance(allowance) => {
            let made = model::picture_within(reference, source, allowance, version, lists)?;
            Ok((made.macroblocks, format!("comparisons {} of {allowance}\n", made.comparisons)))
        }
    }
}
