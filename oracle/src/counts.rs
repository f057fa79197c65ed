//! Counts beneath the diamond and the builder: `counted_motion_search` is motion_search.rs with calls of
//! `note_sad` and `note_round` put in, `counted_arnr` is arnr.rs with calls of `note_block` and `note_plane`, which
//! `capped_arnr` has too (see caps.rs). The unchanged file answers; the counted copy must agree with it before its counts
//! are taken.

use crate::arnr::{ArnrConfig, ArnrPicture, build_arnr_altref};
use crate::counted_arnr;
use crate::counted_motion_search as counted;
use crate::encoder::{EncodeError, I420Frame};
use crate::motion_search::{LumaRef, SearchResult, small_diamond_search_luma};
use crate::motion_vector::Mv;
use std::cell::{Cell, RefCell};

thread_local! {
    static SADS: Cell<u64> = const { Cell::new(0) };
    static ROUNDS: Cell<u64> = const { Cell::new(0) };
    static BLOCKS: Cell<u64> = const { Cell::new(0) };
    // the sums and the total weights, plane after plane
    static PLANES: RefCell<(Vec<u32>, Vec<u32>)> = const { RefCell::new((Vec::new(), Vec::new())) };
}

pub fn note_sad() {
    SADS.set(SADS.get() + 1);
}

pub fn note_round() {
    ROUNDS.set(ROUNDS.get() + 1);
}

pub fn note_block() {
    BLOCKS.set(BLOCKS.get() + 1);
}

pub fn note_plane(acc: &[u32], wsum: &[u32]) {
    PLANES.with_borrow_mut(|(sums, weights)| {
        sums.extend(acc);
        weights.extend(wsum);
    });
}

/// What a copy of the builder gives, with the sums and the total weights that it kept and the blocks that it counted.
pub fn noted<T>(copy: impl FnOnce() -> T) -> (T, (Vec<u32>, Vec<u32>), u64) {
    BLOCKS.set(0);
    PLANES.take();
    (copy(), PLANES.take(), BLOCKS.get())
}

/// The builder's picture with its sums, its total weights, both empty where the centre is only cropped,
/// and the blocks accepted.
#[derive(PartialEq, Eq)]
pub struct CountedPicture {
    pub picture: ArnrPicture,
    pub sums: Vec<u32>,
    pub weights: Vec<u32>,
    pub accepted: u64,
}

pub fn build(frames: &[I420Frame<'_>], centre: usize, config: &ArnrConfig) -> Result<CountedPicture, EncodeError> {
    let picture = build_arnr_altref(frames, centre, config)?;
    let same = counted_arnr::ArnrConfig::default().with_strength(config.strength);
    let (again, (sums, weights), accepted) = noted(|| counted_arnr::build_arnr_altref(frames, centre, &same));
    let again = again?;
    let planes = |w, h, y: &[u8], u: &[u8], v: &[u8]| (w, h, [y, u, v].concat());
    assert_eq!(
        planes(picture.width, picture.height, &picture.y, &picture.u, &picture.v),
        planes(again.width, again.height, &again.y, &again.u, &again.v),
        "the counted copy answers otherwise"
    );
    Ok(CountedPicture { picture, sums, weights, accepted })
}

/// The diamond's answer with the SADs computed and the rounds made.
pub struct CountedDiamond {
    pub answer: SearchResult,
    pub sads: u64,
    pub rounds: u64,
}

pub fn diamond(
    reference: LumaRef<'_>,
    mb_col: usize,
    mb_row: usize,
    src_y: &[u8; 256],
    center: Mv,
    limit: u32,
) -> CountedDiamond {
    let answer = small_diamond_search_luma(reference, mb_col, mb_row, src_y, center, limit);
    SADS.set(0);
    ROUNDS.set(0);
    let LumaRef { plane, stride, width, height } = reference;
    let same = counted::LumaRef { plane, stride, width, height };
    let again = counted::small_diamond_search_luma(same, mb_col, mb_row, src_y, center, limit);
    assert_eq!((answer.mv, answer.sad), (again.mv, again.sad), "the counted copy answers otherwise");
    CountedDiamond { answer, sads: SADS.get(), rounds: ROUNDS.get() }
}

#[cfg(test)]
mod tests {
    use super::*;

    // Centre 100, one other 104, strength 1: document 01's own values.
    #[test]
    fn sums_of_a_flat_pair() {
        let (centre, other) = ([100; 256], [104; 256]);
        let frame = |y| I420Frame::packed(16, 16, y, &centre[..64], &centre[..64]);
        let config = ArnrConfig::new(1);
        let got = build(&[frame(&centre), frame(&other)], 0, &config).unwrap();
        assert_eq!((got.sums[0], got.weights[0], got.picture.y[0], got.accepted), (2432, 24, 101, 1));
        let alone = build(&[frame(&centre)], 0, &config).unwrap();
        assert_eq!((alone.sums.len(), alone.weights.len(), alone.accepted), (0, 0, 0));
    }

    // A slope to the right: the diamond walks to the sample it came from, one column a round.
    #[test]
    fn counts_of_a_short_walk() {
        let plane: Vec<u8> = (0..64 * 16).map(|i| (i % 64) as u8 * 3).collect();
        let reference = LumaRef { plane: &plane, stride: 64, width: 64, height: 16 };
        let src: [u8; 256] = std::array::from_fn(|i| (i % 16 + 5) as u8 * 3);
        let none = diamond(reference, 0, 0, &src, Mv::default(), 0);
        assert_eq!((none.answer.mv, none.sads, none.rounds), (Mv::default(), 1, 0));
        let all = diamond(reference, 0, 0, &src, Mv::default(), u32::MAX);
        assert_eq!((all.answer.mv, all.answer.sad), (Mv { row: 0, col: 20 }, 0));
        assert_eq!((all.sads, all.rounds), (1 + 4 * 6, 6));
    }
}
