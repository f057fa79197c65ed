//! The builder whose chroma moves by half samples. `half_sample_arnr` is the copy of arnr.rs with caps in which U and V
//! of an accepted block are first replaced by what motion_comp.rs predicts, as a decoder does, and then accumulated with
//! displacement 0. In luma it must agree with the builder that moves chroma by whole samples, and in all where no
//! displacement has an odd component.

use crate::arnr::{ArnrConfig, ArnrPicture};
use crate::caps;
use crate::counts::{CountedPicture, noted};
use crate::encoder::{EncodeError, I420Frame};
use crate::half_sample_arnr;
use crate::motion_comp::{
    chroma_mv, fetch_chroma_mb_halo, fetch_chroma_mb_whole_pixel, filter_set_for_version, sixtap_mb_chroma,
    stored_luma_mv, whole_pixel_fraction_is_zero,
};
use crate::motion_vector::Mv;
#[cfg(model)]
use crate::paper::denoiser::Window;
#[cfg(model)]
use crate::three::{caps_of, pictures};
use std::cell::RefCell;

thread_local! {
    // the displacements of the accepted blocks, columns and rows
    static SHIFTS: RefCell<Vec<(i32, i32)>> = const { RefCell::new(Vec::new()) };
}

pub fn note_shift(shift: (i32, i32)) {
    SHIFTS.with_borrow_mut(|shifts| shifts.push(shift));
}

/// The plane, packed, with a block of it, as far as that lies in the plane, replaced by the prediction at a
/// displacement of luma. Where the stride is below the width rows share bytes, and the replaced samples could not stand
/// in the plane itself.
pub fn with_block_moved(
    (plane, stride): (&[u8], usize),
    (width, height): (usize, usize),
    (x, y): (usize, usize),
    shift: (i32, i32),
) -> Vec<u8> {
    let block = predicted((plane, stride), (width, height), (x, y), shift);
    let mut packed: Vec<u8> = (0..height).flat_map(|r| &plane[r * stride..r * stride + width]).copied().collect();
    for (r, c) in (0..64).map(|i| (i / 8, i % 8)).filter(|(r, c)| y + r < height && x + c < width) {
        packed[(y + r) * width + x + c] = block[r * 8 + c];
    }
    packed
}

// The 8 by 8 samples of a macroblock's chroma, whose luma vector is the displacement in quarters, by the functions of
// motion_comp.rs: copied, or filtered where the chroma vector has a fraction.
fn predicted(
    (plane, stride): (&[u8], usize),
    (width, height): (usize, usize),
    (x, y): (usize, usize),
    (dx, dy): (i32, i32),
) -> [u8; 64] {
    let luma = Mv { row: 4 * dy as i16, col: 4 * dx as i16 };
    let mv = chroma_mv(stored_luma_mv(luma));
    if whole_pixel_fraction_is_zero(mv) {
        return fetch_chroma_mb_whole_pixel(plane, stride, width, height, x, y, mv);
    }
    let halo = fetch_chroma_mb_halo(plane, stride, width, height, x, y, mv);
    let [mx, my] = [mv.col, mv.row].map(|component| (component & 7) as usize);
    sixtap_mb_chroma(&halo, mx, my, filter_set_for_version(0).taps())
}

/// What the copy builds, and the displacements of the accepted blocks. The caps are as for caps.rs.
pub fn build(
    frames: &[I420Frame<'_>],
    caps: &[u32],
    centre: usize,
    config: &ArnrConfig,
) -> Result<(CountedPicture, Vec<(i32, i32)>), EncodeError> {
    let whole = caps::build(frames, caps, centre, config)?;
    let same = half_sample_arnr::ArnrConfig::default().with_strength(config.strength);
    SHIFTS.take();
    let (picture, (sums, weights), accepted) =
        noted(|| half_sample_arnr::build_arnr_altref(frames, centre, &same, caps));
    let half_sample_arnr::ArnrPicture { width, height, y, u, v } = picture?;
    let shifts = SHIFTS.take();
    let half = CountedPicture { picture: ArnrPicture { width, height, y, u, v }, sums, weights, accepted };
    assert_eq!((half.accepted, shifts.len() as u64), (whole.accepted, whole.accepted), "the copy accepts other blocks");
    assert!(luma(&half) == luma(&whole), "the copy answers otherwise in luma");
    if !shifts.iter().any(is_odd) {
        assert!(half == whole, "the copy answers otherwise where every displacement is even");
    }
    Ok((half, shifts))
}

// Samples, sums and total weights; the latter two are empty where the centre is only cropped.
fn luma(counted: &CountedPicture) -> (&[u8], &[u32], &[u32]) {
    let samples = counted.picture.y.len();
    let first = |entries: &[u32]| samples.min(entries.len());
    let CountedPicture { sums, weights, .. } = counted;
    (&counted.picture.y, &sums[..first(sums)], &weights[..first(weights)])
}

/// The displacements of an accepted window's accepted blocks. For the comparison and the benchmark only.
#[cfg(model)]
pub fn shifts(window: &Window) -> Vec<(i32, i32)> {
    let config = ArnrConfig::default().with_strength(window.strength);
    build(&pictures(window), &caps_of(window), window.centre, &config).expect("an accepted window").1
}

/// Whether a component is odd, so that chroma is filtered.
pub fn is_odd((dx, dy): &(i32, i32)) -> bool {
    dx % 2 != 0 || dy % 2 != 0
}

#[cfg(test)]
mod tests {
    use super::*;

    // 255 at (2, 2) and (3, 2) of 8 by 8, else 0, at the place (2, 2) of the block: request 6 by hand.
    #[test]
    fn predicted_samples() {
        let plane: Vec<u8> = (0..64).map(|i| if i == 18 || i == 19 { 255 } else { 0 }).collect();
        let at = |shift| predicted((&plane, 8), (8, 8), (0, 0), shift)[18];
        for (shift, sample) in [((0, 0), 255), ((1, 0), 255), ((0, 1), 153), ((1, 1), 153), ((-1, 0), 122), ((4, 0), 0)]
        {
            assert_eq!(at(shift), sample, "{shift:?}");
        }
    }

    // 10 by 9, a slope to the right; the second block has two columns, the one below it one row.
    #[test]
    fn a_cut_block_is_moved_in_the_plane_alone() {
        let row: Vec<u8> = (0..10).map(|c| 10 * c).collect();
        let moved = |place, shift| with_block_moved((&row, 0), (10, 9), place, shift);
        let got = moved((8, 8), (-4, 0));
        assert_eq!(got[..80], row.repeat(8));
        assert_eq!(got[80..], [0, 10, 20, 30, 40, 50, 60, 70, 60, 70]);
        // halfway between 80 and 90, and beyond 90, which is repeated
        assert_eq!(moved((8, 0), (1, 0))[8..10], [86, 91]);
        assert_eq!(moved((0, 8), (2, 15))[80..], [10, 20, 30, 40, 50, 60, 70, 80, 80, 90]);
    }
}
