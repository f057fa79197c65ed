//! The builder that accepts a block on all three planes. `three_planes_arnr` is the copy of arnr.rs with caps, and
//! `three_planes_half_sample_arnr` the one with half samples, each with one more test of a block before its luma is
//! accumulated: the original's own test of Y, on U and on V as they will be accumulated. With the blocks that chroma
//! excludes the copy must come to the accepted blocks of the builder with the same chroma rule that looks at luma alone,
//! and where chroma excludes none it must agree with that builder in all. Where none is accepted the centre is left.

use crate::arnr::{ArnrConfig, ArnrPicture};
use crate::counts::{CountedPicture, noted};
use crate::encoder::{EncodeError, I420Frame};
use crate::paper::denoiser::{Built, Choice, Chroma, Window};
use crate::refusals::{Frame, Part, cap, planes};
use crate::{caps, halves, three_planes_arnr, three_planes_half_sample_arnr};
use std::cell::Cell;

thread_local! {
    // the blocks whose luma passes and whose chroma does not
    static EXCLUDED: Cell<u64> = const { Cell::new(0) };
}

pub fn note_excluded() {
    EXCLUDED.set(EXCLUDED.get() + 1);
}

/// What the copy builds, and how many blocks chroma excludes whose luma passes. The caps are as for caps.rs.
pub fn build(
    frames: &[I420Frame<'_>],
    caps: &[u32],
    centre: usize,
    config: &ArnrConfig,
    chroma: Chroma,
) -> Result<(CountedPicture, u64), EncodeError> {
    let luma_alone = by_luma(frames, caps, centre, config, chroma)?;
    EXCLUDED.set(0);
    let (picture, (sums, weights), accepted) = noted(|| copy(frames, caps, centre, config, chroma));
    let three = CountedPicture { picture: picture?, sums, weights, accepted };
    let excluded = EXCLUDED.get();
    assert_eq!(three.accepted + excluded, luma_alone.accepted, "the copy looks at other blocks");
    if excluded == 0 {
        assert!(three == luma_alone, "the copy answers otherwise where chroma excludes no block");
    }
    if three.accepted == 0 {
        let ArnrPicture { y, u, v, .. } = &three.picture;
        let sums = [y, u, v].into_iter().flatten().map(|&sample| 16 * u32::from(sample));
        assert!(three.sums.is_empty() || three.sums.iter().copied().eq(sums), "the copy does not leave the centre");
        assert!(three.weights.iter().all(|&weight| weight == 16), "the copy weighs an excluded block");
    }
    Ok((three, excluded))
}

fn by_luma(
    frames: &[I420Frame<'_>],
    caps: &[u32],
    centre: usize,
    config: &ArnrConfig,
    chroma: Chroma,
) -> Result<CountedPicture, EncodeError> {
    match chroma {
        Chroma::Whole => caps::build(frames, caps, centre, config),
        Chroma::Half => halves::build(frames, caps, centre, config).map(|(built, _)| built),
    }
}

fn copy(
    frames: &[I420Frame<'_>],
    caps: &[u32],
    centre: usize,
    config: &ArnrConfig,
    chroma: Chroma,
) -> Result<ArnrPicture, EncodeError> {
    match chroma {
        Chroma::Whole => {
            let same = three_planes_arnr::ArnrConfig::default().with_strength(config.strength);
            let built = three_planes_arnr::build_arnr_altref(frames, centre, &same, caps)?;
            let three_planes_arnr::ArnrPicture { width, height, y, u, v } = built;
            Ok(ArnrPicture { width, height, y, u, v })
        }
        Chroma::Half => {
            let same = three_planes_half_sample_arnr::ArnrConfig::default().with_strength(config.strength);
            let built = three_planes_half_sample_arnr::build_arnr_altref(frames, centre, &same, caps)?;
            let three_planes_half_sample_arnr::ArnrPicture { width, height, y, u, v } = built;
            Ok(ArnrPicture { width, height, y, u, v })
        }
    }
}

/// What the originals build of an accepted window, or their copies where they lack the rule.
pub fn by_the_originals(window: &Window, config: &ArnrConfig, choice: Choice) -> Built {
    by_three(window, config, choice).0
}

/// The same with the blocks that chroma excludes whose luma passes: none where luma alone is looked at.
pub fn by_three(window: &Window, config: &ArnrConfig, choice: Choice) -> (Built, u64) {
    let (pictures, caps) = (pictures(window), caps_of(window));
    let got = if choice.three_planes {
        build(&pictures, &caps, window.centre, config, choice.chroma)
    } else {
        by_luma(&pictures, &caps, window.centre, config, choice.chroma).map(|built| (built, 0))
    };
    let (CountedPicture { picture, sums, weights, accepted }, excluded) = got.expect("an accepted window");
    (Built { output: [picture.y, picture.u, picture.v].concat(), sums, weights, accepted }, excluded)
}

pub fn caps_of(window: &Window) -> Vec<u32> {
    window.frames.iter().map(cap).collect()
}

pub fn pictures<'a>(window: &'a Window) -> Vec<I420Frame<'a>> {
    let part = |p: &Part| &window.bytes[p.start as usize..p.end() as usize];
    let picture = |f: &Frame| {
        let [y, u, v] = planes(f);
        let (y_stride, uv_stride) = (y.stride as usize, u.stride as usize);
        let [y, u, v] = [part(&y), part(&u), part(&v)];
        I420Frame { width: f[0], height: f[1], y, u, v, y_stride, uv_stride }
    };
    window.frames.iter().map(picture).collect()
}

#[cfg(test)]
mod tests {
    use super::*;

    // Two frames of 17 by 16, the first of 100; of the second U or V is another level in one of the two blocks.
    fn built(k: usize, second: bool, level: u8, chroma: Chroma) -> (u64, u64) {
        let centre = [100; 17 * 16];
        let mut other = [[100; 9 * 8]; 2];
        for i in (0..72).filter(|i| (i % 9 == 8) == second) {
            other[k][i] = level;
        }
        let frames = [
            I420Frame::packed(17, 16, &centre, &centre[..72], &centre[..72]),
            I420Frame::packed(17, 16, &centre, &other[0], &other[1]),
        ];
        let (built, excluded) = build(&frames, &[16, 16], 0, &ArnrConfig::new(6), chroma).unwrap();
        (built.accepted, excluded)
    }

    #[test]
    fn u_and_v_exclude_a_block_from_13_on() {
        for chroma in [Chroma::Whole, Chroma::Half] {
            for (k, second) in [(0, false), (0, true), (1, false), (1, true)] {
                let at = |level| built(k, second, level, chroma);
                assert_eq!([88, 112].map(at), [(2, 0); 2]);
                assert_eq!([0, 87, 113, 255].map(at), [(1, 1); 4]);
            }
        }
    }

    // 1 by 1, Y and U the same: with no block accepted sums and weights are the centre's, and the centre is no crop.
    #[test]
    fn with_no_block_accepted_the_centre_is_left() {
        let frame = |v| I420Frame::packed(1, 1, &[7], &[8], v);
        for (cap, chroma) in [(16, Chroma::Whole), (16, Chroma::Half), (0, Chroma::Whole), (0, Chroma::Half)] {
            let (got, excluded) =
                build(&[frame(&[100]), frame(&[113])], &[16, cap], 0, &ArnrConfig::new(6), chroma).unwrap();
            assert_eq!((got.sums, got.weights), (vec![112, 128, 1600], vec![16; 3]));
            assert_eq!((got.accepted, excluded), (0, 1));
            let (got, excluded) =
                build(&[frame(&[100]), frame(&[112])], &[16, cap], 0, &ArnrConfig::new(6), chroma).unwrap();
            assert_eq!((got.weights[0], got.accepted, excluded), (16 + cap, 1, 0));
        }
    }
}
