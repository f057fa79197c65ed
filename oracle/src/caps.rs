//! The builder with a cap for each frame. `capped_arnr` is the counted copy of arnr.rs in which a frame's weight table is
//! cut at its cap. Where every cap is 16 the unchanged file answers, and the copy must agree.

use crate::arnr::{ArnrConfig, ArnrPicture};
use crate::capped_arnr;
use crate::counts::{self, CountedPicture, noted};
use crate::encoder::{EncodeError, I420Frame};
use crate::refusals::MAX_CAP;

/// The caps are those of the frames, in their order; none exceeds 16.
pub fn build(
    frames: &[I420Frame<'_>],
    caps: &[u32],
    centre: usize,
    config: &ArnrConfig,
) -> Result<CountedPicture, EncodeError> {
    let plain = counts::build(frames, centre, config)?;
    let same = capped_arnr::ArnrConfig::default().with_strength(config.strength);
    let (picture, (sums, weights), accepted) = noted(|| capped_arnr::build_arnr_altref(frames, centre, &same, caps));
    let capped_arnr::ArnrPicture { width, height, y, u, v } = picture?;
    let capped = CountedPicture { picture: ArnrPicture { width, height, y, u, v }, sums, weights, accepted };
    assert_eq!(capped.accepted, plain.accepted, "the copy accepts other blocks");
    if caps.iter().all(|&cap| cap == MAX_CAP) {
        assert!(capped == plain, "the copy answers otherwise");
        return Ok(plain);
    }
    Ok(capped)
}

#[cfg(test)]
mod tests {
    use super::*;

    // Centre 100, one other 104, strength 1: the weight is 8. The centre's cap is not used.
    #[test]
    fn sums_of_a_flat_pair() {
        let (centre, other) = ([100; 256], [104; 256]);
        let frame = |y| I420Frame::packed(16, 16, y, &centre[..64], &centre[..64]);
        let frames = [frame(&centre), frame(&other)];
        for (cap, total, sum, sample) in
            [(16, 24, 2432, 101), (8, 24, 2432, 101), (7, 23, 2328, 101), (3, 19, 1912, 101), (0, 16, 1600, 100)]
        {
            for own in [0, 16] {
                let got = build(&frames, &[own, cap], 0, &ArnrConfig::new(1)).unwrap();
                assert_eq!((got.weights[0], got.sums[0], got.picture.y[0]), (total, sum, sample));
                // chroma is the same in both, and weighs 16
                assert_eq!((got.weights[256], got.sums[256], got.accepted), (16 + cap, 100 * (16 + cap), 1));
            }
        }
        let alone = build(&frames[..1], &[0], 0, &ArnrConfig::new(1)).unwrap();
        assert_eq!((alone.sums.len(), alone.weights.len(), alone.accepted), (0, 0, 0));
    }
}
