//! Windows that are accepted, at caps from 0 to 16.

use super::pictures::{capped, flat, noise, texture};
use super::windows::{STRENGTHS, picture};
use super::{CAPS, Case, Frame, Writer};
use crate::random::Random;

/// About both ends, and about half.
const LEVELS: [u32; 7] = [0, 1, 7, 8, 9, 15, 16];

pub fn add(writer: &mut Writer) {
    add_levels(writer);
    add_values(writer);
    add_mixed(writer);
    add_repeated(writer);
    add_zeros(writer);
    add_centre(writer);
    add_cropped(writer);
    add_excluded(writer);
    add_many_frames(writer);
}

// Luma of a texture, so that blocks are accepted; U of noise of few levels and V of noise of all, so that there are
// differences of every size.
fn varied(size: (u32, u32), g: usize, cap: u32) -> Frame {
    let luma = texture(size, (g as i32 % 3, g as i32 % 2), g % 2 == 1);
    let (few, all) = (noise(size, 2 * g + 1), noise(size, 2 * g));
    [size.0, size.1, luma[2], few[2], all[2], luma[5], few[6], cap]
}

// Three frames, the two others with one cap.
fn three(centre: usize, cap: u32) -> Vec<Frame> {
    (0..3).map(|g| varied((18, 10), g, if g == centre { 16 } else { cap })).collect()
}

// Every cap at every strength.
fn add_levels(writer: &mut Writer) {
    for (i, strength) in STRENGTHS.into_iter().enumerate() {
        for (k, cap) in LEVELS.into_iter().enumerate() {
            let centre = (i + k) % 3;
            let case = Case::new(CAPS, &three(centre, cap), centre as u64, strength);
            writer.put(&Case { made: k as u64 % 2, ..case.longer([k % 2, i % 3, k % 4]) });
        }
    }
}

// Centre 100, one other 104, strength 1: the weight is 8.
fn add_values(writer: &mut Writer) {
    for cap in [16, 8, 7, 3, 0] {
        writer.put(&Case::new(CAPS, &[flat((2, 2), 0, 0), capped(flat((2, 2), 1, 1), cap)], 0, 1));
    }
}

// Each frame with a cap of its own, over all contents.
fn add_mixed(writer: &mut Writer) {
    let mut random = Random::new(23);
    let sizes = [(16, 16), (17, 9), (1, 1), (33, 7), (15, 20), (2, 31)];
    for i in 0..60 {
        let size = sizes[i % 6];
        let count = 2 + i % 7;
        let mut mixed = |frame: Frame| {
            let level = LEVELS[random.below(7) as usize];
            capped(frame, if random.below(2) == 0 { level } else { random.below(17) as u32 })
        };
        let of = |g: usize| match i / 6 % 5 {
            0 | 1 => varied(size, g, 16),
            2 => picture(size, 0, i + 2 * g),
            3 => picture(size, 1 + i % 5, i + 3 * g),
            _ => picture(size, (i + g / 2) % 6, i + 4 * g),
        };
        let frames: Vec<Frame> = (0..count).map(|g| mixed(of(g))).collect();
        let case = Case::new(CAPS, &frames, (i * 5 % count) as u64, STRENGTHS[(i + i / 8) % 8]);
        writer.put(&Case { made: i as u64 % 2, ..case.longer([i % 3, i % 4, 2]) });
    }
}

// A frame again with another cap, the centre's own among them: each is another frame.
fn add_repeated(writer: &mut Writer) {
    let (centre, other) = (varied((17, 6), 0, 16), varied((17, 6), 1, 16));
    for strength in 1..=6 {
        let windows = [
            vec![centre, capped(other, 3), capped(other, 9), other],
            vec![other, capped(other, 1), centre, capped(other, 1)],
            vec![centre, capped(centre, 5), capped(centre, 0)],
            vec![capped(centre, 7), capped(centre, 15)],
        ];
        for frames in windows {
            let place = frames.iter().position(|frame| frame[..7] == centre[..7]).expect("the centre");
            writer.put(&Case::new(CAPS, &frames, place as u64, strength));
        }
    }
}

// Every cap 0: sums of 16 times the centre, and the centre comes out; blocks are accepted all the same.
fn add_zeros(writer: &mut Writer) {
    for (i, strength) in STRENGTHS.into_iter().enumerate() {
        let frames: Vec<Frame> = (0..2 + i % 4).map(|g| varied((17, 17), g, 0)).collect();
        writer.put(&Case::new(CAPS, &frames, (i % frames.len()) as u64, strength).longer([1, 2, 3]));
        let still = capped(flat((5, 3), i % 4, 0), 0);
        writer.put(&Case::new(CAPS, &[still; 3], 1, strength));
    }
}

// The centre's cap lower, and those of the others 16 or 7: it is not used.
fn add_centre(writer: &mut Writer) {
    for (i, own) in [0, 0, 1, 8, 15, 0].into_iter().enumerate() {
        for (k, others) in [16, 7].into_iter().enumerate() {
            for centre in [0, 2] {
                let frames: Vec<Frame> =
                    (0..3).map(|g| varied((9, 9), g, if g == centre { own } else { others })).collect();
                writer.put(&Case::new(CAPS, &frames, centre as u64, STRENGTHS[(i + 3 * k + centre) % 8]));
            }
        }
    }
}

// One frame, and strength 0: the centre is only cropped, whatever the caps.
fn add_cropped(writer: &mut Writer) {
    for (i, cap) in LEVELS.into_iter().enumerate() {
        let frames: Vec<Frame> = (0..3).map(|g| varied((7, 5), g, (cap + 5 * g as u32) % 17)).collect();
        writer.put(&Case::new(CAPS, &frames[..1], 0, STRENGTHS[i]).longer([2, i, 1]));
        writer.put(&Case::new(CAPS, &frames, i as u64 % 3, 0).longer([i, 1, 4]));
    }
}

// Black beside white, which excludes every block, and black again: a cap gives an excluded block no share.
fn add_excluded(writer: &mut Writer) {
    for (i, size) in [(1, 1), (16, 16), (18, 3)].into_iter().enumerate() {
        let (black, white) = (flat(size, 4, 5), flat(size, 5, 4));
        writer.put(&Case::new(CAPS, &[black, capped(white, 1)], 0, STRENGTHS[i]));
        let all = [capped(black, 9), capped(white, 15), capped(black, 4), capped(white, 0)];
        writer.put(&Case::new(CAPS, &all, i as u64, 6).longer([3, 3, 3]));
    }
}

// 1024 frames, eight caps in turn, with seven numbers of the next; all white at cap 15.
fn add_many_frames(writer: &mut Writer) {
    let caps = [16, 0, 7, 15, 1, 9, 8, 3];
    let some: Vec<Frame> = (0..8).map(|g| varied((3, 2), g, caps[g])).collect();
    for (centre, given) in [(0, 1024 * 8), (1023, 1025 * 8 - 1)] {
        writer.put(&Case { given, ..Case::new(CAPS, &some, 0, 6) }.at(centre));
    }
    let white = Case::new(CAPS, &[capped(flat((2, 2), 5, 5), 15)], 0, 255);
    writer.put(&Case { given: 1024 * 8, ..white }.at(700));
}

#[cfg(test)]
mod tests {
    use super::*;
    use crate::denoiser::pictures;
    use crate::paper::denoiser::{Built, Choice, Window, build};

    // At each strength the total weights of luma and of U are others at the next cap. In V few samples are equal.
    #[test]
    fn every_level_is_felt() {
        let bytes = pictures::all();
        for (strength, centre) in
            STRENGTHS.into_iter().flat_map(|strength| (0..3).map(move |centre| (strength, centre)))
        {
            let built: [Built; 7] = LEVELS.map(|cap| {
                let window = Window { bytes: &bytes, frames: &three(centre, cap), centre, strength };
                build(&window, Choice::WHOLE)
            });
            let planes = [0..180, 180..225];
            for (k, plane) in (1..7).flat_map(|k| planes.iter().map(move |plane| (k, plane.clone()))) {
                let totals = |k: usize| &built[k].weights[plane.clone()];
                assert_ne!(totals(k - 1), totals(k), "strength {strength}, caps {} and {}", LEVELS[k - 1], LEVELS[k]);
            }
        }
    }
}
