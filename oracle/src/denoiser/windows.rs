//! Cases that are accepted, but for the empty window, which stands first. Every cap is 16.

use super::pictures::{CUT_SIZES, LEN, checkers, cut, flat, frame, mirror, noise, ramp, texture};
use super::{Case, Frame, Writer};
use crate::random::Random;

const SIZES: [u32; 8] = [1, 2, 15, 16, 17, 31, 32, 33];
pub const STRENGTHS: [u8; 8] = [1, 2, 3, 4, 5, 6, 7, 255];

pub fn add(writer: &mut Writer) {
    add_empty(writer);
    add_single(writer);
    add_strength_0(writer);
    add_sizes(writer);
    add_centres(writer);
    add_cut_off(writer);
    add_ties(writer);
    add_strides(writer);
    add_repeats(writer);
    add_excluded(writer);
    add_many_frames(writer);
    add_long(writer);
}

// No frames: fewer than eight numbers, whatever else is passed.
fn add_empty(writer: &mut Writer) {
    let frame = noise((5, 3), 0);
    for given in 0..8 {
        for (k, centre) in [0, 1, u64::MAX].into_iter().enumerate() {
            let case = Case::new(1, &[frame], centre, [3, 0, 255][(given + k) % 3]);
            let (bytes, lent) = [(0, [0; 3]), (LEN, [0; 3]), (LEN, [40; 3])][(given + 2 * k) % 3];
            writer.put(&Case { given, bytes, lent, ..case });
        }
    }
}

fn size(i: usize) -> (u32, u32) {
    (SIZES[i % 8], SIZES[i / 8 % 8])
}

// One frame, at strengths 0 and 6: the centre is cropped; numbers left over are not read.
fn add_single(writer: &mut Writer) {
    for i in (0..64).step_by(3) {
        let frames = [picture(size(i), i % 6, i), [7; 8]];
        let case = Case::new(2, &frames, 0, [0, 1, 3, 6, 7, 255][i % 6]);
        writer.put(&Case { given: 8 + i % 8, ..case.longer([i % 5, i % 3, i % 4 * 20]) });
    }
}

// Strength 0: the same with more frames.
fn add_strength_0(writer: &mut Writer) {
    for i in (1..64).step_by(4) {
        let frames: Vec<Frame> = (0..2 + i % 4).map(|g| picture(size(i), i % 6, i + g)).collect();
        let case = Case::new(3, &frames, (i % frames.len()) as u64, 0);
        writer.put(&Case { made: i as u64 / 4 % 2, ..case.longer([i % 3, 5, i % 7]) });
    }
}

/// A frame of a content: moved texture, noise, ramps, flats, checkers, symmetric.
pub fn picture(size: (u32, u32), content: usize, i: usize) -> Frame {
    let step = |k: usize| (i * k % 31) as i32 - 15;
    match content {
        0 => texture(size, (step(7), step(11)), i % 2 == 1),
        1 => noise(size, 2 * i + 1),
        2 => ramp(size, i),
        3 => flat(size, i % 4, (i + 1) % 4),
        4 => checkers(size, i),
        _ => mirror(size, i % 4),
    }
}

// Every size both ways, four windows each: little motion, more of it, another content, a mixture.
fn add_sizes(writer: &mut Writer) {
    for i in 0..64 {
        for k in 0..4 {
            let count = 2 + (i + 3 * k) % 7;
            let centre = (i / 7 + i + k) % count;
            let moved = |g: usize| ((g * 3 % 7) as i32 - 3, (g * (i + 2) % 5) as i32 - 2);
            let of = |g: usize| match k {
                0 => texture(size(i), moved(g), (i + g) % 3 == 1),
                1 => picture(size(i), 0, i + g * 2),
                2 => picture(size(i), 1 + i % 5, i + g * 3),
                _ => picture(size(i), (i + g / 2) % 6, i + g * 4),
            };
            let frames: Vec<Frame> = (0..count).map(of).collect();
            let case = Case::new(4, &frames, centre as u64, STRENGTHS[(i + 3 * k) % 8]);
            writer.put(&Case { made: (i + k) as u64 % 2, ..case.longer([i % 4, k * 9, (i + k) % 3]) });
        }
    }
}

// Every centre of 2 to 8 frames, the default configuration among them.
fn add_centres(writer: &mut Writer) {
    for count in 2..=8 {
        for centre in 0..count {
            let frames: Vec<Frame> = (0..count).map(|g| texture((17, 3), (g * 3 - 9, centre - 2), true)).collect();
            let case = Case::new(4, &frames, centre as u64, STRENGTHS[(count + centre) as usize % 8]);
            writer.put(&Case { made: centre as u64 % 3, ..case });
        }
    }
}

// SADs of 13 times the area less 1, which is accepted, and of 13 times the area.
fn add_cut_off(writer: &mut Writer) {
    for (index, size) in CUT_SIZES.into_iter().enumerate() {
        let centre = flat(size, 0, 0);
        for others in [vec![cut(index, 0)], vec![cut(index, 1)], vec![flat(size, 3, 0)], vec![flat(size, 2, 0)]] {
            writer.put(&Case::new(4, &[&[centre], &others[..]].concat(), 0, 6));
        }
        let all = [cut(index, 1), flat(size, 3, 0), centre, cut(index, 0), flat(size, 2, 1)];
        writer.put(&Case::new(4, &all, 2, 5));
    }
}

// Symmetric pictures, and checkers, about one another: neighbours of the block search tie.
fn add_ties(writer: &mut Writer) {
    for i in 0..16 {
        let size = [(16, 16), (17, 17), (33, 33), (31, 15)][i / 4];
        let frames = [mirror(size, i % 4), mirror(size, (i + 1) % 4), mirror(size, i % 4), mirror(size, (i + 2) % 4)];
        writer.put(&Case::new(4, &frames, i as u64 % 4, STRENGTHS[i % 8]));
    }
    for i in 0..6 {
        let frames: Vec<Frame> = (0..4).map(|g| checkers((16, 17), i + g)).collect();
        writer.put(&Case::new(4, &frames, i as u64 % 4, 6));
    }
}

// Strides of 0, below the width and far above it; planes that share bytes; a plane that ends the bytes.
fn add_strides(writer: &mut Writer) {
    let mut random = Random::new(22);
    for i in 0..24 {
        let size = [(16, 16), (9, 21), (20, 5), (1, 33)][i % 4];
        let mut stride = || [0, 1, 3, 7, size.0 as usize, 200, 961][random.below(7) as usize];
        let mut frames: Vec<Frame> =
            (0..3).map(|g| frame(size, [30 * i + g, 30 * i, 40 * g], (stride(), stride()))).collect();
        if i % 3 == 0 {
            let last = frame(size, [LEN - size.0 as usize, LEN - 33, LEN - 33], (0, 0));
            frames.push(last);
        }
        writer.put(&Case::new(4, &frames, i as u64 % 3, STRENGTHS[i % 8]).longer([1, 1, 1]));
    }
    let enormous = [noise((7, 1), 1), frame((7, 1), [500, 600, 700], (u32::MAX as usize, u32::MAX as usize))];
    writer.put(&Case::new(4, &enormous, 0, 3));
    writer.put(&Case::new(4, &enormous, 1, 3));
}

// The centre's record again: another frame. Every record the same, too.
fn add_repeats(writer: &mut Writer) {
    for i in 0..6 {
        let (centre, other) = (texture((18, 16), (0, 0), false), texture((18, 16), (3, -2), true));
        let windows =
            [vec![centre; 2], vec![centre; 8], vec![other, centre, centre], vec![centre, other, other, centre]];
        for frames in windows {
            writer.put(&Case::new(4, &frames, i % frames.len() as u64, STRENGTHS[i as usize]));
        }
    }
}

// Black and white: no block of the one is accepted for the other, yet sums and weights are written.
fn add_excluded(writer: &mut Writer) {
    for (i, size) in [(1, 1), (16, 16), (33, 17), (2, 31)].into_iter().enumerate() {
        let (black, white) = (flat(size, 4, 5), flat(size, 5, 4));
        writer.put(&Case::new(4, &[black, white], 0, STRENGTHS[i]));
        writer.put(&Case::new(4, &[black, white, black, white], i as u64, 6).longer([3, 3, 3]));
        writer.put(&Case::new(4, &[white, black, texture(size, (0, 0), false)], 2, 255));
    }
}

// 1024 frames, the last one with seven numbers of the next; all white and all the same: the largest sums.
fn add_many_frames(writer: &mut Writer) {
    let size = (3, 2);
    let some: Vec<Frame> = (0..8).map(|g| texture(size, (g, 3 - g), g % 2 == 1)).collect();
    for (centre, given) in [(0, 1024 * 8), (513, 1024 * 8), (1023, 1025 * 8 - 1)] {
        writer.put(&Case { given, ..Case::new(4, &some, centre % 8, 6) }.at(centre));
    }
    let white = Case::new(4, &[flat((2, 2), 5, 5)], 0, 255);
    writer.put(&Case { given: 1024 * 8, ..white }.at(700));
}

impl Case {
    /// The same with another centre of the same size.
    pub fn at(self, centre: u64) -> Case {
        Case { centre, ..self }
    }
}

// 16383 columns, and 16383 rows.
fn add_long(writer: &mut Writer) {
    let wide = |start: usize| frame((16383, 1), [start, start + 99, start + 7777], (0, 0));
    let tall = |start: usize| frame((1, 16383), [start, start + 5000, start + 99], (1, 1));
    writer.put(&Case::new(2, &[wide(0)], 0, 3));
    writer.put(&Case::new(3, &[tall(0), tall(50)], 1, 0));
    writer.put(&Case::new(4, &[wide(0), wide(3)], 1, 2).longer([5, 6, 7]));
}
