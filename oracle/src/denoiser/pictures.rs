//! The file `pictures`. A frame's planes are parts of it, by start and stride, so that windows share bytes and
//! a moved frame is the same bytes from another start.

use super::Frame;
use crate::random::Random;
use crate::refusals::MAX_CAP;

/// Smooth, 160 by 96, and the same with noise.
const TEXTURE: usize = 0;
const SHAKEN: usize = TEXTURE + 160 * 96;
/// Noise of 256 levels, then of 36.
const NOISE: usize = SHAKEN + 160 * 96;
/// 0 to 255, each twice.
const RAMP: usize = NOISE + 8192;
/// 40 by 40 of 0 and 255, of 100 and 106, and of 90 and 140 in squares of two by two.
const CHECKERS: usize = RAMP + 512;
/// 1100 bytes of each of `LEVELS`.
const FLATS: usize = CHECKERS + 3 * 1600;
pub const LEVELS: [u8; 6] = [100, 104, 112, 113, 0, 255];
/// Four of 33 by 33: symmetric about each diagonal, left to right, and top to bottom.
const MIRRORS: usize = FLATS + 6 * 1100;
/// For each of `CUT_SIZES`, and for the first sample and the middle one: 113 but for that sample of 112.
const CUTS: usize = MIRRORS + 4 * 1089;
pub const CUT_SIZES: [(u32, u32); 8] = [(16, 16), (1, 1), (2, 2), (15, 16), (16, 15), (1, 16), (16, 1), (7, 9)];
/// What all cases but those of half samples and of three planes are handed.
pub const LEN: usize = CUTS + 2 * 8 * 256;
/// 64 by 63, deepest between its samples (38, 38) and (39, 39).
const BOWL: usize = LEN;
/// 0 and 255.
const HARSH: usize = BOWL + 64 * 63;
/// For each of `SMALLEST` its centre and the other frame, both packed.
const SMALL: usize = HARSH + 1600;
/// What those of half samples are handed.
pub const LEN_WITH_HALVES: usize = SMALL + 2 * (3 + 7 + 7 + 7 + 10 + 11 + 17);
/// Six runs of 577: of 113 with 112, 113 or 114 in the middle, and of 87 with 88, 87 or 86. Beside 100 a plane that holds
/// the middle differs by 13 times its area less 1, by that, or by 1 more.
const EDGES: usize = LEN_WITH_HALVES;
const EDGE_RUN: usize = 577;
/// For each of `CUT_SIDES`, as columns and as rows, a plane of three rows, or columns, for each of the same three
/// differences from 100: none in the first eight of the other side, and that in those that follow.
const SECONDS: usize = EDGES + 6 * EDGE_RUN;
pub const CUT_SIDES: [u32; 5] = [1, 2, 3, 8, 15];
/// 100 and 140 in turn, then 22 rows of 20 so, then 440 of their mean.
const STRIPES: usize = SECONDS + 30 * 48;
const STRIPED_ROWS: usize = STRIPES + 400;
const MEANS: usize = STRIPED_ROWS + 440;
/// 36 by 36 of the texture about the places where U and then V begin: as it is, 12 more, 13 more, and 40 more in every
/// other square of 8 by 8.
const RAISED: usize = MEANS + 440;
const RAISED_SIDE: usize = 36;
/// What those of three planes are handed.
pub const LEN_OF_ALL: usize = RAISED + 8 * RAISED_SIDE * RAISED_SIDE;

/// A picture and another frame, packed.
pub struct Small {
    size: (u32, u32),
    centre: &'static [u8],
    other: &'static [u8],
}

/// The smallest in which a wrong rule for half samples shows. In one row or one column both components of a
/// displacement are odd or both are even, and one pass filters equal samples; chroma of one sample is the same wherever
/// it is taken from.
pub const SMALLEST: [Small; 7] = [
    Small { size: (1, 1), centre: &[0, 90, 90], other: &[0, 100, 80] },
    // displaced by (1, -1)
    Small { size: (3, 1), centre: &[0, 12, 12, 128, 0, 135, 250], other: &[0, 0, 12, 255, 0, 20, 250] },
    // by (-1, 1)
    Small { size: (1, 3), centre: &[0, 12, 12, 128, 0, 135, 250], other: &[0, 0, 12, 255, 0, 20, 250] },
    // by (-1, -1)
    Small { size: (3, 1), centre: &[12, 12, 0, 90, 80, 120, 110], other: &[12, 0, 0, 100, 60, 90, 140] },
    // by (1, 0)
    Small {
        size: (3, 2),
        centre: &[0, 12, 12, 24, 36, 36, 90, 80, 120, 110],
        other: &[0, 0, 12, 24, 24, 36, 120, 60, 90, 140],
    },
    // by (3, -3)
    Small {
        size: (5, 1),
        centre: &[0, 0, 18, 18, 18, 90, 80, 85, 120, 110, 100],
        other: &[0, 9, 27, 0, 18, 130, 60, 90, 70, 140, 100],
    },
    // by (1, 1)
    Small {
        size: (3, 3),
        centre: &[0, 0, 0, 12, 0, 0, 12, 0, 0, 150, 60, 100, 100, 100, 180, 100, 100],
        other: &[0, 0, 0, 12, 0, 0, 0, 12, 0, 255, 0, 100, 100, 0, 255, 100, 100],
    },
];

pub fn all() -> Vec<u8> {
    let mut random = Random::new(21);
    let texture = smooth((160, 96), 9, 3, &mut random);
    let mut bytes = texture.clone();
    bytes.extend(texture.iter().map(|&b| b.saturating_add(random.below(13) as u8).saturating_sub(6)));
    bytes.extend(random.bytes(4096));
    bytes.extend((0..4096).map(|_| 80 + random.below(36) as u8));
    bytes.extend((0..512).map(|i| (i / 2) as u8));
    let even = |i: usize, unit: usize| (i / 40 / unit + i % 40 / unit).is_multiple_of(2);
    bytes.extend((0..1600).map(|i| if even(i, 1) { 0 } else { 255 }));
    bytes.extend((0..1600).map(|i| if even(i, 1) { 100 } else { 106 }));
    bytes.extend((0..1600).map(|i| if even(i, 2) { 90 } else { 140 }));
    for level in LEVELS {
        bytes.extend([level; 1100]);
    }
    for axis in 0..4 {
        let picture = smooth((33, 33), 5, 1, &mut random);
        bytes.extend((0..1089).map(|i| picture[i.min(across(axis, i))]));
    }
    for (width, height) in CUT_SIZES {
        for place in [0, height / 2 * width + width / 2] {
            bytes.extend((0..256).map(|i| if i == place { 112 } else { 113 }));
        }
    }
    assert_eq!(bytes.len(), LEN);
    bytes.extend((0..64 * 63).map(|i| bowl_at(i % 64, i / 64)));
    let mut random = Random::new(24);
    bytes.extend((0..1600).map(|_| if random.below(2) == 0 { 0 } else { 255 }));
    bytes.extend(SMALLEST.iter().flat_map(|small| [small.centre, small.other]).flatten());
    assert_eq!(bytes.len(), LEN_WITH_HALVES);
    bytes.extend(of_three_planes(&texture));
    assert_eq!(bytes.len(), LEN_OF_ALL);
    bytes
}

// From `EDGES` on.
fn of_three_planes(texture: &[u8]) -> Vec<u8> {
    let mut bytes = Vec::new();
    for (level, odd) in [(113, 112), (113, 113), (113, 114), (87, 88), (87, 87), (87, 86)] {
        bytes.extend((0..EDGE_RUN).map(|i| if i == EDGE_RUN / 2 { odd } else { level }));
    }
    for (i, odd) in (0..30).map(|i| (i, 112 + (i % 3) as u8)) {
        let cut = CUT_SIDES[i / 6].div_ceil(2) as usize;
        let (columns, rows) = if i / 3 % 2 == 0 { (8 + cut, 3) } else { (3, 8 + cut) };
        let last = columns * rows - 1 - i % 2;
        let along = |at: usize| if rows == 3 { at % columns } else { at / columns };
        let level = |at: usize| if at == last { odd } else { 113 };
        bytes.extend((0..48).map(|at| if along(at) < 8 { 100 } else { level(at) }));
    }
    let striped = |i: usize| if i.is_multiple_of(2) { 100 } else { 140 };
    bytes.extend((0..400).map(striped));
    bytes.extend((0..440).map(|i| striped(i / 20)));
    bytes.extend([120; 440]);
    let odd_square = |r: usize, c: usize| ((r + 7) / 8 + (c + 7) / 8) % 2 == 1;
    for ((x, y), variant) in CHROMA_PLACES.into_iter().flat_map(|place| (0..4).map(move |variant| (place, variant))) {
        for (r, c) in (0..RAISED_SIDE * RAISED_SIDE).map(|i| (i / RAISED_SIDE, i % RAISED_SIDE)) {
            let more = [0, 12, 13, if odd_square(r, c) { 40 } else { 0 }][variant];
            bytes.push(texture[(y - RAISED_MARGIN + r) * 160 + x - RAISED_MARGIN + c].saturating_add(more));
        }
    }
    bytes
}

// A fifth of the square of the distance from the deepest place.
fn bowl_at(x: i32, y: i32) -> u8 {
    let square = |z: i32| (2 * z - 77) * (2 * z - 77);
    ((square(x) + square(y)) / 20).min(255) as u8
}

// Where the sample across the axis stands, of 33 by 33.
fn across(axis: usize, i: usize) -> usize {
    let (r, c) = (i / 33, i % 33);
    match axis {
        0 => c * 33 + r,
        1 => (32 - c) * 33 + 32 - r,
        2 => r * 33 + 32 - c,
        _ => (32 - r) * 33 + c,
    }
}

// Noise, each sample the mean of n by n of it, its distance from 128 taken so many times.
fn smooth((width, height): (usize, usize), n: usize, times: i64, random: &mut Random) -> Vec<u8> {
    let noise = random.bytes((width + n) * (height + n));
    let at = |r: usize, c: usize| i64::from(noise[r * (width + n) + c]);
    let mean = |r: usize, c: usize| (0..n * n).map(|k| at(r + k / n, c + k % n)).sum::<i64>() / (n * n) as i64;
    let stretched = |v: i64| ((v - 128) * times + 128).clamp(0, 255) as u8;
    (0..width * height).map(|i| stretched(mean(i / width, i % width))).collect()
}

/// A frame from its size, the starts of its planes and its strides; its cap is 16, as that of all frames below.
pub fn frame((width, height): (u32, u32), starts: [usize; 3], strides: (usize, usize)) -> Frame {
    let [y, u, v] = starts.map(|n| n as u32);
    [width, height, y, u, v, strides.0 as u32, strides.1 as u32, MAX_CAP]
}

/// The same frame with another cap.
pub fn capped(frame: Frame, cap: u32) -> Frame {
    let [width, height, y, u, v, luma_stride, chroma_stride, _] = frame;
    [width, height, y, u, v, luma_stride, chroma_stride, cap]
}

/// Where U and V begin in the texture.
const CHROMA_PLACES: [(usize, usize); 2] = [(20, 50), (90, 20)];

/// The texture from (40 + x, 30 + y) on; U from (20, 50) and V from (90, 20), both moved by half.
pub fn texture(size: (u32, u32), (x, y): (i32, i32), shaken: bool) -> Frame {
    let base = if shaken { SHAKEN } else { TEXTURE } as i32;
    let at = |x: i32, y: i32| (base + y * 160 + x) as usize;
    let [u, v] = CHROMA_PLACES.map(|(left, top)| at(left as i32 + x / 2, top as i32 + y / 2));
    frame(size, [at(40 + x, 30 + y), u, v], (160, 160))
}

/// Noise, packed: of few levels where the index is odd.
pub fn noise((width, height): (u32, u32), index: usize) -> Frame {
    let (width, height) = (width as usize, height as usize);
    let (columns, rows) = (width.div_ceil(2), height.div_ceil(2));
    let y = NOISE + index * 379 % 2400 + index % 2 * 4096;
    let u = y + width * height;
    frame((width as u32, height as u32), [y, u, u + columns * rows], (width, columns))
}

/// A ramp; the strides are 0, 1 and 2, below the width but of the narrowest pictures.
pub fn ramp(size: (u32, u32), index: usize) -> Frame {
    let at = |k: usize| RAMP + (index * 5 + k * 60) % 380;
    frame(size, [at(0), at(1), at(2)], (index % 3, (index + 1) % 3))
}

/// One of three checkers, from its first or from its second sample on.
pub fn checkers(size: (u32, u32), index: usize) -> Frame {
    let at = CHECKERS + 1600 * (index / 2 % 3) + index % 2;
    frame(size, [at; 3], (40, 40))
}

/// One level in luma, and one in chroma.
pub fn flat(size: (u32, u32), luma: usize, chroma: usize) -> Frame {
    let at = |level: usize| FLATS + 1100 * level;
    let (width, columns) = (size.0 as usize, size.0.div_ceil(2) as usize);
    frame(size, [at(luma), at(chroma), at(chroma)], (width, columns))
}

/// A symmetric picture, its three planes the same bytes.
pub fn mirror(size: (u32, u32), axis: usize) -> Frame {
    frame(size, [MIRRORS + 1089 * axis; 3], (33, 33))
}

/// A picture of a cut size whose luma is 113 but for one sample in a corner or in the middle.
pub fn cut(index: usize, middle: usize) -> Frame {
    let size = CUT_SIZES[index];
    let at = CUTS + 512 * index + 256 * middle;
    frame(size, [at, FLATS, FLATS], (size.0 as usize, size.0.div_ceil(2) as usize))
}

/// Of the chroma planes that begin where the next three say, of at most 34 by 34.
pub const CHROMA_STRIDE: usize = 32;

/// Smooth, or the same with noise.
pub fn smooth_chroma(index: usize, shaken: bool) -> usize {
    (if shaken { SHAKEN } else { TEXTURE }) + 331 * index % 13000
}

/// Of one of `LEVELS`.
pub fn flat_chroma(level: usize) -> usize {
    FLATS + 1100 * level
}

/// Of 0 and 255.
pub fn harsh_chroma(index: usize) -> usize {
    HARSH + 37 * index % 510
}

/// A frame whose luma is the bowl, for a picture of at most 47 by 47: its block in the middle is displaced by (dx, dy)
/// from the one of a frame with (0, 0). U and V begin where it says.
pub fn bowl(size: (u32, u32), (dx, dy): (i32, i32), [u, v]: [usize; 2]) -> Frame {
    let at = BOWL + ((15 - dy) * 64 + 15 - dx) as usize;
    frame(size, [at, u, v], (64, CHROMA_STRIDE))
}

/// The two frames of one of `SMALLEST`.
pub fn smallest(index: usize) -> [Frame; 2] {
    let Small { size, centre, .. } = SMALLEST[index];
    let at = SMALL + SMALLEST[..index].iter().map(|small| small.centre.len() + small.other.len()).sum::<usize>();
    let (luma, columns) = ((size.0 * size.1) as usize, size.0.div_ceil(2) as usize);
    let chroma = columns * size.1.div_ceil(2) as usize;
    let packed = |at: usize| frame(size, [at, at + luma, at + luma + chroma], (size.0 as usize, columns));
    [packed(at), packed(at + centre.len())]
}

/// What lies about a picture's chroma in `RAISED`.
const RAISED_MARGIN: usize = 9;

/// The same with chroma of the first to the last variant of `RAISED`, for a picture of at most 34 by 34 that is moved by
/// at most 15. Where it is not moved its blocks are the squares.
pub fn raised(size: (u32, u32), (x, y): (i32, i32), variants: [usize; 2]) -> Frame {
    let [_, _, luma, ..] = texture(size, (x, y), false);
    let at = |half: i32| (RAISED_MARGIN as i32 + half) as usize;
    let start = |plane: usize| RAISED + (4 * plane + variants[plane]) * RAISED_SIDE * RAISED_SIDE;
    let [u, v] = [0, 1].map(|plane| start(plane) + at(y / 2) * RAISED_SIDE + at(x / 2));
    frame(size, [luma as usize, u, v], (160, RAISED_SIDE))
}

/// A packed plane of at most 289 samples that differs from 100 by 13 at every place but one, and there by so much more;
/// the samples lie above 100, or below.
pub fn edge(more: i32, below: bool, place: usize) -> usize {
    let run = 3 * usize::from(below) + (more + 1) as usize;
    EDGES + EDGE_RUN * run + EDGE_RUN / 2 - place
}

/// The size of a picture whose second block is cut to one of `CUT_SIDES`, as columns or as rows, and where a packed plane
/// begins that differs from 100 in that block alone.
pub fn second(index: usize, as_rows: bool, more: i32) -> ((u32, u32), usize) {
    let long = 16 + CUT_SIDES[index];
    let slot = (2 * index + usize::from(as_rows)) * 3 + (more + 1) as usize;
    (if as_rows { (5, long) } else { (long, 5) }, SECONDS + 48 * slot)
}

/// Stripes of one column, of an even stride, or of one row, of a stride of 20; the second ones begin with 140.
pub fn stripes(as_rows: bool, second: bool) -> usize {
    if as_rows { STRIPED_ROWS + 20 * usize::from(second) } else { STRIPES + usize::from(second) }
}

/// The mean of the stripes, for a plane of at most 440 bytes.
pub fn mean_of_stripes() -> usize {
    MEANS
}
