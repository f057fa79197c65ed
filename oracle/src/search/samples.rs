//! The file `samples`: pictures, then macroblocks. A plane of a case is a part of the pictures; with a stride
//! below the width, or 0, a few bytes make a large picture. Last come macroblocks that differ from another in one row, and
//! one that the bilinear filter makes.

use crate::motion_comp::{BILINEAR_FILTERS, SIXTAP_FILTERS, fetch_luma_mb_halo, sixtap_mb_luma, stored_luma_mv};
use crate::motion_vector::Mv;
use crate::random::Random;

/// Noise: 20480 bytes.
pub const NOISE: usize = 0;
/// 4096 bytes of 77.
pub const FLAT: usize = NOISE + 20480;
/// 512 bytes of 0, then 512 of 255.
pub const BLACK: usize = FLAT + 4096;
pub const WHITE: usize = BLACK + 512;
/// 0 to 255, each twice, and the same backwards.
pub const RISE: usize = WHITE + 512;
pub const FALL: usize = RISE + 512;
/// 64 by 64: the darker, the nearer to the middle, and the same upside down in brightness.
pub const BOWL: usize = FALL + 512;
pub const HILL: usize = BOWL + 4096;
/// Five smooth pictures of 48 by 48, symmetric by `AXES`.
pub const MIRRORS: usize = HILL + 4096;
/// A smooth picture of 80 by 80.
pub const SMOOTH: usize = MIRRORS + 5 * 2304;
/// Macroblocks of 256 bytes, first those symmetric as `MIRRORS` are.
pub const SOURCES: usize = SMOOTH + 6400;
/// Macroblocks of the ramps: `RAMPS` and the place there, in samples.
pub const RAMP_SOURCES: usize = SOURCES + 10 * 256;
/// Macroblocks predicted from `SMOOTH` at the macroblock (2, 2), every second one with noise.
pub const MOVED_SOURCES: usize = RAMP_SOURCES + RAMPS.len() * 256;
/// What the searches read, and what macroblocks drawn at random are taken from, ends here.
pub const SEARCHED: usize = MOVED_SOURCES + MOVED.len() * 256;
/// The first macroblock of `NOISE` with one row upside down in brightness, for each of `ROWS`.
pub const ROW_TURNED: usize = SEARCHED;
/// A macroblock predicted from `SMOOTH` at the macroblock (2, 2) and the vector `BLENDED` with the bilinear filter.
pub const BLENDED_SOURCE: usize = ROW_TURNED + ROWS.len() * 256;
pub const LEN: usize = BLENDED_SOURCE + 256;
// What the replay has room for.
const _: () = assert!(LEN <= 65536);

/// The row and column across an axis, from the side n and a row and a column.
type Axis = fn(usize, usize, usize) -> (usize, usize);
const AXES: [Axis; 5] = [
    |_, r, c| (c, r),
    |n, r, c| (n - 1 - c, n - 1 - r),
    |n, r, c| (r, n - 1 - c),
    |n, r, c| (n - 1 - r, c),
    |n, r, c| (n - 1 - r, n - 1 - c),
];

/// The first row, one within, the last.
pub const ROWS: [usize; 3] = [0, 7, 15];

/// In quarter pixels: three quarters down, a quarter to the left.
pub const BLENDED: (i16, i16) = (3, -1);

/// Columns a sample, rows a sample, and the place of the macroblock's first sample in RISE.
pub const RAMPS: [(usize, usize, usize); 12] = [
    (1, 0, 20),
    (1, 0, 255),
    (1, 0, 300),
    (1, 0, 495),
    (0, 1, 20),
    (0, 1, 255),
    (0, 1, 300),
    (0, 1, 495),
    (1, 1, 0),
    (1, 1, 40),
    (1, 1, 250),
    (1, 1, 480),
];

/// The vectors at which the moved macroblocks are predicted, (row, column) in quarter pixels.
pub const MOVED: [(i16, i16); 24] = [
    (0, 0),
    (0, 2),
    (2, 0),
    (-2, -2),
    (1, 0),
    (0, -1),
    (3, -3),
    (5, 6),
    (-7, 2),
    (8, -8),
    (-12, 20),
    (17, -9),
    (-31, -33),
    (40, 2),
    (6, -42),
    (-63, 61),
    (22, 23),
    (-1, 14),
    (-90, 0),
    (0, 95),
    (101, -37),
    (-54, 54),
    (2, 2),
    (-3, 1),
];

pub fn all() -> Vec<u8> {
    let mut random = Random::new(11);
    let mut bytes = random.bytes(20480);
    bytes.extend([77; 4096]);
    bytes.extend([0; 512]);
    bytes.extend([255; 512]);
    bytes.extend((0..512).map(|i| (i / 2) as u8));
    bytes.extend((0..512).map(|i| (255 - i / 2) as u8));
    let far = |i: usize| (4 * ((i / 64).abs_diff(31) + (i % 64).abs_diff(31))).min(255) as u8;
    bytes.extend((0..4096).map(far));
    bytes.extend((0..4096).map(|i| 255 - far(i)));
    for axis in AXES {
        bytes.extend(mirrored(48, axis, &smooth(48, &mut random)));
    }
    let picture = smooth(80, &mut random);
    bytes.extend(&picture);
    for axis in AXES {
        bytes.extend(mirrored(16, axis, &smooth(16, &mut random)));
        bytes.extend(mirrored(16, axis, &random.bytes(256)));
    }
    for (cols, rows, at) in RAMPS {
        bytes.extend((0..256).map(|i| ((at + i % 16 * cols + i / 16 * rows) / 2).min(255) as u8));
    }
    for (i, (row, col)) in MOVED.into_iter().enumerate() {
        let block = predicted(&picture, Mv { row, col }, &SIXTAP_FILTERS);
        let mut shaken = |b: u8| if i % 2 == 1 { b.saturating_add((random.below(9)) as u8) } else { b };
        bytes.extend(block.map(&mut shaken));
    }
    bytes.extend(ROWS.map(|row| turned(&bytes[NOISE..], row)).concat());
    bytes.extend(predicted(&picture, Mv { row: BLENDED.0, col: BLENDED.1 }, &BILINEAR_FILTERS));
    assert_eq!(bytes.len(), LEN);
    bytes
}

fn turned(noise: &[u8], row: usize) -> [u8; 256] {
    std::array::from_fn(|i| if i / 16 == row { 255 - noise[i] } else { noise[i] })
}

// Each sample and the one across the axis are the same.
fn mirrored(n: usize, axis: Axis, picture: &[u8]) -> Vec<u8> {
    let across = |i: usize| {
        let (r, c) = axis(n, i / n, i % n);
        r * n + c
    };
    (0..n * n).map(|i| picture[i.min(across(i))]).collect()
}

// Noise, each sample the mean of seven by seven of it, stretched.
fn smooth(n: usize, random: &mut Random) -> Vec<u8> {
    let noise = random.bytes((n + 6) * (n + 6));
    let at = |r: usize, c: usize| u32::from(noise[r * (n + 6) + c]);
    let mean = |r: usize, c: usize| (0..49).map(|k| at(r + k / 7, c + k % 7)).sum::<u32>() / 49;
    let stretched = |v: u32| (i64::from(v) * 4 - 384).clamp(0, 255) as u8;
    (0..n * n).map(|i| stretched(mean(i / n, i % n))).collect()
}

fn predicted(picture: &[u8], mv: Mv, filters: &[[i32; 6]; 8]) -> [u8; 256] {
    let eighths = stored_luma_mv(mv);
    let halo = fetch_luma_mb_halo(picture, 80, 80, 80, 32, 32, eighths);
    let selector = |v: i16| v.rem_euclid(8) as usize;
    sixtap_mb_luma(&halo, selector(eighths.col), selector(eighths.row), filters)
}
