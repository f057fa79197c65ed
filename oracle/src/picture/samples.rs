//! The samples that the cases read: noise, flat parts, ramps, a bowl, textures, pictures that show a texture moved,
//! pictures that are symmetric about a diagonal or the transpose of another, and those of which a half stands still.

use crate::motion_comp::{BILINEAR_FILTERS, SIXTAP_FILTERS, fetch_luma_mb_halo, sixtap_mb_luma, stored_luma_mv};
use crate::motion_vector::Mv;
use crate::random::Random;

/// Noise: 8192 bytes.
pub const NOISE: usize = 0;
/// 1024 bytes of 77.
pub const FLAT: usize = NOISE + 8192;
/// 512 bytes of 0, then 512 of 255.
pub const BLACK: usize = FLAT + 1024;
pub const WHITE: usize = BLACK + 512;
/// 0 to 255, each twice, and the same backwards.
pub const RISE: usize = WHITE + 512;
pub const FALL: usize = RISE + 512;
/// 0 to 127, each twice, then four steps at a time up to 255, and the same backwards.
pub const CLIMB: usize = FALL + 512;
pub const DESCENT: usize = CLIMB + 512;
/// 64 by 64: the darker, the nearer to the middle.
pub const BOWL: usize = DESCENT + 512;
/// A texture of 96 by 96, and a place in it, 16 samples from its left and its upper edge.
pub const SMOOTH: usize = BOWL + 4096;
pub const INNER: usize = SMOOTH + 16 * 96 + 16;
/// 64 by 64, in 16 macroblocks: each is predicted from the 64 by 64 samples at `INNER`, at its vector of `VECTORS`, by
/// the six-tap filter, then the same by the bilinear one.
pub const FILTERED: usize = SMOOTH + 9216;
pub const BLENDED: usize = FILTERED + 4096;
/// 64 by 64: a texture symmetric about the diagonal, then a picture with the same symmetry whose upper half shows it
/// moved by `OFF_AXIS`; then both for the other diagonal.
pub const MIRRORS: usize = BLENDED + 4096;
/// A texture of 44 columns and 60 rows, and its transpose.
pub const TALL: usize = MIRRORS + 4 * 4096;
pub const WIDE: usize = TALL + 2640;
/// The end of what the cases of kind 1 read.
pub const LEN: usize = WIDE + 2640;
/// 64 by 64: the upper half shows what is at `INNER`, the lower half what lies `AHEAD` of that; then the other way round.
pub const UPPER_STILL: usize = LEN;
pub const LOWER_STILL: usize = UPPER_STILL + 4096;
pub const ALL: usize = LOWER_STILL + 4096;
// What the replay has room for.
const _: () = assert!(ALL <= 65536);

/// Rows and columns, in samples.
pub const OFF_AXIS: (usize, usize) = (1, 3);
pub const AHEAD: (usize, usize) = (2, 3);

/// Row and column in quarter pixels.
const VECTORS: [(i16, i16); 16] = [
    (0, 0),
    (0, 2),
    (2, 0),
    (-2, -2),
    (1, 0),
    (0, -1),
    (3, -3),
    (5, 6),
    (-7, 2),
    (8, -8),
    (-12, 9),
    (10, -9),
    (-4, -1),
    (6, 11),
    (-3, -6),
    (7, 1),
];

pub fn all() -> Vec<u8> {
    let mut random = Random::new(21);
    let mut bytes = random.bytes(8192);
    bytes.extend([77; 1024]);
    bytes.extend([0; 512]);
    bytes.extend([255; 512]);
    bytes.extend((0..512).map(|i| (i / 2) as u8));
    bytes.extend((0..512).map(|i| (255 - i / 2) as u8));
    let climb = |i: usize| (i.min(256) / 2 + 4 * i.saturating_sub(256)).min(255) as u8;
    bytes.extend((0..512).map(climb));
    bytes.extend((0..512).rev().map(climb));
    let far = |i: usize| 4 * ((i / 64).abs_diff(31) + (i % 64).abs_diff(31));
    bytes.extend((0..4096).map(|i| far(i).min(255) as u8));
    bytes.extend(texture(96, 96, &mut random));
    for filters in [&SIXTAP_FILTERS, &BILINEAR_FILTERS] {
        bytes.extend(moved(&bytes[INNER..], filters));
    }
    for axis in [|r, c| (c, r), |r: usize, c: usize| (63 - c, 63 - r)] {
        let picture = mirrored(axis, &texture(64, 64, &mut random));
        let at = |r: usize, c: usize| picture[r.min(63) * 64 + c.min(63)];
        let ahead: Vec<u8> = (0..4096).map(|i| at(i / 64 + OFF_AXIS.0, i % 64 + OFF_AXIS.1)).collect();
        bytes.extend(&picture);
        bytes.extend(mirrored(axis, &ahead));
    }
    let tall = texture(44, 60, &mut random);
    bytes.extend(&tall);
    bytes.extend((0..2640).map(|i| tall[i % 60 * 44 + i / 60]));
    for lower in [1, 0] {
        let at = |i: usize, (down, across): (usize, usize)| bytes[INNER + (i / 64 + down) * 96 + i % 64 + across];
        let half: Vec<u8> = (0..4096).map(|i| at(i, if i / 2048 == lower { AHEAD } else { (0, 0) })).collect();
        bytes.extend(half);
    }
    assert_eq!(bytes.len(), ALL);
    bytes
}

// Noise, each sample the mean of nine by nine of it, stretched.
fn texture(columns: usize, rows: usize, random: &mut Random) -> Vec<u8> {
    let across = columns + 8;
    let noise = random.bytes(across * (rows + 8));
    let mean = |x: usize, y: usize| {
        let around = (0..81).map(|k| u32::from(noise[(y + k / 9) * across + x + k % 9]));
        around.sum::<u32>() / 81
    };
    let stretched = |v: u32| (i64::from(v) * 6 - 640).clamp(0, 255) as u8;
    (0..columns * rows).map(|i| stretched(mean(i % columns, i / columns))).collect()
}

// Each sample and the one across the axis are the same, that of the upper half.
fn mirrored(axis: fn(usize, usize) -> (usize, usize), picture: &[u8]) -> Vec<u8> {
    let across = |i: usize| {
        let (r, c) = axis(i / 64, i % 64);
        r * 64 + c
    };
    (0..4096).map(|i| picture[i.min(across(i))]).collect()
}

// Four by four macroblocks, each predicted at its own vector from a picture of that size with a stride of 96.
fn moved(picture: &[u8], filters: &[[i32; 6]; 8]) -> Vec<u8> {
    let predicted = |k: usize| {
        let eighths = stored_luma_mv(Mv { row: VECTORS[k].0, col: VECTORS[k].1 });
        let halo = fetch_luma_mb_halo(picture, 96, 64, 64, k % 4 * 16, k / 4 * 16, eighths);
        let selector = |v: i16| v.rem_euclid(8) as usize;
        sixtap_mb_luma(&halo, selector(eighths.col), selector(eighths.row), filters)
    };
    let blocks: Vec<[u8; 256]> = (0..16).map(predicted).collect();
    let at = |r: usize, c: usize| blocks[r / 16 * 4 + c / 16][r % 16 * 16 + c % 16];
    (0..4096).map(|i| at(i / 64, i % 64)).collect()
}
