//! Cases that are accepted, most of them: walks, ties, corners, places outside the picture, and random ones.

use super::samples::{
    BLACK, BOWL, FALL, FLAT, HILL, MIRRORS, MOVED, MOVED_SOURCES, NOISE, RAMP_SOURCES, RAMPS, RISE, SMOOTH, SOURCES,
    WHITE,
};
use super::{Case, Writer, needed};
use crate::random::Random;

/// The limits that the tests name.
const LIMITS: [u32; 5] = [0, 1, 2, 65281, u32::MAX];

pub fn add(writer: &mut Writer) {
    add_starts(writer);
    add_walks(writer);
    add_ties(writer);
    add_flat(writer);
    add_corners(writer);
    add_small_sizes(writer);
    add_bounds(writer);
    add_moved(writer);
    add_random(writer);
}

/// A plane of exactly the bytes that it needs.
pub fn case(start: usize, stride: u64, size: (u64, u64), mb: (u64, u64), source: usize, mv: (i16, i16)) -> Case {
    Case { start, len: needed(stride, size), stride, size, mb, source, mv, limit: u32::MAX, version: 0 }
}

// Any 16-bit centre of the diamond, some with no round to show the start, some that walk from there.
fn add_starts(writer: &mut Writer) {
    let centres = [0, 3, 4, 5, 7, 1019, 1020, 1021, 1023, 1024, 32767];
    let centres: Vec<i16> = centres.into_iter().flat_map(|v| [v, -v]).skip(1).chain([-32768]).collect();
    for (i, &row) in centres.iter().enumerate() {
        for (k, &col) in centres.iter().enumerate() {
            let limit = LIMITS[(i * 2 + k) % 5];
            writer.diamond(Case { limit, ..case(NOISE, 60, (300, 300), (8, 9), SOURCES + 256, (row, col)) });
        }
    }
}

// Ramps along a row, along a column and along both: hundreds of rounds, some until the range ends.
fn add_walks(writer: &mut Writer) {
    let pictures = [(0, (512, 1)), (1, (1, 512)), (1, (256, 256))];
    let centres = [(0, 0), (-1020, -1020), (1020, 1020), (-1020, 1020), (32767, -32768), (-200, 400)];
    for (k, (cols, rows, _)) in RAMPS.into_iter().enumerate() {
        let (stride, size) = pictures[if cols == 0 { 1 } else { 2 * rows }];
        for (i, centre) in centres.into_iter().enumerate() {
            let at = [0, 8, 16, 20][(i + k) % 4];
            let mb = (at * cols as u64, at * rows as u64);
            let source = RAMP_SOURCES + 256 * k;
            for (start, limit) in [(RISE, u32::MAX), (RISE, LIMITS[i % 5]), (FALL, 65281)] {
                writer.diamond(Case { limit, ..case(start, stride, size, mb, source, centre) });
            }
        }
    }
}

// Pictures and macroblocks symmetric about the same axis, and a bowl: neighbours tie.
fn add_ties(writer: &mut Writer) {
    let centres = [(0, 0), (4, 4), (-4, 4), (8, -8), (0, 12), (-12, 0), (20, 20), (-36, -36)];
    for axis in 0..5 {
        for (i, centre) in centres.into_iter().enumerate() {
            for source in [SOURCES + 512 * axis, SOURCES + 512 * axis + 256, FLAT] {
                let limit = [u32::MAX, 1, 65281, 2][(i + source / 256) % 4];
                writer.all(Case { limit, ..case(MIRRORS + 2304 * axis, 48, (48, 48), (1, 1), source, centre) });
            }
        }
    }
    for (start, source) in [(BOWL, BLACK), (BOWL, WHITE), (HILL, BLACK), (HILL, WHITE)] {
        for (i, centre) in centres.into_iter().enumerate() {
            let mb = (i as u64 % 4, i as u64 / 2 % 4);
            for limit in [1, u32::MAX] {
                writer.all(Case { limit, ..case(start, 64, (64, 64), mb, source, centre) });
            }
        }
    }
}

// Every neighbour ties everywhere.
fn add_flat(writer: &mut Writer) {
    for (i, mv) in [(0, 0), (1020, 1020), (-1020, 1020), (1020, -1020), (-1020, -1020), (4, 0)].into_iter().enumerate()
    {
        for (start, source) in [(FLAT, FLAT), (FLAT, BLACK), (BLACK, WHITE), (WHITE, BLACK)] {
            writer.all(Case { limit: LIMITS[i % 5], ..case(start, 16, (16, 16), (0, 0), source, mv) });
            writer.all(Case { limit: LIMITS[4 - i % 5], ..case(start, 0, (400, 300), (3, 3), source, mv) });
        }
    }
}

// The ends of the range, in a picture that holds them and in one that does not.
fn add_corners(writer: &mut Writer) {
    let ends = [1020, -1020, 1022, -1022, 1023, -1023, 1016, 0];
    for row in ends {
        for col in ends {
            writer.all(case(NOISE, 30, (560, 560), (17, 17), SOURCES, (row, col)));
            writer.all(Case { limit: 1, ..case(NOISE, 33, (33, 31), (1, 0), SOURCES + 1024, (row, col)) });
        }
    }
}

// Sizes 1, 15 to 17 and 31 to 33 both ways: strides below, at and above the width; macroblocks in and out.
fn add_small_sizes(writer: &mut Writer) {
    let sizes = [1, 15, 16, 17, 31, 32, 33];
    let vectors = [(0, 0), (4, -4), (-8, 60), (2, 2), (-3, 5), (64, 64), (-128, 0), (-6, -2)];
    for (i, (w, h)) in sizes.iter().flat_map(|&w| sizes.map(|h| (w, h))).enumerate() {
        for k in 0..3 {
            let stride = [w, w + 3, w / 2, 0, w - 1][(i + k) % 5];
            let mb = [(0, 0), (1, 1), (2, 0), (0, 3), (1023, 1023)][(i * 2 + k) % 5];
            let source = SOURCES + 256 * ((i + k) % 10);
            let limit = LIMITS[(i + 3 * k) % 5];
            writer.all(Case { limit, ..case(NOISE + i * 100, stride, (w, h), mb, source, vectors[(i + k) % 8]) });
        }
    }
}

// Around the places where a macroblock and a halo begin to leave the picture.
fn add_bounds(writer: &mut Writer) {
    for at in [-17, -16, -15, -4, -3, -2, -1, 0, 1, 2, 3, 12, 13, 14, 15, 16, 17, 18, 31, 32, 33] {
        for part in [0, 2] {
            let moved = at * 4 + part;
            writer.all(Case { limit: 1, ..case(NOISE + 7, 50, (48, 48), (1, 1), SOURCES, (0, moved)) });
            writer.all(Case { limit: 1, ..case(NOISE + 7, 50, (48, 48), (1, 1), SOURCES, (moved, 0)) });
        }
    }
}

// Macroblocks predicted at a vector: the diamond from 0, then each refinement near the vector.
fn add_moved(writer: &mut Writer) {
    for (k, (row, col)) in MOVED.into_iter().enumerate() {
        let at = |mv| case(SMOOTH, 80, (80, 80), (2, 2), MOVED_SOURCES + 256 * k, mv);
        let near = |v: i16, grid: i16| v - v % grid;
        for limit in LIMITS {
            writer.diamond(Case { limit, ..at((0, 0)) });
        }
        writer.any(at((row, col)));
        writer.any(at((0, 0)));
        writer.whole(at((near(row, 4), near(col, 4))));
        writer.half(at((near(row, 4), near(col, 4))));
        writer.half(at((near(row + 2, 4), near(col - 2, 4))));
        writer.quarter(at((near(row, 2), near(col, 2))));
        writer.quarter(at((near(row + 1, 2), near(col - 1, 2))));
    }
}

fn add_random(writer: &mut Writer) {
    let mut random = Random::new(13);
    for i in 0..200 {
        let size = (1 + random.below(64), 1 + random.below(64));
        let stride = random.below(80);
        let mb = (random.below(5), random.below(5));
        let source = random.below(60000) as usize;
        let mut component = || random.below(512) as i16 - 256;
        let grid = [1, 2, 4, 4][i % 4];
        let mv = (component() / grid * grid, component() / grid * grid);
        let start = [NOISE, SMOOTH, MIRRORS, HILL][i / 4 % 4];
        let limit = [u32::MAX, 5, 1][i % 3];
        writer.all(Case { limit, ..case(start, stride, size, mb, source, mv) });
    }
}
