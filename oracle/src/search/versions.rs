//! Cases of the three calls that take a version: the bilinear filters of versions 1 and 2, and 23 beyond them, alone and
//! with every other refusal.

use super::accepted::case;
use super::samples::{
    BLACK, BLENDED, BLENDED_SOURCE, FLAT, MIRRORS, MOVED, MOVED_SOURCES, NOISE, SMOOTH, SOURCES, WHITE,
};
use super::{Case, Writer, refused};
use crate::motion_search::LumaRef;
use crate::motion_vector::Mv;
use crate::paper::{Plane, doubled, fraction, macroblock_bilinear};
use crate::random::Random;
use crate::versions::quarter_pixel_refine_luma;

const BILINEAR: [u8; 2] = [1, 2];

pub fn add(writer: &mut Writer) {
    add_fractions(writer);
    add_orders(writer);
    add_edges(writer);
    add_small_sizes(writer);
    add_bounds(writer);
    add_corners(writer);
    add_blended(writer);
    add_moved(writer);
    add_random(writer);
    add_refused(writer);
}

// Noise, smooth, flat, black above white and black beside white, each with a macroblock of it and its source.
fn pictures() -> [Case; 7] {
    [
        case(NOISE, 60, (60, 60), (1, 2), SOURCES + 256, (0, 0)),
        case(SMOOTH, 80, (80, 80), (2, 2), MOVED_SOURCES, (0, 0)),
        case(MIRRORS, 48, (48, 48), (1, 1), SOURCES, (0, 0)),
        case(FLAT, 16, (40, 40), (0, 1), FLAT, (0, 0)),
        case(FLAT, 16, (40, 40), (2, 0), BLACK, (0, 0)),
        case(BLACK, 32, (32, 32), (0, 0), BLACK, (0, 0)),
        case(WHITE - 16, 0, (32, 20), (0, 0), WHITE, (0, 0)),
    ]
}

// Every pair of fractions that quarter pixels give, and the refinements about centres with each fraction of theirs.
fn add_fractions(writer: &mut Writer) {
    for (k, picture) in pictures().into_iter().enumerate() {
        let (down, across) = [(0, 0), (-4, 8), (12, -16), (64, 0)][k % 4];
        for version in BILINEAR {
            let at = |row: i16, col: i16| Case { version, mv: (down + row, across + col), ..picture };
            for i in 0..16 {
                writer.any(at(i / 4, i % 4));
            }
            for i in 0..4 {
                writer.half(at(i / 2 * 4, i % 2 * 4));
                writer.quarter(at(i / 2 * 2, i % 2 * 2));
            }
        }
    }
}

// Both fractions in noise against black and white: the SAD would be another with the vertical pass first, and with one
// rounding for both passes.
fn add_orders(writer: &mut Writer) {
    for (row, col) in (0..9).map(|i| (1 + i / 3, 1 + i % 3)) {
        for (version, source) in [(1, BLACK), (2, WHITE)] {
            let one = Case { version, ..case(NOISE + 297, 50, (48, 48), (1, 1), source, (row, col)) };
            let [sum, vertical_first, rounded_once] = sums(writer.reference(&one), one.vector());
            assert_ne!(sum, vertical_first, "the order of the passes at {row}, {col}");
            assert_ne!(sum, rounded_once, "a rounding in each pass at {row}, {col}");
            writer.any(one);
        }
    }
}

// The predicted samples of the macroblock (1, 1), summed up; with the passes swapped, as they are where the halo's rows are
// its columns; with one rounding.
fn sums(reference: LumaRef, mv: Mv) -> [u32; 3] {
    let LumaRef { plane: bytes, stride, width, height } = reference;
    let eighths = Mv { row: doubled(mv.row), col: doubled(mv.col) };
    let [mx, my] = [eighths.col, eighths.row].map(|v| fraction(v) as usize);
    let halo = Plane { bytes, stride, width, height }.halo(16, 16, eighths);
    let turned: Vec<u8> = (0..441).map(|i| halo[i % 21 * 21 + i / 21]).collect();
    let sum = |samples: Vec<u8>| samples.into_iter().map(u32::from).sum();
    let at = |r: usize, c: usize| u32::from(halo[r * 21 + c]);
    let across = |r: usize, c: usize| (8 - mx as u32) * at(r, c) + mx as u32 * at(r, c + 1);
    let both = |r: usize, c: usize| ((8 - my as u32) * across(r, c) + my as u32 * across(r + 1, c) + 32) / 64;
    let once = (0..256).map(|i| both(2 + i / 16, 2 + i % 16)).sum();
    [sum(macroblock_bilinear(&halo, mx, my)), sum(macroblock_bilinear(&turned, my, mx)), once]
}

// Each macroblock of a picture, with whole ones at the edges and with cut ones, and macroblocks beyond it.
fn add_edges(writer: &mut Writer) {
    let beyond = [(3, 3), (1023, 0), (0, 1023), (1023, 1023)];
    for mb in (0..9).map(|i| (i % 3, i / 3)).chain(beyond) {
        for (version, size) in [(1, (48, 48)), (2, (40, 37))] {
            let at = |mv| Case { version, ..case(NOISE + 9, 50, size, mb, SOURCES + 768, mv) };
            for mv in [(1, 1), (-1, -1), (-3, 2), (66, -66)] {
                writer.any(at(mv));
            }
            writer.half(at((0, 0)));
            writer.quarter(at((2, -2)));
        }
    }
}

// Sizes 1, 2, 16 and 17 both ways; strides below, at and above the width.
fn add_small_sizes(writer: &mut Writer) {
    let sizes = [1, 2, 16, 17];
    for (i, (w, h)) in sizes.iter().flat_map(|&w| sizes.map(|h| (w, h))).enumerate() {
        for version in BILINEAR {
            let stride = [w, w + 3, w / 2, 0][(i + usize::from(version)) % 4];
            let mv = [(0, 0), (4, -4), (-8, 60), (-64, -8)][(i / 2 + usize::from(version)) % 4];
            let mb = [(0, 0), (1, 0), (0, 1)][i % 3];
            writer.versioned(Case { version, ..case(NOISE + i * 100, stride, (w, h), mb, SOURCES + 256, mv) });
        }
    }
}

// Around the places where the samples that are blended, or a halo, begin to leave the picture.
fn add_bounds(writer: &mut Writer) {
    for (i, at) in [-17, -16, -15, -3, -2, -1, 0, 1, 12, 13, 14, 15, 16, 17, 31, 32, 33].into_iter().enumerate() {
        for part in 1..4 {
            let moved = at * 4 + part;
            let version = BILINEAR[(i + part as usize) % 2];
            let one = |mv| Case { version, ..case(NOISE + 7, 50, (48, 48), (1, 1), SOURCES, mv) };
            writer.any(one((0, moved)));
            writer.any(one((moved, 0)));
        }
    }
}

// The ends of the range, in a picture that holds them and in one that does not.
fn add_corners(writer: &mut Writer) {
    let ends = [1020, -1020, 1022, -1022, 1023, -1023, 0];
    for (i, (row, col)) in ends.iter().flat_map(|&row| ends.map(|col| (row, col))).enumerate() {
        let (one, other) = (BILINEAR[i % 2], BILINEAR[(i + 1) % 2]);
        writer.versioned(Case { version: one, ..case(NOISE, 30, (560, 560), (17, 17), SOURCES, (row, col)) });
        writer.versioned(Case { version: other, ..case(NOISE, 33, (33, 31), (1, 0), SOURCES + 1024, (row, col)) });
    }
}

// A macroblock that the bilinear filter makes: at versions 1 and 2 its vector is found with SAD 0, at 0 nothing is.
fn add_blended(writer: &mut Writer) {
    for version in 0..3 {
        let at = |mv| Case { version, ..case(SMOOTH, 80, (80, 80), (2, 2), BLENDED_SOURCE, mv) };
        for mv in [BLENDED, (4, 0), (2, -2), (0, 0)] {
            writer.any(at(mv));
        }
        for mv in [(0, 0), (4, 0)] {
            writer.half(at(mv));
        }
        for mv in [(2, -2), (2, 0), (4, 0)] {
            let one = at(mv);
            let (reference, source) = (writer.reference(&one), writer.block(one.source));
            let found = quarter_pixel_refine_luma(reference, (2, 2), source, one.vector(), version);
            assert_eq!(found.sad == 0, version > 0, "from {mv:?} at version {version}");
            writer.quarter(one);
        }
    }
}

// Macroblocks that the six-tap filter makes, every second one with noise.
fn add_moved(writer: &mut Writer) {
    for (k, (row, col)) in MOVED.into_iter().enumerate() {
        let version = BILINEAR[k / 2 % 2];
        let at = |mv| Case { version, ..case(SMOOTH, 80, (80, 80), (2, 2), MOVED_SOURCES + 256 * k, mv) };
        let near = |grid: i16| (row - row % grid, col - col % grid);
        writer.any(at((row, col)));
        writer.half(at(near(4)));
        writer.quarter(at(near(2)));
    }
}

fn add_random(writer: &mut Writer) {
    let mut random = Random::new(15);
    for i in 0..60 {
        let size = (1 + random.below(64), 1 + random.below(64));
        let stride = random.below(80);
        let mb = (random.below(5), random.below(5));
        let source = random.below(60000) as usize;
        let grid = [1, 2, 4][i % 3];
        let mut component = || (random.below(512) as i16 - 256) / grid * grid;
        let mv = (component(), component());
        let (start, version) = ([NOISE, SMOOTH, MIRRORS][i / 3 % 3], BILINEAR[i % 2]);
        writer.versioned(Case { version, ..case(start, stride, size, mb, source, mv) });
    }
}

// At versions 1 and 2 each set of the refusals 8 to 12, none included; 23 alone, with each of them and with all.
fn add_refused(writer: &mut Writer) {
    for (version, bits) in BILINEAR.into_iter().flat_map(|version| (0..32).map(move |bits| (version, bits))) {
        writer.versioned(Case { version, ..refused::together(bits, version == 2) });
    }
    for (i, version) in [3, 4, 128, 255].into_iter().enumerate() {
        for bits in [0, 1, 2, 4, 8, 16, 31] {
            writer.versioned(Case { version, ..refused::together(bits, i % 2 == 1) });
        }
    }
}
