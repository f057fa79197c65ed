//! Cases of both fetches, by the size of the plane, the empty one first.

use super::COMPONENTS;
use crate::motion_comp::{fetch_luma_mb_halo, fetch_luma_mb_whole_pixel, stored_luma_mv};
use crate::motion_vector::Mv;
use crate::paper::Plane;
use crate::random::Random;
use crate::records::{Records, packed};
use crate::refusals::{Place, of_fetch};

const HUGE: u64 = u64::MAX;
const HALF: u64 = 1 << 63;

/// The largest plane of each group.
const GROUPS: [usize; 8] = [0, 1, 16, 64, 256, 1024, 4096, 32768];

#[derive(Clone, Copy)]
struct Case {
    len: usize,
    stride: u64,
    size: (u64, u64),
    origin: (u64, u64),
    mv: Mv,
    in_quarters: bool,
}

/// Adds the cases, and answers for each group its largest plane and its cases, both fetches counted.
pub fn add(records: &mut Records, planes: &[u8]) -> Vec<(usize, usize)> {
    let mut cases = Vec::new();
    add_sizes(&mut cases);
    add_short_planes(&mut cases);
    add_strides(&mut cases);
    add_origins(&mut cases);
    add_small_sizes(&mut cases);
    add_vectors(&mut cases);
    add_bounds(&mut cases);
    add_long_planes(&mut cases);
    add_random(&mut cases);
    cases.sort_by_key(|case| case.len);
    let mut groups = Vec::new();
    let mut written = 0;
    for most in GROUPS {
        let before = written;
        for case in cases.iter().filter(|case| case.len <= most).skip(before) {
            write(records, planes, case, written);
            written += 1;
        }
        records.add(0, 0, &[most as u64], &[]);
        groups.push((most, 2 * (written - before)));
    }
    assert_eq!(written, cases.len());
    groups
}

// Both fetches of one case; parts of `planes` start at different places.
fn write(records: &mut Records, planes: &[u8], case: &Case, index: usize) {
    let Case { len, stride, size: (width, height), origin: (x, y), mv, in_quarters } = *case;
    let start = if len < 8192 { index * 37 % (planes.len() - len) } else { planes.len() - len };
    let bytes = &planes[start..start + len];
    let refusal = of_fetch(Place { len: len as u64, stride, width, height, x, y });
    let (mut block, mut halo) = ([0; 256], [0; 441]);
    if refusal == 0 {
        let eighths = if in_quarters { stored_luma_mv(mv) } else { mv };
        let [stride, width, height, x, y] = [stride, width, height, x, y].map(|n| n as usize);
        block = fetch_luma_mb_whole_pixel(bytes, stride, width, height, x, y, eighths);
        halo = fetch_luma_mb_halo(bytes, stride, width, height, x, y, eighths);
        let plane = Plane { bytes, stride, width, height };
        assert_eq!(block[..], plane.macroblock(x, y, eighths), "whole-pixel fetch {width} by {height}");
        assert_eq!(halo[..], plane.halo(x, y, eighths), "halo fetch {width} by {height}");
    }
    let vector = packed(mv) + if in_quarters { 1 << 32 } else { 0 };
    let arguments = [start as u64, len as u64, stride, width, height, x, y, vector];
    records.add(1, refusal, &arguments, &[&block]);
    records.add(2, refusal, &arguments, &[&halo]);
}

fn case(len: usize, stride: u64, size: (u64, u64), origin: (u64, u64), mv: (i16, i16)) -> Case {
    Case { len, stride, size, origin, mv: Mv { row: mv.0, col: mv.1 }, in_quarters: false }
}

// The bytes that a plane needs, where that many are at hand.
fn needed(stride: u64, (width, height): (u64, u64)) -> Option<usize> {
    let bytes = u128::from(height).saturating_sub(1) * u128::from(stride) + u128::from(width);
    usize::try_from(bytes).ok().filter(|&bytes| bytes <= super::PLANES)
}

// Legal and illegal widths and heights, over many bytes and over none.
fn add_sizes(cases: &mut Vec<Case>) {
    let sizes = [0, 1, 16383, 16384, HUGE];
    for width in sizes {
        for height in sizes {
            cases.push(case(super::PLANES, 0, (width, height), (0, 0), (0, 0)));
            cases.push(case(0, 0, (width, height), (0, 0), (0, 0)));
        }
    }
    // two and three refusals at once
    for (len, width, x) in [(0, 16384, 16369), (4, 0, HUGE), (15, 16, 16369), (15, 16, HUGE), (16, 16384, 16369)] {
        cases.push(case(len, 16, (width, 1), (x, 0), (0, 0)));
        cases.push(case(len, 16, (width, 1), (0, x), (0, 0)));
    }
}

// Planes of exactly the bytes needed, one more, one fewer, and none.
fn add_short_planes(cases: &mut Vec<Case>) {
    let shapes = [
        (1, (1, 1)),
        (0, (1, 1)),
        (1, (2, 1)),
        (2, (2, 2)),
        (15, (15, 3)),
        (16, (16, 16)),
        (0, (16, 16)),
        (5, (16, 16)),
        (17, (17, 33)),
        (40, (33, 17)),
        (0, (16383, 2)),
        (1, (1, 16383)),
        (2, (1, 16383)),
        (1, (16383, 16383)),
    ];
    for (stride, size) in shapes {
        let len = needed(stride, size).unwrap();
        for len in [len, len + 1, len - 1, 0] {
            cases.push(case(len, stride, size, (0, 0), (-3, 5)));
        }
    }
}

// Strides from 0 to the largest, with one row and with more; some products would wrap to a small number.
fn add_strides(cases: &mut Vec<Case>) {
    for stride in [0, 1, 15, 16, 17, 1 << 32, HALF, HUGE - 15, HUGE] {
        cases.push(case(16, stride, (16, 1), (0, 0), (9, -9)));
        cases.push(case(33, stride, (16, 2), (0, 0), (9, -9)));
        cases.push(case(16, stride, (16, 2), (0, 0), (0, 0)));
    }
    let wraps = HUGE / 16382 + 1;
    for (stride, size) in [(HALF, (1, 3)), (HALF, (16, 3)), (HALF - 1, (2, 3)), (HUGE, (1, 2)), (HUGE, (2, 2))] {
        cases.push(case(64, stride, size, (0, 0), (0, 0)));
    }
    for (stride, size) in [(wraps, (1, 16383)), (wraps - 1, (1, 16383)), (wraps, (16383, 16383)), (1 << 60, (1, 17))] {
        cases.push(case(super::PLANES, stride, size, (0, 0), (0, 0)));
    }
}

fn add_origins(cases: &mut Vec<Case>) {
    for x in [0, 16, 16368, 16369, HALF, HUGE] {
        for y in [0, 16, 16368, 16369, HALF, HUGE] {
            cases.push(case(17 * 17, 17, (17, 17), (x, y), (0, 0)));
        }
    }
    for v in [32767, -32768] {
        cases.push(case(17 * 17, 17, (17, 17), (16368, 16368), (v, v)));
        cases.push(case(17 * 17, 17, (17, 17), (4090, 4095), (v, v)));
    }
}

// Sizes 1, 15 to 17 and 31 to 33 both ways: strides below, at and above the width, origins in and out.
fn add_small_sizes(cases: &mut Vec<Case>) {
    let sizes = [1, 15, 16, 17, 31, 32, 33];
    let near = [0, 1, -1, 7, -7, 8, -8, 16, -17, 60, -60, 127, -128];
    for (i, (w, h)) in sizes.iter().flat_map(|&w| sizes.map(|h| (w, h))).enumerate() {
        let strides = [w, w + 1, w - 1, 0, w + 31, w / 2];
        let origins = [(0, 0), (w - 1, h - 1), (w, h), (16, h / 2), (w / 2, 16), (16368, 16368)];
        for (k, stride) in strides.into_iter().enumerate() {
            let mv = if k % 3 == 2 {
                (COMPONENTS[(i * 5 + k) % 16], COMPONENTS[(i * 3 + k * 7 + 1) % 16])
            } else {
                (near[(i + k * 5) % 13], near[(i * 4 + k) % 13])
            };
            let len = needed(stride, (w, h)).unwrap();
            cases.push(case(len, stride, (w, h), origins[(i + k) % 6], mv));
        }
    }
}

// Every pair of the named components, in eighths and, fewer, in quarters; a stride below the width makes
// a picture that is larger than its bytes, so that moderate vectors stay inside.
fn add_vectors(cases: &mut Vec<Case>) {
    for row in COMPONENTS {
        for col in COMPONENTS {
            cases.push(case(299 * 60 + 300, 60, (300, 300), (140, 141), (row, col)));
        }
    }
    for (i, row) in COMPONENTS.into_iter().enumerate() {
        for k in [0, 1, 6, 11] {
            let mut one = case(559 * 50 + 560, 50, (560, 560), (272, 271), (row, COMPONENTS[(i + k) % 16]));
            one.in_quarters = true;
            cases.push(one);
        }
    }
}

// Around the places where a macroblock and a halo begin to leave the plane, by origin and by vector.
fn add_bounds(cases: &mut Vec<Case>) {
    let (len, stride, size) = (47 * 50 + 48, 50, (48, 48));
    for at in [0, 1, 2, 3, 28, 29, 30, 31, 32, 33] {
        let shift = (at as i16 - 16) * 8;
        cases.push(case(len, stride, size, (at, 16), (0, 0)));
        cases.push(case(len, stride, size, (16, at), (0, 0)));
        cases.push(case(len, stride, size, (at, at), (7, 7)));
        cases.push(case(len, stride, size, (16, 16), (0, shift)));
        cases.push(case(len, stride, size, (16, 16), (shift, 0)));
    }
    for back in [-8, -9, -16, -17, -24] {
        cases.push(case(len, stride, size, (0, 0), (back, 0)));
        cases.push(case(len, stride, size, (1, 2), (0, back)));
    }
}

// One row of 16383 samples, one column of 16383, and both.
fn add_long_planes(cases: &mut Vec<Case>) {
    for (k, at) in [0, 8000, 16364, 16367, 16368].into_iter().enumerate() {
        for (j, v) in [0, 8, -23, 32767, -32768].into_iter().enumerate() {
            let stride = [0, 16383, HUGE][(k + j) % 3];
            cases.push(case(16383, stride, (16383, 1), (at, 16 * j as u64), (0, v)));
            let stride = 1 + (k + j) as u64 % 2;
            cases.push(case(needed(stride, (1, 16383)).unwrap(), stride, (1, 16383), (j as u64, at), (v, 0)));
        }
        cases.push(case(32765, 1, (16383, 16383), (at, at), (0, 0)));
    }
}

fn add_random(cases: &mut Vec<Case>) {
    let mut random = Random::new(7);
    for i in 0..120 {
        let size = (1 + random.below(64), 1 + random.below(64));
        let stride = random.below(80);
        let origin = (random.below(size.0 + 20), random.below(size.1 + 20));
        let mut small = || random.below(800) as i16 - 400;
        let mv = if i % 4 == 0 { (random.component(), random.component()) } else { (small(), small()) };
        let len = needed(stride, size).unwrap() + (random.below(3) as usize).saturating_sub(1);
        let mut one = case(len, stride, size, origin, mv);
        one.in_quarters = i % 3 == 0;
        cases.push(one);
    }
}
