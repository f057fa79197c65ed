//! Cases at the edge of each refusal, 8 to 12, and with several at once; the empty plane first.

use super::samples::{NOISE, SEARCHED, SOURCES};
use super::{Case, Writer, needed};

const HUGE: u64 = u64::MAX;
const HALF: u64 = 1 << 63;

pub fn add(writer: &mut Writer) {
    add_sizes(writer);
    add_short_planes(writer);
    add_macroblocks(writer);
    add_vectors(writer);
    add_together(writer);
}

fn case(len: usize, stride: u64, size: (u64, u64), mb: (u64, u64), mv: (i16, i16)) -> Case {
    Case { start: NOISE, len, stride, size, mb, source: SOURCES, mv, limit: 3, version: 0 }
}

// 8: legal and illegal widths and heights, over no bytes and over many.
fn add_sizes(writer: &mut Writer) {
    let sizes = [0, 1, 16383, 16384, HUGE];
    for len in [0, 32765] {
        for width in sizes {
            for height in sizes {
                writer.all(case(len, 1, (width, height), (0, 0), (4, -8)));
            }
        }
    }
}

// 9: planes of exactly the bytes needed, one more, one fewer, and none; products that would wrap to few.
fn add_short_planes(writer: &mut Writer) {
    let shapes = [
        (1, (1, 1)),
        (0, (1, 1)),
        (0, (16, 16)),
        (5, (16, 16)),
        (16, (16, 16)),
        (17, (17, 33)),
        (0, (16383, 2)),
        (1, (1, 16383)),
        (1, (16383, 16383)),
    ];
    for (stride, size) in shapes {
        let enough = needed(stride, size);
        for len in [enough, enough + 1, enough - 1, 0] {
            writer.all(case(len, stride, size, (0, 0), (-4, 4)));
        }
    }
    let wraps = HUGE / 16382 + 1;
    for stride in [1 << 32, HALF, HUGE - 15, HUGE] {
        for height in [1, 2, 3] {
            writer.all(case(48, stride, (16, height), (0, 0), (0, 0)));
        }
    }
    for (stride, height) in [(wraps, 16383), (wraps - 1, 16383), (1 << 60, 17)] {
        writer.all(case(SEARCHED, stride, (1, height), (0, 0), (0, 0)));
    }
}

// 10: macroblocks at 1023 and beyond.
fn add_macroblocks(writer: &mut Writer) {
    for col in [0, 1023, 1024, HALF, HUGE] {
        for row in [0, 1023, 1024, HUGE] {
            writer.all(case(17 * 17, 17, (17, 17), (col, row), (4, 8)));
        }
    }
    for mb in [(1023, 1023), (1023, 0), (0, 1023)] {
        writer.all(case(32765, 1, (16383, 16383), mb, (1020, 1020)));
    }
}

// 11 and 12: components around 1023, and off the grids of 4 and of 2, in the row, in the column and in both.
fn add_vectors(writer: &mut Writer) {
    let far = [1020, 1021, 1022, 1023, 1024, 1025, 1026, 2048, 32767];
    let near = [1, 2, 3, 4, 5, 6];
    let mirrored = far.into_iter().chain(near).flat_map(|v: i16| [v, -v]);
    for v in mirrored.chain([-32768]) {
        for mv in [(v, 0), (0, v), (v, v), (v, 2), (1, v)] {
            writer.all(case(40 * 40, 40, (40, 40), (1, 1), mv));
        }
    }
}

// Each pair of refusals at once, and all of them: the earlier number wins.
fn add_together(writer: &mut Writer) {
    for bits in 1..32 {
        for swapped in [false, true] {
            writer.all(together(bits, swapped));
        }
    }
    for both in [1025, -1025, 1026, 32767, -32767] {
        writer.all(case(400, 20, (20, 20), (0, 0), (both, 0)));
    }
}

/// Of the refusals 8 to 12 those with a bit; `swapped` with rows and columns exchanged.
pub fn together(bits: u32, swapped: bool) -> Case {
    let is = |k: u32| bits >> k & 1 == 1;
    let size = if is(0) { (16384, 20) } else { (20, 20) };
    let len = if is(1) { 399 } else { 20000 };
    let mb = if is(2) { (0, 1024) } else { (0, 1) };
    let (far, odd) = (if is(3) { 1024 } else { 0 }, if is(4) { 3 } else { 0 });
    if swapped {
        case(len, 20, (size.1, size.0), (mb.1, mb.0), (odd, far))
    } else {
        case(len, 20, size, mb, (far, odd))
    }
}
