//! Cases at the edge of each refusal, 23, 8, 9, 14 and 15, beside those that are still accepted, and with several at
//! once.

use super::samples::{LEN, NOISE, SMOOTH};
use super::{Case, Part, ROOM, VERSIONS, Writer, case, needed};

pub const HUGE: u64 = u64::MAX;
const HALF: u64 = 1 << 63;

pub fn add(writer: &mut Writer) {
    add_versions(writer);
    add_sizes(writer);
    add_short_planes(writer);
    add_strides(writer);
    add_lists(writer);
    add_long_lists(writer);
    add_together(writer);
}

/// Both planes are noise; the source is other noise.
pub fn noise(size: (u64, u64), stride: u64, source_stride: u64) -> Case {
    Case { limit: 3, ..case(size, (NOISE, stride), (NOISE + 77, source_stride)) }
}

// 23: the versions around the last one, and the largest byte.
fn add_versions(writer: &mut Writer) {
    let picture = noise((20, 18), 20, 22);
    for version in VERSIONS {
        writer.accepted(Case { version, ..picture });
    }
    for version in [3, 4, 128, 255] {
        writer.refused(23, Case { version, ..picture });
    }
}

// 8: legal and illegal widths and heights, over no bytes and over many, with empty lists and with long ones.
fn add_sizes(writer: &mut Writer) {
    let sizes = [0, 1, 16383, 16384, HUGE];
    for size in sizes.iter().flat_map(|&width| sizes.map(|height| (width, height))) {
        for (len, entries) in [(0, 0), (0, ROOM), (32765, 0), (32765, ROOM)] {
            let plane = Part { start: NOISE, len, stride: 1 };
            let source = Part { start: SMOOTH, len, stride: 1 };
            let one = Case { size, reference: plane, source, limit: 1, version: 1, lists: [entries; 3] };
            let legal = |n: u64| n == 1 || n == 16383;
            match (legal(size.0) && legal(size.1), len, entries) {
                (false, _, _) => writer.refused(8, one),
                (true, 0, _) => writer.refused(9, one),
                (true, _, 0) => writer.refused(15, one),
                (true, _, _) if size == (16383, 16383) => writer.refused(15, one),
                (true, _, _) => drop(writer.accepted(one)),
            }
        }
    }
}

// 9 and 14: a plane of exactly the bytes needed, of one more, of one fewer, and of none.
fn add_short_planes(writer: &mut Writer) {
    let shapes = [
        (1, (1, 1)),
        (0, (1, 1)),
        (0, (16, 16)),
        (5, (16, 16)),
        (16, (16, 16)),
        (20, (16, 16)),
        (17, (17, 33)),
        (33, (17, 2)),
        (3, (33, 31)),
    ];
    for (stride, size) in shapes {
        let enough = needed(stride, size);
        for len in [enough, enough + 1, enough - 1, 0] {
            add_each(writer, noise(size, size.0, size.0), (len, stride), len < enough);
        }
    }
    // the widest, the highest and the largest picture, each a byte short
    for (size, stride) in [((16383, 2), 0), ((1, 16383), 1), ((16383, 16383), 1)] {
        let whole = Case { lists: [ROOM; 3], ..noise(size, stride, stride) };
        let fewer = |part: Part| Part { len: part.len - 1, ..part };
        writer.refused(9, Case { reference: fewer(whole.reference), ..whole });
        writer.refused(14, Case { source: fewer(whole.source), ..whole });
    }
}

// 9 and 14 at strides beyond all bytes: one row is legal, and no product wraps to a few bytes.
fn add_strides(writer: &mut Writer) {
    for stride in [1 << 32, HALF - 1, HALF, HALF + 1, HUGE - 15, HUGE] {
        for height in [1, 2, 3] {
            add_each(writer, noise((40, height), 40, 40), (120, stride), height > 1);
        }
    }
    let wraps = HUGE / 16382 + 1;
    for (stride, height) in [(wraps, 16383), (wraps - 1, 16383), (1 << 60, 17), (HALF, 3)] {
        let near = Case { lists: [ROOM; 3], ..noise((1, height), 0, 0) };
        let far = Part { start: NOISE, len: LEN, stride };
        writer.refused(9, Case { reference: far, ..near });
        writer.refused(14, Case { source: far, ..near });
    }
}

// A length and a stride for the reference, for the source, then for both; the other plane is whole.
fn add_each(writer: &mut Writer, whole: Case, (len, stride): (usize, u64), short: bool) {
    let made = |part: Part| Part { len, stride, ..part };
    let one = Case { reference: made(whole.reference), ..whole };
    let other = Case { source: made(whole.source), ..whole };
    let both = Case { source: made(whole.source), ..one };
    for (refusal, case) in [(9, one), (14, other), (9, both)] {
        if short {
            writer.refused(refusal, case);
        } else {
            writer.accepted(case);
        }
    }
}

// 15: each set of the three lists one entry short, and empty, the others exactly long enough.
fn add_lists(writer: &mut Writer) {
    for size in [(1, 1), (16, 16), (17, 16), (16, 17), (33, 20), (16383, 1), (1, 16383)] {
        let exact = noise(size, 0, 0);
        let all = exact.lists[0];
        for bits in 1..8 {
            for short in if all == 1 { vec![0] } else { vec![all - 1, 0] } {
                let lists = [0, 1, 2].map(|k| if bits >> k & 1 == 1 { short } else { all });
                writer.refused(15, Case { lists, ..exact });
            }
        }
    }
}

// Lists longer than the count: what stands behind it has to stay.
fn add_long_lists(writer: &mut Writer) {
    for (i, size) in [(1, 1), (16, 16), (17, 17), (33, 16), (16, 40), (70, 50)].into_iter().enumerate() {
        let exact = noise(size, size.0, size.0 + 5);
        for more in [[1, 0, 0], [0, 1, 0], [0, 0, 1], [1, 1, 1], [9, 2, 40]] {
            let lists = [0, 1, 2].map(|k| exact.lists[k] + more[k]);
            writer.accepted(Case { lists, version: VERSIONS[i % 3], ..exact });
        }
        writer.accepted(Case { lists: [ROOM; 3], ..exact });
    }
}

// Every set of refusals at once, the empty one included: the earliest is given.
fn add_together(writer: &mut Writer) {
    for bits in 0..32 {
        for (form, version) in [3, 255, 4].into_iter().enumerate() {
            let one = together(bits, form, version);
            match [23, 8, 9, 14, 15].into_iter().enumerate().find(|(k, _)| bits >> k & 1 == 1) {
                Some((_, first)) => writer.refused(first, one),
                None => drop(writer.accepted(one)),
            }
        }
    }
}

/// Of 23, 8, 9, 14 and 15 those with a bit. The forms break the size and the lists each in their own way.
pub fn together(bits: u32, form: usize, version: u8) -> Case {
    let is = |k: u32| bits >> k & 1 == 1;
    let whole = noise((20, 24), 20, 23);
    let size = if is(1) { [(16384, 24), (20, 16384), (0, 24)][form] } else { whole.size };
    let short = |part: Part, is: bool| Part { len: if is { part.len - 1 } else { 20000 }, ..part };
    let mut lists = [4, 5, 6];
    if is(4) {
        lists[form] = 3;
    }
    let (reference, source) = (short(whole.reference, is(2)), short(whole.source, is(3)));
    Case { size, reference, source, version: if is(0) { version } else { form as u8 }, lists, ..whole }
}
