//! Cases of the search within an allowance at the edge of each refusal, 23, 8, 9, 14, 15 and 30, beside those that are
//! still accepted, and with several at once.

use super::refused::{HUGE, noise, together};
use super::within::least;
use super::{Case, Part, ROOM, VERSIONS, Writer};

pub fn add(writer: &mut Writer) {
    add_allowances(writer);
    add_versions(writer);
    add_sizes(writer);
    add_short_planes(writer);
    add_lists(writer);
    add_long_lists(writer);
    add_together(writer);
}

// 30: one below 19 for each macroblock, 19 for each, and far below.
fn add_allowances(writer: &mut Writer) {
    let sizes = [(1, 1), (16, 16), (17, 16), (16, 17), (33, 20), (40, 33), (64, 48), (16383, 1), (1, 16383)];
    for (i, size) in sizes.into_iter().enumerate() {
        let picture = Case { version: VERSIONS[i % 3], ..noise(size, 0, 1) };
        let enough = least(&picture);
        for limit in [enough - 1, enough / 19 * 18, 1, 0] {
            writer.not_allowed(30, Case { limit, ..picture });
        }
        let got = writer.allowed(Case { limit: enough, ..picture });
        assert_eq!(got.comparisons, enough.into());
        assert!(got.grants.iter().all(|&grant| grant == 19));
    }
}

// 23, with allowances that are legal and that are not.
fn add_versions(writer: &mut Writer) {
    let picture = noise((20, 18), 20, 22);
    for limit in [least(&picture), u32::MAX] {
        for version in VERSIONS {
            writer.allowed(Case { version, limit, ..picture });
        }
    }
    for version in [3, 4, 128, 255] {
        for limit in [0, least(&picture) - 1, least(&picture), u32::MAX] {
            writer.not_allowed(23, Case { version, limit, ..picture });
        }
    }
}

// 8, over no bytes and over many; the largest size is legal, and its macroblocks are too many for the lists.
fn add_sizes(writer: &mut Writer) {
    for size in [(0, 1), (1, 0), (0, 0), (16384, 1), (1, 16384), (16384, 16384), (HUGE, 1), (1, HUGE), (16383, 16383)] {
        for (len, entries) in [(0, 0), (32765, ROOM)] {
            let plane = Part { start: 0, len, stride: 1 };
            for limit in [0, u32::MAX] {
                let one = Case { size, reference: plane, source: plane, limit, version: 1, lists: [entries; 3] };
                let refusal = match (size.0, len) {
                    (16383, 0) => 9,
                    (16383, _) => 15,
                    _ => 8,
                };
                writer.not_allowed(refusal, one);
            }
        }
    }
}

// 9 and 14: a byte short, and a stride beyond all bytes, which one row does not need.
fn add_short_planes(writer: &mut Writer) {
    let whole = noise((20, 18), 20, 22);
    let fewer = |part: Part| Part { len: part.len - 1, ..part };
    for limit in [least(&whole) - 1, least(&whole), u32::MAX] {
        let one = Case { reference: fewer(whole.reference), limit, ..whole };
        let other = Case { source: fewer(whole.source), limit, ..whole };
        writer.not_allowed(9, one);
        writer.not_allowed(14, other);
        writer.not_allowed(9, Case { source: other.source, ..one });
    }
    for height in [1, 2] {
        let near = noise((40, height), 40, 40);
        let far = |part: Part| Part { stride: HUGE, ..part };
        let one = Case { reference: far(near.reference), limit: least(&near), ..near };
        let other = Case { source: far(near.source), limit: least(&near), ..near };
        if height == 1 {
            writer.allowed(one);
            writer.allowed(other);
        } else {
            writer.not_allowed(9, one);
            writer.not_allowed(14, other);
        }
    }
}

// 15: each list one entry short, and empty.
fn add_lists(writer: &mut Writer) {
    for size in [(1, 1), (17, 16), (33, 20)] {
        let exact = noise(size, 0, 0);
        let all = exact.lists[0];
        for (k, short) in [0, 1, 2].into_iter().flat_map(|k| [(k, all - 1), (k, 0)]) {
            let mut lists = [all; 3];
            lists[k] = short;
            for limit in [least(&exact) - 1, least(&exact), u32::MAX] {
                writer.not_allowed(15, Case { lists, limit, ..exact });
            }
        }
    }
}

// Lists longer than the count: what stands behind it has to stay.
fn add_long_lists(writer: &mut Writer) {
    for (i, size) in [(1, 1), (16, 16), (17, 17), (33, 16), (50, 40)].into_iter().enumerate() {
        let exact = Case { version: VERSIONS[i % 3], ..noise(size, size.0, size.0 + 5) };
        for (k, more) in [[1, 0, 0], [0, 1, 0], [0, 0, 1], [9, 2, 40]].into_iter().enumerate() {
            let lists = [0, 1, 2].map(|k| exact.lists[k] + more[k]);
            let limit = [least(&exact), least(&exact) + 9, 2 * least(&exact), u32::MAX][k];
            writer.allowed(Case { lists, limit, ..exact });
            writer.not_allowed(30, Case { lists, limit: least(&exact) - 1, ..exact });
        }
        writer.allowed(Case { lists: [ROOM; 3], limit: 3 * least(&exact), ..exact });
    }
}

// Every set of refusals at once, the empty one included: the earliest is given.
fn add_together(writer: &mut Writer) {
    for bits in 0..64 {
        for (form, version) in [3, 255, 4].into_iter().enumerate() {
            let enough = 19 * 4;
            let low = bits >> 5 & 1 == 1;
            let limit = if low { [enough - 1, 0, enough / 2][form] } else { [enough, u32::MAX, enough + 4][form] };
            let one = Case { limit, ..together(bits, form, version) };
            match [23, 8, 9, 14, 15, 30].into_iter().enumerate().find(|(k, _)| bits >> k & 1 == 1) {
                Some((_, first)) => writer.not_allowed(first, one),
                None => drop(writer.allowed(one)),
            }
        }
    }
}
