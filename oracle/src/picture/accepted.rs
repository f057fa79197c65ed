//! Cases that are accepted: small sizes, walks, moved textures, symmetric and transposed pictures, the same picture
//! twice, and random ones.

use super::samples::{
    BLACK, BLENDED, BOWL, CLIMB, DESCENT, FALL, FILTERED, FLAT, INNER, LEN, MIRRORS, NOISE, OFF_AXIS, RISE, SMOOTH,
    TALL, WHITE, WIDE,
};
use super::{Case, Entry, LIMITS, VERSIONS, Writer, case, needed};
use crate::random::Random;

pub fn add(writer: &mut Writer) {
    add_small_sizes(writer);
    add_walks(writer);
    add_ends(writer);
    add_moved(writer);
    add_symmetric(writer);
    add_transposed(writer);
    add_same(writer);
    add_flat(writer);
    add_random(writer);
}

/// One sample: it is repeated all over both macroblocks, so every vector ties, and the zero vector stays.
pub fn add_smallest(writer: &mut Writer) {
    for (limit, version) in LIMITS.into_iter().flat_map(|limit| VERSIONS.map(|version| (limit, version))) {
        let one = Case { limit, version, ..case((1, 1), (FLAT, 1), (WHITE, 1)) };
        assert_eq!(writer.accepted(one), [(0, 0, 256 * (255 - 77))]);
    }
}

// Sizes 1, 15 to 17 and 31 to 33 both ways at each version; strides at, above and below the width, and 0.
fn add_small_sizes(writer: &mut Writer) {
    let sizes = [1, 15, 16, 17, 31, 32, 33];
    for (i, (w, h)) in sizes.iter().flat_map(|&w| sizes.map(|h| (w, h))).enumerate() {
        for version in VERSIONS {
            let k = usize::from(version);
            let stride = |k: usize| [w, w + 3, w / 2, 0, w - 1, 96][k % 6];
            let start = [NOISE + i * 50, INNER + i * 7][(i + k) % 2];
            let source = [start + 98, NOISE + 3000 + i, start + 1][(i + 2 * k) % 3];
            let limit = LIMITS[(i + 3 * k) % 5];
            let one = case((w, h), (start, stride(i + k)), (source, stride(i / 2 + 5 * k)));
            writer.accepted(Case { limit, version, ..one });
        }
    }
}

// Ramps along the rows, along the columns and along both; the source is the same ramp from further on or further back.
fn add_walks(writer: &mut Writer) {
    let shapes = [((200, 20), 0), ((20, 200), 1), ((70, 60), 1)];
    for (k, (size, stride)) in shapes.into_iter().enumerate() {
        for (i, (from, to)) in [(0, 60), (60, 0), (20, 140), (140, 20)].into_iter().enumerate() {
            for (start, limit) in [(RISE, u32::MAX), (FALL - 180, LIMITS[(i + k) % 5])] {
                let version = VERSIONS[(i + k) % 3];
                let one = case(size, (start + from, stride), (start + to, stride));
                writer.accepted(Case { limit, version, ..one });
            }
        }
    }
    // a cone, the source further up and to the left, and the other way round
    for (one, other) in [(0, 9 * 64 + 12), (9 * 64 + 12, 0), (5, 8 * 64), (8 * 64, 5)] {
        for (limit, version) in LIMITS.into_iter().zip([0, 1, 2, 0, 1]) {
            writer.accepted(Case { limit, version, ..case((50, 52), (BOWL + one, 64), (BOWL + other, 64)) });
        }
    }
}

// Walks of 255 rounds towards white, until the range ends: the refinements go on to 1023.
fn add_ends(writer: &mut Writer) {
    let across = ((512, 1), 0);
    let down = ((1, 512), 1);
    let walks = [(across, CLIMB, 1023), (across, DESCENT, -1023), (down, CLIMB, 1023), (down, DESCENT, -1023)];
    for (i, ((size, stride), start, end)) in walks.into_iter().enumerate() {
        let version = VERSIONS[i % 3];
        let found = writer.accepted(Case { version, ..case(size, (start, stride), (WHITE, stride)) });
        let along = |&(row, col, _): &Entry| if size.0 == 1 { row } else { col };
        assert!(found.iter().any(|entry| along(entry) == end), "a walk to {end}");
    }
}

// A texture, and the same at every macroblock moved by another vector, or all of it moved by whole samples.
fn add_moved(writer: &mut Writer) {
    for (limit, version) in LIMITS.into_iter().flat_map(|limit| VERSIONS.map(|version| (limit, version))) {
        let at = |source: (usize, u64)| Case { limit, version, ..case((64, 64), (INNER, 96), source) };
        let [filtered, blended] = [FILTERED, BLENDED].map(|start| writer.accepted(at((start, 64))));
        // each filter finds most of its own vectors
        let exact = |found: &[Entry]| found.iter().filter(|entry| entry.2 == 0).count();
        if limit > 2 {
            let (own, others) = if version == 0 { (filtered, blended) } else { (blended, filtered) };
            assert!(exact(&own) > 8 && exact(&others) < exact(&own), "{} and {}", exact(&own), exact(&others));
        }
    }
    for (i, away) in [3 * 96 + 2, 5, 7 * 96].into_iter().enumerate() {
        for (k, start) in [INNER + away, INNER - away].into_iter().enumerate() {
            let (limit, version) = (LIMITS[(2 * i + k) % 5], VERSIONS[(i + k) % 3]);
            writer.accepted(Case { limit, version, ..case((64, 64), (INNER, 96), (start, 96)) });
            writer.accepted(Case { version, ..case((50, 45), (INNER, 96), (start, 96)) });
        }
    }
}

// Both planes symmetric about the diagonal, or about the other one: the source moved along it, or each half off it.
fn add_symmetric(writer: &mut Writer) {
    let (row, col) = (4 * OFF_AXIS.0 as i16, 4 * OFF_AXIS.1 as i16);
    let place = |axis: usize, k: usize| if axis == 0 { k * 64 + k } else { k * 64 + 16 - k };
    for (axis, version) in [0, 1].into_iter().flat_map(|axis| VERSIONS.map(|version| (axis, version))) {
        let picture = |which: usize, k: usize| (MIRRORS + 8192 * axis + 4096 * which + place(axis, k), 64);
        let at = |source| Case { version, ..case((48, 48), picture(0, 6), source) };
        let found = writer.accepted(at(picture(1, 6)));
        // a macroblock above the axis, and the one across it
        if axis == 0 {
            assert_eq!((found[1], found[3]), ((row, col, 0), (col, row, 0)));
        } else {
            assert_eq!((found[0], found[8]), ((row, col, 0), (-col, -row, 0)));
        }
        for (i, limit) in LIMITS.into_iter().enumerate() {
            writer.accepted(Case { limit, ..at(picture(0, 2 + i)) });
            writer.accepted(Case { limit, ..at(picture(1, 4 + i)) });
        }
    }
}

// A picture of 3 by 4 macroblocks, cut both ways, and its transpose.
fn add_transposed(writer: &mut Writer) {
    for (dx, dy) in [(0, 0), (2, 3), (1, 0), (0, 2), (3, 1)] {
        for version in VERSIONS {
            let tall = writer.accepted(Case { version, ..case((40, 56), (TALL, 44), (TALL + dy * 44 + dx, 44)) });
            let wide = writer.accepted(Case { version, ..case((56, 40), (WIDE, 60), (WIDE + dx * 60 + dy, 60)) });
            // where the edge does not show, the samples are found again
            assert_eq!((tall[4], wide[5]), ((4 * dy as i16, 4 * dx as i16, 0), (4 * dx as i16, 4 * dy as i16, 0)));
        }
    }
}

// The same bytes as reference and as source: no vector but zero, and no distance.
fn add_same(writer: &mut Writer) {
    let pictures = [
        ((1, 1), (FLAT, 1)),
        ((40, 33), (NOISE, 40)),
        ((33, 40), (NOISE, 7)),
        ((48, 48), (SMOOTH, 96)),
        ((300, 17), (RISE, 0)),
        ((17, 20), (WHITE - 200, 17)),
        ((64, 64), (BOWL, 64)),
    ];
    for (i, (size, plane)) in pictures.into_iter().enumerate() {
        for version in VERSIONS {
            let limit = LIMITS[(i + usize::from(version)) % 5];
            let found = writer.accepted(Case { limit, version, ..case(size, plane, plane) });
            assert!(found.iter().all(|&entry| entry == (0, 0, 0)));
        }
    }
}

// Flat pictures, at most 255 apart, and lone edges in them: most candidates tie.
fn add_flat(writer: &mut Writer) {
    let edges = [(FLAT, 0), (BLACK, 0), (WHITE, 0), (WHITE - 20, 0), (WHITE - 17, 1), (BLACK - 9, 0)];
    for (one, other) in edges.iter().flat_map(|&one| edges.map(|other| (one, other))) {
        let k = (one.0 + other.0) % 7;
        let (limit, version) = (LIMITS[k % 5], VERSIONS[k % 3]);
        writer.accepted(Case { limit, version, ..case((40, 35), one, other) });
    }
}

fn add_random(writer: &mut Writer) {
    let mut random = Random::new(22);
    for i in 0..60 {
        let size = (1 + random.below(70), 1 + random.below(70));
        let mut plane = || {
            let stride = [random.below(100), size.0, 64, 96][random.below(4) as usize];
            (random.below((LEN - needed(stride, size)) as u64) as usize, stride)
        };
        let (reference, source) = (plane(), plane());
        let mut one = case(size, reference, source);
        one.lists = one.lists.map(|entries| entries + random.below(4) as usize);
        writer.accepted(Case { limit: LIMITS[i % 5], version: VERSIONS[i / 5 % 3], ..one });
    }
}
