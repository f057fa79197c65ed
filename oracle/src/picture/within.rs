//! Cases of the search within an allowance that are accepted: one macroblock, allowances about each multiple of the count,
//! walks to the end of the range, pictures of which a half stands still, flat and random ones.

use super::samples::{
    AHEAD, ALL, BLENDED, BOWL, CLIMB, DESCENT, FALL, FILTERED, FLAT, INNER, LOWER_STILL, NOISE, RISE, UPPER_STILL,
    WHITE,
};
use super::{Case, Entry, VERSIONS, Writer, case, needed};
use crate::paper::search::{Allowed, search_picture};
use crate::random::Random;

pub fn add(writer: &mut Writer) {
    add_smallest(writer);
    add_one_macroblock(writer);
    add_edges(writer);
    add_ends(writer);
    add_halves(writer);
    add_flat(writer);
    add_random(writer);
}

/// 19 for each macroblock.
pub fn least(case: &Case) -> u32 {
    19 * case.lists[0] as u32
}

// At 19 for each macroblock and a few more, about other multiples of their count, and plenty.
fn allowances(count: usize) -> Vec<u32> {
    let count = count as u32;
    let mut all: Vec<u32> = (19 * count..=19 * count + 4).collect();
    all.extend([20, 23, 27, 31, 43].iter().flat_map(|each| each * count - 1..=each * count + 1));
    all.extend([100 * count, 261_143 * count, u32::MAX]);
    all.sort();
    all.dedup();
    all
}

// One sample, repeated all over both macroblocks: a round finds nothing better than the zero vector.
fn add_smallest(writer: &mut Writer) {
    for (limit, version) in allowances(1).into_iter().flat_map(|limit| VERSIONS.map(|version| (limit, version))) {
        let got = writer.allowed(Case { limit, version, ..case((1, 1), (FLAT, 1), (WHITE, 1)) });
        let comparisons = if limit < 23 { 19 } else { 23 };
        let found = vec![(0, 0, 256 * (255 - 77))];
        assert_eq!(got, Allowed { found, grants: vec![limit.into()], comparisons });
    }
}

// A walk in one macroblock, a comparison more each time: what is found is that of the limit that there is room for.
fn add_one_macroblock(writer: &mut Writer) {
    let walks = [(BOWL + 4 * 64 + 4, BOWL + 9 * 64 + 12, 64), (INNER, INNER + 5 * 96 + 3, 96)];
    for (i, (start, source, stride)) in walks.into_iter().enumerate() {
        for limit in (19..=43).chain([u32::MAX]) {
            let version = VERSIONS[(i + limit as usize) % 3];
            let one = Case { limit, version, ..case((16, 16), (start, stride), (source, stride)) };
            let got = writer.allowed(one);
            assert_eq!(Ok(got.found), search_picture(&writer.call(&one), (limit - 19) / 4));
        }
    }
}

// Noise, ramps, cones and textures at every allowance of the list.
fn add_edges(writer: &mut Writer) {
    let pictures = [
        case((33, 20), (NOISE, 33), (NOISE + 77, 40)),
        case((17, 16), (BOWL, 64), (BOWL + 3 * 64 + 4, 64)),
        case((48, 16), (RISE + 20, 1), (RISE + 60, 1)),
        case((40, 35), (FALL - 100, 0), (FALL - 60, 1)),
        case((50, 52), (BOWL, 64), (BOWL + 9 * 64 + 12, 64)),
        case((64, 64), (INNER, 96), (FILTERED, 64)),
        case((64, 64), (INNER, 96), (BLENDED, 64)),
    ];
    for (i, picture) in pictures.into_iter().enumerate() {
        for (k, limit) in allowances(picture.lists[0]).into_iter().enumerate() {
            writer.allowed(Case { limit, version: VERSIONS[(i + k) % 3], ..picture });
        }
    }
}

// Walks of 255 rounds towards white: up the slope in the first macroblocks, while the last ones stop at once, and the
// other way round. 1039 for each macroblock have room for such a walk in the first.
fn add_ends(writer: &mut Writer) {
    let (across, down) = (((512, 1), 0), ((1, 512), 1));
    let walks = [(across, CLIMB, 1023), (across, DESCENT, -1023), (down, CLIMB, 1023), (down, DESCENT, -1023)];
    for (i, ((size, stride), start, end)) in walks.into_iter().enumerate() {
        let picture = Case { version: VERSIONS[i % 3], ..case(size, (start, stride), (WHITE, stride)) };
        let along = |&(row, col, _): &Entry| if size.0 == 1 { row } else { col };
        let each = [19, 23, 35, 100, 1039].map(|each| each * picture.lists[0] as u32);
        for limit in each.into_iter().chain([each[3] - 1, each[3] + 1, each[4] - 1, u32::MAX]) {
            let got = writer.allowed(Case { limit, ..picture });
            let reached = got.found.iter().any(|entry| along(entry) == end);
            assert!(reached || limit < each[4], "a walk to {end} with {limit}");
        }
    }
}

// A texture of which one half stands still: what its macroblocks leave goes to those after them.
fn add_halves(writer: &mut Writer) {
    let (row, col) = (4 * AHEAD.0 as i16, 4 * AHEAD.1 as i16);
    for (source, moves) in [(UPPER_STILL, 8), (LOWER_STILL, 0)] {
        let picture = case((64, 64), (INNER, 96), (source, 64));
        for each in [19, 21, 23, 25, 27, 31, 35, 43, 100] {
            for (version, more) in VERSIONS.into_iter().zip([0, 15, 16]) {
                writer.allowed(Case { limit: each * 16 + more, version, ..picture });
            }
        }
        let got = writer.allowed(Case { limit: u32::MAX, ..picture });
        // where the edge does not show, the samples are found again
        assert_eq!(got.found[moves..moves + 3], [(row, col, 0); 3]);
        assert!(got.found[8 - moves..16 - moves].iter().all(|&entry| entry == (0, 0, 0)));
    }
}

// Flat: each diamond stops after a round. Of 100 comparisons for three macroblocks 31 are left.
fn add_flat(writer: &mut Writer) {
    let picture = case((48, 16), (FLAT, 0), (WHITE, 0));
    let got = writer.allowed(Case { limit: 100, ..picture });
    assert_eq!((got.grants, got.comparisons), (vec![33, 38, 54], 69));
    for (i, limit) in (57..=75).chain([u32::MAX]).enumerate() {
        let version = VERSIONS[i % 3];
        let same = case((48, 16), (FLAT, 1), (FLAT + 100, 1));
        writer.allowed(Case { limit, version, ..[picture, same][i % 2] });
    }
}

fn add_random(writer: &mut Writer) {
    let mut random = Random::new(23);
    for i in 0..60 {
        let size = (1 + random.below(60), 1 + random.below(60));
        let mut plane = || {
            let stride = [random.below(100), size.0, 64, 96][random.below(4) as usize];
            (random.below((ALL - needed(stride, size)) as u64) as usize, stride)
        };
        let (reference, source) = (plane(), plane());
        let mut one = case(size, reference, source);
        let each = 19 + random.below(20) as u32;
        let some = each * one.lists[0] as u32 + random.below(40) as u32;
        one.limit = [some, some, some, u32::MAX, random.next() as u32][i % 5];
        one.lists = one.lists.map(|entries| entries + random.below(4) as usize);
        writer.allowed(Case { version: VERSIONS[i / 5 % 3], ..one });
    }
}
