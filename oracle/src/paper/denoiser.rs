//! Document 01's rules for the denoiser with request 7's caps, request 6's half samples and request 9's acceptance by
//! plane, sample by sample: no early exit, no in-bounds path, no running sums.

use super::search::{NO_CEILING, sad};
use super::{Plane, filtered};
use crate::refusals::{Frame, cap, packed_size, planes};

/// An accepted window.
pub struct Window<'a> {
    pub bytes: &'a [u8],
    pub frames: &'a [Frame],
    pub centre: usize,
    pub strength: u8,
}

/// How U and V are displaced: by whole samples, or by half samples, as request 6 has it.
#[derive(Debug, Clone, Copy, PartialEq, Eq)]
pub enum Chroma {
    Whole,
    Half,
}

/// What a builder call chooses: how U and V are displaced, and whether a block has to pass in all three planes, as
/// request 9 has it, or in Y alone.
#[derive(Debug, Clone, Copy, PartialEq, Eq)]
pub struct Choice {
    pub chroma: Chroma,
    pub three_planes: bool,
}

impl Choice {
    pub const WHOLE: Choice = Choice { chroma: Chroma::Whole, three_planes: false };
    pub const HALF: Choice = Choice { chroma: Chroma::Half, three_planes: false };

    /// The builder with this chroma rule that looks at three planes.
    pub const fn three(chroma: Chroma) -> Choice {
        Choice { chroma, three_planes: true }
    }

    /// The builder with the same chroma rule that looks at luma alone.
    pub const fn luma_alone(self) -> Choice {
        Choice { three_planes: false, ..self }
    }
}

/// A place in a plane, or a displacement: columns, then rows.
pub type Pair = (i64, i64);

/// The displaced sample of plane k of a frame's three, at a place, from the displacement of the luma block that covers
/// the place.
pub type Displaced = fn(&[Plane; 3], usize, Pair, Pair) -> u8;

/// What a build leaves; the sums and total weights are empty where the centre is only cropped.
#[derive(Debug, Default, PartialEq, Eq)]
pub struct Built {
    pub output: Vec<u8>,
    pub sums: Vec<u32>,
    pub weights: Vec<u32>,
    pub accepted: u64,
}

/// Of one block of one frame: the displacement that the search found, and whether it is accepted.
pub struct Match {
    pub shift: Pair,
    pub accepted: bool,
}

/// 16s divided by (s + e times e), rounded down; s is 8 times 2 to the strength, 7 to 255 read as 6.
pub fn weight(strength: u8, e: u8) -> u32 {
    let s = 8 * 2u32.pow(u32::from(strength.min(6)));
    16 * s / (s + u32::from(e) * u32::from(e))
}

pub fn build(w: &Window, choice: Choice) -> Built {
    build_by(w, sample_of(choice.chroma), |g, block| w.matched(g, block, choice))
}

/// The same over any rule for the displaced sample and any for what is found of a frame's block.
pub fn build_by(
    w: &Window,
    displaced: impl Fn(&[Plane; 3], usize, Pair, Pair) -> u8,
    found: impl Fn(usize, &Block) -> Match,
) -> Built {
    let [width, height] = [0, 1].map(|k| w.frames[w.centre][k] as usize);
    let centre = w.planes(w.centre);
    let others: Vec<usize> = (0..w.frames.len()).filter(|&g| g != w.centre).collect();
    let cropped = others.is_empty() || w.strength == 0;
    let columns = width.div_ceil(16);
    let blocks: Vec<Block> = if cropped { Vec::new() } else { Block::all(&centre[0]) };
    let matches: Vec<Vec<Match>> = others.iter().map(|&g| blocks.iter().map(|b| found(g, b)).collect()).collect();
    let accepted = matches.iter().flatten().filter(|m| m.accepted).count() as u64;
    let mut built = Built { accepted, ..Built::default() };
    for (k, plane) in centre.iter().enumerate() {
        let unit = if k == 0 { 16 } else { 8 };
        for (x, y) in places(plane) {
            let c = plane.sample(x, y);
            if cropped {
                built.output.push(c);
                continue;
            }
            let block = y as usize / unit * columns + x as usize / unit;
            let of_other = |(i, &g): (usize, &usize)| {
                let m = &matches[i][block];
                let sample = displaced(&w.planes(g), k, (x, y), m.shift);
                (w.share(g, m, sample, c), sample)
            };
            let shares: Vec<(u32, u8)> = others.iter().enumerate().map(of_other).collect();
            let total = 16 + shares.iter().map(|s| s.0).sum::<u32>();
            let sum = 16 * u32::from(c) + shares.iter().map(|s| s.0 * u32::from(s.1)).sum::<u32>();
            built.output.push(((sum + total / 2) / total) as u8);
            built.sums.push(sum);
            built.weights.push(total);
        }
    }
    assert_eq!(built.output.len() as u64, packed_size(width as u64, height as u64));
    built
}

impl Window<'_> {
    /// Y, U and V of a frame.
    pub fn planes(&self, g: usize) -> [Plane<'_>; 3] {
        planes(&self.frames[g]).map(|p| {
            let [stride, width, height] = [p.stride, p.columns, p.rows].map(|n| n as usize);
            Plane { bytes: &self.bytes[p.start as usize..], stride, width, height }
        })
    }

    /// What is found of frame g's block: by the search, which uses luma alone, and by each plane that is asked.
    pub fn matched(&self, g: usize, block: &Block, choice: Choice) -> Match {
        let (shift, last) = self.searched(g, block);
        if !choice.three_planes {
            return Match { shift, accepted: block.accepts(last) };
        }
        let sads = [0, 1, 2].map(|k| self.plane_sad(g, block, k, shift, sample_of(choice.chroma)));
        assert_eq!(sads[0], last, "the SAD of Y");
        Match { shift, accepted: (0..3).all(|k| block.in_plane(k).accepts(sads[k])) }
    }

    /// What the search finds of frame g's block, over whole SADs: its last best and the SAD of that.
    pub fn searched(&self, g: usize, block: &Block) -> (Pair, u32) {
        let ([centre, ..], [other, ..]) = (self.planes(self.centre), self.planes(g));
        let source = block.samples(&centre, (0, 0));
        block_search(|shift, _| sad(&source, &block.samples(&other, shift)))
    }

    /// The SAD of frame g's block in plane k, over the samples that it covers there, between the centre's and the
    /// displaced ones.
    pub fn plane_sad(&self, g: usize, block: &Block, k: usize, shift: Pair, displaced: Displaced) -> u32 {
        let (centre, other) = (self.planes(self.centre), self.planes(g));
        let distance = |(x, y): Pair| centre[k].sample(x, y).abs_diff(displaced(&other, k, (x, y), shift));
        block.in_plane(k).places().map(|place| u32::from(distance(place))).sum()
    }

    // The weight of frame g's displaced sample. The cap bounds the weight alone: whether the block is accepted, and
    // where the sample lies, was found without it.
    fn share(&self, g: usize, m: &Match, displaced: u8, c: u8) -> u32 {
        let weight = weight(self.strength, displaced.abs_diff(c)).min(cap(&self.frames[g]));
        if m.accepted { weight } else { 0 }
    }
}

/// The displaced sample by a chroma rule.
pub fn sample_of(chroma: Chroma) -> Displaced {
    match chroma {
        Chroma::Whole => whole_samples,
        Chroma::Half => half_samples,
    }
}

// Y by the displacement, U and V by its halves, toward zero.
fn whole_samples(planes: &[Plane; 3], k: usize, (x, y): Pair, (dx, dy): Pair) -> u8 {
    let (dx, dy) = if k == 0 { (dx, dy) } else { (dx / 2, dy / 2) };
    planes[k].sample(x + dx, y + dy)
}

// Y by the displacement, U and V by half samples.
fn half_samples(planes: &[Plane; 3], k: usize, place: Pair, shift: Pair) -> u8 {
    if k == 0 { whole_samples(planes, k, place, shift) } else { half_sample(&planes[k], place, shift) }
}

// Request 6: a component's half rounded down, and the six-tap row for what remains: 4 of 8 where the component is odd.
fn halved(d: i64) -> (i64, usize) {
    (d.div_euclid(2), if d.rem_euclid(2) == 1 { 4 } else { 0 })
}

// Copied where both components are even. Else filtered, across and then down over what the first pass gives.
fn half_sample(plane: &Plane, (x, y): Pair, (dx, dy): Pair) -> u8 {
    let ((right, across), (below, down)) = (halved(dx), halved(dy));
    let (x, y) = (x + right, y + below);
    if (across, down) == (0, 0) {
        return plane.sample(x, y);
    }
    let first = |y: i64| filtered(across, around(|k| plane.sample(x + k, y)));
    filtered(down, around(|k| first(y + k)))
}

// The six samples of a pass, from two before to three behind.
fn around(sample: impl Fn(i64) -> u8) -> [u8; 6] {
    std::array::from_fn(|k| sample(k as i64 - 2))
}

fn places(plane: &Plane) -> Vec<Pair> {
    let (width, height) = (plane.width as i64, plane.height as i64);
    (0..width * height).map(|i| (i % width, i / width)).collect()
}

/// A block of a plane, of luma cut at its right and its bottom edge.
pub struct Block {
    pub x: i64,
    pub y: i64,
    pub columns: usize,
    pub rows: usize,
}

impl Block {
    /// By its index in raster order.
    pub fn of(plane: &Plane, index: usize) -> Block {
        let across = plane.width.div_ceil(16);
        let (x, y) = (index % across * 16, index / across * 16);
        let (columns, rows) = ((plane.width - x).min(16), (plane.height - y).min(16));
        Block { x: x as i64, y: y as i64, columns, rows }
    }

    /// All of a luma plane, in raster order.
    pub fn all(plane: &Plane) -> Vec<Block> {
        let count = plane.width.div_ceil(16) * plane.height.div_ceil(16);
        (0..count).map(|index| Block::of(plane, index)).collect()
    }

    /// What a block of luma covers in plane k: itself in Y, half of it in U and V, its sides rounded up.
    pub fn in_plane(&self, k: usize) -> Block {
        let Block { x, y, columns, rows } = *self;
        if k == 0 {
            return Block { x, y, columns, rows };
        }
        Block { x: x / 2, y: y / 2, columns: columns.div_ceil(2), rows: rows.div_ceil(2) }
    }

    /// Its places, row after row.
    pub fn places(&self) -> impl Iterator<Item = Pair> {
        let (x, y, columns) = (self.x, self.y, self.columns as i64);
        (0..columns * self.rows as i64).map(move |i| (x + i % columns, y + i / columns))
    }

    /// The samples of a plane under it, displaced.
    pub fn samples(&self, plane: &Plane, (dx, dy): Pair) -> Vec<u8> {
        self.places().map(|(x, y)| plane.sample(x + dx, y + dy)).collect()
    }

    /// Whether a SAD is below 13 times its area.
    pub fn accepts(&self, sad: u32) -> bool {
        (sad as usize) < 13 * self.columns * self.rows
    }
}

/// The block search over a cost as the diamond's, of a displacement (dx, dy): 33 comparisons from (0, 0) on. The last
/// best and its SAD.
pub fn block_search(mut cost: impl FnMut(Pair, u32) -> u32) -> (Pair, u32) {
    let mut best = ((0, 0), cost((0, 0), NO_CEILING));
    for step in [8, 4, 2, 1] {
        let (cx, cy) = best.0;
        for (dy, dx) in (0..9).map(|k| (k / 3 * step - step, k % 3 * step - step)).filter(|d| *d != (0, 0)) {
            let shift = (cx + dx, cy + dy);
            let sad = cost(shift, best.1);
            if sad < best.1 {
                best = (shift, sad);
            }
        }
    }
    best
}

#[cfg(test)]
mod tests {
    use super::*;

    // One sample of each level, all planes the same, with these caps; the first is the centre.
    fn built(levels: &[(u8, u32)], strength: u8) -> Built {
        let bytes: Vec<u8> = levels.iter().map(|l| l.0).collect();
        let frame = |(g, l): (usize, &(u8, u32))| [1, 1, g as u32, g as u32, g as u32, 1, 1, l.1];
        let frames: Vec<Frame> = levels.iter().enumerate().map(frame).collect();
        let window = Window { bytes: &bytes, frames: &frames, centre: 0, strength };
        // of one sample every displacement gives that sample
        let [whole, half] = [Choice::WHOLE, Choice::HALF].map(|choice| build(&window, choice));
        assert_eq!(whole, half);
        // and all planes are alike
        for choice in [Chroma::Whole, Chroma::Half].map(Choice::three) {
            assert_eq!(build(&window, choice), half);
        }
        half
    }

    fn of(total: u32, sum: u32, sample: u8, accepted: u64) -> Built {
        Built { output: vec![sample; 3], sums: vec![sum; 3], weights: vec![total; 3], accepted }
    }

    // Centre 100, one other 104, strength 1: the weight is 8.
    #[test]
    fn a_share_is_the_lesser_of_cap_and_weight() {
        for (cap, total, sum, sample) in
            [(16, 24, 2432, 101), (8, 24, 2432, 101), (7, 23, 2328, 101), (3, 19, 1912, 101), (0, 16, 1600, 100)]
        {
            for centre in [0, 3, 16] {
                assert_eq!(built(&[(100, centre), (104, cap)], 1), of(total, sum, sample, 1));
            }
        }
        // a cap of 7 for the one, 16 for the other, which is the same picture
        assert_eq!(built(&[(100, 16), (104, 7), (104, 16)], 1), of(31, 3160, 102, 2));
    }

    // A SAD of 13 is excluded whatever the cap; one of 12 is accepted, and counted, at cap 0 too.
    #[test]
    fn a_cap_excludes_nothing() {
        assert_eq!(built(&[(100, 16), (113, 16), (112, 0)], 6), of(16, 1600, 100, 1));
        assert_eq!(built(&[(100, 0), (112, 0), (88, 0)], 255), of(16, 1600, 100, 2));
    }

    #[test]
    fn only_one_frame_and_strength_0_are_cropped() {
        let cropped = Built { output: vec![100; 3], ..Built::default() };
        assert_eq!(built(&[(100, 3)], 6), cropped);
        assert_eq!(built(&[(100, 3), (101, 0)], 0), cropped);
    }

    #[test]
    fn halves_are_rounded_down() {
        let table = [(-15, -8, 4), (-2, -1, 0), (-1, -1, 4), (0, 0, 0), (1, 0, 4), (2, 1, 0), (15, 7, 4)];
        assert!(table.iter().all(|&(d, offset, row)| halved(d) == (offset, row)));
    }

    // 255 at (2, 2) and (3, 2) of 6 by 6, else 0.
    #[test]
    fn half_samples_by_hand() {
        let bytes: Vec<u8> = (0..36).map(|i| if i == 14 || i == 15 { 255 } else { 0 }).collect();
        let plane = Plane { bytes: &bytes, stride: 6, width: 6, height: 6 };
        // the pair, less 16 and plus 3 of 128, is more than 255; the row below is 0
        let table = [
            ((0, 0), 255),
            ((1, 0), 255),
            ((2, 0), 255),
            ((3, 0), 122),
            ((-1, 0), 122),
            ((0, 1), 153),
            ((1, 1), 153),
            ((1, -1), 153),
            ((0, 3), 0),
            ((1, -2), 0),
            ((1, 5), 6),
            ((4, 0), 0),
        ];
        for (shift, sample) in table {
            assert_eq!(half_sample(&plane, (2, 2), shift), sample, "{shift:?}");
        }
    }

    // Three columns that rise; beyond them the outer ones again.
    #[test]
    fn the_planes_own_edges_are_repeated() {
        let plane = Plane { bytes: &[10, 20, 40], stride: 0, width: 3, height: 2 };
        let at = |x: i64, dx: i64, dy: i64| half_sample(&plane, (x, 1), (dx, dy));
        let first = |support| filtered(4, support);
        assert_eq!(at(0, -1, 0), first([10, 10, 10, 10, 20, 40]));
        assert_eq!(at(0, 1, -15), first([10, 10, 10, 20, 40, 40]));
        assert_eq!(at(2, 1, 15), first([10, 20, 40, 40, 40, 40]));
        assert_eq!([at(0, -15, 1), at(2, 15, 7), at(1, 0, 1)], [10, 40, 20]);
    }

    // A centre of 100 and another frame, whose planes have these levels, each with another in its first sample.
    fn three_of((width, height): (u32, u32), levels: [u8; 3], first: [u8; 3], choice: Choice) -> Built {
        let sides = [(width, height), (width.div_ceil(2), height.div_ceil(2)), (width.div_ceil(2), height.div_ceil(2))];
        let plane = |k: usize| {
            let mut samples = vec![levels[k]; (sides[k].0 * sides[k].1) as usize];
            samples[0] = first[k];
            samples
        };
        let size = sides.map(|(columns, rows)| columns * rows);
        let bytes = [vec![100; size[0] as usize], plane(0), plane(1), plane(2)].concat();
        let (luma, chroma) = (width, width.div_ceil(2));
        let centre = [width, height, 0, 0, 0, luma, chroma, 16];
        let other = [width, height, size[0], 2 * size[0], 2 * size[0] + size[1], luma, chroma, 16];
        let frames = [centre, other];
        build(&Window { bytes: &bytes, frames: &frames, centre: 0, strength: 6 }, choice)
    }

    // Of 8 by 8 samples 831 passes and 832 does not; of one 12 and 13; of 8 rows of one 103 and 104.
    #[test]
    fn each_plane_passes_below_13_times_its_own_area() {
        // the second block of 17 by 16 covers one column
        for (size, blocks) in [((16, 16), 1), ((1, 1), 1), ((1, 16), 1), ((17, 16), 2), ((3, 5), 1)] {
            for (k, chroma) in [(1, Chroma::Whole), (2, Chroma::Whole), (1, Chroma::Half), (2, Chroma::Half)] {
                let accepted = |level: u8, first: u8| {
                    let (mut levels, mut firsts) = ([100; 3], [100; 3]);
                    (levels[k], firsts[k]) = (level, first);
                    three_of(size, levels, firsts, Choice::three(chroma)).accepted
                };
                assert_eq!([accepted(113, 114), accepted(113, 113), accepted(87, 87)], [0; 3], "{size:?}");
                assert_eq!([accepted(113, 112), accepted(87, 88)], [1; 2], "{size:?}");
                assert_eq!([accepted(112, 112), accepted(88, 88)], [blocks; 2], "{size:?}");
            }
        }
    }

    // A block that U excludes has no share in Y and V either, and is not counted; without it the sums are the centre's.
    #[test]
    fn one_plane_excludes_a_block_from_all() {
        for chroma in [Chroma::Whole, Chroma::Half] {
            let excluded = three_of((2, 2), [101, 140, 101], [101, 140, 101], Choice::three(chroma));
            let centre = Built { output: vec![100; 6], sums: vec![1600; 6], weights: vec![16; 6], accepted: 0 };
            assert_eq!(excluded, centre);
            let by_luma = three_of((2, 2), [101, 140, 101], [101, 140, 101], Choice::three(chroma).luma_alone());
            assert_eq!((by_luma.accepted, by_luma.weights[0], by_luma.weights[4]), (1, 31, 19));
            // nothing is added up: 12 in each plane is accepted, 13 in one is not
            assert_eq!(three_of((2, 2), [112; 3], [112; 3], Choice::three(chroma)).accepted, 1);
            assert_eq!(three_of((2, 2), [113, 100, 100], [113, 100, 100], Choice::three(chroma)).accepted, 0);
        }
    }

    // Columns of 100 and 140 beside their mean, and beside themselves, where luma lies one column further right.
    #[test]
    fn the_samples_of_the_call_are_measured() {
        let luma: Vec<u8> = (0..18).map(|c| 7 * c).collect();
        let stripes: Vec<u8> = (0..9).map(|c| if c % 2 == 0 { 100 } else { 140 }).collect();
        let bytes = [&luma[..], &stripes, &[120; 9]].concat();
        let frame = |y, u| [16, 1, y, u, u, 0, 0, 16];
        let accepted = |centre, choice| {
            let frames = [frame(1, centre), frame(0, 18)];
            build(&Window { bytes: &bytes, frames: &frames, centre: 0, strength: 6 }, choice).accepted
        };
        let [copied, filtered] = [Chroma::Whole, Chroma::Half].map(Choice::three);
        assert_eq!([accepted(27, copied), accepted(27, filtered)], [0, 1]);
        assert_eq!([accepted(18, copied), accepted(18, filtered)], [1, 0]);
    }
}
