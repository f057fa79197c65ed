//! Rules that are wrong, each in one thing: none of them builds the stored answers. First those for the displaced sample
//! (request 6), then those for what is accepted (request 9).

use super::{Case, HALF_SAMPLES, THREE_PLANES, halved, pictures, three};
use crate::arnr::ArnrConfig;
use crate::paper::Plane;
use crate::paper::denoiser::{
    Block, Built, Choice, Chroma, Displaced, Match, Pair, Window, block_search, build, build_by, sample_of,
};
use crate::refusals::{self, Build, cap};
use crate::three::by_the_originals;

/// Request 6's rule with what may be wrong in it.
#[derive(Clone, Copy)]
struct Rule {
    /// The whole offset of an odd component, and the six-tap row for its half.
    offset: fn(i64) -> i64,
    row: usize,
    /// Of each plane whether it moves by half samples.
    filtered: [bool; 3],
    /// The sample of plane k at a column and a row, beyond its edges too.
    sample: fn(&[Plane; 3], usize, i64, i64) -> u8,
    /// What the first pass and the second are clamped to; what is left is the lowest byte.
    clamps: [(i64, i64); 2],
    rows_swapped: bool,
    passes_swapped: bool,
    both_must_be_odd: bool,
    cut_at_the_block: bool,
}

const RIGHT: Rule = Rule {
    offset: |d| d.div_euclid(2),
    row: 4,
    filtered: [false, true, true],
    sample: |planes, k, c, r| planes[k].sample(c, r),
    clamps: [(0, 255); 2],
    rows_swapped: false,
    passes_swapped: false,
    both_must_be_odd: false,
    cut_at_the_block: false,
};

const MIN: i64 = i64::MIN;
const MAX: i64 = i64::MAX;

/// What is wrong, the rule, and the samples of the smallest stored picture that shows it.
#[rustfmt::skip]
const WRONG: [(&str, Rule, usize); 18] = [
    ("half toward zero", Rule { offset: |d| d / 2, ..RIGHT }, 7),
    ("half up", Rule { offset: |d| (d + 1).div_euclid(2), ..RIGHT }, 7),
    ("row 2 for a half", Rule { row: 2, ..RIGHT }, 7),
    ("rows swapped", Rule { rows_swapped: true, ..RIGHT }, 10),
    ("passes swapped", Rule { passes_swapped: true, ..RIGHT }, 17),
    ("clamped once", Rule { clamps: [(MIN, MAX), (0, 255)], ..RIGHT }, 17),
    ("first pass not clamped to 0", Rule { clamps: [(MIN, 255), (0, 255)], ..RIGHT }, 17),
    ("first pass not clamped to 255", Rule { clamps: [(0, MAX), (0, 255)], ..RIGHT }, 17),
    ("second pass not clamped to 0", Rule { clamps: [(0, 255), (MIN, 255)], ..RIGHT }, 7),
    ("second pass not clamped to 255", Rule { clamps: [(0, 255), (0, MAX)], ..RIGHT }, 7),
    ("filtered only where both are odd", Rule { both_must_be_odd: true, ..RIGHT }, 10),
    ("U only", Rule { filtered: [false, true, false], ..RIGHT }, 7),
    ("luma also", Rule { filtered: [true; 3], ..RIGHT }, 7),
    ("cut at the block", Rule { cut_at_the_block: true, ..RIGHT }, 11),
    ("0 beyond the edges", Rule { sample: or_0, ..RIGHT }, 4),
    ("chroma of half the size rounded down", Rule { sample: rounded_down, ..RIGHT }, 7),
    ("V from U", Rule { sample: |planes, k, c, r| planes[k.min(1)].sample(c, r), ..RIGHT }, 3),
    ("whole samples", Rule { filtered: [false; 3], ..RIGHT }, 7),
];

// In chroma 0 where the place is outside the plane.
fn or_0(planes: &[Plane; 3], k: usize, c: i64, r: i64) -> u8 {
    let inside = (0..planes[k].width as i64).contains(&c) && (0..planes[k].height as i64).contains(&r);
    if k == 0 || inside { planes[k].sample(c, r) } else { 0 }
}

// Of an odd width or height the last column or row of chroma is not read.
fn rounded_down(planes: &[Plane; 3], k: usize, c: i64, r: i64) -> u8 {
    let last = |side: usize| if k == 0 { side } else { (side / 2).max(1) } as i64 - 1;
    planes[k].sample(c.min(last(planes[0].width)), r.min(last(planes[0].height)))
}

fn odd(d: i64) -> bool {
    d.rem_euclid(2) == 1
}

// The six products, rounded, without a clamp.
fn pass(row: usize, sample: impl Fn(i64) -> i64) -> i64 {
    let taps = match row {
        0 => [0, 0, 128, 0, 0, 0],
        2 => [2, -11, 108, 36, -8, 1],
        _ => [3, -16, 77, 77, -16, 3],
    };
    let sum: i64 = taps.iter().zip(-2..).map(|(tap, k)| tap * sample(k)).sum();
    (sum + 64).div_euclid(128)
}

impl Rule {
    fn displaced(&self, planes: &[Plane; 3], k: usize, (x, y): Pair, (dx, dy): Pair) -> u8 {
        if !self.filtered[k] {
            let (dx, dy) = if k == 0 { (dx, dy) } else { (dx / 2, dy / 2) };
            return (self.sample)(planes, k, x + dx, y + dy);
        }
        let [right, below] = [dx, dy].map(|d| if odd(d) { (self.offset)(d) } else { d / 2 });
        let copied = self.both_must_be_odd && !(odd(dx) && odd(dy));
        let [column, row] = [dx, dy].map(|d| if odd(d) && !copied { self.row } else { 0 });
        let (across, down) = if self.rows_swapped { (row, column) } else { (column, row) };
        let read = |c: i64, r: i64| {
            let (c, r) = if self.cut_at_the_block { (in_block(x, c), in_block(y, r)) } else { (c, r) };
            i64::from((self.sample)(planes, k, c + right, r + below))
        };
        let [first, second] = self.clamps.map(|(low, high)| move |v: i64| v.clamp(low, high));
        let last = if self.passes_swapped {
            pass(across, |i| first(pass(down, |j| read(x + i, y + j))))
        } else {
            pass(down, |j| first(pass(across, |i| read(x + i, y + j))))
        };
        second(last) as u8
    }

    fn build(&self, window: &Window) -> Built {
        let displaced = |planes: &[Plane; 3], k, place, shift| self.displaced(planes, k, place, shift);
        build_by(window, displaced, |g, block| window.matched(g, block, Choice::HALF))
    }
}

// The nearest of the eight columns, or rows, of the block that covers a place.
fn in_block(place: i64, at: i64) -> i64 {
    at.clamp(place / 8 * 8, place / 8 * 8 + 7)
}

// Each accepted case: its window and its stored answer.
fn each_stored(cases: fn(&[u8]) -> Vec<Case>, mut with: impl FnMut(&Case, &Window, &Built)) {
    let bytes = pictures::all();
    for case in cases(&bytes) {
        let (frames, centre) = (case.frames(), case.centre as usize);
        let [output, sums, weights] = case.lent.map(|n| n as u64);
        let asked = Build { bytes: case.bytes as u64, frames: &frames, centre: case.centre, output, sums, weights };
        if refusals::of_build(asked).0 == 0 {
            let strength = super::configuration(case.made, case.strength).strength;
            let window = Window { bytes: &bytes[..case.bytes], frames: &frames, centre, strength };
            let config = ArnrConfig::default().with_strength(strength);
            with(&case, &window, &by_the_originals(&window, &config, case.choice()));
        }
    }
}

#[test]
fn the_right_rule_builds_every_stored_answer() {
    each_stored(halved::cases, |case, window, stored| {
        assert_eq!(case.kind, HALF_SAMPLES);
        assert!(RIGHT.build(window) == *stored);
    });
}

#[test]
fn each_wrong_rule_is_seen_in_stored_answers() {
    let mut seen = [(0, usize::MAX); WRONG.len()];
    each_stored(halved::cases, |_, window, stored| {
        for ((_, rule, _), (cases, smallest)) in WRONG.iter().zip(&mut seen) {
            if rule.build(window) != *stored {
                *cases += 1;
                *smallest = (*smallest).min(stored.output.len());
            }
        }
    });
    for ((name, _, expected), (cases, smallest)) in WRONG.iter().zip(seen) {
        println!("{name}: seen in {cases} cases, the smallest of {smallest} samples");
        assert!(cases >= 15, "{name}: {cases} cases");
        assert_eq!(smallest, *expected, "{name}");
    }
}

// With the share of the sample that whole samples give, two frames would have the total weights of whole samples.
#[test]
fn the_share_of_the_copied_sample_is_seen() {
    let mut seen = 0;
    each_stored(halved::cases, |_, window, stored| {
        let copied = window.frames.len() == 2 && build(window, Choice::WHOLE).weights != stored.weights;
        seen += u32::from(copied);
    });
    assert!(seen >= 20, "{seen} cases");
}

/// A frame's block and what the search found of it.
struct Searched<'a> {
    window: &'a Window<'a>,
    g: usize,
    block: &'a Block,
    shift: Pair,
    chroma: Chroma,
}

impl Searched<'_> {
    fn sad(&self, k: usize) -> u32 {
        self.sad_by(k, sample_of(self.chroma))
    }

    fn sad_by(&self, k: usize, displaced: Displaced) -> u32 {
        self.window.plane_sad(self.g, self.block, k, self.shift, displaced)
    }

    fn area(&self, k: usize) -> u32 {
        let Block { columns, rows, .. } = self.block.in_plane(k);
        (columns * rows) as u32
    }

    fn passes(&self, k: usize) -> bool {
        self.sad(k) < 13 * self.area(k)
    }

    // Luma passes, and U and V are below 13 times an area.
    fn below(&self, area: u32) -> bool {
        self.passes(0) && [1, 2].iter().all(|&k| self.sad(k) < 13 * area)
    }

    // Luma passes, and U and V as other samples make them.
    fn passes_by(&self, displaced: Displaced) -> bool {
        self.passes(0) && [1, 2].iter().all(|&k| self.sad_by(k, displaced) < 13 * self.area(k))
    }

    // Luma passes, and U and V of another block, by its place and sides in chroma.
    fn passes_at(&self, place: Pair, (columns, rows): (usize, usize)) -> bool {
        let (centre, other) = (self.window.planes(self.window.centre), self.window.planes(self.g));
        let elsewhere = Block { x: place.0, y: place.1, columns, rows };
        let sad = |k: usize| {
            let distance =
                |(x, y): Pair| centre[k].sample(x, y).abs_diff(sample_of(self.chroma)(&other, k, (x, y), self.shift));
            elsewhere.places().map(|place| u32::from(distance(place))).sum::<u32>()
        };
        self.passes(0) && [1, 2].iter().all(|&k| sad(k) < 13 * (columns * rows) as u32)
    }
}

// A build over another acceptance.
fn accepting(window: &Window, chroma: Chroma, accepts: fn(&Searched) -> bool) -> Built {
    build_by(window, sample_of(chroma), |g, block| {
        let (shift, _) = window.searched(g, block);
        Match { shift, accepted: accepts(&Searched { window, g, block, shift, chroma }) }
    })
}

// Copied in U and V at a displacement that is made of luma's.
fn copied(planes: &[Plane; 3], k: usize, (x, y): Pair, shift: Pair, made: fn(i64) -> i64) -> u8 {
    planes[k].sample(x + made(shift.0), y + made(shift.1))
}

// The samples, sums and total weights of a plane from one build in another.
fn with_plane(mut built: Built, k: usize, window: &Window, from: &Built) -> Built {
    let len = |k: usize| window.planes(window.centre)[k].width * window.planes(window.centre)[k].height;
    let start: usize = (0..k).map(len).sum();
    let part = start..start + len(k);
    built.output[part.clone()].copy_from_slice(&from.output[part.clone()]);
    if !built.sums.is_empty() {
        built.sums[part.clone()].copy_from_slice(&from.sums[part.clone()]);
        built.weights[part.clone()].copy_from_slice(&from.weights[part]);
    }
    built
}

fn three_of(window: &Window, chroma: Chroma) -> Built {
    build(window, Choice::three(chroma))
}

fn luma_of(window: &Window, chroma: Chroma) -> Built {
    build(window, Choice::three(chroma).luma_alone())
}

// A share in each plane where luma and that plane pass; counted where all three do.
fn by_itself(window: &Window, chroma: Chroma) -> Built {
    let u = accepting(window, chroma, |b| b.passes(0) && b.passes(1));
    let v = accepting(window, chroma, |b| b.passes(0) && b.passes(2));
    let built = with_plane(three_of(window, chroma), 0, window, &luma_of(window, chroma));
    with_plane(with_plane(built, 1, window, &u), 2, window, &v)
}

// Displaced by the search over Y, U and V together.
fn searched_by_three(window: &Window, chroma: Chroma) -> Built {
    build_by(window, sample_of(chroma), |g, block| {
        let sad = |shift: Pair| (0..3).map(|k| window.plane_sad(g, block, k, shift, sample_of(chroma))).sum();
        let (shift, _) = block_search(|shift, _| sad(shift));
        let searched = Searched { window, g, block, shift, chroma };
        Match { shift, accepted: (0..3).all(|k| searched.passes(k)) }
    })
}

type Accepting = fn(&Window, Chroma) -> Built;

/// What is wrong, the builder, and of each chroma rule the samples of the smallest stored picture that shows it; 0 where
/// it is right.
#[rustfmt::skip]
const WRONGLY_ACCEPTED: [(&str, Accepting, [usize; 2]); 39] = [
    ("twelve times in chroma", |w, c| accepting(w, c, |b| {
         b.passes(0) && b.sad(1) < 12 * b.area(1) && b.sad(2) < 12 * b.area(2)
     }), [3, 3]),
    ("fourteen times in chroma", |w, c| accepting(w, c, |b| {
         b.passes(0) && b.sad(1) < 14 * b.area(1) && b.sad(2) < 14 * b.area(2)
     }), [3, 3]),
    ("equality accepted", |w, c| accepting(w, c, |b| (0..3).all(|k| b.sad(k) <= 13 * b.area(k))), [3, 3]),
    ("equality accepted in U", |w, c| accepting(w, c, |b| {
         b.passes(0) && b.sad(1) <= 13 * b.area(1) && b.passes(2)
     }), [3, 3]),
    ("equality accepted in V", |w, c| accepting(w, c, |b| {
         b.passes(0) && b.passes(1) && b.sad(2) <= 13 * b.area(2)
     }), [3, 3]),
    ("one less excluded", |w, c| accepting(w, c, |b| (0..3).all(|k| b.sad(k) + 1 < 13 * b.area(k))), [3, 3]),
    ("a mean that is rounded to the nearest", |w, c| accepting(w, c, |b| {
         (0..3).all(|k| (b.sad(k) + b.area(k) / 2) / b.area(k) < 13)
     }), [27, 27]),
    ("quarter area", |w, c| accepting(w, c, |b| b.below(b.area(0) / 4)), [3, 3]),
    ("sides rounded down", |w, c| accepting(w, c, |b| {
         b.below((b.block.columns / 2 * (b.block.rows / 2)) as u32)
     }), [3, 3]),
    ("luma area for chroma", |w, c| accepting(w, c, |b| b.below(b.area(0))), [6, 6]),
    ("area 64 for a cut block", |w, c| accepting(w, c, |b| b.below(64)), [3, 3]),
    ("the whole of a cut block", |w, c| accepting(w, c, |b| {
         let at = b.block.in_plane(1);
         b.passes_at((at.x, at.y), (8, 8))
     }), [11, 11]),
    ("planes added up", |w, c| accepting(w, c, |b| {
         (0..3).map(|k| b.sad(k)).sum::<u32>() < 13 * (0..3).map(|k| b.area(k)).sum::<u32>()
     }), [3, 3]),
    ("U and V added up", |w, c| accepting(w, c, |b| {
         b.passes(0) && b.sad(1) + b.sad(2) < 26 * b.area(1)
     }), [3, 3]),
    ("any plane passes", |w, c| accepting(w, c, |b| (0..3).any(|k| b.passes(k))), [3, 3]),
    ("two planes pass", |w, c| accepting(w, c, |b| (0..3).filter(|&k| b.passes(k)).count() > 1), [3, 3]),
    ("Y, and U or V", |w, c| accepting(w, c, |b| b.passes(0) && (b.passes(1) || b.passes(2))), [3, 3]),
    ("Y, or U and V", |w, c| accepting(w, c, |b| b.passes(0) || (b.passes(1) && b.passes(2))), [3, 3]),
    ("chroma alone", |w, c| accepting(w, c, |b| b.passes(1) && b.passes(2)), [3, 3]),
    ("luma alone", luma_of, [3, 3]),
    ("U not asked", |w, c| accepting(w, c, |b| b.passes(0) && b.passes(2)), [3, 3]),
    ("V not asked, or U measured twice", |w, c| accepting(w, c, |b| b.passes(0) && b.passes(1)), [3, 3]),
    ("V beside the centre's U", |w, c| accepting(w, c, |b| {
         let (centre, other) = (b.window.planes(b.window.centre), b.window.planes(b.g));
         let distance = |(x, y): Pair| {
             centre[1].sample(x, y).abs_diff(sample_of(b.chroma)(&other, 2, (x, y), b.shift))
         };
         let sad: u32 = b.block.in_plane(2).places().map(|place| u32::from(distance(place))).sum();
         b.passes(0) && b.passes(1) && sad < 13 * b.area(2)
     }), [10, 7]),
    ("copied samples measured", |w, c| accepting(w, c, |b| b.passes_by(sample_of(Chroma::Whole))), [0, 7]),
    ("filtered samples measured", |w, c| accepting(w, c, |b| b.passes_by(sample_of(Chroma::Half))), [7, 0]),
    ("measured where it lies", |w, c| accepting(w, c, |b| {
         b.passes_by(|p, k, at, d| copied(p, k, at, d, |_| 0))
     }), [36, 7]),
    ("measured at luma's displacement", |w, c| accepting(w, c, |b| {
         b.passes_by(|p, k, at, d| copied(p, k, at, d, |d| d))
     }), [11, 7]),
    ("measured at halves rounded down", |w, c| accepting(w, c, |b| {
         b.passes_by(|p, k, at, d| copied(p, k, at, d, |d| d.div_euclid(2)))
     }), [107, 7]),
    ("measured the other way", |w, c| accepting(w, c, |b| {
         b.passes_by(|p, k, at, d| copied(p, k, at, d, |d| -d / 2))
     }), [31, 7]),
    ("chroma at the block's place in luma", |w, c| accepting(w, c, |b| {
         let at = b.block.in_plane(1);
         b.passes_at((b.block.x, b.block.y), (at.columns, at.rows))
     }), [36, 36]),
    ("chroma of the first block", |w, c| accepting(w, c, |b| {
         let at = b.block.in_plane(1);
         b.passes_at((0, 0), (at.columns, at.rows))
     }), [100, 100]),
    ("chroma of the next block", |w, c| accepting(w, c, |b| {
         let at = b.block.in_plane(1);
         b.passes_at((at.x + 8, at.y), (at.columns, at.rows))
     }), [7, 7]),
    ("luma still blended", |w, c| with_plane(three_of(w, c), 0, w, &luma_of(w, c)), [3, 3]),
    ("each plane by itself", by_itself, [3, 3]),
    ("counted by luma", |w, c| Built { accepted: luma_of(w, c).accepted, ..three_of(w, c) }, [3, 3]),
    ("cap 0 not accepted", |w, c| accepting(w, c, |b| {
         (0..3).all(|k| b.passes(k)) && cap(&b.window.frames[b.g]) > 0
     }), [3, 3]),
    ("searched by all three planes", searched_by_three, [11, 11]),
    ("the other chroma rule", |w, c| {
         three_of(w, if c == Chroma::Whole { Chroma::Half } else { Chroma::Whole })
     }, [7, 7]),
    ("the two choices exchanged", |w, c| {
         if c == Chroma::Whole { luma_of(w, Chroma::Half) } else { three_of(w, c) }
     }, [3, 0]),
];

#[test]
fn three_planes_build_every_stored_answer() {
    each_stored(three::cases, |case, window, stored| {
        let chroma = case.choice().chroma;
        assert!(case.choice().three_planes);
        assert!(accepting(window, chroma, |b| (0..3).all(|k| b.passes(k))) == *stored);
    });
}

#[test]
fn each_wrong_acceptance_is_seen_in_stored_answers() {
    let mut seen = [[(0, usize::MAX); 2]; WRONGLY_ACCEPTED.len()];
    each_stored(three::cases, |case, window, stored| {
        for ((_, wrong, _), seen) in WRONGLY_ACCEPTED.iter().zip(&mut seen) {
            if wrong(window, case.choice().chroma) != *stored {
                let (cases, smallest) = &mut seen[(case.kind - THREE_PLANES) as usize];
                *cases += 1;
                *smallest = (*smallest).min(stored.output.len());
            }
        }
    });
    for ((name, _, expected), seen) in WRONGLY_ACCEPTED.iter().zip(seen) {
        let told = seen.map(|(cases, smallest)| format!("{cases} cases, the smallest of {smallest} samples"));
        println!("{name}: seen in {}; with half samples in {}", told[0], told[1]);
        for ((cases, smallest), expected) in seen.into_iter().zip(*expected) {
            assert!(expected == 0 || cases >= 9, "{name}: {cases} cases");
            assert_eq!(if cases == 0 { 0 } else { smallest }, expected, "{name}");
        }
    }
}
