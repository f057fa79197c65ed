//! The small calls: samples, vectors, refusals of sizes, weights, configurations.

use super::answer::{Answer, Pair, numbers};
use super::guarded::Guarded;
use super::input::{Drawn, Input, Kind};
use crate::arnr::ArnrConfig;
use crate::encoder::I420Frame;
use crate::inverse_transform::clamp255;
use crate::motion_comp::{self, FilterSet, apply_full_pixel, fetch_luma_mb_whole_pixel};
use crate::motion_search::block_sad_16x16;
use crate::motion_vector::Mv;
use crate::random::Random;
use crate::{counts, model, refusals};
use std::sync::OnceLock;

#[rustfmt::skip]
pub const KINDS: [Kind; 14] = [
    Kind { name: "clamp255", weight: 12, fields: &["v"], draw: draw_sample, answers: answer_clamp },
    Kind { name: "abs_diff", weight: 12, fields: &["a", "b"], draw: draw_bytes, answers: answer_distance },
    Kind { name: "stored_luma_mv", weight: 12, fields: &["row", "col"], draw: draw_vector, answers: answer_stored },
    Kind { name: "whole_offset", weight: 12, fields: &["v"], draw: draw_component, answers: answer_whole },
    Kind { name: "fraction", weight: 12, fields: &["v"], draw: draw_component, answers: answer_fraction },
    Kind { name: "filter_set_for_version", weight: 3, fields: &["version"], draw: draw_byte, answers: answer_set },
    Kind { name: "bad_size", weight: 12, fields: &["width", "height"], draw: draw_size, answers: answer_size },
    Kind { name: "short_plane", weight: 12, fields: &["len", "stride", "width", "height"], draw: draw_short,
           answers: answer_short },
    Kind { name: "curve", weight: 3, fields: &["strength"], draw: draw_byte, answers: answer_curve },
    Kind { name: "weight", weight: 12, fields: &["strength", "e"], draw: draw_weight, answers: answer_weight },
    Kind { name: "scale_of", weight: 3, fields: &["strength"], draw: draw_byte, answers: answer_scale },
    Kind { name: "distance_bound", weight: 6, fields: &["n", "strength"], draw: draw_bound, answers: answer_bound },
    Kind { name: "arnr_config_new", weight: 3, fields: &["strength"], draw: draw_byte, answers: answer_new },
    Kind { name: "arnr_config_with_strength", weight: 3, fields: &["config", "v"], draw: draw_bytes,
           answers: answer_with_strength },
];

pub const DEFAULT: Kind = Kind {
    name: "arnr_config_default",
    weight: 1,
    fields: &[],
    draw: |_| (vec![], vec![]),
    answers: |_| {
        let stored = ArnrConfig::default().strength;
        numbers(&[model::arnr_config_default().into()], &[stored.into()])
    },
};

/// A side that is legal in 97 of 100, and small in most.
pub fn side(random: &mut Random) -> u64 {
    match random.below(100) {
        0..60 => 1 + random.below(64),
        60..90 => random.pick(&[1, 2, 15, 16, 17, 31, 32, 33, 48]),
        90..97 => random.pick(&[16383, 16382, 1000]),
        97..99 => random.pick(&[0, 16384]),
        _ => random.pick(&[1 << 32, u64::MAX, 65536, 32768]),
    }
}

/// A component, of any size.
pub fn component(random: &mut Random) -> i16 {
    match random.below(3) {
        0 => random.pick(&[0, 1, -1, 4, -4, 7, -8, 1020, -1020, 1023, -1023, 1024, 16384, 32767, -32767, -32768]),
        1 => random.below(64) as i16 - 32,
        _ => random.component(),
    }
}

pub fn strength(random: &mut Random) -> u8 {
    if random.percent(80) { 1 + random.below(6) as u8 } else { random.pick(&[0, 7, 8, 128, 255]) }
}

fn of<const N: usize>(numbers: [i128; N]) -> Drawn {
    (numbers.to_vec(), vec![])
}

fn draw_sample(random: &mut Random) -> Drawn {
    let near = random.below(1024) as i32 - 384;
    let edge = random.pick(&[i32::MIN, i32::MAX, -1, 0, 255, 256, -65536, 65536]);
    let any = random.next() as i32;
    of([random.pick(&[near, edge, any]).into()])
}

fn draw_byte(random: &mut Random) -> Drawn {
    of([random.byte().into()])
}

fn draw_bytes(random: &mut Random) -> Drawn {
    of([random.byte().into(), random.byte().into()])
}

fn draw_component(random: &mut Random) -> Drawn {
    of([component(random).into()])
}

fn draw_vector(random: &mut Random) -> Drawn {
    of([component(random).into(), component(random).into()])
}

fn draw_size(random: &mut Random) -> Drawn {
    of([side(random).into(), side(random).into()])
}

// Lengths about the bytes needed, where that is a 64-bit number.
fn draw_short(random: &mut Random) -> Drawn {
    let (width, height) = (side(random), side(random));
    let stride = random.pick(&[0, 1, width, 1 << 32, 1 << 63, u64::MAX, u64::MAX / 16382 + 1]);
    let needed = u128::from(height.saturating_sub(1)) * u128::from(stride) + u128::from(width);
    let about = needed as u64;
    let len = random.pick(&[about, about.wrapping_sub(1), about.wrapping_add(1), 0, u64::MAX]);
    of([len.into(), stride.into(), width.into(), height.into()])
}

fn draw_weight(random: &mut Random) -> Drawn {
    let e = if random.percent(50) { random.byte() } else { random.below(90) as u8 };
    of([strength(random).into(), e.into()])
}

fn draw_bound(random: &mut Random) -> Drawn {
    let few = random.byte().into();
    let n = random.pick(&[0, 1, 2, 3, 7, 15, 1023, 1024, u32::MAX, few]);
    of([n.into(), strength(random).into()])
}

fn answer_clamp(input: &Input) -> Pair {
    let v = input.get("v") as i32;
    numbers(&[model::clamp255(v).into()], &[clamp255(v).into()])
}

// A distance is the SAD of two macroblocks that differ in one sample.
fn answer_distance(input: &Input) -> Pair {
    let (a, b) = (input.get("a") as u8, input.get("b") as u8);
    let (mut one, mut other) = ([7; 256], [7; 256]);
    (one[100], other[100]) = (a, b);
    numbers(&[model::abs_diff(a, b).into()], &[block_sad_16x16(&one, &other).into()])
}

fn answer_stored(input: &Input) -> Pair {
    let mv = Mv { row: input.get("row") as i16, col: input.get("col") as i16 };
    let got = model::stored_luma_mv(mv.row, mv.col);
    let twice = motion_comp::stored_luma_mv(mv);
    let model = Answer::new(got.refusal.into(), &[got.row.into(), got.col.into()]);
    Pair { model, expected: Answer::new(0, &[twice.row.into(), twice.col.into()]) }
}

// A whole offset is seen in what a fetch reads: two rows of samples that spell their own column.
fn answer_whole(input: &Input) -> Pair {
    static ROWS: OnceLock<[Vec<u8>; 2]> = OnceLock::new();
    let rows = ROWS.get_or_init(|| [0, 8].map(|shift| (0..16383).map(|column| (column >> shift) as u8).collect()));
    let v = input.get("v") as i16;
    let read = |row: &[u8]| fetch_luma_mb_whole_pixel(row, 16383, 16383, 1, 8000, 0, Mv { row: 0, col: v })[0];
    let column = i64::from(read(&rows[0])) + 256 * i64::from(read(&rows[1]));
    numbers(&[model::whole_offset(v).into()], &[column - 8000])
}

// A fraction is what apply_full_pixel takes away.
fn answer_fraction(input: &Input) -> Pair {
    let v = input.get("v") as i16;
    let cut = apply_full_pixel(Mv { row: v, col: 0 }).row;
    numbers(&[model::fraction(v).into()], &[i64::from(v) - i64::from(cut)])
}

fn answer_set(input: &Input) -> Pair {
    let version = input.get("version") as u8;
    let set = i64::from(motion_comp::filter_set_for_version(version) == FilterSet::Bilinear);
    numbers(&[model::filter_set_for_version(version).into()], &[set])
}

fn answer_size(input: &Input) -> Pair {
    let (width, height) = (input.size("width"), input.size("height"));
    let legal = refusals::legal_size(width as u64, height as u64);
    numbers(&[model::bad_size(width, height).into()], &[i64::from(!legal)])
}

fn answer_short(input: &Input) -> Pair {
    let [len, stride, width, height] = ["len", "stride", "width", "height"].map(|name| input.size(name));
    let rows = (height as u64).max(1);
    let short = refusals::plane_is_short(len as u64, stride as u64, width as u64, rows);
    numbers(&[model::short_plane(len, stride, width, height).into()], &[i64::from(short)])
}

// The original's weights, seen in a build: flat luma, and every difference once in a chroma plane. None at
// strength 0, where the original blends nothing.
fn weights(strength: u8) -> [u32; 256] {
    let (luma, centre) = ([9; 1024], [0; 256]);
    let other: [u8; 256] = std::array::from_fn(|e| e as u8);
    let frames = [I420Frame::packed(32, 32, &luma, &centre, &centre), I420Frame::packed(32, 32, &luma, &other, &other)];
    let built = counts::build(&frames, 0, &ArnrConfig::default().with_strength(strength)).expect("a legal window");
    std::array::from_fn(|e| built.weights.get(1024 + e).map_or(0, |total| total - 16))
}

fn answer_curve(input: &Input) -> Pair {
    let strength = input.get("strength") as u8;
    let mut curve = Guarded::<u32>::noise(256, input.salt);
    model::curve(strength, curve.array_mut());
    let model = Answer::new(0, &[]).written("curve", &curve);
    Pair { model, expected: Answer::new(0, &[]).holding(&weights(strength)) }
}

fn answer_weight(input: &Input) -> Pair {
    let (strength, e) = (input.get("strength") as u8, input.get("e") as u8);
    numbers(&[model::weight(strength, e).into()], &[weights(strength)[usize::from(e)].into()])
}

fn answer_scale(input: &Input) -> Pair {
    let strength = input.get("strength") as u8;
    numbers(&[model::scale_of(strength).into()], &[8 << strength.min(6)])
}

// The largest of n e w(e) / (16 + n w(e)), rounded to nearest with halves up.
fn answer_bound(input: &Input) -> Pair {
    let (n, strength) = (input.get("n") as u32, input.get("strength") as u8);
    let moved = |(e, &w): (usize, &u32)| {
        let total = 16 + i128::from(n) * i128::from(w);
        (2 * i128::from(n) * e as i128 * i128::from(w) + total) / (2 * total)
    };
    let bound = weights(strength).iter().enumerate().map(moved).max();
    numbers(&[model::distance_bound(n, strength).into()], &[bound.unwrap_or(0) as i64])
}

fn answer_new(input: &Input) -> Pair {
    let strength = input.get("strength") as u8;
    numbers(&[model::arnr_config_new(strength).into()], &[ArnrConfig::new(strength).strength.into()])
}

fn answer_with_strength(input: &Input) -> Pair {
    let (config, v) = (input.get("config") as u8, input.get("v") as u8);
    let stored = ArnrConfig::default().with_strength(config).with_strength(v).strength;
    numbers(&[model::arnr_config_with_strength(config, v).into()], &[stored.into()])
}
