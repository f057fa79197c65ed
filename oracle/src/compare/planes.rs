//! The filters, the fetches, the SADs and the searches.

use super::answer::{Answer, Pair};
use super::guarded::Guarded;
use super::input::{Drawn, Input, Kind};
use super::numbers::{component, side};
use super::{ceilings, content};
use crate::motion_comp::{self, BILINEAR_FILTERS, SIXTAP_FILTERS};
use crate::motion_search::{self as original, LumaRef};
use crate::motion_vector::Mv;
use crate::paper::Plane;
use crate::random::Random;
use crate::refusals::{self, Place};
use crate::{counts, model, versions};

const FILTER: &[&str] = &["mx", "my", "content", "content_seed"];
const FETCH: &[&str] = &["content", "content_seed", "len", "stride", "width", "height", "x", "y", "mv_row", "mv_col"];
#[rustfmt::skip]
const SEARCH: &[&str] = &[
    "content", "content_seed", "len", "stride", "width", "height", "mb_col", "mb_row", "mv_row", "mv_col",
    "source", "source_seed",
];
#[rustfmt::skip]
const VERSIONED: &[&str] = &[
    "content", "content_seed", "len", "stride", "width", "height", "mb_col", "mb_row", "mv_row", "mv_col",
    "source", "source_seed", "version",
];
#[rustfmt::skip]
const DIAMOND: &[&str] = &[
    "content", "content_seed", "len", "stride", "width", "height", "mb_col", "mb_row", "mv_row", "mv_col",
    "source", "source_seed", "max_iters",
];

#[rustfmt::skip]
pub const KINDS: [Kind; 12] = [
    Kind { name: "interp", weight: 40, fields: &["selector", "support_seed", "levels"], draw: draw_interp,
           answers: answer_interp },
    Kind { name: "sixtap_mb_luma", weight: 70, fields: FILTER, draw: draw_filter, answers: answer_sixtap },
    Kind { name: "bilinear_mb_luma", weight: 70, fields: FILTER, draw: draw_filter, answers: answer_bilinear },
    Kind { name: "fetch_luma_mb_whole_pixel", weight: 75, fields: FETCH, draw: draw_fetch, answers: answer_whole },
    Kind { name: "fetch_luma_mb_halo", weight: 75, fields: FETCH, draw: draw_fetch, answers: answer_halo },
    Kind { name: "block_sad_16x16", weight: 50, fields: &["src", "src_seed", "pred", "pred_seed"], draw: draw_pair,
           answers: answer_block_sad },
    Kind { name: "block_sad_16x16_up_to", weight: 60, fields: ceilings::FIELDS, draw: ceilings::draw,
           answers: ceilings::answer },
    Kind { name: "mb_luma_sad_at_whole_mv", weight: 90, fields: SEARCH, draw: |r| draw_search(r, 4),
           answers: answer_whole_sad },
    Kind { name: "mb_luma_sad_at_mv", weight: 120, fields: VERSIONED, draw: |r| draw_versioned(r, 1),
           answers: answer_sad },
    Kind { name: "small_diamond_search_luma", weight: 120, fields: DIAMOND, draw: draw_diamond,
           answers: answer_diamond },
    Kind { name: "half_pixel_refine_luma", weight: 110, fields: VERSIONED, draw: |r| draw_versioned(r, 4),
           answers: answer_half },
    Kind { name: "quarter_pixel_refine_luma", weight: 70, fields: VERSIONED, draw: |r| draw_versioned(r, 2),
           answers: answer_quarter },
];

/// What a plane's need is cut to, before a few bytes more are added; one that needs much more is short.
const MOST: u128 = 70_000;

fn selector(random: &mut Random) -> i128 {
    let legal = random.below(8) as u32;
    if random.percent(94) { legal.into() } else { random.pick(&[8, 9, 255, 256, 1 << 31, u32::MAX]).into() }
}

fn draw_interp(random: &mut Random) -> Drawn {
    let levels = random.pick(&[2, 2, 4, 256]);
    (vec![selector(random), random.below(1 << 32).into(), levels], vec![])
}

fn draw_content(random: &mut Random) -> [i128; 2] {
    [random.below(content::KINDS).into(), random.below(1 << 32).into()]
}

fn draw_filter(random: &mut Random) -> Drawn {
    let [content, seed] = draw_content(random);
    (vec![selector(random), selector(random), content, seed], vec![])
}

pub fn draw_pair(random: &mut Random) -> Drawn {
    ([draw_content(random), draw_content(random)].concat(), vec![])
}

/// The two blocks of such a pair.
pub fn pair(numbers: &[i128]) -> [Vec<u8>; 2] {
    [0, 2].map(|k| content::bytes(numbers[k] as u64, numbers[k + 1] as u64, 256, 16))
}

// A plane's content, length, stride, width and height; huge strides and lengths that are short are few.
fn draw_plane(random: &mut Random) -> Vec<i128> {
    let (width, height) = (side(random), side(random));
    let needed = |stride: u64| u128::from(height.saturating_sub(1)) * u128::from(stride) + u128::from(width);
    let stride = match random.below(100) {
        _ if needed(width) > MOST => random.pick(&[0, 1, 1, 2]),
        0..50 => width,
        50..70 => width.saturating_add(random.below(40)),
        70..98 => random.below(width.clamp(1, 200)),
        _ => random.pick(&[1 << 32, 1 << 63, u64::MAX - 15, u64::MAX]),
    };
    let needed = needed(stride).min(MOST) as i128;
    let len = match random.below(100) {
        0..75 => needed,
        75..97 => needed + i128::from(random.below(50)),
        97..99 => (needed - 1).max(0),
        _ => 0,
    };
    let [content, seed] = draw_content(random);
    vec![content, seed, len, stride.into(), width.into(), height.into()]
}

// A place within a plane of a side, near its end, at the ends that are legal and past them.
fn place(random: &mut Random, side: i128, most: u64) -> i128 {
    let side = side.clamp(1, 16383) as u64;
    match random.below(100) {
        0..65 => random.below(side).min(most).into(),
        65..85 => (side + random.below(40)).saturating_sub(20).min(most).into(),
        85..97 => random.pick(&[0, most, most - 1]).into(),
        97..99 => (most + 1).into(),
        _ => random.pick(&[most + 2, 1 << 32, 1 << 63, u64::MAX]).into(),
    }
}

fn draw_fetch(random: &mut Random) -> Drawn {
    let mut all = draw_plane(random);
    let (width, height) = (all[4], all[5]);
    all.extend([place(random, width, 16368), place(random, height, 16368)]);
    all.extend([component(random), component(random)].map(i128::from));
    (all, vec![])
}

// A component on a grid, off it and out of range in a few.
fn vector(random: &mut Random, grid: i16) -> i128 {
    let on_grid = |v: i16| v / grid * grid;
    match random.below(100) {
        0..60 => on_grid(random.below(161) as i16 - 80).into(),
        60..85 => on_grid(random.below(2047) as i16 - 1023).into(),
        85..96 => on_grid(random.pick(&[1023, -1023, 1020, -1020, 0])).into(),
        96..98 => random.below(2047) as i128 - 1023,
        _ => random.pick(&[1021, -1021, 1022, 1023, -1023, 1024, -1024, 1025, 32767, -32768]).into(),
    }
}

fn draw_search(random: &mut Random, grid: i16) -> Drawn {
    let mut all = draw_plane(random);
    let (width, height) = (all[4] / 16, all[5] / 16);
    all.extend([place(random, width, 1023), place(random, height, 1023)]);
    all.extend([vector(random, grid), vector(random, grid)]);
    all.extend([random.below(content::SOURCES), random.below(1 << 32)].map(i128::from));
    (all, vec![])
}

// A version, one that is refused in a few.
fn draw_versioned(random: &mut Random, grid: i16) -> Drawn {
    let (mut all, list) = draw_search(random, grid);
    let legal = random.below(3);
    all.push(if random.percent(94) { legal } else { random.pick(&[3, 255]) }.into());
    (all, list)
}

fn draw_diamond(random: &mut Random) -> Drawn {
    let (mut all, list) = draw_search(random, 1);
    let few = random.below(20) as u32;
    all.push(random.pick(&[0, 1, 2, 3, 4, few, 65281, u32::MAX, u32::MAX]).into());
    if random.percent(20) {
        all[8..10].copy_from_slice(&[component(random), component(random)].map(i128::from));
    }
    (all, list)
}

fn answer_interp(input: &Input) -> Pair {
    let mut random = Random::new(input.get("support_seed") as u64);
    let levels = input.get("levels").max(1) as u64;
    let level = |k: u64| (k * 255 / (levels - 1).max(1)) as u8;
    let support: [u8; 6] = std::array::from_fn(|_| level(random.below(levels)));
    let selector = input.get("selector") as u32;
    let lent = Guarded::holding(&support, input.salt);
    let got = model::interp(selector, lent.array());
    let model = Answer::new(got.refusal.into(), &[got.sample.into()]).constant("support", &lent);
    let refusal = refusals::of_selectors(&[selector]);
    let filtered = || motion_comp::interp(&SIXTAP_FILTERS[selector as usize], &support);
    let sample = if refusal == 0 { filtered() } else { 0 };
    Pair { model, expected: Answer::new(refusal, &[sample.into()]) }
}

fn answer_sixtap(input: &Input) -> Pair {
    filtered(input, model::sixtap_mb_luma, &SIXTAP_FILTERS)
}

fn answer_bilinear(input: &Input) -> Pair {
    filtered(input, model::bilinear_mb_luma, &BILINEAR_FILTERS)
}

type Filter = extern "C" fn(&[u8; 441], u32, u32, &mut [u8; 256]) -> model::Status;

// Both filters of a macroblock; the original has one call, which is handed the rows.
fn filtered(input: &Input, filter: Filter, rows: &[[i32; 6]; 8]) -> Pair {
    let samples = content::bytes(input.get("content") as u64, input.get("content_seed") as u64, 441, 21);
    let (mx, my) = (input.get("mx") as u32, input.get("my") as u32);
    let halo = Guarded::holding(&samples, input.salt);
    let mut block = Guarded::<u8>::noise(256, input.salt ^ 1);
    let mut wanted = *block.array::<256>();
    let got = filter(halo.array(), mx, my, block.array_mut());
    let model = Answer::new(got.refusal.into(), &[]).constant("halo", &halo).written("block", &block);
    let refusal = refusals::of_selectors(&[mx, my]);
    if refusal == 0 {
        wanted = motion_comp::sixtap_mb_luma(halo.array(), mx as usize, my as usize, rows);
    }
    Pair { model, expected: Answer::new(refusal, &[]).holding(&wanted) }
}

fn answer_block_sad(input: &Input) -> Pair {
    let [src, pred] = pair(&input.numbers);
    let (src, pred) = (Guarded::holding(&src, input.salt), Guarded::holding(&pred, input.salt ^ 1));
    let sad = model::block_sad_16x16(src.array(), pred.array());
    let model = Answer::new(0, &[sad.into()]).constant("src", &src).constant("pred", &pred);
    Pair { model, expected: Answer::new(0, &[original::block_sad_16x16(src.array(), pred.array()).into()]) }
}

// A plane with a place and a vector.
struct Case {
    plane: Guarded<u8>,
    stride: usize,
    width: usize,
    height: usize,
    at: (usize, usize),
    mv: Mv,
}

impl Case {
    fn of(input: &Input, at: [&str; 2]) -> Case {
        let [len, stride, width, height] = ["len", "stride", "width", "height"].map(|name| input.size(name));
        let pitch = if stride == 0 || stride > len { width } else { stride };
        let bytes = content::bytes(input.get("content") as u64, input.get("content_seed") as u64, len, pitch);
        let mv = Mv { row: input.get("mv_row") as i16, col: input.get("mv_col") as i16 };
        let at = (input.size(at[0]), input.size(at[1]));
        Case { plane: Guarded::holding(&bytes, input.salt), stride, width, height, at, mv }
    }

    fn luma(&self) -> model::Luma<'_> {
        let Case { stride, width, height, .. } = *self;
        model::Luma { plane: self.plane.slice(), stride, width, height }
    }

    fn reference(&self) -> LumaRef<'_> {
        let Case { stride, width, height, .. } = *self;
        LumaRef { plane: self.plane.slice(), stride, width, height }
    }

    fn paper(&self) -> Plane<'_> {
        let Case { stride, width, height, .. } = *self;
        Plane { bytes: self.plane.slice(), stride, width, height }
    }

    // The source macroblock of a search.
    fn source(&self, input: &Input) -> [u8; 256] {
        let plane = self.paper();
        let whole = refusals::of_diamond(self.place()) == 0;
        let (kind, seed) = (input.get("source") as u64, input.get("source_seed") as u64);
        let at = (self.at.0.wrapping_mul(16), self.at.1.wrapping_mul(16));
        content::macroblock(kind, seed, whole.then_some(&plane), at, self.mv)
    }

    fn place(&self) -> Place {
        let (len, at) = (self.plane.slice().len() as u64, self.at);
        let [stride, width, height, x, y] = [self.stride, self.width, self.height, at.0, at.1].map(|n| n as u64);
        Place { len, stride, width, height, x, y }
    }
}

fn answer_whole(input: &Input) -> Pair {
    let case = Case::of(input, ["x", "y"]);
    let Case { stride, width, height, at: (x, y), mv, .. } = case;
    let mut block = Guarded::<u8>::noise(256, input.salt ^ 1);
    let mut wanted = *block.array::<256>();
    let got = model::fetch_luma_mb_whole_pixel(case.luma(), x, y, mv, block.array_mut());
    let model = Answer::new(got.refusal.into(), &[]).constant("plane", &case.plane).written("block", &block);
    let refusal = refusals::of_fetch(case.place());
    if refusal == 0 {
        wanted = motion_comp::fetch_luma_mb_whole_pixel(case.plane.slice(), stride, width, height, x, y, mv);
    }
    Pair { model, expected: Answer::new(refusal, &[]).holding(&wanted) }
}

fn answer_halo(input: &Input) -> Pair {
    let case = Case::of(input, ["x", "y"]);
    let Case { stride, width, height, at: (x, y), mv, .. } = case;
    let mut halo = Guarded::<u8>::noise(441, input.salt ^ 1);
    let mut wanted = *halo.array::<441>();
    let got = model::fetch_luma_mb_halo(case.luma(), x, y, mv, halo.array_mut());
    let model = Answer::new(got.refusal.into(), &[]).constant("plane", &case.plane).written("halo", &halo);
    let refusal = refusals::of_fetch(case.place());
    if refusal == 0 {
        wanted = motion_comp::fetch_luma_mb_halo(case.plane.slice(), stride, width, height, x, y, mv);
    }
    Pair { model, expected: Answer::new(refusal, &[]).holding(&wanted) }
}

// The plane, the source macroblock, and the answer of a search: what the model says, and where the case is
// accepted what the original does; refused, every number is 0.
fn searched(
    input: &Input,
    refused: impl Fn(Place, Mv) -> u64,
    model: impl Fn(&Case, &[u8; 256]) -> (u32, Vec<i64>),
    original: impl Fn(&Case, &[u8; 256]) -> Vec<i64>,
) -> Pair {
    let case = Case::of(input, ["mb_col", "mb_row"]);
    let samples = case.source(input);
    let src = Guarded::holding(&samples, input.salt ^ 1);
    let (number, said) = model(&case, src.array());
    let refusal = refused(case.place(), case.mv);
    let wanted = if refusal == 0 { original(&case, &samples) } else { vec![0; said.len()] };
    let model = Answer::new(number.into(), &said).constant("plane", &case.plane).constant("src_y", &src);
    Pair { model, expected: Answer::new(refusal, &wanted) }
}

fn answer_whole_sad(input: &Input) -> Pair {
    let model = |case: &Case, src: &[u8; 256]| {
        let got = model::mb_luma_sad_at_whole_mv(case.luma(), case.at, src, case.mv);
        (got.refusal, vec![got.sad.into()])
    };
    let original = |case: &Case, src: &[u8; 256]| {
        let (col, row) = case.at;
        vec![original::mb_luma_sad_at_whole_mv(case.reference(), col, row, src, case.mv).into()]
    };
    searched(input, |place, mv| refusals::of_vector_on_grid(place, mv, 4), model, original)
}

fn answer_sad(input: &Input) -> Pair {
    let version = input.get("version") as u8;
    let model = |case: &Case, src: &[u8; 256]| {
        let got = model::mb_luma_sad_at_mv(case.luma(), case.at, src, case.mv, version);
        (got.refusal, vec![got.sad.into()])
    };
    let original = |case: &Case, src: &[u8; 256]| {
        vec![versions::mb_luma_sad_at_mv(case.reference(), case.at, src, case.mv, version).into()]
    };
    let refused = |place, mv| refusals::of_version(version, refusals::of_vector(place, mv));
    searched(input, refused, model, original)
}

fn answer_diamond(input: &Input) -> Pair {
    let limit = input.get("max_iters") as u32;
    let model = |case: &Case, src: &[u8; 256]| {
        let got = model::small_diamond_search_luma(case.luma(), case.at, src, case.mv, limit);
        let counts = [got.sad, got.sads, got.rounds].map(i64::from);
        (got.refusal, [&[got.row.into(), got.col.into()], &counts[..]].concat())
    };
    let original = |case: &Case, src: &[u8; 256]| {
        let (col, row) = case.at;
        let got = counts::diamond(case.reference(), col, row, src, case.mv, limit);
        let (mv, sad) = (got.answer.mv, got.answer.sad);
        vec![mv.row.into(), mv.col.into(), sad.into(), got.sads as i64, got.rounds as i64]
    };
    searched(input, |place, _| refusals::of_diamond(place), model, original)
}

fn answer_half(input: &Input) -> Pair {
    let version = input.get("version") as u8;
    let model = |case: &Case, src: &[u8; 256]| {
        let got = model::half_pixel_refine_luma(case.luma(), case.at, src, case.mv, version);
        (got.refusal, vec![got.row.into(), got.col.into(), got.sad.into()])
    };
    let original = |case: &Case, src: &[u8; 256]| {
        let got = versions::half_pixel_refine_luma(case.reference(), case.at, src, case.mv, version);
        vec![got.mv.row.into(), got.mv.col.into(), got.sad.into()]
    };
    let refused = |place, mv| refusals::of_version(version, refusals::of_vector_on_grid(place, mv, 4));
    searched(input, refused, model, original)
}

fn answer_quarter(input: &Input) -> Pair {
    let version = input.get("version") as u8;
    let model = |case: &Case, src: &[u8; 256]| {
        let got = model::quarter_pixel_refine_luma(case.luma(), case.at, src, case.mv, version);
        (got.refusal, vec![got.row.into(), got.col.into(), got.sad.into()])
    };
    let original = |case: &Case, src: &[u8; 256]| {
        let got = versions::quarter_pixel_refine_luma(case.reference(), case.at, src, case.mv, version);
        vec![got.mv.row.into(), got.mv.col.into(), got.sad.into()]
    };
    let refused = |place, mv| refusals::of_version(version, refusals::of_vector_on_grid(place, mv, 2));
    searched(input, refused, model, original)
}

#[cfg(test)]
mod tests {
    use super::*;
    use crate::paper::search::{NO_CEILING, diamond, predicted, sad, sad_up_to};

    // Of the neighbours that drawn diamonds measure, many tie with the best and many are lost before their last row.
    #[test]
    fn drawn_diamonds_tie_and_lose() {
        static ALL: [Kind; 12] = KINDS;
        let kind = ALL.iter().find(|kind| kind.name == "small_diamond_search_luma").expect("a kind of the list");
        let (mut tried, mut tied, mut lost) = (0, 0, 0);
        for input in (0..500).map(|index| Input::draw(&[kind], 6386, index)) {
            let case = Case::of(&input, ["mb_col", "mb_row"]);
            if refusals::of_diamond(case.place()) > 0 {
                continue;
            }
            let source = case.source(&input);
            let cost = |mv, ceiling| {
                let block = predicted(&case.paper(), case.at, mv, 0);
                let (value, rows) = sad_up_to(&source, &block, 16, ceiling);
                tried += u32::from(ceiling < NO_CEILING);
                tied += u32::from(sad(&source, &block) == ceiling);
                lost += u32::from(rows < 16);
                value
            };
            diamond(cost, case.mv, 40);
        }
        assert!(tried > 2000 && tied * 5 > tried && lost * 10 > tried, "{tried} tried, {tied} tied, {lost} lost");
    }
}
