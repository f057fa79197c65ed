//! The model's time beside the originals', in one process on the same inputs. Every buffer is warm: a round that
//! is not measured touches it first and checks that both sides give the same. The original's builder allocates its
//! picture and its sums in each call; the model's writes to slices that stay.

use crate::arnr::{ArnrConfig, ArnrPicture, build_arnr_altref};
use crate::compare::content;
use crate::encoder::I420Frame;
use crate::halves::shifts;
use crate::model::{self, Luma};
use crate::motion_comp::{BILINEAR_FILTERS, SIXTAP_FILTERS, fetch_luma_mb_halo, sixtap_mb_luma};
use crate::motion_search::{self as original, LumaRef};
use crate::motion_vector::Mv;
use crate::paper::denoiser::{Built, Choice, Chroma, Window};
use crate::paper::search::{NO_CEILING, sad};
use crate::pictures::{by_account, cut};
use crate::random::Random;
use crate::refusals::{Frame, MAX_CAP, packed_size};
use crate::rows::{self, Rows, Source};
use crate::three::by_the_originals;
use crate::versions;
use std::hint::black_box;
use std::time::{Duration, Instant};

const ROUNDS: usize = 41;
/// What a round of the slower side takes at least.
const ROUND: Duration = Duration::from_millis(3);
const WIDTH: usize = 352;
const HEIGHT: usize = 288;
/// Of the pictures that are searched whole.
const SIZES: [(usize, usize); 2] = [(WIDTH, HEIGHT), (1280, 720)];
/// Of the sample clip.
const CLIP: (usize, usize) = (64, 48);

/// The clip is the host's sample.
pub fn run(clip: &[u8]) {
    let build = if cfg!(feature = "simd") { "simd" } else { "plain" };
    println!("bench: Rust {build}, release, opt-level 3; both sides for baseline x86-64");
    println!("{ROUNDS} rounds, the sides alternated, warm buffers; time of a call, least and median of the rounds");
    println!("ratio = Rust's time / the model's; the Rust builder allocates its output, the model's is lent it;");
    println!(
        "beside a SAD up to a ceiling stands the Rust's whole SAD, beside version 1 a copy of the Rust's searches,"
    );
    println!("beside a picture in one call the Rust's single calls, which are handed blocks that the caller cuts;");
    println!("a percentage is the share of accepted blocks: the last builder's window is a still picture with noise");
    print_head("model", "Rust");
    filters();
    sads();
    searches(&moving());
    refinements(&moving());
    diamonds("diamond, moving texture", &moving());
    diamonds("diamond, noise", &noise());
    let whole = SIZES.map(Whole::moving);
    whole.iter().for_each(beside_rust);
    let frames = [2, 3, 5, 7, 9, 15].map(|count| ((WIDTH, HEIGHT), count));
    let sizes = [(176, 144), (704, 576)].map(|size| (size, 7));
    let windows = [&frames[..], &sizes].concat();
    let times: Vec<[f64; 2]> = windows.iter().map(|&(size, count)| builder(size, count, 1)).collect();
    builder((WIDTH, HEIGHT), 7, 0);
    println!("builder, least time for each sample of the picture and each other frame:");
    for (((width, height), count), least) in windows.into_iter().zip(times) {
        let shares = packed_size(width as u64, height as u64) as f64 * (count - 1) as f64;
        let [ours, rust] = least.map(|ns| ns / shares);
        println!("  {width}x{height}, {count:>2} frames: model {ours:.2} ns, Rust {rust:.2} ns");
    }
    beside_six_tap(&moving());
    beside_single_calls(&whole);
    within_allowances("moving texture", &whole[0]);
    within_allowances("noise", &Whole::of(NOISE, (WIDTH, HEIGHT)));
    beside_whole_samples();
    beside_luma_alone();
    count_rows(clip);
}

// Above the columns of `measure`.
fn print_head(ours: &str, other: &str) {
    println!("{:<40} {ours:>21} {other:>21} {:>13}", "", "ratio");
    println!(
        "{:<40} {:>10} {:>10} {:>10} {:>10} {:>6} {:>6}",
        "", "least", "median", "least", "median", "least", "med."
    );
}

// Measures both sides, prints a line, and answers the least time of each.
fn measure(name: &str, ours: impl FnMut(), rust: impl FnMut()) -> [f64; 2] {
    measured(name, ours, rust).map(|[least, _]| least)
}

// The same with the median.
fn measured(name: &str, mut ours: impl FnMut(), mut rust: impl FnMut()) -> [[f64; 2]; 2] {
    let calls = calls_a_round(&mut ours).min(calls_a_round(&mut rust)).max(1);
    let (mut of_ours, mut of_rust) = (Vec::new(), Vec::new());
    for round in 0..ROUNDS {
        let (mut ours, mut rust) = (|| timed(calls, &mut ours), || timed(calls, &mut rust));
        if round % 2 == 0 {
            of_ours.push(deeper(round, &mut ours));
            of_rust.push(deeper(round, &mut rust));
        } else {
            of_rust.push(deeper(round, &mut rust));
            of_ours.push(deeper(round, &mut ours));
        }
    }
    let [a, b] = [of_ours, of_rust].map(least_and_median);
    let [w, x, y, z] = [a[0], a[1], b[0], b[1]].map(shown);
    println!("{name:<40} {w:>10} {x:>10} {y:>10} {z:>10} {:>6.2} {:>6.2}", b[0] / a[0], b[1] / a[1]);
    [a, b]
}

// At a depth of the stack that grows with the round, over 4096 bytes and more: the place there can cost some percent.
fn deeper(round: usize, side: &mut dyn FnMut() -> f64) -> f64 {
    black_box([round as u8; 80]);
    if round == 0 { side() } else { black_box(deeper(round - 1, side)) }
}

// Nanoseconds a call.
fn timed(calls: u32, side: &mut impl FnMut()) -> f64 {
    let start = Instant::now();
    for _ in 0..calls {
        side();
    }
    start.elapsed().as_secs_f64() * 1e9 / f64::from(calls)
}

fn calls_a_round(side: &mut impl FnMut()) -> u32 {
    let mut calls = 1;
    loop {
        let taken = Duration::from_secs_f64(timed(calls, side) * f64::from(calls) / 1e9);
        if taken >= ROUND {
            return calls;
        }
        calls *= 2;
    }
}

fn least_and_median(mut times: Vec<f64>) -> [f64; 2] {
    times.sort_by(f64::total_cmp);
    [times[0], times[times.len() / 2]]
}

fn shown(ns: f64) -> String {
    match ns {
        ..10_000.0 => format!("{ns:.1} ns"),
        ..10_000_000.0 => format!("{:.1} us", ns / 1e3),
        _ => format!("{:.2} ms", ns / 1e6),
    }
}

fn filters() {
    for at in [(2, 6), (0, 6), (2, 0)] {
        let rust = |halo: &[u8; 441], mx, my| sixtap_mb_luma(halo, mx, my, &SIXTAP_FILTERS);
        filter("six-tap", at, model::sixtap_mb_luma, rust);
    }
    // the original has one call for both filters, which is handed the rows
    let rust = |halo: &[u8; 441], mx, my| sixtap_mb_luma(halo, mx, my, &BILINEAR_FILTERS);
    filter("bilinear", (2, 6), model::bilinear_mb_luma, rust);
}

type Filter = extern "C" fn(&[u8; 441], u32, u32, &mut [u8; 256]) -> model::Status;

fn filter(name: &str, (mx, my): (u32, u32), ours: Filter, rust: impl Fn(&[u8; 441], usize, usize) -> [u8; 256]) {
    let (halo, mut block) = (halo(), [0; 256]);
    let mut ours = || filtered(ours, &halo, (mx, my), &mut block);
    let rust = || black_box(rust(black_box(&halo), black_box(mx) as usize, black_box(my) as usize));
    assert_eq!(ours(), rust());
    measure(&format!("{name} macroblock ({mx}, {my})"), || _ = ours(), || _ = rust());
}

fn halo() -> [u8; 441] {
    content::bytes(5, 3, 441, 21).try_into().expect("441 samples")
}

fn filtered(filter: Filter, halo: &[u8; 441], (mx, my): (u32, u32), block: &mut [u8; 256]) -> [u8; 256] {
    filter(black_box(halo), black_box(mx), black_box(my), block);
    *black_box(block)
}

fn reference(plane: &[u8]) -> (Luma<'_>, LumaRef<'_>) {
    let (stride, width, height) = (WIDTH, WIDTH, HEIGHT);
    (Luma { plane, stride, width, height }, LumaRef { plane, stride, width, height })
}

fn sads() {
    let plane = content::bytes(5, 0, WIDTH * HEIGHT, WIDTH);
    let (luma, same) = reference(&plane);
    let one: [u8; 256] = content::bytes(5, 1, 256, 16).try_into().expect("256 samples");
    let two: [u8; 256] = content::bytes(5, 2, 256, 16).try_into().expect("256 samples");
    let ours = || black_box(model::block_sad_16x16(black_box(&one), black_box(&two)));
    let rust = || black_box(original::block_sad_16x16(black_box(&one), black_box(&two)));
    assert_eq!(ours(), rust());
    measure("block_sad_16x16", || _ = ours(), || _ = rust());
    for rows in [16, 5, 1] {
        let first = 16 * rows as usize;
        let ceiling = if rows < 16 { sad(&one[..first], &two[..first]) } else { NO_CEILING };
        let ours = || black_box(model::block_sad_16x16_up_to(black_box(&one), black_box(&two), black_box(ceiling)));
        assert_eq!((ours().sad, ours().rows), (rust().min(ceiling), rows));
        measure(&format!("block_sad_16x16_up_to, rows measured {rows:>2}"), || _ = ours(), || _ = rust());
    }
    for (name, row, col) in [("inside", 12, -8), ("across the edge", -520, 12)] {
        let mv = Mv { row, col };
        // nothing of the call may be a constant on either side
        let ours = || {
            let mb = (black_box(10), black_box(8));
            black_box(model::mb_luma_sad_at_whole_mv(*black_box(&luma), mb, black_box(&one), black_box(mv)).sad)
        };
        let rust = || {
            let (col, row) = (black_box(10), black_box(8));
            black_box(original::mb_luma_sad_at_whole_mv(*black_box(&same), col, row, black_box(&one), black_box(mv)))
        };
        assert_eq!(ours(), rust());
        measure(&format!("SAD at a whole vector, {name}"), || _ = ours(), || _ = rust());
        halos(&plane, name, Mv { row: row * 2 + 2, col: col * 2 + 4 });
    }
}

fn halos(plane: &[u8], name: &str, mv: Mv) {
    let mut halo = [0; 441];
    let mut ours = || {
        model::fetch_luma_mb_halo(reference(black_box(plane)).0, 160, 128, black_box(mv), &mut halo);
        *black_box(&halo)
    };
    let rust = || black_box(fetch_luma_mb_halo(black_box(plane), WIDTH, WIDTH, HEIGHT, 160, 128, black_box(mv)));
    assert_eq!(ours(), rust());
    measure(&format!("halo fetch, {name}"), || _ = ours(), || _ = rust());
}

/// A reference and the macroblocks that are searched in it.
type Scene = (Vec<u8>, Vec<Source>);

/// A texture, and the same with noise, which shows what lies 5 rows lower and 3 columns further left in the reference.
const MOVING: [(u64, u64); 2] = [(4, 20 + 256 * 20), (5, 25 + 256 * 17)];

fn moving() -> Scene {
    let [plane, moved] = MOVING.map(plane_of);
    (plane, macroblocks(&moved, (WIDTH, HEIGHT)))
}

/// Noise in other noise: no candidate is far behind the best.
const NOISE: [(u64, u64); 2] = [(7, 1), (7, 2)];

fn noise() -> Scene {
    let [plane, other] = NOISE.map(plane_of);
    (plane, macroblocks(&other, (WIDTH, HEIGHT)))
}

fn plane_of((kind, seed): (u64, u64)) -> Vec<u8> {
    content::bytes(kind, seed, WIDTH * HEIGHT, WIDTH)
}

// Those of a luma plane with sides that are multiples of 16.
fn macroblocks(plane: &[u8], (width, height): (usize, usize)) -> Vec<Source> {
    let of = |i: usize| {
        let (col, row) = (i % (width / 16), i / (width / 16));
        ((col, row), std::array::from_fn(|k| plane[(row * 16 + k / 16) * width + col * 16 + k % 16]))
    };
    (0..width / 16 * (height / 16)).map(of).collect()
}

// The diamond and both refinements for each of the 396 macroblocks.
fn searches((plane, sources): &Scene) {
    let (luma, same) = reference(plane);
    let ours = |(mb, src): &Source| black_box(model_searches(luma, *mb, src));
    let rust = |(mb, src): &Source| black_box(rust_searches(same, *mb, src));
    let least = measure_all("diamond, half, quarter, 396 macroblocks", sources, ours, rust);
    let [ours, rust] = least.map(|ns| shown(ns / 396.0));
    println!("  of that a macroblock, least: model {ours}, Rust {rust}");
}

/// A picture with sides that are multiples of 16, and its source.
struct Whole {
    size: (usize, usize),
    plane: Vec<u8>,
    source: Vec<u8>,
}

/// Row, column and SAD of each macroblock.
#[derive(Debug, PartialEq, Eq)]
struct Vectors {
    rows: Vec<i16>,
    cols: Vec<i16>,
    sads: Vec<u32>,
}

impl Whole {
    fn moving(size: (usize, usize)) -> Whole {
        Whole::of(MOVING, size)
    }

    fn of(contents: [(u64, u64); 2], (width, height): (usize, usize)) -> Whole {
        let [plane, source] = contents.map(|(kind, seed)| content::bytes(kind, seed, width * height, width));
        Whole { size: (width, height), plane, source }
    }

    fn name(&self) -> String {
        format!("picture {}x{}, {} macroblocks", self.size.0, self.size.1, self.count())
    }

    fn count(&self) -> usize {
        self.size.0 / 16 * (self.size.1 / 16)
    }

    fn luma(&self) -> Luma<'_> {
        let (width, height) = self.size;
        Luma { plane: black_box(&self.plane), stride: width, width, height }
    }

    fn lists(&self) -> Vectors {
        let count = self.count();
        Vectors { rows: vec![-1; count], cols: vec![-1; count], sads: vec![u32::MAX; count] }
    }

    fn at_once(&self, into: &mut Vectors) {
        self.limited(64, into);
    }

    fn limited(&self, limit: u32, Vectors { rows, cols, sads }: &mut Vectors) {
        let source = (black_box(&self.source[..]), self.size.0);
        black_box(model::search_picture_luma(self.luma(), source, limit, 0, model::Lists { rows, cols, sads }));
    }

    fn within(&self, allowance: u32, Vectors { rows, cols, sads }: &mut Vectors) -> model::Allowed {
        let source = (black_box(&self.source[..]), self.size.0);
        let lists = model::Lists { rows, cols, sads };
        black_box(model::search_picture_luma_within(self.luma(), source, allowance, 0, lists))
    }

    // One macroblock after the other, cut out by the caller.
    fn singly(&self, into: &mut Vectors, cut: Cut, search: impl Fn((usize, usize), &[u8; 256]) -> Found) {
        let (source, columns) = ((black_box(&self.source[..]), self.size.0), self.size.0 / 16);
        for i in 0..self.count() {
            let mb = (i % columns, i / columns);
            let block = cut(source, self.size, mb);
            (into.rows[i], into.cols[i], into.sads[i]) = black_box(search(mb, black_box(&block)));
        }
    }
}

/// How a caller cuts a macroblock out: bytes and stride, the size, the column and row.
type Cut = fn((&[u8], usize), (usize, usize), (usize, usize)) -> [u8; 256];

// Of sides that are multiples of 16.
fn by_rows((bytes, stride): (&[u8], usize), _size: (usize, usize), (col, row): (usize, usize)) -> [u8; 256] {
    let mut block = [0; 256];
    for (y, line) in block.chunks_mut(16).enumerate() {
        let start = (row * 16 + y) * stride + col * 16;
        line.copy_from_slice(&bytes[start..start + 16]);
    }
    block
}

// The diamond and both refinements, as the library's single calls and as the originals.
fn model_searches(luma: Luma, mb: (usize, usize), src: &[u8; 256]) -> Found {
    let d = model::small_diamond_search_luma(luma, mb, src, Mv::default(), 64);
    let h = model::half_pixel_refine_luma(luma, mb, src, Mv { row: d.row, col: d.col }, 0);
    let q = model::quarter_pixel_refine_luma(luma, mb, src, Mv { row: h.row, col: h.col }, 0);
    (q.row, q.col, q.sad)
}

fn rust_searches(reference: LumaRef, (col, row): (usize, usize), src: &[u8; 256]) -> Found {
    let d = original::small_diamond_search_luma(reference, col, row, src, Mv::default(), 64);
    let h = original::half_pixel_refine_luma(reference, col, row, src, d.mv);
    let q = original::quarter_pixel_refine_luma(reference, col, row, src, h.mv);
    (q.mv.row, q.mv.col, q.sad)
}

// A picture in one call beside single calls; the least time that the one call takes for a macroblock.
fn measure_whole(whole: &Whole, cut: Cut, single: impl Fn((usize, usize), &[u8; 256]) -> Found) -> f64 {
    let (mut one, mut other) = (whole.lists(), whole.lists());
    whole.at_once(&mut one);
    whole.singly(&mut other, cut, &single);
    assert_eq!(one, other);
    let singly = || whole.singly(&mut other, cut, &single);
    let [once, singly] = measure(&whole.name(), || whole.at_once(&mut one), singly);
    println!("  the one call takes {:.3} of the time, least", once / singly);
    once / whole.count() as f64
}

fn beside_rust(whole: &Whole) {
    let Luma { plane, stride, width, height } = whole.luma();
    let reference = LumaRef { plane, stride, width, height };
    measure_whole(whole, by_rows, |mb, src| rust_searches(reference, mb, src));
}

// The model alone: a picture in one call, in the first columns, beside its single calls.
fn beside_single_calls(pictures: &[Whole; 2]) {
    println!("the model's search of a picture in one call beside its single calls, which are handed blocks that the");
    println!("caller cuts, by rows of 16 samples, then as at any size, sample by sample;");
    println!("ratio = the single calls' time / the one call's:");
    print_head("one call", "single calls");
    let beside = |whole: &Whole, cut| measure_whole(whole, cut, |mb, src| model_searches(whole.luma(), mb, src));
    let each = pictures.each_ref().map(|whole| beside(whole, by_rows));
    pictures.iter().for_each(|whole| _ = beside(whole, cut));
    let [small, large] = each.map(shown);
    println!("  of the one call a macroblock, least: {small} and {large}, {:.3} times as long", each[1] / each[0]);
}

/// What no diamond's rounds exceed.
const NO_LIMIT: u32 = 65281;
/// Comparisons for each macroblock of the allowances that are measured.
const EACH: [u32; 8] = [19, 23, 27, 31, 40, 60, 100, 200];

// The model alone: a picture within an allowance, in the first columns, beside the same without a limit.
fn within_allowances(content: &str, whole: &Whole) {
    let count = whole.count() as u32;
    println!(
        "the model's search of a picture within an allowance beside the one with the limit {NO_LIMIT}, which is never"
    );
    println!("reached: {}, {content}; ratio = the latter's time / the former's:", whole.name());
    print_head("within", "no limit");
    let [within, none] = beside_no_limit(whole, "no more than 4294967295", u32::MAX);
    let [least, median] = [0, 1].map(|k| within[k] / none[k]);
    println!("  the call within the allowance takes {least:.3} of the time, least, and {median:.3}, median");
    for each in EACH {
        beside_no_limit(whole, &format!("{each} for each"), each * count);
    }
    let sources = macroblocks(&whole.source, whole.size);
    let limits = EACH.map(|each| limits_within(whole, &sources, each * count));
    // from 60 on no diamond of these pictures is cut short
    for (each, limits) in EACH.into_iter().zip(&limits).filter(|(each, _)| *each < 60) {
        apart(whole, &sources, &format!("{each} for each"), limits);
    }
    println!("rows measured within these allowances, as below, and the passes of the refinements' filters:");
    for (each, limits) in EACH.into_iter().zip(&limits) {
        let mut rows = [Rows::default(); 3];
        let both = sources.iter().zip(limits);
        both.for_each(|(source, limit)| rows::add_searches(&mut rows, whole.luma(), source, *limit));
        let name = format!("{each} for each, passes {} and {}", rows[1].passes, rows[2].passes);
        print_rows(&name, rows);
    }
}

// The limits of the diamonds, by the account of the library's single calls.
fn limits_within(whole: &Whole, sources: &[Source], allowance: u32) -> Vec<u32> {
    let mut limits = Vec::new();
    by_account(whole.size, allowance, |mb, limit| {
        let src = &sources[limits.len()].1;
        limits.push(limit);
        let diamond = model::small_diamond_search_luma(whole.luma(), mb, src, Mv::default(), limit);
        ((diamond.row, diamond.col, diamond.sad), diamond.sads.into())
    });
    limits
}

// The three searches apart, in single calls: with the limits that an allowance gives, in the first columns, beside those
// without one.
fn apart(whole: &Whole, sources: &[Source], name: &str, limits: &[u32]) {
    let (luma, none) = (whole.luma(), vec![NO_LIMIT; sources.len()]);
    let diamonds = |limits: &[u32]| {
        for ((mb, src), limit) in sources.iter().zip(limits) {
            black_box(model::small_diamond_search_luma(luma, *mb, black_box(src), Mv::default(), *limit));
        }
    };
    measure(&format!("{name}: diamonds"), || diamonds(limits), || diamonds(&none));
    let [within, without] = [limits, &none[..]].map(|limits| starts(luma, sources.iter().zip(limits.iter().copied())));
    for ((part, refine, _), (ours, other)) in [HALF, QUARTER].into_iter().zip(within.into_iter().zip(without)) {
        let all = |starts: &[Start]| starts.iter().for_each(|start| _ = refined(refine, luma, start, 0));
        measure(&format!("{name}: {part} refinements"), || all(&ours), || all(&other));
    }
}

// Both give the same where the allowance is the greatest.
fn beside_no_limit(whole: &Whole, name: &str, allowance: u32) -> [[f64; 2]; 2] {
    let (mut one, mut other) = (whole.lists(), whole.lists());
    let got = whole.within(allowance, &mut one);
    whole.limited(NO_LIMIT, &mut other);
    assert!(got.refusal == 0 && got.comparisons <= allowance, "{got:?}");
    assert!(allowance < u32::MAX || one == other);
    let name = format!("{name}: {} made", got.comparisons);
    measured(&name, || _ = whole.within(allowance, &mut one), || whole.limited(NO_LIMIT, &mut other))
}

// A macroblock and the centre of its refinement.
type Start<'a> = (&'a Source, Mv);

// Those of the half refinement, where the diamond with its limit ends, and of the quarter one after it, at version 0.
fn starts<'a>(luma: Luma, limited: impl Iterator<Item = (&'a Source, u32)>) -> [Vec<Start<'a>>; 2] {
    let whole = |(source, limit): (&'a Source, u32)| {
        let d = model::small_diamond_search_luma(luma, source.0, &source.1, Mv::default(), limit);
        (source, Mv { row: d.row, col: d.col })
    };
    let half = |(source, mv): &Start<'a>| {
        let h = model::half_pixel_refine_luma(luma, source.0, &source.1, *mv, 0);
        (*source, Mv { row: h.row, col: h.col })
    };
    let halves: Vec<Start> = limited.map(whole).collect();
    let quarters = halves.iter().map(half).collect();
    [halves, quarters]
}

fn in_64_rounds((_, sources): &Scene) -> impl Iterator<Item = (&Source, u32)> {
    sources.iter().map(|source| (source, 64))
}

type Refine = fn(Luma, (usize, usize), &[u8; 256], Mv, u8) -> model::Search;
type RustRefine = fn(LumaRef, (usize, usize), &[u8; 256], Mv, u8) -> original::SearchResult;
const HALF: (&str, Refine, RustRefine) = ("half", model::half_pixel_refine_luma, versions::half_pixel_refine_luma);
const QUARTER: (&str, Refine, RustRefine) =
    ("quarter", model::quarter_pixel_refine_luma, versions::quarter_pixel_refine_luma);

fn refined(refine: Refine, luma: Luma, (source, mv): &Start, version: u8) -> Found {
    let (mb, src) = (black_box(source.0), black_box(&source.1));
    let got = black_box(refine(*black_box(&luma), mb, src, black_box(*mv), black_box(version)));
    (got.row, got.col, got.sad)
}

// Each refinement at version 1 for each of the 396 macroblocks, beside the derived copy.
fn refinements(scene: &Scene) {
    let (luma, same) = reference(&scene.0);
    for ((name, model, rust), starts) in [HALF, QUARTER].into_iter().zip(starts(luma, in_64_rounds(scene))) {
        let ours = |start: &Start| refined(model, luma, start, 1);
        let rust = |(source, mv): &Start| {
            let got = rust(*black_box(&same), source.0, black_box(&source.1), black_box(*mv), black_box(1));
            black_box((got.mv.row, got.mv.col, got.sad))
        };
        measure_all(&format!("{name}, version 1, 396 macroblocks"), &starts, ours, rust);
    }
}

// The model alone: bilinear, in the first columns, beside six-tap.
fn beside_six_tap(scene: &Scene) {
    println!("the model's bilinear filter beside its six-tap one; ratio = six-tap's time / bilinear's:");
    print_head("bilinear", "six-tap");
    let (halo, mut one, mut other) = (halo(), [0; 256], [0; 256]);
    let bilinear = || _ = filtered(model::bilinear_mb_luma, &halo, (2, 6), &mut one);
    measure("macroblock (2, 6)", bilinear, || _ = filtered(model::sixtap_mb_luma, &halo, (2, 6), &mut other));
    let luma = reference(&scene.0).0;
    for ((name, refine, _), starts) in [HALF, QUARTER].into_iter().zip(starts(luma, in_64_rounds(scene))) {
        let all = |version| starts.iter().for_each(|start| _ = refined(refine, luma, start, version));
        measure(&format!("{name}, 396 macroblocks"), || all(1), || all(0));
    }
}

// The diamond alone.
fn diamonds(name: &str, (plane, sources): &Scene) {
    let (luma, same) = reference(plane);
    let ours = |(mb, src): &Source| {
        let d = model::small_diamond_search_luma(luma, *mb, src, Mv::default(), 64);
        black_box((d.row, d.col, d.sad))
    };
    let rust = |(mb, src): &Source| {
        let d = original::small_diamond_search_luma(same, mb.0, mb.1, src, Mv::default(), 64);
        black_box((d.mv.row, d.mv.col, d.sad))
    };
    measure_all(name, sources, ours, rust);
}

type Found = (i16, i16, u32);

// Both sides over all macroblocks.
fn measure_all<T>(name: &str, sources: &[T], ours: impl Fn(&T) -> Found, rust: impl Fn(&T) -> Found) -> [f64; 2] {
    assert!(sources.iter().all(|source| ours(source) == rust(source)), "{name}");
    let ours = || black_box(sources).iter().for_each(|source| _ = ours(source));
    let rust = || black_box(sources).iter().for_each(|source| _ = rust(source));
    measure(name, ours, rust)
}

// The pictures of a texture with noise, packed: each shows what lies 2 rows lower and 3 columns further right in the one
// before, in chroma 1 and 1, times `step`.
fn pictures((width, height): (usize, usize), count: usize, step: usize) -> Vec<u8> {
    let (columns, rows) = (width.div_ceil(2), height.div_ceil(2));
    let plane = |seed: usize, columns: usize, rows: usize| content::bytes(5, seed as u64, columns * rows, columns);
    // the noise of each plane follows from more of its seed than the texture's place
    let at = |g: usize, k: usize, down: usize, across: usize| 100 * k + (down + 256 * across) * g * step + (g << 16);
    let chroma = |g: usize, k: usize| plane(at(g, k, 1, 1), columns, rows);
    let picture = |g: usize| [plane(at(g, 0, 2, 3), width, height), chroma(g, 1), chroma(g, 2)].concat();
    (0..count).flat_map(picture).collect()
}

// The numbers of pictures packed one after the other; every cap is 16, as it has to be beside the Rust.
fn packed_frames((width, height): (usize, usize), count: usize) -> Vec<Frame> {
    let samples = packed_size(width as u64, height as u64) as usize;
    let (y, columns) = (width * height, width.div_ceil(2));
    let u = y + columns * height.div_ceil(2);
    let cap = MAX_CAP as usize;
    let numbers = |g: usize| [width, height, g * samples, g * samples + y, g * samples + u, width, columns, cap];
    (0..count).map(|g| numbers(g).map(|n| n as u32)).collect()
}

// The builder at strength 3, the centre in the middle; the share of accepted blocks stands in the name.
fn builder((width, height): (usize, usize), count: usize, step: usize) -> [f64; 2] {
    let samples = packed_size(width as u64, height as u64) as usize;
    let bytes = pictures((width, height), count, step);
    let numbers = packed_frames((width, height), count).concat();
    let [y, u] = [3, 4].map(|k| numbers[k] as usize);
    let packed = |y, u, v| I420Frame::packed(width as u32, height as u32, y, u, v);
    let frames: Vec<I420Frame> = bytes.chunks(samples).map(|p| packed(&p[..y], &p[y..u], &p[u..])).collect();
    let (mut output, mut sums, mut weights) = (vec![0; samples], vec![0; samples], vec![0; samples]);
    let rust = || build_arnr_altref(black_box(&frames), count / 2, &ArnrConfig::new(3)).expect("a legal window");
    let lent = model::Lent { output: &mut output, sums: &mut sums, weights: &mut weights };
    let built = model::build_from_numbers(&bytes, &numbers, count / 2, 3, lent);
    let ArnrPicture { y, u, v, .. } = rust();
    assert_eq!(output, [y, u, v].concat());
    let mut ours = || {
        let lent = model::Lent { output: &mut output, sums: &mut sums, weights: &mut weights };
        black_box(model::build_from_numbers(black_box(&bytes), black_box(&numbers), count / 2, 3, lent)).accepted
    };
    let blocks = width.div_ceil(16) * height.div_ceil(16) * (count - 1);
    let accepted = built.accepted as usize * 100 / blocks;
    let name = format!("builder {width}x{height}, {count} frames, {accepted}%");
    measure(&name, || _ = ours(), || _ = black_box(rust()))
}

/// Where the pictures of a window lie, down and across alike: each other one an odd or an even way from the middle one, or
/// all at one place.
type Pan = (&'static str, [usize; 7]);
const ODD: [Pan; 2] = [("odd, by 1", [5, 7, 5, 6, 7, 5, 7]), ("odd, by 1 to 5", [1, 3, 5, 6, 7, 9, 11])];
const EVEN: [Pan; 2] = [("even, by 2", [4, 8, 4, 6, 8, 4, 8]), ("even, by 2 to 6", [0, 2, 4, 6, 8, 10, 12])];
const STILL: Pan = ("still", [6; 7]);

/// What the builder with half samples may take of the time of the one without, where pictures move and where not.
const HALF_SAMPLES: [f64; 2] = [1.30, 1.05];
/// What the builder on three planes may take of the time of the one that looks at luma alone.
const THREE_PLANES: f64 = 1.12;

// The model alone: the builder that moves chroma by half samples, in the first columns, beside the one that moves it by
// whole samples, at strength 3.
fn beside_whole_samples() {
    println!("the model's builder with half samples beside the one with whole samples, {WIDTH}x{HEIGHT}, 7 frames,");
    println!("strength 3; ratio = the latter's time / the former's:");
    print_head("half samples", "whole samples");
    let [moving, still] = HALF_SAMPLES;
    for (pan, limit) in [(ODD[0], moving), (ODD[1], moving), (STILL, still)] {
        let calls = [(model::build_half_sample as OverNumbers, Choice::HALF), WHOLE];
        beside_each_other(pan, pan.0, half_the_way, calls, ("half samples take", limit));
    }
}

// The model alone: the builder on three planes, in the first columns, beside the one with the same chroma rule that
// looks at luma alone, at strength 3, where chroma moves as luma does and excludes few blocks.
fn beside_luma_alone() {
    println!("the model's builder on three planes beside the one with the same chroma rule that looks at luma alone,");
    println!("{WIDTH}x{HEIGHT}, 7 frames, strength 3; ratio = the latter's time / the former's:");
    print_head("three planes", "luma alone");
    let whole: [Call; 2] = [(model::build_three_planes, Choice::three(Chroma::Whole)), WHOLE];
    let half: [Call; 2] = [
        (model::build_three_planes_half_sample, Choice::three(Chroma::Half)),
        (model::build_half_sample, Choice::HALF),
    ];
    for (name, calls, moving) in [("whole", whole, EVEN), ("half", half, ODD)] {
        for pan in [moving[0], moving[1], STILL] {
            let what = ("three planes take", THREE_PLANES);
            beside_each_other(pan, &format!("{name}, {}", pan.0), as_luma, calls, what);
        }
    }
}

type OverNumbers = fn(&[u8], &[u32], usize, u8, model::Lent) -> model::Build;

/// A builder, and what it chooses.
type Call = (OverNumbers, Choice);

const WHOLE: Call = (model::build_from_numbers, Choice::WHOLE);

// Two builders, each with slices of its own, once their answers are those of the originals and of their copies; the share
// of the time that the first takes, with its limit.
fn beside_each_other((pan, places): Pan, name: &str, moved: Moved, calls: [Call; 2], (what, limit): (&str, f64)) {
    let bytes = panned((WIDTH, HEIGHT), &places, moved);
    let frames = packed_frames((WIDTH, HEIGHT), places.len());
    let window = &Window { bytes: &bytes, frames: &frames, centre: 3, strength: 3 };
    let as_told = |d: i32| (d % 2 != 0) == pan.starts_with("odd");
    assert!(shifts(window).iter().all(|&(dx, dy)| as_told(dx) && as_told(dy)), "{name}");
    let (numbers, config) = (window.frames.concat(), ArnrConfig::new(window.strength));
    let run = |call: OverNumbers, Built { output, sums, weights, accepted }: &mut Built| {
        let lent = model::Lent { output, sums, weights };
        let got = call(black_box(window.bytes), black_box(&numbers), window.centre, window.strength, lent);
        *accepted = black_box(got).accepted.into();
    };
    let first = |(call, choice): Call| {
        let expected = by_the_originals(window, &config, choice);
        let samples = expected.output.len();
        let mut built =
            Built { output: vec![0; samples], sums: vec![0; samples], weights: vec![0; samples], accepted: 0 };
        run(call, &mut built);
        assert!(built == expected, "{name}");
        built
    };
    let [mut ours, mut other] = calls.map(first);
    let (name, blocks) = (format!("{name}, {} accepted", ours.accepted), other.accepted);
    let [ours, other] = measured(&name, || run(calls[0].0, &mut ours), || run(calls[1].0, &mut other));
    let [least, median] = [0, 1].map(|k| ours[k] / other[k]);
    println!("  {what} {least:.3} of the time, least, and {median:.3}, median; limit {limit:.2};");
    println!("  the builder beside it accepts {blocks} blocks");
}

/// How chroma of a panned picture is made: from the index of the picture, of the plane, the place, columns and rows.
type Moved = fn(usize, usize, usize, (usize, usize)) -> Vec<u8>;

// The pictures of a texture with noise, packed, from these places on, down and across alike.
fn panned((width, height): (usize, usize), places: &[usize], moved: Moved) -> Vec<u8> {
    let luma = |g: usize, place: usize| shaken(g, 0, place, (width, height));
    let chroma = |g: usize, k: usize, place: usize| moved(g, k, place, (width.div_ceil(2), height.div_ceil(2)));
    let picture = |(g, &place): (usize, &usize)| [luma(g, place), chroma(g, 1, place), chroma(g, 2, place)];
    places.iter().enumerate().flat_map(picture).flatten().collect()
}

fn shaken(g: usize, k: usize, place: usize, (columns, rows): (usize, usize)) -> Vec<u8> {
    content::bytes(5, (100 * k + 257 * place + (g << 16)) as u64, columns * rows, columns)
}

// From half of the place on.
fn half_the_way(g: usize, k: usize, place: usize, size: (usize, usize)) -> Vec<u8> {
    shaken(g, k, place / 2, size)
}

// Half as large as what lies there, with noise: an odd place is half a sample from the next.
fn as_luma(g: usize, k: usize, place: usize, (columns, rows): (usize, usize)) -> Vec<u8> {
    let wide = 2 * columns + 4;
    let texture = content::bytes(content::TEXTURE, (100 * k + 257 * place) as u64, wide * (2 * rows + 4), wide);
    let sum = |x: usize, y: usize| (0..16).map(|i| u32::from(texture[(y + i / 4) * wide + x + i % 4])).sum::<u32>();
    let mut random = Random::new((k + (g << 16)) as u64);
    let mut noise = |level: u8| level.saturating_add(random.below(13) as u8).saturating_sub(6);
    (0..columns * rows).map(|i| noise((sum(i % columns * 2, i / columns * 2) / 16) as u8)).collect()
}

// The same searches and windows, and those of the sample clip.
fn count_rows(clip: &[u8]) {
    println!("rows measured, each candidate up to the best so far, of those of whole SADs; what is found is the same:");
    for (name, (plane, sources)) in [("moving texture", moving()), ("noise", noise())] {
        let mut rows = [Rows::default(); 3];
        sources.iter().for_each(|source| rows::add_searches(&mut rows, reference(&plane).0, source, 64));
        print_rows(name, rows);
    }
    for (name, step) in [("moving", 1), ("still", 0)] {
        let rows = window_rows(&pictures((WIDTH, HEIGHT), 7, step), (WIDTH, HEIGHT), 7);
        println!("  builder {WIDTH}x{HEIGHT}, 7 frames, {name}: {rows}");
    }
    let (width, height) = CLIP;
    let luma: Vec<&[u8]> = clip.chunks(width * height * 3 / 2).map(|frame| &frame[..width * height]).collect();
    let mut rows = [Rows::default(); 3];
    for (g, pair) in luma.windows(2).enumerate() {
        let reference = Luma { plane: pair[0], stride: width, width, height };
        macroblocks(pair[1], CLIP).iter().for_each(|source| rows::add_searches(&mut rows, reference, source, u32::MAX));
        if g == 0 {
            print_rows("sample clip, frame 1 in frame 0", rows);
        }
    }
    print_rows("sample clip, each frame in the one before", rows);
    println!("  sample clip, builder: {}", window_rows(clip, CLIP, luma.len()));
}

fn print_rows(name: &str, [diamond, half, quarter]: [Rows; 3]) {
    println!("  {name}: diamond {diamond}, half {half}, quarter {quarter}");
}

// Of the block search at strength 3, the centre in the middle.
fn window_rows(bytes: &[u8], size: (usize, usize), count: usize) -> Rows {
    rows::of_window(&Window { bytes, frames: &packed_frames(size, count), centre: count / 2, strength: 3 })
}
