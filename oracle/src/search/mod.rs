//! The answers for the crate `motion_search`: the files `samples` and `cases` of the replay's data/, and its stdout.
//!
//! `samples` is laid out in samples.rs; a plane is a part of it, a macroblock 256 bytes of it. `cases` is a
//! file of records of 16 numbers (see records.rs), none with a payload. Counted from 0:
//!
//! kind 1, block_sad_16x16: [2] and [9] where the two macroblocks start; [12] the SAD
//! kind 2, mb_luma_sad_at_whole_mv: [1] refusal or 0, [2] start and [3] length of the plane, [4] stride,
//!     [5] width, [6] height, [7] macroblock column, [8] row, [9] start of the macroblock, [10] vector; [12] the SAD
//! kind 3, mb_luma_sad_at_mv: the same and [15] the version
//! kind 4, small_diamond_search_luma: as kind 2 and [11] the limit; [12] the SAD found, [13] the vector found,
//!     [14] the SADs computed, [15] the rounds made
//! kind 5, half_pixel_refine_luma: as kind 3; [12] the SAD found, [13] the vector found
//! kind 6, quarter_pixel_refine_luma: the same
//! kind 7, block_sad_16x16_up_to: [2] and [9] where the two macroblocks start, [11] the ceiling; [12] the value,
//!     [14] the rows measured
//!
//! What a call that is refused would find is stored as 0. Where a kind does not name it, [11] says nothing.

mod accepted;
mod ceilings;
mod refused;
mod samples;
mod versions;

use crate::motion_search as original;
use crate::motion_search::LumaRef;
use crate::motion_vector::Mv;
use crate::paper::Plane;
use crate::paper::search::{Found, NO_CEILING, diamond, predicted, refine, sad, sad_up_to};
use crate::records::{Records, packed};
use crate::refusals::{self, Place};
use crate::{counts, random::Random, versions as versioned};
use std::fmt::Debug;
use std::path::Path;

/// The calls in the order in which the replay prints them, by kind from 1 on.
const CALLS: [&str; 7] = [
    "block_sad_16x16",
    "mb_luma_sad_at_whole_mv",
    "mb_luma_sad_at_mv",
    "small_diamond_search_luma",
    "half_pixel_refine_luma",
    "quarter_pixel_refine_luma",
    "block_sad_16x16_up_to",
];

/// A plane, a macroblock's place in it, the macroblock's own samples, a vector, the diamond's limit, and the version of
/// the calls that take one.
#[derive(Clone, Copy)]
struct Case {
    start: usize,
    len: usize,
    stride: u64,
    size: (u64, u64),
    mb: (u64, u64),
    source: usize,
    mv: (i16, i16),
    limit: u32,
    version: u8,
}

/// Of a vector and a ceiling.
type Cost<'a> = dyn Fn(Mv, u32) -> u32 + 'a;

struct Writer<'a> {
    samples: &'a [u8],
    records: Records,
}

/// Writes data/samples, data/cases and stdout, which is what a replay prints where nothing differs.
pub fn write(folder: &Path) -> std::io::Result<()> {
    let samples = samples::all();
    let mut writer = Writer { samples: &samples, records: Records::new(16) };
    refused::add(&mut writer);
    accepted::add(&mut writer);
    add_block_sads(&mut writer);
    ceilings::add(&mut writer);
    versions::add(&mut writer);
    std::fs::create_dir_all(folder.join("data"))?;
    std::fs::write(folder.join("data/samples"), &samples)?;
    std::fs::write(folder.join("stdout"), printed(&writer.records))?;
    writer.records.write(&folder.join("data/cases"))
}

fn printed(records: &Records) -> String {
    let line = |name: &str, cases: u64| format!("{name}: {cases} compared, 0 differ\n");
    let cases: Vec<u64> = (1..=7).map(|kind| records.of_kind(kind)).collect();
    let calls: String = CALLS.iter().zip(&cases).map(|(name, &cases)| line(name, cases)).collect();
    calls + &line("all", cases.iter().sum())
}

fn add_block_sads(writer: &mut Writer) {
    let mut random = Random::new(12);
    let named = [samples::FLAT, samples::BLACK, samples::WHITE, samples::RISE, samples::FALL, samples::SOURCES, 0];
    for (a, b) in named.iter().flat_map(|&a| named.map(|b| (a, b))) {
        writer.block_sad(a, b);
    }
    for _ in 0..100 {
        let mut any = || random.below((samples::SEARCHED - 255) as u64) as usize;
        writer.block_sad(any(), any());
    }
}

impl Writer<'_> {
    fn block(&self, start: usize) -> &[u8; 256] {
        self.samples[start..start + 256].try_into().unwrap()
    }

    fn block_sad(&mut self, a: usize, b: usize) {
        let (one, other) = (self.block(a), self.block(b));
        let got = original::block_sad_16x16(other, one);
        assert_eq!(got, sad(one, other));
        let mut numbers = [0; 14];
        (numbers[0], numbers[7], numbers[10]) = (a as u64, b as u64, got.into());
        self.records.add(1, 0, &numbers, &[]);
    }

    fn reference(&self, case: &Case) -> LumaRef<'_> {
        let plane = &self.samples[case.start..case.start + case.len];
        let [stride, width, height] = [case.stride, case.size.0, case.size.1].map(|n| n as usize);
        LumaRef { plane, stride, width, height }
    }

    // The five calls on one case.
    fn all(&mut self, case: Case) {
        self.whole(case);
        self.any(case);
        self.diamond(case);
        self.half(case);
        self.quarter(case);
    }

    // The three calls that take a version.
    fn versioned(&mut self, case: Case) {
        self.any(case);
        self.half(case);
        self.quarter(case);
    }

    fn whole(&mut self, case: Case) {
        let refusal = refusals::of_vector_on_grid(case.place(), case.vector(), 4);
        let found = (refusal == 0).then(|| {
            let (col, row) = case.macroblock();
            let got = original::mb_luma_sad_at_whole_mv(
                self.reference(&case),
                col,
                row,
                self.block(case.source),
                case.vector(),
            );
            self.judged(&case, &got, |cost| cost(case.vector(), NO_CEILING));
            [got.into(), 0, 0, 0]
        });
        self.put(2, refusal, case, found);
    }

    fn any(&mut self, case: Case) {
        let refusal = refusals::of_version(case.version, refusals::of_vector(case.place(), case.vector()));
        let found = (refusal == 0).then(|| {
            let (mb, source) = (case.macroblock(), self.block(case.source));
            let got = versioned::mb_luma_sad_at_mv(self.reference(&case), mb, source, case.vector(), case.version);
            self.judged(&case, &got, |cost| cost(case.vector(), NO_CEILING));
            [got.into(), 0, 0, 0]
        });
        self.put(3, refusal, case, found);
    }

    fn diamond(&mut self, case: Case) {
        let refusal = refusals::of_diamond(case.place());
        let found = (refusal == 0).then(|| {
            let (col, row) = case.macroblock();
            let source = self.block(case.source);
            let got = counts::diamond(self.reference(&case), col, row, source, case.vector(), case.limit);
            let counts::CountedDiamond { answer, sads, rounds } = got;
            let got = Found { mv: answer.mv, sad: answer.sad, sads, rounds };
            self.judged(&case, &got, |cost| diamond(cost, case.vector(), case.limit));
            [got.sad.into(), packed(got.mv), got.sads, got.rounds]
        });
        self.put(4, refusal, case, found);
    }

    fn half(&mut self, case: Case) {
        let on_grid = refusals::of_vector_on_grid(case.place(), case.vector(), 4);
        let refusal = refusals::of_version(case.version, on_grid);
        let found = (refusal == 0).then(|| {
            let (mb, source) = (case.macroblock(), self.block(case.source));
            let got = versioned::half_pixel_refine_luma(self.reference(&case), mb, source, case.vector(), case.version);
            self.judged(&case, &(got.mv, got.sad), |cost| refine(cost, 2, case.vector()));
            [got.sad.into(), packed(got.mv), 0, 0]
        });
        self.put(5, refusal, case, found);
    }

    fn quarter(&mut self, case: Case) {
        let on_grid = refusals::of_vector_on_grid(case.place(), case.vector(), 2);
        let refusal = refusals::of_version(case.version, on_grid);
        let found = (refusal == 0).then(|| {
            let (mb, source) = (case.macroblock(), self.block(case.source));
            let got =
                versioned::quarter_pixel_refine_luma(self.reference(&case), mb, source, case.vector(), case.version);
            self.judged(&case, &(got.mv, got.sad), |cost| refine(cost, 1, case.vector()));
            [got.sad.into(), packed(got.mv), 0, 0]
        });
        self.put(6, refusal, case, found);
    }

    // What the original gives has to be what the rules of src/paper/ give, over whole SADs and over SADs up to a ceiling.
    #[track_caller]
    fn judged<T: Debug + PartialEq>(&self, case: &Case, got: &T, rules: impl Fn(&Cost) -> T) {
        let LumaRef { plane: bytes, stride, width, height } = self.reference(case);
        let (plane, source) = (Plane { bytes, stride, width, height }, self.block(case.source));
        let block = |mv| predicted(&plane, case.macroblock(), mv, case.version);
        assert_eq!(*got, rules(&|mv, _| sad(source, &block(mv))), "over whole SADs");
        assert_eq!(*got, rules(&|mv, ceiling| sad_up_to(source, &block(mv), 16, ceiling).0), "up to a ceiling");
    }

    fn put(&mut self, kind: u64, refusal: u64, case: Case, found: Option<[u64; 4]>) {
        let Case { start, len, stride, size, mb, source, limit, .. } = case;
        let vector = packed(case.vector());
        let given = [start as u64, len as u64, stride, size.0, size.1, mb.0, mb.1, source as u64, vector, limit.into()];
        let mut numbers = [&given[..], &found.unwrap_or_default()].concat();
        if [3, 5, 6].contains(&kind) {
            numbers[13] = case.version.into();
        }
        self.records.add(kind, refusal, &numbers, &[]);
    }
}

impl Case {
    fn vector(&self) -> Mv {
        Mv { row: self.mv.0, col: self.mv.1 }
    }

    // Of an accepted case.
    fn macroblock(&self) -> (usize, usize) {
        (self.mb.0 as usize, self.mb.1 as usize)
    }

    fn place(&self) -> Place {
        let ((width, height), (x, y)) = (self.size, self.mb);
        Place { len: self.len as u64, stride: self.stride, width, height, x, y }
    }
}

// The bytes that a plane needs.
fn needed(stride: u64, (width, height): (u64, u64)) -> usize {
    let bytes = (u128::from(height) - 1) * u128::from(stride) + u128::from(width);
    usize::try_from(bytes).expect("a plane of the samples")
}
