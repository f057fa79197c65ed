//! The answers for the crate `picture_search`: the files `samples` and `cases` of the replay's data/, and its stdout.
//!
//! `samples` is laid out in samples.rs; both planes are parts of it. `cases` is a file of records of 16 numbers (see
//! records.rs), each with its entries as a payload. Counted from 0:
//!
//! kind 1, search_picture_luma: [1] refusal or 0, [2] start and [3] length of the reference, [4] stride, [5] width,
//!     [6] height, [7] start and [8] length of the source, [9] its stride, [10] the limit, [11] the version,
//!     [12] to [14] the lengths of the lists of rows, columns and SADs, [15] the macroblocks
//!
//! kind 2, search_picture_luma_within: as kind 1, but [10] the allowance, [15] the macroblocks and 2^32 times the
//!     comparisons
//!
//! A call that is refused has 0 macroblocks and 0 comparisons. The payload has a number of eight bytes for each
//! macroblock: its vector as in records.rs, and 2^32 times the SAD. Those of kind 1 come first.

mod accepted;
mod low;
mod refused;
mod samples;
mod within;

use crate::motion_search::LumaRef;
use crate::motion_vector::Mv;
use crate::paper::search::{Allowed, PictureCall, search_picture, search_picture_within};
use crate::pictures;
use crate::records::{Records, packed};
use std::path::Path;

/// The limits and the versions that the tests name.
const LIMITS: [u32; 5] = [0, 1, 2, 65281, u32::MAX];
const VERSIONS: [u8; 3] = [0, 1, 2];

/// The entries that the replay has room for.
const ROOM: usize = 1100;

/// Row, column and SAD of a macroblock.
type Entry = (i16, i16, u32);

/// A part of the samples, read with a stride.
#[derive(Clone, Copy)]
struct Part {
    start: usize,
    len: usize,
    stride: u64,
}

/// Of a search within an allowance, the allowance stands in the limit's place.
#[derive(Clone, Copy)]
struct Case {
    size: (u64, u64),
    reference: Part,
    source: Part,
    limit: u32,
    version: u8,
    lists: [usize; 3],
}

struct Writer<'a> {
    samples: &'a [u8],
    records: Records,
    macroblocks: usize,
}

/// Writes data/samples, data/cases and stdout, which is what a replay prints where nothing differs.
pub fn write(folder: &Path) -> std::io::Result<()> {
    let samples = samples::all();
    let mut writer = Writer { samples: &samples, records: Records::new(16), macroblocks: 0 };
    accepted::add_smallest(&mut writer);
    refused::add(&mut writer);
    accepted::add(&mut writer);
    within::add(&mut writer);
    low::add(&mut writer);
    std::fs::create_dir_all(folder.join("data"))?;
    std::fs::write(folder.join("data/samples"), &samples)?;
    std::fs::write(folder.join("stdout"), writer.printed())?;
    writer.records.write(&folder.join("data/cases"))
}

impl Writer<'_> {
    fn printed(&self) -> String {
        let [plain, within] = [1, 2].map(|kind| self.records.of_kind(kind));
        let compared = |records: u64| format!("{records} compared, 0 differ");
        let (one, other, all) = (compared(plain), compared(within), compared(plain + within));
        let in_lists = format!("{} macroblocks in each of three lists", self.macroblocks);
        format!("search_picture_luma: {one}\nsearch_picture_luma_within: {other}\nall: {all}; {in_lists}\n")
    }

    fn part(&self, part: Part) -> &[u8] {
        &self.samples[part.start..part.start + part.len]
    }

    fn call(&self, case: &Case) -> PictureCall<'_> {
        let Case { size: (width, height), reference, source, version, lists, .. } = *case;
        let (plane, stride) = (self.part(reference), reference.stride);
        let (source, source_stride) = (self.part(source), source.stride);
        PictureCall { plane, stride, width, height, source, source_stride, version, lists }
    }

    // As the originals take them.
    fn planes(&self, case: &Case) -> (LumaRef<'_>, (&[u8], usize)) {
        let [stride, width, height] = [case.reference.stride, case.size.0, case.size.1].map(|n| n as usize);
        let reference = LumaRef { plane: self.part(case.reference), stride, width, height };
        (reference, (self.part(case.source), case.source.stride as usize))
    }

    // The entries by the single calls of the originals, or of the copy that takes a version. The second implementation
    // has to give the same.
    #[track_caller]
    fn accepted(&mut self, case: Case) -> Vec<Entry> {
        let (reference, source) = self.planes(&case);
        let found = pictures::by_single_calls(reference, source, case.limit, case.version);
        assert_eq!(Ok(&found), search_picture(&self.call(&case), case.limit).as_ref(), "the two implementations");
        self.put(1, 0, case, &found, 0);
        found
    }

    // The same within an allowance; the grants and the comparisons have to be the same too.
    #[track_caller]
    fn allowed(&mut self, case: Case) -> Allowed {
        let (reference, source) = self.planes(&case);
        let got = pictures::within(reference, source, case.limit, case.version);
        let ruled = search_picture_within(&self.call(&case), case.limit);
        assert_eq!(Ok(&got), ruled.as_ref(), "the two implementations");
        self.put(2, 0, case, &got.found, got.comparisons);
        got
    }

    // A case that is made so that this number is the first that applies, which the list of refusals has to say too.
    #[track_caller]
    fn refused(&mut self, refusal: u32, case: Case) {
        assert_eq!(search_picture(&self.call(&case), case.limit), Err(refusal), "the refusal");
        self.put(1, refusal, case, &[], 0);
    }

    // The same of a search within an allowance.
    #[track_caller]
    fn not_allowed(&mut self, refusal: u32, case: Case) {
        assert_eq!(search_picture_within(&self.call(&case), case.limit), Err(refusal), "the refusal");
        self.put(2, refusal, case, &[], 0);
    }

    fn put(&mut self, kind: u64, refusal: u32, case: Case, found: &[Entry], comparisons: u64) {
        assert!(case.lists.iter().all(|&entries| entries <= ROOM));
        let Case { size, reference, source, limit, version, lists } = case;
        let [rows, cols, sads] = lists.map(|entries| entries as u64);
        let numbers = [
            reference.start as u64,
            reference.len as u64,
            reference.stride,
            size.0,
            size.1,
            source.start as u64,
            source.len as u64,
            source.stride,
            limit.into(),
            version.into(),
            rows,
            cols,
            sads,
            found.len() as u64 + (comparisons << 32),
        ];
        let entry = |&(row, col, sad): &Entry| packed(Mv { row, col }) + (u64::from(sad) << 32);
        let entries: Vec<u8> = found.iter().flat_map(|found| entry(found).to_le_bytes()).collect();
        self.macroblocks += found.len();
        self.records.add(kind, refusal.into(), &numbers, &[&entries]);
    }
}

/// A picture whose planes have exactly the bytes that they need, and lists of exactly its macroblocks; the start and
/// stride of the reference, then of the source.
fn case(size: (u64, u64), reference: (usize, u64), source: (usize, u64)) -> Case {
    let part = |(start, stride)| Part { start, len: needed(stride, size), stride };
    let lists = [size.0.div_ceil(16) as usize * size.1.div_ceil(16) as usize; 3];
    Case { size, reference: part(reference), source: part(source), limit: u32::MAX, version: 0, lists }
}

// The bytes that a plane needs.
fn needed(stride: u64, (width, height): (u64, u64)) -> usize {
    let bytes = (u128::from(height) - 1) * u128::from(stride) + u128::from(width);
    usize::try_from(bytes).expect("a plane of the samples")
}
