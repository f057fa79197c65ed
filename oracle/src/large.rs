//! The largest legal picture in one call, flat and with a lone edge, the flat one within an allowance of comparisons, and
//! the size past it, which is refused.
//!
//! Each macroblock is searched by the originals' single calls as well. The second implementation is slower: all columns
//! of such a picture are alike, or all rows, so what it finds in one row or one column of them is expected all over.

use crate::compare::guarded::Guarded;
use crate::model::{self, Lists, Luma};
use crate::motion_search::LumaRef;
use crate::paper::search::{PictureCall, rounds_within, search_picture, search_picture_within, shared_out};
use crate::pictures::{Found, searched, within};
use std::thread;
use std::time::Instant;

const BUILD: &str = if cfg!(feature = "simd") { "simd" } else { "plain" };
const SIDE: usize = 16383;
const LIMIT: u32 = 64;
/// Macroblocks side by side, or one above the other.
const ACROSS: usize = 1024;
const COUNT: usize = ACROSS * ACROSS;
/// Entries of each list past the macroblocks.
const MORE: usize = 5;

/// The samples of a row, or of a column, of the reference and of its source; `columns` where they lie side by side.
struct Scene {
    name: &'static str,
    columns: bool,
    reference: Vec<u8>,
    source: Vec<u8>,
    version: u8,
}

/// Whether all is as expected.
pub fn run() -> bool {
    let flat = vec![77; SIDE];
    let (middle, end) = (8003, 16378);
    let scenes = [
        Scene { name: "flat", columns: true, reference: flat.clone(), source: flat, version: 0 },
        Scene {
            name: "an edge between two columns",
            columns: true,
            reference: edge(middle, 40),
            source: edge(middle + 5, 120),
            version: 0,
        },
        Scene {
            name: "an edge between two rows",
            columns: false,
            reference: edge(end, 200),
            source: edge(end - 3, 90),
            version: 1,
        },
    ];
    let same = scenes.iter().filter(|scene| compared(scene)).count() == scenes.len();
    refused() & allowed() & same
}

// 40 before a place, 200 after it, and one sample between.
fn edge(place: usize, between: u8) -> Vec<u8> {
    let level = |i: usize| match i.cmp(&place) {
        std::cmp::Ordering::Less => 40,
        std::cmp::Ordering::Equal => between,
        std::cmp::Ordering::Greater => 200,
    };
    (0..SIDE).map(level).collect()
}

impl Scene {
    // By the second implementation, in a picture of one row or one column. A source that is the reference itself is
    // found where it is.
    fn expected(&self) -> Vec<Found> {
        let Scene { columns, reference: plane, source, version, .. } = self;
        let side = SIDE as u64;
        let (stride, width, height) = if *columns { (side, side, 1) } else { (1, 1, side) };
        let (source_stride, version, lists) = (stride, *version, [ACROSS; 3]);
        let call = PictureCall { plane, stride, width, height, source, source_stride, version, lists };
        let found = search_picture(&call, LIMIT).expect("a legal picture");
        assert!(plane != source || found == [(0, 0, 0); ACROSS], "{}: its own source", self.name);
        found
    }

    // The large picture.
    fn spread(&self, samples: &[u8]) -> Vec<u8> {
        if self.columns { samples.repeat(SIDE) } else { samples.iter().flat_map(|&b| [b; SIDE]).collect() }
    }
}

fn compared(scene: &Scene) -> bool {
    let plane = scene.spread(&scene.reference);
    let other = (scene.source != scene.reference).then(|| scene.spread(&scene.source));
    let source = other.as_ref().unwrap_or(&plane);
    let (got, found, seconds) = searched_at_once(|lists| {
        model::search_picture_luma(luma(&plane, SIDE), (source, SIDE), LIMIT, scene.version, lists)
    });
    assert_eq!((got.refusal, got.macroblocks as usize), (0, COUNT), "the answer");
    let expected = scene.expected();
    let ruled = |i: usize| expected[if scene.columns { i % ACROSS } else { i / ACROSS }];
    let reference = LumaRef { plane: &plane, stride: SIDE, width: SIDE, height: SIDE };
    let single = |i: usize| searched(reference, (source, SIDE), (i % ACROSS, i / ACROSS), LIMIT, scene.version);
    let [paper, rust] = [differ(&found, ruled), differ(&found, single)];
    let moved = found.iter().filter(|(row, col, _)| (*row, *col) != (0, 0)).count();
    println!("large: {SIDE}x{SIDE}, {}, version {}: one call, {seconds:.1} s", scene.name, scene.version);
    println!("  {COUNT} macroblocks, {moved} with a vector other than (0, 0)");
    paper.told("the second implementation") & rust.told("the originals' single calls")
}

// How many differ, and the first that does.
struct Differ {
    count: usize,
    first: Option<String>,
}

impl Differ {
    // Prints it, and says whether none differs.
    fn told(&self, judge: &str) -> bool {
        println!("  beside {judge}: {COUNT} compared, {} differ ({BUILD})", self.count);
        self.first.iter().for_each(|first| println!("  {first}"));
        self.count == 0
    }
}

// A part of the macroblocks for each processor.
fn differ(found: &[Found], wanted: impl Fn(usize) -> Found + Sync) -> Differ {
    let parts = thread::available_parallelism().map_or(1, |n| n.get());
    let unlike = |i: usize| Some((i, wanted(i))).filter(|(i, wanted)| found[*i] != *wanted);
    let (unlike, end) = (&unlike, |part: usize| part * COUNT / parts);
    let all: Vec<(usize, Found)> = thread::scope(|scope| {
        let part = |k| scope.spawn(move || (end(k)..end(k + 1)).filter_map(unlike).collect::<Vec<_>>());
        let running: Vec<_> = (0..parts).map(part).collect();
        running.into_iter().flat_map(|part| part.join().expect("a part")).collect()
    });
    let first = all.first().map(|(i, wanted)| format!("macroblock {i}: {:?}, expected {wanted:?}", found[*i]));
    Differ { count: all.len(), first }
}

// The lists, of noise.
struct Lent {
    rows: Guarded<i16>,
    cols: Guarded<i16>,
    sads: Guarded<u32>,
}

impl Lent {
    fn noise(len: usize) -> Lent {
        Lent { rows: Guarded::noise(len, 1), cols: Guarded::noise(len, 2), sads: Guarded::noise(len, 3) }
    }

    fn lists(&mut self) -> Lists<'_> {
        Lists { rows: self.rows.slice_mut(), cols: self.cols.slice_mut(), sads: self.sads.slice_mut() }
    }

    fn entries(&self) -> Vec<Found> {
        let vectors = self.rows.slice().iter().zip(self.cols.slice());
        vectors.zip(self.sads.slice()).map(|((&row, &col), &sad)| (row, col, sad)).collect()
    }

    fn changed(&self) -> bool {
        self.rows.changed() || self.cols.changed() || self.sads.changed()
    }

    fn guard_broken(&self) -> bool {
        self.rows.guard_broken() || self.cols.guard_broken() || self.sads.guard_broken()
    }
}

// What the one call says and leaves in the lists, and its time. It must change nothing else.
fn searched_at_once<T>(call: impl FnOnce(Lists) -> T) -> (T, Vec<Found>, f64) {
    let mut lent = Lent::noise(COUNT + MORE);
    let before = lent.entries();
    let start = Instant::now();
    let got = call(lent.lists());
    let seconds = start.elapsed().as_secs_f64();
    let mut found = lent.entries();
    assert_eq!(found[COUNT..], before[COUNT..], "entries past the macroblocks");
    assert!(!lent.guard_broken(), "entries beside the lists");
    found.truncate(COUNT);
    (got, found, seconds)
}

fn luma(plane: &[u8], side: usize) -> Luma<'_> {
    Luma { plane, stride: side, width: side, height: side }
}

// Planes and lists are long enough for 16384 by 16384, so that no other refusal applies.
fn refused() -> bool {
    let plane = vec![77; (SIDE + 1) * (SIDE + 1)];
    let mut same = true;
    for (width, height) in [(SIDE + 1, SIDE + 1), (SIDE + 1, 1), (1, SIDE + 1)] {
        let mut lent = Lent::noise(COUNT);
        let luma = Luma { width, height, ..luma(&plane, SIDE + 1) };
        let got = model::search_picture_luma(luma, (&plane, SIDE + 1), LIMIT, 0, lent.lists());
        println!("large: {width}x{height}: refusal {}, {} ({BUILD})", got.refusal, kept(&lent));
        same &= (got.refusal, got.macroblocks) == (8, 0) && !lent.changed();
    }
    same
}

fn kept(lent: &Lent) -> &'static str {
    if lent.changed() { "a list is CHANGED" } else { "the lists are kept" }
}

// The levels of the flat picture that is searched within an allowance, and of its source.
const LEVELS: [u8; 2] = [77, 80];

// With one comparison too few, with 19 for each macroblock, and with as many as there can be. The source has one row,
// which is repeated.
fn allowed() -> bool {
    let (plane, source) = (vec![LEVELS[0]; SIDE * SIDE], vec![LEVELS[1]; SIDE]);
    let search = |allowance: u32, lists: Lists| {
        model::search_picture_luma_within(luma(&plane, SIDE), (&source, 0), allowance, 0, lists)
    };
    let least = 19 * COUNT as u32;
    let mut lent = Lent::noise(COUNT);
    let got = search(least - 1, lent.lists());
    println!("large: flat, allowance {}: refusal {}, {} ({BUILD})", least - 1, got.refusal, kept(&lent));
    let mut same = got == model::Allowed { refusal: 30, macroblocks: 0, comparisons: 0 } && !lent.changed();
    for (allowance, each) in [(least, 19), (u32::MAX, 23)] {
        let (got, found, seconds) = searched_at_once(|lists| search(allowance, lists));
        println!("large: {SIDE}x{SIDE}, flat, allowance {allowance}: one call, {seconds:.1} s");
        let model::Allowed { refusal, macroblocks, comparisons } = got;
        println!("  refusal {refusal}, {macroblocks} macroblocks, {comparisons} comparisons, expected {each} for each");
        same &= (refusal, macroblocks, comparisons) == (0, COUNT as u32, each * COUNT as u32);
        assert_eq!(shared_flat(allowance), u64::from(each) * COUNT as u64, "the second implementation's count");
        let wanted = flat_macroblock(allowance / COUNT as u32, each);
        same &= differ(&found, |_| wanted).told("one macroblock of the second implementation and of the originals");
    }
    same
}

// The comparisons of a picture whose diamonds stop after a round, where their grant has room for one.
fn shared_flat(allowance: u32) -> u64 {
    shared_out(allowance, COUNT as u64, |_, grant| 19 + 4 * u64::from(rounds_within(grant).min(1))).1
}

// One macroblock of these levels with the allowance that each one is granted at least; both find the same.
fn flat_macroblock(allowance: u32, comparisons: u32) -> Found {
    let [plane, source] = LEVELS.map(|level| [level; 256]);
    let (stride, width, height) = (16, 16, 16);
    let found = within(LumaRef { plane: &plane, stride, width, height }, (&source, stride), allowance, 0);
    let [stride, width, height] = [stride, width, height].map(|n| n as u64);
    let (plane, source, source_stride) = (&plane, &source, stride);
    let call = PictureCall { plane, stride, width, height, source, source_stride, version: 0, lists: [1; 3] };
    assert_eq!(search_picture_within(&call, allowance).as_ref(), Ok(&found), "one macroblock");
    assert_eq!(found.comparisons, u64::from(comparisons), "the comparisons of one macroblock");
    found.found[0]
}
