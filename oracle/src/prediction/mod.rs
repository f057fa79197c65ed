//! The answers for the crates `prediction`, `fetch`, `sixtap` and `bilinear`: the files `planes` and `cases` of the replay's
//! data/, and its stdout.
//!
//! `planes` is 32768 bytes of noise; the plane of a fetch is a part of it. `cases` is a file of records
//! (see records.rs). With the numbers of a record counted from 0, number 1 being the expected answer:
//!
//! kind 0, no case: the fetches since the last record of this kind are over planes of at most [2] bytes
//! kind 1, fetch_luma_mb_whole_pixel: [1] refusal or 0, [2] start and [3] length of the plane, [4] stride,
//!     [5] width, [6] height, [7] x, [8] y, [9] vector; payload: the 256 samples, zeros on a refusal
//! kind 2, fetch_luma_mb_halo: the same; payload: the 441 samples
//! kind 3, sixtap_mb_luma: [1] refusal or 0, [2] horizontal and [3] vertical selector;
//!     payload: the 441 samples of the halo, then the 256 of the answer, zeros on a refusal
//! kind 4, interp: [1] refusal or 0, [2] selector, [3] the support's six bytes, first lowest, [4] sample
//! kind 5, clamp255: [1] the byte, [2] the 32-bit number
//! kind 6, abs_diff: [2] the first byte; payload: the distances to the second bytes 0 to 255 (256 cases)
//! kind 7, stored_luma_mv: [1] the doubled vector, [2] the vector
//! kind 8, whole_offset: [1] the 32-bit number, [2] the component
//! kind 9, fraction: [1] the fraction, [2] the component
//! kind 10, filter_set_for_version: [1] 0 for six-tap, 1 for bilinear, [2] the version
//! kind 11, bilinear_mb_luma: as kind 3
//!
//! A vector is its row plus 65536 times its column, each plus 32768; a fetch's vector is in eighths, or,
//! with 2^32 added, in quarter pixels, to be doubled by stored_luma_mv first.

mod fetches;
mod filters;
mod numbers;

use crate::random::Random;
use crate::records::Records;
use std::path::Path;

const PLANES: usize = 32768;

/// The components that the tests name.
const COMPONENTS: [i16; 16] = [0, 1, -1, 4, -4, 7, -7, 8, -8, 1020, -1020, 1023, -1023, 32767, -32767, -32768];

/// The calls in the order in which the replay prints them, by kind from 1 on.
const CALLS: [&str; 11] = [
    "fetch_luma_mb_whole_pixel",
    "fetch_luma_mb_halo",
    "sixtap_mb_luma",
    "interp",
    "clamp255",
    "abs_diff",
    "stored_luma_mv",
    "whole_offset",
    "fraction",
    "filter_set_for_version",
    "bilinear_mb_luma",
];

/// Writes data/planes, data/cases and stdout, which is what a replay prints where nothing differs.
pub fn write(folder: &Path) -> std::io::Result<()> {
    let planes = Random::new(1).bytes(PLANES);
    let mut records = Records::new(10);
    let groups = fetches::add(&mut records, &planes);
    filters::add(&mut records);
    numbers::add(&mut records);
    filters::add_bilinear(&mut records);
    std::fs::create_dir_all(folder.join("data"))?;
    std::fs::write(folder.join("data/planes"), &planes)?;
    std::fs::write(folder.join("stdout"), printed(&groups, &records))?;
    records.write(&folder.join("data/cases"))
}

fn printed(groups: &[(usize, usize)], records: &Records) -> String {
    let mut text = String::new();
    for (most, cases) in groups {
        text += &format!("fetches over planes of at most {most} bytes: {cases} compared, 0 differ\n");
    }
    let mut all = 0;
    for (kind, name) in (1..).zip(CALLS) {
        let cases = records.of_kind(kind) * if name == "abs_diff" { 256 } else { 1 };
        all += cases;
        text += &format!("{name}: {cases} compared, 0 differ\n");
    }
    text + &format!("all: {all} compared, 0 differ\n")
}
