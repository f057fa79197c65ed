//! The SAD at any vector and both refinements at a version. `versioned_motion_search` is motion_search.rs with the
//! version handed on to where the filter set is chosen. At version 0 the unchanged file answers, and the copy must agree.

use crate::motion_search::{self as original, LumaRef, SearchResult};
use crate::motion_vector::Mv;
use crate::versioned_motion_search as versioned;

fn of_the_copy(reference: LumaRef<'_>) -> versioned::LumaRef<'_> {
    let LumaRef { plane, stride, width, height } = reference;
    versioned::LumaRef { plane, stride, width, height }
}

pub fn mb_luma_sad_at_mv(
    reference: LumaRef<'_>,
    (col, row): (usize, usize),
    src: &[u8; 256],
    mv: Mv,
    version: u8,
) -> u32 {
    let got = versioned::mb_luma_sad_at_mv(of_the_copy(reference), col, row, src, mv, version);
    if version == 0 {
        let same = original::mb_luma_sad_at_mv(reference, col, row, src, mv);
        assert_eq!(got, same, "the copy answers otherwise");
    }
    got
}

pub fn half_pixel_refine_luma(
    reference: LumaRef<'_>,
    (col, row): (usize, usize),
    src: &[u8; 256],
    center: Mv,
    version: u8,
) -> SearchResult {
    let got = versioned::half_pixel_refine_luma(of_the_copy(reference), col, row, src, center, version);
    let got = SearchResult { mv: got.mv, sad: got.sad };
    if version == 0 {
        let same = original::half_pixel_refine_luma(reference, col, row, src, center);
        assert_eq!(got, same, "the copy answers otherwise");
    }
    got
}

pub fn quarter_pixel_refine_luma(
    reference: LumaRef<'_>,
    (col, row): (usize, usize),
    src: &[u8; 256],
    center: Mv,
    version: u8,
) -> SearchResult {
    let got = versioned::quarter_pixel_refine_luma(of_the_copy(reference), col, row, src, center, version);
    let got = SearchResult { mv: got.mv, sad: got.sad };
    if version == 0 {
        let same = original::quarter_pixel_refine_luma(reference, col, row, src, center);
        assert_eq!(got, same, "the copy answers otherwise");
    }
    got
}
