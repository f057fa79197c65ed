//! The exports that this program calls, as include/vp8model.h declares them.

use crate::failure::Failure;

#[repr(C)]
#[derive(Clone, Copy)]
pub struct Frame {
    pub width: u32,
    pub height: u32,
    pub y: u32,
    pub u: u32,
    pub v: u32,
    pub luma_stride: u32,
    pub chroma_stride: u32,
    pub cap: u32,
}

/// The greatest cap, which bounds no weight.
pub const MAX_CAP: u32 = 16;

const NUMBERS_PER_FRAME: usize = size_of::<Frame>() / size_of::<u32>();

/// How a luma displacement is halved for U and V.
#[derive(Clone, Copy)]
pub enum Chroma {
    /// Toward zero, to whole samples.
    Whole,
    /// Down, with a half sample where it is odd.
    Half,
}

/// Which planes a block is accepted on.
#[derive(Clone, Copy)]
pub enum Planes {
    /// Y alone.
    Luma,
    /// Y, U and V, each of which must pass.
    Three,
}

/// What a builder goes by.
#[derive(Clone, Copy)]
pub struct Rule {
    pub chroma: Chroma,
    pub planes: Planes,
}

#[repr(C)]
pub struct Build {
    refusal: u32,
    width: u32,
    height: u32,
    pub accepted: u32,
    other_width: u32,
    other_height: u32,
    frame: u32,
}

#[repr(C)]
pub struct Diamond {
    refusal: u32,
    pub row: i16,
    pub col: i16,
    pub sad: u32,
    pub sads: u32,
    pub rounds: u32,
}

#[repr(C)]
pub struct Search {
    refusal: u32,
    pub row: i16,
    pub col: i16,
    pub sad: u32,
}

#[repr(C)]
struct Picture {
    refusal: u32,
    macroblocks: u32,
}

#[repr(C)]
pub struct Allowed {
    refusal: u32,
    pub macroblocks: u32,
    pub comparisons: u32,
}

#[rustfmt::skip]
unsafe extern "C" {
    fn vp8model_build_arnr_altref(
        bytes: *const u8, bytes_len: usize, frames: *const Frame, frames_len: usize, centre: usize, strength: u8,
        output: *mut u8, output_len: usize, sums: *mut u32, sums_len: usize, weights: *mut u32, weights_len: usize,
    ) -> Build;
    fn vp8model_build_half_sample(
        bytes: *const u8, bytes_len: usize, numbers: *const u32, numbers_len: usize, centre: usize, strength: u8,
        output: *mut u8, output_len: usize, sums: *mut u32, sums_len: usize, weights: *mut u32, weights_len: usize,
    ) -> Build;
    fn vp8model_build_three_planes(
        bytes: *const u8, bytes_len: usize, numbers: *const u32, numbers_len: usize, centre: usize, strength: u8,
        output: *mut u8, output_len: usize, sums: *mut u32, sums_len: usize, weights: *mut u32, weights_len: usize,
    ) -> Build;
    fn vp8model_build_three_planes_half_sample(
        bytes: *const u8, bytes_len: usize, numbers: *const u32, numbers_len: usize, centre: usize, strength: u8,
        output: *mut u8, output_len: usize, sums: *mut u32, sums_len: usize, weights: *mut u32, weights_len: usize,
    ) -> Build;
    fn vp8model_small_diamond_search_luma(
        plane: *const u8, len: usize, stride: usize, width: usize, height: usize, mb_col: usize, mb_row: usize,
        src_y: &[u8; 256], center_row: i16, center_col: i16, max_iters: u32,
    ) -> Diamond;
    fn vp8model_half_pixel_refine_luma(
        plane: *const u8, len: usize, stride: usize, width: usize, height: usize, mb_col: usize, mb_row: usize,
        src_y: &[u8; 256], center_row: i16, center_col: i16, version: u8,
    ) -> Search;
    fn vp8model_quarter_pixel_refine_luma(
        plane: *const u8, len: usize, stride: usize, width: usize, height: usize, mb_col: usize, mb_row: usize,
        src_y: &[u8; 256], center_row: i16, center_col: i16, version: u8,
    ) -> Search;
    fn vp8model_search_picture_luma(
        plane: *const u8, len: usize, stride: usize, width: usize, height: usize,
        source: *const u8, source_len: usize, source_stride: usize, max_iters: u32, version: u8,
        rows: *mut i16, rows_len: usize, cols: *mut i16, cols_len: usize, sads: *mut u32, sads_len: usize,
    ) -> Picture;
    fn vp8model_search_picture_luma_within(
        plane: *const u8, len: usize, stride: usize, width: usize, height: usize,
        source: *const u8, source_len: usize, source_stride: usize, allowance: u32, version: u8,
        rows: *mut i16, rows_len: usize, cols: *mut i16, cols_len: usize, sads: *mut u32, sads_len: usize,
    ) -> Allowed;
}

/// The builders that take frames as numbers.
#[rustfmt::skip]
type OverNumbers = unsafe extern "C" fn(
    *const u8, usize, *const u32, usize, usize, u8, *mut u8, usize, *mut u32, usize, *mut u32, usize,
) -> Build;

/// What a build fills: the picture, packed, its sums and its total weights.
pub struct Filled {
    pub output: Vec<u8>,
    pub sums: Vec<u32>,
    pub weights: Vec<u32>,
}

#[rustfmt::skip]
pub fn build(
    bytes: &[u8], frames: &[Frame], centre: usize, strength: u8, rule: Rule, filled: &mut Filled,
) -> Result<Build, Failure> {
    let over_numbers = match (rule.planes, rule.chroma) {
        (Planes::Luma, Chroma::Whole) => None,
        (Planes::Luma, Chroma::Half) => Some(vp8model_build_half_sample as OverNumbers),
        (Planes::Three, Chroma::Whole) => Some(vp8model_build_three_planes as OverNumbers),
        (Planes::Three, Chroma::Half) => Some(vp8model_build_three_planes_half_sample as OverNumbers),
    };
    let Filled { output, sums, weights } = filled;
    // SAFETY: each pointer is that of a slice of the length beside it, and no two share bytes; records are numbers.
    let built = unsafe {
        match over_numbers {
            None => vp8model_build_arnr_altref(
                bytes.as_ptr(), bytes.len(), frames.as_ptr(), frames.len(), centre, strength,
                output.as_mut_ptr(), output.len(), sums.as_mut_ptr(), sums.len(), weights.as_mut_ptr(), weights.len(),
            ),
            Some(call) => call(
                bytes.as_ptr(), bytes.len(), frames.as_ptr().cast(), NUMBERS_PER_FRAME * frames.len(), centre, strength,
                output.as_mut_ptr(), output.len(), sums.as_mut_ptr(), sums.len(), weights.as_mut_ptr(), weights.len(),
            ),
        }
    };
    let Build { width, height, other_width, other_height, frame, .. } = built;
    let values = match built.refusal {
        3 => format!(": {width} by {height}"),
        4 => format!(": {other_width} by {other_height}, the centre's {width} by {height}"),
        29 | 5 => format!(": frame {frame}"),
        _ => String::new(),
    };
    accepted(built.refusal, &values).map(|()| built)
}

/// A reference plane, packed.
#[derive(Clone, Copy)]
pub struct Reference<'a> {
    pub plane: &'a [u8],
    pub width: usize,
    pub height: usize,
}

/// A macroblock's column and row.
pub type Place = (usize, usize);

pub fn diamond(r: Reference, (col, row): Place, source: &[u8; 256], limit: u32) -> Result<Diamond, Failure> {
    let (plane, len) = (r.plane.as_ptr(), r.plane.len());
    // SAFETY: the pointer is that of a slice of the length beside it.
    let found = unsafe {
        vp8model_small_diamond_search_luma(plane, len, r.width, r.width, r.height, col, row, source, 0, 0, limit)
    };
    accepted(found.refusal, "").map(|()| found)
}

#[rustfmt::skip]
pub fn half(
    r: Reference, (col, row): Place, source: &[u8; 256], from: &Diamond, version: u8,
) -> Result<Search, Failure> {
    // SAFETY: the pointer is that of a slice of the length beside it.
    let found = unsafe {
        vp8model_half_pixel_refine_luma(
            r.plane.as_ptr(), r.plane.len(), r.width, r.width, r.height, col, row,
            source, from.row, from.col, version,
        )
    };
    accepted(found.refusal, "").map(|()| found)
}

#[rustfmt::skip]
pub fn quarter(
    r: Reference, (col, row): Place, source: &[u8; 256], from: &Search, version: u8,
) -> Result<Search, Failure> {
    // SAFETY: the pointer is that of a slice of the length beside it.
    let found = unsafe {
        vp8model_quarter_pixel_refine_luma(
            r.plane.as_ptr(), r.plane.len(), r.width, r.width, r.height, col, row,
            source, from.row, from.col, version,
        )
    };
    accepted(found.refusal, "").map(|()| found)
}

/// What a whole picture's search fills: row, column and SAD of each macroblock's last vector.
pub struct Lists {
    pub rows: Vec<i16>,
    pub cols: Vec<i16>,
    pub sads: Vec<u32>,
}

/// Searches all macroblocks of a source, packed and of the reference's size, and gives their number.
#[rustfmt::skip]
pub fn picture(
    r: Reference, source: &[u8], limit: u32, version: u8, lists: &mut Lists,
) -> Result<u32, Failure> {
    let Lists { rows, cols, sads } = lists;
    // SAFETY: each pointer is that of a slice of the length beside it, and no list shares bytes with another argument.
    let searched = unsafe {
        vp8model_search_picture_luma(
            r.plane.as_ptr(), r.plane.len(), r.width, r.width, r.height,
            source.as_ptr(), source.len(), r.width, limit, version,
            rows.as_mut_ptr(), rows.len(), cols.as_mut_ptr(), cols.len(), sads.as_mut_ptr(), sads.len(),
        )
    };
    accepted(searched.refusal, "").map(|()| searched.macroblocks)
}

/// The same within an allowance of comparisons for all of them; gives their number and that of the comparisons made.
#[rustfmt::skip]
pub fn picture_within(
    r: Reference, source: &[u8], allowance: u32, version: u8, lists: &mut Lists,
) -> Result<Allowed, Failure> {
    let Lists { rows, cols, sads } = lists;
    // SAFETY: each pointer is that of a slice of the length beside it, and no list shares bytes with another argument.
    let searched = unsafe {
        vp8model_search_picture_luma_within(
            r.plane.as_ptr(), r.plane.len(), r.width, r.width, r.height,
            source.as_ptr(), source.len(), r.width, allowance, version,
            rows.as_mut_ptr(), rows.len(), cols.as_mut_ptr(), cols.len(), sads.as_mut_ptr(), sads.len(),
        )
    };
    accepted(searched.refusal, "").map(|()| searched)
}

fn accepted(refusal: u32, values: &str) -> Result<(), Failure> {
    let line = match refusal {
        0 => return Ok(()),
        1 => "the centre index is not below the frame count",
        2 => "the frame count exceeds 1024",
        3 => "the centre's width or height is 0 or above 16383",
        4 => "a frame's size differs from the centre's",
        29 => "a frame's cap exceeds 16",
        5 => "a plane does not fit the picture bytes",
        6 => "the output slice is shorter than the samples of all three planes",
        7 => "a working slice is shorter than the samples of all three planes",
        8 => "the reference width or height is 0 or above 16383",
        9 => "the reference plane is shorter than (height - 1) times stride + width",
        14 => "the source plane is shorter than (height - 1) times its stride + width",
        10 => "a macroblock column or row exceeds 1023",
        11 => "a component of a vector is outside -1023..1023",
        12 => "a component of a vector is off its grid",
        15 => "a list has fewer entries than the picture has macroblocks",
        23 => "the version exceeds 2",
        30 => "the allowance is below 19 times the number of macroblocks",
        _ => "a number that is not listed for this call",
    };
    Err(Failure::Refused(format!("the model refuses, number {refusal}: {line}{values}")))
}
