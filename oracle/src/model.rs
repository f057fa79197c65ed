//! The model's exports, as include/vp8model.h declares them: the one module that calls the library.

use crate::motion_vector::Mv;

#[repr(C)]
#[derive(Debug, Clone, Copy, PartialEq, Eq)]
pub struct Status {
    pub refusal: u32,
}

#[repr(C)]
#[derive(Debug, Clone, Copy, PartialEq, Eq)]
pub struct Sample {
    pub refusal: u32,
    pub sample: u32,
}

#[repr(C)]
#[derive(Debug, Clone, Copy, PartialEq, Eq)]
pub struct Vector {
    pub refusal: u32,
    pub row: i16,
    pub col: i16,
}

#[repr(C)]
#[derive(Debug, Clone, Copy, PartialEq, Eq)]
pub struct Sad {
    pub refusal: u32,
    pub sad: u32,
}

#[repr(C)]
#[derive(Debug, Clone, Copy, PartialEq, Eq)]
pub struct Ceiled {
    pub refusal: u32,
    pub sad: u32,
    pub rows: u32,
}

#[repr(C)]
#[derive(Debug, Clone, Copy, PartialEq, Eq)]
pub struct Search {
    pub refusal: u32,
    pub row: i16,
    pub col: i16,
    pub sad: u32,
}

#[repr(C)]
#[derive(Debug, Clone, Copy, PartialEq, Eq)]
pub struct Diamond {
    pub refusal: u32,
    pub row: i16,
    pub col: i16,
    pub sad: u32,
    pub sads: u32,
    pub rounds: u32,
}

#[repr(C)]
#[derive(Debug, Clone, Copy, PartialEq, Eq)]
pub struct Picture {
    pub refusal: u32,
    pub macroblocks: u32,
}

#[repr(C)]
#[derive(Debug, Clone, Copy, PartialEq, Eq)]
pub struct Allowed {
    pub refusal: u32,
    pub macroblocks: u32,
    pub comparisons: u32,
}

#[repr(C)]
#[derive(Debug, Clone, Copy, PartialEq, Eq, Default)]
pub struct Frame {
    pub width: u32,
    pub height: u32,
    pub y: u32,
    pub u: u32,
    pub v: u32,
    pub luma_stride: u32,
    pub chroma_stride: u32,
    pub cap: u32,
}

#[repr(C)]
#[derive(Debug, Clone, Copy, PartialEq, Eq, Default)]
pub struct Build {
    pub refusal: u32,
    pub width: u32,
    pub height: u32,
    pub accepted: u32,
    pub other_width: u32,
    pub other_height: u32,
    pub frame: u32,
}

#[rustfmt::skip]
unsafe extern "C" {
    #[link_name = "vp8model_clamp255"]
    pub safe fn clamp255(v: i32) -> u8;
    #[link_name = "vp8model_abs_diff"]
    pub safe fn abs_diff(a: u8, b: u8) -> u8;
    #[link_name = "vp8model_stored_luma_mv"]
    pub safe fn stored_luma_mv(row: i16, col: i16) -> Vector;
    #[link_name = "vp8model_whole_offset"]
    pub safe fn whole_offset(v: i16) -> i32;
    #[link_name = "vp8model_fraction"]
    pub safe fn fraction(v: i16) -> u32;
    #[link_name = "vp8model_filter_set_for_version"]
    pub safe fn filter_set_for_version(version: u8) -> u32;
    #[link_name = "vp8model_interp"]
    pub safe fn interp(selector: u32, support: &[u8; 6]) -> Sample;
    #[link_name = "vp8model_sixtap_mb_luma"]
    pub safe fn sixtap_mb_luma(halo: &[u8; 441], mx: u32, my: u32, block: &mut [u8; 256]) -> Status;
    #[link_name = "vp8model_bilinear_mb_luma"]
    pub safe fn bilinear_mb_luma(halo: &[u8; 441], mx: u32, my: u32, block: &mut [u8; 256]) -> Status;
    #[link_name = "vp8model_bad_size"]
    pub safe fn bad_size(width: usize, height: usize) -> u8;
    #[link_name = "vp8model_short_plane"]
    pub safe fn short_plane(len: usize, stride: usize, width: usize, height: usize) -> u8;
    fn vp8model_fetch_luma_mb_whole_pixel(
        plane: *const u8, len: usize, stride: usize, width: usize, height: usize, x: usize, y: usize,
        mv_row: i16, mv_col: i16, block: &mut [u8; 256],
    ) -> Status;
    fn vp8model_fetch_luma_mb_halo(
        plane: *const u8, len: usize, stride: usize, width: usize, height: usize, x: usize, y: usize,
        mv_row: i16, mv_col: i16, halo: &mut [u8; 441],
    ) -> Status;
    #[link_name = "vp8model_block_sad_16x16"]
    pub safe fn block_sad_16x16(src: &[u8; 256], pred: &[u8; 256]) -> u32;
    #[link_name = "vp8model_block_sad_16x16_up_to"]
    pub safe fn block_sad_16x16_up_to(src: &[u8; 256], pred: &[u8; 256], ceiling: u32) -> Ceiled;
    fn vp8model_mb_luma_sad_at_whole_mv(
        plane: *const u8, len: usize, stride: usize, width: usize, height: usize, mb_col: usize, mb_row: usize,
        src_y: &[u8; 256], mv_row: i16, mv_col: i16,
    ) -> Sad;
    fn vp8model_mb_luma_sad_at_mv(
        plane: *const u8, len: usize, stride: usize, width: usize, height: usize, mb_col: usize, mb_row: usize,
        src_y: &[u8; 256], mv_row: i16, mv_col: i16, version: u8,
    ) -> Sad;
    fn vp8model_small_diamond_search_luma(
        plane: *const u8, len: usize, stride: usize, width: usize, height: usize, mb_col: usize, mb_row: usize,
        src_y: &[u8; 256], center_row: i16, center_col: i16, max_iters: u32,
    ) -> Diamond;
    fn vp8model_half_pixel_refine_luma(
        plane: *const u8, len: usize, stride: usize, width: usize, height: usize, mb_col: usize, mb_row: usize,
        src_y: &[u8; 256], center_row: i16, center_col: i16, version: u8,
    ) -> Search;
    fn vp8model_quarter_pixel_refine_luma(
        plane: *const u8, len: usize, stride: usize, width: usize, height: usize, mb_col: usize, mb_row: usize,
        src_y: &[u8; 256], center_row: i16, center_col: i16, version: u8,
    ) -> Search;
    fn vp8model_search_picture_luma(
        plane: *const u8, plane_len: usize, stride: usize, width: usize, height: usize,
        source: *const u8, source_len: usize, source_stride: usize, max_iters: u32, version: u8,
        rows: *mut i16, rows_len: usize, cols: *mut i16, cols_len: usize, sads: *mut u32, sads_len: usize,
    ) -> Picture;
    fn vp8model_search_picture_luma_within(
        plane: *const u8, plane_len: usize, stride: usize, width: usize, height: usize,
        source: *const u8, source_len: usize, source_stride: usize, allowance: u32, version: u8,
        rows: *mut i16, rows_len: usize, cols: *mut i16, cols_len: usize, sads: *mut u32, sads_len: usize,
    ) -> Allowed;
    #[link_name = "vp8model_curve"]
    pub safe fn curve(strength: u8, curve: &mut [u32; 256]);
    #[link_name = "vp8model_weight"]
    pub safe fn weight(strength: u8, e: u8) -> u32;
    #[link_name = "vp8model_scale_of"]
    pub safe fn scale_of(strength: u8) -> u32;
    #[link_name = "vp8model_distance_bound"]
    pub safe fn distance_bound(n: u32, strength: u8) -> u32;
    #[link_name = "vp8model_arnr_config_new"]
    pub safe fn arnr_config_new(strength: u8) -> u8;
    #[link_name = "vp8model_arnr_config_default"]
    pub safe fn arnr_config_default() -> u8;
    #[link_name = "vp8model_arnr_config_with_strength"]
    pub safe fn arnr_config_with_strength(config: u8, v: u8) -> u8;
    fn vp8model_frame_count(numbers: *const u32, len: usize) -> usize;
    fn vp8model_frame_at(numbers: *const u32, len: usize, g: usize) -> Frame;
    fn vp8model_check_build(
        bytes: *const u8, bytes_len: usize, numbers: *const u32, numbers_len: usize, centre: usize,
        output_len: usize, sums_len: usize, weights_len: usize,
    ) -> Build;
    fn vp8model_build_from_numbers(
        bytes: *const u8, bytes_len: usize, numbers: *const u32, numbers_len: usize, centre: usize, strength: u8,
        output: *mut u8, output_len: usize, sums: *mut u32, sums_len: usize, weights: *mut u32, weights_len: usize,
    ) -> Build;
    fn vp8model_build_half_sample(
        bytes: *const u8, bytes_len: usize, numbers: *const u32, numbers_len: usize, centre: usize, strength: u8,
        output: *mut u8, output_len: usize, sums: *mut u32, sums_len: usize, weights: *mut u32, weights_len: usize,
    ) -> Build;
    fn vp8model_build_three_planes(
        bytes: *const u8, bytes_len: usize, numbers: *const u32, numbers_len: usize, centre: usize, strength: u8,
        output: *mut u8, output_len: usize, sums: *mut u32, sums_len: usize, weights: *mut u32, weights_len: usize,
    ) -> Build;
    fn vp8model_build_three_planes_half_sample(
        bytes: *const u8, bytes_len: usize, numbers: *const u32, numbers_len: usize, centre: usize, strength: u8,
        output: *mut u8, output_len: usize, sums: *mut u32, sums_len: usize, weights: *mut u32, weights_len: usize,
    ) -> Build;
    fn vp8model_build_arnr_altref(
        bytes: *const u8, bytes_len: usize, frames: *const Frame, frames_len: usize, centre: usize, strength: u8,
        output: *mut u8, output_len: usize, sums: *mut u32, sums_len: usize, weights: *mut u32, weights_len: usize,
    ) -> Build;
}

/// A luma plane lent to a fetch or a search.
#[derive(Clone, Copy)]
pub struct Luma<'a> {
    pub plane: &'a [u8],
    pub stride: usize,
    pub width: usize,
    pub height: usize,
}

/// The three lists that a whole-picture search writes.
pub struct Lists<'a> {
    pub rows: &'a mut [i16],
    pub cols: &'a mut [i16],
    pub sads: &'a mut [u32],
}

/// The three slices that a builder writes.
pub struct Lent<'a> {
    pub output: &'a mut [u8],
    pub sums: &'a mut [u32],
    pub weights: &'a mut [u32],
}

pub fn fetch_luma_mb_whole_pixel(l: Luma, x: usize, y: usize, mv: Mv, block: &mut [u8; 256]) -> Status {
    let Luma { plane, stride, width, height } = l;
    // SAFETY: the slice and its length belong together.
    unsafe {
        vp8model_fetch_luma_mb_whole_pixel(
            plane.as_ptr(),
            plane.len(),
            stride,
            width,
            height,
            x,
            y,
            mv.row,
            mv.col,
            block,
        )
    }
}

pub fn fetch_luma_mb_halo(l: Luma, x: usize, y: usize, mv: Mv, halo: &mut [u8; 441]) -> Status {
    let Luma { plane, stride, width, height } = l;
    // SAFETY: the slice and its length belong together.
    unsafe {
        vp8model_fetch_luma_mb_halo(plane.as_ptr(), plane.len(), stride, width, height, x, y, mv.row, mv.col, halo)
    }
}

pub fn mb_luma_sad_at_whole_mv(l: Luma, mb: (usize, usize), src: &[u8; 256], mv: Mv) -> Sad {
    let Luma { plane, stride, width, height } = l;
    let (ptr, len) = (plane.as_ptr(), plane.len());
    // SAFETY: the slice and its length belong together.
    unsafe { vp8model_mb_luma_sad_at_whole_mv(ptr, len, stride, width, height, mb.0, mb.1, src, mv.row, mv.col) }
}

pub fn mb_luma_sad_at_mv(l: Luma, mb: (usize, usize), src: &[u8; 256], mv: Mv, version: u8) -> Sad {
    let Luma { plane, stride, width, height } = l;
    let (ptr, len) = (plane.as_ptr(), plane.len());
    // SAFETY: the slice and its length belong together.
    unsafe { vp8model_mb_luma_sad_at_mv(ptr, len, stride, width, height, mb.0, mb.1, src, mv.row, mv.col, version) }
}

pub fn half_pixel_refine_luma(l: Luma, mb: (usize, usize), src: &[u8; 256], center: Mv, version: u8) -> Search {
    let Luma { plane, stride, width, height } = l;
    let (ptr, len) = (plane.as_ptr(), plane.len());
    // SAFETY: the slice and its length belong together.
    unsafe {
        vp8model_half_pixel_refine_luma(
            ptr, len, stride, width, height, mb.0, mb.1, src, center.row, center.col, version,
        )
    }
}

pub fn quarter_pixel_refine_luma(l: Luma, mb: (usize, usize), src: &[u8; 256], center: Mv, version: u8) -> Search {
    let Luma { plane, stride, width, height } = l;
    let (ptr, len) = (plane.as_ptr(), plane.len());
    // SAFETY: the slice and its length belong together.
    unsafe {
        vp8model_quarter_pixel_refine_luma(
            ptr, len, stride, width, height, mb.0, mb.1, src, center.row, center.col, version,
        )
    }
}

pub fn small_diamond_search_luma(l: Luma, mb: (usize, usize), src: &[u8; 256], center: Mv, max_iters: u32) -> Diamond {
    let Luma { plane, stride, width, height } = l;
    let (ptr, len) = (plane.as_ptr(), plane.len());
    // SAFETY: the slice and its length belong together.
    unsafe {
        vp8model_small_diamond_search_luma(
            ptr, len, stride, width, height, mb.0, mb.1, src, center.row, center.col, max_iters,
        )
    }
}

/// The source is its bytes and its stride.
#[rustfmt::skip]
pub fn search_picture_luma(l: Luma, source: (&[u8], usize), max_iters: u32, version: u8, lists: Lists) -> Picture {
    let Luma { plane, stride, width, height } = l;
    let Lists { rows, cols, sads } = lists;
    // SAFETY: each slice and its length belong together.
    unsafe {
        vp8model_search_picture_luma(
            plane.as_ptr(), plane.len(), stride, width, height,
            source.0.as_ptr(), source.0.len(), source.1, max_iters, version,
            rows.as_mut_ptr(), rows.len(), cols.as_mut_ptr(), cols.len(), sads.as_mut_ptr(), sads.len(),
        )
    }
}

/// The same with an allowance of comparisons.
#[rustfmt::skip]
pub fn search_picture_luma_within(
    l: Luma, source: (&[u8], usize), allowance: u32, version: u8, lists: Lists,
) -> Allowed {
    let Luma { plane, stride, width, height } = l;
    let Lists { rows, cols, sads } = lists;
    // SAFETY: each slice and its length belong together.
    unsafe {
        vp8model_search_picture_luma_within(
            plane.as_ptr(), plane.len(), stride, width, height,
            source.0.as_ptr(), source.0.len(), source.1, allowance, version,
            rows.as_mut_ptr(), rows.len(), cols.as_mut_ptr(), cols.len(), sads.as_mut_ptr(), sads.len(),
        )
    }
}

pub fn frame_count(numbers: &[u32]) -> usize {
    // SAFETY: the slice and its length belong together.
    unsafe { vp8model_frame_count(numbers.as_ptr(), numbers.len()) }
}

pub fn frame_at(numbers: &[u32], g: usize) -> Frame {
    // SAFETY: the slice and its length belong together.
    unsafe { vp8model_frame_at(numbers.as_ptr(), numbers.len(), g) }
}

/// The lengths are those of the output, the sums and the weights.
pub fn check_build(bytes: &[u8], numbers: &[u32], centre: usize, lens: [usize; 3]) -> Build {
    let [output, sums, weights] = lens;
    let (ptr, len) = (numbers.as_ptr(), numbers.len());
    // SAFETY: each slice and its length belong together; the other lengths are only compared.
    unsafe { vp8model_check_build(bytes.as_ptr(), bytes.len(), ptr, len, centre, output, sums, weights) }
}

#[rustfmt::skip]
pub fn build_from_numbers(bytes: &[u8], numbers: &[u32], centre: usize, strength: u8, lent: Lent) -> Build {
    let Lent { output, sums, weights } = lent;
    // SAFETY: each slice and its length belong together.
    unsafe {
        vp8model_build_from_numbers(
            bytes.as_ptr(), bytes.len(), numbers.as_ptr(), numbers.len(), centre, strength,
            output.as_mut_ptr(), output.len(), sums.as_mut_ptr(), sums.len(), weights.as_mut_ptr(), weights.len(),
        )
    }
}

#[rustfmt::skip]
pub fn build_half_sample(bytes: &[u8], numbers: &[u32], centre: usize, strength: u8, lent: Lent) -> Build {
    let Lent { output, sums, weights } = lent;
    // SAFETY: each slice and its length belong together.
    unsafe {
        vp8model_build_half_sample(
            bytes.as_ptr(), bytes.len(), numbers.as_ptr(), numbers.len(), centre, strength,
            output.as_mut_ptr(), output.len(), sums.as_mut_ptr(), sums.len(), weights.as_mut_ptr(), weights.len(),
        )
    }
}

#[rustfmt::skip]
pub fn build_three_planes(bytes: &[u8], numbers: &[u32], centre: usize, strength: u8, lent: Lent) -> Build {
    let Lent { output, sums, weights } = lent;
    // SAFETY: each slice and its length belong together.
    unsafe {
        vp8model_build_three_planes(
            bytes.as_ptr(), bytes.len(), numbers.as_ptr(), numbers.len(), centre, strength,
            output.as_mut_ptr(), output.len(), sums.as_mut_ptr(), sums.len(), weights.as_mut_ptr(), weights.len(),
        )
    }
}

#[rustfmt::skip]
pub fn build_three_planes_half_sample(
    bytes: &[u8], numbers: &[u32], centre: usize, strength: u8, lent: Lent,
) -> Build {
    let Lent { output, sums, weights } = lent;
    // SAFETY: each slice and its length belong together.
    unsafe {
        vp8model_build_three_planes_half_sample(
            bytes.as_ptr(), bytes.len(), numbers.as_ptr(), numbers.len(), centre, strength,
            output.as_mut_ptr(), output.len(), sums.as_mut_ptr(), sums.len(), weights.as_mut_ptr(), weights.len(),
        )
    }
}

#[rustfmt::skip]
pub fn build_arnr_altref(bytes: &[u8], frames: &[Frame], centre: usize, strength: u8, lent: Lent) -> Build {
    let Lent { output, sums, weights } = lent;
    // SAFETY: each slice and its length belong together.
    unsafe {
        vp8model_build_arnr_altref(
            bytes.as_ptr(), bytes.len(), frames.as_ptr(), frames.len(), centre, strength,
            output.as_mut_ptr(), output.len(), sums.as_mut_ptr(), sums.len(), weights.as_mut_ptr(), weights.len(),
        )
    }
}
