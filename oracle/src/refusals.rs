//! Document 01's refusals and those of requests 1, 7, 10 and 14, in their order, in exact arithmetic. 0 means that the
//! call is accepted.
//! Only accepted inputs are handed to the originals, and windows that 3 or 4 refuses, whose own error is held against it.

use crate::motion_vector::Mv;

/// Width, height, start of Y, of U and of V, luma stride, chroma stride, cap.
pub type Frame = [u32; NUMBERS_PER_FRAME];

pub const NUMBERS_PER_FRAME: usize = 8;
pub const MAX_CAP: u32 = 16;

/// A window as the builder takes it: the length of the picture bytes, the frames, and the lent slices' lengths.
#[derive(Clone, Copy)]
pub struct Build<'a> {
    pub bytes: u64,
    pub frames: &'a [Frame],
    pub centre: u64,
    pub output: u64,
    pub sums: u64,
    pub weights: u64,
}

/// 1: the centre index is not below the frame count. 2: the frame count exceeds 1024. 3: the centre's
/// width or height is 0 or above 16383. 4: a frame's size differs from the centre's. 29: a frame's cap exceeds 16.
/// 5: a plane does not fit the picture bytes. 6: the output is shorter than P. 7: a working slice is. With the values
/// returned.
pub fn of_build(b: Build) -> (u64, Vec<u64>) {
    if b.centre >= b.frames.len() as u64 {
        return (1, vec![]);
    }
    if b.frames.len() > 1024 {
        return (2, vec![]);
    }
    let centre = size(&b.frames[b.centre as usize]);
    if !legal_size(centre[0], centre[1]) {
        return (3, centre.to_vec());
    }
    if let Some(other) = b.frames.iter().find(|frame| size(frame) != centre) {
        return (4, [size(other), centre].concat());
    }
    if let Some(index) = b.frames.iter().position(|frame| cap(frame) > MAX_CAP) {
        return (29, vec![index as u64]);
    }
    if let Some(index) = b.frames.iter().position(|frame| planes(frame).iter().any(|p| p.end() > b.bytes.into())) {
        return (5, vec![index as u64]);
    }
    let samples = packed_size(centre[0], centre[1]);
    if b.output < samples {
        return (6, vec![]);
    }
    if b.sums < samples || b.weights < samples {
        return (7, vec![]);
    }
    (0, vec![])
}

/// P, the samples of all three planes.
pub fn packed_size(width: u64, height: u64) -> u64 {
    width * height + 2 * width.div_ceil(2) * height.div_ceil(2)
}

fn size(frame: &Frame) -> [u64; 2] {
    [frame[0].into(), frame[1].into()]
}

/// The most that the frame weighs where it is not the centre.
pub fn cap(frame: &Frame) -> u32 {
    frame[7]
}

/// A plane in the picture bytes.
pub struct Part {
    pub start: u64,
    pub stride: u64,
    pub columns: u64,
    pub rows: u64,
}

impl Part {
    /// start + (rows - 1) times stride + columns.
    pub fn end(&self) -> u128 {
        u128::from(self.start) + (u128::from(self.rows) - 1) * u128::from(self.stride) + u128::from(self.columns)
    }
}

/// Y, U and V of a frame whose width and height are not 0.
pub fn planes(frame: &Frame) -> [Part; 3] {
    let [width, height, y, u, v, luma, chroma, _] = frame.map(u64::from);
    let (columns, rows) = (width.div_ceil(2), height.div_ceil(2));
    [
        Part { start: y, stride: luma, columns: width, rows: height },
        Part { start: u, stride: chroma, columns, rows },
        Part { start: v, stride: chroma, columns, rows },
    ]
}

/// A reference plane and the place of a macroblock: its pixel origin for a fetch, its column and row for a search.
#[derive(Clone, Copy)]
pub struct Place {
    pub len: u64,
    pub stride: u64,
    pub width: u64,
    pub height: u64,
    pub x: u64,
    pub y: u64,
}

/// 8: the width or height is 0 or above 16383. 9: the plane is shorter than (height - 1) times
/// stride + width. 10: the place exceeds `most` in either direction.
fn of_place(p: Place, most: u64) -> u64 {
    if !legal_size(p.width, p.height) {
        return 8;
    }
    if plane_is_short(p.len, p.stride, p.width, p.height) {
        return 9;
    }
    if p.x > most || p.y > most {
        return 10;
    }
    0
}

/// 10 of a fetch: the origin exceeds 16368 in either direction.
pub fn of_fetch(p: Place) -> u64 {
    of_place(p, 16368)
}

/// 10 of a search: the macroblock column or row exceeds 1023.
pub fn of_diamond(p: Place) -> u64 {
    of_place(p, 1023)
}

/// 11 after those: a component is outside -1023..1023.
pub fn of_vector(p: Place, mv: Mv) -> u64 {
    let before = of_diamond(p);
    let outside = |v: i16| !(-1023..=1023).contains(&v);
    if before == 0 && (outside(mv.row) || outside(mv.col)) { 11 } else { before }
}

/// 12 after those: a component is not a multiple of 4, or of 2.
pub fn of_vector_on_grid(p: Place, mv: Mv, grid: i16) -> u64 {
    let before = of_vector(p, mv);
    if before == 0 && (mv.row % grid != 0 || mv.col % grid != 0) { 12 } else { before }
}

/// A whole-picture search: the size of both planes, their lengths and strides, and the lengths of the lent lists.
#[derive(Clone, Copy)]
pub struct Picture {
    pub width: u64,
    pub height: u64,
    pub len: u64,
    pub stride: u64,
    pub source_len: u64,
    pub source_stride: u64,
    pub lists: [u64; 3],
}

impl Picture {
    /// Macroblocks side by side, and one above the other.
    pub fn macroblocks(&self) -> (u64, u64) {
        (self.width.div_ceil(16), self.height.div_ceil(16))
    }
}

/// 8 and 9 of the reference. 14: the source is shorter than (height - 1) times its own stride + width. 15: one of the
/// lists has fewer entries than there are macroblocks.
pub fn of_picture(p: Picture) -> u64 {
    let before = of_place(Place { len: p.len, stride: p.stride, width: p.width, height: p.height, x: 0, y: 0 }, 0);
    if before > 0 {
        return before;
    }
    if plane_is_short(p.source_len, p.source_stride, p.width, p.height) {
        return 14;
    }
    let (columns, rows) = p.macroblocks();
    if p.lists.iter().any(|&entries| entries < columns * rows) {
        return 15;
    }
    0
}

/// 30 after those: the allowance is below 19 times the macroblock count.
pub fn of_picture_within(p: Picture, allowance: u32) -> u64 {
    let (columns, rows) = p.macroblocks();
    match of_picture(p) {
        0 if u64::from(allowance) < 19 * (columns * rows) => 30,
        before => before,
    }
}

/// 23, before any other number: the version exceeds 2.
pub fn of_version(version: u8, other: u64) -> u64 {
    if version > 2 { 23 } else { other }
}

pub fn legal_size(width: u64, height: u64) -> bool {
    (1..=16383).contains(&width) && (1..=16383).contains(&height)
}

pub fn plane_is_short(len: u64, stride: u64, width: u64, height: u64) -> bool {
    u128::from(len) < (u128::from(height) - 1) * u128::from(stride) + u128::from(width)
}

/// 13: a filter selector exceeds 7.
pub fn of_selectors(selectors: &[u32]) -> u64 {
    if selectors.iter().any(|&s| s > 7) { 13 } else { 0 }
}

#[cfg(test)]
mod tests {
    use super::*;

    // 17 by 16 are two macroblocks; two rows of 3 with a stride of 5 need 8 bytes.
    #[test]
    fn refusals_of_a_picture() {
        let wide =
            Picture { width: 17, height: 16, len: 272, stride: 17, source_len: 32, source_stride: 1, lists: [2; 3] };
        assert_eq!(of_picture(wide), 0);
        for k in 0..3 {
            let mut lists = [9; 3];
            lists[k] = 1;
            assert_eq!(of_picture(Picture { lists, ..wide }), 15);
        }
        let small = Picture { width: 3, height: 2, len: 3, stride: 0, source_len: 8, source_stride: 5, lists: [1; 3] };
        assert_eq!(of_picture(small), 0);
        assert_eq!(of_picture(Picture { lists: [0; 3], ..small }), 15);
        assert_eq!(of_picture(Picture { source_len: 7, lists: [0; 3], ..small }), 14);
        assert_eq!(of_picture(Picture { source_stride: u64::MAX, ..small }), 14);
        assert_eq!(of_picture(Picture { source_stride: u64::MAX, height: 1, ..small }), 0);
        assert_eq!(of_picture(Picture { len: 2, source_len: 7, ..small }), 9);
        assert_eq!(of_picture(Picture { width: 16384, len: 2, ..small }), 8);
        assert_eq!(of_version(3, of_picture(Picture { width: 0, ..small })), 23);
    }

    // Four frames of 4 by 2, 12 bytes and 12 samples each, with these caps.
    fn window(caps: [u32; 4]) -> Vec<Frame> {
        caps.map(|cap| [4, 2, 0, 8, 10, 4, 2, cap]).to_vec()
    }

    fn refusal(frames: &[Frame], centre: u64) -> (u64, Vec<u64>) {
        of_build(Build { bytes: 12, frames, centre, output: 12, sums: 12, weights: 12 })
    }

    #[test]
    fn a_cap_above_16_is_refused_at_any_frame() {
        assert_eq!(refusal(&window([16, 0, 1, 15]), 0), (0, vec![]));
        for (at, centre) in (0..4).flat_map(|at| (0..4).map(move |centre| (at, centre))) {
            for cap in [17, 272, 65552, 1 << 31, u32::MAX] {
                let mut caps = [16; 4];
                caps[at] = cap;
                assert_eq!(refusal(&window(caps), centre), (29, vec![at as u64]));
            }
        }
        assert_eq!(refusal(&window([16, 17, 16, u32::MAX]), 3), (29, vec![1]));
        assert_eq!(refusal(&window([17; 4])[..1], 0), (29, vec![0]));
    }

    // Each beside a cap of 17 at frame 2: those before 29 speak of any frame first, those after it of none.
    #[test]
    fn a_cap_is_refused_between_4_and_5() {
        let frames = window([16, 16, 17, 16]);
        let with = |at: usize, k: usize, number: u32| {
            let mut frames = frames.clone();
            frames[at][k] = number;
            refusal(&frames, 0)
        };
        assert_eq!(refusal(&frames, 4), (1, vec![]));
        let many: Vec<Frame> = frames.iter().cycle().take(1025).copied().collect();
        assert_eq!(refusal(&many, 0), (2, vec![]));
        assert_eq!(with(0, 0, 16384), (3, vec![16384, 2]));
        for at in 1..4 {
            assert_eq!(with(at, 1, 3), (4, vec![4, 3, 4, 2]));
        }
        for at in 0..4 {
            assert_eq!(with(at, 2, 5), (29, vec![2]));
        }
        let short = Build { bytes: 12, frames: &frames, centre: 0, output: 11, sums: 12, weights: 11 };
        assert_eq!(of_build(short), (29, vec![2]));
        assert_eq!(of_build(Build { frames: &frames[..2], ..short }), (6, vec![]));
        assert_eq!(of_build(Build { frames: &frames[..2], output: 12, ..short }), (7, vec![]));
    }

    // Two macroblocks need 38 comparisons, the 1,048,576 of the largest picture 19,922,944.
    #[test]
    fn an_allowance_is_refused_last() {
        let wide =
            Picture { width: 17, height: 16, len: 272, stride: 17, source_len: 32, source_stride: 1, lists: [2; 3] };
        assert_eq!([0, 37, 38, 39, u32::MAX].map(|allowance| of_picture_within(wide, allowance)), [30, 30, 0, 0, 0]);
        let (side, lists) = (16383, [1 << 20; 3]);
        let (len, stride, source_len, source_stride) = (side, 0, side, 0);
        let large = Picture { width: side, height: side, len, stride, source_len, source_stride, lists };
        assert_eq!([19_922_943, 19_922_944].map(|allowance| of_picture_within(large, allowance)), [30, 0]);
        assert_eq!(of_picture_within(Picture { lists: [2, 1, 2], ..wide }, 37), 15);
        assert_eq!(of_picture_within(Picture { source_len: 31, ..wide }, 37), 14);
        assert_eq!(of_picture_within(Picture { len: 271, ..wide }, 0), 9);
        assert_eq!(of_picture_within(Picture { width: u64::MAX, height: u64::MAX, ..wide }, 0), 8);
        assert_eq!(of_version(3, of_picture_within(wide, 37)), 23);
    }
}
