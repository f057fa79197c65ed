//! Document 01's rules for the luma searches, request 4's for a SAD with a ceiling, request 10's for a version, request
//! 1's for all macroblocks of a picture and request 14's for an allowance of comparisons.

use super::{Plane, doubled, fraction, macroblock_bilinear, macroblock_filtered};
use crate::motion_vector::Mv;
use crate::refusals::{Picture, of_picture, of_picture_within, of_version};

/// What no SAD reaches; a search measures its start up to it.
pub const NO_CEILING: u32 = 65281;

/// A vector, its SAD, the SADs computed, the first included, and the rounds made.
#[derive(Debug, PartialEq, Eq)]
pub struct Found {
    pub mv: Mv,
    pub sad: u32,
    pub sads: u64,
    pub rounds: u64,
}

pub fn sad(a: &[u8], b: &[u8]) -> u32 {
    a.iter().zip(b).map(|(&a, &b)| u32::from(a.max(b) - a.min(b))).sum()
}

/// A SAD up to a ceiling, over rows of so many samples. The sum is tested after each row; the row that takes it to the
/// ceiling or past it is the last. The ceiling then, or else the whole sum, and the rows measured.
pub fn sad_up_to(a: &[u8], b: &[u8], columns: usize, ceiling: u32) -> (u32, u32) {
    let (mut sum, mut rows) = (0, 0);
    for (a, b) in a.chunks(columns).zip(b.chunks(columns)) {
        sum += sad(a, b);
        rows += 1;
        if sum >= ceiling {
            return (ceiling, rows);
        }
    }
    (sum, rows)
}

/// The prediction of a macroblock at a vector in quarter pixels: six-tap at version 0, bilinear at 1 and 2.
pub fn predicted(plane: &Plane, (col, row): (usize, usize), mv: Mv, version: u8) -> Vec<u8> {
    let eighths = Mv { row: doubled(mv.row), col: doubled(mv.col) };
    let (mx, my) = (fraction(eighths.col) as usize, fraction(eighths.row) as usize);
    let (x, y) = (col * 16, row * 16);
    if mx == 0 && my == 0 {
        return plane.macroblock(x, y, eighths);
    }
    let halo = plane.halo(x, y, eighths);
    match version {
        0 => macroblock_filtered(&halo, mx, my),
        1 | 2 => macroblock_bilinear(&halo, mx, my),
        _ => panic!("version {version} is refused"),
    }
}

// Clamped first, then cut toward zero to a multiple of 4.
fn gridded(v: i32) -> i16 {
    let v = v.clamp(-1023, 1023);
    (v - v % 4) as i16
}

fn moved(mv: Mv, rows: i32, cols: i32) -> Mv {
    Mv { row: gridded(i32::from(mv.row) + rows), col: gridded(i32::from(mv.col) + cols) }
}

/// The small diamond over any cost. The cost is told a vector and its ceiling; what is found is the same whether it
/// answers the whole SAD or the lesser of the two.
pub fn diamond(mut cost: impl FnMut(Mv, u32) -> u32, centre: Mv, limit: u32) -> Found {
    let start = moved(centre, 0, 0);
    let mut best = Found { mv: start, sad: cost(start, NO_CEILING), sads: 1, rounds: 0 };
    while best.rounds < u64::from(limit) {
        let before = best.mv;
        for (rows, cols) in [(-4, 0), (4, 0), (0, -4), (0, 4)] {
            let mv = moved(best.mv, rows, cols);
            if mv != best.mv {
                let sad = cost(mv, best.sad);
                best.sads += 1;
                if sad < best.sad {
                    best = Found { mv, sad, ..best };
                }
            }
        }
        best.rounds += 1;
        if best.mv == before {
            break;
        }
    }
    best
}

/// The centre, then its eight neighbours at a step in raster order; ties keep the earlier. The cost as for the diamond.
pub fn refine(mut cost: impl FnMut(Mv, u32) -> u32, step: i16, centre: Mv) -> (Mv, u32) {
    let mut best = (centre, cost(centre, NO_CEILING));
    for (row, col) in (0..9).filter(|k| *k != 4).map(|k| (k / 3 * step - step, k % 3 * step - step)) {
        let mv = Mv { row: centre.row + row, col: centre.col + col };
        let sad = cost(mv, best.1);
        if sad < best.1 {
            best = (mv, sad);
        }
    }
    best
}

/// What a whole-picture search is given; of the lent lists only their lengths.
pub struct PictureCall<'a> {
    pub plane: &'a [u8],
    pub stride: u64,
    pub width: u64,
    pub height: u64,
    pub source: &'a [u8],
    pub source_stride: u64,
    pub version: u8,
    pub lists: [usize; 3],
}

impl PictureCall<'_> {
    fn sizes(&self) -> Picture {
        let PictureCall { stride, width, height, source_stride, .. } = *self;
        let (len, source_len) = (self.plane.len() as u64, self.source.len() as u64);
        Picture { width, height, len, stride, source_len, source_stride, lists: self.lists.map(|n| n as u64) }
    }

    fn count(&self) -> u64 {
        let (columns, rows) = self.sizes().macroblocks();
        columns * rows
    }

    fn plane_of<'a>(&self, bytes: &'a [u8], stride: u64) -> Plane<'a> {
        Plane { bytes, stride: stride as usize, width: self.width as usize, height: self.height as usize }
    }

    // Macroblock i: the diamond from (0, 0), around its vector the half refinement, around that one's the quarter one.
    // What is found, and the SADs computed.
    fn searched(&self, i: u64, limit: u32) -> (Entry, u64) {
        let (reference, source) =
            (self.plane_of(self.plane, self.stride), self.plane_of(self.source, self.source_stride));
        let columns = self.sizes().macroblocks().0;
        let mb = ((i % columns) as usize, (i / columns) as usize);
        let block = source.macroblock(mb.0 * 16, mb.1 * 16, Mv::default());
        let mut computed = 0;
        let mut cost = |mv: Mv, _| {
            computed += 1;
            sad(&block, &predicted(&reference, mb, mv, self.version))
        };
        let whole = diamond(&mut cost, Mv::default(), limit).mv;
        let (half, _) = refine(&mut cost, 2, whole);
        let (quarter, least) = refine(&mut cost, 1, half);
        ((quarter.row, quarter.col, least), computed)
    }
}

/// Row, column and SAD of a macroblock.
pub type Entry = (i16, i16, u32);

/// What is found in each macroblock, or the number of the first refusal.
pub fn search_picture(call: &PictureCall, limit: u32) -> Result<Vec<Entry>, u32> {
    accepted(call.version, of_picture(call.sizes()))?;
    Ok((0..call.count()).map(|i| call.searched(i, limit).0).collect())
}

fn accepted(version: u8, other: u64) -> Result<(), u32> {
    match of_version(version, other) {
        0 => Ok(()),
        refusal => Err(refusal as u32),
    }
}

/// What is found in each macroblock and what it was granted, and the comparisons made for all.
#[derive(Debug, PartialEq, Eq)]
pub struct Allowed {
    pub found: Vec<Entry>,
    pub grants: Vec<u64>,
    pub comparisons: u64,
}

/// The same within an allowance: the rounds of each diamond are those that its macroblock's grant has room for.
pub fn search_picture_within(call: &PictureCall, allowance: u32) -> Result<Allowed, u32> {
    accepted(call.version, of_picture_within(call.sizes(), allowance))?;
    let mut found = Vec::new();
    let (grants, comparisons) = shared_out(allowance, call.count(), |i, grant| {
        let (entry, computed) = call.searched(i, rounds_within(grant));
        found.push(entry);
        computed
    });
    Ok(Allowed { found, grants, comparisons })
}

/// Each macroblock is granted what remains divided by the macroblocks left, itself included, rounded down. `made` is told
/// a macroblock and its grant, and answers the comparisons made for it. All grants, and the comparisons made.
pub fn shared_out(allowance: u32, macroblocks: u64, mut made: impl FnMut(u64, u64) -> u64) -> (Vec<u64>, u64) {
    let (mut grants, mut remains) = (Vec::new(), u64::from(allowance));
    for i in 0..macroblocks {
        let grant = remains / (macroblocks - i);
        remains -= made(i, grant);
        grants.push(grant);
    }
    (grants, u64::from(allowance) - remains)
}

/// A diamond's start and nine SADs of each refinement take 19 of a grant, a round at most 4.
pub fn rounds_within(grant: u64) -> u32 {
    ((grant - 19) / 4) as u32
}

#[cfg(test)]
mod tests {
    use super::*;

    fn call<'a>((width, height): (u64, u64), plane: &'a [u8], source: &'a [u8], lists: [usize; 3]) -> PictureCall<'a> {
        let (stride, source_stride) = (width, width);
        PictureCall { plane, stride, width, height, source, source_stride, version: 0, lists }
    }

    // One sample is repeated all over both macroblocks.
    #[test]
    fn one_sample_is_one_macroblock() {
        let found = search_picture(&call((1, 1), &[7], &[10], [1, 2, 3]), 9);
        assert_eq!(found, Ok(vec![(0, 0, 3 * 256)]));
        assert_eq!(search_picture(&call((1, 1), &[7], &[], [1; 3]), 9), Err(14));
        assert_eq!(search_picture(&call((1, 1), &[7], &[10], [1, 1, 0]), 9), Err(15));
        assert_eq!(search_picture(&call((1, 1), &[], &[], [0; 3]), 9), Err(9));
        assert_eq!(search_picture(&call((0, 1), &[], &[], [0; 3]), 9), Err(8));
        assert_eq!(search_picture(&PictureCall { version: 3, ..call((0, 1), &[], &[], [0; 3]) }, 9), Err(23));
    }

    // Flat but for the column 16, which is all that the second macroblock sees of the source.
    #[test]
    fn a_cut_block_repeats_its_last_column() {
        let plane = [50; 17 * 16];
        let mut source = plane;
        (0..16).for_each(|row| source[row * 17 + 16] = 53);
        let found = search_picture(&call((17, 16), &plane, &source, [2; 3]), 9);
        assert_eq!(found, Ok(vec![(0, 0, 0), (0, 0, 3 * 256)]));
    }

    // Four macroblocks that differ from a black reference by 1, 2, 3 and 4.
    #[test]
    fn rows_of_macroblocks_follow_each_other() {
        let source: Vec<u8> = (0..32 * 32).map(|i| (1 + i % 32 / 16 + i / 32 / 16 * 2) as u8).collect();
        let found = search_picture(&call((32, 32), &[0; 32 * 32], &source, [4; 3]), 9);
        assert_eq!(found, Ok([1, 2, 3, 4].map(|level| (0, 0, level * 256)).to_vec()));
    }

    // A slope of 4 a column; the source shows what lies 2 columns to the right, or half a column. Neighbours above,
    // beside and below tie, and the refinements keep the one above.
    #[test]
    fn a_slope_is_followed_at_every_version() {
        let slope = |ahead: usize| -> Vec<u8> { (0..48 * 16).map(|i| (i % 48 * 4 + ahead) as u8).collect() };
        let (plane, two, half) = (slope(0), slope(8), slope(2));
        for version in 0..3 {
            let found = |source, limit| {
                let call = PictureCall { version, ..call((48, 16), &plane, source, [3; 3]) };
                search_picture(&call, limit).expect("an accepted picture")[1]
            };
            assert_eq!(found(&two, 9), (0, 8, 0));
            assert_eq!(found(&two, 1), (-3, 7, 256));
            assert_eq!(found(&two, 0), (-3, 3, 5 * 256));
            assert_eq!(found(&half, 9), (-2, 2, 0));
        }
    }

    // 100 comparisons for three macroblocks that make 23 each: 100 / 3, 77 / 2 and 54, of which 31 are left.
    #[test]
    fn what_is_left_is_shared_out_again() {
        assert_eq!(shared_out(100, 3, |_, _| 23), (vec![33, 38, 54], 69));
        assert_eq!([33, 38, 54].map(rounds_within), [3, 4, 8]);
        assert_eq!(shared_out(57, 3, |_, grant| grant), (vec![19; 3], 57));
        assert_eq!(shared_out(u32::MAX, 1, |_, _| 19), (vec![u32::MAX.into()], 19));
    }

    #[test]
    fn rounds_that_a_grant_has_room_for() {
        assert_eq!([19, 22, 23, 26, 27].map(rounds_within), [0, 0, 1, 1, 2]);
        assert_eq!(rounds_within(u32::MAX.into()), 1_073_741_819);
    }

    // Of flat pictures every diamond stops after a round of four, where it has one.
    #[test]
    fn flat_macroblocks_leave_what_they_do_not_use() {
        let (plane, source) = ([50; 48 * 16], [53; 48 * 16]);
        let flat = call((48, 16), &plane, &source, [3; 3]);
        let found = vec![(0, 0, 3 * 256); 3];
        for (allowance, grants, comparisons) in [(100, [33, 38, 54], 69), (57, [19; 3], 57), (61, [20, 21, 23], 61)] {
            let wanted = Allowed { found: found.clone(), grants: grants.to_vec(), comparisons };
            assert_eq!(search_picture_within(&flat, allowance), Ok(wanted));
        }
        assert_eq!(search_picture_within(&flat, 56), Err(30));
        assert_eq!(search_picture_within(&PictureCall { lists: [3, 3, 2], ..flat }, 56), Err(15));
    }

    // One macroblock of the slope above: two rounds that move it, and a third that finds nothing better.
    #[test]
    fn a_walk_is_cut_by_its_allowance() {
        let plane: Vec<u8> = (0..16 * 16).map(|i| (i % 16 * 4) as u8).collect();
        let source: Vec<u8> = (0..16 * 16).map(|i| ((i % 16 + 2).min(15) * 4) as u8).collect();
        let slope = call((16, 16), &plane, &source, [1; 3]);
        for (allowance, limit, comparisons) in
            [(19, 0, 19), (22, 0, 19), (23, 1, 23), (27, 2, 27), (31, 3, 31), (99, 20, 31)]
        {
            let got = search_picture_within(&slope, allowance).expect("an accepted picture");
            assert_eq!((Ok(got.found), got.comparisons), (search_picture(&slope, limit), comparisons), "{allowance}");
        }
    }

    // Rows of two samples with the sums 3, 0 and 5.
    #[test]
    fn a_ceiling_ends_with_the_row_that_reaches_it() {
        let measured = |ceiling| sad_up_to(&[1, 2, 7, 7, 0, 9], &[0, 4, 7, 7, 5, 9], 2, ceiling);
        assert_eq!([0, 1, 3].map(measured), [(0, 1), (1, 1), (3, 1)]);
        assert_eq!([4, 8].map(measured), [(4, 3), (8, 3)]);
        assert_eq!([9, u32::MAX].map(measured), [(8, 3), (8, 3)]);
    }
}
