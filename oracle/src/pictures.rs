//! A picture searched by the originals: their diamond and both refinements, at versions 1 and 2 those of the copy that
//! takes a version, macroblock after macroblock. They have no call that searches a picture, nor one that cuts a
//! macroblock out of its source. For an allowance of comparisons an account is kept beside the single calls.

use crate::counts;
use crate::motion_search::{LumaRef, small_diamond_search_luma};
use crate::motion_vector::Mv;
use crate::paper::search::Allowed;
use crate::versions::{half_pixel_refine_luma, quarter_pixel_refine_luma};

/// Row, column and SAD.
pub type Found = (i16, i16, u32);

/// The source is its bytes and its stride; its size is the reference's. What is found in each macroblock, in raster
/// order, of a picture that is accepted.
pub fn by_single_calls(reference: LumaRef, source: (&[u8], usize), limit: u32, version: u8) -> Vec<Found> {
    let mut found = Vec::new();
    for row in 0..reference.height.div_ceil(16) {
        for col in 0..reference.width.div_ceil(16) {
            found.push(searched(reference, source, (col, row), limit, version));
        }
    }
    found
}

/// The macroblock at a column and row.
pub fn searched(
    reference: LumaRef,
    source: (&[u8], usize),
    (col, row): (usize, usize),
    limit: u32,
    version: u8,
) -> Found {
    let src = cut(source, (reference.width, reference.height), (col, row));
    let whole = small_diamond_search_luma(reference, col, row, &src, Mv::default(), limit);
    refined(reference, (col, row), &src, whole.mv, version)
}

fn refined(reference: LumaRef, mb: (usize, usize), src: &[u8; 256], whole: Mv, version: u8) -> Found {
    let half = half_pixel_refine_luma(reference, mb, src, whole, version);
    let quarter = quarter_pixel_refine_luma(reference, mb, src, half.mv, version);
    (quarter.mv.row, quarter.mv.col, quarter.sad)
}

/// The same within an allowance, of a picture that is accepted with it. The counted copy of the diamond tells its SADs.
pub fn within(reference: LumaRef, source: (&[u8], usize), allowance: u32, version: u8) -> Allowed {
    let size = (reference.width, reference.height);
    by_account(size, allowance, |mb, limit| {
        let src = cut(source, size, mb);
        let whole = counts::diamond(reference, mb.0, mb.1, &src, Mv::default(), limit);
        (refined(reference, mb, &src, whole.answer.mv, version), whole.sads)
    })
}

/// The account of single calls: `single` is told a macroblock's place and its diamond's limit, and answers what it finds
/// and the SADs that the diamond computed. Each refinement takes nine more.
pub fn by_account(
    (width, height): (usize, usize),
    allowance: u32,
    mut single: impl FnMut((usize, usize), u32) -> (Found, u64),
) -> Allowed {
    let (columns, count) = (width.div_ceil(16), width.div_ceil(16) * height.div_ceil(16));
    let refinements = 9 + 9;
    let mut account = Allowed { found: Vec::new(), grants: Vec::new(), comparisons: 0 };
    for i in 0..count {
        let grant = (u64::from(allowance) - account.comparisons) / (count - i) as u64;
        let rounds = (grant - refinements - 1) / 4;
        let (found, sads) = single((i % columns, i / columns), u32::try_from(rounds).expect("a limit of 32 bits"));
        account.found.push(found);
        account.grants.push(grant);
        account.comparisons += sads + refinements;
    }
    account
}

/// A macroblock's samples. Past the right or bottom edge the last column or row again.
pub fn cut((bytes, stride): (&[u8], usize), (width, height): (usize, usize), (col, row): (usize, usize)) -> [u8; 256] {
    let mut block = [0; 256];
    for y in 0..16 {
        let line = (row * 16 + y).min(height - 1) * stride;
        for x in 0..16 {
            block[y * 16 + x] = bytes[line + (col * 16 + x).min(width - 1)];
        }
    }
    block
}

#[cfg(test)]
mod tests {
    use super::*;

    fn searched((width, height): (usize, usize), plane: &[u8], source: &[u8]) -> Vec<(i16, i16, u32)> {
        by_single_calls(LumaRef { plane, stride: width, width, height }, (source, width), 9, 0)
    }

    // Two rows of 17, numbered: the second macroblock sees 16 and, below, 33.
    #[test]
    fn a_cut_block_repeats_its_last_column_and_row() {
        let rows: Vec<u8> = (0..17 * 2).map(|i| i as u8).collect();
        let first = cut((&rows, 17), (17, 2), (0, 0));
        assert_eq!((first[0], first[15], first[16], first[255]), (0, 15, 17, 32));
        let second = cut((&rows, 17), (17, 2), (1, 0));
        assert!(second[..16].iter().all(|&b| b == 16) && second[16..].iter().all(|&b| b == 33));
        // rows of 3 that begin one sample apart
        let near = cut((&rows, 1), (3, 2), (0, 0));
        assert_eq!((near[0], near[2], near[3], near[16], near[255]), (0, 2, 2, 1, 3));
    }

    #[test]
    fn as_many_entries_as_macroblocks() {
        assert_eq!(searched((1, 1), &[7], &[10]), [(0, 0, 3 * 256)]);
        assert_eq!(searched((17, 16), &[50; 272], &[51; 272]), [(0, 0, 256); 2]);
        assert_eq!(searched((16, 17), &[50; 272], &[51; 272]), [(0, 0, 256); 2]);
    }

    // Three macroblocks of 23 comparisons each, of an allowance of 100.
    #[test]
    fn the_account_of_a_flat_picture() {
        let (plane, source) = ([50; 48 * 16], [53; 48 * 16]);
        let reference = LumaRef { plane: &plane, stride: 48, width: 48, height: 16 };
        let account = |allowance| {
            let Allowed { found, grants, comparisons } = within(reference, (&source, 48), allowance, 0);
            assert_eq!(found, [(0, 0, 3 * 256); 3]);
            (grants, comparisons)
        };
        assert_eq!(account(100), (vec![33, 38, 54], 69));
        assert_eq!(account(57), (vec![19; 3], 57));
        assert_eq!(account(61), (vec![20, 21, 23], 61));
    }

    // Each macroblock is searched at its place with the limit that its grant gives, and makes more than the last.
    #[test]
    fn an_account_follows_the_raster_order() {
        let mut told = Vec::new();
        let account = by_account((17, 32), 200, |mb, limit| {
            told.push((mb, limit));
            ((0, 0, 0), 1 + told.len() as u64)
        });
        assert_eq!(told, [((0, 0), 7), ((1, 0), 10), ((0, 1), 15), ((1, 1), 29)]);
        assert_eq!((account.grants, account.comparisons), (vec![50, 60, 79, 137], 86));
    }

    // Six macroblocks, three to a row, that differ from a black reference by 1 to 6.
    #[test]
    fn rows_of_macroblocks_follow_each_other() {
        let source: Vec<u8> = (0..48 * 32).map(|i| (1 + i % 48 / 16 + i / 48 / 16 * 3) as u8).collect();
        let sads = searched((48, 32), &[0; 48 * 32], &source).into_iter().map(|(row, col, sad)| (row, col, sad / 256));
        assert!(sads.eq((1..=6).map(|level| (0, 0, level))));
    }
}
