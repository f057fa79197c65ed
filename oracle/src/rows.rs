//! How many rows the searches measure, beside those of whole SADs. The library's searches do not tell, so the second
//! implementation searches in their place, each candidate measured up to the ceiling that they pass; a macroblock is
//! measured by the library's own SAD with a ceiling. What is found has to be what the library's searches find.

use crate::model::{self, Luma};
use crate::motion_vector::Mv;
use crate::paper::Plane;
use crate::paper::denoiser::{Block, Window, block_search};
use crate::paper::search::{diamond, predicted, refine, sad_up_to};
use crate::refusals::packed_size;
use std::fmt;

/// Rows measured, and those of whole SADs; the passes of the filter, one for each component with a fraction.
#[derive(Debug, Clone, Copy, Default, PartialEq, Eq)]
pub struct Rows {
    measured: u64,
    whole: u64,
    pub passes: u64,
}

impl Rows {
    fn add(&mut self, measured: u32, whole: usize) {
        self.measured += u64::from(measured);
        self.whole += whole as u64;
    }
}

impl fmt::Display for Rows {
    fn fmt(&self, f: &mut fmt::Formatter) -> fmt::Result {
        let Rows { measured, whole, .. } = self;
        write!(f, "{measured} of {whole} ({} in 100)", (measured * 100 + whole / 2) / whole)
    }
}

/// A macroblock's place in its picture and its samples.
pub type Source = ((usize, usize), [u8; 256]);

/// Adds those of the diamond from (0, 0) on and of both refinements after it, at version 0.
pub fn add_searches([whole, half, quarter]: &mut [Rows; 3], luma: Luma, (mb, src): &Source, limit: u32) {
    let Luma { plane: bytes, stride, width, height } = luma;
    let plane = Plane { bytes, stride, width, height };
    let measured = |rows: &mut Rows, mv: Mv, ceiling: u32| {
        let block = predicted(&plane, *mb, mv, 0);
        let got = model::block_sad_16x16_up_to(src, block[..].try_into().expect("256 samples"), ceiling);
        rows.add(got.rows, 16);
        rows.passes += [mv.row, mv.col].iter().filter(|&component| component % 4 != 0).count() as u64;
        got.sad
    };
    let found = diamond(|mv, ceiling| measured(whole, mv, ceiling), Mv::default(), limit);
    let d = model::small_diamond_search_luma(luma, *mb, src, Mv::default(), limit);
    let (mv, counts) = (Mv { row: d.row, col: d.col }, (d.sads.into(), d.rounds.into()));
    assert_eq!((found.mv, found.sad, (found.sads, found.rounds)), (mv, d.sad, counts), "the diamond");
    let found = refine(|mv, ceiling| measured(half, mv, ceiling), 2, mv);
    let h = model::half_pixel_refine_luma(luma, *mb, src, mv, 0);
    let mv = Mv { row: h.row, col: h.col };
    assert_eq!(found, (mv, h.sad), "the half refinement");
    let found = refine(|mv, ceiling| measured(quarter, mv, ceiling), 1, mv);
    let q = model::quarter_pixel_refine_luma(luma, *mb, src, mv, 0);
    assert_eq!(found, (Mv { row: q.row, col: q.col }, q.sad), "the quarter refinement");
}

/// Those of the block search over all blocks and other frames of a window that the builder accepts.
pub fn of_window(window: &Window) -> Rows {
    let (mut rows, mut accepted) = (Rows::default(), 0);
    let [centre, ..] = window.planes(window.centre);
    let blocks = centre.width.div_ceil(16) * centre.height.div_ceil(16);
    for g in (0..window.frames.len()).filter(|&g| g != window.centre) {
        let [other, ..] = window.planes(g);
        for block in (0..blocks).map(|index| Block::of(&centre, index)) {
            let source = block.samples(&centre, (0, 0));
            let (_, last) = block_search(|shift, ceiling| {
                let (sad, measured) = sad_up_to(&source, &block.samples(&other, shift), block.columns, ceiling);
                rows.add(measured, block.rows);
                sad
            });
            accepted += u32::from(block.accepts(last));
        }
    }
    assert_eq!(accepted, built(window).accepted, "the blocks accepted");
    rows
}

fn built(window: &Window) -> model::Build {
    let Window { bytes, frames, centre, strength } = *window;
    let samples = packed_size(frames[centre][0].into(), frames[centre][1].into()) as usize;
    let (mut output, mut sums, mut weights) = (vec![0; samples], vec![0; samples], vec![0; samples]);
    let lent = model::Lent { output: &mut output, sums: &mut sums, weights: &mut weights };
    model::build_from_numbers(bytes, &frames.concat(), centre, strength, lent)
}
