//! Cases of the SAD with a ceiling: pairs of macroblocks, each measured up to the ceilings at which value or rows turn.

use super::samples::{
    BLACK, FALL, FLAT, MOVED_SOURCES, NOISE, RAMP_SOURCES, RISE, ROW_TURNED, ROWS, SEARCHED, SMOOTH, SOURCES, WHITE,
};
use super::{Writer, original};
use crate::paper::search::sad_up_to;
use crate::random::Random;

pub fn add(writer: &mut Writer) {
    let one_row = (0..ROWS.len()).map(|k| (NOISE, ROW_TURNED + 256 * k));
    // of the two, one is flat but for its first sample, or but for its last
    let flat = [(FLAT - 1, FLAT), (FLAT, BLACK - 255)];
    let equal = [(FLAT, FLAT), (NOISE, NOISE), (SOURCES, SOURCES)];
    let far = [(BLACK, WHITE), (WHITE, BLACK), (RISE, FALL), (FALL, RISE), (BLACK, RISE)];
    let near = [(SMOOTH, SMOOTH + 1), (MOVED_SOURCES, MOVED_SOURCES + 256), (RAMP_SOURCES, FLAT)];
    let mut random = Random::new(14);
    let mut any = || random.below((SEARCHED - 255) as u64) as usize;
    let drawn: Vec<(usize, usize)> = (0..4).map(|_| (any(), any())).collect();
    for (a, b) in one_row.chain(flat).chain(equal).chain(far).chain(near).chain(drawn) {
        writer.block_sads_up_to(a, b);
    }
}

impl Writer<'_> {
    // The original's SADs of the first row, of the first two, and so on: the rows after them are made alike.
    fn sums(&self, a: usize, b: usize) -> [u32; 16] {
        let (one, other) = (self.block(a), self.block(b));
        std::array::from_fn(|last| {
            let alike = [&other[..16 * last + 16], &one[16 * last + 16..]].concat();
            original::block_sad_16x16(alike[..].try_into().expect("256 samples"), one)
        })
    }

    // One case for each ceiling. What the second implementation gives has to follow from the original's sums too.
    fn block_sads_up_to(&mut self, a: usize, b: usize) {
        let sums = self.sums(a, b);
        for ceiling in ceilings(&sums) {
            let (value, rows) = sad_up_to(self.block(b), self.block(a), 16, ceiling);
            let last = sums.iter().position(|&sum| sum >= ceiling).unwrap_or(15);
            assert_eq!((value, rows as usize), (sums[15].min(ceiling), last + 1), "{a}, {b} up to {ceiling}");
            let mut numbers = [0; 14];
            (numbers[0], numbers[7], numbers[9]) = (a as u64, b as u64, ceiling.into());
            (numbers[10], numbers[12]) = (value.into(), rows.into());
            self.records.add(7, 0, &numbers, &[]);
        }
    }
}

// 0, 1, each sum and its neighbours, the largest SAD, what no SAD reaches, the largest number; each once.
fn ceilings(sums: &[u32; 16]) -> Vec<u32> {
    let mut all = vec![0, 1, 65280, 65281, u32::MAX];
    all.extend(sums.iter().flat_map(|&sum| [sum.saturating_sub(1), sum, sum + 1]));
    all.sort();
    all.dedup();
    all
}
