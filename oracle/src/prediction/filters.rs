//! Cases of `sixtap_mb_luma`, `interp` and `bilinear_mb_luma`. The original has one call for both filters of a macroblock,
//! which is handed the rows.

use crate::motion_comp::{BILINEAR_FILTERS, SIXTAP_FILTERS, interp, sixtap_mb_luma};
use crate::random::Random;
use crate::records::Records;
use crate::{paper, refusals};

pub fn add(records: &mut Records) {
    for halo in halos() {
        for pair in 0..64 {
            add_macroblock(records, &halo, pair / 8, pair % 8);
        }
    }
    for (mx, my) in [(8, 0), (0, 8), (8, 8), (255, 3), (3, 256), (u32::MAX, 0), (7, u32::MAX)] {
        add_macroblock(records, &halos()[0], mx, my);
    }
    for support in supports() {
        for selector in 0..8 {
            add_sample(records, selector, support);
        }
    }
    for selector in [8, 9, 255, 256, 1 << 31, u32::MAX] {
        add_sample(records, selector, [0, 0, 255, 255, 0, 0]);
        add_sample(records, selector, [0; 6]);
    }
}

/// The bilinear filter: every pair of selectors on each halo, and the selectors that are refused.
pub fn add_bilinear(records: &mut Records) {
    for support in supports() {
        for (row, taps) in BILINEAR_FILTERS.iter().enumerate() {
            let sample = paper::between(row, support[2], support[3]);
            assert_eq!(interp(taps, &support), sample, "bilinear row {row} at {support:?}");
        }
    }
    let halos = bilinear_halos();
    for halo in &halos {
        for pair in 0..64 {
            add_blended(records, halo, pair / 8, pair % 8);
        }
    }
    let refused = [8, 9, 255, 256, 1 << 31, u32::MAX];
    for (i, beyond) in refused.into_iter().enumerate() {
        let other = refused[(i + 1) % 6];
        for (mx, my) in [(beyond, 0), (0, beyond), (beyond, 7), (3, beyond), (beyond, other)] {
            add_blended(records, &halos[i % 2], mx, my);
        }
    }
}

fn add_blended(records: &mut Records, halo: &[u8; 441], mx: u32, my: u32) {
    let refusal = refusals::of_selectors(&[mx, my]);
    let mut block = [0; 256];
    if refusal == 0 {
        let (mx, my) = (mx as usize, my as usize);
        block = sixtap_mb_luma(halo, mx, my, &BILINEAR_FILTERS);
        assert_eq!(block[..], paper::macroblock_bilinear(halo, mx, my), "bilinear at {mx}, {my}");
    }
    records.add(11, refusal, &[mx.into(), my.into()], &[halo, &block]);
}

fn add_macroblock(records: &mut Records, halo: &[u8; 441], mx: u32, my: u32) {
    let refusal = refusals::of_selectors(&[mx, my]);
    let mut block = [0; 256];
    if refusal == 0 {
        let (mx, my) = (mx as usize, my as usize);
        block = sixtap_mb_luma(halo, mx, my, &SIXTAP_FILTERS);
        assert_eq!(block[..], paper::macroblock_filtered(halo, mx, my), "sixtap_mb_luma at {mx}, {my}");
    }
    records.add(3, refusal, &[mx.into(), my.into()], &[halo, &block]);
}

fn add_sample(records: &mut Records, selector: u32, support: [u8; 6]) {
    let refusal = refusals::of_selectors(&[selector]);
    let mut sample = 0;
    if refusal == 0 {
        let row = selector as usize;
        sample = interp(&SIXTAP_FILTERS[row], &support);
        assert_eq!(sample, paper::filtered(row, support), "interp of row {row} at {support:?}");
    }
    let packed = support.iter().rev().fold(0, |sum, &b| sum * 256 + u64::from(b));
    records.add(4, refusal, &[selector.into(), packed, sample.into()], &[]);
}

// Halos that clamp in the first pass, in the second and in neither.
fn halos() -> Vec<[u8; 441]> {
    let mut random = Random::new(2);
    let by = |f: &dyn Fn(usize, usize) -> bool| -> [u8; 441] {
        std::array::from_fn(|i| if f(i / 21, i % 21) { 255 } else { 0 })
    };
    vec![
        by(&|r, c| (r + c) % 2 == 0),
        by(&|r, c| (r / 2 + c / 2) % 2 == 0),
        by(&|r, c| (r / 3) % 2 == 0 && (c / 2) % 2 == 0),
        by(&|r, c| r == 10 || c == 9),
        std::array::from_fn(|i| (i / 21 * 5 + i % 21 * 7) as u8),
        std::array::from_fn(|_| random.byte()),
        std::array::from_fn(|_| if random.byte() < 128 { 0 } else { 255 }),
    ]
}

// Of those halos checkers and noise; black, white, a hill, and noise of few levels.
fn bilinear_halos() -> Vec<[u8; 441]> {
    let mut random = Random::new(16);
    let hill = |i: usize| {
        let (r, c) = (i / 21, i % 21);
        (30 + r * (20 - r) + c * (20 - c)) as u8
    };
    let mut all = [0, 1, 5, 6].map(|k| halos()[k]).to_vec();
    all.extend([[0; 441], [255; 441], std::array::from_fn(hill)]);
    all.push(std::array::from_fn(|_| random.below(4) as u8));
    all
}

// The starred supports, every support of 0 and 255, and random ones.
fn supports() -> Vec<[u8; 6]> {
    let mut random = Random::new(3);
    let mut all = vec![[0, 0, 255, 255, 0, 0], [0, 255, 0, 0, 255, 0], [10, 20, 30, 40, 50, 60]];
    for bits in 0..64 {
        all.push(std::array::from_fn(|k| if bits >> k & 1 == 1 { 255 } else { 0 }));
    }
    for _ in 0..32 {
        all.push(std::array::from_fn(|_| random.byte()));
    }
    all
}
