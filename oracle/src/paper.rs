//! Document 01's rules for the luma prediction and request 10's bilinear filter, read anew; below them those for the
//! searches and for the denoiser. Each answer of the originals that they speak of is held against them before it is
//! written; where the two part, the run stops and says so.

pub mod denoiser;
pub mod search;

use crate::motion_vector::Mv;

const ROWS: [[i64; 6]; 8] = [
    [0, 0, 128, 0, 0, 0],
    [0, -6, 123, 12, -1, 0],
    [2, -11, 108, 36, -8, 1],
    [0, -9, 93, 50, -6, 0],
    [3, -16, 77, 77, -16, 3],
    [0, -6, 50, 93, -9, 0],
    [1, -8, 36, 108, -11, 2],
    [0, -1, 12, 123, -6, 0],
];

pub struct Plane<'a> {
    pub bytes: &'a [u8],
    pub stride: usize,
    pub width: usize,
    pub height: usize,
}

impl Plane<'_> {
    // Samples outside a plane are its nearest edge sample.
    pub fn sample(&self, col: i64, row: i64) -> u8 {
        let col = col.clamp(0, self.width as i64 - 1) as usize;
        let row = row.clamp(0, self.height as i64 - 1) as usize;
        self.bytes[row * self.stride + col]
    }

    // n by n samples from the origin moved by the vector's whole part, less `back` both ways.
    fn square(&self, n: i64, back: i64, x: usize, y: usize, mv: Mv) -> Vec<u8> {
        let left = x as i64 + i64::from(whole(mv.col)) - back;
        let top = y as i64 + i64::from(whole(mv.row)) - back;
        (0..n * n).map(|i| self.sample(left + i % n, top + i / n)).collect()
    }

    pub fn macroblock(&self, x: usize, y: usize, mv: Mv) -> Vec<u8> {
        self.square(16, 0, x, y, mv)
    }

    pub fn halo(&self, x: usize, y: usize, mv: Mv) -> Vec<u8> {
        self.square(21, 2, x, y, mv)
    }
}

/// The doubled component divided by 8, rounded down.
pub fn whole(v: i16) -> i32 {
    i32::from(v).div_euclid(8)
}

/// What remains, 0 to 7.
pub fn fraction(v: i16) -> u32 {
    i32::from(v).rem_euclid(8) as u32
}

/// Twice the component, modulo 65536.
pub fn doubled(v: i16) -> i16 {
    let twice = (i32::from(v) * 2).rem_euclid(65536);
    (if twice < 32768 { twice } else { twice - 65536 }) as i16
}

pub fn filtered(selector: usize, support: [u8; 6]) -> u8 {
    let sum: i64 = (0..6).map(|k| ROWS[selector][k] * i64::from(support[k])).sum();
    (sum + 64).div_euclid(128).clamp(0, 255) as u8
}

/// The horizontal pass over all 21 rows, then the vertical one; both clamp.
pub fn macroblock_filtered(halo: &[u8], mx: usize, my: usize) -> Vec<u8> {
    let across = |r: usize, c: usize| filtered(mx, std::array::from_fn(|k| halo[r * 21 + c + k]));
    let down = |r: usize, c: usize| filtered(my, std::array::from_fn(|k| across(r + k, c)));
    (0..256).map(|i| down(i / 16, i % 16)).collect()
}

/// Row k of the bilinear filter: 128 - 16k of a sample and 16k of the next.
pub fn between(selector: usize, sample: u8, next: u8) -> u8 {
    let taken = 16 * selector as u32;
    (((128 - taken) * u32::from(sample) + taken * u32::from(next) + 64) / 128) as u8
}

/// The horizontal pass, then the vertical one, each rounded. The macroblock begins at row and column 2 of the halo.
pub fn macroblock_bilinear(halo: &[u8], mx: usize, my: usize) -> Vec<u8> {
    let across = |r: usize, c: usize| between(mx, halo[r * 21 + c], halo[r * 21 + c + 1]);
    let down = |r: usize, c: usize| between(my, across(r, c), across(r + 1, c));
    (0..256).map(|i| down(2 + i / 16, 2 + i % 16)).collect()
}

#[cfg(test)]
mod tests {
    use super::*;

    #[test]
    fn bilinear_samples() {
        assert_eq!([0, 1, 4, 7].map(|k| between(k, 0, 255)), [0, 32, 128, 223]);
        assert_eq!([0, 1, 4, 7].map(|k| between(k, 255, 0)), [255, 223, 128, 32]);
        assert_eq!([between(4, 0, 1), between(4, 1, 0), between(3, 0, 1), between(7, 255, 255)], [1, 1, 0, 255]);
    }

    // Rows 0 1 and 2 1, halved both ways: 1 and 2, then 2. The vertical pass first would give 1 and 1, then 1; one
    // rounding for both passes 1.
    #[test]
    fn the_horizontal_pass_is_first_and_rounds() {
        let mut halo = [0; 441];
        (halo[44], halo[45], halo[65], halo[66]) = (0, 1, 2, 1);
        assert_eq!(macroblock_bilinear(&halo, 4, 4)[0], 2);
    }
}
