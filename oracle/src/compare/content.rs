//! Picture bytes by a kind and a seed, the plainest kinds first, so that a small number is a plain picture.

use crate::motion_vector::Mv;
use crate::paper::Plane;
use crate::random::Random;
use std::sync::OnceLock;

/// The kinds of `bytes`, but for the last two, and of `macroblock`.
pub const KINDS: u64 = 10;
pub const SOURCES: u64 = 5;
pub const CUT: u64 = 3;
pub const TEXTURE: u64 = 4;
pub const STEEP: u64 = 8;
pub const TILES: u64 = 9;
pub const SLOPE: u64 = KINDS;
pub const LIT: u64 = KINDS + 1;

const SIDE: usize = 256;

/// So many bytes, read as rows of `pitch`: flat, a gradient, checkers, levels about the denoiser's cut-off in
/// chunks of a row each, a smooth texture, the same with noise, noise of few levels, noise. For the searches also a
/// slope, steep up and down, by rows or by columns, where a candidate is lost after a few rows; and a small tile of
/// noise again and again, where places a period apart tie. Then one even slope from 0 up to 255, by columns or by rows
/// as the seed's lowest bit says, or down to 0 where the next one is set. Last, for packed frames of a row each, one
/// picture in all of them, with a part of U and V raised or lowered.
pub fn bytes(kind: u64, seed: u64, len: usize, pitch: usize) -> Vec<u8> {
    let pitch = pitch.clamp(1, len.max(1));
    let mut random = Random::new(seed);
    let at = |i: usize| (i / pitch, i % pitch);
    match kind {
        0 => vec![seed as u8; len],
        1 => {
            let (down, across) = (random.below(7) as usize, random.below(7) as usize);
            (0..len).map(|i| ((at(i).0 * down + at(i).1 * across) / 2) as u8).collect()
        }
        2 => {
            let (unit, one, other) = (1 + random.below(3) as usize, random.byte(), random.byte());
            let even = |(row, col): (usize, usize)| (row / unit + col / unit).is_multiple_of(2);
            (0..len).map(|i| if even(at(i)) { one } else { other }).collect()
        }
        CUT => cut(len, pitch, &mut random),
        TEXTURE => (0..len).map(|i| texture(at(i), seed)).collect(),
        5 => {
            let mut shaken = |b: u8| b.saturating_add(random.below(13) as u8).saturating_sub(6);
            (0..len).map(|i| shaken(texture(at(i), seed))).collect()
        }
        6 => (0..len).map(|_| 90 + random.below(30) as u8).collect(),
        7 => random.bytes(len),
        STEEP => {
            let (step, down) = (16 + random.below(64) as usize, random.percent(50));
            let height = |(row, col): (usize, usize)| step * (if down { row } else { col }) % 510;
            (0..len).map(|i| height(at(i)).min(510 - height(at(i))) as u8).collect()
        }
        TILES => {
            let [rows, cols] = [0; 2].map(|_| random.pick(&[1, 2, 3, 4, 8]));
            let tile = random.bytes(rows * cols);
            (0..len).map(|i| tile[at(i).0 % rows * cols + at(i).1 % cols]).collect()
        }
        LIT => lit(len, pitch, seed, &mut random),
        _ => {
            let along = |(row, col): (usize, usize)| if seed & 1 == 1 { row } else { col };
            let turned = |level: u8| if seed & 2 == 2 { 255 - level } else { level };
            (0..len).map(|i| turned(along(at(i)).min(255) as u8)).collect()
        }
    }
}

// 100 in the first chunk; then 112, 113, or 113 but for one sample of 112.
fn cut(len: usize, pitch: usize, random: &mut Random) -> Vec<u8> {
    let odd = random.below(pitch as u64) as usize;
    let turn = random.below(3) as usize;
    let level = |i: usize| match (i / pitch, (i / pitch + turn) % 3) {
        (0, _) => 100,
        (_, 0) => 112,
        (_, 1) => 113,
        _ => 113 - u8::from(i % pitch == odd),
    };
    (0..len).map(level).collect()
}

// 100 or a texture in the first chunk, and again in the others; a run in the last third of these, where U and V lie, is
// another by about the denoiser's cut-off, by more, or by nothing.
fn lit(len: usize, pitch: usize, seed: u64, random: &mut Random) -> Vec<u8> {
    let flat = random.percent(40);
    let third = (pitch / 3) as u64 + 1;
    let run = |random: &mut Random| {
        let from = pitch - (1 + random.below(third) as usize).min(pitch);
        let by = random.pick(&[0, 11, 12, 13, 14, 20, 40, -12, -13, -14, -30]);
        (from..from + 1 + random.below(third) as usize, by)
    };
    let runs: Vec<_> = (0..=len / pitch).map(|_| run(random)).collect();
    let level = |i: usize| {
        let (chunk, at) = (i / pitch, i % pitch);
        let base = if flat { 100 } else { texture((at / 32, at % 32), seed) };
        let lit = chunk > 0 && runs[chunk].0.contains(&at);
        if lit { base.saturating_add_signed(runs[chunk].1) } else { base }
    };
    (0..len).map(level).collect()
}

// One sample of a smooth picture that repeats every 256 samples both ways, from a place that the seed says.
fn texture((row, col): (usize, usize), seed: u64) -> u8 {
    static PICTURE: OnceLock<Vec<u8>> = OnceLock::new();
    let picture = PICTURE.get_or_init(|| {
        let noise = Random::new(31).bytes(SIDE * SIDE);
        let at = |r: usize, c: usize| i64::from(noise[r % SIDE * SIDE + c % SIDE]);
        let mean = |r: usize, c: usize| (0..49).map(|k| at(r + k / 7, c + k % 7)).sum::<i64>() / 49;
        let stretched = |v: i64| ((v - 128) * 4 + 128).clamp(0, 255) as u8;
        (0..SIDE * SIDE).map(|i| stretched(mean(i / SIDE, i % SIDE))).collect()
    });
    let (row, col) = (row + seed as usize % SIDE, col + seed as usize / SIDE % SIDE);
    picture[row % SIDE * SIDE + col % SIDE]
}

/// A source macroblock: flat, the plane's samples at a displacement, the same with noise, the mean of two
/// neighbours there, noise. Where there is no plane only the first and the last.
pub fn macroblock(kind: u64, seed: u64, plane: Option<&Plane>, (x, y): (usize, usize), mv: Mv) -> [u8; 256] {
    let mut random = Random::new(seed);
    let flat = [seed as u8; 256];
    match (kind, plane) {
        (0, _) => flat,
        (1..=3, Some(plane)) => {
            let mut near =
                |v: i16| if seed.is_multiple_of(3) { 0 } else { i64::from(v / 4) + random.below(13) as i64 - 6 };
            let (left, top) = (x as i64 + near(mv.col), y as i64 + near(mv.row));
            let at = |i: usize, beside: i64| plane.sample(left + beside + (i % 16) as i64, top + (i / 16) as i64);
            let mean = |i: usize| ((u16::from(at(i, 0)) + u16::from(at(i, 1))) / 2) as u8;
            match kind {
                1 => std::array::from_fn(|i| at(i, 0)),
                2 => std::array::from_fn(|i| at(i, 0).saturating_add(random.below(9) as u8)),
                _ => std::array::from_fn(mean),
            }
        }
        _ => std::array::from_fn(|_| random.byte()),
    }
}
