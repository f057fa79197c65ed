//! Writes a sample clip to standard output, as raw I420 frames of 64 by 48: `moving`, 5 noisy frames of a texture that
//! moves by (-2, -1) samples a frame, left and up; or `lamp`, 3 frames of a texture whose left half is still and whose
//! right half moves by one sample a frame to the left, with noise but in one block of the left half, whose U is 40 more
//! in the last frame. Whole numbers only, so that every machine writes the same bytes.

use std::io::Write;

const WIDTH: i64 = 64;
const HEIGHT: i64 = 48;

// The lamp's block, by its column and row in the grid.
const LAMP: (i64, i64) = (1, 2);

fn main() {
    let bytes = match std::env::args().nth(1).as_deref() {
        Some("moving") => moving(),
        Some("lamp") => lamp(),
        _ => panic!("expected moving or lamp"),
    };
    std::io::stdout().write_all(&bytes).expect("standard output takes the clip");
}

fn moving() -> Vec<u8> {
    let mut noise = Noise(1);
    let mut bytes = Vec::new();
    for g in 0..5 {
        for (y, x) in places(WIDTH, HEIGHT) {
            bytes.push((texture(x + 2 * g, y + g, 1) + noise.within(6)).clamp(0, 255) as u8);
        }
        for plane in 2..4 {
            for (y, x) in places(WIDTH / 2, HEIGHT / 2) {
                bytes.push((96 + texture(x + g, y + g / 2, plane) / 4 + noise.within(3)).clamp(0, 255) as u8);
            }
        }
    }
    bytes
}

fn lamp() -> Vec<u8> {
    let mut noise = Noise(9);
    let mut bytes = Vec::new();
    for g in 0..3 {
        let seen = |x: i64| if x < WIDTH / 2 { x } else { x + g };
        for (y, x) in places(WIDTH, HEIGHT) {
            let added = if (x / 16, y / 16) == LAMP { 0 } else { noise.within(4) };
            bytes.push((texture(seen(x), y, 1) + added).clamp(0, 255) as u8);
        }
        for plane in 2..4 {
            for (y, x) in places(WIDTH / 2, HEIGHT / 2) {
                let lit = if (g, plane) == (2, 2) { 40 } else { 0 };
                let added = if (x / 8, y / 8) == LAMP { lit } else { noise.within(3) };
                bytes.push((96 + texture(seen(2 * x), 2 * y, plane) / 4 + added).clamp(0, 255) as u8);
            }
        }
    }
    bytes
}

fn places(width: i64, height: i64) -> impl Iterator<Item = (i64, i64)> {
    (0..width * height).map(move |i| (i / width, i % width))
}

// Levels at every eighth sample both ways, and straight lines between them.
fn texture(x: i64, y: i64, plane: i64) -> i64 {
    let level = |col: i64, row: i64| {
        let mixed = (col * 73_856_093) ^ (row * 19_349_663) ^ (plane * 83_492_791);
        40 + (mixed.wrapping_mul(2_654_435_761) >> 16).rem_euclid(176)
    };
    let (col, row, right, down) = (x / 8, y / 8, x % 8, y % 8);
    let above = level(col, row) * (8 - right) + level(col + 1, row) * right;
    let below = level(col, row + 1) * (8 - right) + level(col + 1, row + 1) * right;
    (above * (8 - down) + below * down) / 64
}

struct Noise(u64);

impl Noise {
    fn within(&mut self, reach: i64) -> i64 {
        self.0 = self.0.wrapping_mul(6_364_136_223_846_793_005).wrapping_add(1_442_695_040_888_963_407);
        ((self.0 >> 33) % (2 * reach as u64 + 1)) as i64 - reach
    }
}
