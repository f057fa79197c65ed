//! Cases at the edge of each refusal, 1 to 7 and 29, and with several at once.

use super::pictures::{LEN, capped, frame, noise, texture};
use super::{Case, Frame, Writer};

pub fn add(writer: &mut Writer) {
    add_centres(writer);
    add_counts(writer);
    add_sizes(writer);
    add_other_sizes(writer);
    add_planes(writer);
    add_lent(writer);
    add_caps(writer);
    add_caps_beside(writer);
    add_together(writer);
}

fn three(size: (u32, u32)) -> Vec<Frame> {
    (0..3).map(|g| texture(size, (g, 2 * g), g == 1)).collect()
}

// The window, whatever its centre, with slices of 40 entries.
fn case(frames: &[Frame], centre: u64, strength: u8) -> Case {
    Case { lent: [40; 3], ..Case::new(5, frames, centre, strength) }
}

// 1: the centre index at and past the frame count.
fn add_centres(writer: &mut Writer) {
    for centre in [2, 3, 4, 1 << 32, (1 << 32) + 1, u64::MAX] {
        writer.put(&case(&three((5, 4)), centre, 3));
        writer.put(&Case { given: 3 * 8 - 1, ..case(&three((5, 4)), centre, 0) });
    }
}

// 2: 1025 frames and more numbers; 1024 and seven numbers are accepted.
fn add_counts(writer: &mut Writer) {
    for given in [1024 * 8, 1025 * 8 - 1, 1025 * 8, 1025 * 8 + 7] {
        for (centre, strength) in [(0, 3), (1023, 0), (1024, 3), (1025, 3)] {
            writer.put(&Case { given, ..case(&three((3, 3)), centre, strength) });
        }
    }
}

// 3: the centre's width or height 0 or above 16383; both are returned. 16383 by 1 is legal.
fn add_sizes(writer: &mut Writer) {
    for (k, side) in [0, 16384, 65536, 65537, u32::MAX].into_iter().enumerate() {
        for size in [(side, 1), (1, side), (side, side), (side, 16383), (0, side)] {
            let frame = frame(size, [0; 3], (0, 0));
            let strength = [0, 3][k % 2];
            writer.put(&case(&[frame], 0, strength));
            writer.put(&case(&[noise((4, 4), 1), frame, noise((4, 4), 2)], 1, strength));
        }
    }
    for size in [(16383, 1), (1, 16383)] {
        let frame = frame(size, [0; 3], (1, 1));
        writer.put(&case(&[frame, frame], 0, 1));
    }
}

// 4: another frame's size, before and after the centre, the first of several; also a size that is not legal.
fn add_other_sizes(writer: &mut Writer) {
    let sizes = [(5, 3), (4, 4), (3, 5), (0, 4), (5, 0), (16384, 4), (u32::MAX, u32::MAX), (4, 5)];
    for (k, size) in sizes.into_iter().enumerate() {
        for at in 0..3 {
            for centre in 0..3 {
                let mut frames = three((5, 4));
                frames[at] = noise((2, 2), k);
                frames[at][..2].copy_from_slice(&[size.0, size.1]);
                if k % 2 == 1 && at < 2 {
                    frames[2] = noise((9, 9), 1);
                }
                writer.put(&case(&frames, centre, k as u8 % 4));
            }
        }
    }
}

// 5: each plane of each frame exactly at the end of the bytes and one byte beyond; sums that pass 2^32; the
// first of several frames.
fn add_planes(writer: &mut Writer) {
    let size = (5, 4);
    for plane in 2..5 {
        for at in 0..3 {
            for over in [0, 1] {
                let mut frames = three(size);
                let (columns, rows) = if plane == 2 { (5, 4) } else { (3, 2) };
                let end = frames[at][plane] as usize + (rows - 1) * 160 + columns;
                let lowest = frames.iter().flat_map(|f| f[2..5].iter()).max().unwrap() + 4 * 160;
                let shift = lowest as usize - end;
                frames[at][plane] += shift as u32;
                for strength in [0, 2] {
                    writer.put(&Case { bytes: end + shift - over, ..case(&frames, 1, strength) });
                }
            }
        }
    }
    for (plane, stride) in [(2, 5), (3, 6), (4, 6)] {
        for (start, step) in
            [(u32::MAX, 0), (u32::MAX - 4, 0), (0, u32::MAX), (16, u32::MAX), (0, 1 << 31), (0, 1 << 30)]
        {
            for size in [(5, 4), (5, 5), (5, 1)] {
                let mut frames: Vec<Frame> = (0..3).map(|g| noise(size, g)).collect();
                (frames[2][plane], frames[2][stride]) = (start, step);
                writer.put(&case(&frames, 0, 3));
                writer.put(&case(&frames[2..], 0, 3));
            }
        }
    }
    let mut frames = three(size);
    (frames[1][4], frames[2][2]) = (LEN as u32, LEN as u32);
    writer.put(&case(&frames, 0, 3));
    writer.put(&Case { bytes: 0, ..case(&frames, 2, 0) });
}

// 6 and 7: slices of P entries, of one fewer and of none; 32 are the samples of 5 by 4.
fn add_lent(writer: &mut Writer) {
    for lent in [[32, 32, 32], [31, 32, 32], [32, 31, 32], [32, 32, 31], [32, 31, 31], [31, 31, 31], [0, 32, 32]] {
        for strength in [0, 3] {
            writer.put(&Case { lent, ..case(&three((5, 4)), 1, strength) });
            writer.put(&Case { lent, ..case(&three((5, 4))[1..2], 0, strength) });
        }
    }
    for lent in [[32, 0, 32], [32, 32, 0], [0, 0, 0], [33, 40, 31]] {
        writer.put(&Case { lent, ..case(&three((5, 4)), 2, 3) });
    }
}

// Three frames with these caps at these frames, else 16.
fn with_caps(caps: &[(usize, u32)]) -> Vec<Frame> {
    let mut frames = three((5, 4));
    for &(at, cap) in caps {
        frames[at] = capped(frames[at], cap);
    }
    frames
}

// 29: caps of 16, which is accepted, and above it, at each frame and each centre, where the centre is only cropped too;
// caps that are 16 in their lowest byte or two; the first of several; a cap that lies past the numbers given.
fn add_caps(writer: &mut Writer) {
    for cap in [16, 17, u32::MAX] {
        for (at, centre) in (0..9).map(|k| (k / 3, k as u64 % 3)) {
            for strength in [0, 3] {
                writer.put(&case(&with_caps(&[(at, cap)]), centre, strength));
            }
        }
        for strength in [0, 6] {
            writer.put(&case(&[capped(texture((5, 4), (0, 0), false), cap)], 0, strength));
        }
    }
    for (k, cap) in [18, 31, 32, 255, 256, 272, 65552, 1 << 24, 1 << 31, (1 << 31) + 16].into_iter().enumerate() {
        writer.put(&case(&with_caps(&[(k % 3, cap)]), k as u64 / 3 % 3, k as u8 % 4));
    }
    let several: [&[(usize, u32)]; 5] = [
        &[(0, 17), (2, 17)],
        &[(1, 17), (2, u32::MAX)],
        &[(0, 0), (1, u32::MAX), (2, 17)],
        &[(0, u32::MAX), (1, 17), (2, 17)],
        &[(0, 15), (1, 0), (2, 17)],
    ];
    for (caps, centre) in several.into_iter().flat_map(|caps| (0..3).map(move |centre| (caps, centre))) {
        writer.put(&case(&with_caps(caps), centre, 2));
    }
    for given in [3 * 8 - 1, 3 * 8, 3 * 8 + 7] {
        writer.put(&Case { given, ..case(&with_caps(&[(2, 17)]), 1, 3) });
    }
    let mut many: Vec<Frame> = (0..1024).map(|g| texture((3, 3), (g % 5, g % 3), false)).collect();
    many[1023] = capped(many[1023], 17);
    writer.put(&case(&many, 5, 1));
}

// 29 at one frame, and another refusal of the same window: 4 and 5 at each frame, before it, after it and at the same;
// and 1, 2, 3, 6 and 7.
fn add_caps_beside(writer: &mut Writer) {
    for cap in [17, u32::MAX] {
        for (at, other) in (0..9).map(|k| (k / 3, k % 3)) {
            let strength = [3, 0][(at + other) % 2];
            let mut frames = with_caps(&[(at, cap)]);
            frames[other][4] = LEN as u32;
            writer.put(&case(&frames, 1, strength));
            let mut frames = with_caps(&[(at, cap)]);
            frames[other][1] = 5;
            writer.put(&case(&frames, (other as u64 + 1) % 3, strength));
        }
        for at in 0..3 {
            let frames = with_caps(&[(at, cap)]);
            writer.put(&case(&frames, 3, 3));
            writer.put(&Case { given: 1025 * 8, ..case(&frames, 1, 3) });
            for lent in [[31, 32, 32], [32, 31, 32], [32, 32, 31], [0, 0, 0]] {
                writer.put(&Case { lent, ..case(&frames, 1, 3) });
            }
            let mut frames = frames;
            frames[1][0] = 16384;
            writer.put(&case(&frames, 1, 3));
        }
    }
}

// Each set of refusals at once, those without 29 first: the earliest is the answer.
fn add_together(writer: &mut Writer) {
    for bits in 1..256 {
        let is = |number: i32| bits >> (number - 1) & 1 == 1;
        let cap_too_high = is(8);
        let size = if is(3) { (5, 16384) } else { (5, 4) };
        let mut frames = [frame(size, [0; 3], (160, 160)); 5];
        if is(4) {
            frames[3] = noise((7, 8), 0);
        }
        if is(5) {
            frames[if is(4) { 1 } else { 4 }][4] = LEN as u32;
        }
        if cap_too_high {
            let at = [0, 2, 4][bits as usize % 3];
            frames[at] = capped(frames[at], 17);
        }
        let given = if is(2) { 1025 * 8 } else { 5 * 8 };
        let centre = if is(1) { given as u64 / 8 } else { 2 };
        let lent = [if is(6) { 31 } else { 40 }, 40, if is(7) { 31 } else { 40 }];
        writer.put(&Case { given, lent, ..case(&frames, centre, (bits % 128) as u8 % 3) });
    }
}

/// For a builder beside the first: each refusal alone, in its order, and each together with the next one.
pub fn each_and_the_next(kind: u64, bytes: usize) -> Vec<Case> {
    let order = [1, 2, 3, 4, 29, 5, 6, 7];
    let alone = order.iter().map(|&number| with_refusals(&[number], bytes));
    let together = order.windows(2).map(|numbers| with_refusals(numbers, bytes));
    alone.chain(together).map(|case| Case { kind, ..case }.over(bytes)).collect()
}

// A window of 5 by 4 that is refused for these reasons, over so many bytes.
fn with_refusals(numbers: &[u32], bytes: usize) -> Case {
    let is = |number: u32| numbers.contains(&number);
    let size = if is(3) { (5, 16384) } else { (5, 4) };
    let mut frames: Vec<Frame> = (0..3).map(|g| texture((5, 4), (g, 1), g == 1)).collect();
    frames.iter_mut().for_each(|frame| (frame[0], frame[1]) = size);
    if is(4) {
        frames[2][0] = 6;
    }
    if is(29) {
        frames[1] = capped(frames[1], 17);
    }
    if is(5) {
        frames[0][4] = bytes as u32;
    }
    let given = if is(2) { 1025 * 8 } else { 3 * 8 };
    let centre = if is(1) { given as u64 / 8 } else { 1 };
    let lent = [if is(6) { 31 } else { 32 }, 32, if is(7) { 31 } else { 32 }];
    Case { given, lent, ..case(&frames, centre, 3) }
}

#[cfg(test)]
mod tests {
    use super::*;
    use crate::refusals::{Build, of_build};

    #[test]
    fn each_refusal_comes_by_itself_and_before_the_next() {
        let number = |case: &Case| {
            let (frames, [output, sums, weights]) = (case.frames(), case.lent.map(|n| n as u64));
            let bytes = case.bytes as u64;
            of_build(Build { bytes, frames: &frames, centre: case.centre, output, sums, weights }).0
        };
        let numbers: Vec<u64> = each_and_the_next(8, LEN).iter().map(number).collect();
        assert_eq!(numbers, [1, 2, 3, 4, 29, 5, 6, 7, 1, 2, 3, 4, 29, 5, 6]);
    }
}
