//! Windows of frames drawn at random: most of them legal, with blocks that match. Every cap is 16 in two of three.

use super::content;
use super::input::Drawn;
use super::numbers::strength;
use crate::random::Random;
use crate::refusals::{Frame, MAX_CAP, legal_size, packed_size, planes};

/// What a window's need is cut to, before a few bytes more are added; one that needs much more has planes that do not
/// fit.
const MOST: u128 = 140_000;

/// Numbers for frame_count and frame_at.
pub fn draw_numbers(random: &mut Random) -> Vec<u32> {
    (0..random.below(34)).map(|_| random.next() as u32).collect()
}

/// The numbers in the order of the builders' fields, and the frames.
pub fn draw_window(random: &mut Random) -> Drawn {
    draw(random, &Drawing { reaches: &[1, 3, 9, 17], lit: false })
}

/// The same with frames that are moved less far, so that the block search finds more of them.
pub fn draw_moving_window(random: &mut Random) -> Drawn {
    draw(random, &MOVING)
}

/// The same where U or V of many frames is another than the centre's while Y is alike.
pub fn draw_lit_window(random: &mut Random) -> Drawn {
    draw(random, &Drawing { lit: true, ..MOVING })
}

/// Frames that are parts of one picture are moved by less than one of these reaches; whether chroma is made another.
struct Drawing {
    reaches: &'static [u64],
    lit: bool,
}

const MOVING: Drawing = Drawing { reaches: &[2, 3, 4, 5], lit: false };

fn draw(random: &mut Random, drawing: &Drawing) -> Drawn {
    let many = random.below(400) == 0;
    let size = if many { (1 + random.below(4) as u32, 1 + random.below(4) as u32) } else { draw_size(random) };
    let count = if many { random.pick(&[1024, 1025]) } else { draw_count(random) };
    let (content, pitch, mut frames) = draw_frames(random, size, count, drawing);
    let count = frames.len() as u64;
    if random.percent(20) && count > 1 {
        let (from, to) = (random.below(count) as usize, random.below(count) as usize);
        frames[to] = frames[from];
    }
    draw_caps(random, &mut frames);
    let centre = if random.percent(96) { random.below(count.max(1)) } else { random.pick(&[count, 1 << 32, u64::MAX]) };
    let needed = bytes_needed(&frames);
    if random.percent(7) && count > 0 {
        spoil(random, &mut frames, needed);
    }
    let bytes_len = match random.below(100) {
        0..70 => needed,
        70..96 => needed + random.below(60),
        _ => needed.saturating_sub(1),
    };
    let samples = if legal_size(size.0.into(), size.1.into()) { packed_size(size.0.into(), size.1.into()) } else { 9 };
    let seed = random.below(1 << 32);
    let head = [content, seed, pitch.into(), bytes_len, centre, strength(random).into()].map(i128::from);
    let lens = [draw_len(random, samples), draw_len(random, samples), draw_len(random, samples)];
    let mut list = frames.concat();
    if random.percent(20) {
        list.extend((0..1 + random.below(7)).map(|_| random.next() as u32));
    }
    ([&head[..], &lens].concat(), list)
}

fn draw_size(random: &mut Random) -> (u32, u32) {
    let mut side = || match random.below(100) {
        0..60 => 1 + random.below(40) as u32,
        _ => random.pick(&[1, 2, 15, 16, 17, 31, 32, 33]),
    };
    let (width, height) = (side(), side());
    match random.below(400) {
        0..6 => random.pick(&[(16383, 1), (1, 16383), (16383, 2)]),
        6..16 => random.pick(&[(0, 1), (width, 0), (0, 0), (16384, 1), (1, 16384), (u32::MAX, height)]),
        16..24 => (64 + width, 64 + height),
        _ => (width, height),
    }
}

fn draw_count(random: &mut Random) -> u64 {
    match random.below(100) {
        0 => 0,
        1..8 => 1,
        8..80 => 2 + random.below(4),
        _ => 6 + random.below(5),
    }
}

// P, one fewer in a few, or more.
fn draw_len(random: &mut Random, samples: u64) -> i128 {
    match random.below(100) {
        0..60 => samples.into(),
        60..98 => (samples + random.below(40)).into(),
        _ => samples.saturating_sub(1).into(),
    }
}

// The content of the picture bytes, their pitch and the frames: parts of one picture, packed, or anywhere.
fn draw_frames(
    random: &mut Random,
    (width, height): (u32, u32),
    count: u64,
    drawing: &Drawing,
) -> (u64, u32, Vec<Frame>) {
    let any = random.below(content::KINDS);
    if width > 200 || height > 200 || width == 0 || height == 0 {
        let start = |random: &mut Random| random.below(300) as u32;
        let stride = u32::from(height > 2);
        let of =
            |random: &mut Random| [width, height, start(random), start(random), start(random), stride, stride, MAX_CAP];
        return (any, 64, (0..count.min(4)).map(|_| of(random)).collect());
    }
    match random.below(100) {
        0..45 => {
            let pitch = width + 64;
            let reach = random.pick(drawing.reaches);
            let mut frames: Vec<Frame> = (0..count).map(|_| moved(random, (width, height), pitch, reach)).collect();
            if drawing.lit {
                frames.iter_mut().for_each(|frame| set_apart(random, frame));
            }
            let textured = content::TEXTURE + random.below(2);
            (random.pick(&[textured, textured, textured, content::STEEP, content::TILES]), pitch, frames)
        }
        45..80 => {
            let samples = packed_size(width.into(), height.into()) as u32;
            let frame = |g: u32| {
                let (columns, rows) = (width.div_ceil(2), height.div_ceil(2));
                let y = g % 40 * samples;
                let u = y + width * height;
                [width, height, y, u, u + columns * rows, width, columns, MAX_CAP]
            };
            let content = random.pick(&[content::CUT, content::CUT, 6, 6, any]);
            let content = if drawing.lit && random.percent(70) { content::LIT } else { content };
            (content, samples, (0..count as u32).map(frame).collect())
        }
        _ => {
            let stride = |random: &mut Random| random.pick(&[0, 1, 3, width, width + 5, 100]);
            let frame = |random: &mut Random| {
                let [y, u, v] = std::array::from_fn(|_| random.below(200) as u32);
                [width, height, y, u, v, stride(random), stride(random), MAX_CAP]
            };
            (any, random.pick(&[1, 16, 100]), (0..count).map(|_| frame(random)).collect())
        }
    }
}

// A part of the picture, moved by less than `reach` both ways; chroma lies below and moves by half.
fn moved(random: &mut Random, (width, height): (u32, u32), pitch: u32, reach: u64) -> Frame {
    let mut by = || 20 + random.below(2 * reach - 1) as u32 - (reach as u32 - 1);
    let (x, y) = (by(), by());
    let rows = height.div_ceil(2);
    let below = |row: u32| (row + y / 2) * pitch + x / 2;
    [width, height, y * pitch + x, below(height + 40), below(height + 40 + rows + 30), pitch, pitch, MAX_CAP]
}

// U, V or both a few samples from where they lie, in two of three frames.
fn set_apart(random: &mut Random, frame: &mut Frame) {
    let mut away = || (random.below(4) * u64::from(frame[6]) + random.below(5)) as u32;
    let by = [away(), away()];
    match random.below(6) {
        0 => frame[3] += by[0],
        1 => frame[4] += by[1],
        2 | 3 => (frame[3], frame[4]) = (frame[3] + by[0], frame[4] + by[1]),
        _ => {}
    }
}

/// Caps that are drawn more often than others.
const LEVELS: [u32; 7] = [0, 1, 7, 8, 9, 15, 16];

// Lower caps in a third of the windows: of each frame, of one, or 0 for all. In a few a cap above 16, at one frame or at
// two.
fn draw_caps(random: &mut Random, frames: &mut [Frame]) {
    let drawn = |random: &mut Random| match random.below(3) {
        0 => random.below(17) as u32,
        _ => random.pick(&LEVELS),
    };
    let any = |random: &mut Random| random.below(frames.len().max(1) as u64) as usize;
    let (one, other) = (any(random), any(random));
    if random.below(3) == 0 {
        match random.below(10) {
            0 => frames.iter_mut().for_each(|frame| frame[7] = 0),
            1..4 => frames.iter_mut().skip(one).take(1).for_each(|frame| frame[7] = random.below(16) as u32),
            _ => frames.iter_mut().for_each(|frame| frame[7] = drawn(random)),
        }
    }
    if random.percent(4) {
        for at in [one, if random.percent(50) { one } else { other }] {
            let above = random.pick(&[17, 18, 32, 272, 65552, 1 << 31, u32::MAX]);
            frames.iter_mut().skip(at).take(1).for_each(|frame| frame[7] = above);
        }
    }
}

fn bytes_needed(frames: &[Frame]) -> u64 {
    let legal = frames.iter().filter(|f| legal_size(f[0].into(), f[1].into()));
    let end = legal.flat_map(planes).map(|part| part.end()).max().unwrap_or(0);
    end.min(MOST) as u64
}

// One number of one frame at an edge.
fn spoil(random: &mut Random, frames: &mut [Frame], bytes: u64) {
    let frame = random.below(frames.len() as u64) as usize;
    let k = random.below(8) as usize;
    let was = frames[frame][k];
    frames[frame][k] = match k {
        0 | 1 => random.pick(&[0, was.wrapping_add(1), was.saturating_sub(1), 16383, 16384, u32::MAX]),
        2..5 => random.pick(&[bytes as u32, bytes.saturating_sub(1) as u32, u32::MAX, was.wrapping_add(1)]),
        5 | 6 => random.pick(&[u32::MAX, 1 << 31, was.wrapping_add(1), 0]),
        _ => random.pick(&[u32::MAX, was.wrapping_add(1), 0]),
    };
}

#[cfg(test)]
mod tests {
    use super::*;
    use crate::refusals::{Build, NUMBERS_PER_FRAME, cap, of_build};

    // The numbers of the builders' fields, and the frames.
    fn drawn(count: u64) -> impl Iterator<Item = (Vec<i128>, Vec<Frame>)> {
        (0..count).map(|seed| {
            let (numbers, list) = draw_window(&mut Random::new(seed));
            let frames = list.chunks_exact(NUMBERS_PER_FRAME).map(|frame| frame.try_into().expect("eight numbers"));
            (numbers, frames.collect())
        })
    }

    fn refusal(numbers: &[i128], frames: &[Frame]) -> (u64, Vec<u64>) {
        let [bytes, centre, _, output, sums, weights] = std::array::from_fn(|k| numbers[3 + k] as u64);
        of_build(Build { bytes, frames, centre, output, sums, weights })
    }

    #[test]
    fn a_third_of_the_windows_has_lower_caps() {
        let (mut lower, mut levels, mut zeros, mut repeated, mut centre) = (0, [0; 17], 0, 0, 0);
        for (numbers, frames) in drawn(3000) {
            let caps: Vec<u32> = frames.iter().map(cap).collect();
            lower += u32::from(caps.iter().any(|&cap| cap < MAX_CAP));
            if refusal(&numbers, &frames).0 > 0 || frames.len() < 2 {
                continue;
            }
            caps.iter().for_each(|&cap| levels[cap as usize] += 1);
            zeros += u32::from(caps.iter().all(|&cap| cap == 0));
            centre += u32::from(caps[numbers[4] as usize] < MAX_CAP);
            let again = |a: &Frame| frames.iter().any(|b| a[..7] == b[..7] && cap(a) != cap(b));
            repeated += u32::from(frames.iter().any(again));
        }
        assert!((930..1070).contains(&lower), "{lower} of 3000 with a lower cap");
        assert!(levels.iter().all(|&n| n > 40), "accepted frames with caps 0 to 16: {levels:?}");
        assert!(zeros > 40 && centre > 200 && repeated > 40, "all 0 {zeros}, centre {centre}, repeated {repeated}");
    }

    // A cap above 16 alone, and with each other refusal but 2, which is seldom: 1 to 4 are given before it, 5 to 7 are not.
    #[test]
    fn a_cap_above_16_comes_alone_and_together() {
        let mut with = [0; 30];
        for (numbers, frames) in drawn(20_000) {
            let Some(first) = frames.iter().position(|frame| cap(frame) > MAX_CAP) else { continue };
            let plain: Vec<Frame> = frames.iter().map(|frame| with_cap(frame, MAX_CAP)).collect();
            let other = refusal(&numbers, &plain);
            with[other.0 as usize] += 1;
            let expected = if (1..5).contains(&other.0) { other } else { (29, vec![first as u64]) };
            assert_eq!(refusal(&numbers, &frames), expected);
        }
        assert!(with[0] > 400 && [1, 3, 4, 5, 6, 7].iter().all(|&k| with[k] > 5), "{with:?}");
    }

    fn with_cap(frame: &Frame, cap: u32) -> Frame {
        std::array::from_fn(|k| if k == 7 { cap } else { frame[k] })
    }
}
