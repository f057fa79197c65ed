//! Windows for the builder that moves chroma by half samples.

use super::pictures::{
    CHROMA_STRIDE, LEN_WITH_HALVES, SMALLEST, bowl, capped, flat, flat_chroma, frame, harsh_chroma, mirror, noise,
    smallest, smooth_chroma, texture,
};
use super::refused::each_and_the_next;
use super::windows::{STRENGTHS, picture};
use super::{Case, Frame, HALF_SAMPLES, Writer};
use crate::paper::denoiser::{Choice, Window, build};
use crate::random::Random;

/// A displacement: columns, then rows.
type Shift = (i32, i32);

const COMPONENTS: [i32; 5] = [-15, -1, 0, 1, 15];

/// A square picture, how far to the right it lies in the texture, and what the block search finds there.
struct Far {
    side: u32,
    right: i32,
    shifts: &'static [Shift],
}

const FAR: [Far; 2] = [
    Far { side: 67, right: 3, shifts: &[(15, -15), (-15, 15), (15, 15)] },
    Far { side: 48, right: 0, shifts: &[(-15, -15)] },
];

const SIDES: [u32; 12] = [1, 2, 3, 4, 15, 16, 17, 18, 31, 32, 33, 34];

pub fn add(writer: &mut Writer) {
    for case in cases(writer.pictures) {
        writer.put(&case);
    }
}

pub fn cases(bytes: &[u8]) -> Vec<Case> {
    let groups = [
        smallest_pictures(),
        in_the_middle(),
        parities(),
        far_inside(),
        sizes(bytes),
        clamps(bytes),
        strides(bytes),
        caps(bytes),
        any(bytes),
        ties(),
        as_whole_samples(),
        cropped(),
        many_frames(),
        each_and_the_next(HALF_SAMPLES, LEN_WITH_HALVES),
    ];
    groups.concat()
}

// Over all picture bytes.
fn case(frames: &[Frame], centre: usize, strength: u8) -> Case {
    Case::new(HALF_SAMPLES, frames, centre as u64, strength).over(LEN_WITH_HALVES)
}

// Whether an accepted case is answered otherwise than with whole samples.
fn is_felt(bytes: &[u8], case: &Case) -> bool {
    let (frames, centre) = (case.frames(), case.centre as usize);
    let window = Window { bytes: &bytes[..case.bytes], frames: &frames, centre, strength: case.strength };
    build(&window, Choice::HALF) != build(&window, Choice::WHOLE)
}

// The first of some windows that is felt; where none is, the first.
fn felt(bytes: &[u8], of: impl Fn(usize) -> Case) -> Case {
    (0..60).map(&of).find(|case| is_felt(bytes, case)).unwrap_or_else(|| of(0))
}

// At strength 6, and with the frames in the other order.
fn smallest_pictures() -> Vec<Case> {
    (0..2 * SMALLEST.len()).map(|i| case(&smallest(i / 2), i % 2, 6)).collect()
}

// The block in the middle of three by three, displaced by each pair of components, two frames in a window.
fn in_the_middle() -> Vec<Case> {
    let far = |&(dx, dy): &Shift| (dx > 1, dy > 1);
    let mut shifts: Vec<Shift> = (0..25).map(|i| (COMPONENTS[i % 5], COMPONENTS[i / 5])).collect();
    shifts.sort_by_key(far);
    let windows = shifts.chunk_by(|a, b| far(a) == far(b)).flat_map(|alike| alike.chunks(2));
    let of = |(i, shifts): (usize, &[Shift])| {
        let side = |is_far: bool| if is_far { 47 } else { 33 };
        let size = (side(far(&shifts[0]).0), side(far(&shifts[0]).1));
        about_the_middle(i, |shift, chroma| bowl(size, shift, chroma), shifts)
    };
    windows.enumerate().map(of).collect()
}

// A centre and frames displaced from it. U or V is of 0 and 255, about a centre of 0 or of 255; the other is smooth.
fn about_the_middle(i: usize, moved: impl Fn(Shift, [usize; 2]) -> Frame, shifts: &[Shift]) -> Case {
    let turned = |[u, v]: [usize; 2]| if i.is_multiple_of(2) { [u, v] } else { [v, u] };
    let mut frames = vec![moved((0, 0), turned([smooth_chroma(i, false), flat_chroma(4 + i / 2 % 2)]))];
    let harsh = |g: usize| turned([smooth_chroma(i, true), harsh_chroma(3 * i + g)]);
    frames.extend(shifts.iter().enumerate().map(|(g, &shift)| moved(shift, harsh(g))));
    case(&frames, 0, [6, 5, 4, 255][i % 4])
}

// The third block of the third row, displaced by 15 both ways: it, and all that is filtered for it, lie in the planes.
fn far_inside() -> Vec<Case> {
    let of = |(i, far): (usize, &Far)| {
        let size = (far.side, far.side);
        let moved = |(dx, dy): Shift, [u, v]: [usize; 2]| {
            let [_, _, y, ..] = texture(size, (far.right - dx, -dy), false);
            frame(size, [y as usize, u, v], (160, CHROMA_STRIDE))
        };
        about_the_middle(i, moved, far.shifts)
    };
    FAR.iter().enumerate().map(of).collect()
}

// Even and odd components of both signs, a few frames at once.
fn parities() -> Vec<Case> {
    let windows = [
        [(2, 1), (-2, 1), (1, -2), (-1, -2)],
        [(2, -1), (-2, -1), (1, 2), (-1, 2)],
        [(3, 0), (0, 3), (-3, 4), (4, -3)],
        [(0, -5), (7, 0), (-9, -6), (6, 11)],
    ];
    let of = |(i, shifts): (usize, [Shift; 4])| {
        let chroma = |g: usize, shaken| [smooth_chroma(7 * i, shaken), smooth_chroma(i + 2 * g % 3, shaken)];
        let mut frames = vec![bowl((33, 33), (0, 0), chroma(0, false))];
        frames.extend(shifts.into_iter().enumerate().map(|(g, shift)| bowl((33, 33), shift, chroma(g, true))));
        frames.swap(0, i);
        case(&frames, i, [3, 6, 4, 5][i])
    };
    windows.into_iter().enumerate().map(of).collect()
}

// Every side from 1 to 4, from 15 to 18 and from 31 to 34, each three times as a width and three times as a height.
fn sizes(bytes: &[u8]) -> Vec<Case> {
    let of = |i: usize| {
        let size = (SIDES[i % 12], SIDES[(5 * i + i / 12) % 12]);
        felt(bytes, |n| {
            let count = 2 + i % 3;
            let step = |g: usize, k: usize| ((i + n + g * k) * k % 31) as i32 - 15;
            let of = |g: usize| match i % 2 {
                0 => noise(size, 2 * (7 * i + 11 * n + g) + 1),
                _ => texture(size, (step(g, 7), step(g, 11)), g % 2 == 1),
            };
            let frames: Vec<Frame> = (0..count).map(of).collect();
            let case = case(&frames, (i + n) % count, STRENGTHS[(i + i / 8) % 8]);
            Case { made: i as u64 % 2, ..case.longer([i % 3, i % 2, i % 4]) }
        })
    };
    (0..36).map(of).collect()
}

// Chroma of 0 and 255 about a centre of 0, of 255 and in between: both passes clamp.
fn clamps(bytes: &[u8]) -> Vec<Case> {
    let sizes = [(18, 18), (16, 16), (34, 4), (3, 33), (17, 15), (4, 4)];
    let of = |i: usize| {
        let size = sizes[i % 6];
        felt(bytes, |n| {
            let [_, _, y, ..] = texture(size, (0, 0), false);
            let [_, _, moved, ..] = texture(size, ((i + n) as i32 % 7 - 3, (i + 3 * n) as i32 % 5 - 2), n % 2 == 1);
            let levels = [[5, 4], [4, 5], [2, 5], [4, 1]][i / 3 % 4].map(flat_chroma);
            let centre = frame(size, [y as usize, levels[0], levels[1]], (160, CHROMA_STRIDE));
            let harsh = [2 * i + n, 5 * i + 3 * n + 1].map(harsh_chroma);
            let other = frame(size, [moved as usize, harsh[0], harsh[1]], (160, CHROMA_STRIDE));
            case(&[centre, other], 0, [6, 7, 5][i % 3])
        })
    };
    (0..12).map(of).collect()
}

// Chroma strides of 0, below the width, at it and above; planes that share bytes.
fn strides(bytes: &[u8]) -> Vec<Case> {
    let of = |i: usize| {
        let size = [(33, 7), (9, 33), (16, 17), (31u32, 5)][i % 4];
        let wide = size.0.div_ceil(2) as usize;
        let stride = [0, 1, wide - 1, 3, wide, wide / 2, 0, 100][i % 8];
        felt(bytes, |n| {
            let of = |g: usize| {
                let shift = ((n + i + 3 * g) as i32 % 9 - 4, (2 * n + i + g) as i32 % 7 - 3);
                let [_, _, y, u, ..] = texture(size, shift, g == 1);
                frame(size, [y as usize, u as usize, u as usize + 9 * (i % 3)], (160, stride))
            };
            let frames: Vec<Frame> = (0..3).map(of).collect();
            case(&frames, i % 3, STRENGTHS[i % 8])
        })
    };
    (0..16).map(of).collect()
}

// Caps from 0 to 16 beside the centre, the centre's own, and a frame again with another cap.
fn caps(bytes: &[u8]) -> Vec<Case> {
    let of = |i: usize| {
        let levels = [[16, 0, 7], [3, 9, 1], [16, 15, 8], [0, 16, 16], [16, 1, 16], [5, 5, 5], [0, 0, 0]][i % 7];
        felt(bytes, |n| {
            let moved = |g: usize| texture((17, 9), ((n + g) as i32 % 5 - 2, (n + i + g) as i32 % 5 - 2), g == 1);
            let mut frames: Vec<Frame> = (0..3).map(|g| capped(moved(g), levels[g])).collect();
            if i % 2 == 1 {
                frames.push(capped(frames[1], (levels[1] + 5) % 17));
            }
            case(&frames, i % 3, STRENGTHS[(i + 2) % 8])
        })
    };
    (0..14).map(of).collect()
}

// Two to six frames of any content and size.
fn any(bytes: &[u8]) -> Vec<Case> {
    let of = |i: usize| {
        felt(bytes, |n| {
            let mut random = Random::new((100 * i + n) as u64);
            let mut below = |n: u64| random.below(n) as usize;
            let size = (1 + below(24) as u32, 1 + below(24) as u32);
            let (count, content) = (2 + below(5), [0, 0, 1, 1, 4, 5, 2][i % 7]);
            let frames: Vec<Frame> = (0..count).map(|_| picture(size, content, below(40))).collect();
            case(&frames, below(count as u64), STRENGTHS[below(8)]).longer([below(3), below(3), below(3)])
        })
    };
    (0..21).map(of).collect()
}

// Windows that are built as with whole samples: no displacement, even ones, flat chroma, excluded blocks.
fn as_whole_samples() -> Vec<Case> {
    let still = texture((18, 17), (0, 0), false);
    let moved = |by| texture((16, 16), by, false);
    let flats = |shift| bowl((33, 33), shift, [flat_chroma(0); 2]);
    vec![
        case(&[still; 3], 1, 6),
        case(&[moved((0, 0)), moved((-6, 4))], 0, 6),
        case(&[moved((2, 4)), moved((0, 0)), moved((8, 6))], 1, 5),
        case(&[flats((0, 0)), flats((1, -1)), flats((-3, 2))], 0, 4),
        case(&[flat((17, 5), 4, 5), flat((17, 5), 5, 4)], 0, 6),
    ]
}

// Symmetric pictures, whose neighbours tie.
fn ties() -> Vec<Case> {
    let of = |i: usize| {
        let size = [(17, 17), (31, 15), (16, 18)][i];
        let frames = [mirror(size, i), mirror(size, i + 1), mirror(size, i)];
        case(&frames, (i + 1) % 3, [5, 255, 6][i])
    };
    (0..3).map(of).collect()
}

// One frame, and strength 0, where another frame would move by half samples.
fn cropped() -> Vec<Case> {
    let moved: Vec<Frame> = (0..3).map(|g| texture((18, 9), (g, -g), g == 1)).collect();
    let one = |strength| case(&moved[1..2], 0, strength).longer([2, 0, 1]);
    vec![one(0), one(3), one(255), case(&moved, 0, 0), case(&moved, 2, 0).longer([0, 3, 1])]
}

// 1024 frames with seven numbers of the next.
fn many_frames() -> Vec<Case> {
    let some: Vec<Frame> = (0..8).map(|g| noise((4, 3), 2 * g + 1)).collect();
    let of = |(centre, given)| Case { given, ..case(&some, 0, 6) }.at(centre);
    [(0, 1024 * 8), (1023, 1025 * 8 - 1)].map(of).to_vec()
}

#[cfg(test)]
mod tests {
    use super::*;
    use crate::denoiser::pictures;
    use crate::paper::denoiser::{Block, Pair, block_search};
    use crate::paper::search::sad;

    // The displacement of a block from each other frame, of which its SAD is 0.
    fn shifts(bytes: &[u8], case: &Case, block: usize) -> Vec<Pair> {
        let (frames, centre) = (case.frames(), case.centre as usize);
        let window = Window { bytes, frames: &frames, centre, strength: case.strength };
        let [own, ..] = window.planes(centre);
        let block = Block::of(&own, block);
        let source = block.samples(&own, (0, 0));
        let found = |g: usize| block_search(|shift, _| sad(&source, &block.samples(&window.planes(g)[0], shift)));
        let others = (0..frames.len()).filter(|&g| g != centre).map(found);
        others.inspect(|(_, sad)| assert_eq!(*sad, 0)).map(|(shift, _)| shift).collect()
    }

    #[test]
    fn the_block_in_the_middle_is_displaced_by_each_pair() {
        let bytes = pictures::all();
        let mut found: Vec<Pair> = in_the_middle().iter().flat_map(|case| shifts(&bytes, case, 4)).collect();
        found.sort();
        let of = |i: usize| (COMPONENTS[i / 5].into(), COMPONENTS[i % 5].into());
        assert_eq!(found, (0..25).map(of).collect::<Vec<Pair>>());
        for (case, far) in far_inside().iter().zip(FAR) {
            let columns = far.side.div_ceil(16) as usize;
            let told = far.shifts.iter().map(|&(dx, dy)| (dx.into(), dy.into()));
            assert_eq!(shifts(&bytes, case, 2 * columns + 2), told.collect::<Vec<Pair>>());
        }
    }

    #[test]
    fn half_samples_are_felt_where_they_should_be() {
        let bytes = pictures::all();
        let felt = |cases: &[Case]| cases.iter().filter(|case| is_felt(&bytes, case)).count();
        assert_eq!([as_whole_samples(), cropped()].map(|cases| felt(&cases)), [0, 0]);
        let all = [in_the_middle(), far_inside(), parities(), clamps(&bytes), strides(&bytes), any(&bytes)];
        assert!(all.iter().all(|cases| felt(cases) == cases.len()));
        // chroma of one sample is the same wherever it is taken from
        let one = sizes(&bytes).into_iter().filter(|case| case.stored[0] < 3 && case.stored[1] < 3).count();
        assert_eq!(felt(&sizes(&bytes)), 36 - one);
    }
}
