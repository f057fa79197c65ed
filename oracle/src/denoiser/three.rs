//! Windows for the builder that accepts a block on all three planes, with both chroma rules.

use super::pictures::{
    CUT_SIDES, CUT_SIZES, LEN_OF_ALL, SMALLEST, capped, cut, edge, flat, flat_chroma, frame, mean_of_stripes, noise,
    raised, second, smallest, stripes, texture,
};
use super::refused::each_and_the_next;
use super::windows::{STRENGTHS, picture};
use super::{Case, Frame, THREE_PLANES, THREE_PLANES_HALF, Writer};
use crate::paper::denoiser::{Block, Window, build, sample_of};
use crate::random::Random;

const SIDES: [u32; 10] = [1, 2, 15, 16, 17, 18, 31, 32, 33, 34];

/// U, V or both differ from the centre's.
const PLANES: [[bool; 2]; 3] = [[true, false], [false, true], [true, true]];

pub fn add(writer: &mut Writer) {
    for case in cases(writer.pictures) {
        writer.put(&case);
    }
}

pub fn cases(bytes: &[u8]) -> Vec<Case> {
    [THREE_PLANES, THREE_PLANES_HALF].into_iter().flat_map(|kind| cases_of(kind, bytes)).collect()
}

fn cases_of(kind: u64, bytes: &[u8]) -> Vec<Case> {
    let groups = [
        smallest_pictures(),
        whole_blocks_and_cut_ones(),
        second_blocks(),
        displaced_edges(kind, bytes),
        luma_that_fails(),
        striped(),
        sizes(kind, bytes),
        lamps(),
        caps(kind, bytes),
        zeros(),
        any(kind, bytes),
        strides(kind, bytes),
        excluded(),
        repeated(),
        cropped(),
        many_frames(),
        each_and_the_next(kind, LEN_OF_ALL),
    ];
    let all: Vec<Case> = groups.concat();
    all.into_iter().map(|case| Case { kind, ..case }).collect()
}

// Over all picture bytes.
fn case(frames: &[Frame], centre: usize, strength: u8) -> Case {
    Case::new(THREE_PLANES, frames, centre as u64, strength).over(LEN_OF_ALL)
}

fn window<'a>(bytes: &'a [u8], case: &Case, frames: &'a [Frame]) -> Window<'a> {
    Window { bytes: &bytes[..case.bytes], frames, centre: case.centre as usize, strength: case.strength }
}

// The accepted blocks of an accepted case, and those of the builder that looks at luma alone.
fn accepted(bytes: &[u8], case: &Case) -> [u64; 2] {
    let frames = case.frames();
    let window = window(bytes, case, &frames);
    [case.choice(), case.choice().luma_alone()].map(|choice| build(&window, choice).accepted)
}

// Of some windows the first in which chroma excludes a block and another is accepted; where there is none, the first in
// which chroma excludes one.
fn felt(kind: u64, bytes: &[u8], of: impl Fn(usize) -> Case) -> Case {
    let mut best = (0, of(0));
    for case in (0..40).map(|n| Case { kind, ..of(n) }) {
        let [three, luma] = accepted(bytes, &case);
        let rank = if three == luma { 0 } else { 1 + u32::from(three > 0) };
        if rank > best.0 {
            best = (rank, case);
        }
        if best.0 == 2 {
            break;
        }
    }
    best.1
}

fn samples_of((width, height): (u32, u32)) -> usize {
    (width.div_ceil(2) * height.div_ceil(2)) as usize
}

// At strength 6, and with the frames in the other order.
fn smallest_pictures() -> Vec<Case> {
    (0..2 * SMALLEST.len()).map(|i| case(&smallest(i / 2), i % 2, 6)).collect()
}

// A frame whose luma is that of the centre, flat, and whose chroma is 100 or begins where it says, packed.
fn beside(size: (u32, u32), planes: [bool; 2], start: usize) -> Frame {
    let [_, _, y, ..] = flat(size, 0, 0);
    let [u, v] = planes.map(|differs| if differs { start } else { flat_chroma(0) });
    frame(size, [y as usize, u, v], (size.0 as usize, size.0.div_ceil(2) as usize))
}

// Pictures of one block, whole, or cut to 1, 2, 3, 8 and 15 columns or rows, whose luma is flat: chroma differs by 13
// times its area less 1, by that and by 1 more.
fn whole_blocks_and_cut_ones() -> Vec<Case> {
    let cut = CUT_SIDES.into_iter().flat_map(|side| [(side, 16), (16, side)]);
    let sizes: Vec<(u32, u32)> = [(16, 16), (1, 1), (2, 2)].into_iter().chain(cut).collect();
    let of = |i: usize| {
        let (size, planes, more) = (sizes[i / 9], PLANES[i / 3 % 3], i as i32 % 3 - 1);
        let place = [0, samples_of(size) - 1, samples_of(size) / 2][i / 3 % 3];
        case(&[flat(size, 0, 0), beside(size, planes, edge(more, i % 2 == 1, place))], 0, 6)
    };
    (0..9 * sizes.len()).map(of).collect()
}

// Pictures of two blocks, the second cut: chroma differs there alone, by each of these in a frame of its own.
fn second_blocks() -> Vec<Case> {
    let of = |i: usize| {
        let frame = |more: i32| {
            let (size, start) = second(i / 6, i % 2 == 1, more);
            beside(size, PLANES[i / 2 % 3], start)
        };
        let (size, _) = second(i / 6, i % 2 == 1, 0);
        let mut frames = vec![frame(-1), frame(0), frame(1)];
        frames.insert(i % 4, flat(size, 0, 0));
        case(&frames, i % 4, [6, 5, 7][i % 3])
    };
    (0..6 * CUT_SIDES.len()).map(of).collect()
}

// One block that is displaced: the samples that the call makes differ by 13 times the area less 1, by that and by 1 more.
fn displaced_edges(kind: u64, bytes: &[u8]) -> Vec<Case> {
    let shifts = [(1, 0), (0, -1), (-3, 1), (2, -2), (-1, 2), (4, 3), (1, 1), (-2, 0), (3, 3)];
    let of = |i: usize| {
        let size = [(16, 16), (13, 16), (16, 11)][i / 3];
        let moved = |shift, start: usize| {
            let [_, _, y, ..] = texture(size, shift, false);
            let [u, v] = PLANES[i % 3].map(|differs| if differs { start } else { flat_chroma(0) });
            frame(size, [y as usize, u, v], (160, size.0.div_ceil(2) as usize))
        };
        let centre = moved((0, 0), flat_chroma(0));
        let mut frames = vec![centre];
        frames.extend([-1, 0, 1].map(|more| {
            let starts = (0..samples_of(size)).flat_map(|place| [-1, 0, 1].map(|m| edge(m, i % 2 == 1, place)));
            let differing = |&start: &usize| differs_by(kind, bytes, &[centre, moved(shifts[i], start)], more);
            moved(shifts[i], starts.into_iter().find(differing).expect("a plane that differs by so much"))
        }));
        frames.swap(0, i % 4);
        case(&frames, i % 4, [6, 4, 5][i % 3])
    };
    (0..shifts.len()).map(of).collect()
}

// Whether U or V of the second frame's only block differs by 13 times its area and so much more, and neither by more.
fn differs_by(kind: u64, bytes: &[u8], frames: &[Frame], more: i32) -> bool {
    let case = Case { kind, ..case(frames, 0, 6) };
    let window = window(bytes, &case, frames);
    let block = Block::of(&window.planes(0)[0], 0);
    let (shift, _) = window.searched(1, &block);
    let sad = |k: usize| window.plane_sad(1, &block, k, shift, sample_of(case.choice().chroma));
    let area = block.in_plane(1).columns * block.in_plane(1).rows;
    sad(1).max(sad(2)) as i32 == 13 * area as i32 + more
}

// Luma of 13 times the area, which fails, and of 1 less; chroma is the centre's, or differs by one block's worth.
fn luma_that_fails() -> Vec<Case> {
    let of = |(index, size): (usize, (u32, u32))| {
        let frames = [flat(size, 0, 0), flat(size, 3, 0), cut(index, 0), flat(size, 2, 0), flat(size, 3, 2)];
        case(&frames, 0, [6, 5][index % 2])
    };
    CUT_SIZES.into_iter().enumerate().map(of).collect()
}

/// Of a window with stripes: the displacement, whether they are rows, and whether the centre has them too.
const STRIPED: [((i32, i32), bool, bool); 12] = [
    ((1, 0), false, false),
    ((-1, 0), false, false),
    ((3, 0), false, false),
    ((0, 1), true, false),
    ((0, -3), true, false),
    ((1, 1), false, false),
    ((1, 0), false, true),
    ((-1, 0), false, true),
    ((3, 0), false, true),
    ((0, 1), true, true),
    ((0, -3), true, true),
    ((1, -1), true, true),
];

// Stripes of one column or of one row, displaced by an odd number: beside their mean they pass when filtered and fail when
// copied; beside themselves the reverse.
fn striped() -> Vec<Case> {
    let of = |(i, (shift, as_rows, alike)): (usize, ((i32, i32), bool, bool))| {
        let size = [(16, 16), (18, 17), (15, 18)][i % 3];
        let stride = if as_rows { 20 } else { 10 };
        let along = if as_rows { shift.1 } else { shift.0 };
        let [own, other] = [0, along / 2].map(|half| stripes(as_rows, half % 2 != 0));
        let of = |(dx, dy): (i32, i32), chroma: [usize; 2]| {
            let [_, _, y, ..] = texture(size, (-dx, -dy), false);
            frame(size, [y as usize, chroma[0], chroma[1]], (160, stride))
        };
        let mean = mean_of_stripes();
        let turned = |[u, v]: [usize; 2]| if i % 2 == 0 { [u, v] } else { [v, u] };
        let centre = of((0, 0), turned([if alike { own } else { mean }, mean]));
        case(&[centre, of(shift, turned([other, mean]))], 0, [6, 4][i / 2 % 2])
    };
    STRIPED.into_iter().enumerate().map(of).collect()
}

// Every side of `SIDES` twice as a width and twice as a height.
fn sizes(kind: u64, bytes: &[u8]) -> Vec<Case> {
    let of = |i: usize| {
        let size = (SIDES[i % 10], SIDES[(3 * i + i / 10 + 4) % 10]);
        felt(kind, bytes, |n| {
            let count = 2 + (i + n) % 3;
            let step = |g: usize, k: usize| ((i + n + g * k) * k % 9) as i32 - 4;
            let of = |g: usize| match (i + n) % 3 {
                0 => noise(size, 2 * (7 * i + 11 * n + g) + 1),
                _ => raised(size, (step(g, 5), step(g, 7)), [(n + g) % 4, (i + n + 2 * g) % 4]),
            };
            let frames: Vec<Frame> = (0..count).map(of).collect();
            let case = case(&frames, (i + n) % count, STRENGTHS[(i + i / 8) % 8]);
            Case { made: i as u64 % 2, ..case.longer([i % 3, i % 2, i % 4]) }
        })
    };
    (0..20).map(of).collect()
}

// U or V raised by 40 in every other block of a picture that stands still, at each strength.
fn lamps() -> Vec<Case> {
    let of = |(i, strength): (usize, u8)| {
        let size = [(18, 17), (17, 32), (33, 16), (20, 20)][i % 4];
        let lit = [[3, 0], [0, 3], [3, 3], [3, 1]][i / 2 % 4];
        let frames = [raised(size, (0, 0), [0, 0]), raised(size, (0, 0), lit), texture(size, (0, 0), true)];
        case(&frames, 0, strength).longer([i % 2, 0, i % 3])
    };
    STRENGTHS.into_iter().enumerate().map(of).collect()
}

// Caps from 0 to 16 beside the centre, all of them 0 too, and a frame again with another cap: they exclude nothing.
fn caps(kind: u64, bytes: &[u8]) -> Vec<Case> {
    let levels = [[16, 0, 7], [3, 9, 1], [16, 15, 8], [0, 16, 0], [0, 0, 0], [16, 0, 0], [5, 5, 5]];
    let of = |i: usize| {
        felt(kind, bytes, |n| {
            let step = |g: usize| ((n + g) as i32 % 5 - 2, (n + i + g) as i32 % 5 - 2);
            let of = |g: usize| capped(raised((17, 9), step(g), [(n + g) % 4, (n / 4 + 2 * g) % 4]), levels[i % 7][g]);
            let mut frames: Vec<Frame> = (0..3).map(of).collect();
            if i % 2 == 1 {
                frames.push(capped(frames[1], (levels[i % 7][1] + 5) % 17));
            }
            case(&frames, i % 3, STRENGTHS[(i + 2) % 8])
        })
    };
    (0..10).map(of).collect()
}

// Caps of 0 beside chroma of 13 times the area less 1, which is accepted and counted, and of 13 times the area.
fn zeros() -> Vec<Case> {
    let of = |(i, size): (usize, (u32, u32))| {
        let other = |more, cap| capped(beside(size, PLANES[i % 3], edge(more, i % 2 == 1, 0)), cap);
        let frames = [other(-1, 0), flat(size, 0, 0), other(0, 0), other(-1, [16, 7, 0][i % 3])];
        case(&frames, 1, [6, 3, 255][i % 3])
    };
    [(1, 1), (2, 2), (16, 16), (5, 3), (2, 9), (15, 1)].into_iter().enumerate().map(of).collect()
}

// Two to six frames of any content and size.
fn any(kind: u64, bytes: &[u8]) -> Vec<Case> {
    let of = |i: usize| {
        felt(kind, bytes, |n| {
            let mut random = Random::new((100 * i + n) as u64);
            let mut below = |n: u64| random.below(n) as usize;
            let size = (1 + below(24) as u32, 1 + below(24) as u32);
            let (count, content) = (2 + below(5), [0, 0, 1, 1, 4, 5, 2, 3][i % 8]);
            let frames: Vec<Frame> = (0..count).map(|_| picture(size, content, below(40))).collect();
            case(&frames, below(count as u64), STRENGTHS[below(8)]).longer([below(3), below(3), below(3)])
        })
    };
    (0..16).map(of).collect()
}

// Chroma strides of 0, below the width, at it and above; planes that share bytes.
fn strides(kind: u64, bytes: &[u8]) -> Vec<Case> {
    let of = |i: usize| {
        let size = [(33, 7), (9, 33), (16, 17), (31u32, 5)][i % 4];
        let wide = size.0.div_ceil(2) as usize;
        let stride = [0, 1, wide - 1, 3, wide, wide / 2, 160, 100][i % 8];
        felt(kind, bytes, |n| {
            let of = |g: usize| {
                let shift = ((n + i + 3 * g) as i32 % 9 - 4, (2 * n + i + g) as i32 % 7 - 3);
                let [_, _, y, u, ..] = texture(size, shift, g == 1);
                let apart = (n + g) % 4;
                frame(size, [y as usize, u as usize + apart, u as usize + 9 * (i % 3) + 161 * apart], (160, stride))
            };
            let frames: Vec<Frame> = (0..3).map(of).collect();
            case(&frames, i % 3, STRENGTHS[i % 8])
        })
    };
    (0..8).map(of).collect()
}

// Luma the same, U, V or both others in every block: sums of 16 times the centre, no block counted, and no crop.
fn excluded() -> Vec<Case> {
    let of = |(i, size): (usize, (u32, u32))| {
        let other = |planes: [bool; 2]| beside(size, planes, flat_chroma(4 + i % 2));
        let mut frames = PLANES.map(other).to_vec();
        frames.insert(i % 4, flat(size, 0, 0));
        case(&frames, i % 4, [1, 6, 3, 255, 6][i]).longer([i, 3, 1])
    };
    [(1, 1), (16, 16), (18, 17), (33, 2), (2, 31)].into_iter().enumerate().map(of).collect()
}

// The centre again, which is accepted, and frames that chroma excludes, twice each.
fn repeated() -> Vec<Case> {
    let size = (18, 5);
    let (centre, lit) = (raised(size, (0, 0), [0, 0]), raised(size, (0, 0), [3, 2]));
    let moved = raised(size, (2, -1), [0, 3]);
    let windows = [
        vec![centre, centre, lit, lit],
        vec![lit, centre, lit, moved, moved],
        vec![moved, centre, centre, capped(centre, 3), capped(lit, 0)],
    ];
    windows.iter().enumerate().map(|(i, frames)| case(frames, 1, [3, 6, 5][i])).collect()
}

// One frame, and strength 0, where chroma would exclude a block.
fn cropped() -> Vec<Case> {
    let size = (18, 9);
    let lit = [raised(size, (0, 0), [0, 0]), raised(size, (0, 0), [3, 2]), raised(size, (1, 1), [1, 3])];
    let one = |strength| case(&lit[1..2], 0, strength).longer([2, 0, 1]);
    vec![one(0), one(6), case(&lit, 0, 0), case(&lit, 2, 0).longer([0, 3, 1])]
}

// 1024 frames with seven numbers of the next, of which chroma excludes some.
fn many_frames() -> Vec<Case> {
    let some: Vec<Frame> = (0..8).map(|g| raised((3, 2), (0, 0), [g % 3, g / 3])).collect();
    vec![Case { given: 1025 * 8 - 1, ..case(&some, 0, 6) }.at(1023)]
}

#[cfg(test)]
mod tests {
    use super::*;
    use crate::denoiser::pictures;

    const KINDS: [u64; 2] = [THREE_PLANES, THREE_PLANES_HALF];

    // Of each kind: the accepted blocks of each case, and those by luma alone.
    fn accepted_in(bytes: &[u8], cases: impl Fn(u64) -> Vec<Case>) -> [Vec<[u64; 2]>; 2] {
        KINDS.map(|kind| cases(kind).into_iter().map(|case| accepted(bytes, &Case { kind, ..case })).collect())
    }

    // 1 less is accepted; 13 times the area, and 1 more, is not.
    #[test]
    fn blocks_at_the_edge() {
        let bytes = pictures::all();
        let of_one = |i: usize| [u64::from(i % 3 == 0), 1];
        for (got, displaced) in accepted_in(&bytes, |_| whole_blocks_and_cut_ones())
            .into_iter()
            .zip(accepted_in(&bytes, |kind| displaced_edges(kind, &bytes)))
        {
            assert_eq!(got, (0..9 * 13).map(of_one).collect::<Vec<[u64; 2]>>());
            assert_eq!(displaced, [[1, 3]; 9]);
        }
        assert_eq!(accepted_in(&bytes, |_| second_blocks()), [vec![[4, 6]; 30], vec![[4, 6]; 30]]);
        assert_eq!(accepted_in(&bytes, |_| luma_that_fails()), [vec![[2, 2]; 8], vec![[2, 2]; 8]]);
        assert_eq!(accepted_in(&bytes, |_| zeros()), [vec![[2, 3]; 6], vec![[2, 3]; 6]]);
    }

    #[test]
    fn stripes_pass_when_filtered_or_when_copied() {
        let [copied, filtered] = accepted_in(&pictures::all(), |_| striped());
        for (i, (_, _, alike)) in STRIPED.into_iter().enumerate() {
            let [copied, filtered] = [copied[i][0], filtered[i][0]];
            assert!(if alike { filtered < copied } else { copied < filtered }, "{i}: {copied} and {filtered}");
        }
    }

    #[test]
    fn an_excluded_frame_leaves_the_centre() {
        let bytes = pictures::all();
        for case in KINDS.into_iter().flat_map(|kind| excluded().into_iter().map(move |case| Case { kind, ..case })) {
            let frames = case.frames();
            let built = build(&window(&bytes, &case, &frames), case.choice());
            let centre = vec![1600; built.output.len()];
            assert_eq!((built.sums, built.weights), (centre, vec![16; built.output.len()]));
            assert_eq!((accepted(&bytes, &case)[0], accepted(&bytes, &case)[1] > 0), (0, true));
        }
    }

    // Chroma excludes a block in each of these, and in most another is accepted.
    #[test]
    fn chroma_decides() {
        let bytes = pictures::all();
        let decided = |cases: &dyn Fn(u64) -> Vec<Case>| {
            accepted_in(&bytes, cases).map(|all| {
                let both = all.iter().filter(|[three, luma]| 0 < *three && three < luma).count();
                (all.iter().filter(|[three, luma]| three < luma).count(), both)
            })
        };
        assert_eq!(decided(&|kind| sizes(kind, &bytes)), [(20, 20); 2]);
        assert_eq!(decided(&|kind| caps(kind, &bytes)), [(10, 10); 2]);
        assert_eq!(decided(&|kind| strides(kind, &bytes)), [(8, 8), (8, 7)]);
        assert_eq!(decided(&|_| lamps()), [(8, 8); 2]);
    }
}
