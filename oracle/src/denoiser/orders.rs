//! Request 11, that the order of the frames does not matter: over all orders of four frames, over 1024 frames, and where
//! the law is read wrongly, in the smallest pair of calls that shows it. Two more such pairs are about lent slices, and
//! stand in compare/orders.rs. Each build is made by the originals, or their copies, and by document 01's rules.

use super::pictures::{capped, frame};
use super::reversed;
use crate::arnr::ArnrConfig;
use crate::paper::denoiser::{Built, Choice, Chroma, Window, build};
use crate::random::Random;
use crate::refusals::Frame;
use crate::three::by_the_originals;

const CHOICES: [Choice; 4] = [Choice::WHOLE, Choice::HALF, Choice::three(Chroma::Whole), Choice::three(Chroma::Half)];

type Builder = fn(&Window, Choice) -> Built;

fn by_both(window: &Window, choice: Choice) -> Built {
    let got = by_the_originals(window, &ArnrConfig::default().with_strength(window.strength), choice);
    assert_eq!(got, build(window, choice));
    got
}

/// Columns of a picture of one row and three blocks, and the samples of all planes.
const COLUMNS: usize = 48;
const SAMPLES: usize = 2 * COLUMNS;

// Three pictures: from the second block on the second is another in U, and the third in all planes.
fn bytes() -> Vec<u8> {
    let mut random = Random::new(11);
    let mut noisy = |level: u8| level + random.below(4) as u8;
    let level = |g: usize, plane: usize, right: bool| match (g, plane, right) {
        (1, 1, true) => 140,
        (2, _, true) => 200,
        _ => [100, 104, 97][g] + 10 * plane as u8,
    };
    let planes = (0..9).map(|i| (i / 3, i % 3));
    let samples = planes.flat_map(|(g, plane)| {
        let columns = if plane == 0 { COLUMNS } else { COLUMNS / 2 };
        (0..columns).map(move |c| (g, plane, 3 * c >= columns))
    });
    samples.map(|(g, plane, right)| noisy(level(g, plane, right))).collect()
}

fn picture(g: usize, cap: u32) -> Frame {
    let [y, u] = [g * SAMPLES, g * SAMPLES + COLUMNS];
    capped(frame((COLUMNS as u32, 1), [y, u, u + COLUMNS / 2], (COLUMNS, COLUMNS / 2)), cap)
}

// The second picture stands twice.
fn four() -> [Frame; 4] {
    [picture(0, 16), picture(1, 7), picture(2, 12), picture(1, 7)]
}

fn three() -> [Frame; 3] {
    let [first, second, third, _] = four();
    [first, second, third]
}

// One of the 24 orders.
fn ordered(frames: &[Frame; 4], order: usize) -> Vec<Frame> {
    let mut left = frames.to_vec();
    [order % 4, order / 4 % 3, order / 12, 0].map(|at| left.remove(at)).to_vec()
}

// The places of the records that have a frame's numbers.
fn places(frames: &[Frame], of: &Frame) -> Vec<usize> {
    (0..frames.len()).filter(|&g| frames[g] == *of).collect()
}

// What is built of every order of the four frames, with every place at which the centre stands.
fn in_every_order(by: Builder, centre: &Frame, strength: u8, choice: Choice) -> Vec<Built> {
    let bytes = bytes();
    let of = |frames: Vec<Frame>| {
        let built = |&centre: &usize| by(&Window { bytes: &bytes, frames: &frames, centre, strength }, choice);
        places(&frames, centre).iter().map(built).collect::<Vec<Built>>()
    };
    (0..24).flat_map(|order| of(ordered(&four(), order))).collect()
}

fn all_alike(builds: &[Built]) -> bool {
    builds.iter().all(|built| *built == builds[0])
}

#[test]
fn every_order_builds_the_same() {
    let mut lists: Vec<Vec<Frame>> = (0..24).map(|order| ordered(&four(), order)).collect();
    lists.sort();
    lists.dedup();
    assert_eq!(lists.len(), 12);
    // of three blocks in each of three other frames; U of the second picture excludes some whose luma passes
    let accepted = [[8, 8, 3], [8, 8, 3], [3, 5, 3], [4, 5, 3]];
    for (choice, accepted) in CHOICES.into_iter().zip(accepted) {
        for (centre, accepted) in three().iter().zip(accepted) {
            let builds = in_every_order(by_both, centre, 3, choice);
            assert_eq!(builds.len(), 24 * places(&four(), centre).len());
            assert!(all_alike(&builds), "{choice:?}, {centre:?}");
            assert_eq!(builds[0].accepted, accepted, "{choice:?}, {centre:?}");
        }
    }
}

// Without one of the other frames the sums are others, and others without another one.
#[test]
fn each_frame_counts_in_another_way() {
    let bytes = bytes();
    for (choice, centre) in CHOICES.into_iter().flat_map(|choice| three().map(|centre| (choice, centre))) {
        let sums = |frames: &[Frame]| {
            let centre = places(frames, &centre)[0];
            by_both(&Window { bytes: &bytes, frames, centre, strength: 3 }, choice).sums
        };
        let mut seen = vec![sums(&four())];
        // the second picture stands at 1 and at 3: one of them is another frame whatever the centre is
        for out in (0..4).filter(|&out| out == 3 || (out != 1 && four()[out] != centre)) {
            let mut frames = four().to_vec();
            frames.remove(out);
            seen.push(sums(&frames));
        }
        let all = seen.len();
        seen.sort();
        seen.dedup();
        assert_eq!((seen.len(), all), (all, if centre == picture(1, 7) { 4 } else { 3 }), "{choice:?}, {centre:?}");
    }
}

// The centre's record stands twice: the index may name either. With another cap it is another frame.
#[test]
fn either_of_two_records_is_the_centre() {
    let bytes = bytes();
    let [a, b, _] = three();
    for choice in CHOICES {
        let built = |frames: &[Frame], centre| by_both(&Window { bytes: &bytes, frames, centre, strength: 3 }, choice);
        let first = built(&[a, a, b], 0);
        assert_eq!(first.weights[0] - built(&[a, b], 0).weights[0], 16);
        for (frames, centre) in [([a, a, b], 1), ([a, b, a], 0), ([a, b, a], 2), ([b, a, a], 1), ([b, a, a], 2)] {
            assert_eq!(built(&frames, centre), first);
        }
        let lower = capped(a, 7);
        assert_eq!([built(&[a, lower], 0).weights[0], built(&[a, lower], 1).weights[0]], [23, 32]);
        assert_eq!(built(&[a, lower], 0), built(&[lower, a], 1));
    }
}

#[test]
fn a_crop_in_every_order() {
    let bytes = bytes();
    for choice in CHOICES {
        for (g, centre) in three().iter().enumerate() {
            let builds = in_every_order(by_both, centre, 0, choice);
            let output = bytes[g * SAMPLES..(g + 1) * SAMPLES].to_vec();
            assert_eq!(builds[0], Built { output, ..Built::default() });
            assert!(all_alike(&builds));
        }
    }
}

// 2 by 2, all pictures others, every cap; some are accepted and some are not.
#[test]
fn a_thousand_frames_reversed() {
    let mut random = Random::new(12);
    let bytes: Vec<u8> = (0..6 * 1024).map(|_| 70 + random.below(64) as u8).collect();
    let of = |g: usize| capped(frame((2, 2), [6 * g, 6 * g + 4, 6 * g + 5], (2, 1)), g as u32 % 17);
    let frames: Vec<Frame> = (0..1024).map(of).collect();
    for (choice, centre) in CHOICES.into_iter().flat_map(|choice| [0, 511, 1023].map(|centre| (choice, centre))) {
        let first = by_both(&Window { bytes: &bytes, frames: &frames, centre, strength: 4 }, choice);
        let (turned, there) = reversed(&frames, centre);
        assert_eq!((turned[there], turned[0], there), (frames[centre], frames[1023], 1023 - centre));
        assert_eq!(by_both(&Window { bytes: &bytes, frames: &turned, centre: there, strength: 4 }, choice), first);
        assert!((20..1000).contains(&first.accepted), "{choice:?}, {centre}: {}", first.accepted);
    }
}

/// Frames of one sample: all planes the first byte, and Y the second.
const A: Frame = [1, 1, 0, 0, 0, 0, 0, 16];
const B: Frame = [1, 1, 1, 0, 0, 0, 0, 16];

// What every builder gives; of one sample, and with U and V alike, all the same.
fn every(bytes: &[u8], frames: &[Frame], centre: usize, strength: u8) -> Built {
    let [first, others @ ..] = CHOICES.map(|choice| by_both(&Window { bytes, frames, centre, strength }, choice));
    assert!(others.iter().all(|built| *built == first));
    first
}

fn cropped_to(output: [u8; 3]) -> Built {
    Built { output: output.to_vec(), ..Built::default() }
}

// Of samples that are all 0.
fn blended(total: u32, accepted: u64) -> Built {
    Built { output: vec![0; 3], sums: vec![0; 3], weights: vec![total; 3], accepted }
}

// The same index in place of the same frame. Over one byte no picture shows it; with a lower cap the weights do.
#[test]
fn centre_by_index() {
    assert_eq!(every(&[0, 1], &[A, B], 0, 0), cropped_to([0, 0, 0]));
    assert_eq!(every(&[0, 1], &[B, A], 0, 0), cropped_to([1, 0, 0]));
    let lower = capped(A, 15);
    assert_eq!(every(&[0], &[A, lower], 0, 1), blended(31, 1));
    assert_eq!(every(&[0], &[lower, A], 0, 1), blended(32, 1));
}

#[test]
fn strength_left_out() {
    assert_eq!(every(&[0], &[A, A], 0, 0), cropped_to([0; 3]));
    assert_eq!(every(&[0], &[A, A], 0, 1), blended(32, 1));
}

#[test]
fn bytes_left_out() {
    assert_eq!(every(&[0], &[A], 0, 0), cropped_to([0; 3]));
    assert_eq!(every(&[1], &[A], 0, 0), cropped_to([1; 3]));
}

// Each frame of one list stands in the other: first where one of them is cropped, then where neither is.
#[test]
fn repeats_left_out() {
    assert_eq!(every(&[0], &[A], 0, 1), cropped_to([0; 3]));
    assert_eq!(every(&[0], &[A, A], 0, 1), blended(32, 1));
    assert_eq!(every(&[0], &[A, A, A], 0, 1), blended(48, 2));
}

// A builder that is wrong: it counts the first frame beside the centre twice.
fn order_in_the_sum(w: &Window, choice: Choice) -> Built {
    let first = usize::from(w.centre == 0);
    let frames = [w.frames, &w.frames[first..=first]].concat();
    build(&Window { frames: &frames, ..*w }, choice)
}

// A builder that is wrong: it stops before the last frame, unless that is the centre.
fn last_frame_left_out(w: &Window, choice: Choice) -> Built {
    let last = w.frames.len() - 1;
    let frames = if w.centre == last { w.frames } else { &w.frames[..last] };
    build(&Window { frames, ..*w }, choice)
}

// Total weight and sum of a centre of 100 beside 104, which weighs 8, and 100, in both orders.
#[test]
fn a_wrong_sum_is_told_by_the_order() {
    let of = |g: u32| [1, 1, g, g, g, 0, 0, 16];
    let [centre, p, q] = [0, 1, 2].map(of);
    for choice in CHOICES {
        let in_both_orders = |by: Builder| {
            [[centre, p, q], [centre, q, p]].map(|frames| {
                let built = by(&Window { bytes: &[100, 104, 100], frames: &frames, centre: 0, strength: 1 }, choice);
                (built.weights[0], built.sums[0])
            })
        };
        assert_eq!(in_both_orders(by_both), [(40, 4032); 2]);
        assert_eq!(in_both_orders(order_in_the_sum), [(48, 4864), (56, 5632)]);
        assert_eq!(in_both_orders(last_frame_left_out), [(24, 2432), (32, 3200)]);
    }
}

// Over all orders of the four frames.
#[test]
fn no_centre_and_no_choice_hides_a_wrong_sum() {
    for (choice, centre) in CHOICES.into_iter().flat_map(|choice| three().map(|centre| (choice, centre))) {
        for (name, by) in [("first twice", order_in_the_sum as Builder), ("last left out", last_frame_left_out)] {
            assert!(!all_alike(&in_every_order(by, &centre, 3, choice)), "{name}: {choice:?}, {centre:?}");
        }
    }
}
