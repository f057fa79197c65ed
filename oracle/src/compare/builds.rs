//! Frames as numbers, the builders' checks, and the builders: two forms of the one that moves chroma by whole samples,
//! the one that moves it by half samples, and the one that accepts a block on three planes, with either. Of all but the
//! first, and with a lower cap, the answer of the originals' copy is expected, and the second implementation must give it
//! too. Some accepted builds are made once more, on a shuffled list (see orders.rs).

use super::answer::{Answer, Pair, numbers};
use super::content;
use super::guarded::Guarded;
use super::input::{Input, Kind};
use super::orders;
use super::windows::{draw_lit_window, draw_moving_window, draw_numbers, draw_window};
use crate::arnr::ArnrConfig;
use crate::halves::{is_odd, shifts};
use crate::model;
use crate::paper::denoiser::{Built, Choice, Chroma, Window, build};
use crate::refusals::{self, Build, Frame, MAX_CAP, NUMBERS_PER_FRAME, cap};
use crate::three::{by_the_originals, by_three};

#[rustfmt::skip]
const BUILD: &[&str] = &[
    "content", "content_seed", "pitch", "bytes_len", "centre", "strength", "output_len", "sums_len", "weights_len",
];

#[rustfmt::skip]
pub const KINDS: [Kind; 8] = [
    Kind { name: "frame_count", weight: 5, fields: &[], draw: |r| (vec![], draw_numbers(r)), answers: answer_count },
    Kind { name: "frame_at", weight: 10, fields: &["g"], draw: |r| {
               let g = r.pick(&[0, 1, 2, 3, 4, 1 << 32, 1 << 63, u64::MAX, u64::MAX / 8, u64::MAX / 8 + 1]);
               (vec![g.into()], draw_numbers(r))
           }, answers: answer_at },
    Kind { name: "check_build", weight: 40, fields: BUILD, draw: draw_window, answers: answer_check },
    Kind { name: FIRST[0], weight: 90, fields: BUILD, draw: draw_window, answers: answer_numbers },
    Kind { name: FIRST[1], weight: 90, fields: BUILD, draw: draw_window, answers: answer_records },
    Kind { name: HALF_SAMPLE, weight: 90, fields: BUILD, draw: draw_moving_window, answers: answer_half_sample },
    Kind { name: THREE_PLANES[0], weight: 90, fields: BUILD, draw: draw_lit_window, answers: answer_three },
    Kind { name: THREE_PLANES[1], weight: 90, fields: BUILD, draw: draw_lit_window, answers: answer_three_half },
];

/// The builder that moves chroma by whole samples, over numbers and over records.
pub const FIRST: [&str; 2] = ["build_from_numbers", "build_arnr_altref"];
/// The builder that moves chroma by half samples.
pub const HALF_SAMPLE: &str = "build_half_sample";
/// The builder that accepts a block on three planes, with whole samples and with half samples.
pub const THREE_PLANES: [&str; 2] = ["build_three_planes", "build_three_planes_half_sample"];

fn answer_count(input: &Input) -> Pair {
    let lent = Guarded::holding(&input.list, input.salt);
    let mut pair =
        numbers(&[model::frame_count(lent.slice()) as i64], &[(input.list.len() / NUMBERS_PER_FRAME) as i64]);
    pair.model = pair.model.constant("numbers", &lent);
    pair
}

fn answer_at(input: &Input) -> Pair {
    let lent = Guarded::holding(&input.list, input.salt);
    let got = model::frame_at(lent.slice(), input.size("g"));
    let said = [got.width, got.height, got.y, got.u, got.v, got.luma_stride, got.chroma_stride, got.cap];
    let said = said.map(i64::from);
    // whole frames only: numbers left over are not read; a cap is handed out as it is
    let wanted = input.frames().get(input.size("g")).map_or([0; NUMBERS_PER_FRAME], |frame| frame.map(i64::from));
    Pair { model: Answer::new(0, &said).constant("numbers", &lent), expected: Answer::new(0, &wanted) }
}

fn lens(input: &Input) -> [usize; 3] {
    ["output_len", "sums_len", "weights_len"].map(|name| input.size(name))
}

fn bytes_of(input: &Input) -> Vec<u8> {
    let [content, seed] = ["content", "content_seed"].map(|name| input.get(name) as u64);
    content::bytes(content, seed, input.size("bytes_len"), input.size("pitch"))
}

/// The refusal and the numbers of the answer in the header's order, as the documents have them; no build is made.
pub fn checked(input: &Input, frames: &[Frame]) -> (u64, [i64; 6]) {
    let [output, sums, weights] = lens(input).map(|n| n as u64);
    let (bytes, centre) = (input.get("bytes_len") as u64, input.get("centre") as u64);
    let (refusal, values) = refusals::of_build(Build { bytes, frames, centre, output, sums, weights });
    let v = |k: usize| values[k] as i64;
    let said = match refusal {
        0 => [frames[centre as usize][0].into(), frames[centre as usize][1].into(), 0, 0, 0, 0],
        3 => [v(0), v(1), 0, 0, 0, 0],
        4 => [v(2), v(3), 0, v(0), v(1), 0],
        5 | 29 => [0, 0, 0, 0, 0, v(0)],
        _ => [0; 6],
    };
    (refusal, said)
}

fn said(got: model::Build) -> Answer {
    let numbers = [got.width, got.height, got.accepted, got.other_width, got.other_height, got.frame];
    Answer::new(got.refusal.into(), &numbers.map(i64::from))
}

fn answer_check(input: &Input) -> Pair {
    let bytes = Guarded::holding(&bytes_of(input), input.salt);
    let list = Guarded::holding(&input.list, input.salt ^ 1);
    let got = model::check_build(bytes.slice(), list.slice(), input.size("centre"), lens(input));
    let (refusal, wanted) = checked(input, &input.frames());
    let model = said(got).constant("bytes", &bytes).constant("numbers", &list);
    Pair { model, expected: Answer::new(refusal, &wanted) }
}

// The slices that a builder writes, before the call.
struct Slices {
    output: Guarded<u8>,
    sums: Guarded<u32>,
    weights: Guarded<u32>,
}

impl Slices {
    fn of(input: &Input) -> Slices {
        let [output, sums, weights] = lens(input);
        Slices {
            output: Guarded::noise(output, input.salt ^ 2),
            sums: Guarded::noise(sums, input.salt ^ 3),
            weights: Guarded::noise(weights, input.salt ^ 4),
        }
    }

    fn lent(&mut self) -> model::Lent<'_> {
        let Slices { output, sums, weights } = self;
        model::Lent { output: output.slice_mut(), sums: sums.slice_mut(), weights: weights.slice_mut() }
    }

    fn after(&self, answer: Answer) -> Answer {
        answer.written("output", &self.output).written("sums", &self.sums).written("weights", &self.weights)
    }
}

fn answer_numbers(input: &Input) -> Pair {
    over_numbers(input, model::build_from_numbers, Choice::WHOLE)
}

fn answer_half_sample(input: &Input) -> Pair {
    over_numbers(input, model::build_half_sample, Choice::HALF)
}

fn answer_three(input: &Input) -> Pair {
    over_numbers(input, model::build_three_planes, Choice::three(Chroma::Whole))
}

fn answer_three_half(input: &Input) -> Pair {
    over_numbers(input, model::build_three_planes_half_sample, Choice::three(Chroma::Half))
}

/// A builder over numbers: bytes, numbers, centre, strength and what is lent.
pub type OverNumbers = fn(&[u8], &[u32], usize, u8, model::Lent) -> model::Build;

fn over_numbers(input: &Input, call: OverNumbers, choice: Choice) -> Pair {
    answered(input, choice, |bytes, input, lent| {
        let list = Guarded::holding(&input.list, input.salt ^ 1);
        let got = call(bytes, list.slice(), input.size("centre"), input.get("strength") as u8, lent);
        said(got).constant("numbers", &list)
    })
}

/// A frame's numbers as a record.
pub fn record([width, height, y, u, v, luma_stride, chroma_stride, cap]: Frame) -> model::Frame {
    model::Frame { width, height, y, u, v, luma_stride, chroma_stride, cap }
}

fn answer_records(input: &Input) -> Pair {
    answered(input, Choice::WHOLE, |bytes, input, lent| {
        let records: Vec<model::Frame> = input.frames().into_iter().map(record).collect();
        let frames = Guarded::holding(&records, input.salt ^ 1);
        let (centre, strength) = (input.size("centre"), input.get("strength") as u8);
        let got = model::build_arnr_altref(bytes, frames.slice(), centre, strength, lent);
        said(got).constant("frames", &frames)
    })
}

// What a builder says and leaves, and what is expected; of some accepted inputs on a shuffled list too.
fn answered(input: &Input, choice: Choice, call: impl Fn(&[u8], &Input, model::Lent) -> Answer) -> Pair {
    let bytes = Guarded::holding(&bytes_of(input), input.salt);
    let made = |input: &Input| {
        let mut slices = Slices::of(input);
        let said = call(bytes.slice(), input, slices.lent());
        slices.after(said).constant("bytes", &bytes)
    };
    let mut model = made(input);
    let (mut expected, first) = built(input, bytes.slice(), choice);
    if expected.refusal == 0
        && let Some(shuffled) = orders::shuffled(input)
    {
        let before = Slices::of(&shuffled).after(Answer::default());
        expected.again = Some(Box::new(orders::expected(&model, before, input, &shuffled)));
        model.again = Some(Box::new(made(&shuffled)));
        if orders::beside_the_original(input) && original(&shuffled, bytes.slice(), choice) != first {
            expected.faults.push("the original builds otherwise of the shuffled list".to_string());
        }
    }
    Pair { model, expected }
}

/// Whether the share of a frame beside the centre has a cap below 16, of a window whose sums are written.
pub fn caps_a_share(input: &Input) -> bool {
    let lower = |(g, frame): (usize, &Frame)| g != input.size("centre") && cap(frame) < MAX_CAP;
    input.get("strength") > 0 && input.frames().iter().enumerate().any(lower)
}

/// Whether an accepted input has an accepted block that is displaced by an odd component.
pub fn moves_by_half(input: &Input) -> bool {
    let (bytes, frames) = (bytes_of(input), input.frames());
    shifts(&window(input, &bytes, &frames)).iter().any(is_odd)
}

/// Of an accepted input of `THREE_PLANES`: the accepted blocks, and those that chroma excludes whose luma passes.
pub fn accepted_and_excluded(input: &Input) -> (u64, u64) {
    let (bytes, frames) = (bytes_of(input), input.frames());
    let window = window(input, &bytes, &frames);
    let chroma = if input.kind.name == THREE_PLANES[0] { Chroma::Whole } else { Chroma::Half };
    let config = ArnrConfig::default().with_strength(window.strength);
    let (built, excluded) = by_three(&window, &config, Choice::three(chroma));
    (built.accepted, excluded)
}

/// Whether chroma excludes a block of such an input whose luma passes.
pub fn chroma_excludes(input: &Input) -> bool {
    accepted_and_excluded(input).1 > 0
}

fn window<'a>(input: &Input, bytes: &'a [u8], frames: &'a [Frame]) -> Window<'a> {
    Window { bytes, frames, centre: input.size("centre"), strength: input.get("strength") as u8 }
}

// What the originals, or their copies, build of an accepted input.
fn original(input: &Input, bytes: &[u8], choice: Choice) -> Built {
    let frames = input.frames();
    let window = window(input, bytes, &frames);
    by_the_originals(&window, &ArnrConfig::default().with_strength(window.strength), choice)
}

// What a builder is expected to say and leave: the picture, sums and weights of the original, or of its copy, in the
// first entries. With what that builds, which is nothing where the input is refused.
fn built(input: &Input, bytes: &[u8], choice: Choice) -> (Answer, Built) {
    let frames = input.frames();
    let (refusal, mut wanted) = checked(input, &frames);
    let before = Slices::of(input);
    let (mut output, mut sums) = (before.output.slice().to_vec(), before.sums.slice().to_vec());
    let mut weights = before.weights.slice().to_vec();
    let mut faults = Vec::new();
    let mut got = Built::default();
    if refusal == 0 {
        got = original(input, bytes, choice);
        let by_a_copy = choice != Choice::WHOLE || frames.iter().any(|frame| cap(frame) < MAX_CAP);
        if by_a_copy && got != build(&window(input, bytes, &frames), choice) {
            faults.push("the second implementation builds otherwise".to_string());
        }
        output[..got.output.len()].copy_from_slice(&got.output);
        sums[..got.sums.len()].copy_from_slice(&got.sums);
        weights[..got.weights.len()].copy_from_slice(&got.weights);
        wanted[2] = got.accepted as i64;
    }
    let answer = Answer::new(refusal, &wanted).holding(&output).holding(&sums).holding(&weights);
    (Answer { faults, ..answer }, got)
}

#[cfg(test)]
mod tests {
    use super::*;
    use crate::random::Random;

    // Of the windows that are drawn for three planes and blended: in how many chroma excludes a block whose luma passes, and
    // in how many of these another is accepted.
    #[test]
    fn chroma_decides_in_many_windows() {
        static CALLS: [Kind; 8] = KINDS;
        for kind in CALLS.iter().filter(|kind| THREE_PLANES.contains(&kind.name)) {
            let (mut blended, mut excluding, mut both) = (0, 0, 0);
            for seed in 0..1500 {
                let (numbers, list) = (kind.draw)(&mut Random::new(seed));
                let input = Input { kind, numbers, list, salt: 0 };
                let frames = input.frames();
                if checked(&input, &frames).0 > 0 || frames.len() < 2 || input.get("strength") == 0 {
                    continue;
                }
                let (accepted, excluded) = accepted_and_excluded(&input);
                blended += 1;
                excluding += u32::from(excluded > 0);
                both += u32::from(excluded > 0 && accepted > 0);
            }
            println!("{}: {blended} blended, {excluding} with an excluded block, {both} with both", kind.name);
            assert!(2 * excluding > blended && 4 * both > blended);
        }
    }
}
