//! Request 11: one accepted build in four is made once more, on a shuffled list. The same frames stand there in any
//! order; the centre is found by its eight numbers, and where several records have them any of these is named. Numbers
//! left over, the lengths of the lent slices and what they held before are others, but in a third of these calls the
//! slices are the same. Numbers and first entries have to be those of the first call, the rest what it was; where the
//! slices are the same, every entry. The Rust's own picture of the shuffled list is held against that of the first one.

use super::answer::{Answer, Pair};
use super::builds::{FIRST, HALF_SAMPLE, THREE_PLANES};
use super::input::Input;
use crate::random::Random;
use crate::refusals::{Frame, MAX_CAP, cap, packed_size};

/// What the draws of this module are seeded with, beside an input's salt.
const SALT: u64 = 11 << 32;

/// The input of the second call of an accepted build; none in three of four. It follows from the input and its salt.
pub fn shuffled(input: &Input) -> Option<Input> {
    let mut random = Random::new(input.salt ^ SALT);
    if random.below(4) > 0 {
        return None;
    }
    let mut again = input.clone();
    if random.below(3) > 0 {
        lend_others(&mut again, &mut random);
    }
    let left_over = if random.percent(50) { 0 } else { 1 + random.below(7) };
    let left_over: Vec<u32> = (0..left_over).map(|_| random.next() as u32).collect();
    let mut frames = input.frames();
    for last in (1..frames.len()).rev() {
        frames.swap(last, random.below(last as u64 + 1) as usize);
    }
    let centre = centre_of(input);
    let places: Vec<usize> = (0..frames.len()).filter(|&g| frames[g] == centre).collect();
    again.set("centre", random.pick(&places));
    again.list = [frames.concat(), left_over].concat();
    Some(again)
}

// Slices of other lengths, P or more, and other noise in them.
fn lend_others(again: &mut Input, random: &mut Random) {
    for name in ["output_len", "sums_len", "weights_len"] {
        let more = if random.percent(40) { 0 } else { random.below(40) as usize };
        again.set(name, samples(again) + more);
    }
    again.salt = random.next();
}

fn centre_of(input: &Input) -> Frame {
    input.frames()[input.size("centre")]
}

// P.
fn samples(input: &Input) -> usize {
    let [width, height, ..] = centre_of(input).map(u64::from);
    packed_size(width, height) as usize
}

fn cropped(input: &Input) -> bool {
    input.frames().len() == 1 || input.get("strength") == 0
}

// Whether the second call's slices are those of the first one.
fn lent_the_same(input: &Input, shuffled: &Input) -> bool {
    input.salt == shuffled.salt
}

fn in_another_order(input: &Input, shuffled: &Input) -> bool {
    input.frames() != shuffled.frames()
}

/// What the second call is expected to say and leave, from what the first one said and left and from what the second
/// one's slices held before.
pub fn expected(first: &Answer, before: Answer, input: &Input, shuffled: &Input) -> Answer {
    let mut slices = before.slices;
    if lent_the_same(input, shuffled) {
        slices.clone_from(&first.slices);
    } else {
        let working = if cropped(input) { 0 } else { samples(input) };
        for (k, written) in [samples(input), working, working].into_iter().enumerate() {
            slices[k][..written].copy_from_slice(&first.slices[k][..written]);
        }
    }
    Answer { refusal: first.refusal, said: first.said.clone(), slices, ..Answer::default() }
}

/// Whether the original itself builds what is expected: the first builder with every cap 16.
pub fn beside_the_original(input: &Input) -> bool {
    FIRST.contains(&input.kind.name) && input.frames().iter().all(|frame| cap(frame) == MAX_CAP)
}

/// Whether an accepted input is made once more in another order, and its sums are written.
pub fn blends_in_another_order(input: &Input) -> bool {
    !cropped(input) && shuffled(input).is_some_and(|shuffled| in_another_order(input, &shuffled))
}

fn repeats_a_frame(input: &Input) -> bool {
    let mut frames = input.frames();
    frames.sort();
    frames.windows(2).any(|two| two[0] == two[1])
}

const BUILDERS: [&str; 5] = [FIRST[0], FIRST[1], HALF_SAMPLE, THREE_PLANES[0], THREE_PLANES[1]];

/// The second calls by builder; of these those in another order, with a frame that stands twice or more, cropped, with
/// slices that held the same before, and beside the original.
#[derive(Default)]
pub struct Tally([[u64; 6]; BUILDERS.len()]);

impl Tally {
    pub fn add(&mut self, input: &Input, pair: &Pair) {
        if pair.expected.again.is_none() {
            return;
        }
        let place = BUILDERS.iter().position(|name| *name == input.kind.name).expect("a builder");
        let shuffled = shuffled(input).expect("a second call");
        let felt = [
            true,
            in_another_order(input, &shuffled),
            repeats_a_frame(input),
            cropped(input),
            lent_the_same(input, &shuffled),
            beside_the_original(input),
        ];
        self.0[place].iter_mut().zip(felt).for_each(|(count, felt)| *count += u64::from(felt));
    }

    pub fn print(&self) {
        println!("  accepted builds that were made once more on a shuffled list:");
        for (name, [all, another, repeats, cropped, same, _]) in BUILDERS.iter().zip(self.0) {
            println!("    {name}: {all}, of these {another} in another order,");
            println!("      {repeats} with a repeated frame, {cropped} cropped, {same} with the same slices");
        }
        let original: u64 = self.0.iter().map(|counts| counts[5]).sum();
        println!("    held against the Rust's own picture of the shuffled list: {original}");
    }
}

#[cfg(test)]
mod tests {
    use super::*;
    use crate::compare::builds::{OverNumbers, checked, record};
    use crate::compare::kinds;
    use crate::model::{self, Build, Lent};
    use crate::refusals::NUMBERS_PER_FRAME;

    // The accepted builds among the first inputs, with their shuffled ones.
    fn accepted(inputs: u64) -> impl Iterator<Item = (Input, Option<Input>)> {
        let kinds = kinds();
        let drawn = (0..inputs).map(move |index| Input::draw(&kinds, 11, index));
        let built = drawn.filter(|i| BUILDERS.contains(&i.kind.name) && checked(i, &i.frames()).0 == 0);
        built.map(|input| (shuffled(&input), input)).map(|(shuffled, input)| (input, shuffled))
    }

    #[test]
    fn a_shuffled_list_has_the_same_frames_and_the_same_centre() {
        let sorted = |input: &Input| {
            let mut frames = input.frames();
            frames.sort();
            frames
        };
        for (input, again) in accepted(8000).filter_map(|(input, again)| again.map(|again| (input, again))) {
            assert_eq!(sorted(&input), sorted(&again));
            assert_eq!(centre_of(&input), centre_of(&again));
            for name in ["content", "content_seed", "pitch", "bytes_len", "strength"] {
                assert_eq!(input.get(name), again.get(name), "{name}");
            }
            assert_eq!(checked(&input, &input.frames()), checked(&again, &again.frames()));
            assert!(again.list.len() < (input.frames().len() + 1) * NUMBERS_PER_FRAME);
        }
    }

    // One of four is shuffled; in a third of these the slices are the same. An equal record is named in place of the
    // centre's own where it stood behind it, or before it, in some.
    #[test]
    fn how_often_each_kind_of_shuffled_list_is_drawn() {
        let (mut all, mut calls, mut same, mut another, mut longer, mut left_over) = (0, 0, 0, 0, 0, 0);
        let mut named = [0; 2];
        for (input, again) in accepted(40_000) {
            all += 1;
            let Some(again) = again else { continue };
            let (lens, frames) = (|i: &Input| i.numbers[6..].to_vec(), again.frames());
            calls += 1;
            same += u32::from(lent_the_same(&input, &again));
            assert!(!lent_the_same(&input, &again) || lens(&input) == lens(&again));
            another += u32::from(in_another_order(&input, &again));
            longer += u32::from(lens(&again).iter().any(|&len| len > samples(&again) as i128));
            left_over += u32::from(again.list.len() > frames.len() * NUMBERS_PER_FRAME);
            let equal = |g: &usize| frames[*g] == centre_of(&again);
            let first = (0..frames.len()).find(equal).expect("the centre");
            if (first + 1..frames.len()).any(|g| equal(&g)) {
                named[usize::from(again.size("centre") > first)] += 1;
            }
        }
        println!("{all} accepted, {calls} shuffled: {same} {another} {longer} {left_over} {named:?}");
        assert!(all > 7000 && (23 * all..27 * all).contains(&(100 * calls)), "{calls} of {all}");
        assert!((30 * calls..37 * calls).contains(&(100 * same)), "{same} of {calls} with the same slices");
        assert!(2 * another > calls && 2 * longer > calls && 3 * left_over > calls);
        assert!(named.iter().all(|&n| n > 20), "the first of equal records and another: {named:?}");
    }

    // A frame of one sample whose planes are the first byte.
    const A: Frame = [1, 1, 0, 0, 0, 0, 0, 16];

    // What each builder says and leaves of the list [A] over the byte 0: the centre is cropped.
    fn cropped_to(output: &[u8], sums: &[u32]) -> Vec<(Build, Vec<u8>, Vec<u32>)> {
        let by_records: OverNumbers = |bytes, numbers, centre, strength, lent| {
            let frames: Vec<model::Frame> =
                numbers.chunks_exact(8).map(|f| record(f.try_into().expect("eight numbers"))).collect();
            model::build_arnr_altref(bytes, &frames, centre, strength, lent)
        };
        let calls: [OverNumbers; BUILDERS.len()] = [
            model::build_from_numbers,
            by_records,
            model::build_half_sample,
            model::build_three_planes,
            model::build_three_planes_half_sample,
        ];
        let made = |call: OverNumbers| {
            let (mut output, mut sums, mut weights) = (output.to_vec(), sums.to_vec(), [7; 3]);
            let lent = Lent { output: &mut output, sums: &mut sums, weights: &mut weights };
            let said = call(&[0], &A, 0, 1, lent);
            assert_eq!((said.refusal, said.width, said.height, said.accepted, weights), (0, 1, 1, 0, [7; 3]));
            (said, output, sums)
        };
        calls.into_iter().map(made).collect()
    }

    // The law read wrongly: as one of all entries. Three and four of an output, which has P of 3.
    #[test]
    fn whole_slices() {
        for (three, four) in cropped_to(&[9; 3], &[0; 3]).into_iter().zip(cropped_to(&[9; 4], &[0; 3])) {
            assert_eq!((&three.1[..], &four.1[..]), (&[0; 3][..], &[0, 0, 0, 9][..]));
            assert_eq!((three.0, three.2), (four.0, four.2));
        }
    }

    // The law read wrongly: as one of sums and weights where the centre is only cropped.
    #[test]
    fn sums_on_a_crop() {
        for (zeros, ones) in cropped_to(&[9; 3], &[0; 3]).into_iter().zip(cropped_to(&[9; 3], &[1; 3])) {
            assert_eq!((&zeros.2[..], &ones.2[..]), (&[0; 3][..], &[1; 3][..]));
            assert_eq!((zeros.0, zeros.1), (ones.0, ones.1));
        }
    }
}
