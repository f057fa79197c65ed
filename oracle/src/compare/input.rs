//! An input is a call, its numbers by name, and for the builders a list of frames' numbers. All pictures follow
//! from numbers too, so that one greedy loop makes any input smaller.

use super::answer::Pair;
use crate::random::Random;
use crate::refusals::{Frame, MAX_CAP, NUMBERS_PER_FRAME};
use std::fmt;

const STEPS: usize = 7;

/// What is drawn at random: the numbers in the order of the kind's fields, and the list.
pub type Drawn = (Vec<i128>, Vec<u32>);

/// A call: how often it is drawn, the names of its numbers, how they are drawn, and the two answers.
pub struct Kind {
    pub name: &'static str,
    pub weight: u64,
    pub fields: &'static [&'static str],
    pub draw: fn(&mut Random) -> Drawn,
    pub answers: fn(&Input) -> Pair,
}

#[derive(Clone)]
pub struct Input {
    pub kind: &'static Kind,
    pub numbers: Vec<i128>,
    pub list: Vec<u32>,
    /// For what no answer may depend on: guards, and what the lent slices hold before.
    pub salt: u64,
}

impl Input {
    /// The input of an index: the same whatever was drawn before.
    pub fn draw(kinds: &[&'static Kind], seed: u64, index: u64) -> Input {
        let salt = Random::new(seed).next() ^ Random::new(!index).next();
        let mut random = Random::new(salt);
        let mut at = random.below(kinds.iter().map(|kind| kind.weight).sum());
        let chosen = kinds.iter().find(|kind| {
            let here = at < kind.weight;
            at = at.wrapping_sub(kind.weight);
            here
        });
        let kind = chosen.expect("the weights' sum bounds the draw");
        let (numbers, list) = (kind.draw)(&mut random);
        assert_eq!(numbers.len(), kind.fields.len(), "{}", kind.name);
        Input { kind, numbers, list, salt }
    }

    fn place(&self, name: &str) -> usize {
        let place = self.kind.fields.iter().position(|field| *field == name);
        place.unwrap_or_else(|| panic!("{} has no number {name}", self.kind.name))
    }

    pub fn get(&self, name: &str) -> i128 {
        self.numbers[self.place(name)]
    }

    pub fn set(&mut self, name: &str, to: usize) {
        let place = self.place(name);
        self.numbers[place] = to as i128;
    }

    pub fn size(&self, name: &str) -> usize {
        self.get(name) as usize
    }

    /// The frames of eight numbers; numbers left over are not read.
    pub fn frames(&self) -> Vec<Frame> {
        self.list.chunks_exact(NUMBERS_PER_FRAME).map(|f| f.try_into().expect("eight numbers")).collect()
    }

    // Inputs that are smaller by one step, the greatest steps first.
    fn smaller(&self) -> Vec<Input> {
        let mut all = Vec::new();
        let frames = self.list.len() / NUMBERS_PER_FRAME;
        let mut run = frames.div_ceil(2);
        while run > 0 {
            for from in (0..frames).step_by(run) {
                let mut list = self.list.clone();
                list.drain(from * NUMBERS_PER_FRAME..((from + run) * NUMBERS_PER_FRAME).min(list.len()));
                all.push(Input { list, ..self.clone() });
            }
            run /= 2;
        }
        all.extend((0..self.numbers.len()).flat_map(|k| steps(self.numbers[k]).map(move |v| (k, v))).map(|(k, v)| {
            let mut next = self.clone();
            next.numbers[k] = v;
            next
        }));
        all.extend(self.smaller_frames());
        all.retain(|next| next.numbers != self.numbers || next.list != self.list);
        all
    }

    // The same number of all frames at once, then, of a short list, each by itself.
    fn smaller_frames(&self) -> Vec<Input> {
        let mut all = Vec::new();
        for k in 0..self.list.len().min(NUMBERS_PER_FRAME) {
            for step in 0..STEPS {
                let plainer =
                    |(i, &v): (usize, &u32)| if i % NUMBERS_PER_FRAME == k { frame_steps(i, v)[step] } else { v };
                let list = self.list.iter().enumerate().map(plainer).collect();
                all.push(Input { list, ..self.clone() });
            }
        }
        if self.list.len() <= 10 * NUMBERS_PER_FRAME {
            for (k, step) in (0..self.list.len()).flat_map(|k| (0..STEPS).map(move |step| (k, step))) {
                let mut next = self.clone();
                next.list[k] = frame_steps(k, next.list[k])[step];
                all.push(next);
            }
        }
        all
    }

    /// The smallest input found that still differs, by greedy steps, and the inputs tried.
    pub fn shrunk(self, differs: impl Fn(&Input) -> bool) -> (Input, usize) {
        let (mut best, mut tried) = (self, 0);
        loop {
            let next = best.smaller().into_iter().find(|next| {
                tried += 1;
                tried < 50_000 && differs(next)
            });
            match next {
                Some(next) => best = next,
                None => return (best, tried),
            }
        }
    }
}

// Toward 0, the greatest step first.
fn steps(v: i128) -> [i128; STEPS] {
    [0, v / 2, v - v / 4, v - v / 32, v - v / 1024, v - v / 65536, v - v.signum()]
}

// Of a number in the list: toward 0, a cap toward 16, where it does nothing.
fn frame_steps(place: usize, v: u32) -> [u32; STEPS] {
    let plain = if place % NUMBERS_PER_FRAME == NUMBERS_PER_FRAME - 1 { MAX_CAP.into() } else { 0 };
    steps(i128::from(v) - plain).map(|step| (plain + step) as u32)
}

impl fmt::Display for Input {
    fn fmt(&self, f: &mut fmt::Formatter) -> fmt::Result {
        let numbers: Vec<String> =
            self.kind.fields.iter().zip(&self.numbers).map(|(field, v)| format!("{field} {v}")).collect();
        write!(f, "{}: {}", self.kind.name, numbers.join(", "))?;
        for frame in self.list.chunks(NUMBERS_PER_FRAME) {
            write!(f, "\n  frame {frame:?}")?;
        }
        Ok(())
    }
}

#[cfg(test)]
mod tests {
    use super::*;

    #[test]
    fn a_cap_goes_toward_16_and_the_rest_toward_0() {
        let ends = |place: usize, v: u32| {
            let mut ways: Vec<u32> = frame_steps(place, v).into_iter().filter(|&w| w != v).collect();
            ways.sort();
            (ways.first().copied(), ways.last().copied())
        };
        assert_eq!([6, 8].map(|place| ends(place, 9)), [(Some(0), Some(8)); 2]);
        assert_eq!([7, 15].map(|place| ends(place, 9)), [(Some(10), Some(16)); 2]);
        assert_eq!([7, 15].map(|place| ends(place, 0)), [(Some(1), Some(16)); 2]);
        assert_eq!(ends(7, u32::MAX), (Some(16), Some(u32::MAX - 1)));
        assert_eq!((ends(7, 17), ends(7, 16), ends(6, 0)), ((Some(16), Some(16)), (None, None), (None, None)));
    }

    // Of three frames with five numbers left over: frames are taken away whole, and one number changes at a time, in one
    // frame or in each.
    #[test]
    fn a_list_is_made_smaller_by_frames() {
        static KIND: Kind =
            Kind { name: "", weight: 1, fields: &[], draw: |_| (vec![], vec![]), answers: |_| unreachable!() };
        let list: Vec<u32> = (100..100 + 3 * 8 + 5).collect();
        let input = Input { kind: &KIND, numbers: vec![], list: list.clone(), salt: 0 };
        let smaller: Vec<Vec<u32>> = input.smaller().into_iter().map(|next| next.list).collect();
        let (shorter, same_length): (Vec<_>, Vec<_>) = smaller.into_iter().partition(|next| next.len() < list.len());
        let without = |from: usize, to: usize| [&list[..from], &list[to..]].concat();
        assert_eq!(shorter, [without(0, 16), without(16, 29), without(0, 8), without(8, 16), without(16, 24)]);
        let changed = |next: &Vec<u32>| (0..list.len()).filter(|&i| next[i] != list[i]).collect::<Vec<usize>>();
        let places: Vec<Vec<usize>> = same_length.iter().map(changed).collect();
        assert!(places.iter().all(|all| all.iter().all(|i| i % 8 == all[0] % 8)));
        assert!([vec![7, 15, 23], vec![7], vec![15], vec![0, 8, 16, 24], vec![28]].iter().all(|p| places.contains(p)));
    }
}
