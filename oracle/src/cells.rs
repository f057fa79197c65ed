//! The model's `clamp255` and `abs_diff` beside the originals' at every input that they can be given: all 32-bit
//! numbers, and all pairs of bytes. The originals have no call for a distance: it is the SAD of two macroblocks that
//! differ in one sample.

use crate::inverse_transform::clamp255;
use crate::model;
use crate::motion_search::block_sad_16x16;
use std::thread;

const BUILD: &str = if cfg!(feature = "simd") { "simd" } else { "plain" };

// What was compared, how many differ, and the first that does.
#[derive(Default)]
struct Seen {
    compared: u64,
    differ: u64,
    first: Option<String>,
}

impl Seen {
    fn add(&mut self, model: u8, original: u8, call: impl Fn() -> String) {
        self.compared += 1;
        if model != original {
            self.differ += 1;
            self.first.get_or_insert_with(|| format!("{} is {model}, and {original} in the original", call()));
        }
    }

    fn join(mut self, later: Seen) -> Seen {
        self.compared += later.compared;
        self.differ += later.differ;
        self.first = self.first.or(later.first);
        self
    }

    // Prints it, and says whether none differs.
    fn told(&self, call: &str, inputs: &str) -> bool {
        if let Some(first) = &self.first {
            println!("cells: {first}");
        }
        println!("cells: {call}: {} {inputs}, {} differ ({BUILD})", self.compared, self.differ);
        self.differ == 0
    }
}

/// Compares both calls; whether no answer differs. With `--plant` the original's answer for one number and one pair is
/// taken one higher, modulo 256, so that the report can be tried. None where the words are not understood.
pub fn run(words: &[&str]) -> Option<bool> {
    let (quick, plant) = match words {
        [] => (false, false),
        ["--quick"] => (true, false),
        ["--quick", "--plant"] => (true, true),
        _ => return None,
    };
    let clamped = if quick { clamps(few(), plant) } else { all_clamps() };
    assert!(quick || clamped.compared == 1 << 32, "all numbers of 32 bits");
    let clamp_same = clamped.told("clamp255", "numbers");
    let distance_same = distances(plant).told("abs_diff", "pairs");
    Some(clamp_same && distance_same)
}

fn clamps(numbers: impl IntoIterator<Item = i32>, plant: bool) -> Seen {
    let mut seen = Seen::default();
    for v in numbers {
        let planted = u8::from(plant && v == 1 << 30);
        seen.add(model::clamp255(v), clamp255(v).wrapping_add(planted), || format!("clamp255({v})"));
    }
    seen
}

// All numbers, a part of them for each processor.
fn all_clamps() -> Seen {
    let parts = thread::available_parallelism().map_or(1, |n| n.get() as i64);
    let end = |part: i64| i64::from(i32::MIN) + (part << 32) / parts;
    thread::scope(|scope| {
        let part = |part| scope.spawn(move || clamps((end(part)..end(part + 1)).map(|v| v as i32), false));
        let running: Vec<_> = (0..parts).map(part).collect();
        running.into_iter().map(|part| part.join().expect("a part")).fold(Seen::default(), Seen::join)
    })
}

// -70000 to 70000, each power of two and its opposite with their neighbours, and both ends, each once.
fn few() -> Vec<i32> {
    let mut all: Vec<i64> = (-70_000..=70_000).collect();
    for power in (0..=31).map(|bits| 1i64 << bits) {
        all.extend([power, -power].iter().flat_map(|v| v - 1..=v + 1));
    }
    let mut all: Vec<i32> = all.into_iter().filter_map(|v| i32::try_from(v).ok()).collect();
    all.sort();
    all.dedup();
    all
}

fn distances(plant: bool) -> Seen {
    let mut seen = Seen::default();
    for (a, b) in (0..=255u8).flat_map(|a| (0..=255).map(move |b| (a, b))) {
        let (mut one, mut other) = ([7; 256], [7; 256]);
        (one[100], other[100]) = (a, b);
        let distance = u8::try_from(block_sad_16x16(&one, &other)).expect("a distance of two bytes is a byte");
        let planted = u8::from(plant && (a, b) == (3, 131));
        seen.add(model::abs_diff(a, b), distance.wrapping_add(planted), || format!("abs_diff({a}, {b})"));
    }
    seen
}
