//! The model beside the originals, at scale: inputs drawn from a seed, every answer compared.
//!
//! Where a call is refused, the expected number and values come from refusals.rs, and every lent slice must
//! hold what it held; elsewhere the originals' answer decides, with the counts of counts.rs, at a version that of
//! versions.rs, with a lower cap that of caps.rs, with half samples that of halves.rs, and on three planes that of
//! three.rs. A whole picture's is that of their single calls, within an allowance with an account kept beside them.
//! Of a shuffled list that of the call on the list as it was drawn (see orders.rs).

mod allowances;
mod answer;
mod builds;
mod ceilings;
pub mod content;
pub mod guarded;
mod input;
mod numbers;
mod orders;
mod pictures;
mod planes;
mod windows;

use answer::{Answer, Pair};
use input::{Input, Kind};
use std::panic::catch_unwind;
use std::time::{Duration, Instant};

const BUILD: &str = if cfg!(feature = "simd") { "simd" } else { "plain" };

/// What the command line says.
#[derive(Clone, Copy)]
struct Run {
    inputs: u64,
    seed: u64,
    index: Option<u64>,
    plant: Option<&'static Plant>,
    trace: bool,
}

/// A wrong expectation, so that the report of a difference can be tried: of what a call says, the number at a place is
/// expected one less where the input is so. Places past these numbers are the slices, of which the first entry is; past
/// these are the numbers and the slices of a call on a shuffled list.
struct Plant {
    word: &'static str,
    call: &'static str,
    when: fn(&Input) -> bool,
    place: usize,
}

#[rustfmt::skip]
static PLANTS: [Plant; 10] = [
    Plant { word: "--plant", call: "small_diamond_search_luma", when: |i| i.get("width") > 20, place: 2 },
    Plant { word: "--plant-rows", call: "block_sad_16x16_up_to", when: |i| i.get("ceiling") > 20, place: 1 },
    Plant { word: "--plant-version", call: "quarter_pixel_refine_luma", when: |i| i.get("version") > 0, place: 2 },
    Plant { word: "--plant-picture", call: "search_picture_luma", when: |i| i.get("width") > 20, place: 3 },
    Plant { word: "--plant-count", call: "search_picture_luma_within", when: |i| i.get("allowance") > 60, place: 1 },
    Plant { word: "--plant-cap", call: "build_from_numbers", when: builds::caps_a_share, place: 7 },
    Plant { word: "--plant-half", call: builds::HALF_SAMPLE, when: builds::moves_by_half, place: 7 },
    Plant { word: "--plant-three", call: builds::THREE_PLANES[0], when: builds::chroma_excludes, place: 7 },
    Plant { word: "--plant-three-half", call: builds::THREE_PLANES[1], when: builds::chroma_excludes, place: 2 },
    Plant { word: "--plant-order", call: builds::FIRST[0], when: orders::blends_in_another_order, place: 16 },
];

/// Runs the comparison; whether every answer was the same. None where the words are not understood.
pub fn run(words: &[&str]) -> Option<bool> {
    let run = parsed(words)?;
    let (from, to) = run.index.map_or((0, run.inputs), |index| (index, index + 1));
    println!("compare: seed {}, {} inputs ({BUILD})", run.seed, to - from);
    let mut tally = Tally::new();
    let mut differences = 0;
    for index in from..to {
        let input = Input::draw(&tally.kinds, run.seed, index);
        if run.trace {
            eprintln!("compare: index {index}: {}", input.to_string().replace('\n', ";"));
        }
        let pair = answers(&input, run.plant);
        tally.add(&input, &pair);
        if !pair.same() {
            differences += 1;
            report(run, index, input);
            break;
        }
    }
    tally.print();
    let plural = if differences == 1 { "" } else { "s" };
    println!("compare: {} inputs, {differences} difference{plural} ({BUILD})", tally.done);
    Some(differences == 0)
}

fn parsed(words: &[&str]) -> Option<Run> {
    let mut run = Run { inputs: 200_000, seed: 6386, index: None, plant: None, trace: false };
    let mut words = words.iter();
    while let Some(&word) = words.next() {
        match word {
            "--quick" => run.inputs = 5_000,
            "--trace" => run.trace = true,
            "--inputs" => run.inputs = words.next()?.parse().ok()?,
            "--seed" => run.seed = words.next()?.parse().ok()?,
            "--index" => run.index = Some(words.next()?.parse().ok()?),
            _ => run.plant = Some(PLANTS.iter().find(|plant| plant.word == word)?),
        }
    }
    Some(run)
}

fn kinds() -> Vec<&'static Kind> {
    static DEFAULT: Kind = numbers::DEFAULT;
    static NUMBERS: [Kind; 14] = numbers::KINDS;
    static PLANES: [Kind; 12] = planes::KINDS;
    static PICTURES: [Kind; 2] = [allowances::KIND, pictures::KIND];
    static BUILDS: [Kind; 8] = builds::KINDS;
    std::iter::once(&DEFAULT).chain(&NUMBERS).chain(&PLANES).chain(&PICTURES).chain(&BUILDS).collect()
}

// Both answers. A panic of the original is a fault.
fn answers(input: &Input, plant: Option<&Plant>) -> Pair {
    let mut pair = catch_unwind(|| (input.kind.answers)(input)).unwrap_or_else(|cause| {
        let cause = cause.downcast_ref::<String>().cloned().unwrap_or_default();
        let faults = vec![format!("the original panicked: {cause}")];
        Pair { model: Answer::default(), expected: Answer { faults, ..Answer::default() } }
    });
    let accepted = pair.expected.refusal == 0;
    let planted = plant.filter(|p| p.call == input.kind.name && accepted && (p.when)(input));
    if let Some(plant) = planted {
        *pair.expected.places().nth(plant.place).expect("a place") -= 1;
    }
    pair
}

fn report(run: Run, index: u64, input: Input) {
    println!("compare: a difference at seed {}, index {index} ({BUILD})", run.seed);
    // an original that panics does so at each input tried
    std::panic::set_hook(Box::new(|_| {}));
    let (least, tried) = input.shrunk(|input| !answers(input, run.plant).same());
    println!("compare: the smallest input found, {tried} tried:\n  {least}");
    let pair = answers(&least, run.plant);
    print!("{}", pair.told());
    let shuffled = pair.expected.again.and_then(|_| orders::shuffled(&least));
    if let Some(shuffled) = shuffled {
        println!("  the shuffled list is that of {shuffled}");
    }
    println!("compare: again: oracle/compare --seed {} --index {index}", run.seed);
}

// Inputs by call: accepted and refused; of the accepted builds those with a lower cap beside the centre; of those with
// half samples the accepted ones that have an odd displacement, and the refused ones; of those on three planes, by chroma
// rule, the accepted ones in which chroma excludes a block whose luma passes, of these the ones with an accepted block, and
// the refused ones; of the calls on shuffled lists what orders.rs counts.
struct Tally {
    kinds: Vec<&'static Kind>,
    counts: Vec<[u64; 2]>,
    refused: Refused,
    capped: u64,
    half_moved: u64,
    half_refused: Refused,
    three_excluding: [[u64; 2]; 2],
    three_refused: [Refused; 2],
    orders: orders::Tally,
    done: u64,
    last: Instant,
}

/// By number.
type Refused = [u64; 31];

impl Tally {
    fn new() -> Tally {
        let kinds = kinds();
        let counts = vec![[0; 2]; kinds.len()];
        Tally {
            kinds,
            counts,
            refused: [0; 31],
            capped: 0,
            half_moved: 0,
            half_refused: [0; 31],
            three_excluding: [[0; 2]; 2],
            three_refused: [[0; 31]; 2],
            orders: orders::Tally::default(),
            done: 0,
            last: Instant::now(),
        }
    }

    fn add(&mut self, input: &Input, pair: &Pair) {
        let place = self.kinds.iter().position(|kind| std::ptr::eq(*kind, input.kind)).expect("a kind of the list");
        let refusal = pair.expected.refusal as usize;
        self.counts[place][usize::from(refusal > 0)] += 1;
        self.refused[refusal] += 1;
        let built = refusal == 0 && input.kind.name.starts_with("build_");
        self.capped += u64::from(built && builds::caps_a_share(input));
        if input.kind.name == builds::HALF_SAMPLE {
            self.half_moved += u64::from(built && builds::moves_by_half(input));
            self.half_refused[refusal] += 1;
        }
        if let Some(rule) = builds::THREE_PLANES.iter().position(|name| *name == input.kind.name) {
            let (accepted, excluded) = if built { builds::accepted_and_excluded(input) } else { (0, 0) };
            self.three_excluding[rule][0] += u64::from(excluded > 0);
            self.three_excluding[rule][1] += u64::from(excluded > 0 && accepted > 0);
            self.three_refused[rule][refusal] += 1;
        }
        self.orders.add(input, pair);
        self.done += 1;
        if self.last.elapsed() >= Duration::from_secs(1) {
            self.last = Instant::now();
            let count = |(kind, [a, r]): (&&Kind, &[u64; 2])| format!("{} {}", kind.name, a + r);
            let each: Vec<String> = self.kinds.iter().zip(&self.counts).map(count).collect();
            eprintln!("compare: {} done: {}", self.done, each.join(", "));
        }
    }

    fn print(&self) {
        for (kind, [accepted, refused]) in self.kinds.iter().zip(&self.counts) {
            println!("  {:<30} {accepted:>7} accepted {refused:>7} refused", kind.name);
        }
        let numbers = (1..16).chain([23, 29, 30]);
        println!("  refusals by number: {}", by_number(numbers, &self.refused));
        println!("  accepted builds in which another frame's cap is below 16: {}", self.capped);
        let numbers = || [1, 2, 3, 4, 29, 5, 6, 7].into_iter();
        println!("  {}, refusals by number: {}", builds::HALF_SAMPLE, by_number(numbers(), &self.half_refused));
        println!("  {}, accepted with an odd displacement: {}", builds::HALF_SAMPLE, self.half_moved);
        for (rule, name) in builds::THREE_PLANES.iter().enumerate() {
            let [excluding, both] = self.three_excluding[rule];
            println!("  {name}, refusals by number: {}", by_number(numbers(), &self.three_refused[rule]));
            println!("  {name}, accepted where chroma excludes a block whose luma passes: {excluding},");
            println!("    of these with an accepted block: {both}");
        }
        self.orders.print();
    }
}

fn by_number(numbers: impl Iterator<Item = usize>, counts: &Refused) -> String {
    numbers.map(|number| format!("{number}: {}", counts[number])).collect::<Vec<String>>().join(", ")
}
