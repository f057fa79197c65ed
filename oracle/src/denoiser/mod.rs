//! The answers for the builder, over numbers and over records: the files `pictures` and `cases` of the replay's
//! data/, and its stdout.
//!
//! `pictures` is laid out in pictures.rs; the picture bytes of a case are its first ones. `cases` is a file of
//! records of 18 numbers (see records.rs). Counted from 0:
//!
//! kinds 1 to 5 and 7 to 10, the builders, by what the case is for (see `KINDS`): [1] refusal or 0, [2] length of the
//!     picture bytes, [3] numbers stored, [4] numbers given, which are the stored ones again and again, [5] centre,
//!     [6] strength, [7] how the configuration is made, [8] length of the output, [9] of the sums, [10] of the
//!     weights, [11] bytes written to the output, [12] entries written to the sums and to the weights,
//!     [13] to [16] the values of a refusal, or width, height and accepted blocks, [17] bytes of the payload;
//!     payload: the stored numbers, four bytes each, what is written to the output, then to the sums and to
//!     the weights, three bytes each; numbers have the least byte first
//! kind 6, ArnrConfig: [1] the strength stored, [6] the strength given, [7] how the configuration is made
//!
//! A frame is eight numbers; its cap is 16 in all cases but those of kind 7, some of kinds 8 to 10 and those of refusal
//! 29. Kind 8 is the builder that moves chroma by half samples, kind 9 the one that accepts a block on three planes, kind
//! 10 that one with half samples. All run over numbers and over records.
//! Each accepted case of two frames or more has its answer with the list reversed too, the centre at the place that it
//! then has: the originals, or their copies, must build the same of it.
//! A configuration is made 0 by with_strength on the default one, 1 by new, 2 by default.
//! What a call does not write, the replay expects to find as it was.

mod capped;
mod halved;
#[cfg(test)]
mod orders;
mod pictures;
mod refused;
mod three;
mod windows;
#[cfg(test)]
mod wrong;

use crate::arnr::ArnrConfig;
use crate::counts;
use crate::encoder::{EncodeError, I420Frame};
use crate::paper::denoiser::{Built, Choice, Chroma, Window, build};
use crate::records::Records;
use crate::refusals::{self, Build, Frame, NUMBERS_PER_FRAME, packed_size};
use crate::three::{by_the_originals, by_three};
use std::path::Path;

/// What the cases of each kind are for, from 1 on, in the order in which the replay prints them.
const KINDS: [&str; 10] = [
    "no frames",
    "one frame",
    "strength 0",
    "windows",
    "refusals",
    "configurations",
    "caps",
    "half samples",
    "three planes",
    "three planes, half samples",
];
const CONFIGURATIONS: u64 = 6;
const CAPS: u64 = 7;
const HALF_SAMPLES: u64 = 8;
const THREE_PLANES: u64 = 9;
const THREE_PLANES_HALF: u64 = 10;

/// What the replay has room for: picture bytes, entries of each lent slice, numbers, and bytes of a payload.
const MOST_BYTES: usize = 98304;
const MOST_LENT: usize = 40000;
const MOST_NUMBERS: usize = 8300;
const MOST_PAYLOAD: usize = 240000;

#[derive(Clone)]
struct Case {
    kind: u64,
    bytes: usize,
    stored: Vec<u32>,
    given: usize,
    centre: u64,
    strength: u8,
    made: u64,
    lent: [usize; 3],
}

struct Writer<'a> {
    pictures: &'a [u8],
    records: Records,
    /// Of the kind with half samples: refused, and accepted with another answer than with whole samples.
    halves: [u64; 2],
    /// Of the kinds on three planes: refused, accepted, of these with a block that chroma alone excludes, and of these
    /// with an accepted block too.
    three: [[u64; 4]; 2],
}

/// Writes data/pictures, data/cases and stdout, which is what a replay prints where nothing differs.
pub fn write(folder: &Path) -> std::io::Result<()> {
    let pictures = pictures::all();
    assert!(pictures.len() <= MOST_BYTES);
    let mut writer = Writer { pictures: &pictures, records: Records::new(18), halves: [0; 2], three: [[0; 4]; 2] };
    windows::add(&mut writer);
    capped::add(&mut writer);
    refused::add(&mut writer);
    add_configurations(&mut writer.records);
    halved::add(&mut writer);
    three::add(&mut writer);
    let (cases, [refused, differing]) = (writer.records.of_kind(HALF_SAMPLES), writer.halves);
    println!("half samples: {cases} cases, {refused} refused, {differing} answered otherwise than with whole samples");
    for (kind, [refused, built, excluding, both]) in [THREE_PLANES, THREE_PLANES_HALF].into_iter().zip(writer.three) {
        let (name, cases) = (KINDS[kind as usize - 1], writer.records.of_kind(kind));
        println!(
            "{name}: {cases} cases, {refused} refused, {built} built, in {excluding} of these chroma alone excludes"
        );
        println!("  a block, in {both} of these another is accepted");
    }
    std::fs::create_dir_all(folder.join("data"))?;
    std::fs::write(folder.join("data/pictures"), &pictures)?;
    std::fs::write(folder.join("stdout"), printed(&writer.records))?;
    writer.records.write(&folder.join("data/cases"))
}

fn printed(records: &Records) -> String {
    let line = |name: &str, cases: u64| format!("{name}: {cases} compared, 0 differ");
    let cases: Vec<u64> = (1..).take(KINDS.len()).map(|kind| records.of_kind(kind)).collect();
    let kinds: String = KINDS.iter().zip(&cases).map(|(name, &cases)| line(name, cases) + "\n").collect();
    let all: u64 = cases.iter().sum();
    let builds = all - records.of_kind(CONFIGURATIONS);
    let both = format!("; {builds} builds were run in both forms, over numbers and over records\n");
    kinds + &line("all", all) + &both
}

fn configuration(made: u64, strength: u8) -> ArnrConfig {
    match made {
        0 => ArnrConfig::default().with_strength(strength),
        1 => ArnrConfig::new(strength),
        _ => ArnrConfig::default(),
    }
}

fn add_configurations(records: &mut Records) {
    for strength in 0..=255 {
        for made in if strength == 0 { 0..3 } else { 0..2 } {
            let stored = configuration(made, strength).strength;
            let expected = [strength, strength.min(6), 3][made as usize];
            assert_eq!(stored, expected, "configuration {made} of {strength}");
            records.add(CONFIGURATIONS, stored.into(), &[0, 0, 0, 0, strength.into(), made], &[]);
        }
    }
}

impl Case {
    // A window of frames over all picture bytes, with slices that are just long enough.
    fn new(kind: u64, frames: &[Frame], centre: u64, strength: u8) -> Case {
        let stored = frames.concat();
        let size = frames.get(centre as usize).map(|f| (f[0].into(), f[1].into()));
        let legal = size.filter(|&(width, height)| refusals::legal_size(width, height));
        let samples = legal.map_or(0, |(width, height)| packed_size(width, height) as usize);
        let given = stored.len();
        Case { kind, bytes: pictures::LEN, stored, given, centre, strength, made: 0, lent: [samples; 3] }
    }

    // The same with slices longer by so many entries.
    fn longer(self, by: [usize; 3]) -> Case {
        let lent = std::array::from_fn(|k| self.lent[k] + by[k]);
        Case { lent, ..self }
    }

    // The same over other picture bytes, the first ones of so many.
    fn over(self, bytes: usize) -> Case {
        Case { bytes, ..self }
    }

    fn choice(&self) -> Choice {
        match self.kind {
            HALF_SAMPLES => Choice::HALF,
            THREE_PLANES => Choice::three(Chroma::Whole),
            THREE_PLANES_HALF => Choice::three(Chroma::Half),
            _ => Choice::WHOLE,
        }
    }

    fn numbers(&self) -> Vec<u32> {
        self.stored.iter().cycle().take(self.given).copied().collect()
    }

    // Numbers left over are not read.
    fn frames(&self) -> Vec<Frame> {
        self.numbers().chunks_exact(NUMBERS_PER_FRAME).map(|f| f.try_into().unwrap()).collect()
    }
}

impl Writer<'_> {
    fn put(&mut self, case: &Case) {
        let frames = case.frames();
        let (refusal, values) = self.refusal(case, &frames);
        let (built, values) = if refusal == 0 {
            let built = self.built(case, &frames);
            let size = frames[case.centre as usize];
            let values = vec![size[0].into(), size[1].into(), built.accepted];
            (built, values)
        } else {
            self.halves[0] += u64::from(case.kind == HALF_SAMPLES);
            if case.choice().three_planes {
                self.three[(case.kind - THREE_PLANES) as usize][0] += 1;
            }
            (Built::default(), values)
        };
        let payload = [
            case.stored.iter().flat_map(|n| n.to_le_bytes()).collect::<Vec<u8>>(),
            built.output.clone(),
            of_three_bytes(&built.sums),
            of_three_bytes(&built.weights),
        ]
        .concat();
        assert!(payload.len() <= MOST_PAYLOAD && case.given <= MOST_NUMBERS);
        assert!(case.lent.iter().all(|&len| len <= MOST_LENT));
        let mut numbers = [case.bytes, case.stored.len(), case.given].map(|n| n as u64).to_vec();
        numbers.extend([case.centre, case.strength.into(), case.made]);
        numbers.extend(case.lent.map(|n| n as u64));
        numbers.extend([built.output.len() as u64, built.sums.len() as u64]);
        numbers.extend([0, 1, 2, 3].map(|k| values.get(k).copied().unwrap_or(0)));
        numbers.push(payload.len() as u64);
        self.records.add(case.kind, refusal, &numbers, &[&payload]);
    }

    // The refusal with its values; 3 and 4 are the original's own errors, unless 1 or 2 comes before them.
    fn refusal(&self, case: &Case, frames: &[Frame]) -> (u64, Vec<u64>) {
        let [output, sums, weights] = case.lent.map(|n| n as u64);
        let bytes = case.bytes as u64;
        let found = refusals::of_build(Build { bytes, frames, centre: case.centre, output, sums, weights });
        if found.0 == 3 || found.0 == 4 {
            let bare = |f: &Frame| I420Frame { width: f[0], height: f[1], ..I420Frame::packed(0, 0, &[], &[], &[]) };
            let bare: Vec<I420Frame> = frames.iter().map(bare).collect();
            let said = counts::build(&bare, case.centre as usize, &configuration(case.made, case.strength)).err();
            let v: Vec<u32> = found.1.iter().map(|&n| n as u32).collect();
            let expected = match v[..] {
                [width, height] => EncodeError::InvalidDimensions { width, height },
                _ => EncodeError::ReferenceDimensionsMismatch { source: (v[2], v[3]), reference: (v[0], v[1]) },
            };
            assert_eq!(said, Some(expected));
        }
        found
    }

    // What an accepted build leaves, from the original, or from a copy of it with a lower cap, with half samples and on
    // three planes, held against document 01's rules with those of requests 6, 7 and 9.
    fn built(&mut self, case: &Case, frames: &[Frame]) -> Built {
        let config = configuration(case.made, case.strength);
        let (bytes, centre) = (&self.pictures[..case.bytes], case.centre as usize);
        let window = Window { bytes, frames, centre, strength: config.strength };
        let (got, excluded) = by_three(&window, &config, case.choice());
        assert!(
            got == build(&window, case.choice()),
            "a window of {} frames, centre {:?}",
            frames.len(),
            frames[centre]
        );
        if frames.len() > 1 {
            let (frames, centre) = reversed(frames, centre);
            let window = Window { frames: &frames, centre, ..window };
            assert!(got == by_the_originals(&window, &config, case.choice()), "another answer of the reversed list");
        }
        if case.kind == HALF_SAMPLES {
            self.halves[1] += u64::from(got != by_the_originals(&window, &config, Choice::WHOLE));
        }
        if case.choice().three_planes {
            let felt = [true, excluded > 0, excluded > 0 && got.accepted > 0];
            let counts = &mut self.three[(case.kind - THREE_PLANES) as usize];
            counts[1..].iter_mut().zip(felt).for_each(|(count, felt)| *count += u64::from(felt));
        }
        got
    }
}

// The last frame first, and where the centre then stands.
fn reversed(frames: &[Frame], centre: usize) -> (Vec<Frame>, usize) {
    (frames.iter().rev().copied().collect(), frames.len() - 1 - centre)
}

fn of_three_bytes(numbers: &[u32]) -> Vec<u8> {
    assert!(numbers.iter().all(|&n| n < 1 << 24));
    numbers.iter().flat_map(|n| n.to_le_bytes().into_iter().take(3)).collect()
}
