//! `vp8model denoise`: raw I420 frames in, one denoised picture out.

use crate::failure::Failure;
use crate::files::{append, opened, room, zeros};
use crate::model::{self, Chroma, Filled, Frame, MAX_CAP, Planes, Rule};
use crate::names::{Named, apart};
use crate::outputs::{self, Content};
use crate::progress::Progress;
use crate::say::note;
use crate::words::Words;
use std::fs::File;
use std::path::Path;

const OPTIONS: [&str; 9] =
    ["--width", "--height", "--strength", "--centre", "--caps", "--chroma", "--planes", "--sums", "--weights"];

pub fn run(words: &[String]) -> Result<(), Failure> {
    let words = Words::parse(words, &OPTIONS)?;
    let (width, height) = (words.number("--width", u32::MAX)?, words.number("--height", u32::MAX)?);
    let strength: u8 = words.number("--strength", u8::MAX)?;
    let centre: u32 = words.number("--centre", u32::MAX)?;
    let caps = words.list("--caps", u32::MAX)?;
    let rule = rule_of(&words)?;
    let [input, output] = words.files("IN.i420 and OUT.i420")?;
    let outputs = Outputs::named(&words, &input, &output)?;
    let size = Size::new(width, height);
    let (mut file, count) = counted(&input, &size)?;
    let caps = caps_of(caps, &size, count)?;
    let bytes = read_frames(&mut file, &input, &size, count)?;
    let frames = records(&input, &size, count, caps)?;
    let mut filled = lent(&size)?;
    let (samples, others) = (filled.output.len(), count.saturating_sub(1));
    let by = said(rule);
    note(&format!(
        "denoise: {count} frames of {samples} samples: {others} others into frame {centre} at strength {strength}{by}"
    ));
    let built = model::build(&bytes, &frames, centre as usize, strength, rule, &mut filled)?;
    let cropped = strength == 0 || others == 0;
    if cropped {
        filled.sums.clear();
        filled.weights.clear();
    }
    outputs.write(&filled)?;
    if cropped {
        note("denoise: the centre is only cropped: there are no sums and no weights");
    }
    let blocks = u64::from(width.div_ceil(16)) * u64::from(height.div_ceil(16)) * others;
    note(&format!("denoise: {} of {blocks} blocks accepted; {} written", built.accepted, output.display()));
    Ok(())
}

// Without the options U and V are copied, and a block is accepted on luma.
fn rule_of(words: &Words) -> Result<Rule, Failure> {
    let chroma = words.one_of("--chroma", &[("whole", Chroma::Whole), ("half", Chroma::Half)])?;
    let planes = words.one_of("--planes", &[("luma", Planes::Luma), ("three", Planes::Three)])?;
    Ok(Rule { chroma: chroma.unwrap_or(Chroma::Whole), planes: planes.unwrap_or(Planes::Luma) })
}

fn said(rule: Rule) -> &'static str {
    match (rule.chroma, rule.planes) {
        (Chroma::Whole, Planes::Luma) => "",
        (Chroma::Half, Planes::Luma) => ", with half samples in U and V",
        (Chroma::Whole, Planes::Three) => ", blocks accepted on three planes",
        (Chroma::Half, Planes::Three) => ", with half samples in U and V, blocks accepted on three planes",
    }
}

// Where the picture goes, and its sums and weights where they are asked for.
struct Outputs {
    picture: Named,
    sums: Option<Named>,
    weights: Option<Named>,
}

impl Outputs {
    // Each is a file of its own, and none is the input.
    fn named(words: &Words, input: &Path, output: &Path) -> Result<Outputs, Failure> {
        let option = |name| words.path(name).map(|path| Named::output(name, &path)).transpose();
        let picture = Named::output("OUT.i420", output)?;
        let outputs = Outputs { picture, sums: option("--sums")?, weights: option("--weights")? };
        let Outputs { picture, sums, weights } = &outputs;
        let all = [Some(picture), sums.as_ref(), weights.as_ref()];
        apart(&[&Named::input("IN.i420", input)?], &all.into_iter().flatten().collect::<Vec<_>>())?;
        Ok(outputs)
    }

    fn write(&self, filled: &Filled) -> Result<(), Failure> {
        let mut all = vec![(&self.picture, Content::Bytes(&filled.output))];
        all.extend(self.sums.iter().map(|sums| (sums, Content::Numbers(&filled.sums))));
        all.extend(self.weights.iter().map(|weights| (weights, Content::Numbers(&filled.weights))));
        outputs::write(&all)
    }
}

// A packed picture's size, in samples.
struct Size {
    width: u64,
    height: u64,
}

impl Size {
    fn new(width: u32, height: u32) -> Size {
        Size { width: width.into(), height: height.into() }
    }

    fn luma(&self) -> u64 {
        self.width * self.height
    }

    fn chroma(&self) -> u64 {
        self.width.div_ceil(2) * self.height.div_ceil(2)
    }

    // A width and a height have 32 bits, so only the sum may be too large; no file is that long.
    fn samples(&self) -> u64 {
        self.luma().saturating_add(2 * self.chroma())
    }

    // Frame g of packed ones, with the greatest cap, where its starts are 32-bit numbers.
    fn frame(&self, g: u64) -> Option<Frame> {
        let y = g.checked_mul(self.samples())?;
        let u = y.checked_add(self.luma())?;
        let v = u.checked_add(self.chroma())?;
        let [width, height, chroma] = [self.width, self.height, self.width.div_ceil(2)].map(|n| n as u32);
        let [y, u, v] = [u32::try_from(y).ok()?, u32::try_from(u).ok()?, u32::try_from(v).ok()?];
        Some(Frame { width, height, y, u, v, luma_stride: width, chroma_stride: chroma, cap: MAX_CAP })
    }
}

// What a build fills; nothing where the model will refuse the size.
fn lent(size: &Size) -> Result<Filled, Failure> {
    let legal = (1..=16383).contains(&size.width) && (1..=16383).contains(&size.height);
    let samples = if legal { size.samples() } else { 0 };
    Ok(Filled {
        output: zeros(samples, "bytes of the picture")?,
        sums: zeros(samples, "sums")?,
        weights: zeros(samples, "total weights")?,
    })
}

// The caps, where they are given: one for each frame. A size without samples has no frames to count; the model refuses
// it, whatever the caps.
fn caps_of(given: Option<Vec<u32>>, size: &Size, count: u64) -> Result<Vec<u32>, Failure> {
    match given.filter(|_| size.samples() > 0) {
        Some(caps) if caps.len() as u64 != count => {
            Err(Failure::Usage(format!("--caps has {} numbers, expected one for each of {count} frames", caps.len())))
        }
        caps => Ok(caps.unwrap_or_default()),
    }
}

// The record of each frame, with its cap where there are caps.
fn records(input: &Path, size: &Size, count: u64, caps: Vec<u32>) -> Result<Vec<Frame>, Failure> {
    let mut frames = room(count, "frame records")?;
    for g in 0..count {
        frames.push(size.frame(g).ok_or_else(|| too_far(input))?);
    }
    for (frame, cap) in frames.iter_mut().zip(caps) {
        frame.cap = cap;
    }
    Ok(frames)
}

fn too_far(input: &Path) -> Failure {
    let name = input.display();
    Failure::Files(format!("{name}: a plane starts at byte 4294967296 or later, which no 32-bit start can say"))
}

// The file and its frame count. A size without samples is one frame, for the model to refuse.
fn counted(input: &Path, size: &Size) -> Result<(File, u64), Failure> {
    let (file, len) = opened(input)?;
    let samples = size.samples();
    if samples == 0 {
        return Ok((file, 1));
    }
    let (count, rest) = (len / samples, len % samples);
    if rest != 0 {
        let Size { width, height } = size;
        return Err(Failure::Files(format!(
            "{}: {len} bytes, expected whole frames of {samples} bytes ({width} by {height}); {rest} are left over",
            input.display()
        )));
    }
    if count > 0 && size.frame(count - 1).is_none() {
        return Err(too_far(input));
    }
    Ok((file, count))
}

// The bytes of all frames.
fn read_frames(file: &mut File, input: &Path, size: &Size, count: u64) -> Result<Vec<u8>, Failure> {
    let samples = size.samples();
    if samples == 0 {
        return Ok(Vec::new());
    }
    let mut bytes = room(count * samples, "bytes of frames")?;
    let mut progress = Progress::new("denoise", "frames read", count);
    for g in 0..count {
        append(file, input, samples, &mut bytes)?;
        progress.at(g + 1);
    }
    Ok(bytes)
}
