//! The search of a whole picture. What the originals' single calls find, macroblock after macroblock, is expected; the
//! library's own single calls and the second implementation must find it too.

use super::answer::{Answer, Pair};
use super::content;
use super::guarded::Guarded;
use super::input::{Drawn, Input, Kind};
use crate::model::{self, Luma};
use crate::motion_search::LumaRef;
use crate::motion_vector::Mv;
use crate::paper::Plane;
use crate::paper::search::{PictureCall, search_picture};
use crate::pictures::{Found, by_single_calls, cut};
use crate::random::Random;
use crate::refusals::{legal_size, plane_is_short};
use std::fmt::Debug;

#[rustfmt::skip]
const FIELDS: &[&str] = &[
    "content", "content_seed", "len", "stride", "width", "height", "source", "source_seed", "source_len",
    "source_stride", "max_iters", "version", "rows_len", "cols_len", "sads_len",
];

pub const KIND: Kind = Kind { name: "search_picture_luma", weight: 100, fields: FIELDS, draw, answers };

/// The source is the reference's own bytes at 0, follows from them below this, and is other content from here on.
pub const OTHER: u64 = 4;

// Accepted in three of four.
fn draw(random: &mut Random) -> Drawn {
    let size = draw_size(random);
    let mut all = draw_of_size(random, size);
    if random.percent(25) {
        spoil(random, &mut all, size, 5);
    }
    (all, vec![])
}

/// A picture that is accepted, in the order of the fields.
pub fn draw_of_size(random: &mut Random, (width, height): (u64, u64)) -> Vec<i128> {
    let [stride, source_stride] = [0; 2].map(|_| draw_stride(random, width, height));
    let [len, source_len] = [stride, source_stride].map(|stride| {
        let more = if random.percent(30) { random.below(50) } else { 0 };
        needed(stride, width, height) + i128::from(more)
    });
    let drawn = random.below(OTHER + content::KINDS);
    let source = random.pick(&[0, 1, 1, 2, 2, 3, 3, drawn, drawn, drawn]);
    let (few, any) = (random.below(20) as u32, random.next() as u32);
    let limit = random.pick(&[0, 1, 2, few, any, 65281, u32::MAX]);
    let lists = [0; 3].map(|_| macroblocks(width, height) + if random.percent(50) { random.below(20) } else { 0 });
    let plane = [random.below(content::KINDS).into(), random.below(1 << 32).into(), len, stride.into()];
    let size = [width, height, source, random.below(1 << 32)].map(i128::from);
    let last = [source_len, source_stride.into(), limit.into(), random.below(3).into()];
    let mut all = [plane, size, last].concat();
    all.extend(lists.map(i128::from));
    all
}

pub fn macroblocks(width: u64, height: u64) -> u64 {
    width.div_ceil(16) * height.div_ceil(16)
}

// 1 to 70 both ways; one row in some; a row or a column of 1024 macroblocks in very few.
pub fn draw_size(random: &mut Random) -> (u64, u64) {
    let mut side = || match random.below(100) {
        0..65 => 1 + random.below(70),
        _ => random.pick(&[1, 2, 15, 16, 17, 31, 32, 33, 47, 48, 49, 64, 65, 70]),
    };
    let (width, height) = (side(), side());
    match random.below(800) {
        0..40 => (width, 1),
        40 => random.pick(&[(16383, 1), (1, 16383), (1000, 3)]),
        _ => (width, height),
    }
}

// At the width, above it, 0, below it; huge in a picture of one row, which needs no other.
fn draw_stride(random: &mut Random, width: u64, height: u64) -> u64 {
    match random.below(100) {
        0..40 if height == 1 => random.pick(&[1 << 32, 1 << 63, u64::MAX - 15, u64::MAX]),
        0..30 => width,
        30..55 => width + 1 + random.below(20),
        55..70 => 0,
        _ => random.below(width),
    }
}

pub fn needed(stride: u64, width: u64, height: u64) -> i128 {
    (i128::from(height) - 1) * i128::from(stride) + i128::from(width)
}

/// The place of a number.
pub fn place(name: &str) -> usize {
    FIELDS.iter().position(|field| *field == name).expect("a field")
}

/// One of so many refusals, the first five of which are 23, 8, 9, 14 and 15, in half of them another with it, and seldom
/// more. Whether the last one is among them.
pub fn spoil(random: &mut Random, all: &mut [i128], size: (u64, u64), refusals: u64) -> bool {
    let (one, any) = (random.below(refusals), random.below(refusals));
    let other = if random.percent(40) { one } else { any };
    let spoilt: Vec<bool> = (0..refusals).map(|k| [one, other].contains(&k) || random.percent(5)).collect();
    if spoilt[0] {
        all[place("version")] = random.pick(&[3, 4, 128, 255]);
    }
    if spoilt[1] {
        let side = random.pick(&["width", "height"]);
        all[place(side)] = random.pick(&[0, 0, 16384, 16384, 1 << 32, u64::MAX]).into();
    }
    if spoilt[2] {
        spoil_plane(random, all, [place("len"), place("stride")], size);
    }
    if spoilt[3] {
        spoil_plane(random, all, [place("source_len"), place("source_stride")], size);
    }
    if spoilt[4] {
        let fewer = macroblocks(size.0, size.1) - 1;
        all[place(random.pick(&["rows_len", "cols_len", "sads_len"]))] = random.pick(&[fewer, fewer, 0]).into();
    }
    *spoilt.last().expect("a refusal")
}

// One byte short, no byte, or a stride that needs more than any plane has; of some the product is small in 64 bits.
fn spoil_plane(random: &mut Random, all: &mut [i128], [len, stride]: [usize; 2], (width, height): (u64, u64)) {
    match random.below(10) {
        0..3 if height > 1 => {
            let wraps = if height > 2 { u64::MAX / (height - 1) + 1 } else { u64::MAX };
            all[stride] = random.pick(&[wraps, wraps, 1 << 63, u64::MAX]).into();
        }
        0..8 => all[len] = needed(all[stride] as u64, width, height) - 1,
        _ => all[len] = 0,
    }
}

/// Both planes and the version. Where no source stands by itself, it is the plane's bytes.
pub struct Case {
    plane: Guarded<u8>,
    len: usize,
    stride: usize,
    width: usize,
    height: usize,
    source: Option<Guarded<u8>>,
    source_len: usize,
    source_stride: usize,
    version: u8,
}

impl Case {
    /// A source of its own shows so many macroblocks of the reference as they are: the first, or below 0 the last.
    pub fn of(input: &Input, still: i128) -> Case {
        let [len, stride, width, height] = ["len", "stride", "width", "height"].map(|name| input.size(name));
        let [source_len, source_stride] = ["source_len", "source_stride"].map(|name| input.size(name));
        let [kind, seed] = ["source", "source_seed"].map(|name| input.get(name) as u64);
        let lent = if kind == 0 { len.max(source_len) } else { len };
        let [content, content_seed] = ["content", "content_seed"].map(|name| input.get(name) as u64);
        let bytes = content::bytes(content, content_seed, lent, pitch(len, stride, width));
        let plane = Guarded::holding(&bytes, input.salt);
        let (source, version) = (None, input.get("version") as u8);
        let case = Case { plane, len, stride, width, height, source, source_len, source_stride, version };
        let source = (kind > 0).then(|| {
            let mut bytes = case.drawn_source(kind, seed);
            case.hold_still(&mut bytes, still);
            Guarded::holding(&bytes, input.salt ^ 1)
        });
        Case { source, ..case }
    }

    // Whether the size is legal and both planes are long enough.
    fn is_whole(&self) -> bool {
        let (width, height) = (self.width as u64, self.height as u64);
        let enough = |len: usize, stride: usize| !plane_is_short(len as u64, stride as u64, width, height);
        legal_size(width, height) && enough(self.len, self.stride) && enough(self.source_len, self.source_stride)
    }

    fn hold_still(&self, bytes: &mut [u8], still: i128) {
        if still == 0 || !self.is_whole() {
            return;
        }
        let columns = self.width.div_ceil(16);
        let count = (columns * self.height.div_ceil(16)) as i128;
        let held = if still > 0 { 0..still } else { count + still..count };
        for (row, col) in (0..self.height).flat_map(|row| (0..self.width).map(move |col| (row, col))) {
            if held.contains(&((row / 16 * columns + col / 16) as i128)) {
                bytes[row * self.source_stride + col] = self.paper().sample(col as i64, row as i64);
            }
        }
    }

    // Where both planes are long enough the reference moved by a few samples, the same with noise, or the mean of two
    // neighbours there; rows that overlap are written one after the other.
    fn drawn_source(&self, kind: u64, seed: u64) -> Vec<u8> {
        let Case { width, height, source_len, source_stride, .. } = *self;
        if kind >= OTHER {
            return content::bytes(kind - OTHER, seed, source_len, pitch(source_len, source_stride, width));
        }
        let mut random = Random::new(seed);
        let mut bytes = random.bytes(source_len);
        if !self.is_whole() {
            return bytes;
        }
        let reach = random.pick(&[1, 4, 12]);
        let [across, down] = [0; 2].map(|_| random.below(2 * reach + 1) as i64 - reach as i64);
        let (right, below) = random.pick(&[(0, 1), (1, 0), (1, 1)]);
        let plane = self.paper();
        for (row, col) in (0..height).flat_map(|row| (0..width).map(move |col| (row, col))) {
            let at = |x: i64, y: i64| plane.sample(col as i64 + across + x, row as i64 + down + y);
            bytes[row * source_stride + col] = match kind {
                1 => at(0, 0),
                2 => at(0, 0).saturating_add(random.below(9) as u8),
                _ => ((u16::from(at(0, 0)) + u16::from(at(right, below))) / 2) as u8,
            };
        }
        bytes
    }

    fn reference(&self) -> &[u8] {
        &self.plane.slice()[..self.len]
    }

    pub fn source(&self) -> (&[u8], usize) {
        (&self.source.as_ref().unwrap_or(&self.plane).slice()[..self.source_len], self.source_stride)
    }

    pub fn luma(&self) -> Luma<'_> {
        let Case { stride, width, height, .. } = *self;
        Luma { plane: self.reference(), stride, width, height }
    }

    fn paper(&self) -> Plane<'_> {
        let Case { stride, width, height, .. } = *self;
        Plane { bytes: self.reference(), stride, width, height }
    }

    pub fn version(&self) -> u8 {
        self.version
    }

    /// As the originals take the reference.
    pub fn original(&self) -> LumaRef<'_> {
        let Luma { plane, stride, width, height } = self.luma();
        LumaRef { plane, stride, width, height }
    }

    /// A macroblock by the library's single calls, none of them refused, and the SADs of the diamond.
    pub fn single(&self, mb: (usize, usize), limit: u32) -> (Found, u64) {
        let (luma, src) = (self.luma(), cut(self.source(), (self.width, self.height), mb));
        let whole = model::small_diamond_search_luma(luma, mb, &src, Mv::default(), limit);
        let mv = Mv { row: whole.row, col: whole.col };
        let half = model::half_pixel_refine_luma(luma, mb, &src, mv, self.version);
        let mv = Mv { row: half.row, col: half.col };
        let quarter = model::quarter_pixel_refine_luma(luma, mb, &src, mv, self.version);
        assert_eq!([whole.refusal, half.refusal, quarter.refusal], [0; 3], "macroblock {mb:?}");
        ((quarter.row, quarter.col, quarter.sad), whole.sads.into())
    }

    // All of them.
    fn singly(&self, limit: u32) -> Vec<Found> {
        let columns = self.width.div_ceil(16);
        let found = |i: usize| self.single((i % columns, i / columns), limit).0;
        (0..columns * self.height.div_ceil(16)).map(found).collect()
    }

    pub fn call(&self, lists: [usize; 3]) -> PictureCall<'_> {
        let ((source, source_stride), Luma { plane, stride, width, height }) = (self.source(), self.luma());
        let [stride, width, height, source_stride] = [stride, width, height, source_stride].map(|n| n as u64);
        PictureCall { plane, stride, width, height, source, source_stride, version: self.version, lists }
    }

    /// An answer with what the call did to the planes and left in the lists.
    pub fn after(&self, answer: Answer, lists: &Lists) -> Answer {
        let said = answer.constant("plane", &self.plane);
        let said = self.source.iter().fold(said, |said, source| said.constant("source", source));
        said.written("rows", &lists.rows).written("cols", &lists.cols).written("sads", &lists.sads)
    }
}

fn pitch(len: usize, stride: usize, width: usize) -> usize {
    if stride == 0 || stride > len { width } else { stride }
}

/// The lists, before the call.
pub struct Lists {
    rows: Guarded<i16>,
    cols: Guarded<i16>,
    sads: Guarded<u32>,
}

impl Lists {
    pub fn of(input: &Input) -> Lists {
        let [rows, cols, sads] = lens(input);
        Lists {
            rows: Guarded::noise(rows, input.salt ^ 2),
            cols: Guarded::noise(cols, input.salt ^ 3),
            sads: Guarded::noise(sads, input.salt ^ 4),
        }
    }

    pub fn lent(&mut self) -> model::Lists<'_> {
        let Lists { rows, cols, sads } = self;
        model::Lists { rows: rows.slice_mut(), cols: cols.slice_mut(), sads: sads.slice_mut() }
    }

    /// An answer whose lists hold what is found, and behind it what they held.
    pub fn with(mut self, found: &[Found], answer: Answer) -> Answer {
        let model::Lists { rows, cols, sads } = self.lent();
        for (i, one) in found.iter().enumerate() {
            (rows[i], cols[i], sads[i]) = *one;
        }
        answer.holding(rows).holding(cols).holding(sads)
    }
}

pub fn lens(input: &Input) -> [usize; 3] {
    ["rows_len", "cols_len", "sads_len"].map(|name| input.size(name))
}

fn answers(input: &Input) -> Pair {
    let (case, mut lists, limit) = (Case::of(input, 0), Lists::of(input), input.get("max_iters") as u32);
    let got = model::search_picture_luma(case.luma(), case.source(), limit, case.version, lists.lent());
    let said = Answer::new(got.refusal.into(), &[got.macroblocks.into()]);
    Pair { model: case.after(said, &lists), expected: expected(&case, input, limit) }
}

fn expected(case: &Case, input: &Input, limit: u32) -> Answer {
    let ruled = match search_picture(&case.call(lens(input)), limit) {
        Ok(found) => found,
        Err(refusal) => return Lists::of(input).with(&[], Answer::new(refusal.into(), &[0])),
    };
    let found = by_single_calls(case.original(), case.source(), limit, case.version);
    let faults = [("the second implementation", ruled), ("the single calls", case.singly(limit))];
    let faults = faults.iter().filter_map(|(name, other)| unlike(name, other, &found)).collect();
    Lists::of(input).with(&found, Answer { faults, ..Answer::new(0, &[found.len() as i64]) })
}

/// The first macroblock at which another finds something else than the originals.
pub fn unlike<T: PartialEq + Debug>(name: &str, other: &[T], found: &[T]) -> Option<String> {
    let i = (0..other.len().max(found.len())).find(|&i| other.get(i) != found.get(i))?;
    Some(format!("macroblock {i}: {name}: {:?}, the originals {:?}", other.get(i), found.get(i)))
}

/// Of 23, 8, 9, 14 and 15 those that apply, whatever comes before them, and the macroblocks.
#[cfg(test)]
pub fn all_that_apply(input: &Input) -> ([bool; 5], u128) {
    let number = |name: &str| input.get(name) as u64;
    let (width, height) = (number("width"), number("height"));
    let short = |len, stride| plane_is_short(number(len), number(stride), width, height.max(1));
    let count = u128::from(width).div_ceil(16) * u128::from(height).div_ceil(16);
    let list = lens(input).iter().any(|&n| (n as u128) < count);
    let size = !legal_size(width, height);
    ([number("version") > 2, size, short("len", "stride"), short("source_len", "source_stride"), list], count)
}

#[cfg(test)]
mod tests {
    use super::*;

    fn drawn(count: u64) -> impl Iterator<Item = Input> {
        static ONE: Kind = KIND;
        (0..count).map(|index| Input::draw(&[&ONE], 6386, index))
    }

    // How many of the drawn pictures are so.
    fn share(inputs: &[Input], is: impl Fn(&Input) -> bool) -> usize {
        inputs.iter().filter(|input| is(input)).count()
    }

    fn all_that_apply(input: &Input) -> [bool; 5] {
        super::all_that_apply(input).0
    }

    #[test]
    fn accepted_pictures_come_to_every_edge() {
        let accepted: Vec<Input> = drawn(2000).filter(|input| all_that_apply(input) == [false; 5]).collect();
        assert!(accepted.len() > 1400, "{} accepted", accepted.len());
        for stride in ["stride", "source_stride"] {
            let by = |is: fn(i128, i128) -> bool| share(&accepted, |i| is(i.get(stride), i.get("width")));
            let kinds = [by(|s, _| s == 0), by(|s, w| s > 0 && s < w), by(|s, w| s == w), by(|s, w| s > w)];
            assert!(kinds.iter().all(|&n| n > 150), "{stride} 0, below, at and above the width: {kinds:?}");
            let ends = [1 << 63, u64::MAX].map(|end| share(&accepted, |i| i.get(stride) == i128::from(end)));
            assert!(ends.iter().all(|&n| n > 3), "{stride} at the ends: {ends:?}");
        }
        let limits = [0, 1, 2, 65281, u32::MAX].map(|limit| share(&accepted, |i| i.get("max_iters") == limit.into()));
        let versions = [0, 1, 2].map(|version| share(&accepted, |i| i.get("version") == version));
        assert!(limits.iter().chain(&versions).all(|&n| n > 150), "limits {limits:?}, versions {versions:?}");
        let count = |i: &Input| macroblocks(i.get("width") as u64, i.get("height") as u64) as usize;
        let longer = share(&accepted, |i| lens(i).iter().all(|&n| n > count(i)));
        let same = share(&accepted, |i| i.get("source") == 0);
        assert!(longer > 100 && same > 150, "{longer} with longer lists, {same} that are their own source");
    }

    // Each refusal alone and with each other one; the first in their order is given.
    #[test]
    fn refusals_come_alone_and_together() {
        let refused: Vec<Input> = drawn(2000).filter(|input| all_that_apply(input) != [false; 5]).collect();
        for k in 0..5 {
            let alone = share(&refused, |i| all_that_apply(i) == std::array::from_fn(|other| other == k));
            let with = |other: usize| share(&refused, |i| all_that_apply(i)[k] && all_that_apply(i)[other]);
            let pairs = [0, 1, 2, 3, 4].map(with);
            assert!(alone > 10 && pairs.iter().all(|&n| n > 3), "refusal {k}: {alone} alone, {pairs:?} with another");
        }
        for input in refused {
            let first = all_that_apply(&input).iter().position(|&applies| applies).expect("a refusal");
            let said = search_picture(&Case::of(&input, 0).call(lens(&input)), 0);
            assert_eq!(said, Err([23, 8, 9, 14, 15][first]), "{input}");
        }
    }

    // Where a diamond ends, neighbours beside it are better in many: all three searches are at work.
    #[test]
    fn drawn_pictures_move() {
        let (mut all, mut whole, mut half, mut quarter) = (0, 0, 0, 0);
        for input in drawn(150).filter(|input| all_that_apply(input) == [false; 5]) {
            let (case, limit) = (Case::of(&input, 0), input.get("max_iters") as u32);
            for (row, col, _) in by_single_calls(case.original(), case.source(), limit, case.version) {
                all += 1;
                match (row, col) {
                    (0, 0) => {}
                    _ if row % 4 == 0 && col % 4 == 0 => whole += 1,
                    _ if row % 2 == 0 && col % 2 == 0 => half += 1,
                    _ => quarter += 1,
                }
            }
        }
        let moved = [whole, half, quarter];
        assert!(moved.iter().all(|&n| n * 20 > all), "of {all} whole, half and quarter: {moved:?}");
    }
}
