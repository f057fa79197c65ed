//! The search of a whole picture within an allowance of comparisons. What the originals' single calls find is expected,
//! with the limits and the count of an account that is kept beside them; the account of the library's own single calls
//! and the second implementation must be the same, grant for grant.

use super::answer::{Answer, Pair};
use super::content;
use super::input::{Drawn, Input, Kind};
use super::pictures::{self, Case, Lists, OTHER, lens, macroblocks, needed, place, spoil, unlike};
use crate::model;
use crate::paper::search::{Allowed, search_picture_within};
use crate::pictures::{by_account, within};
use crate::random::Random;

/// The numbers of a whole-picture search, the allowance in the place of the limit, and the macroblocks that stand still.
#[rustfmt::skip]
const FIELDS: &[&str] = &[
    "content", "content_seed", "len", "stride", "width", "height", "source", "source_seed", "source_len",
    "source_stride", "allowance", "version", "rows_len", "cols_len", "sads_len", "still",
];

pub const KIND: Kind = Kind { name: "search_picture_luma_within", weight: 40, fields: FIELDS, draw, answers };

// Accepted in three of four. The allowance stands where the other search has its limit; half of the slopes have plenty.
fn draw(random: &mut Random) -> Drawn {
    let form = random.below(100);
    let (size, mut all) = match form {
        0..16 => draw_slope(random),
        16..46 => draw_still(random),
        46..56 => draw_any(random, |random| (1 + random.below(16), 1 + random.below(16))),
        _ => draw_any(random, pictures::draw_size),
    };
    let (count, allowance) = (macroblocks(size.0, size.1), place("max_iters"));
    all[allowance] = if form < 8 { draw_plenty(random, count) } else { draw_allowance(random, count) }.into();
    let low = random.percent(20) && spoil(random, &mut all, size, 6);
    if low || random.percent(5) {
        let least = 19 * count;
        all[allowance] = random.pick(&[least - 1, least - 1, 18 * count, 1, 0]).into();
    }
    (all, vec![])
}

type Size = (u64, u64);

// As the other search's pictures are drawn; none of them stands still.
fn draw_any(random: &mut Random, size: impl Fn(&mut Random) -> Size) -> (Size, Vec<i128>) {
    let size = size(random);
    let mut all = pictures::draw_of_size(random, size);
    all.push(0);
    (size, all)
}

// A texture that moves, but for its first macroblocks or its last ones.
fn draw_still(random: &mut Random) -> (Size, Vec<i128>) {
    let (size, mut all) = draw_any(random, |random| (17 + random.below(54), 17 + random.below(54)));
    let held = 1 + random.below(macroblocks(size.0, size.1) - 1) as i128;
    all[place("content")] = (content::TEXTURE + random.below(2)).into();
    all[place("source")] = random.pick(&[1, 1, 2, 3]);
    if random.percent(70) {
        set_strides(random, &mut all, size);
    }
    *all.last_mut().expect("those that stand still") = random.pick(&[held, -held]);
    (size, all)
}

// A slope along a row or a column of macroblocks, and a source as bright or as dark as one of its ends: the diamond of
// the macroblock at the other end walks until the range ends, where its grant is large enough.
fn draw_slope(random: &mut Random) -> (Size, Vec<i128>) {
    let (long, short) = (256 + random.below(17), 1 + random.below(16));
    let down = random.below(2);
    let (size, mut all) = draw_any(random, |_| if down == 1 { (short, long) } else { (long, short) });
    set_strides(random, &mut all, size);
    all[place("content")] = content::SLOPE.into();
    all[place("content_seed")] = (down + 2 * random.below(2)).into();
    all[place("source")] = OTHER.into();
    all[place("source_seed")] = random.pick(&[0, 255]);
    (size, all)
}

// Rows that do not overlap.
fn set_strides(random: &mut Random, all: &mut [i128], (width, height): Size) {
    for (len, stride) in [("len", "stride"), ("source_len", "source_stride")] {
        let apart = width + random.pick(&[0, 0, 1, 9]);
        all[place(stride)] = apart.into();
        all[place(len)] = needed(apart, width, height);
    }
}

// Room for a walk to the end of the range in the first macroblock.
fn draw_plenty(random: &mut Random, count: u64) -> u32 {
    let some = 1039 + random.below(1000);
    random.pick(&[1039 * count, some * count, 261_143 * count, u32::MAX.into()]) as u32
}

// At 19 for each macroblock and a few more, about other multiples of the count, plenty, and any.
fn draw_allowance(random: &mut Random, count: u64) -> u32 {
    let least = 19 * count;
    let edge = least + random.below(5);
    let (few, many) = (19 + random.below(30), 19 + random.below(1100));
    let each = random.pick(&[20, 23, 27, 31, few, few, many]);
    let near = each * count + random.below(3) - 1;
    let between = least + random.below(60 * count);
    let most = u32::MAX.into();
    let any = random.below(1 << 32);
    let one = random.pick(&[23 * count, 100 * count, 261_143 * count, most, any, between, between]);
    random.pick(&[least, edge, edge, near, near, near, one, one, one, one]).clamp(least, most) as u32
}

fn answers(input: &Input) -> Pair {
    let (case, mut lists) = (Case::of(input, input.get("still")), Lists::of(input));
    let allowance = input.get("allowance") as u32;
    let got = model::search_picture_luma_within(case.luma(), case.source(), allowance, case.version(), lists.lent());
    let said = Answer::new(got.refusal.into(), &[got.macroblocks.into(), got.comparisons.into()]);
    Pair { model: case.after(said, &lists), expected: expected(&case, input, allowance) }
}

fn expected(case: &Case, input: &Input, allowance: u32) -> Answer {
    let ruled = match search_picture_within(&case.call(lens(input)), allowance) {
        Ok(ruled) => ruled,
        Err(refusal) => return Lists::of(input).with(&[], Answer::new(refusal.into(), &[0, 0])),
    };
    let account = within(case.original(), case.source(), allowance, case.version());
    let size = (case.luma().width, case.luma().height);
    let singly = by_account(size, allowance, |mb, limit| case.single(mb, limit));
    let others = [("the second implementation", ruled), ("the single calls", singly)];
    let faults = others.iter().flat_map(|(name, other)| parting(name, other, &account)).collect();
    let said = [account.found.len() as i64, account.comparisons as i64];
    Lists::of(input).with(&account.found, Answer { faults, ..Answer::new(0, &said) })
}

// Where another account is not that of the originals.
fn parting(name: &str, other: &Allowed, account: &Allowed) -> Vec<String> {
    let (found, granted) = (format!("{name}, found"), format!("{name}, granted"));
    let count = (other.comparisons != account.comparisons)
        .then(|| format!("{name}: {} comparisons, the originals {}", other.comparisons, account.comparisons));
    let found = unlike(&found, &other.found, &account.found);
    let granted = unlike(&granted, &other.grants, &account.grants);
    [found, granted, count].into_iter().flatten().collect()
}

#[cfg(test)]
mod tests {
    use super::*;

    fn drawn(count: u64) -> Vec<Input> {
        static ONE: Kind = KIND;
        (0..count).map(|index| Input::draw(&[&ONE], 6386, index)).collect()
    }

    // Of 23, 8, 9, 14, 15 and 30 those that apply, whatever comes before them.
    fn all_that_apply(input: &Input) -> [bool; 6] {
        let ([a, b, c, d, e], count) = pictures::all_that_apply(input);
        [a, b, c, d, e, (input.get("allowance") as u128) < 19 * count]
    }

    fn accepted(count: u64) -> Vec<Input> {
        drawn(count).into_iter().filter(|input| all_that_apply(input) == [false; 6]).collect()
    }

    fn count(input: &Input) -> i128 {
        macroblocks(input.get("width") as u64, input.get("height") as u64).into()
    }

    fn share(inputs: &[Input], is: impl Fn(&Input) -> bool) -> usize {
        inputs.iter().filter(|input| is(input)).count()
    }

    #[test]
    fn allowances_come_to_every_edge() {
        let accepted = accepted(2000);
        assert!(accepted.len() > 1500, "{} accepted", accepted.len());
        let more = |by: i128| share(&accepted, |i| i.get("allowance") == 19 * count(i) + by);
        let edges = [0, 1, 2, 3, 4].map(more);
        assert!(edges.iter().all(|&n| n > 30), "from 19 for each on: {edges:?}");
        let times = |k: i128| share(&accepted, |i| i.get("allowance") == k * count(i));
        let multiples = [20, 23, 27, 31, 100, 261_143].map(times);
        assert!(multiples.iter().all(|&n| n > 10), "20, 23, 27, 31, 100 and 261143 for each: {multiples:?}");
        let beside = |by: i128| share(&accepted, |i| count(i) > 4 && (i.get("allowance") - by) % count(i) == 0);
        let (below, above) = (beside(-1), beside(1));
        assert!(below > 50 && above > 50, "{below} one below a multiple, {above} one above");
        let ends = [share(&accepted, |i| i.get("allowance") == u32::MAX.into()), share(&accepted, |i| count(i) == 1)];
        let versions = [0, 1, 2].map(|version| share(&accepted, |i| i.get("version") == version));
        assert!(ends.iter().chain(&versions).all(|&n| n > 50), "most and M = 1: {ends:?}, versions {versions:?}");
    }

    // Each refusal alone and with each other one; the first in their order is given.
    #[test]
    fn refusals_come_alone_and_together() {
        let refused: Vec<Input> = drawn(4000).into_iter().filter(|i| all_that_apply(i) != [false; 6]).collect();
        for k in 0..6 {
            let alone = share(&refused, |i| all_that_apply(i) == std::array::from_fn(|other| other == k));
            let with = |other: usize| share(&refused, |i| all_that_apply(i)[k] && all_that_apply(i)[other]);
            let pairs = [0, 1, 2, 3, 4, 5].map(with);
            assert!(alone > 10 && pairs.iter().all(|&n| n > 3), "refusal {k}: {alone} alone, {pairs:?} with another");
        }
        for input in refused {
            let first = all_that_apply(&input).iter().position(|&applies| applies).expect("a refusal");
            let said = search_picture_within(&Case::of(&input, 0).call(lens(&input)), input.get("allowance") as u32);
            assert_eq!(said, Err([23, 8, 9, 14, 15, 30][first]), "{input}");
        }
    }

    // What each macroblock makes; what it was granted is in the account.
    fn made(input: &Input) -> (Allowed, Vec<u64>) {
        let case = Case::of(input, input.get("still"));
        let (mut made, size) = (Vec::new(), (case.luma().width, case.luma().height));
        let account = by_account(size, input.get("allowance") as u32, |mb, limit| {
            let (found, sads) = case.single(mb, limit);
            made.push(sads + 18);
            (found, sads)
        });
        (account, made)
    }

    // Pictures whose first half stops at once and whose second half walks, the other way round, those in which a diamond
    // comes to the end of the range, and those in which a grant cuts a walk that a later one does not.
    #[test]
    fn drawn_pictures_stop_and_walk() {
        let (mut first, mut last, mut ends, mut cut) = (0, 0, [0; 2], 0);
        for input in accepted(2000) {
            let (account, made) = made(&input);
            let (one, other) = made.split_at(made.len() / 2);
            let stop = |half: &[u64]| !half.is_empty() && half.iter().all(|&made| made <= 23);
            let walk = |half: &[u64]| half.iter().any(|&made| made >= 31);
            first += u32::from(stop(one) && walk(other));
            last += u32::from(walk(one) && stop(other));
            for (k, end) in [1020, -1020].into_iter().enumerate() {
                let at_end = |v: i16| (i32::from(v) - end).abs() <= 3;
                ends[k] += u32::from(account.found.iter().any(|&(row, col, _)| at_end(row) || at_end(col)));
            }
            let full = |i: usize| made[i] > 23 && made[i] + 4 > account.grants[i];
            cut += u32::from((0..made.len()).any(full) && !(0..made.len()).all(full));
        }
        assert!(first > 30 && last > 30 && ends[0] > 30 && ends[1] > 30, "{first} and {last}, ends {ends:?}");
        assert!(cut > 100, "{cut} in which some walks are cut");
    }
}
