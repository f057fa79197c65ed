//! The sharing of an allowance alone, without pictures: the second implementation shares out, comparisons are drawn within
//! each grant, and request 14's laws are tested on what comes of it.

use crate::paper::search::{rounds_within, shared_out};
use crate::random::Random;

/// The macroblocks of the largest picture.
const MOST: u64 = 1_048_576;

/// How many comparisons a macroblock makes of its grant: any number from 19 on, 19 and four for each of some rounds or
/// fewer, all, or 19.
const RULES: [fn(&mut Random, u64) -> u64; 4] =
    [|random, grant| 19 + random.below(grant - 18), by_rounds, |_, grant| grant, |_, _| 19];

// Of four neighbours a round skips some.
fn by_rounds(random: &mut Random, grant: u64) -> u64 {
    let rounds = random.below(u64::from(rounds_within(grant)) + 1);
    let skipped = if random.below(4) == 0 { random.below(rounds + 1) } else { 0 };
    19 + 4 * rounds - skipped
}

/// Shares out, and tells of each law that does not hold; whether all do.
pub fn run() -> bool {
    let mut random = Random::new(14);
    let (mut sharings, mut grants, mut broken) = (0, 0, 0);
    for (allowance, macroblocks) in large().into_iter().chain(small(&mut random)) {
        for (k, rule) in RULES.into_iter().enumerate() {
            let sharing = Sharing::of(allowance, macroblocks, |grant| rule(&mut random, grant));
            for law in sharing.broken_laws() {
                println!("shares: {allowance} among {macroblocks}, rule {k}: {law} does not hold");
                broken += 1;
            }
            sharings += 1;
            grants += macroblocks;
        }
    }
    println!("shares: {sharings} sharings, {grants} grants, {broken} broken laws");
    broken == 0
}

// The largest picture with the least allowance and the next ones, with what leaves a remainder, and with the most.
fn large() -> Vec<(u32, u64)> {
    let least = 19 * MOST as u32;
    let all = [least, least + 1, least + 4, 20 * MOST as u32 - 1, 23 * MOST as u32, u32::MAX];
    all.map(|allowance| (allowance, MOST)).to_vec()
}

// Few macroblocks and some thousands, at the least allowance, about multiples of the count, with the most, and any.
fn small(random: &mut Random) -> Vec<(u32, u64)> {
    let mut all = Vec::new();
    let any: Vec<u64> = (0..30).map(|_| 1 + random.below(3000)).collect();
    for count in [1, 2, 3, 4, 5, 7, 16, 17, 100, 396, 3600].into_iter().chain(any) {
        let (each, more) = (19 + random.below(300), random.below(200 * count));
        let about = [each * count - 1, each * count, each * count + 1, 23 * count, 100 * count];
        let least = [0, 1, 3, 4].map(|more| 19 * count + more);
        let any = random.below(1 << 32);
        let rest = [19 * count + more, any, u32::MAX.into()];
        let legal = |allowance: &u64| *allowance >= 19 * count;
        all.extend([&least[..], &about, &rest].concat().into_iter().filter(legal).map(|n| (n as u32, count)));
    }
    all
}

// What was granted and what was made of it, macroblock after macroblock, and the count that the sharing gives.
struct Sharing {
    allowance: u64,
    grants: Vec<u64>,
    made: Vec<u64>,
    comparisons: u64,
}

impl Sharing {
    fn of(allowance: u32, macroblocks: u64, mut rule: impl FnMut(u64) -> u64) -> Sharing {
        let mut made = Vec::new();
        let (grants, comparisons) = shared_out(allowance, macroblocks, |i, grant| {
            assert_eq!(i, made.len() as u64, "raster order");
            made.push(rule(grant));
            made[i as usize]
        });
        Sharing { allowance: allowance.into(), grants, made, comparisons }
    }

    fn broken_laws(&self) -> Vec<&'static str> {
        let Sharing { allowance, grants, made, comparisons } = self;
        let (count, sum) = (made.len() as u64, made.iter().sum::<u64>());
        let starved = *allowance == 19 * count;
        let before_last: u64 = made[..made.len() - 1].iter().sum();
        let laws = [
            ("a grant for each", grants.len() == made.len()),
            ("no grant below an equal share", grants.iter().all(|&grant| grant >= allowance / count)),
            ("no grant below the one before", grants.is_sorted()),
            ("no grant below 19", grants.iter().all(|&grant| grant >= 19)),
            ("none makes more than its grant", grants.iter().zip(made).all(|(grant, made)| made <= grant)),
            ("the last is granted all that remains", grants.last() == Some(&(allowance - before_last))),
            ("the count is what was made", *comparisons == sum),
            ("the count is at most the allowance", comparisons <= allowance),
            ("the count is at least 19 for each", *comparisons >= 19 * count),
            ("of 19 for each all get 19", !starved || grants.iter().all(|&grant| grant == 19)),
            ("of 19 for each all are made", !starved || comparisons == allowance),
        ];
        laws.into_iter().filter(|(_, holds)| !holds).map(|(law, _)| law).collect()
    }
}

#[cfg(test)]
mod tests {
    use super::*;

    // Three macroblocks of 23 comparisons each, granted in several wrong ways: which laws tell.
    #[test]
    fn wrong_sharings_break_a_law() {
        let of = |grants: [u64; 3], comparisons| {
            let sharing = Sharing { allowance: 100, grants: grants.to_vec(), made: vec![23; 3], comparisons };
            sharing.broken_laws()
        };
        assert_eq!(of([33, 38, 54], 69), [""; 0]);
        let last = "the last is granted all that remains";
        // equal shares, and what a grant did not use lost
        assert_eq!(of([33, 33, 33], 69), [last]);
        assert_eq!(of([33, 33, 34], 69), [last]);
        // divided by one too many, and by one too few
        assert_eq!(of([25, 25, 27], 69)[0], "no grant below an equal share");
        assert_eq!(of([50, 77, 54], 69), ["no grant below the one before"]);
        // the allowance, or the last macroblock's, as the count
        assert_eq!(of([33, 38, 54], 100), ["the count is what was made"]);
        let both = ["the count is what was made", "the count is at least 19 for each"];
        assert_eq!(of([33, 38, 54], 23), both);
    }

    #[test]
    fn the_least_allowance_leaves_nothing() {
        let of = |grants: [u64; 2], made: [u64; 2], comparisons| {
            Sharing { allowance: 38, grants: grants.to_vec(), made: made.to_vec(), comparisons }.broken_laws()
        };
        assert_eq!(of([19, 19], [19, 19], 38), [""; 0]);
        assert_eq!(of([19, 20], [19, 20], 39).len(), 4);
        assert!(of([18, 20], [18, 20], 38).contains(&"no grant below 19"));
    }
}
