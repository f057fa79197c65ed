//! The SAD with a ceiling. The original's SAD decides the value, the second implementation the rows.

use super::answer::{Answer, Pair};
use super::guarded::Guarded;
use super::input::{Drawn, Input};
use super::planes::{draw_pair, pair};
use crate::model;
use crate::motion_search::block_sad_16x16;
use crate::paper::search::{sad, sad_up_to};
use crate::random::Random;

/// Two blocks, the rows in which they are alike, a bit for each, and the ceiling.
pub const FIELDS: &[&str] = &["src", "src_seed", "pred", "pred_seed", "alike", "ceiling"];

/// Blocks that differ in every row, in one, in some and in none; black against white. Half of the ceilings are what the
/// first rows sum up to, or a neighbour of it.
pub fn draw(random: &mut Random) -> Drawn {
    let (mut all, list) = draw_pair(random);
    if random.percent(5) {
        all.copy_from_slice(&[0, 0, 0, 255]);
    }
    let one = 1 << random.below(16);
    let some = random.below(65536);
    all.push(random.pick(&[0, 0, 0, 65535 - one, 65535 - one, some, some, 65535]).into());
    let [src, pred] = blocks(&all);
    let first = 16 * (1 + random.below(16)) as usize;
    let sum = sad(&src[..first], &pred[..first]);
    let ceiling = match random.below(100) {
        0..50 => (sum + random.below(3) as u32).saturating_sub(1),
        50..80 => random.pick(&[0, 1, 65280, 65281, u32::MAX]),
        80..90 => random.below(65536) as u32,
        _ => random.next() as u32,
    };
    all.push(ceiling.into());
    (all, list)
}

fn blocks(numbers: &[i128]) -> [Vec<u8>; 2] {
    let [src, mut pred] = pair(numbers);
    for i in (0..256).filter(|i| numbers[4] >> (i / 16) & 1 == 1) {
        pred[i] = src[i];
    }
    [src, pred]
}

pub fn answer(input: &Input) -> Pair {
    let [one, other] = blocks(&input.numbers);
    let (src, pred) = (Guarded::holding(&one, input.salt), Guarded::holding(&other, input.salt ^ 1));
    let ceiling = input.get("ceiling") as u32;
    let got = model::block_sad_16x16_up_to(src.array(), pred.array(), ceiling);
    let said = Answer::new(got.refusal.into(), &[got.sad.into(), got.rows.into()]);
    let value = block_sad_16x16(src.array(), pred.array()).min(ceiling);
    let (_, rows) = sad_up_to(&one, &other, 16, ceiling);
    let model = said.constant("src", &src).constant("pred", &pred);
    Pair { model, expected: Answer::new(0, &[value.into(), rows.into()]) }
}
