//! Cases of `clamp255`, `abs_diff`, `stored_luma_mv`, `whole_offset`, `fraction` and
//! `filter_set_for_version`. The originals have no call of their own for three of these: a distance is
//! the SAD of two macroblocks that differ in one sample, a whole offset is seen in what a fetch reads,
//! and a fraction is what `apply_full_pixel` takes away.

use super::COMPONENTS;
use crate::inverse_transform::clamp255;
use crate::motion_comp::{
    FilterSet, apply_full_pixel, fetch_luma_mb_whole_pixel, filter_set_for_version, stored_luma_mv,
};
use crate::motion_search::block_sad_16x16;
use crate::motion_vector::Mv;
use crate::paper;
use crate::random::Random;
use crate::records::{Records, biased16, biased32, packed};

pub fn add(records: &mut Records) {
    for v in clamped_numbers() {
        assert_eq!(i32::from(clamp255(v)), v.clamp(0, 255), "{v} clamped");
        records.add(5, clamp255(v).into(), &[biased32(v)], &[]);
    }
    for a in 0..=255 {
        let row: [u8; 256] = std::array::from_fn(|b| distance(a, b as u8));
        assert_eq!(row, std::array::from_fn(|b| a.abs_diff(b as u8)), "distances from {a}");
        records.add(6, 0, &[a.into()], &[&row]);
    }
    for mv in vectors() {
        let twice = stored_luma_mv(mv);
        assert_eq!((twice.row, twice.col), (paper::doubled(mv.row), paper::doubled(mv.col)), "{mv:?} doubled");
        records.add(7, packed(twice), &[packed(mv)], &[]);
    }
    for v in components() {
        let (whole, fraction) = (offset_read(v), fraction_cut(v));
        assert_eq!((whole, fraction), (paper::whole(v), paper::fraction(v)), "component {v}");
        records.add(8, biased32(whole), &[biased16(v)], &[]);
        records.add(9, fraction.into(), &[biased16(v)], &[]);
    }
    for version in 0..=255 {
        let set = match filter_set_for_version(version) {
            FilterSet::Sixtap => 0,
            FilterSet::Bilinear => 1,
        };
        assert_eq!(set, u64::from(version != 0), "filter set of version {version}");
        records.add(10, set, &[version.into()], &[]);
    }
}

fn clamped_numbers() -> Vec<i32> {
    let mut all = vec![i32::MIN, i32::MIN + 1, i32::MAX - 1, i32::MAX, -65536, -32768, 32767, 65535, 65536];
    all.extend(-260..-250);
    all.extend(-5..5);
    all.extend(120..136);
    all.extend(250..262);
    let mut random = Random::new(4);
    all.extend((0..32).map(|_| random.next() as i32));
    all.extend((0..32).map(|_| random.below(1024) as i32 - 384));
    all
}

fn distance(a: u8, b: u8) -> u8 {
    let (mut one, mut other) = ([7; 256], [7; 256]);
    (one[100], other[100]) = (a, b);
    u8::try_from(block_sad_16x16(&one, &other)).expect("a distance of two bytes is a byte")
}

fn vectors() -> Vec<Mv> {
    let mut all: Vec<Mv> = Vec::new();
    for row in COMPONENTS {
        all.extend(COMPONENTS.iter().map(|&col| Mv { row, col }));
    }
    let mut random = Random::new(5);
    all.extend((0..32).map(|_| Mv { row: random.component(), col: random.component() }));
    all
}

fn components() -> Vec<i16> {
    let mut all = COMPONENTS.to_vec();
    all.extend(-18..=18);
    all.extend([2046, -2046, 2040, -2040, 16383, 16384, -16384, -16385, 32760, 32759, -32760, -32761]);
    let mut random = Random::new(6);
    all.extend((0..64).map(|_| random.component()));
    all
}

// A row of samples that spell their own column in two planes, read from column 8000 on.
fn offset_read(v: i16) -> i32 {
    let read = |shift: usize| {
        let row: Vec<u8> = (0..16383).map(|column: usize| (column >> shift) as u8).collect();
        let block = fetch_luma_mb_whole_pixel(&row, 16383, 16383, 1, 8000, 0, Mv { row: 0, col: v });
        i32::from(block[0])
    };
    read(0) + 256 * read(8) - 8000
}

fn fraction_cut(v: i16) -> u32 {
    let cut = apply_full_pixel(Mv { row: v, col: 0 }).row;
    u32::try_from(i32::from(v) - i32::from(cut)).expect("a fraction is not negative")
}
