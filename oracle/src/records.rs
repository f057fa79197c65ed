//! Files of records: a fixed count of 8-byte numbers, least byte first, then the payload that the kind has.
//! The numbers are: kind, expected answer, then the arguments. Signed numbers are stored with a
//! bias, so that they are not negative: a component plus 32768, a 32-bit number plus 2^31.

use crate::motion_vector::Mv;
use std::collections::BTreeMap;
use std::path::Path;

/// The last record: its expected answer is how many records stand before it.
pub const END: u64 = 99;

pub struct Records {
    numbers: usize,
    bytes: Vec<u8>,
    count: u64,
    by_kind: BTreeMap<u64, u64>,
}

impl Records {
    /// Records of so many numbers each.
    pub fn new(numbers: usize) -> Self {
        Records { numbers, bytes: Vec::new(), count: 0, by_kind: BTreeMap::new() }
    }

    pub fn add(&mut self, kind: u64, expected: u64, arguments: &[u64], payload: &[&[u8]]) {
        let mut numbers = vec![0; self.numbers];
        (numbers[0], numbers[1]) = (kind, expected);
        numbers[2..2 + arguments.len()].copy_from_slice(arguments);
        for number in numbers {
            self.bytes.extend(number.to_le_bytes());
        }
        for part in payload {
            self.bytes.extend(*part);
        }
        self.count += 1;
        *self.by_kind.entry(kind).or_default() += 1;
    }

    /// How many records of a kind there are.
    pub fn of_kind(&self, kind: u64) -> u64 {
        self.by_kind.get(&kind).copied().unwrap_or(0)
    }

    /// Writes the file with its end record.
    pub fn write(mut self, file: &Path) -> std::io::Result<()> {
        self.add(END, self.count, &[], &[]);
        println!("{}: {} records, {} bytes", file.display(), self.count, self.bytes.len());
        std::fs::write(file, &self.bytes)
    }
}

pub fn biased16(v: i16) -> u64 {
    (i64::from(v) + 32768) as u64
}

pub fn biased32(v: i32) -> u64 {
    (i64::from(v) + (1 << 31)) as u64
}

/// A vector: its row plus 65536 times its column, each plus 32768.
pub fn packed(mv: Mv) -> u64 {
    biased16(mv.row) + 65536 * biased16(mv.col)
}
