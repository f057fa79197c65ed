//! Slices lent to the model. Each lies in a larger buffer, at any place in it, and no entry beside it may change.

use crate::model::Frame;
use crate::random::Random;

const GUARD: usize = 48;

/// An entry of a lent slice, and noise of its kind.
pub trait Entry: Copy + PartialEq {
    fn noise(random: &mut Random) -> Self;
}

impl Entry for u8 {
    fn noise(random: &mut Random) -> Self {
        random.byte()
    }
}

impl Entry for i16 {
    fn noise(random: &mut Random) -> Self {
        random.component()
    }
}

impl Entry for u32 {
    fn noise(random: &mut Random) -> Self {
        random.next() as u32
    }
}

impl Entry for Frame {
    fn noise(random: &mut Random) -> Self {
        let [width, height, y, u, v, luma_stride, chroma_stride, cap] = std::array::from_fn(|_| random.next() as u32);
        Frame { width, height, y, u, v, luma_stride, chroma_stride, cap }
    }
}

pub struct Guarded<T> {
    buffer: Vec<T>,
    before: Vec<T>,
    start: usize,
    len: usize,
}

impl<T: Entry> Guarded<T> {
    /// A slice that holds these entries.
    pub fn holding(contents: &[T], salt: u64) -> Self {
        let mut random = Random::new(salt);
        let start = GUARD + random.below(16) as usize;
        let mut buffer: Vec<T> = (0..start).map(|_| T::noise(&mut random)).collect();
        buffer.extend(contents);
        buffer.extend((0..GUARD).map(|_| T::noise(&mut random)));
        Guarded { before: buffer.clone(), buffer, start, len: contents.len() }
    }

    /// A slice that holds noise, to be written.
    pub fn noise(len: usize, salt: u64) -> Self {
        let mut random = Random::new(!salt);
        let contents: Vec<T> = (0..len).map(|_| T::noise(&mut random)).collect();
        Self::holding(&contents, salt)
    }

    pub fn slice(&self) -> &[T] {
        &self.buffer[self.start..self.start + self.len]
    }

    pub fn slice_mut(&mut self) -> &mut [T] {
        &mut self.buffer[self.start..self.start + self.len]
    }

    pub fn array<const N: usize>(&self) -> &[T; N] {
        self.slice().try_into().expect("a slice of the array's length")
    }

    pub fn array_mut<const N: usize>(&mut self) -> &mut [T; N] {
        self.slice_mut().try_into().expect("a slice of the array's length")
    }

    /// Whether an entry of the slice or beside it is another than before.
    pub fn changed(&self) -> bool {
        self.buffer != self.before
    }

    /// Whether an entry beside the slice is another than before.
    pub fn guard_broken(&self) -> bool {
        let end = self.start + self.len;
        self.buffer[..self.start] != self.before[..self.start] || self.buffer[end..] != self.before[end..]
    }
}

#[cfg(test)]
mod tests {
    use super::*;

    #[test]
    fn writes_beside_a_slice_are_seen() {
        for place in [-1, 0, 4, 5] {
            let mut lent = Guarded::holding(&[1u8, 2, 3, 4, 5], 7);
            let at = lent.start.checked_add_signed(place).unwrap();
            lent.buffer[at] ^= 1;
            assert!(lent.changed());
            assert_eq!(lent.guard_broken(), !(0..5).contains(&place));
        }
        assert!(!Guarded::<u32>::noise(9, 3).changed());
    }
}
