//! What a call leaves: a refusal or 0, the other numbers that it returns in the header's order, its writable
//! slices, and what it did to memory that it may not change. Of some builds also what a second call leaves.

use super::guarded::{Entry, Guarded};

#[derive(Debug, Default, PartialEq, Eq)]
pub struct Answer {
    pub refusal: u64,
    pub said: Vec<i64>,
    pub slices: Vec<Vec<i64>>,
    pub faults: Vec<String>,
    /// What the same builder leaves of a shuffled list.
    pub again: Option<Box<Answer>>,
}

/// The model's answer, and the one that is expected of it.
pub struct Pair {
    pub model: Answer,
    pub expected: Answer,
}

impl Answer {
    pub fn new(refusal: u64, said: &[i64]) -> Self {
        Answer { refusal, said: said.to_vec(), ..Answer::default() }
    }

    /// A slice that the call may only read.
    pub fn constant<T: Entry>(mut self, name: &str, lent: &Guarded<T>) -> Self {
        if lent.changed() {
            self.faults.push(format!("{name}, or a byte beside it, was changed"));
        }
        self
    }

    /// A slice that the call may write.
    pub fn written<T: Entry + Into<i64>>(mut self, name: &str, lent: &Guarded<T>) -> Self {
        if lent.guard_broken() {
            self.faults.push(format!("an entry beside {name} was changed"));
        }
        self.holding(lent.slice())
    }

    /// The numbers and the first entry of each slice, then those of a shuffled list.
    pub fn places(&mut self) -> Box<dyn Iterator<Item = &mut i64> + '_> {
        let own = self.said.iter_mut().chain(self.slices.iter_mut().map(|slice| &mut slice[0]));
        Box::new(own.chain(self.again.iter_mut().flat_map(|again| again.places())))
    }

    /// What a slice is expected to hold.
    pub fn holding<T: Copy + Into<i64>>(mut self, contents: &[T]) -> Self {
        self.slices.push(contents.iter().map(|&entry| entry.into()).collect());
        self
    }
}

/// Of calls that are never refused and write nothing that is lent.
pub fn numbers(model: &[i64], expected: &[i64]) -> Pair {
    Pair { model: Answer::new(0, model), expected: Answer::new(0, expected) }
}

impl Pair {
    pub fn same(&self) -> bool {
        self.model == self.expected
    }

    /// Where the two answers part, and those of a shuffled list.
    pub fn told(&self) -> String {
        let text = parted(&self.model, &self.expected);
        match (&self.model.again, &self.expected.again) {
            (Some(model), Some(expected)) if model != expected => {
                text + "  a shuffled list builds otherwise:\n" + &parted(model, expected)
            }
            _ => text,
        }
    }
}

fn parted(model: &Answer, expected: &Answer) -> String {
    let line = |name: &str, a: &Answer| format!("  {name}: refusal {}, numbers {:?}\n", a.refusal, a.said);
    let mut text = line("model", model) + &line("expected", expected);
    for (k, (got, wanted)) in model.slices.iter().zip(&expected.slices).enumerate() {
        if let Some(i) = (0..wanted.len()).find(|&i| got.get(i) != wanted.get(i)) {
            text += &format!("  slice {k}, entry {i}: model {:?}, expected {}\n", got.get(i), wanted[i]);
        }
    }
    for fault in model.faults.iter().chain(&expected.faults) {
        text += &format!("  fault: {fault}\n");
    }
    text
}
