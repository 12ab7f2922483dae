//! What differs, in words: the first of each sort, and how many there are.

/// How many differences are told; all are counted.
const TOLD: usize = 20;

/// Differences found so far.
#[derive(Default)]
pub struct Differences {
    /// The first ones, in the order in which they were found.
    pub told: Vec<String>,
    /// How many there are.
    pub count: u64,
}

impl Differences {
    /// Takes in a difference. The words are made only where they are told.
    pub fn add(&mut self, words: impl FnOnce() -> String) {
        self.count += 1;
        if self.told.len() < TOLD {
            self.told.push(words());
        }
    }
}
