//! The laws of a run of next moves, from its first to its last.

use crate::image::ANSWER;
use crate::simulate::Disagreement;

/// The picked volumes of each block, and how many moves may follow.
pub struct Descent {
    counts: Vec<usize>,
    left: usize,
}

fn squares(counts: &[usize]) -> usize {
    counts.iter().map(|count| count * count).sum()
}

/// The sum over pairs of blocks of the difference of their counts.
fn differences(counts: &[usize]) -> usize {
    let twice: usize = counts.iter().flat_map(|one| counts.iter().map(|other| one.abs_diff(*other))).sum();
    twice / 2
}

fn differ_by_two(counts: &[usize]) -> bool {
    counts.iter().any(|one| counts.iter().any(|other| *one >= other + 2))
}

impl Descent {
    /// The sum of differences falls by two at least with every move, so half of it bounds the moves.
    pub fn start(counts: Vec<usize>) -> Descent {
        Descent { left: differences(&counts) / 2, counts }
    }

    /// How many moves may follow.
    pub fn left(&self) -> usize {
        self.left
    }

    /// A move was carried out and left these counts.
    pub fn step(&mut self, donor: usize, recipient: usize, after: Vec<usize>) -> Result<(), Disagreement> {
        let (gives, takes) = (self.counts[donor], self.counts[recipient]);
        if gives < takes + 2 {
            return Err(format!("a block of {gives} picked volumes gives to one of {takes}"));
        }
        if squares(&self.counts) != squares(&after) + 2 * (gives - takes - 1) {
            return Err(format!("squares do not fall by 2 (donor - recipient - 1): {:?}, {after:?}", self.counts));
        }
        if differences(&self.counts) < differences(&after) + 2 {
            return Err(format!("the differences do not fall by two: {:?}, {after:?}", self.counts));
        }
        self.left = self.left.checked_sub(1).ok_or("more moves than half the sum of differences")?;
        self.counts = after;
        Ok(())
    }

    /// The run has ended, level or blocked.
    pub fn end(&self, level: bool) -> Result<(), Disagreement> {
        if level == differ_by_two(&self.counts) {
            return Err(format!("counts {:?} end {}", self.counts, if level { "level" } else { "blocked" }));
        }
        Ok(())
    }

    /// Whether an answer tells the mean and the surpluses of these counts.
    pub fn is_told(&self, answer: &[u64; ANSWER]) -> bool {
        let mean = self.counts.iter().sum::<usize>() / self.counts.len();
        let surplus = |block: usize| self.counts.get(block).map_or(0, |count| *count as i64 - mean as i64);
        answer[4] == mean as u64 && answer[5..].iter().enumerate().all(|(block, word)| *word as i64 == surplus(block))
    }
}
