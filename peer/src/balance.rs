//! Which block gives: the oracle and the next move.

use crate::calls;
use crate::cells;
use crate::mesh;
use crate::value::{ask, Answer, Block, Point, Viewers, MAX_BLOCKS};
use std::collections::BTreeSet;

/// The oracle picks volumes.
#[derive(Clone, Copy, PartialEq, Debug)]
pub enum Oracle {
    Every,
    Box { low: Point, high: Point },
    Plane { axis: u32, value: f64 },
}

impl Oracle {
    /// Question 28: floats finite, box low not above high, axis 0 to 2.
    pub fn is_right(&self) -> bool {
        match self {
            Oracle::Every => true,
            Oracle::Box { low, high } => {
                let (low_floats, high_floats) = (low.floats(), high.floats());
                low.is_finite() && high.is_finite() && (0..3).all(|axis| low_floats[axis] <= high_floats[axis])
            }
            Oracle::Plane { axis, value } => *axis <= 2 && value.is_finite(),
        }
    }

    /// Comparisons are numeric: −0 equals 0.
    fn picks(&self, block: &Block, cell: &BTreeSet<u32>) -> bool {
        let mut points = cell.iter().map(|dart| block.darts[dart].point.floats());
        match self {
            Oracle::Every => true,
            Oracle::Box { low, high } => {
                let (low, high) = (low.floats(), high.floats());
                points.any(|p| (0..3).all(|axis| low[axis] <= p[axis] && p[axis] <= high[axis]))
            }
            Oracle::Plane { axis, value } => {
                let along: Vec<f64> = points.map(|p| p[*axis as usize]).collect();
                along.iter().any(|c| c < value) && along.iter().any(|c| c > value)
            }
        }
    }
}

/// What the rule chooses.
#[derive(Clone, Copy, PartialEq, Eq, Debug)]
pub enum Choice {
    Level,
    Blocked,
    Move { donor: u8, recipient: u8, serial: u32 },
}

/// The answer of a next move: what is chosen, and the mean and the surpluses before it.
#[derive(Clone, Copy, PartialEq, Eq, Debug)]
pub struct NextMove {
    pub choice: Choice,
    pub mean: u32,
    /// 0 for blocks that the mesh has not.
    pub surplus: [i32; MAX_BLOCKS],
}

/// The next move of a mesh of sound blocks: questions 23 to 28, then the rule.
pub fn next_move(blocks: &[Block], viewers: Viewers, oracle: &Oracle) -> Answer<NextMove> {
    mesh::check(blocks)?;
    ask(28, oracle.is_right())?;
    Ok(by_rule(blocks, viewers, oracle))
}

/// The picked volumes of each block, by least serial.
pub fn picked(blocks: &[Block], oracle: &Oracle) -> Vec<Vec<BTreeSet<u32>>> {
    blocks
        .iter()
        .map(|block| {
            let cells = cells::volumes(block, block.darts.keys().copied());
            cells.into_iter().filter(|cell| oracle.picks(block, cell)).collect()
        })
        .collect()
}

/// How many volumes of each block are picked.
pub fn counts(blocks: &[Block], oracle: &Oracle) -> Vec<usize> {
    picked(blocks, oracle).iter().map(Vec::len).collect()
}

/// The rule on a sound mesh and a right oracle.
pub fn by_rule(blocks: &[Block], viewers: Viewers, oracle: &Oracle) -> NextMove {
    let picked = picked(blocks, oracle);
    let total: usize = picked.iter().map(Vec::len).sum();
    let mean = (total / blocks.len()) as u32;
    let mut surplus = [0; MAX_BLOCKS];
    for (surplus, cells) in surplus.iter_mut().zip(&picked) {
        *surplus = cells.len() as i32 - mean as i32;
    }
    NextMove { choice: choose(blocks, viewers, &picked), mean, surplus }
}

/// The least donor, recipient and volume, the donor having at least two picked volumes more than the recipient.
fn choose(blocks: &[Block], viewers: Viewers, picked: &[Vec<BTreeSet<u32>>]) -> Choice {
    let all = 0..blocks.len();
    let pairs: Vec<(usize, usize)> = all
        .clone()
        .flat_map(|donor| all.clone().map(move |recipient| (donor, recipient)))
        .filter(|(donor, recipient)| picked[*donor].len() >= picked[*recipient].len() + 2)
        .collect();
    if pairs.is_empty() {
        return Choice::Level;
    }
    // Donor, recipient and least serial ascend, so the first that may move is the least.
    for (donor, recipient) in pairs {
        for cell in &picked[donor] {
            let serial = cell.first().copied().unwrap_or(0);
            let most = viewers.cell(donor, recipient);
            let may_leave = calls::may_leave(most, &blocks[donor], recipient as u64, u64::from(serial));
            // Question 21 of the recipient.
            if may_leave && blocks[recipient].darts.len() + cell.len() <= viewers.darts(recipient) {
                return Choice::Move { donor: donor as u8, recipient: recipient as u8, serial };
            }
        }
    }
    Choice::Blocked
}
