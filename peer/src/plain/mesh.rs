//! The mesh check and the next move on images.

use super::cell::{leave, Cell};
use super::sound::{is_sound, records, Record, Work};
use crate::balance::Oracle;
use crate::image::{SCRATCH, WORDS};
use crate::lent::OracleNumbers;
use crate::value::{Viewers, MAX_BLOCKS, MAX_DARTS};

const MASK: usize = MAX_DARTS - 1;
const NONE: u32 = u32::MAX;

/// A block's header and darts.
struct View<'a> {
    header: &'a Record,
    darts: &'a [Record; MAX_DARTS],
}

impl View<'_> {
    fn count(&self) -> usize {
        self.header[2] as usize
    }
}

/// Hash tables over all blocks, kept between calls.
#[derive(Default)]
pub struct Tables {
    serials: Vec<u32>,
    /// Label codes plus one, and the two darts that hold each: block × 4,096 + place.
    labels: Vec<u64>,
    holders: Vec<[u32; 2]>,
    previous: Vec<u16>,
    distinct: bool,
    paired: bool,
}

impl Tables {
    /// Empty tables for so many darts, at most half full.
    fn clear(&mut self, darts: usize) {
        let slots = (2 * darts).next_power_of_two().max(16);
        self.labels.clear();
        self.labels.resize(slots, 0);
        self.serials.clear();
        self.serials.resize(slots, 0);
        self.holders.resize(slots, [NONE; 2]);
        self.previous.resize(MAX_BLOCKS * MAX_DARTS, 0);
        (self.distinct, self.paired) = (true, true);
    }

    /// Adds a block while its image is still near: questions 24 and, in part, 25.
    fn add(&mut self, block: usize, view: &View, work: &Work) {
        let slots = self.serials.len();
        let shift = 32 - slots.trailing_zeros();
        for dart in &view.darts[..view.count()] {
            let serial = dart[0] as u32;
            let mut at = (serial.wrapping_mul(0x9e37_79b9) >> shift) as usize;
            while self.serials[at] != 0 {
                self.distinct &= self.serials[at] != serial;
                at = (at + 1) & (slots - 1);
            }
            self.serials[at] = serial;
        }
        let base = block * MAX_DARTS;
        self.previous[base..base + view.count()].copy_from_slice(&work.previous[..view.count()]);
        for place in work.critical() {
            let key = view.darts[usize::from(*place)][4] + 1;
            let mut at = (key.wrapping_mul(0x9e37_79b9_7f4a_7c15) >> (shift + 32)) as usize;
            while self.labels[at] != 0 && self.labels[at] != key {
                at = (at + 1) & (slots - 1);
            }
            let holder = (base + usize::from(*place)) as u32;
            if self.labels[at] == 0 {
                self.labels[at] = key;
                self.holders[at] = [holder, NONE];
            } else if self.holders[at][1] == NONE {
                self.holders[at][1] = holder;
            } else {
                self.paired = false;
            }
        }
    }

    /// Questions 25 to 27 over all pairs.
    fn pairs(&self, views: &[View]) -> Result<(), u32> {
        let (mut points, mut makers) = (true, true);
        for (key, pair) in self.labels.iter().zip(&self.holders) {
            if *key == 0 {
                continue;
            }
            if !self.paired || pair[1] == NONE {
                return Err(25);
            }
            let (d, e) = (pair[0] as usize, pair[1] as usize);
            let (one, two) = (&views[d / MAX_DARTS], &views[e / MAX_DARTS]);
            let (dart, other) = (&one.darts[d & MASK], &two.darts[e & MASK]);
            let names = dart[3] >> 2 == (e / MAX_DARTS) as u64 && other[3] >> 2 == (d / MAX_DARTS) as u64;
            let after = &one.darts[dart[1] as usize & MASK];
            let other_after = &two.darts[other[1] as usize & MASK];
            let before = &one.darts[usize::from(self.previous[d]) & MASK];
            let other_before = &two.darts[usize::from(self.previous[e]) & MASK];
            if !names || after[4] != other_before[4] || other_after[4] != before[4] {
                return Err(25);
            }
            points &= dart[5..] == other_after[5..] && other[5..] == after[5..];
            let code = key - 1;
            let maker = (code >> 44) as usize;
            makers &= maker < views.len() && (code >> 12 & 0xffff_ffff) < views[maker].header[1];
        }
        match (points, makers) {
            (false, _) => Err(26),
            (true, false) => Err(27),
            _ => Ok(()),
        }
    }
}

/// Questions 1, 2 and 23 to 27.
fn views<'a>(
    mesh: &'a [u64],
    viewers: Viewers,
    scratch: &[u64],
    work: &mut Work,
    tables: &mut Tables,
) -> Result<Vec<View<'a>>, u32> {
    if !mesh.len().is_multiple_of(WORDS)
        || scratch.len() != SCRATCH
        || scratch.iter().fold(0, |all, word| all | word) != 0
    {
        return Err(1);
    }
    let blocks = mesh.len() / WORDS;
    let darts = mesh.chunks_exact(WORDS).take(MAX_BLOCKS).map(|words| words[2].min(MAX_DARTS as u64) as usize).sum();
    tables.clear(darts);
    let mut views = Vec::with_capacity(MAX_BLOCKS);
    for (block, words) in mesh.chunks_exact(WORDS).enumerate() {
        if !is_sound::<MAX_DARTS>(words, work) || words[2] > viewers.darts(words[0] as usize) as u64 {
            return Err(2);
        }
        let (header, darts) = records(words).ok_or(2u32)?;
        if block < MAX_BLOCKS {
            let view = View { header, darts };
            tables.add(block, &view, work);
            views.push(view);
        }
    }
    let numbered = views.iter().enumerate().all(|(place, view)| view.header[0] == place as u64);
    if blocks == 0 || blocks > MAX_BLOCKS || !numbered {
        return Err(23);
    }
    if !tables.distinct {
        return Err(24);
    }
    tables.pairs(&views)?;
    Ok(views)
}

pub fn check(mesh: &[u64], viewers: Viewers, scratch: &[u64], work: &mut Work, tables: &mut Tables) -> u32 {
    match views(mesh, viewers, scratch, work, tables) {
        Ok(_) => 0,
        Err(number) => number,
    }
}

/// A picked volume: its least place, its size.
struct Picked {
    place: usize,
    size: usize,
}

/// The volumes of a block that the oracle picks, by least serial.
fn picked(view: &View, oracle: &Oracle) -> Vec<Picked> {
    let mut seen = [false; MAX_DARTS];
    let mut open: Vec<usize> = Vec::with_capacity(MAX_DARTS);
    let mut found = Vec::new();
    for start in 0..view.count() {
        if seen[start] {
            continue;
        }
        seen[start] = true;
        open.push(start);
        let (mut size, mut within, mut below, mut above) = (0, false, false, false);
        while let Some(place) = open.pop() {
            let dart = &view.darts[place];
            size += 1;
            let point = [dart[5], dart[6], dart[7]].map(f64::from_bits);
            match oracle {
                Oracle::Every => within = true,
                Oracle::Box { low, high } => {
                    let (low, high) = (low.floats(), high.floats());
                    within |= (0..3).all(|axis| low[axis] <= point[axis] && point[axis] <= high[axis]);
                }
                Oracle::Plane { axis, value } => {
                    below |= point[*axis as usize] < *value;
                    above |= point[*axis as usize] > *value;
                }
            }
            for neighbour in [dart[1] as usize & MASK, dart[2] as usize & MASK] {
                if !seen[neighbour] {
                    seen[neighbour] = true;
                    open.push(neighbour);
                }
            }
        }
        if within || (below && above) {
            found.push(Picked { place: start, size });
        }
    }
    found
}

/// Room for the tables of a next move.
pub struct Desk<'a> {
    pub work: &'a mut Work,
    pub tables: &'a mut Tables,
    pub cell: &'a mut Cell,
}

pub fn next_move(
    mesh: &[u64],
    viewers: Viewers,
    oracle: &OracleNumbers,
    scratch: &[u64],
    answer: &mut [u64],
    desk: Desk,
) -> u32 {
    let views = match views(mesh, viewers, scratch, desk.work, desk.tables) {
        Ok(views) => views,
        Err(number) => return number,
    };
    let Some(oracle) = oracle.oracle().filter(Oracle::is_right) else { return 28 };
    let picked: Vec<Vec<Picked>> = views.iter().map(|view| picked(view, &oracle)).collect();
    answer[..4].copy_from_slice(&choose(&views, viewers, &picked, desk.cell));
    tell(&picked, &mut answer[4..]);
    0
}

/// Kind, donor, recipient and serial of the next move.
fn choose(views: &[View], viewers: Viewers, picked: &[Vec<Picked>], cell: &mut Cell) -> [u64; 4] {
    let least = picked.iter().map(Vec::len).min().unwrap_or(0);
    let mut kind = 0;
    for (donor, volumes) in picked.iter().enumerate().filter(|(_, volumes)| volumes.len() >= least + 2) {
        kind = 1;
        let view = &views[donor];
        let mut left: Vec<&Picked> = volumes.iter().collect();
        for recipient in (0..views.len()).filter(|recipient| picked[*recipient].len() + 2 <= volumes.len()) {
            let most = viewers.cell(donor, recipient);
            // Questions 11 and 21.
            let room = most.min(viewers.darts(recipient) - views[recipient].count());
            for volume in &left {
                if volume.size <= room && leave(view.header, view.darts, volume.place, most, cell) == 0 {
                    return [2, donor as u64, recipient as u64, view.darts[volume.place][0]];
                }
            }
            // Questions 12 to 14 do not depend on the recipient: what has room here and stays leaves for no other.
            left.retain(|volume| volume.size > room);
        }
    }
    [kind, 0, 0, 0]
}

/// The mean, then each block's count less the mean.
fn tell(picked: &[Vec<Picked>], told: &mut [u64]) {
    let mean = picked.iter().map(Vec::len).sum::<usize>() / picked.len();
    told.fill(0);
    told[0] = mean as u64;
    for (surplus, volumes) in told[1..].iter_mut().zip(picked) {
        *surplus = (volumes.len() as u64).wrapping_sub(mean as u64);
    }
}
