//! Question 2 in one pass over the records, then a hash table of the labels.

use crate::image::RECORD;
use crate::value::{MAX_CELL, MAX_DARTS, VIEWER_CELL, VIEWER_DARTS};

/// A header, or a dart: serial, next, opposite, kind word, link, x, y, z.
pub type Record = [u64; RECORD];

const EXPONENT: u64 = 0x7ff0_0000_0000_0000;
const SLOTS: usize = 2 * MAX_DARTS;

/// The most darts of a volume that moves, by those of a block: the rack's or a viewer's.
pub const fn most_of_a_cell(darts: usize) -> usize {
    if darts == VIEWER_DARTS {
        VIEWER_CELL
    } else {
        MAX_CELL
    }
}

/// The header and the darts of memory of the right size, for D darts. Places are masked by D − 1, so that no index is checked twice.
pub fn records<const D: usize>(words: &[u64]) -> Option<(&Record, &[Record; D])> {
    let (records, _) = words.as_chunks::<RECORD>();
    let (header, darts) = records.split_first()?;
    Some((header, darts.try_into().ok()?))
}

/// The same, to be written.
pub fn records_mut<const D: usize>(words: &mut [u64]) -> Option<(&mut Record, &mut [Record; D])> {
    let (records, _) = words.as_chunks_mut::<RECORD>();
    let (header, darts) = records.split_first_mut()?;
    Some((header, darts.try_into().ok()?))
}

/// Labels by hash, each with its place.
pub struct Labels {
    keys: [u64; SLOTS],
    places: [u16; SLOTS],
    shift: u32,
}

impl Labels {
    /// Room for so many labels at most half full, up to the whole table.
    fn clear(&mut self, count: usize) {
        let slots = (2 * count).next_power_of_two().clamp(16, SLOTS);
        self.shift = 64 - slots.trailing_zeros();
        self.keys[..slots].fill(0);
    }

    /// The slot of a code, or the free one where it belongs. Keys are codes plus one.
    fn slot(&self, code: u64) -> usize {
        let mask = (1usize << (64 - self.shift)) - 1;
        let mut at = (code.wrapping_mul(0x9e37_79b9_7f4a_7c15) >> self.shift) as usize;
        loop {
            let key = self.keys[at & (SLOTS - 1)];
            if key == 0 || key == code + 1 {
                return at & (SLOTS - 1);
            }
            at = (at + 1) & mask;
        }
    }

    /// Adds a label; false when it is there already.
    pub fn add(&mut self, code: u64, place: u16) -> bool {
        let at = self.slot(code);
        let new = self.keys[at] == 0;
        if new {
            self.keys[at] = code + 1;
            self.places[at] = place;
        }
        new
    }

    /// The place that holds a label.
    pub fn find(&self, code: u64) -> Option<usize> {
        let at = self.slot(code);
        (self.keys[at] != 0).then(|| usize::from(self.places[at]))
    }
}

/// What question 2 finds out on the way.
pub struct Work {
    pub previous: [u16; MAX_DARTS],
    pub labels: Labels,
    critical: [u16; MAX_DARTS],
    critical_count: usize,
}

impl Work {
    pub fn new() -> Work {
        Work {
            previous: [0; MAX_DARTS],
            labels: Labels { keys: [0; SLOTS], places: [0; SLOTS], shift: 60 },
            critical: [0; MAX_DARTS],
            critical_count: 0,
        }
    }

    /// The places of the critical darts.
    pub fn critical(&self) -> &[u16] {
        &self.critical[..self.critical_count]
    }
}

impl Default for Work {
    fn default() -> Work {
        Work::new()
    }
}

fn same_point(a: &Record, b: &Record) -> bool {
    (a[5] ^ b[5]) | (a[6] ^ b[6]) | (a[7] ^ b[7]) == 0
}

/// Is this memory a sound block's image?
pub fn is_sound<const D: usize>(words: &[u64], work: &mut Work) -> bool {
    let Some((header, darts)) = records::<D>(words) else { return false };
    let mask = D - 1;
    let [number, counter, count, rest @ ..] = *header;
    if number > 15 || counter >> 32 != 0 || count > D as u64 || rest != [0; 5] {
        return false;
    }
    let count = count as usize;
    if darts[count..].as_flattened().iter().fold(0, |all, word| all | word) != 0 {
        return false;
    }
    // Bytes, not bits: neighbours would wait for each other's word.
    let mut reached = [false; D];
    let mut last = 0;
    let mut critical = 0;
    // Masked places may lead astray in a wrong block, but then some dart's own test fails.
    for (place, dart) in darts[..count].iter().enumerate() {
        let [serial, next, opposite, kind, link, x, y, z] = *dart;
        let after = &darts[next as usize & mask];
        let across = &darts[opposite as usize & mask];
        let seen = &mut reached[next as usize & mask];
        let there = &darts[across[1] as usize & mask];
        // One test of many: nothing here is worth a branch of its own.
        let wrong = (serial <= last)
            | (serial >> 32 != 0)
            | (next >= count as u64)
            | *seen
            | (opposite >= count as u64)
            | (opposite == place as u64)
            | (across[2] != place as u64)
            | (after[3] != kind)
            | (x & EXPONENT == EXPONENT)
            | (y & EXPONENT == EXPONENT)
            | (z & EXPONENT == EXPONENT)
            | ((x ^ there[5]) | (y ^ there[6]) | (z ^ there[7]) != 0);
        if wrong {
            return false;
        }
        *seen = true;
        last = serial;
        work.previous[next as usize & mask] = place as u16;
        if kind == 0 {
            if link != 0 {
                return false;
            }
        } else if kind == 1 {
            let partner = &darts[link as usize & mask];
            let wrong = link >= count as u64
                || link == place as u64
                || partner[3] != 1
                || partner[4] != place as u64
                || darts[after[4] as usize & mask][1] != link
                || !same_point(dart, &darts[partner[1] as usize & mask]);
            if wrong {
                return false;
            }
        } else {
            let other = kind >> 2;
            let made_here_later = link >> 44 == number && (link >> 12 & 0xffff_ffff) >= counter;
            if kind & 3 != 2 || other > 15 || other == number || link >> 48 != 0 || made_here_later {
                return false;
            }
            work.critical[critical] = place as u16;
            critical += 1;
        }
    }
    work.critical_count = critical;
    // Room for the labels of an arriving cell too.
    work.labels.clear(critical + most_of_a_cell(D));
    work.critical[..critical].iter().all(|place| work.labels.add(darts[usize::from(*place) & mask][4], *place))
}
