//! Files and empty blocks on images.

use super::inbox::Cursor;
use super::outbox::Out;
use super::sound::{is_sound, records, records_mut, Record, Work};
use crate::image::{RECORD, WORDS};
use crate::value::MAX_DARTS;

const EXPONENT: u64 = 0x7ff0_0000_0000_0000;
const SLOTS: usize = 2 * MAX_DARTS;

/// Places by serial, by hash.
struct Places {
    serials: [u32; SLOTS],
    places: [u16; SLOTS],
    shift: u32,
}

impl Places {
    /// The places of darts in order, in a table at most half full.
    fn fill(&mut self, darts: &[Record]) {
        let slots = (2 * darts.len()).next_power_of_two().clamp(16, SLOTS);
        self.shift = 32 - slots.trailing_zeros();
        self.serials[..slots].fill(0);
        for (dart, place) in darts.iter().zip(0..) {
            let at = self.slot(dart[0]);
            self.serials[at] = dart[0] as u32;
            self.places[at] = place;
        }
    }

    /// The slot of a serial, or the free one where it belongs.
    fn slot(&self, serial: u64) -> usize {
        let mask = (1usize << (32 - self.shift)) - 1;
        let mut at = ((serial as u32).wrapping_mul(0x9e37_79b9) >> self.shift) as usize;
        loop {
            let held = self.serials[at & (SLOTS - 1)];
            if held == 0 || u64::from(held) == serial {
                return at & (SLOTS - 1);
            }
            at = (at + 1) & mask;
        }
    }

    fn find(&self, serial: u64) -> Option<u64> {
        let at = self.slot(serial);
        (self.serials[at] != 0).then(|| u64::from(self.places[at]))
    }
}

/// The image that a file or pages are read into.
pub struct Files {
    image: [u64; WORDS],
    count: usize,
    places: Places,
}

impl Files {
    pub fn new() -> Files {
        let places = Places { serials: [0; SLOTS], places: [0; SLOTS], shift: 0 };
        Files { image: [0; WORDS], count: 0, places }
    }

    /// The image for D darts.
    pub fn image<const D: usize>(&self) -> &[u64] {
        &self.image[..RECORD + RECORD * D]
    }

    /// The header and so many darts to be written, what an earlier block left past them taken away.
    pub fn room(&mut self, count: usize) -> Option<(&mut Record, &mut [Record])> {
        let last = std::mem::replace(&mut self.count, count);
        let (header, darts) = records_mut::<MAX_DARTS>(&mut self.image)?;
        darts[count..last.max(count)].fill([0; 8]);
        Some((header, &mut darts[..count]))
    }

    /// Question 3: the image, with serials where places belong.
    fn read<const D: usize>(&mut self, bytes: &[u8]) -> Option<()> {
        let mut cursor = Cursor { bytes, at: 0 };
        let number = cursor.at_most(15)?;
        let counter = cursor.number()?;
        let count = cursor.at_most(D as u64)?;
        let (header, darts) = self.room(count as usize)?;
        *header = [number, counter, count, 0, 0, 0, 0, 0];
        let mut least = 1;
        for dart in darts {
            let serial = cursor.number()?;
            if serial < least {
                return None;
            }
            least = serial + 1;
            let next = cursor.number()?;
            let opposite = cursor.number()?;
            let (kind, link) = match cursor.number()? {
                0 => (0, 0),
                1 => (1, cursor.number()?),
                2 => (2 + 4 * cursor.at_most(15)?, cursor.label()?),
                _ => return None,
            };
            let [x, y, z] = [cursor.coordinate()?, cursor.coordinate()?, cursor.coordinate()?];
            *dart = [serial, next, opposite, kind, link, x, y, z];
        }
        (cursor.at == bytes.len()).then_some(())
    }

    /// Serials become places; one that is not held becomes the place past the last dart.
    pub fn link(&mut self) {
        let Files { image, count, places } = self;
        let Some((_, darts)) = records_mut::<MAX_DARTS>(image) else { return };
        let darts = &mut darts[..*count];
        places.fill(darts);
        let place = |serial: u64| places.find(serial).unwrap_or(*count as u64);
        for dart in darts {
            dart[1] = place(dart[1]);
            dart[2] = place(dart[2]);
            if dart[3] == 1 {
                dart[4] = place(dart[4]);
            }
        }
    }
}

/// The first of questions 4 to 7 that is answered no of darts which are not sound, else 8.
pub fn first_no(header: &Record, darts: &[Record]) -> u32 {
    let count = darts.len() as u64;
    let at = |place: u64| darts.get(place as usize);
    if darts.iter().any(|dart| dart[5..].iter().any(|word| word & EXPONENT == EXPONENT)) {
        return 4;
    }
    let mut reached = [false; MAX_DARTS];
    let right = darts.iter().zip(0..).all(|(dart, place)| {
        let new = dart[1] < count && !std::mem::replace(&mut reached[dart[1] as usize & (MAX_DARTS - 1)], true);
        new && dart[2] != place && at(dart[2]).is_some_and(|across| across[2] == place)
    });
    if !right {
        return 5;
    }
    let right = darts.iter().zip(0..).all(|(dart, place)| {
        let after = &darts[dart[1] as usize];
        let sewn = || {
            dart[4] != place
                && at(dart[4]).is_some_and(|partner| partner[3] == 1 && partner[4] == place)
                && at(after[4]).is_some_and(|partner| partner[1] == dart[4])
        };
        dart[3] == after[3] && (dart[3] != 1 || sewn())
    });
    if !right {
        return 6;
    }
    let critical = || darts.iter().filter(|dart| dart[3] > 1);
    let mut codes: Vec<u64> = critical().map(|dart| dart[4]).collect();
    codes.sort_unstable();
    let right = codes.windows(2).all(|pair| pair[0] != pair[1])
        && critical().all(|dart| {
            let (other, maker, made) = (dart[3] >> 2, dart[4] >> 44, dart[4] >> 12 & 0xffff_ffff);
            other != header[0] && (maker != header[0] || made < header[1])
        });
    if right {
        8
    } else {
        7
    }
}

pub fn empty(number: u64, block: &mut [u64]) -> u32 {
    if number > 15 {
        return 9;
    }
    block.fill(0);
    block[0] = number;
    0
}

pub fn read<const D: usize>(bytes: &[u8], block: &mut [u64], work: &mut Work, files: &mut Files) -> u32 {
    if files.read::<D>(bytes).is_none() {
        return 3;
    }
    files.link();
    if is_sound::<D>(files.image::<D>(), work) {
        block.copy_from_slice(files.image::<D>());
        return 0;
    }
    match records::<D>(files.image::<D>()) {
        Some((header, darts)) => first_no(header, &darts[..files.count]),
        None => 1,
    }
}

/// The file of a sound block, then question 15.
pub fn save<const D: usize>(words: &[u64], out: &mut Out, room: &mut [u8], written: &mut u64) -> u32 {
    let Some((header, darts)) = records::<D>(words) else { return 2 };
    out.at = 0;
    header[..3].iter().for_each(|word| out.number(*word));
    let serial = |place: u64| darts[place as usize & (D - 1)][0];
    for dart in &darts[..header[2] as usize] {
        let [own, next, opposite, kind, link, x, y, z] = *dart;
        out.number(own);
        out.number(serial(next));
        out.number(serial(opposite));
        out.number(kind & 3);
        if kind == 1 {
            out.number(serial(link));
        } else if kind > 1 {
            out.number(kind >> 2);
            out.label(link);
        }
        out.coordinate(x);
        out.coordinate(y);
        out.coordinate(z);
    }
    out.give(room, written)
}
