//! The one image of a block in memory: a header of eight words, then eight words a dart in
//! ascending serial, zeros to the end. Links in memory are places, the index of a dart in that order.

use crate::sound;
use crate::value::{Block, Dart, Label, Limits, Point, Site, Third, MAX_BLOCKS, RACK, VIEWER};
use std::collections::BTreeMap;

/// Words of the header, and of each dart.
pub const RECORD: usize = 8;
/// Words of a block's memory on the rack, and in a mesh.
pub const WORDS: usize = words(RACK);
/// Words of a block's memory at a viewer.
pub const VIEWER_WORDS: usize = words(VIEWER);
/// Words of the scratch of the mesh calls.
pub const SCRATCH: usize = 65_536;
/// Words of a next move's answer: kind, donor, recipient, serial, mean, a surplus for each block.
pub const ANSWER: usize = 5 + MAX_BLOCKS;

/// Words of a block's memory by the darts that it may hold.
const fn words(limits: Limits) -> usize {
    RECORD + RECORD * limits.darts
}

impl Site {
    /// Words of a block's memory.
    pub fn words(self) -> usize {
        words(self.limits())
    }
}

/// The index of a dart in a block's memory; never an index in a message.
#[derive(Clone, Copy, PartialEq, Eq, Debug)]
pub struct Place(pub u64);

/// A label as one word that orders as labels do.
pub fn label_code(label: Label) -> u64 {
    ((u64::from(label.maker) << 32 | u64::from(label.number)) << 12) | u64::from(label.position)
}

/// The label of a code, if its maker is at most 15.
pub fn label_of(code: u64) -> Option<Label> {
    let maker = code >> 44;
    (maker < MAX_BLOCKS as u64).then_some(Label {
        maker: maker as u8,
        number: (code >> 12) as u32,
        position: (code & 0xfff) as u16,
    })
}

/// The image of a block. A link that is not held, possible in unsound values only, becomes a place past the darts.
pub fn encode(block: &Block) -> Vec<u64> {
    encode_at(Site::Rack, block)
}

/// The same in the memory of a site; darts that it has no room for are left out.
pub fn encode_at(site: Site, block: &Block) -> Vec<u64> {
    let mut words = vec![0; site.words()];
    put(block, &mut words);
    words
}

/// Writes the image over memory of the right size.
pub fn put(block: &Block, words: &mut [u64]) {
    let count = block.darts.len() as u64;
    let places: BTreeMap<u32, u64> = block.darts.keys().zip(0..).map(|(serial, place)| (*serial, place)).collect();
    let place = |serial: u32| Place(places.get(&serial).copied().unwrap_or(count));
    let records = std::iter::once([u64::from(block.number), u64::from(block.counter), count, 0, 0, 0, 0, 0]).chain(
        block.darts.iter().map(|(serial, dart)| {
            let (kind, link) = match dart.third {
                Third::Free => (0, 0),
                Third::Sewn(partner) => (1, place(partner).0),
                Third::Critical { other, label } => (2 + 4 * u64::from(other), label_code(label)),
            };
            let [x, y, z] = dart.point.0;
            [u64::from(*serial), place(dart.next).0, place(dart.opposite).0, kind, link, x, y, z]
        }),
    );
    let used = RECORD * (1 + block.darts.len());
    for (target, record) in words.chunks_exact_mut(RECORD).zip(records) {
        target.copy_from_slice(&record);
    }
    if let Some(rest) = words.get_mut(used..) {
        rest.fill(0);
    }
}

/// The block whose image this memory is, sound or not; `None` when it is no image at all. Memory has whole records.
pub fn decode(words: &[u64]) -> Option<Block> {
    if words.len() < RECORD || !words.len().is_multiple_of(RECORD) {
        return None;
    }
    let (header, records) = words.split_at(RECORD);
    let number = u8::try_from(header[0]).ok()?;
    let counter = u32::try_from(header[1]).ok()?;
    let count = usize::try_from(header[2]).ok().filter(|count| *count <= records.len() / RECORD)?;
    let (used, unused) = records.split_at(RECORD * count);
    let stray = header[3..].iter().chain(unused).fold(0, |all, word| all | word);
    if usize::from(number) >= MAX_BLOCKS || stray != 0 {
        return None;
    }
    let mut serials = Vec::with_capacity(count);
    for record in used.chunks_exact(RECORD) {
        let serial = u32::try_from(record[0]).ok()?;
        // At least 1 and ascending.
        if serial <= serials.last().copied().unwrap_or(0) {
            return None;
        }
        serials.push(serial);
    }
    let serial_at = |place: Place| serials.get(usize::try_from(place.0).ok()?).copied();
    let mut darts = Vec::with_capacity(count);
    for (serial, record) in serials.iter().zip(used.chunks_exact(RECORD)) {
        let (kind, other) = (record[3] & 3, record[3] >> 2);
        let third = match kind {
            0 if other == 0 && record[4] == 0 => Third::Free,
            1 if other == 0 => Third::Sewn(serial_at(Place(record[4]))?),
            2 if other < MAX_BLOCKS as u64 => Third::Critical { other: other as u8, label: label_of(record[4])? },
            _ => return None,
        };
        let next = serial_at(Place(record[1]))?;
        let opposite = serial_at(Place(record[2]))?;
        let point = Point([record[5], record[6], record[7]]);
        darts.push((*serial, Dart { next, opposite, third, point }));
    }
    Some(Block { number, counter, darts: darts.into_iter().collect() })
}

/// Question 2: the block whose image this memory is, if that block is sound within limits.
pub fn sound_block(words: &[u64], limits: Limits) -> Option<Block> {
    decode(words).filter(|block| sound::is_sound(block, limits))
}
