//! Bytes put one after the other, and the messages of a departing volume.

use super::cell::{Cell, Face};
use super::sound::records;
use crate::value::MAX_DARTS;

/// Longer than the file of 4,096 darts, 49 bytes each, and than all messages of 512.
const LONGEST: usize = 49 * MAX_DARTS + 16;

pub struct Out {
    bytes: [u8; LONGEST],
    pub at: usize,
}

impl Out {
    pub fn new() -> Out {
        Out { bytes: [0; LONGEST], at: 0 }
    }

    #[inline]
    pub fn number(&mut self, number: u64) {
        let mut rest = number;
        while rest >= 0x80 {
            self.bytes[self.at] = rest as u8 | 0x80;
            self.at += 1;
            rest >>= 7;
        }
        self.bytes[self.at] = rest as u8;
        self.at += 1;
    }

    pub fn coordinate(&mut self, bits: u64) {
        self.bytes[self.at..self.at + 8].copy_from_slice(&bits.to_le_bytes());
        self.at += 8;
    }

    pub fn label(&mut self, code: u64) {
        self.number(code >> 44);
        self.number(code >> 12 & 0xffff_ffff);
        self.number(code & 0xfff);
    }

    /// Puts the length in front of a message that started at `start`.
    fn close(&mut self, start: usize) {
        let length = self.at - start;
        let groups = match length {
            0..=0x7f => 1,
            0x80..=0x3fff => 2,
            _ => 3,
        };
        self.bytes.copy_within(start..self.at, start + groups);
        let end = self.at + groups;
        self.at = start;
        self.number(length as u64);
        self.at = end;
    }

    /// Question 15, then the bytes to the front of what is lent.
    pub fn give(&self, lent: &mut [u8], written: &mut u64) -> u32 {
        let Some(front) = lent.get_mut(..self.at) else { return 15 };
        front.copy_from_slice(&self.bytes[..self.at]);
        *written = self.at as u64;
        0
    }
}

/// The transfer and the updates of a volume that may leave, then question 15.
pub fn send<const D: usize>(
    words: &[u64],
    to: u64,
    cell: &Cell,
    out: &mut Out,
    outbox: &mut [u8],
    written: &mut u64,
) -> u32 {
    let Some((header, darts)) = records::<D>(words) else { return 2 };
    let (from, counter) = (header[0], header[1]);
    let dart = |index: usize| &darts[usize::from(cell.order[index]) & (D - 1)];
    let faces = &cell.faces[..cell.face_count];
    let to_kind = 2 + 4 * to;
    out.at = 0;
    out.number(1);
    out.number(from);
    out.number(to);
    out.number(cell.vertices as u64);
    for first in &cell.first[..cell.vertices] {
        let [.., x, y, z] = darts[usize::from(*first)];
        out.coordinate(x);
        out.coordinate(y);
        out.coordinate(z);
    }
    out.number(faces.len() as u64);
    for face in faces {
        out.number(u64::from(face.size));
        for index in range(face) {
            out.number(u64::from(cell.vertex[index]));
            out.number(dart(index)[0]);
        }
    }
    let count = |wanted: fn(u64, u64) -> bool| faces.iter().filter(|f| wanted(f.kind, to_kind)).count() as u64;
    out.number(count(|kind, to_kind| kind == to_kind));
    for face in faces.iter().filter(|face| face.kind == to_kind) {
        out.label(dart(usize::from(face.start))[4]);
        out.number(u64::from(face.start));
    }
    out.number(cell.fresh);
    for (number, face) in (counter..).zip(faces.iter().filter(|face| face.kind == 1)) {
        out.number(number);
        out.number(u64::from(face.start));
    }
    out.number(count(|kind, to_kind| kind > 1 && kind != to_kind));
    let mut relatives = 0u32;
    for face in faces.iter().filter(|face| face.kind > 1 && face.kind != to_kind) {
        let other = face.kind >> 2;
        relatives |= 1 << other;
        out.number(u64::from(face.start));
        out.number(other);
        for index in range(face) {
            out.label(dart(index)[4]);
        }
    }
    out.close(0);
    for relative in (0..16).filter(|relative| relatives >> relative & 1 != 0) {
        let start = out.at;
        let kind = 2 + 4 * relative;
        out.number(2);
        out.number(from);
        out.number(relative);
        out.number(to);
        out.number(faces.iter().filter(|face| face.kind == kind).count() as u64);
        for face in faces.iter().filter(|face| face.kind == kind) {
            let least = range(face).map(|index| dart(index)[4]).min().unwrap_or(0);
            out.label(least);
        }
        out.close(start);
    }
    out.give(outbox, written)
}

fn range(face: &Face) -> std::ops::Range<usize> {
    usize::from(face.start)..usize::from(face.start + face.size)
}
