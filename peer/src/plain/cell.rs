//! A volume that may leave (questions 9 to 14), and its removal.

use super::sound::{most_of_a_cell, records, records_mut, Record};
use crate::value::{MAX_CELL, MAX_DARTS};

const NONE: u16 = u16::MAX;

/// A face of the cell: where it starts in message order, its size, its kind word.
#[derive(Clone, Copy)]
pub struct Face {
    pub start: u16,
    pub size: u16,
    pub kind: u64,
}

/// The darts of a volume in message order.
pub struct Cell {
    inside: [u64; MAX_DARTS / 64],
    pub count: usize,
    /// Places in message order.
    pub order: [u16; MAX_CELL],
    /// Message index by place, for the places inside.
    index: [u16; MAX_DARTS],
    /// Vertex by message index.
    pub vertex: [u16; MAX_CELL],
    /// The first place of each vertex.
    pub first: [u16; MAX_CELL],
    pub vertices: usize,
    pub faces: [Face; MAX_CELL],
    pub face_count: usize,
    pub fresh: u64,
    map: [u16; MAX_DARTS],
    stamp: [u16; MAX_CELL],
    open: [u16; MAX_CELL],
}

impl Cell {
    pub fn new() -> Cell {
        Cell {
            inside: [0; MAX_DARTS / 64],
            count: 0,
            order: [0; MAX_CELL],
            index: [0; MAX_DARTS],
            vertex: [0; MAX_CELL],
            first: [0; MAX_CELL],
            vertices: 0,
            faces: [Face { start: 0, size: 0, kind: 0 }; MAX_CELL],
            face_count: 0,
            fresh: 0,
            map: [0; MAX_DARTS],
            stamp: [0; MAX_CELL],
            open: [0; MAX_CELL],
        }
    }

    fn holds(&self, place: usize) -> bool {
        self.inside[place >> 6 & 63] >> (place & 63) & 1 != 0
    }

    /// Marks a place; false when it is marked already.
    fn enter(&mut self, place: usize) -> bool {
        let word = &mut self.inside[place >> 6 & 63];
        let new = *word >> (place & 63) & 1 == 0;
        *word |= 1 << (place & 63);
        new
    }

    /// Question 11: the volume of a place, unless it has more darts than `most`, which are 512 or 64.
    fn walk<const D: usize>(&mut self, darts: &[Record; D], start: usize, most: usize) -> bool {
        self.inside[..D / 64].fill(0);
        self.enter(start);
        self.open[0] = start as u16;
        let mut open = 1;
        self.count = 1;
        while open > 0 {
            open -= 1;
            let dart = &darts[usize::from(self.open[open]) & (D - 1)];
            for neighbour in [dart[1] as usize & (D - 1), dart[2] as usize & (D - 1)] {
                if self.enter(neighbour) {
                    if self.count == most {
                        return false;
                    }
                    self.open[open] = neighbour as u16;
                    open += 1;
                    self.count += 1;
                }
            }
        }
        true
    }

    /// Message order: faces by least place, which is least serial, along next.
    fn arrange<const D: usize>(&mut self, darts: &[Record; D]) {
        let mut left = self.inside;
        let mut index = 0;
        self.face_count = 0;
        self.fresh = 0;
        for word in 0..D / 64 {
            while left[word] != 0 {
                let start = word * 64 + left[word].trailing_zeros() as usize;
                let first = index;
                let mut place = start;
                loop {
                    left[place >> 6 & 63] &= !(1 << (place & 63));
                    self.order[index & (MAX_CELL - 1)] = place as u16;
                    self.index[place] = index as u16;
                    index += 1;
                    place = darts[place][1] as usize & (D - 1);
                    if place == start {
                        break;
                    }
                }
                let kind = darts[start][3];
                self.fresh += u64::from(kind == 1);
                self.faces[self.face_count] = Face { start: first as u16, size: (index - first) as u16, kind };
                self.face_count += 1;
            }
        }
    }

    /// Rings numbered by first use.
    fn number<const D: usize>(&mut self, darts: &[Record; D]) {
        self.vertex[..self.count].fill(NONE);
        self.vertices = 0;
        for index in 0..self.count {
            if self.vertex[index] != NONE {
                continue;
            }
            let start = usize::from(self.order[index]);
            self.first[self.vertices] = start as u16;
            let mut place = start;
            loop {
                self.vertex[usize::from(self.index[place])] = self.vertices as u16;
                place = next_in_ring(darts, place);
                if place == start {
                    break;
                }
            }
            self.vertices += 1;
        }
    }

    /// Question 13: the darts of each ring lead to different other rings.
    fn pairs_once<const D: usize>(&mut self, darts: &[Record; D]) -> bool {
        self.stamp[..self.vertices].fill(NONE);
        for vertex in 0..self.vertices {
            let start = usize::from(self.first[vertex]);
            let mut place = start;
            loop {
                let to = usize::from(self.vertex[usize::from(self.index[darts[place][1] as usize & (D - 1)])]);
                if to == vertex || self.stamp[to] == vertex as u16 {
                    return false;
                }
                self.stamp[to] = vertex as u16;
                place = next_in_ring(darts, place);
                if place == start {
                    break;
                }
            }
        }
        true
    }
}

impl Default for Cell {
    fn default() -> Cell {
        Cell::new()
    }
}

fn next_in_ring<const D: usize>(darts: &[Record; D], place: usize) -> usize {
    darts[darts[place][2] as usize & (D - 1)][1] as usize & (D - 1)
}

/// Questions 11 to 14 of the volume of a place, 11 for at most so many darts: 0, or the number of the first no.
pub fn leave<const D: usize>(header: &Record, darts: &[Record; D], place: usize, most: usize, cell: &mut Cell) -> u32 {
    if !cell.walk(darts, place, most) {
        return 11;
    }
    cell.arrange(darts);
    for face in &cell.faces[..cell.face_count] {
        if face.kind == 1 {
            let dart = &darts[usize::from(cell.order[usize::from(face.start)])];
            // A sewn face leads back as a whole or not at all.
            if cell.holds(dart[4] as usize & (D - 1)) {
                return 12;
            }
        }
    }
    cell.number(darts);
    if !cell.pairs_once(darts) {
        return 13;
    }
    if header[1] + cell.fresh > u64::from(u32::MAX) {
        return 14;
    }
    0
}

/// Questions 9 to 14 on a sound image.
pub fn departure<const D: usize>(words: &[u64], to: u64, serial: u64, cell: &mut Cell) -> u32 {
    let Some((header, darts)) = records::<D>(words) else { return 2 };
    if to > 15 || to == header[0] {
        return 9;
    }
    match darts[..header[2] as usize].binary_search_by_key(&serial, |dart| dart[0]) {
        Ok(place) => leave(header, darts, place, most_of_a_cell(D), cell),
        Err(_) => 10,
    }
}

/// Labels the faces left behind, takes the volume out, closes the gaps.
pub fn remove<const D: usize>(words: &mut [u64], to: u64, cell: &mut Cell) {
    let Some((header, darts)) = records_mut::<D>(words) else { return };
    let (number, counter, count) = (header[0], header[1], header[2] as usize);
    let mut fresh = 0;
    for face in &cell.faces[..cell.face_count] {
        if face.kind == 1 {
            let start = usize::from(face.start);
            let base = ((number << 32) | (counter + fresh)) << 12;
            for position in 0..usize::from(face.size) {
                let left = darts[usize::from(cell.order[start + position])][4] as usize & (D - 1);
                darts[left][3] = 2 + 4 * to;
                darts[left][4] = base + position as u64;
            }
            fresh += 1;
        }
    }
    header[1] = counter + fresh;
    header[2] = (count - cell.count) as u64;
    let lowest = usize::from(cell.order[0]);
    if lowest + cell.count < count {
        for (place, target) in cell.map[..lowest].iter_mut().enumerate() {
            *target = place as u16;
        }
        let mut target = lowest;
        for place in lowest..count {
            cell.map[place] = target as u16;
            target += usize::from(!cell.holds(place));
        }
        // Darts only move down, so a record is read before anything is written over it.
        for place in 0..count {
            if place >= lowest && cell.holds(place) {
                continue;
            }
            let mut dart = darts[place];
            dart[1] = u64::from(cell.map[dart[1] as usize & (D - 1)]);
            dart[2] = u64::from(cell.map[dart[2] as usize & (D - 1)]);
            if dart[3] == 1 {
                dart[4] = u64::from(cell.map[dart[4] as usize & (D - 1)]);
            }
            darts[usize::from(cell.map[place]) & (D - 1)] = dart;
        }
    }
    darts[count - cell.count..count].as_flattened_mut().fill(0);
}
