//! Reading messages: a transfer joins a block, an update renames the block behind some faces.

use super::sound::{most_of_a_cell, records, records_mut, Record, Work};
use crate::value::{MAX_CELL, MAX_DARTS};

const EXPONENT: u64 = 0x7ff0_0000_0000_0000;
const PAIRS: usize = 4 * MAX_CELL;

/// Reads groups from a cursor on.
pub struct Cursor<'a> {
    pub bytes: &'a [u8],
    pub at: usize,
}

impl Cursor<'_> {
    #[inline]
    pub fn number(&mut self) -> Option<u64> {
        let first = *self.bytes.get(self.at)?;
        self.at += 1;
        if first < 0x80 {
            return Some(u64::from(first));
        }
        let mut value = u64::from(first & 0x7f);
        for group in 1..5 {
            let byte = *self.bytes.get(self.at)?;
            self.at += 1;
            value |= u64::from(byte & 0x7f) << (7 * group);
            if byte < 0x80 {
                return (byte != 0 && value >> 32 == 0).then_some(value);
            }
        }
        None
    }

    pub fn at_most(&mut self, limit: u64) -> Option<u64> {
        self.number().filter(|number| *number <= limit)
    }

    pub fn label(&mut self) -> Option<u64> {
        let maker = self.at_most(15)?;
        let number = self.number()?;
        let position = self.at_most(4095)?;
        Some((maker << 32 | number) << 12 | position)
    }

    pub fn coordinate(&mut self) -> Option<u64> {
        let eight = self.bytes.get(self.at..)?.first_chunk()?;
        self.at += 8;
        Some(u64::from_le_bytes(*eight))
    }
}

/// An entry of a part: the dart index, and its label, number or other block.
#[derive(Clone, Copy, Default)]
struct Entry {
    index: u32,
    value: u64,
    /// Where part 4's labels start.
    labels: u16,
}

/// One part, kept as far as it can be right.
struct Part {
    entries: [Entry; MAX_CELL],
    count: usize,
}

impl Part {
    fn new() -> Part {
        Part { entries: [Entry::default(); MAX_CELL], count: 0 }
    }

    fn push(&mut self, entry: Entry) {
        if self.count < MAX_CELL {
            self.entries[self.count] = entry;
        }
        self.count += 1;
    }
}

/// A transfer or an update as read, and room to work on it.
pub struct Inbox {
    from: u64,
    to: u64,
    new: u64,
    vertices: usize,
    points_at: usize,
    darts: usize,
    empty_face: bool,
    vertex: [u32; MAX_CELL],
    serial: [u32; MAX_CELL],
    /// The start and the size of the face around each index.
    start: [u16; MAX_CELL],
    size: [u16; MAX_CELL],
    part2: Part,
    part3: Part,
    part4: Part,
    labels: [u64; MAX_CELL],
    label_count: usize,
    opposite: [u16; MAX_CELL],
    kind: [u64; MAX_CELL],
    link: [u64; MAX_CELL],
    sorted: [u64; MAX_CELL],
    before: [u16; MAX_CELL],
    place: [u16; MAX_CELL],
    pair_keys: [u32; PAIRS],
    pair_darts: [u16; PAIRS],
    map: [u16; MAX_DARTS],
    listed: [u16; MAX_DARTS],
    open: [u16; MAX_CELL],
}

impl Inbox {
    pub fn new() -> Inbox {
        Inbox {
            from: 0,
            to: 0,
            new: 0,
            vertices: 0,
            points_at: 0,
            darts: 0,
            empty_face: false,
            vertex: [0; MAX_CELL],
            serial: [0; MAX_CELL],
            start: [0; MAX_CELL],
            size: [0; MAX_CELL],
            part2: Part::new(),
            part3: Part::new(),
            part4: Part::new(),
            labels: [0; MAX_CELL],
            label_count: 0,
            opposite: [0; MAX_CELL],
            kind: [0; MAX_CELL],
            link: [0; MAX_CELL],
            sorted: [0; MAX_CELL],
            before: [0; MAX_CELL],
            place: [0; MAX_CELL],
            pair_keys: [0; PAIRS],
            pair_darts: [0; PAIRS],
            map: [0; MAX_DARTS],
            listed: [0; MAX_DARTS],
            open: [0; MAX_CELL],
        }
    }

    /// Question 16 of either kind; gives the kind and where an update's labels start.
    fn read(&mut self, bytes: &[u8]) -> Option<(u64, usize)> {
        let mut cursor = Cursor { bytes, at: 0 };
        let length = cursor.number()?;
        if length as usize != bytes.len() - cursor.at {
            return None;
        }
        let kind = cursor.number()?;
        let mut labels_at = 0;
        match kind {
            1 => self.read_transfer(&mut cursor)?,
            2 => {
                self.from = cursor.at_most(15)?;
                self.to = cursor.at_most(15)?;
                self.new = cursor.at_most(15)?;
                labels_at = cursor.at;
                for _ in 0..cursor.number()? {
                    cursor.label()?;
                }
            }
            _ => return None,
        }
        (cursor.at == bytes.len()).then_some((kind, labels_at))
    }

    fn read_transfer(&mut self, cursor: &mut Cursor) -> Option<()> {
        self.from = cursor.at_most(15)?;
        self.to = cursor.at_most(15)?;
        self.vertices = cursor.number()? as usize;
        self.points_at = cursor.at;
        cursor.at += 24 * self.vertices;
        if cursor.at > cursor.bytes.len() {
            return None;
        }
        self.darts = 0;
        self.empty_face = false;
        for _ in 0..cursor.number()? {
            let size = cursor.number()?;
            if size > (MAX_CELL - self.darts) as u64 {
                return None;
            }
            self.empty_face |= size == 0;
            let start = self.darts;
            for _ in 0..size {
                self.vertex[self.darts] = cursor.number()? as u32;
                self.serial[self.darts] = cursor.number()? as u32;
                self.start[self.darts] = start as u16;
                self.size[self.darts] = size as u16;
                self.darts += 1;
            }
        }
        if self.darts == 0 {
            return None;
        }
        self.part2.count = 0;
        for _ in 0..cursor.number()? {
            let value = cursor.label()?;
            let index = cursor.number()? as u32;
            self.part2.push(Entry { index, value, labels: 0 });
        }
        self.part3.count = 0;
        for _ in 0..cursor.number()? {
            let value = cursor.number()?;
            let index = cursor.number()? as u32;
            self.part3.push(Entry { index, value, labels: 0 });
        }
        self.part4.count = 0;
        self.label_count = 0;
        for _ in 0..cursor.number()? {
            let index = cursor.at_most(self.darts as u64 - 1)? as u32;
            let value = cursor.at_most(15)?;
            self.part4.push(Entry { index, value, labels: self.label_count.min(MAX_CELL) as u16 });
            for _ in 0..self.size[index as usize] {
                let code = cursor.label()?;
                if self.label_count < MAX_CELL {
                    self.labels[self.label_count] = code;
                }
                self.label_count += 1;
            }
        }
        Some(())
    }

    fn coordinate(&self, bytes: &[u8], vertex: usize, axis: usize) -> u64 {
        let at = self.points_at + 24 * vertex + 8 * axis;
        u64::from_le_bytes(bytes[at..at + 8].try_into().unwrap_or([0; 8]))
    }

    fn point(&self, bytes: &[u8], index: usize) -> [u64; 3] {
        [0, 1, 2].map(|axis| self.coordinate(bytes, self.vertex[index] as usize, axis))
    }

    /// The index after one, along its face.
    fn next(&self, index: usize) -> usize {
        let (start, size) = (usize::from(self.start[index]), usize::from(self.size[index]));
        if index + 1 == start + size {
            start
        } else {
            index + 1
        }
    }

    /// Question 18; leaves the serials sorted, each with how many held ones lie below it.
    fn coordinates_and_serials(&mut self, bytes: &[u8], darts: &[Record]) -> bool {
        let points = &bytes[self.points_at..self.points_at + 24 * self.vertices];
        let finite = points.chunks_exact(8).all(|eight| {
            let bits = u64::from_le_bytes(eight.try_into().unwrap_or([0; 8]));
            bits & EXPONENT != EXPONENT
        });
        if !finite {
            return false;
        }
        for index in 0..self.darts {
            self.sorted[index] = u64::from(self.serial[index]) << 16 | index as u64;
        }
        let sorted = &mut self.sorted[..self.darts];
        sorted.sort_unstable();
        if sorted[0] >> 16 == 0 || sorted.windows(2).any(|pair| pair[0] >> 16 == pair[1] >> 16) {
            return false;
        }
        let mut below = 0;
        for (key, before) in sorted.iter().zip(&mut self.before) {
            let serial = *key >> 16;
            // Steps that double find the next gap; neighbours are found at once.
            let mut step = 1;
            while below + step <= darts.len() && darts[below + step - 1][0] < serial {
                below += step;
                step *= 2;
            }
            let end = (below + step).min(darts.len());
            below += darts[below..end].partition_point(|dart| dart[0] < serial);
            if below < darts.len() && darts[below][0] == serial {
                return false;
            }
            *before = below as u16;
        }
        true
    }

    /// Question 19; leaves the opposites.
    fn one_volume(&mut self) -> bool {
        if self.empty_face || self.vertices > MAX_CELL {
            return false;
        }
        let count = self.darts;
        // Faces by least serial, each started there.
        let mut last_start = 0;
        for index in 0..count {
            let start = usize::from(self.start[index]);
            if index == start {
                if self.serial[index] <= last_start {
                    return false;
                }
                last_start = self.serial[index];
            } else if self.serial[index] < last_start {
                return false;
            }
        }
        // Numbered by first use.
        let mut used = 0;
        for vertex in &self.vertex[..count] {
            if *vertex > used {
                return false;
            }
            used += u32::from(*vertex == used);
        }
        if used as usize != self.vertices {
            return false;
        }
        // Pairs once, ends different, each with its reverse.
        let slots = (4 * count).next_power_of_two().min(PAIRS);
        let shift = 32 - slots.trailing_zeros();
        let slot = |keys: &[u32; PAIRS], key: u32| {
            let mut at = (key.wrapping_mul(0x9e37_79b9) >> shift) as usize;
            while keys[at & (PAIRS - 1)] != 0 && keys[at & (PAIRS - 1)] != key {
                at = (at + 1) & (slots - 1);
            }
            at & (PAIRS - 1)
        };
        self.pair_keys[..slots].fill(0);
        for index in 0..count {
            let (from, to) = (self.vertex[index], self.vertex[self.next(index)]);
            let key = from << 10 | to | 1 << 20;
            let at = slot(&self.pair_keys, key);
            if from == to || self.pair_keys[at] != 0 {
                return false;
            }
            self.pair_keys[at] = key;
            self.pair_darts[at] = index as u16;
        }
        for index in 0..count {
            let (from, to) = (self.vertex[index], self.vertex[self.next(index)]);
            let at = slot(&self.pair_keys, to << 10 | from | 1 << 20);
            if self.pair_keys[at] == 0 {
                return false;
            }
            self.opposite[index] = self.pair_darts[at];
        }
        self.one_ring_each() && self.connected()
    }

    /// Rings keep their vertex, so each vertex is one ring when the rings of first uses hold all darts.
    fn one_ring_each(&self) -> bool {
        let mut used = 0;
        let mut reached = 0;
        for index in 0..self.darts {
            if self.vertex[index] == used {
                used += 1;
                let mut at = index;
                loop {
                    reached += 1;
                    at = self.next(usize::from(self.opposite[at]));
                    if at == index {
                        break;
                    }
                }
            }
        }
        reached == self.darts
    }

    fn connected(&mut self) -> bool {
        let mut seen = [0u64; MAX_CELL / 64];
        seen[0] = 1;
        self.open[0] = 0;
        let (mut open, mut reached) = (1, 1);
        while open > 0 {
            open -= 1;
            let index = usize::from(self.open[open]);
            for other in [self.next(index), usize::from(self.opposite[index])] {
                if seen[other >> 6] >> (other & 63) & 1 == 0 {
                    seen[other >> 6] |= 1 << (other & 63);
                    self.open[open] = other as u16;
                    open += 1;
                    reached += 1;
                }
            }
        }
        reached == self.darts
    }

    /// Question 20; leaves the kind word and link of each arriving dart, links of sewn ones as held places.
    fn parts<const D: usize>(&mut self, bytes: &[u8], header: &Record, darts: &[Record; D], work: &mut Work) -> bool {
        let (number, counter) = (header[0], header[1]);
        let count = self.darts;
        if self.part2.count > MAX_CELL || self.part3.count > MAX_CELL || self.part4.count > MAX_CELL {
            return false;
        }
        let mut listed = [0u64; MAX_CELL / 64];
        for part in [&self.part2, &self.part3, &self.part4] {
            let mut least = 0;
            for entry in &part.entries[..part.count] {
                let index = entry.index as usize;
                if index < least || index >= count || usize::from(self.start[index]) != index {
                    return false;
                }
                if listed[index >> 6] >> (index & 63) & 1 != 0 {
                    return false;
                }
                listed[index >> 6] |= 1 << (index & 63);
                least = index + 1;
            }
        }
        self.kind[..count].fill(0);
        self.link[..count].fill(0);
        let with_sender = 2 + 4 * self.from;
        let mut used = [0u64; MAX_DARTS / 64];
        for entry in 0..self.part2.count {
            let Entry { index, value: code, .. } = self.part2.entries[entry];
            let start = index as usize;
            let size = usize::from(self.size[start]);
            let Some(held) = work.labels.find(code) else { return false };
            if darts[held][3] != with_sender || used[held >> 6] >> (held & 63) & 1 != 0 {
                return false;
            }
            let mut partner = held;
            for index in start..start + size {
                let [.., x, y, z] = darts[darts[partner][1] as usize & (D - 1)];
                if self.point(bytes, index) != [x, y, z] {
                    return false;
                }
                used[partner >> 6] |= 1 << (partner & 63);
                self.kind[index] = 1;
                self.link[index] = partner as u64;
                partner = usize::from(work.previous[partner]) & (D - 1);
                // Equal sizes: round exactly once.
                if (partner == held) != (index + 1 == start + size) {
                    return false;
                }
            }
        }
        for entry in 0..self.part3.count {
            let Entry { index, value: fresh, .. } = self.part3.entries[entry];
            if entry > 0 && fresh != self.part3.entries[entry - 1].value + 1 {
                return false;
            }
            let base = (self.from << 32 | fresh) << 12;
            for position in 0..u64::from(self.size[index as usize]) {
                let at = index as usize + position as usize;
                if !work.labels.add(base + position, 0) {
                    return false;
                }
                self.kind[at] = with_sender;
                self.link[at] = base + position;
            }
        }
        for entry in 0..self.part4.count {
            let Entry { index, value: other, labels } = self.part4.entries[entry];
            if other == self.from || other == self.to {
                return false;
            }
            for position in 0..usize::from(self.size[index as usize]) {
                let code = self.labels[usize::from(labels) + position];
                let made_here_later = code >> 44 == number && (code >> 12 & 0xffff_ffff) >= counter;
                if made_here_later || !work.labels.add(code, 0) {
                    return false;
                }
                self.kind[index as usize + position] = 2 + 4 * other;
                self.link[index as usize + position] = code;
            }
        }
        true
    }

    /// Opens gaps for the arriving darts and puts them in.
    fn join<const D: usize>(&mut self, bytes: &[u8], words: &mut [u64]) {
        let Some((header, darts)) = records_mut::<D>(words) else { return };
        let (held, count) = (header[2] as usize, self.darts);
        header[2] = (held + count) as u64;
        for (rank, key) in self.sorted[..count].iter().enumerate() {
            self.place[(key & 0xffff) as usize] = self.before[rank] + rank as u16;
        }
        let lowest = usize::from(self.before[0]);
        let mut rank = 0;
        for place in 0..held {
            while rank < count && usize::from(self.before[rank]) <= place {
                rank += 1;
            }
            self.map[place] = (place + rank) as u16;
        }
        if lowest < held {
            // Darts only move up, so from the top a record is read before anything is written over it.
            for place in (0..held).rev() {
                let mut dart = darts[place];
                dart[1] = u64::from(self.map[dart[1] as usize & (D - 1)]);
                dart[2] = u64::from(self.map[dart[2] as usize & (D - 1)]);
                if dart[3] == 1 {
                    dart[4] = u64::from(self.map[dart[4] as usize & (D - 1)]);
                }
                darts[usize::from(self.map[place]) & (D - 1)] = dart;
            }
        }
        for index in 0..count {
            let place = usize::from(self.place[index]) & (D - 1);
            let next = u64::from(self.place[self.next(index)]);
            let opposite = u64::from(self.place[usize::from(self.opposite[index])]);
            let (kind, mut link) = (self.kind[index], self.link[index]);
            if kind == 1 {
                let partner = usize::from(self.map[link as usize & (D - 1)]) & (D - 1);
                darts[partner][3] = 1;
                darts[partner][4] = place as u64;
                link = partner as u64;
            }
            let [x, y, z] = self.point(bytes, index);
            darts[place] = [u64::from(self.serial[index]), next, opposite, kind, link, x, y, z];
        }
    }
}

impl Default for Inbox {
    fn default() -> Inbox {
        Inbox::new()
    }
}

/// Questions 16 to 21 on a sound image, 29 among them, then the volume joins the block.
pub fn receive<const D: usize>(words: &mut [u64], bytes: &[u8], work: &mut Work, inbox: &mut Inbox) -> u32 {
    let Some((header, darts)) = records::<D>(words) else { return 2 };
    let Some((kind, _)) = inbox.read(bytes) else { return 16 };
    let held = header[2] as usize;
    if kind != 1 || inbox.to != header[0] || inbox.from == header[0] {
        17
    } else if inbox.darts > most_of_a_cell(D) {
        29
    } else if !inbox.coordinates_and_serials(bytes, &darts[..held]) {
        18
    } else if !inbox.one_volume() {
        19
    } else if !inbox.parts(bytes, header, darts, work) {
        20
    } else if held + inbox.darts > D {
        21
    } else {
        inbox.join::<D>(bytes, words);
        0
    }
}

/// Questions 16, 17 and 22 on a sound image, then the new block on the listed faces.
pub fn redirect<const D: usize>(words: &mut [u64], bytes: &[u8], work: &Work, inbox: &mut Inbox) -> u32 {
    let Some((header, darts)) = records_mut::<D>(words) else { return 2 };
    let Some((kind, labels_at)) = inbox.read(bytes) else { return 16 };
    if kind != 2 || inbox.to != header[0] || inbox.from == header[0] {
        return 17;
    }
    if inbox.new == inbox.from || inbox.new == inbox.to {
        return 22;
    }
    let with_sender = 2 + 4 * inbox.from;
    let mut cursor = Cursor { bytes, at: labels_at };
    let mut used = [0u64; MAX_DARTS / 64];
    let mut listed = 0;
    for _ in 0..cursor.number().unwrap_or(0) {
        let found = cursor.label().and_then(|code| work.labels.find(code));
        let Some(start) = found else { return 22 };
        if darts[start][3] != with_sender || used[start >> 6] >> (start & 63) & 1 != 0 {
            return 22;
        }
        let least = darts[start][4];
        let mut place = start;
        loop {
            used[place >> 6] |= 1 << (place & 63);
            place = darts[place][1] as usize & (D - 1);
            if darts[place][4] < least {
                return 22;
            }
            if place == start {
                break;
            }
        }
        inbox.listed[listed] = start as u16;
        listed += 1;
    }
    for start in &inbox.listed[..listed] {
        let start = usize::from(*start);
        let mut place = start;
        loop {
            darts[place][3] = 2 + 4 * inbox.new;
            place = darts[place][1] as usize & (D - 1);
            if place == start {
                break;
            }
        }
    }
    0
}
