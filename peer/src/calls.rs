//! The calls on values. Each asks its questions in the paper's order; the first no gives its number.
//!
//! Questions 1 and 2 belong to lent memory and are asked in `lent`; blocks given here are sound. What 3, 11, 21 and 29 read
//! are the limits of the caller, the rack's or a viewer's.

use crate::cells;
use crate::file;
use crate::message::{self, Index, Message, Transfer, Update};
use crate::pages;
use crate::sound;
use crate::value::{ask, Answer, Block, Dart, Label, Limits, Links, No, Third, MAX_BLOCKS};
use std::collections::{BTreeMap, BTreeSet};

/// An empty block is made from its number alone.
pub fn empty(number: u64) -> Answer<Block> {
    ask(9, number < MAX_BLOCKS as u64)?;
    Ok(Block::empty(number as u8))
}

/// Reads a block file.
pub fn read_file(limits: Limits, bytes: &[u8]) -> Answer<Block> {
    let block = file::decode(bytes, limits).ok_or(No(3))?;
    ask(4, sound::coordinates_finite(&block))?;
    ask(5, sound::next_and_opposite_right(&block))?;
    ask(6, sound::thirds_right(&block))?;
    ask(7, sound::labels_right(&block))?;
    ask(8, sound::points_agree(&block))?;
    Ok(block)
}

/// The file of a block, if it fits into the room.
pub fn save_file(block: &Block, room: usize) -> Answer<Vec<u8>> {
    let bytes = file::encode(block);
    ask(15, bytes.len() <= room)?;
    Ok(bytes)
}

/// The pages of a block, if they fit into the room.
pub fn write_pages(block: &Block, room: usize) -> Answer<Vec<u8>> {
    let bytes = pages::encode(block);
    ask(30, bytes.len() <= room)?;
    Ok(bytes)
}

/// Reads pages: points zero, the least counter that the labels allow. 4 and 8 could only be answered yes.
pub fn read_pages(limits: Limits, bytes: &[u8]) -> Answer<Block> {
    let mut block = pages::decode(bytes, limits).ok_or(No(3))?;
    ask(5, sound::next_and_opposite_right(&block))?;
    ask(6, sound::thirds_right(&block))?;
    block.counter = sound::least_counter(&block).ok_or(No(7))?;
    ask(7, sound::labels_right(&block))?;
    Ok(block)
}

/// A volume that may leave: its darts, its faces in message order, its vertex numbers.
struct Departure {
    to: u8,
    cell: BTreeSet<u32>,
    faces: Vec<Vec<u32>>,
    vertex: BTreeMap<u32, u32>,
}

impl Departure {
    /// The sewn faces, in message order: those of part 3.
    fn sewn<'a>(&'a self, block: &'a Block) -> impl Iterator<Item = &'a Vec<u32>> + 'a {
        self.faces.iter().filter(|face| matches!(block.darts[&face[0]].third, Third::Sewn(_)))
    }
}

/// Questions 9 to 14, the same for send and release; 11 reads `most`.
fn departure(most: usize, block: &Block, to: u64, serial: u64) -> Answer<Departure> {
    ask(9, to < MAX_BLOCKS as u64 && to != u64::from(block.number))?;
    let serial = u32::try_from(serial).map_err(|_| No(10))?;
    ask(10, block.darts.contains_key(&serial))?;
    let cell = cells::volume(block, serial);
    ask(11, cell.len() <= most)?;
    let sewn_within = cell.iter().any(|dart| match block.darts[dart].third {
        Third::Sewn(partner) => cell.contains(&partner),
        _ => false,
    });
    ask(12, !sewn_within)?;
    let faces = cells::faces(block, &cell);
    let vertex = cells::vertices(block, &faces);
    ask(13, cells::pairs_right(block, &faces, &vertex))?;
    let departure = Departure { to: to as u8, cell, faces, vertex };
    let fresh = departure.sewn(block).count() as u64;
    ask(14, u64::from(block.counter) + fresh <= u64::from(u32::MAX))?;
    Ok(departure)
}

/// Whether questions 9 to 14 are all answered yes of a volume of at most so many darts.
pub fn may_leave(most: usize, block: &Block, to: u64, serial: u64) -> bool {
    departure(most, block, to, serial).is_ok()
}

/// The messages of a round: the transfer, then an update for each relative by ascending number.
pub fn send(limits: Limits, block: &Block, to: u64, serial: u64, room: usize) -> Answer<Vec<u8>> {
    let departure = departure(limits.cell, block, to, serial)?;
    let mut bytes = message::encode(&Message::Transfer(transfer_of(block, &departure)));
    for update in updates_of(block, &departure) {
        bytes.extend(message::encode(&Message::Update(update)));
    }
    ask(15, bytes.len() <= room)?;
    Ok(bytes)
}

fn transfer_of(block: &Block, departure: &Departure) -> Transfer {
    let mut transfer = Transfer {
        from: block.number,
        to: departure.to,
        points: cells::vertex_points(&departure.vertex, |dart| block.darts[&dart].point),
        faces: Vec::new(),
        part2: Vec::new(),
        part3: Vec::new(),
        part4: Vec::new(),
    };
    let mut start = 0;
    for face in &departure.faces {
        let index = Index(start);
        match block.darts[&face[0]].third {
            Third::Free => {}
            Third::Critical { other, label } if other == departure.to => transfer.part2.push((label, index)),
            Third::Sewn(_) => {
                let number = block.counter + transfer.part3.len() as u32;
                transfer.part3.push((number, index));
            }
            Third::Critical { other, .. } => transfer.part4.push((index, other, face_labels(block, face))),
        }
        transfer.faces.push(face.iter().map(|dart| (departure.vertex[dart], *dart)).collect());
        start += face.len() as u32;
    }
    transfer
}

/// The labels of a critical face along next.
fn face_labels(block: &Block, face: &[u32]) -> Vec<Label> {
    face.iter().filter_map(|dart| block.darts[dart].label()).collect()
}

fn updates_of(block: &Block, departure: &Departure) -> Vec<Update> {
    // A relative is a block other than the destination that shares a critical face with the volume.
    let mut labels: BTreeMap<u8, Vec<Label>> = BTreeMap::new();
    for face in &departure.faces {
        if let Third::Critical { other, .. } = block.darts[&face[0]].third {
            if other != departure.to {
                labels.entry(other).or_default().extend(face_labels(block, face).into_iter().min());
            }
        }
    }
    labels
        .into_iter()
        .map(|(relative, labels)| Update { from: block.number, to: relative, new: departure.to, labels })
        .collect()
}

/// Removes the volume, labels the faces left behind, advances the counter.
pub fn release(limits: Limits, block: &Block, to: u64, serial: u64) -> Answer<Block> {
    let departure = departure(limits.cell, block, to, serial)?;
    let mut after = block.clone();
    for face in departure.sewn(block) {
        for (position, dart) in face.iter().enumerate() {
            // The dart left behind takes the label of the departing dart it was sewn to.
            let label = Label { maker: block.number, number: after.counter, position: position as u16 };
            if let Third::Sewn(left) = block.darts[dart].third {
                if let Some(behind) = after.darts.get_mut(&left) {
                    behind.third = Third::Critical { other: departure.to, label };
                }
            }
        }
        after.counter += 1;
    }
    after.darts.retain(|serial, _| !departure.cell.contains(serial));
    Ok(after)
}

/// The topology a transfer describes, before it joins a block.
struct Arrival {
    next: BTreeMap<u32, u32>,
    opposite: BTreeMap<u32, u32>,
}

impl Links for Arrival {
    fn next(&self, serial: u32) -> u32 {
        self.next[&serial]
    }

    fn opposite(&self, serial: u32) -> u32 {
        self.opposite[&serial]
    }
}

/// Question 19: no empty face, one volume, right pairs each with its reverse, right order and numbering.
fn arrival(transfer: &Transfer) -> Option<Arrival> {
    let mut next = BTreeMap::new();
    let mut by_pair = BTreeMap::new();
    let mut vertex = BTreeMap::new();
    for face in &transfer.faces {
        let first = face.first()?;
        for (corner, after) in face.iter().zip(face.iter().skip(1).chain([first])) {
            next.insert(corner.1, after.1);
            vertex.insert(corner.1, corner.0);
            let doubled = by_pair.insert((corner.0, after.0), corner.1).is_some();
            if doubled || corner.0 == after.0 {
                return None;
            }
        }
    }
    let mut opposite = BTreeMap::new();
    for ((from, to), serial) in &by_pair {
        opposite.insert(*serial, *by_pair.get(&(*to, *from))?);
    }
    let arrival = Arrival { next, opposite };
    let darts: BTreeSet<u32> = vertex.keys().copied().collect();
    let start = *darts.first()?;
    let faces = cells::faces(&arrival, &darts);
    let given: Vec<Vec<u32>> = transfer.faces.iter().map(|face| face.iter().map(|corner| corner.1).collect()).collect();
    let rings = cells::vertices(&arrival, &faces);
    let ring_count = rings.values().collect::<BTreeSet<_>>().len();
    let right = cells::volume(&arrival, start) == darts
        && faces == given
        && rings == vertex
        && ring_count == transfer.points.len();
    right.then_some(arrival)
}

/// Question 20: the third links of the arriving darts, and of the held darts that get sewn.
fn thirds(block: &Block, transfer: &Transfer) -> Option<BTreeMap<u32, Third>> {
    let starts2: Vec<Index> = transfer.part2.iter().map(|entry| entry.1).collect();
    let starts3: Vec<Index> = transfer.part3.iter().map(|entry| entry.1).collect();
    let starts4: Vec<Index> = transfer.part4.iter().map(|entry| entry.0).collect();
    let mut listed = BTreeSet::new();
    for starts in [&starts2, &starts3, &starts4] {
        let ascending = starts.windows(2).all(|pair| pair[0] < pair[1]);
        let face_starts = starts.iter().all(|start| transfer.face_at(*start).is_some());
        let in_no_other_part = starts.iter().all(|start| listed.insert(*start));
        if !ascending || !face_starts || !in_no_other_part {
            return None;
        }
    }
    let held = block.labels();
    let mut thirds = BTreeMap::new();
    sew_part2(block, transfer, &held, &mut thirds)?;
    let mut fresh = BTreeSet::new();
    // A label is new when the block as given does not hold it.
    let mut add = |label: Label| !held.contains_key(&label) && fresh.insert(label);
    if transfer.part3.windows(2).any(|pair| pair[0].0.checked_add(1) != Some(pair[1].0)) {
        return None;
    }
    for (number, index) in &transfer.part3 {
        for (position, corner) in transfer.face_at(*index)?.iter().enumerate() {
            let label = Label { maker: transfer.from, number: *number, position: position as u16 };
            if !add(label) {
                return None;
            }
            thirds.insert(corner.1, Third::Critical { other: transfer.from, label });
        }
    }
    for (index, other, labels) in &transfer.part4 {
        if *other == transfer.from || *other == transfer.to {
            return None;
        }
        for (corner, label) in transfer.face_at(*index)?.iter().zip(labels) {
            let made_here_later = label.maker == block.number && label.number >= block.counter;
            if !add(*label) || made_here_later {
                return None;
            }
            thirds.insert(corner.1, Third::Critical { other: *other, label: *label });
        }
    }
    Some(thirds)
}

/// Part 2: labels held, critical with the sender, on different faces of equal size with agreeing points.
fn sew_part2(
    block: &Block,
    transfer: &Transfer,
    held: &BTreeMap<Label, u32>,
    thirds: &mut BTreeMap<u32, Third>,
) -> Option<()> {
    let mut used = BTreeSet::new();
    for (label, index) in &transfer.part2 {
        let arriving = transfer.face_at(*index)?;
        let dart = *held.get(label)?;
        let with_sender = matches!(block.darts[&dart].third, Third::Critical { other, .. } if other == transfer.from);
        // The held face against next, so that the k-th darts of both are sewn.
        let mut held_face = cells::face(block, dart);
        held_face[1..].reverse();
        if !with_sender || held_face.len() != arriving.len() || !used.insert(*held_face.iter().min()?) {
            return None;
        }
        for (corner, partner) in arriving.iter().zip(&held_face) {
            let point = transfer.points.get(corner.0 as usize)?;
            if *point != block.darts[&block.next(*partner)].point {
                return None;
            }
            thirds.insert(corner.1, Third::Sewn(*partner));
            thirds.insert(*partner, Third::Sewn(corner.1));
        }
        // The other direction: the held dart and the one after its partner.
        for (partner, after) in held_face.iter().zip(arriving.iter().cycle().skip(1)) {
            if block.darts[partner].point != *transfer.points.get(after.0 as usize)? {
                return None;
            }
        }
    }
    Some(())
}

/// Adds the volume of a transfer; part 2 faces become sewn, their labels go.
pub fn receive(limits: Limits, block: &Block, bytes: &[u8]) -> Answer<Block> {
    let message = message::decode(bytes).ok_or(No(16))?;
    let Message::Transfer(transfer) = message else { return Err(No(17)) };
    ask(17, transfer.to == block.number && transfer.from != block.number)?;
    // The layout bounds a transfer by the rack's 512, so at the rack this is always so.
    ask(29, transfer.dart_count() <= limits.cell)?;
    ask(18, coordinates_and_serials(block, &transfer))?;
    let arrival = arrival(&transfer).ok_or(No(19))?;
    let thirds = thirds(block, &transfer).ok_or(No(20))?;
    ask(21, block.darts.len() + transfer.dart_count() <= limits.darts)?;
    let mut after = block.clone();
    for (vertex, serial) in transfer.faces.iter().flatten() {
        let point = transfer.points[*vertex as usize];
        let (next, opposite) = (arrival.next(*serial), arrival.opposite(*serial));
        after.darts.insert(*serial, Dart { next, opposite, third: Third::Free, point });
    }
    for (serial, third) in thirds {
        if let Some(dart) = after.darts.get_mut(&serial) {
            dart.third = third;
        }
    }
    Ok(after)
}

/// Question 18: coordinates finite, serials at least 1, distinct, not held.
fn coordinates_and_serials(block: &Block, transfer: &Transfer) -> bool {
    let mut seen = BTreeSet::new();
    transfer.points.iter().all(|point| point.is_finite())
        && transfer
            .faces
            .iter()
            .flatten()
            .all(|(_, serial)| *serial >= 1 && seen.insert(*serial) && !block.darts.contains_key(serial))
}

/// Sets the new block on the listed faces.
pub fn redirect(block: &Block, bytes: &[u8]) -> Answer<Block> {
    let message = message::decode(bytes).ok_or(No(16))?;
    let Message::Update(update) = message else { return Err(No(17)) };
    ask(17, update.to == block.number && update.from != block.number)?;
    let faces = listed_faces(block, &update).ok_or(No(22))?;
    let mut after = block.clone();
    for serial in faces.iter().flatten() {
        if let Some(Dart { third: Third::Critical { other, .. }, .. }) = after.darts.get_mut(serial) {
            *other = update.new;
        }
    }
    Ok(after)
}

/// Question 22: new block neither end; each label the least of a different critical face shared with the sender.
fn listed_faces(block: &Block, update: &Update) -> Option<Vec<Vec<u32>>> {
    if update.new == update.from || update.new == update.to {
        return None;
    }
    let held = block.labels();
    let mut seen = BTreeSet::new();
    let mut faces = Vec::new();
    for label in &update.labels {
        let dart = *held.get(label)?;
        let shared = matches!(block.darts[&dart].third, Third::Critical { other, .. } if other == update.from);
        let face = cells::face(block, dart);
        let least = face_labels(block, &face).into_iter().min();
        // Two faces never share a least label, so different labels are different faces.
        if !shared || least != Some(*label) || !seen.insert(*label) {
            return None;
        }
        faces.push(face);
    }
    Some(faces)
}
