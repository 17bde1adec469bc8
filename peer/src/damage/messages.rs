//! Damage to transfers and updates: one thing altered, encoded again, given to its receiver.

use super::{blocks, bytes, Way};
use crate::calls;
use crate::cases::Case;
use crate::cells;
use crate::groups::put_number;
use crate::image;
use crate::message::{self, Index, Message, Transfer, Update};
use crate::rng::Rng;
use crate::value::{Block, Label, Point, Site, Third, MAX_CELL, RACK, VIEWER_CELL};
use std::collections::BTreeSet;

/// Alters a transfer in one place; false when it has no such place.
type Change = fn(&mut Rng, &Block, &mut Transfer) -> bool;

const CHANGES: &[(&str, Change)] = &[
    // 16
    ("no face", |_, _, t| {
        t.faces.clear();
        clear_parts(t)
    }),
    ("only empty faces", |_, _, t| {
        t.faces = vec![Vec::new(); 3];
        clear_parts(t)
    }),
    ("513 darts", |_, _, t| {
        add_pillow(t, (MAX_CELL + 2 - t.dart_count()) / 2) && t.faces[0].pop().is_some() && clear_parts(t)
    }),
    ("514 darts", |_, _, t| add_pillow(t, (MAX_CELL + 2 - t.dart_count()) / 2)),
    // 29 at a viewer, 19 at the rack
    ("66 darts or more", |_, _, t| add_to_66(t)),
    ("66 darts or more, a serial 0", |rng, _, t| add_to_66(t) && set_serial(rng, t, 0)),
    ("66 darts or more, x not a number", |rng, _, t| add_to_66(t) && spoil_point(rng, t, 0, f64::NAN)),
    ("66 darts or more, to another block", |_, _, t| {
        t.to = (t.to + 1) % 16;
        add_to_66(t)
    }),
    ("66 darts or more, from the receiver", |_, _, t| {
        t.from = t.to;
        add_to_66(t)
    }),
    // 17
    ("to another block", |_, _, t| {
        t.to = (t.to + 1) % 16;
        true
    }),
    ("from the receiver", |_, _, t| {
        t.from = t.to;
        true
    }),
    // 18
    ("x not a number", |rng, _, t| spoil_point(rng, t, 0, f64::NAN)),
    ("y infinite", |rng, _, t| spoil_point(rng, t, 1, f64::INFINITY)),
    ("z infinite below", |rng, _, t| spoil_point(rng, t, 2, f64::NEG_INFINITY)),
    ("an unused vertex that is not finite", |_, _, t| {
        t.points.push(Point([f64::NAN.to_bits(), 0, 0]));
        true
    }),
    ("serial 0", |rng, _, t| set_serial(rng, t, 0)),
    ("a serial twice", |_, _, t| {
        let (_, serial) = t.faces[0][0];
        t.faces.last_mut().and_then(|face| face.last_mut()).map(|corner| corner.1 = serial).is_some()
    }),
    ("a serial held", |rng, b, t| {
        let serial = super::some_serial(rng, b);
        serial != 0 && set_serial(rng, t, serial)
    }),
    // 19
    ("an empty face at the end", |_, _, t| {
        t.faces.push(Vec::new());
        true
    }),
    ("an empty face at the front", |_, _, t| {
        t.faces.insert(0, Vec::new());
        true
    }),
    ("two volumes", |_, _, t| add_pillow(t, 3)),
    ("a vertex pair twice", |_, _, t| {
        let mut copy = t.faces[0].clone();
        let base = greatest_serial(t);
        for (k, corner) in copy.iter_mut().enumerate() {
            corner.1 = base.saturating_add(1 + k as u32);
        }
        t.faces.push(copy);
        base < u32::MAX - 600 && t.dart_count() <= MAX_CELL
    }),
    ("a pair with one end", |_, _, t| {
        let vertex = t.faces[0][0].0;
        t.faces[0].get_mut(1).map(|corner| corner.0 = vertex).is_some()
    }),
    ("a reverse missing", |_, _, t| t.faces.len() > 1 && t.faces.pop().is_some() && clear_parts(t)),
    ("a face of one dart", |_, _, t| {
        let serial = greatest_serial(t).saturating_add(1);
        t.faces.push(vec![(0, serial)]);
        t.dart_count() <= MAX_CELL
    }),
    ("faces out of order", |rng, _, t| {
        if t.faces.len() < 2 {
            return false;
        }
        let at = rng.below(t.faces.len() - 1);
        t.faces.swap(at, at + 1);
        clear_parts(t)
    }),
    ("a face started elsewhere", |rng, _, t| {
        let at = rng.below(t.faces.len());
        t.faces[at].rotate_left(1);
        true
    }),
    ("a face turned round", |rng, _, t| {
        let at = rng.below(t.faces.len());
        t.faces[at][1..].reverse();
        true
    }),
    ("vertices exchanged", |rng, _, t| {
        let (a, b) = (rng.below(t.points.len()) as u32, rng.below(t.points.len()) as u32);
        renumber(t, |v| {
            if v == a {
                b
            } else if v == b {
                a
            } else {
                v
            }
        });
        t.points.swap(a as usize, b as usize);
        a != b
    }),
    ("a vertex past the points", |_, _, t| {
        let last = t.points.len() as u32 - 1;
        renumber(t, |v| if v == last { last + 1 } else { v });
        true
    }),
    ("a vertex far off", |_, _, t| {
        let last = t.points.len() as u32 - 1;
        renumber(t, |v| if v == last { u32::MAX } else { v });
        true
    }),
    ("an unused vertex", |_, _, t| {
        t.points.push(Point::default());
        true
    }),
    ("a vertex too few", |_, _, t| t.points.pop().is_some()),
    ("two rings under one number", |rng, _, t| merge_rings(rng, t)),
    // 20
    ("a part 2 index inside a face", |rng, _, t| shift(rng, t.part2.len(), |at| t.part2[at].1 .0 += 1)),
    ("a part 3 index inside a face", |rng, _, t| shift(rng, t.part3.len(), |at| t.part3[at].1 .0 += 1)),
    ("a part 4 index inside a face", |rng, _, t| shift(rng, t.part4.len(), |at| t.part4[at].0 .0 += 1)),
    ("a part 2 index past the darts", |_, _, t| {
        let count = t.dart_count() as u32;
        t.part2.last_mut().map(|entry| entry.1 = Index(count)).is_some()
    }),
    ("a part 3 index past the darts", |_, _, t| {
        let count = t.dart_count() as u32;
        t.part3.last_mut().map(|entry| entry.1 = Index(count + 100)).is_some()
    }),
    ("part 2 descending", |_, _, t| {
        t.part2.reverse();
        t.part2.len() > 1
    }),
    ("part 3 descending", |_, _, t| {
        let count = t.part3.len();
        if count > 1 {
            let (a, b) = (t.part3[0].1, t.part3[count - 1].1);
            t.part3[0].1 = b;
            t.part3[count - 1].1 = a;
        }
        count > 1
    }),
    ("part 4 descending", |_, _, t| {
        t.part4.reverse();
        t.part4.len() > 1
    }),
    ("a part 2 entry twice", |_, _, t| t.part2.first().copied().map(|entry| t.part2.insert(0, entry)).is_some()),
    ("a part 3 index twice", |_, _, t| {
        t.part3.last().copied().map(|(number, index)| t.part3.push((number.wrapping_add(1), index))).is_some()
    }),
    ("a part 4 entry twice", |_, _, t| t.part4.first().cloned().map(|entry| t.part4.insert(0, entry)).is_some()),
    ("a face in parts 2 and 3", |_, _, t| {
        let number = t.part3.first().map_or(7, |entry| entry.0);
        let index = t.part2.first().map(|entry| entry.1);
        t.part3.clear();
        index.map(|index| t.part3.push((number, index))).is_some()
    }),
    ("a face in parts 3 and 4", |_, _, t| {
        let index = t.part4.first().map(|entry| entry.0);
        t.part3.clear();
        index.map(|index| t.part3.push((9, index))).is_some()
    }),
    ("a face in parts 2 and 4", |_, b, t| {
        let Some((_, index)) = t.part2.first().copied() else { return false };
        let size = t.face_at(index).map_or(0, <[_]>::len);
        let labels = (0..size).map(|k| Label { position: k as u16, ..FAR }).collect();
        t.part4 = vec![(index, third_block(b, t), labels)];
        true
    }),
    ("a part 2 label not held", |rng, _, t| shift(rng, t.part2.len(), |at| t.part2[at].0 = FAR)),
    ("a part 2 label critical with another", |rng, b, t| {
        let from = t.from;
        let others = labels_where(b, |other| other != from);
        let Some(label) = rng.pick(&others).copied() else { return false };
        shift(rng, t.part2.len(), |at| t.part2[at].0 = label)
    }),
    ("part 2 labels on one face", |_, b, t| {
        let Some((first, _)) = t.part2.first().copied() else { return false };
        let held = b.labels();
        let Some(dart) = held.get(&first) else { return false };
        let Some(label) = b.darts[&b.darts[dart].next].label() else { return false };
        t.part2.get_mut(1).map(|entry| entry.0 = label).is_some()
    }),
    ("a part 2 label of another face", |rng, b, t| {
        let from = t.from;
        let shared = labels_where(b, |other| other == from);
        let Some(label) = rng.pick(&shared).copied() else { return false };
        shift(rng, t.part2.len(), |at| t.part2[at].0 = label)
    }),
    ("a free face in part 2", |rng, b, t| {
        let from = t.from;
        let shared = labels_where(b, |other| other == from);
        let (Some(label), Some(index)) = (rng.pick(&shared).copied(), free_face(rng, t)) else { return false };
        t.part2 = vec![(label, index)];
        true
    }),
    ("a part 2 label further along its face", |_, b, t| {
        let held = b.labels();
        let Some(entry) = t.part2.first_mut() else { return false };
        let Some(dart) = held.get(&entry.0) else { return false };
        b.darts[&b.darts[dart].next].label().map(|label| entry.0 = label).is_some()
    }),
    ("points that do not agree", |rng, _, t| {
        let indices: Vec<Index> = t.part2.iter().map(|entry| entry.1).collect();
        let Some(index) = rng.pick(&indices).copied() else { return false };
        let Some(vertex) = t.face_at(index).and_then(|face| Some(face.last()?.0)) else { return false };
        t.points[vertex as usize].0[rng.below(3)] ^= 1;
        true
    }),
    ("a gap in part 3", |_, _, t| {
        t.part3.len() > 1 && t.part3.last_mut().map(|entry| entry.0 = entry.0.wrapping_add(1)).is_some()
    }),
    ("a part 3 number twice", |_, _, t| {
        let first = t.part3.first().map_or(0, |entry| entry.0);
        t.part3.len() > 1 && t.part3.get_mut(1).map(|entry| entry.0 = first).is_some()
    }),
    ("part 3 numbers descending", |_, _, t| {
        let numbers: Vec<u32> = t.part3.iter().rev().map(|entry| entry.0).collect();
        for (entry, number) in t.part3.iter_mut().zip(numbers) {
            entry.0 = number;
        }
        t.part3.len() > 1
    }),
    ("part 3 numbers that wrap", |_, _, t| {
        let count = t.part3.len() as u32;
        for (k, entry) in t.part3.iter_mut().enumerate() {
            // The last one but one is 2^32 − 1, the last 0.
            entry.0 = (k as u32).wrapping_sub(count - 1);
        }
        count > 1
    }),
    ("part 3 numbers from elsewhere", |rng, _, t| {
        let base = (rng.bits() as u32) >> 1;
        for (k, entry) in t.part3.iter_mut().enumerate() {
            entry.0 = base + k as u32;
        }
        !t.part3.is_empty()
    }),
    ("a part 3 label held", |rng, b, t| {
        let Some((_, index)) = t.part3.first().copied() else { return false };
        let size = t.face_at(index).map_or(0, <[_]>::len);
        let held: Vec<Label> = b.labels().into_keys().collect();
        let taken: Vec<&Label> = held.iter().filter(|l| l.maker == t.from && usize::from(l.position) < size).collect();
        let Some(number) = rng.pick(&taken).map(|label| label.number) else { return false };
        t.part3 = vec![(number, index)];
        true
    }),
    ("a part 4 label held", |rng, b, t| {
        let held: Vec<Label> = b.labels().into_keys().collect();
        let Some(label) = rng.pick(&held).copied() else { return false };
        set_label4(rng, t, label)
    }),
    ("a part 4 label that part 2 removes", |rng, _, t| {
        let Some(label) = t.part2.first().map(|entry| entry.0) else { return false };
        give_part4(t);
        set_label4(rng, t, label)
    }),
    ("a part 4 label twice", |_, _, t| {
        let Some((_, _, labels)) = t.part4.first_mut() else { return false };
        let first = labels[0];
        labels.last_mut().map(|label| *label = first).is_some() && labels.len() > 1
    }),
    ("a part 4 label of part 3", |rng, _, t| {
        let Some(number) = t.part3.first().map(|entry| entry.0) else { return false };
        let label = Label { maker: t.from, number, position: 0 };
        give_part4(t);
        set_label4(rng, t, label)
    }),
    ("a part 4 label made here at the counter", |rng, b, t| {
        set_label4(rng, t, Label { maker: b.number, number: b.counter, position: 4000 })
    }),
    ("a part 4 label made here below the counter", |rng, b, t| {
        b.counter > 0 && set_label4(rng, t, Label { maker: b.number, number: b.counter - 1, position: 4095 })
    }),
    ("part 4 with the sender", |rng, _, t| {
        let from = t.from;
        shift(rng, t.part4.len(), |at| t.part4[at].1 = from)
    }),
    ("part 4 with the receiver", |rng, _, t| {
        let to = t.to;
        shift(rng, t.part4.len(), |at| t.part4[at].1 = to)
    }),
    ("part 4 with any block", |rng, _, t| {
        let other = rng.below(16) as u8;
        shift(rng, t.part4.len(), |at| t.part4[at].1 = other)
    }),
    // Still right: entries may be left out.
    ("a part 2 entry left out", |_, _, t| t.part2.pop().is_some()),
    ("a part 4 entry left out", |_, _, t| t.part4.pop().is_some()),
    ("all parts left out", |_, _, t| clear_parts(t)),
    ("a free face in part 3", |rng, _, t| {
        let Some(index) = free_face(rng, t) else { return false };
        t.part3 = vec![(77, index)];
        true
    }),
];

/// A label far from those in use.
const FAR: Label = Label { maker: 14, number: 0x0abc_def0, position: 4001 };

fn clear_parts(t: &mut Transfer) -> bool {
    t.part2.clear();
    t.part3.clear();
    t.part4.clear();
    true
}

fn shift(rng: &mut Rng, count: usize, change: impl FnOnce(usize)) -> bool {
    if count > 0 {
        change(rng.below(count));
    }
    count > 0
}

fn greatest_serial(t: &Transfer) -> u32 {
    t.faces.iter().flatten().map(|corner| corner.1).max().unwrap_or(0)
}

/// A pillow behind the volume, with vertices and serials of its own.
fn add_pillow(t: &mut Transfer, n: usize) -> bool {
    let (vertex, base) = (t.points.len() as u32, greatest_serial(t));
    if n < 3 || base > u32::MAX - 2 * MAX_CELL as u32 {
        return false;
    }
    let n = n as u32;
    t.points.extend((0..n).map(|_| Point::default()));
    t.faces.push((0..n).map(|k| (vertex + k, base + 1 + k)).collect());
    t.faces.push((0..n).map(|k| (vertex + (n - k) % n, base + 1 + n + k)).collect());
    true
}

/// A pillow behind the volume, so that there are more than 64 darts.
fn add_to_66(t: &mut Transfer) -> bool {
    add_pillow(t, 3.max((VIEWER_CELL + 3).saturating_sub(t.dart_count()) / 2))
}

fn spoil_point(rng: &mut Rng, t: &mut Transfer, axis: usize, float: f64) -> bool {
    shift(rng, t.points.len(), |at| t.points[at].0[axis] = float.to_bits())
}

fn set_serial(rng: &mut Rng, t: &mut Transfer, serial: u32) -> bool {
    let face = rng.below(t.faces.len());
    shift(rng, t.faces[face].len(), |at| t.faces[face][at].1 = serial)
}

fn renumber(t: &mut Transfer, how: impl Fn(u32) -> u32) {
    for corner in t.faces.iter_mut().flatten() {
        corner.0 = how(corner.0);
    }
}

/// Gives two rings without common neighbours one number, so that all pairs still are right.
fn merge_rings(rng: &mut Rng, t: &mut Transfer) -> bool {
    let count = t.points.len();
    let mut near: Vec<BTreeSet<u32>> = vec![BTreeSet::new(); count];
    for face in &t.faces {
        for (corner, after) in face.iter().zip(face.iter().cycle().skip(1)) {
            near[corner.0 as usize].insert(after.0);
        }
    }
    let mut pairs = Vec::new();
    for a in 0..count {
        for b in a + 1..count {
            if !near[a].contains(&(b as u32)) && near[a].is_disjoint(&near[b]) {
                pairs.push((a as u32, b as u32));
            }
        }
    }
    let Some(&(a, b)) = rng.pick(&pairs) else { return false };
    renumber(t, |v| {
        if v == b {
            a
        } else if v > b {
            v - 1
        } else {
            v
        }
    });
    t.points.remove(b as usize);
    true
}

/// A block that is neither end.
fn third_block(receiver: &Block, t: &Transfer) -> u8 {
    (0..16).find(|block| *block != receiver.number && *block != t.from).unwrap_or(0)
}

fn labels_where(block: &Block, wanted: impl Fn(u8) -> bool) -> Vec<Label> {
    block
        .darts
        .values()
        .filter_map(|dart| match dart.third {
            Third::Critical { other, label } if wanted(other) => Some(label),
            _ => None,
        })
        .collect()
}

/// The start of a face in no part.
fn free_face(rng: &mut Rng, t: &Transfer) -> Option<Index> {
    let mut listed: BTreeSet<u32> = t.part2.iter().map(|entry| entry.1 .0).collect();
    listed.extend(t.part3.iter().map(|entry| entry.1 .0));
    listed.extend(t.part4.iter().map(|entry| entry.0 .0));
    let mut start = 0;
    let mut free = Vec::new();
    for face in &t.faces {
        if !listed.contains(&start) {
            free.push(Index(start));
        }
        start += face.len() as u32;
    }
    rng.pick(&free).copied()
}

/// Adds a part 4 entry for a face in no part, if there is none yet.
fn give_part4(t: &mut Transfer) {
    if t.part4.is_empty() {
        let other = (0..16).find(|block| *block != t.to && *block != t.from).unwrap_or(0);
        if let Some(index) = free_face(&mut Rng::new(0), t) {
            let size = t.face_at(index).map_or(0, <[_]>::len);
            let labels = (0..size).map(|k| Label { position: k as u16, ..FAR }).collect();
            t.part4.push((index, other, labels));
        }
    }
}

fn set_label4(rng: &mut Rng, t: &mut Transfer, label: Label) -> bool {
    if t.part4.is_empty() {
        return false;
    }
    let entry = rng.below(t.part4.len());
    let labels = &mut t.part4[entry].2;
    let at = rng.below(labels.len());
    labels[at] = label;
    true
}

/// A transfer from a mesh to one of its blocks that a site can hold, rich in parts; and the updates sent with it. The sender is
/// the rack.
fn some_round(rng: &mut Rng, site: Site, mesh: &[Block]) -> Option<(Block, Transfer, Vec<Update>)> {
    let mut best: Option<(usize, Block, Transfer, Vec<Update>)> = None;
    let mut tries: Vec<(usize, u32)> = Vec::new();
    for (from, block) in mesh.iter().enumerate() {
        for cell in cells::volumes(block, block.darts.keys().copied()) {
            tries.extend(cell.first().map(|serial| (from, *serial)));
        }
    }
    rng.shuffle(&mut tries);
    for (from, serial) in tries.into_iter().take(24) {
        let to = rng.below(mesh.len());
        if mesh[to].darts.len() > site.limits().darts {
            continue;
        }
        let Ok(sent) = calls::send(RACK, &mesh[from], to as u64, u64::from(serial), usize::MAX) else { continue };
        let Some(messages) = message::split(&sent) else { continue };
        let mut updates = Vec::new();
        let mut transfer = None;
        for bytes in messages {
            match message::decode(bytes) {
                Some(Message::Transfer(t)) => transfer = Some(t),
                Some(Message::Update(u)) => updates.push(u),
                None => {}
            }
        }
        let Some(t) = transfer else { continue };
        let worth = t.part2.len().min(2) * 3 + t.part3.len().min(2) * 2 + t.part4.len().min(2) * 3 + rng.below(5);
        if best.as_ref().is_none_or(|(most, ..)| worth > *most) {
            best = Some((worth, mesh[to].clone(), t, updates));
        }
    }
    best.map(|(_, block, transfer, updates)| (block, transfer, updates))
}

/// A message around bytes that need not fit.
fn framed(rest: &[u8]) -> Vec<u8> {
    let mut out = Vec::new();
    put_number(&mut out, rest.len() as u64);
    out.extend_from_slice(rest);
    out
}

/// Damage to the length and to the frame of a message.
fn frames(good: &[u8]) -> Vec<(&'static str, Vec<u8>)> {
    let mut more = good.to_vec();
    more[0] = more[0].wrapping_add(1);
    let mut less = good.to_vec();
    less[0] = less[0].wrapping_sub(1);
    vec![
        ("a length too long", more),
        ("a length too short", less),
        ("two messages", [good, good].concat()),
        ("a length alone", vec![0]),
        ("a framed zero", vec![1, 0]),
        ("a framed kind alone", vec![1, 1]),
    ]
}

/// Cases of receive.
pub fn receive(rng: &mut Rng, site: Site, mesh: &[Block]) -> Vec<Way> {
    let Some((block, transfer, updates)) = some_round(rng, site, mesh) else { return Vec::new() };
    let good = message::encode(&Message::Transfer(transfer.clone()));
    let mut messages = vec![("as it is", good.clone())];
    for (way, change) in CHANGES {
        let mut other = transfer.clone();
        if change(rng, &block, &mut other) {
            if rng.one_in(4) {
                messages.push(("two things altered", message::frame(&bytes::altered(rng, &other.tokens()))));
            }
            messages.push((*way, message::encode(&Message::Transfer(other))));
        }
    }
    for (way, rest) in bytes::tokens(rng, &transfer.tokens()) {
        messages.push((way, framed(&rest)));
    }
    messages.extend(bytes::raw(rng, &good));
    messages.extend(frames(&good));
    if let Some(update) = updates.first() {
        messages.push(("an update", message::encode(&Message::Update(update.clone()))));
    }
    let no_labels = Update { from: transfer.from, to: transfer.to, new: 0, labels: Vec::new() };
    messages.push(("an update without labels", message::encode(&Message::Update(no_labels))));
    if rng.one_in(4) {
        messages.extend(whole_cells(&block, transfer.from));
    }
    let words = image::encode_at(site, &block);
    let mut ways: Vec<Way> = messages
        .into_iter()
        .map(|(way, message)| (way, Case::Receive { site, block: words.clone(), message }))
        .collect();
    for (way, block) in blocks::memories(rng, site, &block) {
        ways.push((way, Case::Receive { site, block, message: good.clone() }));
    }
    if site == Site::Viewer || rng.one_in(4) {
        ways.extend(nearly_full(rng, site, &block, &transfer));
    }
    ways
}

/// Transfers of cells that are right but for their size.
fn whole_cells(block: &Block, from: u8) -> Vec<(&'static str, Vec<u8>)> {
    let mut found = Vec::new();
    for (way, n) in [("a cell of 64 darts", 32), ("a cell of 66 darts", 33), ("a cell of 512 darts", 256)] {
        let cell = Block { number: from, ..super::requests::pillow_block(n, 0) };
        if let Ok(sent) = calls::send(RACK, &cell, u64::from(block.number), 1, usize::MAX) {
            found.push((way, sent));
        }
    }
    found
}

/// The receiver filled up to where the volume just fits, and two darts further.
fn nearly_full(rng: &mut Rng, site: Site, block: &Block, transfer: &Transfer) -> Vec<Way> {
    let message = message::encode(&Message::Transfer(transfer.clone()));
    let most = site.limits().darts;
    let room = most.saturating_sub(transfer.dart_count());
    let taken: BTreeSet<u32> = transfer.faces.iter().flatten().map(|corner| corner.1).collect();
    let mut ways = Vec::new();
    for (way, goal) in
        [("room for just this volume", room), ("room for all but two darts", room + 2), ("no room", most)]
    {
        let Some(full) = fill(rng, block, goal, &taken) else { continue };
        if full.darts.len() <= most {
            ways.push((way, Case::Receive { site, block: image::encode_at(site, &full), message: message.clone() }));
        }
    }
    ways
}

/// A block with one more volume, a free pillow, so that it has so many darts.
pub fn fill(rng: &mut Rng, block: &Block, goal: usize, taken: &BTreeSet<u32>) -> Option<Block> {
    let missing = goal.checked_sub(block.darts.len())?;
    if missing % 2 != 0 || missing < 6 {
        return None;
    }
    let first = rng.bits() as u32 >> 1;
    let pillow = super::requests::pillow_block(missing / 2, 0);
    let mut full = block.clone();
    for (serial, mut dart) in pillow.darts {
        dart.next += first;
        dart.opposite += first;
        dart.point = Point::default();
        if taken.contains(&(first + serial)) || full.darts.insert(first + serial, dart).is_some() {
            return None;
        }
    }
    Some(full)
}

/// Alters an update in one place; false when it has no such place.
type UpdateChange = fn(&mut Rng, &Block, &mut Update) -> bool;

const UPDATE_CHANGES: &[(&str, UpdateChange)] = &[
    ("to another block", |_, _, u| {
        u.to = (u.to + 1) % 16;
        true
    }),
    ("from the receiver", |_, _, u| {
        u.from = u.to;
        true
    }),
    ("from a third block", |_, _, u| {
        u.from = (0..16).find(|block| *block != u.from && *block != u.to).unwrap_or(0);
        true
    }),
    ("new block the sender", |_, _, u| {
        u.new = u.from;
        true
    }),
    ("new block the receiver", |_, _, u| {
        u.new = u.to;
        true
    }),
    ("new block any", |rng, _, u| {
        u.new = rng.below(16) as u8;
        true
    }),
    ("a label not held", |rng, _, u| {
        let at = rng.below(u.labels.len() + 1);
        u.labels.insert(at, FAR);
        true
    }),
    ("a label twice", |_, _, u| u.labels.first().copied().map(|label| u.labels.push(label)).is_some()),
    ("a label that is not the least", |rng, b, u| {
        let held = b.labels();
        let least = u.labels.first().copied();
        let Some(dart) = least.and_then(|label| held.get(&label)) else { return false };
        let face = cells::face(b, *dart);
        let others: Vec<Label> = face[1..].iter().filter_map(|dart| b.darts[dart].label()).collect();
        rng.pick(&others).map(|label| u.labels[0] = *label).is_some()
    }),
    ("another label of a listed face", |rng, b, u| {
        let held = b.labels();
        let Some(dart) = u.labels.first().and_then(|label| held.get(label)) else { return false };
        let face = cells::face(b, *dart);
        let others: Vec<Label> = face[1..].iter().filter_map(|dart| b.darts[dart].label()).collect();
        rng.pick(&others).map(|label| u.labels.push(*label)).is_some()
    }),
    ("a label shared with another block", |rng, b, u| {
        let from = u.from;
        let others = labels_where(b, |other| other != from);
        rng.pick(&others).map(|label| u.labels.push(*label)).is_some()
    }),
    ("no labels", |_, _, u| {
        u.labels.clear();
        true
    }),
    ("a label left out", |_, _, u| u.labels.pop().is_some()),
    ("labels in another order", |_, _, u| {
        u.labels.reverse();
        u.labels.len() > 1
    }),
    ("any label changed", |rng, _, u| shift(rng, u.labels.len(), |at| u.labels[at].position ^= 1)),
];

/// Cases of redirect.
pub fn redirect(rng: &mut Rng, site: Site, mesh: &[Block]) -> Vec<Way> {
    let mut found = None;
    let mut plain = None;
    for _ in 0..8 {
        if let Some((_, transfer, updates)) = some_round(rng, Site::Rack, mesh) {
            let held = |update: &Update| mesh[usize::from(update.to)].darts.len() <= site.limits().darts;
            found = updates.into_iter().filter(held).max_by_key(|update| update.labels.len()).or(found);
            plain = Some(transfer);
        }
    }
    let Some(update) = found else { return Vec::new() };
    let block = &mesh[usize::from(update.to)];
    let good = message::encode(&Message::Update(update.clone()));
    let mut messages = vec![("as it is", good.clone())];
    for (way, change) in UPDATE_CHANGES {
        let mut other = update.clone();
        if change(rng, block, &mut other) {
            if rng.one_in(2) {
                messages.push(("two things altered", message::frame(&bytes::altered(rng, &other.tokens()))));
            }
            messages.push((*way, message::encode(&Message::Update(other))));
        }
    }
    for (way, rest) in bytes::tokens(rng, &update.tokens()) {
        messages.push((way, framed(&rest)));
    }
    messages.extend(bytes::raw(rng, &good));
    messages.extend(frames(&good));
    if let Some(mut transfer) = plain {
        messages.push(("a transfer", message::encode(&Message::Transfer(transfer.clone()))));
        if add_to_66(&mut transfer) {
            messages.push(("a transfer of 66 darts or more", message::encode(&Message::Transfer(transfer))));
        }
    }
    let words = image::encode_at(site, block);
    let mut ways: Vec<Way> = messages
        .into_iter()
        .map(|(way, message)| (way, Case::Redirect { site, block: words.clone(), message }))
        .collect();
    for (way, block) in blocks::memories(rng, site, block) {
        ways.push((way, Case::Redirect { site, block, message: good.clone() }));
    }
    ways
}
