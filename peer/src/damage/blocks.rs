//! Damage to blocks: values that break one rule, images that are none, and their files.

use super::messages::fill;
use super::{bytes, some_block, some_serial, Way};
use crate::cases::{Case, UNWRITTEN};
use crate::file;
use crate::image::{self, RECORD};
use crate::rng::Rng;
use crate::value::{Block, Label, Site, Third, MAX_POSITION};
use std::collections::BTreeSet;

/// Alters a block in one place; false when the block has no such place.
type Change = fn(&mut Rng, &mut Block) -> bool;

/// Ways to break a rule of sound blocks, one rule at a time.
pub const CHANGES: &[(&str, Change)] = &[
    ("x not a number", |rng, b| spoil_point(rng, b, 0, f64::NAN.to_bits())),
    ("y infinite", |rng, b| spoil_point(rng, b, 1, f64::INFINITY.to_bits())),
    ("z infinite below", |rng, b| spoil_point(rng, b, 2, f64::NEG_INFINITY.to_bits())),
    ("z a signalling pattern", |rng, b| spoil_point(rng, b, 2, 0x7ff0_0000_0000_0001)),
    ("next not held", |rng, b| change(rng, b, |_, _, dart| dart.next = dart.next.wrapping_add(0x0123_4567))),
    ("next 0", |rng, b| change(rng, b, |_, _, dart| dart.next = 0)),
    ("two darts with one next", |rng, b| {
        let (one, two) = (some_serial(rng, b), some_serial(rng, b));
        let Some(next) = b.darts.get(&two).map(|dart| dart.next) else { return false };
        b.darts.get_mut(&one).map(|dart| dart.next = next).is_some() && one != two
    }),
    ("two nexts exchanged", |rng, b| {
        let (one, two) = (some_serial(rng, b), some_serial(rng, b));
        let (Some(d), Some(e)) = (b.darts.get(&one).copied(), b.darts.get(&two).copied()) else { return false };
        b.darts.entry(one).and_modify(|dart| dart.next = e.next);
        b.darts.entry(two).and_modify(|dart| dart.next = d.next);
        one != two
    }),
    ("opposite not held", |rng, b| change(rng, b, |_, _, dart| dart.opposite ^= 0x4000_0000)),
    ("opposite to itself", |rng, b| change(rng, b, |_, serial, dart| dart.opposite = serial)),
    ("opposite not its own inverse", |rng, b| {
        let other = some_serial(rng, b);
        change(rng, b, |_, _, dart| dart.opposite = other)
    }),
    ("sewn to nothing held", |rng, b| change(rng, b, |_, _, dart| dart.third = Third::Sewn(0x0765_4321))),
    ("sewn to 0", |rng, b| change(rng, b, |_, _, dart| dart.third = Third::Sewn(0))),
    ("sewn to itself", |rng, b| change(rng, b, |_, serial, dart| dart.third = Third::Sewn(serial))),
    ("sewn to any dart", |rng, b| {
        let other = some_serial(rng, b);
        change(rng, b, |_, _, dart| dart.third = Third::Sewn(other))
    }),
    ("a face sewn to itself in its own direction", |rng, b| {
        // Every dart to the one half-way round: its own inverse, but not turned.
        let start = some_serial(rng, b);
        if !b.darts.contains_key(&start) {
            return false;
        }
        let face = crate::cells::face(b, start);
        let half = face.len() / 2;
        for (k, serial) in face.iter().enumerate() {
            b.darts.entry(*serial).and_modify(|dart| dart.third = Third::Sewn(face[(k + half) % face.len()]));
        }
        face.len() % 2 == 0
    }),
    ("one dart of a face free", |rng, b| change(rng, b, |_, _, dart| dart.third = Third::Free)),
    ("one dart of a face critical", |rng, b| {
        let other = (b.number + 1) % 16;
        change(rng, b, |_, _, dart| dart.third = Third::Critical { other, label: FAR })
    }),
    ("a face critical with two blocks", |rng, b| change_critical(rng, b, |_, other, _| *other = (*other + 1) % 16)),
    ("critical with the block itself", |rng, b| {
        let own = b.number;
        change_face(rng, b, |_, other, _| *other = own)
    }),
    ("a label twice", |rng, b| {
        let labels: Vec<Label> = b.labels().into_keys().collect();
        let Some(taken) = rng.pick(&labels).copied() else { return false };
        change_critical(rng, b, |_, _, label| *label = taken)
    }),
    ("an own label at the counter", |rng, b| {
        let (maker, number) = (b.number, b.counter);
        change_critical(rng, b, |_, _, label| *label = Label { maker, number, ..*label })
    }),
    ("the counter below an own label", |rng, b| {
        let own: Vec<u32> = b.labels().keys().filter(|l| l.maker == b.number).map(|l| l.number).collect();
        let Some(number) = rng.pick(&own) else { return false };
        b.counter = *number;
        true
    }),
    ("a point of one dart moved", |rng, b| change(rng, b, |rng, _, dart| dart.point.0[rng.below(3)] ^= 1)),
    ("the sign of a zero", |rng, b| change(rng, b, |rng, _, dart| dart.point.0[rng.below(3)] ^= 1 << 63)),
    ("a ring of a sewn dart moved", |rng, b| {
        let start = some_serial(rng, b);
        let Some(dart) = b.darts.get(&start) else { return false };
        if !matches!(dart.third, Third::Sewn(_)) {
            return false;
        }
        let mut at = start;
        loop {
            b.darts.entry(at).and_modify(|dart| dart.point.0[1] ^= 1);
            at = b.darts[&b.darts[&at].opposite].next;
            if at == start {
                return true;
            }
        }
    }),
    ("a dart missing", |rng, b| {
        let serial = some_serial(rng, b);
        b.darts.remove(&serial).is_some()
    }),
];

/// A label far from those in use.
const FAR: Label = Label { maker: 15, number: 0x0f0f_0f0f, position: MAX_POSITION };

fn spoil_point(rng: &mut Rng, block: &mut Block, axis: usize, bits: u64) -> bool {
    change(rng, block, |_, _, dart| dart.point.0[axis] = bits)
}

/// Changes one dart.
fn change(rng: &mut Rng, block: &mut Block, how: impl Fn(&mut Rng, u32, &mut crate::value::Dart)) -> bool {
    let serial = some_serial(rng, block);
    match block.darts.get_mut(&serial) {
        Some(dart) => {
            how(rng, serial, dart);
            true
        }
        None => false,
    }
}

/// Changes one critical dart.
fn change_critical(rng: &mut Rng, block: &mut Block, how: impl Fn(&mut Rng, &mut u8, &mut Label)) -> bool {
    let critical: Vec<u32> = block.labels().into_values().collect();
    let Some(serial) = rng.pick(&critical) else { return false };
    if let Some(Third::Critical { other, label }) = block.darts.get_mut(serial).map(|dart| &mut dart.third) {
        how(rng, other, label);
    }
    true
}

/// Changes every dart of one critical face.
pub fn change_face(rng: &mut Rng, block: &mut Block, how: impl Fn(usize, &mut u8, &mut Label)) -> bool {
    let critical: Vec<u32> = block.labels().into_values().collect();
    let Some(&start) = rng.pick(&critical) else { return false };
    for (position, serial) in crate::cells::face(block, start).into_iter().enumerate() {
        if let Some(Third::Critical { other, label }) = block.darts.get_mut(&serial).map(|dart| &mut dart.third) {
            how(position, other, label);
        }
    }
    true
}

/// Blocks that break one rule, as far as the block has a place for it.
pub fn changed(rng: &mut Rng, block: &Block) -> Vec<(&'static str, Block)> {
    let mut found = Vec::new();
    for (way, change) in CHANGES {
        let mut other = block.clone();
        if change(rng, &mut other) {
            found.push((*way, other));
        }
    }
    found
}

/// Blocks that break two rules: what either change altered.
pub fn changed_twice(rng: &mut Rng, block: &Block) -> Vec<(&'static str, Block)> {
    let (one, two) = (changed(rng, block), changed(rng, block));
    let mut found = Vec::new();
    for _ in 0..6 {
        let (Some((_, a)), Some((_, b))) = (rng.pick(&one), rng.pick(&two)) else { break };
        let mut both = a.clone();
        if b.counter != block.counter {
            both.counter = b.counter;
        }
        for (serial, dart) in &mut both.darts {
            let (Some(changed), Some(before)) = (b.darts.get(serial), block.darts.get(serial)) else { continue };
            if changed.next != before.next {
                dart.next = changed.next;
            }
            if changed.opposite != before.opposite {
                dart.opposite = changed.opposite;
            }
            if changed.third != before.third {
                dart.third = changed.third;
            }
            if changed.point != before.point {
                dart.point = changed.point;
            }
        }
        found.push(("two rules broken", both));
    }
    found
}

/// Alters the words of an image; false when the block has no such place.
type WordChange = fn(&mut Rng, &mut [u64], usize) -> bool;

/// Ways in which memory is no image. The last number is the dart count.
const WORD_CHANGES: &[(&str, WordChange)] = &[
    ("block number 16", |_, w, _| set(w, 0, 16)),
    ("block number far off", |_, w, _| set(w, 0, 1 << 40)),
    ("counter 2^32", |_, w, _| set(w, 1, 1 << 32)),
    ("dart count one past the most", |_, w, _| set(w, 2, most(w) as u64 + 1)),
    ("dart count two past the most", |_, w, _| set(w, 2, most(w) as u64 + 2)),
    ("dart count of the rack", |_, w, _| set(w, 2, 4096)),
    ("dart count far off", |_, w, _| set(w, 2, u64::MAX)),
    ("a dart too few", |_, w, n| n > 0 && set(w, 2, n as u64 - 1)),
    ("a dart too many", |_, w, n| n < most(w) && set(w, 2, n as u64 + 1)),
    ("a header word not zero", |rng, w, _| {
        let at = rng.between(3, 7);
        set(w, at, 1)
    }),
    ("a word behind the darts", |rng, w, n| {
        let at = RECORD * (1 + n) + rng.below(w.len() - RECORD * (1 + n));
        n < most(w) && set(w, at, 1 << rng.below(64))
    }),
    ("the last word not zero", |_, w, n| n < most(w) && set(w, w.len() - 1, 1)),
    ("serial 0", |_, w, n| n > 0 && set(w, RECORD, 0)),
    ("serial 2^32", |_, w, n| n > 0 && set(w, RECORD * n, 1 << 32)),
    ("serials not ascending", |rng, w, n| {
        let at = RECORD * (1 + rng.below(n.max(2) - 1));
        n > 1 && set(w, at + RECORD, w[at])
    }),
    ("two darts exchanged", |rng, w, n| {
        let at = RECORD * (1 + rng.below(n.max(2) - 1));
        if n > 1 {
            for k in 0..RECORD {
                w.swap(at + k, at + RECORD + k);
            }
        }
        n > 1
    }),
    ("next past the darts", |rng, w, n| set_dart(rng, w, n, 1, n as u64)),
    ("opposite far off", |rng, w, n| set_dart(rng, w, n, 2, u64::MAX)),
    ("next by serial", |rng, w, n| {
        let at = RECORD * (1 + rng.below(n));
        n > 0 && set(w, at + 1, w[RECORD * (1 + (w[at + 1] as usize % n))])
    }),
    ("kind 3", |rng, w, n| set_dart(rng, w, n, 3, 3)),
    ("kind word with other block 16", |rng, w, n| set_dart(rng, w, n, 3, 2 + 4 * 16)),
    ("kind word far off", |rng, w, n| set_dart(rng, w, n, 3, 1 << 63 | 2)),
    ("free with an other block", |rng, w, n| add_to_kind(rng, w, n, 0)),
    ("sewn with an other block", |rng, w, n| add_to_kind(rng, w, n, 1)),
    ("free with a link", |rng, w, n| link_of_kind(rng, w, n, 0, 1)),
    ("sewn past the darts", |rng, w, n| link_of_kind(rng, w, n, 1, n as u64)),
    ("sewn far off", |rng, w, n| link_of_kind(rng, w, n, 1, 1 << 50)),
    ("label code of maker 16", |rng, w, n| link_of_kind(rng, w, n, 2, 1 << 48)),
    ("label code far off", |rng, w, n| link_of_kind(rng, w, n, 2, u64::MAX)),
    ("a bit flipped", |rng, w, n| {
        let at = rng.below(RECORD * (1 + n));
        set(w, at, w[at] ^ 1 << rng.below(64))
    }),
    ("a low bit flipped", |rng, w, n| {
        let at = rng.below(RECORD * (1 + n));
        set(w, at, w[at] ^ 1 << rng.below(6))
    }),
];

/// Darts that memory has room for.
fn most(words: &[u64]) -> usize {
    words.len() / RECORD - 1
}

fn set(words: &mut [u64], at: usize, value: u64) -> bool {
    words[at] = value;
    true
}

fn set_dart(rng: &mut Rng, words: &mut [u64], count: usize, field: usize, value: u64) -> bool {
    count > 0 && set(words, RECORD * (1 + rng.below(count)) + field, value)
}

/// A dart of a kind, as the place of its record.
fn dart_of_kind(rng: &mut Rng, words: &[u64], count: usize, kind: u64) -> Option<usize> {
    let places: Vec<usize> = (1..=count).map(|record| RECORD * record).filter(|at| words[at + 3] & 3 == kind).collect();
    rng.pick(&places).copied()
}

fn add_to_kind(rng: &mut Rng, words: &mut [u64], count: usize, kind: u64) -> bool {
    match dart_of_kind(rng, words, count, kind) {
        Some(at) => set(words, at + 3, kind + 4),
        None => false,
    }
}

fn link_of_kind(rng: &mut Rng, words: &mut [u64], count: usize, kind: u64, link: u64) -> bool {
    match dart_of_kind(rng, words, count, kind) {
        Some(at) => set(words, at + 4, link),
        None => false,
    }
}

/// Memories that are no sound block's image.
pub fn images(rng: &mut Rng, site: Site, block: &Block) -> Vec<(&'static str, Vec<u64>)> {
    let mut found: Vec<(&'static str, Vec<u64>)> =
        changed(rng, block).into_iter().map(|(way, block)| (way, image::encode_at(site, &block))).collect();
    for (way, change) in WORD_CHANGES {
        let mut words = image::encode_at(site, block);
        if change(rng, &mut words, block.darts.len()) {
            found.push((*way, words));
        }
    }
    found
}

/// Memories of a wrong size.
pub fn wrong_sizes(site: Site, block: &Block) -> Vec<(&'static str, Vec<u64>)> {
    let words = image::encode_at(site, block);
    let longer = [&words[..], &[0]].concat();
    let (way, other) = match site {
        Site::Rack => ("memory of a viewer", Site::Viewer),
        Site::Viewer => ("memory of the rack", Site::Rack),
    };
    vec![
        (way, image::encode_at(other, block)),
        ("memory a word short", words[..words.len() - 1].to_vec()),
        ("memory a dart short", words[..words.len() - RECORD].to_vec()),
        ("memory a word long", longer),
        ("no memory", Vec::new()),
        ("the header alone", words[..RECORD].to_vec()),
        ("memory of two blocks", [&words[..], &words[..]].concat()),
    ]
}

/// All memories refused by 1 or 2, and some that are not.
pub fn memories(rng: &mut Rng, site: Site, block: &Block) -> Vec<(&'static str, Vec<u64>)> {
    let mut found = wrong_sizes(site, block);
    found.extend(images(rng, site, block));
    found
}

/// Cases of read_file: of any block, into memory that holds one which the site can hold.
pub fn read_file(rng: &mut Rng, site: Site, mesh: &[Block], held: &[Block]) -> Vec<Way> {
    let from = if rng.one_in(8) { mesh } else { held };
    let block = some_block(rng, from).clone();
    let stale = image::encode_at(site, some_block(rng, held));
    let good = file::encode(&block);
    let mut files = vec![("as it is", good.clone())];
    files.extend(changed(rng, &block).into_iter().map(|(way, block)| (way, file::encode(&block))));
    files.extend(changed_twice(rng, &block).into_iter().map(|(way, block)| (way, file::encode(&block))));
    files.extend(bytes::tokens(rng, &file::tokens(&block)));
    files.extend(bytes::raw(rng, &good));
    let serials: Vec<usize> =
        file::tokens(&block).iter().enumerate().filter(|(_, t)| t.role == "serial").map(|(at, _)| at).collect();
    if let [first, .., last] = serials[..] {
        for (way, at, value) in [("the first serial 0", first, 0), ("the last serial 1", last, 1)] {
            let mut tokens = file::tokens(&block);
            tokens[at].value = value;
            files.push((way, crate::groups::put_tokens(&tokens)));
        }
    }
    let mut ways: Vec<Way> =
        files.into_iter().map(|(way, file)| (way, Case::ReadFile { site, file, block: stale.clone() })).collect();
    for (way, memory) in wrong_sizes(site, &block) {
        ways.push((way, Case::ReadFile { site, file: good.clone(), block: memory }));
    }
    // Any words are good memory to read into.
    let noise = (0..site.words()).map(|_| rng.bits()).collect();
    ways.push(("into noise", Case::ReadFile { site, file: good, block: noise }));
    if site == Site::Viewer && rng.one_in(4) {
        let most = site.limits().darts;
        for (way, goal) in [("a full block", most), ("two darts past the most", most + 2), ("twice the most", 2 * most)]
        {
            let Some(full) = fill(rng, &block, goal, &BTreeSet::new()) else { continue };
            ways.push((way, Case::ReadFile { site, file: file::encode(&full), block: stale.clone() }));
        }
    }
    ways
}

/// Cases of save_file.
pub fn save_file(rng: &mut Rng, site: Site, held: &[Block]) -> Vec<Way> {
    let block = some_block(rng, held);
    let words = image::encode_at(site, block);
    let length = file::encode(block).len();
    let case = |block: Vec<u64>, room: usize| Case::SaveFile { site, block, out: vec![0xa5; room], written: UNWRITTEN };
    let mut ways: Vec<Way> =
        memories(rng, site, block).into_iter().map(|(way, words)| (way, case(words, length + 9))).collect();
    for (way, room) in [
        ("room to spare", length + 40),
        ("room that just fits", length),
        ("room a byte short", length - 1),
        ("no room", 0),
        ("half the room", length / 2),
    ] {
        ways.push((way, case(words.clone(), room)));
    }
    ways
}
