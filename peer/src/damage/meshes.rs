//! Damage to meshes: blocks that are sound one by one, but not together.

use super::blocks::{self, change_face};
use super::messages::fill;
use super::{some_serial, Way};
use crate::cases::Case;
use crate::cells;
use crate::generate::{self, Mesh};
use crate::image::{self, ANSWER, SCRATCH, WORDS};
use crate::lent::OracleNumbers;
use crate::rng::Rng;
use crate::shapes::{self, Map};
use crate::sound;
use crate::value::{Block, Label, Point, Site, Third, Viewers, RACK, VIEWER_DARTS};
use std::collections::BTreeSet;

/// Alters a mesh in one place; false when it has no such place.
type Change = fn(&mut Rng, &mut Vec<Block>) -> bool;

const CHANGES: &[(&str, Change)] = &[
    // 23
    ("no blocks", |_, m| {
        m.clear();
        true
    }),
    ("two blocks exchanged", |rng, m| {
        let (a, b) = (rng.below(m.len()), rng.below(m.len()));
        m.swap(a, b);
        a != b
    }),
    ("the first block left out", |_, m| {
        m.remove(0);
        !m.is_empty()
    }),
    ("a block twice", |_, m| {
        m.push(m[m.len() - 1].clone());
        true
    }),
    ("seventeen blocks", |_, m| {
        while m.len() < 17 {
            m.push(Block::empty(m.len() as u8 % 16));
        }
        true
    }),
    // 24
    ("a serial in two blocks", |rng, m| {
        let (a, b) = (rng.below(m.len()), rng.below(m.len()));
        let taken = some_serial(rng, &m[a]);
        let old = some_serial(rng, &m[b]);
        a != b && taken != 0 && old != 0 && rename(&mut m[b], old, taken)
    }),
    ("a block's darts under another number", |rng, m| {
        let (a, b) = (rng.below(m.len()), rng.below(m.len()));
        let number = m[b].number;
        let free = m[a].darts.values().all(|dart| !matches!(dart.third, Third::Critical { .. }));
        m[b] = Block { number, ..m[a].clone() };
        a != b && free && !m[b].darts.is_empty()
    }),
    // 25
    ("one side of a pair free", |rng, m| {
        let b = rng.below(m.len());
        let block = &mut m[b];
        let critical: Vec<u32> = block.labels().into_values().collect();
        let Some(&start) = rng.pick(&critical) else { return false };
        for serial in cells::face(block, start) {
            block.darts.entry(serial).and_modify(|dart| dart.third = Third::Free);
        }
        true
    }),
    ("a label of its own on one side", |rng, m| {
        let b = rng.below(m.len());
        change_face(rng, &mut m[b], |position, _, label| {
            *label = Label { maker: FAR.maker, number: FAR.number, position: position as u16 }
        })
    }),
    ("labels turned on one side", |rng, m| {
        let b = rng.below(m.len());
        let critical: Vec<u32> = m[b].labels().into_values().collect();
        let Some(&start) = rng.pick(&critical) else { return false };
        let face = cells::face(&m[b], start);
        let labels: Vec<Option<Label>> = face.iter().map(|dart| m[b].darts[dart].label()).collect();
        let size = face.len();
        for (k, serial) in face.iter().enumerate() {
            let turned = labels[(size - k) % size];
            if let (Some(dart), Some(turned)) = (m[b].darts.get_mut(serial), turned) {
                if let Third::Critical { label, .. } = &mut dart.third {
                    *label = turned;
                }
            }
        }
        size > 2
    }),
    ("blocks that do not name each other", |rng, m| {
        let (b, k) = (rng.below(m.len()), m.len() as u8);
        let own = m[b].number;
        change_face(rng, &mut m[b], |_, other, _| *other = (0..k).find(|c| *c != own && *c != *other).unwrap_or(*other))
            && k > 2
    }),
    ("a named block outside the mesh", |rng, m| {
        let (b, k) = (rng.below(m.len()), m.len() as u8);
        k < 16 && change_face(rng, &mut m[b], |_, other, _| *other = k)
    }),
    ("a label on three darts", |rng, m| {
        let (a, b) = (rng.below(m.len()), rng.below(m.len()));
        let labels: Vec<Label> = m[a].labels().into_keys().collect();
        let own = m[b].labels();
        let Some(label) = rng.pick(&labels).copied().filter(|label| !own.contains_key(label)) else { return false };
        let made_later = label.maker == m[b].number && label.number >= m[b].counter;
        let starts: Vec<u32> = m[b].labels().into_values().collect();
        let Some(&dart) = rng.pick(&starts) else { return false };
        if let Some(Third::Critical { label: held, .. }) = m[b].darts.get_mut(&dart).map(|dart| &mut dart.third) {
            *held = label;
        }
        a != b && !made_later
    }),
    // 26
    ("points moved on one side", |rng, m| {
        let b = rng.below(m.len());
        let critical: Vec<u32> = m[b].labels().into_values().collect();
        rng.pick(&critical).copied().is_some_and(|dart| move_vertex(&mut m[b], dart, 1))
    }),
    ("the sign of a zero on one side", |rng, m| {
        let b = rng.below(m.len());
        let critical: Vec<u32> = m[b].labels().into_values().collect();
        rng.pick(&critical).copied().is_some_and(|dart| move_vertex(&mut m[b], dart, 1 << 63))
    }),
    // 27
    ("a maker outside the mesh", |rng, m| {
        let maker = m.len() as u8;
        maker < 16 && relabel(rng, m, |label| label.maker = maker)
    }),
    ("a number at its maker's counter", |rng, m| {
        let maker = rng.below(m.len());
        let number = m[maker].counter;
        relabel(rng, m, |label| {
            label.maker = maker as u8;
            label.number = number;
        })
    }),
    ("a maker with its counter back at 0", |rng, m| {
        let b = rng.below(m.len());
        let own = m[b].labels().keys().any(|label| label.maker == m[b].number);
        m[b].counter = 0;
        !own
    }),
    // 2, also behind the sixteenth block
    ("an unsound block", |rng, m| {
        let b = rng.below(m.len());
        let Some((_, changed)) = blocks::changed(rng, &m[b]).pop() else { return false };
        m[b] = changed;
        true
    }),
    ("an unsound block behind sixteen", |rng, m| {
        let unsound = blocks::changed(rng, &m[0]).pop();
        while m.len() < 16 {
            m.push(Block::empty(m.len() as u8));
        }
        unsound.map(|(_, block)| m.push(block)).is_some()
    }),
    // Still sound
    ("an empty block more", |_, m| {
        m.push(Block::empty(m.len() as u8 % 16));
        m.len() <= 16
    }),
    ("a counter raised", |rng, m| {
        let b = rng.below(m.len());
        m[b].counter = m[b].counter.saturating_add(3);
        true
    }),
    ("a serial renamed", |rng, m| {
        let b = rng.below(m.len());
        let old = some_serial(rng, &m[b]);
        let new = (rng.bits() as u32).max(1);
        old != 0 && rename(&mut m[b], old, new)
    }),
];

/// A label far from those in use.
const FAR: Label = Label { maker: 13, number: 0x0123_4567, position: 0 };

/// Gives a dart another serial, in all links.
fn rename(block: &mut Block, old: u32, new: u32) -> bool {
    if block.darts.contains_key(&new) {
        return false;
    }
    let map = |serial: u32| if serial == old { new } else { serial };
    let darts = std::mem::take(&mut block.darts);
    for (serial, mut dart) in darts {
        dart.next = map(dart.next);
        dart.opposite = map(dart.opposite);
        if let Third::Sewn(partner) = dart.third {
            dart.third = Third::Sewn(map(partner));
        }
        block.darts.insert(map(serial), dart);
    }
    true
}

/// Moves the vertex of a dart in this block alone, so that the block stays sound.
fn move_vertex(block: &mut Block, start: u32, bits: u64) -> bool {
    let previous = block.previous();
    let mut reached = BTreeSet::from([start]);
    let mut open = vec![start];
    while let Some(dart) = open.pop() {
        let value = block.darts[&dart];
        let before = block.darts[&previous[&dart]];
        // Both steps of d ~ next(opposite d) and d ~ next(third d), forwards and back.
        let mut near = vec![block.darts[&value.opposite].next, before.opposite];
        if let Third::Sewn(partner) = value.third {
            near.push(block.darts[&partner].next);
        }
        if let Third::Sewn(partner) = before.third {
            near.push(partner);
        }
        for other in near {
            if reached.insert(other) {
                open.push(other);
            }
        }
    }
    for dart in reached {
        block.darts.entry(dart).and_modify(|dart| dart.point.0[0] ^= bits);
    }
    true
}

/// Changes one label on both of its darts; false when the new label is in use.
fn relabel(rng: &mut Rng, mesh: &mut [Block], how: impl Fn(&mut Label)) -> bool {
    let used: BTreeSet<Label> = mesh.iter().flat_map(|block| block.labels().into_keys()).collect();
    let labels: Vec<Label> = used.iter().copied().collect();
    let Some(&old) = rng.pick(&labels) else { return false };
    let mut new = old;
    how(&mut new);
    for dart in mesh.iter_mut().flat_map(|block| block.darts.values_mut()) {
        if let Third::Critical { label, .. } = &mut dart.third {
            if *label == old {
                *label = new;
            }
        }
    }
    !used.contains(&new)
}

fn words(mesh: &[Block]) -> Vec<u64> {
    mesh.iter().flat_map(image::encode).collect()
}

/// Meshes about a viewer's 256 darts: which bit tells of a block, and that of no other.
fn about_viewers(rng: &mut Rng, mesh: &Mesh) -> Vec<(&'static str, Vec<u64>, Viewers)> {
    let Mesh { blocks, viewers } = mesh;
    let mut found = vec![
        ("every block a viewer's", words(blocks), Viewers(u32::MAX)),
        ("bits of no block", words(blocks), Viewers(viewers.0 ^ u32::MAX << blocks.len())),
        ("bits 16 to 31", words(blocks), Viewers(0xffff_0000)),
        ("any bits", words(blocks), Viewers(rng.bits() as u32)),
    ];
    let taken: BTreeSet<u32> = blocks.iter().flat_map(|block| block.darts.keys().copied()).collect();
    let place = rng.below(blocks.len());
    let bit = 1 << place;
    for (way, goal, viewers) in [
        ("a viewer's block of 256 darts", VIEWER_DARTS, Viewers(bit)),
        ("a viewer's block of 258 darts", VIEWER_DARTS + 2, Viewers(bit | viewers.0)),
        ("258 darts in a block of the rack", VIEWER_DARTS + 2, Viewers(viewers.0 & !bit)),
        ("258 darts, every other bit", VIEWER_DARTS + 2, Viewers(!bit)),
    ] {
        let Some(full) = fill(rng, &blocks[place], goal, &taken) else { continue };
        let mut other = blocks.clone();
        other[place] = full;
        found.push((way, words(&other), viewers));
        // The number in the image tells, not the place: 2 comes before 23.
        let elsewhere = rng.below(blocks.len());
        if elsewhere != place {
            other.swap(place, elsewhere);
            found.push(("258 darts or less in another place", words(&other), viewers));
            found.push(("258 darts or less, the bit of the place", words(&other), Viewers(1 << elsewhere)));
        }
    }
    found
}

/// Meshes with their viewers and scratch, for questions 1, 2 and 23 to 27.
fn lent(rng: &mut Rng, whole: &Mesh) -> Vec<(&'static str, Vec<u64>, Viewers, Vec<u64>)> {
    let zero = vec![0; SCRATCH];
    let about = about_viewers(rng, whole);
    let mut found: Vec<_> =
        about.into_iter().map(|(way, words, viewers)| (way, words, viewers, zero.clone())).collect();
    let others = damaged(rng, &whole.blocks);
    found.extend(others.into_iter().map(|(way, words, scratch)| (way, words, whole.viewers, scratch)));
    found
}

/// Meshes with their scratch, whoever keeps the blocks.
fn damaged(rng: &mut Rng, mesh: &[Block]) -> Vec<(&'static str, Vec<u64>, Vec<u64>)> {
    let good = words(mesh);
    let zero = vec![0; SCRATCH];
    let mut found = vec![("as it is", good.clone(), zero.clone())];
    for (way, change) in CHANGES {
        let mut other = mesh.to_vec();
        if change(rng, &mut other) {
            found.push((*way, words(&other), zero.clone()));
        }
    }
    for _ in 0..4 {
        // The second change walks faces, so the first must leave sound blocks.
        let mut other = mesh.to_vec();
        let (Some((_, first)), Some((_, second))) = (rng.pick(CHANGES), rng.pick(CHANGES)) else { break };
        let sound =
            first(rng, &mut other) && !other.is_empty() && other.iter().all(|block| sound::is_sound(block, RACK));
        if sound && second(rng, &mut other) {
            found.push(("two things altered", words(&other), zero.clone()));
        }
    }
    found.push(("a mesh a word short", good[..good.len() - 1].to_vec(), zero.clone()));
    found.push(("a mesh a word long", [&good[..], &[0]].concat(), zero.clone()));
    found.push(("a mesh of one word", vec![0], zero.clone()));
    let mut word = good.clone();
    let at = rng.below(word.len());
    word[at] ^= 1 << rng.below(64);
    found.push(("a bit of the mesh flipped", word, zero.clone()));
    let block = rng.below(mesh.len());
    for (way, image) in blocks::images(rng, Site::Rack, &mesh[block]) {
        if rng.one_in(6) {
            let mut other = good.clone();
            other[block * WORDS..(block + 1) * WORDS].copy_from_slice(&image);
            found.push((way, other, zero.clone()));
        }
    }
    found.push(("a scratch entry short", good.clone(), vec![0; SCRATCH - 1]));
    found.push(("a scratch entry long", good.clone(), vec![0; SCRATCH + 1]));
    found.push(("no scratch", good.clone(), Vec::new()));
    for (way, at) in [
        ("the first scratch entry not zero", 0),
        ("the last scratch entry not zero", SCRATCH - 1),
        ("any scratch entry not zero", rng.below(SCRATCH)),
    ] {
        let mut scratch = zero.clone();
        scratch[at] = 1 << rng.below(64);
        found.push((way, good.clone(), scratch));
    }
    // Two noes: the first gives the number.
    let mut scratch = zero;
    scratch[7] = 7;
    found.push(("no blocks and a stained scratch", Vec::new(), scratch));
    found
}

/// Cases of check_mesh.
pub fn check_mesh(rng: &mut Rng, mesh: &Mesh) -> Vec<Way> {
    let lent = lent(rng, mesh).into_iter();
    lent.map(|(way, mesh, viewers, scratch)| (way, Case::CheckMesh { mesh, viewers, scratch })).collect()
}

/// Oracles that are right, and each way of being wrong.
fn oracles(rng: &mut Rng) -> Vec<(&'static str, OracleNumbers)> {
    let half = |rng: &mut Rng| (rng.below(14) as f64 - 4.0) / 2.0;
    let every = OracleNumbers { oracle: 0, axis: 0, floats: [0; 6] };
    let low = [half(rng), half(rng), half(rng)];
    let size = [half(rng).abs(), half(rng).abs(), half(rng).abs()];
    let high = [low[0] + size[0], low[1] + size[1], low[2] + size[2]];
    let box_of = |low: [f64; 3], high: [f64; 3]| {
        let [x0, y0, z0] = low.map(f64::to_bits);
        let [x1, y1, z1] = high.map(f64::to_bits);
        OracleNumbers { oracle: 1, axis: 9, floats: [x0, y0, z0, x1, y1, z1] }
    };
    let plane = |axis: u32, value: f64| OracleNumbers {
        oracle: 2,
        axis,
        floats: [value.to_bits(), f64::NAN.to_bits(), 0, 0, 0, 0],
    };
    let axis = rng.below(3) as u32;
    let at = rng.below(6);
    let with = |float: f64| {
        let mut oracle = box_of(low, high);
        oracle.floats[at] = float.to_bits();
        oracle
    };
    let turned = |axis: usize| {
        let mut high = high;
        high[axis] = low[axis] - 0.5;
        box_of(low, high)
    };
    vec![
        ("every volume", every),
        ("every volume, floats of any kind", OracleNumbers { axis: 77, floats: [f64::NAN.to_bits(); 6], ..every }),
        ("a box", box_of(low, high)),
        ("a box of one point", box_of(low, low)),
        ("a box of zeros of both signs", box_of([0.0; 3], [-0.0; 3])),
        ("the largest box", box_of([f64::MIN; 3], [f64::MAX; 3])),
        ("a plane", plane(axis, half(rng))),
        ("a plane at zero", plane(axis, -0.0)),
        ("a plane between", plane(axis, 0.25)),
        ("a box with a float that is no number", with(f64::NAN)),
        ("a box with an infinite float", with(f64::INFINITY)),
        ("a box with an infinite float below", with(f64::NEG_INFINITY)),
        ("a box turned along x", turned(0)),
        ("a box turned along y", turned(1)),
        ("a box turned along z", turned(2)),
        ("a plane at no number", plane(axis, f64::NAN)),
        ("a plane at infinity", plane(axis, f64::INFINITY)),
        ("axis 3", plane(3, 0.5)),
        ("axis 2^32 − 1", plane(u32::MAX, 0.5)),
        ("oracle 3", OracleNumbers { oracle: 3, ..every }),
        ("oracle 2^32 − 1", OracleNumbers { oracle: u32::MAX, ..every }),
    ]
}

/// Pillows in blocks, each pillow in one point.
#[derive(Default)]
struct Piles {
    map: Map,
    home: Vec<usize>,
    points: Vec<Point>,
    blocks: usize,
    viewers: Viewers,
}

/// The sides of a pillow, and where on the first axis it lies.
type Pillow = fn(&mut Rng) -> (usize, f64);

impl Piles {
    /// Counts that often differ by one or by two; a large one now and then leaves others below the mean.
    fn draw(rng: &mut Rng, pillow: Pillow) -> Piles {
        let mut piles = Piles { blocks: rng.between(2, 5), ..Piles::default() };
        for block in 0..piles.blocks {
            let volumes = if rng.one_in(5) { rng.between(4, 9) } else { rng.below(4) };
            for _ in 0..volumes {
                piles.add(block, pillow(rng));
            }
        }
        piles
    }

    fn add(&mut self, block: usize, (sides, x): (usize, f64)) {
        shapes::pillow(&mut self.map, sides);
        self.home.resize(self.map.len(), block);
        self.points.resize(self.map.len(), Point::of([x, 0.0, 0.0]));
    }

    /// Fills a block with one volume up to room for so many darts.
    fn fill(&mut self, block: usize, room: usize) {
        let held = self.held(block);
        self.add(block, ((self.viewers.darts(block) - room).saturating_sub(held) / 2, 0.0));
    }

    fn held(&self, block: usize) -> usize {
        self.home.iter().filter(|home| **home == block).count()
    }

    /// Some of the blocks that are small enough are viewers', and any bits of blocks that are not there.
    fn give_viewers(&mut self, rng: &mut Rng) {
        let mut bits = rng.bits() as u32 & rng.bits() as u32 | 1 << rng.below(self.blocks);
        for block in (0..self.blocks).filter(|block| self.held(*block) > VIEWER_DARTS) {
            bits &= !(1 << block);
        }
        self.viewers = Viewers(bits);
    }

    fn mesh(&self, rng: &mut Rng) -> Mesh {
        let mut serials: Vec<u32> = (1..=self.map.len() as u32).collect();
        rng.shuffle(&mut serials);
        let labels = vec![None; self.map.len()];
        let counters = vec![0; self.blocks];
        let blocks = generate::assemble(&self.map, &self.home, &serials, &self.points, &labels, &counters);
        Mesh { blocks, viewers: self.viewers }
    }
}

/// Meshes of drawn counts with their oracles.
fn piles(rng: &mut Rng) -> Vec<(&'static str, Mesh, OracleNumbers)> {
    let every = OracleNumbers { oracle: 0, axis: 0, floats: [0; 6] };
    let origin = OracleNumbers { oracle: 1, ..every };
    // Pillows of two sides are refused by 13.
    let ways: [(&str, Pillow, OracleNumbers); 4] = [
        ("drawn counts", |_| (3, 0.0), every),
        ("drawn counts of volumes that stay", |_| (2, 0.0), every),
        ("drawn counts, some volumes stay", |rng| (rng.between(2, 3), 0.0), every),
        ("drawn counts, a box picks some", |rng| (3, rng.below(2) as f64), origin),
    ];
    let mut found = Vec::new();
    for (way, pillow, oracle) in ways {
        for _ in 0..2 {
            let mesh = Piles::draw(rng, pillow).mesh(rng);
            found.push((way, mesh, oracle));
        }
    }
    // A plane that cuts every pillow between its first two corners.
    let plane = OracleNumbers { oracle: 2, axis: 0, floats: [0.5f64.to_bits(), 0, 0, 0, 0, 0] };
    for (way, pillow) in [
        ("drawn counts, a plane cuts all, and they stay", (|_| (2, 0.0)) as Pillow),
        ("drawn counts, a plane cuts all", |rng| (rng.between(2, 3), 0.0)),
    ] {
        let mut piles = Piles::draw(rng, pillow);
        piles.points = piles.map.wished_points();
        found.push((way, piles.mesh(rng), plane));
    }
    let ways: [(&str, Pillow); 4] = [
        ("drawn counts with viewers", |_| (3, 0.0)),
        ("drawn counts with viewers, some volumes stay", |rng| (rng.between(2, 3), 0.0)),
        ("drawn counts with viewers, volumes of 64 and of 66 darts", |rng| (rng.between(32, 33), 0.0)),
        ("drawn counts with viewers, volumes of 6 and of 66 darts", |rng| ([3, 33][rng.below(2)], 0.0)),
    ];
    for (way, pillow) in ways {
        let mut piles = Piles::draw(rng, pillow);
        piles.give_viewers(rng);
        if rng.one_in(2) {
            let block = rng.below(piles.blocks);
            if piles.viewers.site(block) == Site::Viewer && piles.held(block) < VIEWER_DARTS - 14 {
                piles.fill(block, 2 * rng.below(5));
            }
        }
        found.push((way, piles.mesh(rng), every));
    }
    if rng.one_in(3) {
        let mut full = Piles::draw(rng, |_| (3, 0.0));
        // A pillow of three sides has six darts.
        full.fill(rng.below(full.blocks), 2 * rng.below(5));
        found.push(("drawn counts, a block nearly full", full.mesh(rng), every));
    }
    found
}

/// Cases of next_move.
pub fn next_move(rng: &mut Rng, mesh: &Mesh) -> Vec<Way> {
    const STALE: u64 = 0x77;
    let (good, viewers) = (mesh.words(), mesh.viewers);
    let every = OracleNumbers { oracle: 0, axis: 0, floats: [0; 6] };
    let mut ways: Vec<Way> = Vec::new();
    for (way, oracle) in oracles(rng) {
        let (scratch, answer) = (vec![0; SCRATCH], vec![STALE; ANSWER]);
        ways.push((way, Case::NextMove { mesh: good.clone(), viewers, oracle, scratch, answer }));
    }
    for (way, mesh, viewers, scratch) in lent(rng, mesh) {
        // A wrong oracle is asked last.
        let oracle = if rng.one_in(4) { OracleNumbers { oracle: 5, ..every } } else { every };
        ways.push((way, Case::NextMove { mesh, viewers, oracle, scratch, answer: vec![STALE; ANSWER] }));
    }
    for (way, size) in [
        ("no answer", 0),
        ("an answer of four words", 4),
        ("an answer of twenty words", 20),
        ("an answer of twenty-two words", 22),
    ] {
        let (scratch, answer) = (vec![0; SCRATCH], vec![STALE; size]);
        ways.push((way, Case::NextMove { mesh: good.clone(), viewers, oracle: every, scratch, answer }));
    }
    for (way, mesh, oracle) in piles(rng) {
        let (scratch, answer) = (vec![0; SCRATCH], vec![STALE; ANSWER]);
        let (mesh, viewers) = (mesh.words(), mesh.viewers);
        ways.push((way, Case::NextMove { mesh, viewers, oracle, scratch, answer }));
    }
    ways
}
