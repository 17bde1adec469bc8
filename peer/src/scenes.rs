//! Blocks and meshes to take times on, of about so many darts each.

use crate::generate::{assemble, label_crossings};
use crate::image;
use crate::rng::Rng;
use crate::shapes::{self, Filling, Map};
use crate::value::{Block, Label, Site, Third};
use std::collections::BTreeSet;

/// A map with homes, and nearly full blocks made of it.
struct Scene {
    map: Map,
    home: Vec<usize>,
}

impl Scene {
    /// All darts from the last home on belong to a block.
    fn settle(&mut self, block: usize) {
        self.home.resize(self.map.len(), block);
    }

    /// Adds sewn hexahedra to a block until it has about so many darts.
    fn fill(&mut self, block: usize, goal: usize) {
        let held = self.home.iter().filter(|home| **home == block).count();
        let cells = goal.saturating_sub(held) / 24;
        if cells > 0 {
            self.map.append(&shapes::grid([cells, 1, 1], Filling::Hexahedra));
            self.settle(block);
        }
    }

    /// Darts block after block; block 0, its first cell in its middle, lies in the middle of block 1.
    fn in_the_middle(&self, count: usize) -> Vec<usize> {
        let of = |block: usize| (0..self.map.len()).filter(move |dart| self.home[*dart] == block);
        let mut zero: Vec<usize> = of(0).collect();
        let half = zero.len() / 2;
        zero.rotate_left(half);
        let one: Vec<usize> = of(1).collect();
        let (front, back) = one.split_at(one.len() / 2);
        let mut order = [front, &zero, back].concat();
        (2..count).for_each(|block| order.extend(of(block)));
        order
    }

    /// Serials shuffled by a seed, or side by side.
    fn blocks(&self, count: usize, seed: Option<u64>) -> Vec<Block> {
        let mut order = self.in_the_middle(count);
        let mut serials: Vec<u32> = vec![0; self.map.len()];
        if let Some(seed) = seed {
            Rng::new(seed).shuffle(&mut order);
        }
        for (serial, dart) in (1..).zip(order) {
            serials[dart] = serial;
        }
        let mut number = 0;
        let label_of = label_crossings(&self.map, &self.home, |size| {
            number += 1;
            (0..size).map(|position| Label { maker: 0, number: number - 1, position: position as u16 }).collect()
        });
        let mut counters = vec![0; count];
        counters[0] = number;
        let points = self.map.wished_points();
        assemble(&self.map, &self.home, &serials, &points, &label_of, &counters)
    }
}

/// A cell in block 0, of 24 darts or of as many as may move, whose faces lead to blocks 0, 1, 2 or nowhere in turn; blocks of about so
/// many darts.
fn scene(site: Site, large: bool, goal: usize) -> (Scene, usize) {
    let mut scene = Scene { map: Map::default(), home: Vec::new() };
    match (large, site) {
        (false, _) => shapes::prism(&mut scene.map, 4),
        (true, Site::Rack) => shapes::torus(&mut scene.map, 8, 16),
        (true, Site::Viewer) => shapes::torus(&mut scene.map, 4, 4),
    };
    let darts = scene.map.len();
    scene.settle(0);
    for (turn, face) in scene.map.face_starts().into_iter().enumerate() {
        if turn % 4 < 3 {
            let partner = shapes::pillow(&mut scene.map, 4);
            scene.settle(turn % 4);
            scene.map.sew(face, partner);
        }
    }
    scene.fill(0, goal);
    // A viewer has no room to spare.
    let spare = if site == Site::Rack { 10 } else { 0 };
    scene.fill(1, goal + spare - darts);
    scene.fill(2, goal);
    (scene, darts)
}

/// A block of sewn hexahedra, 4,080 darts; serials along the darts or shuffled.
pub fn hexahedra(shuffled: bool) -> Block {
    let map = shapes::grid([10, 17, 1], Filling::Hexahedra);
    let mut serials: Vec<u32> = (1..=map.len() as u32).collect();
    if shuffled {
        Rng::new(1).shuffle(&mut serials);
    }
    let home = vec![0; map.len()];
    assemble(&map, &home, &serials, &map.wished_points(), &vec![None; map.len()], &[0]).remove(0)
}

/// The first faces made critical, the label of each by its number; if only one is wanted, a free one.
pub fn critical(mut block: Block, wanted: usize, label: impl Fn(u32) -> u32) -> Block {
    let darts: BTreeSet<u32> = block.darts.keys().copied().collect();
    let faces: Vec<Vec<u32>> = crate::cells::faces(&block, &darts)
        .into_iter()
        .filter(|face| wanted > 1 || block.darts[&face[0]].third == Third::Free)
        .take(wanted)
        .collect();
    for (number, face) in (0..).zip(faces) {
        for (position, serial) in face.iter().enumerate() {
            let label = Label { maker: 3, number: label(number), position: position as u16 };
            block.darts.entry(*serial).and_modify(|dart| dart.third = Third::Critical { other: 3, label });
        }
    }
    block
}

/// Nearly full blocks 0, 1 and 2 of one site, and a volume of block 0 that goes to block 1.
pub struct Round {
    pub site: Site,
    pub images: Vec<Vec<u64>>,
    pub serial: u64,
}

/// A volume of 24 darts or of as many as may move, 512 or 64, in blocks of about so many; serials shuffled by a seed, or those of
/// neighbours side by side.
pub fn round(site: Site, large: bool, seed: Option<u64>, goal: usize) -> Round {
    let (scene, darts) = scene(site, large, goal);
    let blocks = scene.blocks(3, seed);
    let serial = u64::from(
        *crate::cells::volumes(&blocks[0], blocks[0].darts.keys().copied())
            .iter()
            .find(|cell| cell.len() == darts && (large || cell.iter().any(|d| blocks[0].darts[d].label().is_some())))
            .and_then(|cell| cell.first())
            .unwrap_or(&0),
    );
    Round { site, images: blocks.iter().map(|block| image::encode_at(site, block)).collect(), serial }
}

/// Sixteen slabs of so many hexahedra, each a block; serials shuffled by a seed, or side by side.
pub fn mesh(slab: [usize; 2], seed: Option<u64>) -> Vec<u64> {
    let map = shapes::grid([16, slab[0], slab[1]], Filling::Hexahedra);
    let darts = 24 * slab[0] * slab[1];
    let home = (0..map.len()).map(|dart| dart / darts).collect();
    images(&Scene { map, home }, seed)
}

/// Sixteen blocks, each a row of so many hexahedra; the last one has fewer, so that it has room for others.
pub fn mesh_with_room(cells: usize, missing: usize, seed: Option<u64>) -> Vec<u64> {
    let mut scene = Scene { map: Map::default(), home: Vec::new() };
    for block in 0..16 {
        let cells = cells - if block == 15 { missing } else { 0 };
        scene.map.append(&shapes::grid([cells, 1, 1], Filling::Hexahedra));
        scene.settle(block);
    }
    images(&scene, seed)
}

/// Fifteen blocks of so many pillows of two n-gons, and one with a single pillow. With n below 3 none may leave (question 13).
pub fn mesh_that_stays(n: usize, volumes: usize, seed: Option<u64>) -> Vec<u64> {
    mesh_of_pillows(n, |block| if block == 15 { 1 } else { volumes }, seed)
}

/// Sixteen blocks of pillows of two n-gons, each of two fewer than the one before, so that it may take from all of those. With n below 3
/// none may leave (question 13).
pub fn mesh_in_steps(n: usize, volumes: usize, seed: Option<u64>) -> Vec<u64> {
    mesh_of_pillows(n, |block| volumes - 2 * block, seed)
}

fn mesh_of_pillows(n: usize, volumes: impl Fn(usize) -> usize, seed: Option<u64>) -> Vec<u64> {
    let mut scene = Scene { map: Map::default(), home: Vec::new() };
    for block in 0..16 {
        for _ in 0..volumes(block) {
            shapes::pillow(&mut scene.map, n);
        }
        scene.settle(block);
    }
    images(&scene, seed)
}

/// Fifteen blocks of so many pairs of pillows, sewn to each other, and one with a single pillow. The counters are at their end, so none
/// may leave (question 14).
pub fn mesh_with_full_counters(n: usize, pairs: usize, seed: Option<u64>) -> Vec<u64> {
    let mut scene = Scene { map: Map::default(), home: Vec::new() };
    for block in 0..15 {
        for _ in 0..pairs {
            let [one, other] = [0; 2].map(|_| shapes::pillow(&mut scene.map, n));
            scene.map.sew(one, other);
        }
        scene.settle(block);
    }
    shapes::pillow(&mut scene.map, n);
    scene.settle(15);
    let mut mesh = images(&scene, seed);
    mesh.chunks_mut(image::WORDS).for_each(|block| block[1] = u32::MAX.into());
    mesh
}

fn images(scene: &Scene, seed: Option<u64>) -> Vec<u64> {
    scene.blocks(16, seed).iter().flat_map(image::encode).collect()
}
