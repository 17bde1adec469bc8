//! Seeded sound meshes: a map of volumes is cut into blocks, then serials, points, labels and
//! counters are drawn. Nothing is assumed about labels but what a sound mesh asks.

use crate::image;
use crate::rng::Rng;
use crate::shapes::{self, Filling, Map};
use crate::value::{Block, Dart, Label, Point, Site, Third, Viewers, MAX_DARTS, MAX_POSITION, VIEWER_DARTS};
use std::collections::{BTreeMap, BTreeSet};

/// Roughly how many darts a mesh has.
#[derive(Clone, Copy, PartialEq, Eq, Debug)]
pub enum Size {
    /// Two or three cells.
    Tiny,
    /// A few cells, some dozens of darts.
    Small,
    /// Up to a few hundred darts, now and then a cell over 512.
    Medium,
    /// Some blocks full or nearly so.
    Large,
}

/// Blocks, and which of them are viewers'.
#[derive(Clone, PartialEq, Eq, Debug)]
pub struct Mesh {
    pub blocks: Vec<Block>,
    pub viewers: Viewers,
}

impl Mesh {
    /// All blocks the rack's.
    pub fn of_the_rack(blocks: Vec<Block>) -> Mesh {
        Mesh { blocks, viewers: Viewers::NONE }
    }

    /// The images one after the other, the rack's words for each.
    pub fn words(&self) -> Vec<u64> {
        self.blocks.iter().flat_map(image::encode).collect()
    }
}

/// A sound mesh.
pub fn mesh(rng: &mut Rng, size: Size) -> Mesh {
    let count = if rng.one_in(8) { rng.between(1, 16) } else { rng.between(2, 6) };
    mesh_of(rng, size, count)
}

/// A sound mesh of so many blocks, most with some viewers'.
pub fn mesh_of(rng: &mut Rng, size: Size, count: usize) -> Mesh {
    let mut viewers = some_viewers(rng, count);
    let mut map = random_map(rng, size, count);
    sew_some(rng, &mut map);
    let mut home = homes(rng, &map, count, &mut viewers);
    if size != Size::Tiny {
        fill_blocks(rng, &mut map, &mut home, size, count, viewers);
    }
    if rng.one_in(2) {
        // Bits that name no block of the mesh.
        viewers.0 |= (u64::from(rng.bits() as u32) >> count << count) as u32;
    }
    Mesh { blocks: cut(rng, &map, &home, count), viewers }
}

/// Which of so many blocks are viewers': none, any, seldom all.
fn some_viewers(rng: &mut Rng, count: usize) -> Viewers {
    let all = (1u64 << count) as u32 - 1;
    match rng.below(10) {
        0..=3 => Viewers::NONE,
        4 => Viewers(all),
        5..=6 => Viewers(1 << rng.below(count)),
        _ => Viewers(rng.bits() as u32 & all),
    }
}

/// One shape of a few darts.
fn small_shape(rng: &mut Rng, map: &mut Map) {
    match rng.below(12) {
        0..=2 => shapes::pillow(map, 3),
        3 => shapes::pillow(map, rng.between(3, 8)),
        4 => shapes::pyramid(map, 3),
        5 => shapes::pyramid(map, rng.between(3, 6)),
        6 => shapes::prism(map, rng.between(3, 6)),
        7 => shapes::prism(map, 4),
        8 => shapes::torus(map, 3, 3),
        // Repeated vertex pairs, and pairs with one end.
        9 => shapes::pillow(map, rng.between(1, 2)),
        10 => {
            let (m, n) = (rng.between(1, 3), rng.between(1, 3));
            shapes::torus(map, m, n)
        }
        _ => random_volumes(rng, map),
    };
}

/// Volumes of random next and opposite: any face sizes, any genus.
fn random_volumes(rng: &mut Rng, map: &mut Map) -> usize {
    let darts = 2 * rng.between(1, 8);
    let mut next: Vec<usize> = (0..darts).collect();
    rng.shuffle(&mut next);
    let mut order: Vec<usize> = (0..darts).collect();
    rng.shuffle(&mut order);
    let mut opposite = vec![0; darts];
    for pair in order.chunks_exact(2) {
        opposite[pair[0]] = pair[1];
        opposite[pair[1]] = pair[0];
    }
    map.add(&next, &opposite, &vec![[0.0; 3]; darts])
}

/// Cells about the limit of 64 darts, and between it and 512.
fn middling_shape(rng: &mut Rng, map: &mut Map) {
    match rng.below(9) {
        0 => shapes::pillow(map, 32),
        1 => shapes::pillow(map, 33),
        2 => shapes::prism(map, rng.between(10, 11)),
        3 => shapes::torus(map, 4, 4),
        4 => shapes::pyramid(map, rng.between(16, 17)),
        5 => shapes::pillow(map, rng.between(28, 40)),
        6 => shapes::torus(map, 3, rng.between(5, 8)),
        // Repeated vertex pairs, of more than 64 darts.
        7 => shapes::torus(map, 2, rng.between(8, 10)),
        _ => shapes::pillow(map, rng.between(30, 140)),
    };
}

/// Cells at and over the limit of 512 darts.
fn big_shape(rng: &mut Rng, map: &mut Map) {
    match rng.below(6) {
        0 => shapes::pillow(map, 256),
        1 => shapes::pillow(map, 257),
        2 => shapes::prism(map, 85),
        3 => shapes::prism(map, 86),
        4 => shapes::torus(map, 8, 16),
        _ => shapes::pyramid(map, rng.between(120, 135)),
    };
}

/// A map that fits into so many blocks, however its cells are spread.
fn random_map(rng: &mut Rng, size: Size, count: usize) -> Map {
    let mut map = Map::default();
    let longest = match size {
        Size::Tiny => 1,
        Size::Small => 2,
        Size::Medium => 3,
        Size::Large => 6,
    };
    if size == Size::Large || rng.one_in(2) {
        let filling =
            *rng.pick(&[Filling::Hexahedra, Filling::Prisms, Filling::Tetrahedra]).unwrap_or(&Filling::Hexahedra);
        let mut dims = [0; 3].map(|_| rng.between(1, longest));
        if size == Size::Tiny && filling != Filling::Tetrahedra {
            dims[rng.below(3)] = 2;
        }
        // Half the room: the other half is for further shapes and for gaps.
        while dims.iter().product::<usize>() * filling.darts() > count * MAX_DARTS / 2 {
            let longest = (0..3).max_by_key(|axis| dims[*axis]).unwrap_or(0);
            dims[longest] -= 1;
        }
        map.append(&shapes::grid(dims, filling));
    }
    let extra = match size {
        Size::Tiny => rng.between(usize::from(map.is_empty()), 2),
        Size::Small => rng.between(0, 5),
        Size::Medium => rng.between(2, 12),
        Size::Large => rng.between(2, 20),
    };
    for _ in 0..extra {
        small_shape(rng, &mut map);
    }
    let middling = match size {
        Size::Tiny => 0,
        Size::Small => usize::from(rng.one_in(3)) * rng.between(1, 2),
        Size::Medium | Size::Large => rng.between(0, 3),
    };
    for _ in 0..middling {
        middling_shape(rng, &mut map);
    }
    if matches!(size, Size::Medium | Size::Large) && rng.one_in(3) {
        big_shape(rng, &mut map);
    }
    map
}

/// Sews random free faces of one size, seldom within a cell or a face with itself.
fn sew_some(rng: &mut Rng, map: &mut Map) {
    let (cell, _) = map.volumes();
    let mut by_size: BTreeMap<usize, Vec<usize>> = BTreeMap::new();
    for start in map.face_starts() {
        if map.third[start].is_none() {
            by_size.entry(map.face(start).len()).or_default().push(start);
        }
    }
    let within_cells = rng.one_in(3);
    let eagerness = rng.between(1, 4);
    for (size, mut starts) in by_size {
        rng.shuffle(&mut starts);
        for pair in starts.chunks_exact(2) {
            let (d, e) = (pair[0], pair[1]);
            if rng.below(4) < eagerness && (cell[d] != cell[e] || (within_cells && rng.one_in(3))) {
                let turned = map.face(e)[rng.below(size)];
                map.sew(d, turned);
            }
        }
        if within_cells && size % 2 == 0 && rng.one_in(6) {
            if let Some(&start) = starts.last() {
                // A face sewn to itself turns round: an odd step leaves no dart fixed.
                let turned = map.face(start)[(2 * rng.below(size / 2) + 1) % size];
                map.sew(start, turned);
            }
        }
    }
}

/// A block for each dart: cells stay whole, blocks hold at most 4,096 darts, viewers' 256. Where there is no room the viewers
/// become fewer.
fn homes(rng: &mut Rng, map: &Map, count: usize, viewers: &mut Viewers) -> Vec<usize> {
    let (cell, cells) = map.volumes();
    let mut size = vec![0; cells];
    for number in &cell {
        size[*number] += 1;
    }
    let way = rng.below(4);
    let mut room: Vec<usize> = (0..count).map(|block| viewers.darts(block)).collect();
    let mut home_of_cell = vec![0; cells];
    for number in 0..cells {
        let wish = match way {
            0 => 0,
            1 => number * count / cells,
            2 => rng.below(count).min(rng.below(count)),
            _ => rng.below(count),
        };
        let home = (0..count).map(|step| (wish + step) % count).find(|home| room[*home] >= size[number]);
        // Maps are drawn to fit the rack, so there is a home once there are no viewers.
        let home = home.or_else(|| {
            let viewer = (0..count).find(|block| viewers.site(*block) == Site::Viewer)?;
            viewers.0 &= !(1 << viewer);
            room[viewer] += MAX_DARTS - VIEWER_DARTS;
            Some(viewer)
        });
        home_of_cell[number] = home.unwrap_or(0);
        room[home_of_cell[number]] = room[home_of_cell[number]].saturating_sub(size[number]);
    }
    cell.iter().map(|number| home_of_cell[*number]).collect()
}

/// Fills some blocks up with pillows to 4,096 darts or a few less, a viewer's to 256; in small meshes viewers' alone.
fn fill_blocks(rng: &mut Rng, map: &mut Map, home: &mut Vec<usize>, size: Size, count: usize, viewers: Viewers) {
    for block in 0..count {
        let viewer = viewers.site(block) == Site::Viewer;
        let filled = match size {
            Size::Large => count <= 2 || rng.one_in(2),
            Size::Medium => viewer && rng.one_in(2),
            _ => viewer && rng.one_in(4),
        };
        if !filled {
            continue;
        }
        let held = home.iter().filter(|number| **number == block).count();
        let goal = viewers.darts(block) - if rng.one_in(2) { 0 } else { 2 * rng.between(0, 30) };
        let mut left = goal.saturating_sub(held);
        while left >= 6 {
            let n = if left < 12 { left / 2 } else { rng.between(3, 256.min(left / 2 - 3)) };
            let before = map.len();
            shapes::pillow(map, n);
            home.extend(std::iter::repeat_n(block, map.len() - before));
            left -= 2 * n;
        }
    }
}

/// Coordinates that comparisons by value or a careless copy would spoil.
const STRANGE: [f64; 12] =
    [0.0, -0.0, 1.0, -1.0, 5e-324, -5e-324, 2.225073858507201e-308, f64::MIN_POSITIVE, f64::MAX, f64::MIN, 1e300, 0.1];

fn random_float(rng: &mut Rng) -> f64 {
    if rng.one_in(2) {
        return *rng.pick(&STRANGE).unwrap_or(&0.0);
    }
    loop {
        let float = f64::from_bits(rng.bits());
        if float.is_finite() {
            return float;
        }
    }
}

/// A point for each dart, one for each class.
fn points(rng: &mut Rng, map: &Map) -> Vec<Point> {
    match rng.below(4) {
        0 => map.wished_points(),
        1 => vec![Point::of([0; 3].map(|_| random_float(rng))); map.len()],
        way => {
            let few: Vec<Point> = (0..3).map(|_| Point::of([0; 3].map(|_| random_float(rng)))).collect();
            let mut of_class = BTreeMap::new();
            map.point_classes()
                .into_iter()
                .map(|class| {
                    *of_class.entry(class).or_insert_with(|| match way {
                        2 => few[rng.below(3)],
                        _ => Point::of([0; 3].map(|_| random_float(rng))),
                    })
                })
                .collect()
        }
    }
}

/// Distinct serials, one for each dart.
fn serials(rng: &mut Rng, home: &[usize]) -> Vec<u32> {
    let count = home.len();
    let mut serials: Vec<u32> = match rng.below(5) {
        // Block after block.
        0 => {
            let mut order: Vec<usize> = (0..count).collect();
            order.sort_by_key(|dart| home[*dart]);
            let mut given = vec![0; count];
            for (serial, dart) in (1..).zip(order) {
                given[dart] = serial;
            }
            return given;
        }
        1 => return (1..=count as u32).collect(),
        2 => (1..=count as u32).collect(),
        3 => (0..count as u32).map(|step| u32::MAX - step).collect(),
        _ => {
            let mut sparse = BTreeSet::new();
            while sparse.len() < count {
                sparse.insert((rng.bits() as u32).max(1));
            }
            sparse.into_iter().collect()
        }
    };
    rng.shuffle(&mut serials);
    serials
}

/// A counter for each block.
fn counters(rng: &mut Rng, count: usize) -> Vec<u32> {
    let way = rng.below(5);
    (0..count)
        .map(|_| match way {
            0 => rng.below(12) as u32,
            1 => u32::MAX - rng.below(24) as u32,
            2 => 0,
            3 => rng.bits() as u32,
            _ => match rng.below(4) {
                0 => 0,
                1 => rng.below(200) as u32,
                2 => u32::MAX - rng.below(12) as u32,
                _ => u32::MAX,
            },
        })
        .collect()
}

/// Draws labels below their makers' counters, each once.
struct Labels {
    counters: Vec<u32>,
    used: BTreeSet<Label>,
}

impl Labels {
    fn number(&self, rng: &mut Rng, maker: usize) -> u32 {
        let counter = self.counters[maker];
        match rng.below(3) {
            0 => rng.below(counter.min(4) as usize) as u32,
            1 => counter - 1 - rng.below(counter.min(4) as usize) as u32,
            _ => rng.below(counter as usize) as u32,
        }
    }

    fn maker(&mut self, rng: &mut Rng) -> usize {
        let makers: Vec<usize> = (0..self.counters.len()).filter(|maker| self.counters[*maker] > 0).collect();
        match rng.pick(&makers) {
            Some(maker) => *maker,
            None => {
                let maker = rng.below(self.counters.len());
                self.counters[maker] = 1;
                maker
            }
        }
    }

    /// Labels for the darts of a face: one number and positions in order, or anything at all.
    fn face(&mut self, rng: &mut Rng, size: usize, orderly: bool) -> Vec<Label> {
        if orderly {
            for _ in 0..4 {
                let maker = self.maker(rng);
                let number = self.number(rng, maker);
                let labels: Vec<Label> =
                    (0..size).map(|position| Label { maker: maker as u8, number, position: position as u16 }).collect();
                if labels.iter().all(|label| !self.used.contains(label)) {
                    self.used.extend(labels.iter().copied());
                    return labels;
                }
            }
        }
        let mut labels = Vec::new();
        while labels.len() < size {
            let maker = self.maker(rng);
            let number = self.number(rng, maker);
            let position = if rng.one_in(2) {
                rng.below(usize::from(MAX_POSITION) + 1)
            } else {
                usize::from(MAX_POSITION) - rng.below(64)
            };
            let label = Label { maker: maker as u8, number, position: position as u16 };
            if self.used.insert(label) {
                labels.push(label);
            } else if self.counters[maker] < 8 {
                // A crowded maker gets room.
                self.counters[maker] += 1;
            }
        }
        labels
    }
}

/// Cuts a map into blocks; third links that cross get labels.
pub fn cut(rng: &mut Rng, map: &Map, home: &[usize], count: usize) -> Vec<Block> {
    let serials = serials(rng, home);
    let points = points(rng, map);
    let mut labels = Labels { counters: counters(rng, count), used: BTreeSet::new() };
    let orderly_mesh = rng.one_in(2);
    let label_of = label_crossings(map, home, |size| {
        let orderly = orderly_mesh || rng.one_in(2);
        labels.face(rng, size, orderly)
    });
    assemble(map, home, &serials, &points, &label_of, &labels.counters)
}

/// Labels each face that crosses once, its partner's darts with it; `draw` gives the labels of a face.
pub fn label_crossings(map: &Map, home: &[usize], mut draw: impl FnMut(usize) -> Vec<Label>) -> Vec<Option<Label>> {
    let mut label_of: Vec<Option<Label>> = vec![None; map.len()];
    for start in map.face_starts() {
        let Some(partner) = map.third[start] else { continue };
        if home[start] == home[partner] || label_of[start].is_some() {
            continue;
        }
        let face = map.face(start);
        let drawn = draw(face.len());
        for (dart, label) in face.iter().zip(drawn) {
            label_of[*dart] = Some(label);
            if let Some(partner) = map.third[*dart] {
                label_of[partner] = Some(label);
            }
        }
    }
    label_of
}

/// The blocks of a map, one for each counter.
pub fn assemble(
    map: &Map,
    home: &[usize],
    serials: &[u32],
    points: &[Point],
    label_of: &[Option<Label>],
    counters: &[u32],
) -> Vec<Block> {
    let mut blocks: Vec<Block> =
        counters.iter().zip(0..).map(|(counter, number)| Block { counter: *counter, ..Block::empty(number) }).collect();
    for dart in 0..map.len() {
        let third = match (map.third[dart], label_of[dart]) {
            (None, _) => Third::Free,
            (Some(partner), None) => Third::Sewn(serials[partner]),
            (Some(partner), Some(label)) => Third::Critical { other: home[partner] as u8, label },
        };
        let value =
            Dart { next: serials[map.next[dart]], opposite: serials[map.opposite[dart]], third, point: points[dart] };
        blocks[home[dart]].darts.insert(serials[dart], value);
    }
    blocks
}
