//! The paper's example blocks.

use peer::shapes::{self, Map};
use peer::value::{Block, Dart, Third};

/// A block of a map, serials from 1 in order, all in one block.
pub fn block_of(map: &Map, number: u8, first_serial: u32) -> Block {
    let serial = |dart: usize| first_serial + dart as u32;
    let points = map.wished_points();
    let darts = (0..map.len())
        .map(|dart| {
            let third = map.third[dart].map_or(Third::Free, |partner| Third::Sewn(serial(partner)));
            let (next, opposite) = (serial(map.next[dart]), serial(map.opposite[dart]));
            (serial(dart), Dart { next, opposite, third, point: points[dart] })
        })
        .collect();
    Block { number, counter: 0, darts }
}

/// A pillow of n darts a side.
pub fn pillow(n: usize, number: u8, first_serial: u32) -> Block {
    let mut map = Map::default();
    shapes::pillow(&mut map, n);
    block_of(&map, number, first_serial)
}

/// The paper's P in block 0.
pub fn p() -> Block {
    pillow(3, 0, 1)
}

/// Blocks of so many pillows of three darts a side, serials in a row.
pub fn pillows(counts: &[usize]) -> Vec<Block> {
    let mut serial = 1;
    let mut mesh: Vec<Block> = (0..counts.len()).map(|number| Block::empty(number as u8)).collect();
    for (block, count) in mesh.iter_mut().zip(counts) {
        for _ in 0..*count {
            block.darts.extend(pillow(3, 0, serial).darts);
            serial += 6;
        }
    }
    mesh
}
