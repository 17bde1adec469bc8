//! A small basin: thirty-six hexahedra of a grid, unevenly in three blocks, as block files.

use crate::file;
use crate::generate::{assemble, label_crossings};
use crate::shapes::{self, Filling};
use crate::value::{Block, Label};

const SIZE: [usize; 3] = [4, 3, 3];

/// How many cells each block has, in the order of the grid.
const CELLS: [usize; 3] = [22, 10, 4];

/// The blocks, serials in the order of the grid, labels made by block 0.
pub fn blocks() -> Vec<Block> {
    let map = shapes::grid(SIZE, Filling::Hexahedra);
    let darts = Filling::Hexahedra.darts();
    let home: Vec<usize> = CELLS.iter().enumerate().flat_map(|(block, cells)| vec![block; cells * darts]).collect();
    let serials: Vec<u32> = (1..).take(map.len()).collect();
    let mut number = 0;
    let labels = label_crossings(&map, &home, |size| {
        number += 1;
        (0..size).map(|position| Label { maker: 0, number: number - 1, position: position as u16 }).collect()
    });
    assemble(&map, &home, &serials, &map.wished_points(), &labels, &[number, 0, 0])
}

/// The name and the bytes of each block's file.
pub fn files() -> Vec<(String, Vec<u8>)> {
    blocks().iter().map(|block| (format!("block-{:02}.dmap", block.number), file::encode(block))).collect()
}
