//! The undivided run: the whole map, a block number for each cell, a count for each block.

use crate::cells;
use crate::mesh::{whole_map, WholeMap};
use crate::value::{ask, Answer, Block, Links, No, Site, Viewers, MAX_CELL, VIEWER_CELL};
use std::collections::{BTreeMap, BTreeSet};

/// A request to move the cell of a serial from block i to block j.
#[derive(Clone, Copy, PartialEq, Eq, Debug)]
pub struct Request {
    pub from: u32,
    pub to: u32,
    pub serial: u64,
}

/// The state of the undivided run.
pub struct Undivided {
    pub map: WholeMap,
    /// Each cell's darts and its block number.
    pub cells: Vec<(BTreeSet<u32>, u32)>,
    /// The cell of each dart, by its place in `cells`.
    cell_of: BTreeMap<u32, usize>,
    counts: Vec<u64>,
    pub viewers: Viewers,
}

impl Undivided {
    pub fn start(blocks: &[Block], viewers: Viewers) -> Undivided {
        let mut cells = Vec::new();
        let mut cell_of = BTreeMap::new();
        for block in blocks {
            for cell in cells::volumes(block, block.darts.keys().copied()) {
                cell_of.extend(cell.iter().map(|dart| (*dart, cells.len())));
                cells.push((cell, u32::from(block.number)));
            }
        }
        let counts = blocks.iter().map(|block| u64::from(block.counter)).collect();
        Undivided { map: whole_map(blocks), cells, cell_of, counts, viewers }
    }

    /// The darts of the cells with a block number.
    pub fn darts_of(&self, number: u32) -> BTreeSet<u32> {
        self.cells.iter().filter(|(_, n)| *n == number).flat_map(|(cell, _)| cell.iter().copied()).collect()
    }

    /// Questions 9 and 10: the place of the cell in `cells`.
    fn place(&self, request: Request) -> Answer<usize> {
        let Request { from, to, serial } = request;
        ask(9, to != from)?;
        let serial = u32::try_from(serial).map_err(|_| No(10))?;
        let place = *self.cell_of.get(&serial).ok_or(No(10))?;
        ask(10, self.cells[place].1 == from)?;
        Ok(place)
    }

    /// Questions 12 to 14: how much the count of the block grows.
    fn gain(&self, place: usize, from: u32) -> Answer<u64> {
        let cell = &self.cells[place].0;
        let third_cells = || cell.iter().filter_map(|dart| Some(self.cell_of[&self.map.darts[dart].third?]));
        ask(12, third_cells().all(|other| other != place))?;
        ask(13, self.pairs_once(cell))?;
        let gained = self.faces_towards(place, from);
        ask(14, self.counts[from as usize] + gained <= u64::from(u32::MAX))?;
        Ok(gained)
    }

    /// One request; a refused one changes nothing. 11 reads 64 for a round into or out of a viewer, 21 reads 256 into it.
    pub fn step(&mut self, request: Request) -> Answer<()> {
        let Request { from, to, .. } = request;
        let place = self.place(request)?;
        let darts = self.cells[place].0.len();
        ask(11, darts <= self.viewers.cell(from as usize, to as usize))?;
        let gained = self.gain(place, from)?;
        let held: usize = self.cells.iter().filter(|(_, n)| *n == to).map(|(darts, _)| darts.len()).sum();
        ask(21, held + darts <= self.viewers.darts(to as usize))?;
        self.cells[place].1 = to;
        self.counts[from as usize] += gained;
        Ok(())
    }

    /// The number by which the divided run refuses a request that this run refuses by another: from the rack into a viewer a
    /// cell of 65 to 512 darts is refused by 11 here; there the sender finds it small enough and says the first of 12 to 14 that
    /// applies, else the viewer says 29.
    pub fn other_number(&self, request: Request) -> Option<u32> {
        let Request { from, to, .. } = request;
        let place = self.place(request).ok()?;
        let large = (VIEWER_CELL + 1..=MAX_CELL).contains(&self.cells[place].0.len());
        let ends = [from, to].map(|number| self.viewers.site(number as usize));
        let into_viewer = ends == [Site::Rack, Site::Viewer];
        (large && into_viewer).then(|| match self.gain(place, from) {
            Ok(_) => 29,
            Err(No(number)) => number,
        })
    }

    /// Question 13 of a cell, with the least dart of a ring as the vertex.
    fn pairs_once(&self, cell: &BTreeSet<u32>) -> bool {
        let mut vertex = BTreeMap::new();
        for dart in cell {
            let mut at = *dart;
            while !vertex.contains_key(&at) {
                vertex.insert(at, *dart);
                at = self.map.next(self.map.opposite(at));
            }
        }
        let pairs: BTreeSet<(u32, u32)> =
            cell.iter().map(|dart| (vertex[dart], vertex[&self.map.next(*dart)])).collect();
        pairs.len() == cell.len() && pairs.iter().all(|(from, to)| from != to)
    }

    /// How many of the cell's faces have third links to other cells numbered `number`.
    fn faces_towards(&self, place: usize, number: u32) -> u64 {
        let faces = cells::faces(&self.map, &self.cells[place].0);
        let towards = |face: &&Vec<u32>| {
            self.map.darts[&face[0]].third.is_some_and(|third| {
                let other = self.cell_of[&third];
                other != place && self.cells[other].1 == number
            })
        };
        faces.iter().filter(towards).count() as u64
    }
}
