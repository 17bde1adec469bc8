//! Sound meshes (questions 23 to 27) and the whole map.

use crate::value::{ask, Answer, Block, Label, Links, Point, Third, MAX_BLOCKS};
use std::collections::{BTreeMap, BTreeSet};

/// A critical dart: its block, its serial and the block it names.
#[derive(Clone, Copy)]
struct Holder {
    block: usize,
    serial: u32,
    names: usize,
}

/// Every label with the darts that hold it.
fn holders(blocks: &[Block]) -> BTreeMap<Label, Vec<Holder>> {
    let mut found: BTreeMap<Label, Vec<Holder>> = BTreeMap::new();
    for (number, block) in blocks.iter().enumerate() {
        for (serial, dart) in &block.darts {
            if let Third::Critical { other, label } = dart.third {
                let holder = Holder { block: number, serial: *serial, names: usize::from(other) };
                found.entry(label).or_default().push(holder);
            }
        }
    }
    found
}

/// The mesh check on sound blocks.
pub fn check(blocks: &[Block]) -> Answer<()> {
    let numbered = blocks.iter().enumerate().all(|(place, block)| usize::from(block.number) == place);
    ask(23, (1..=MAX_BLOCKS).contains(&blocks.len()) && numbered)?;
    let mut serials = BTreeSet::new();
    ask(24, blocks.iter().flat_map(|block| block.darts.keys()).all(|serial| serials.insert(*serial)))?;
    let holders = holders(blocks);
    ask(25, labels_paired(blocks, &holders))?;
    ask(26, points_agree_across(blocks, &holders))?;
    ask(
        27,
        holders
            .keys()
            .all(|label| blocks.get(usize::from(label.maker)).is_some_and(|maker| label.number < maker.counter)),
    )
}

/// Question 25: each label on exactly two darts, in two blocks that name each other, and
/// if d and d' share a label, next d and previous d' share one.
fn labels_paired(blocks: &[Block], holders: &BTreeMap<Label, Vec<Holder>>) -> bool {
    let previous: Vec<BTreeMap<u32, u32>> = blocks.iter().map(Block::previous).collect();
    let shares = |d: &Holder, e: &Holder| {
        let after = blocks[d.block].next(d.serial);
        let before = previous[e.block][&e.serial];
        blocks[d.block].darts[&after].label() == blocks[e.block].darts[&before].label()
    };
    holders.values().all(|darts| match darts.as_slice() {
        [d, e] => d.block != e.block && d.names == e.block && e.names == d.block && shares(d, e) && shares(e, d),
        _ => false,
    })
}

/// Question 26: d and the dart after its partner have one point.
fn points_agree_across(blocks: &[Block], holders: &BTreeMap<Label, Vec<Holder>>) -> bool {
    let agrees = |d: &Holder, e: &Holder| {
        let after = blocks[e.block].next(e.serial);
        blocks[d.block].darts[&d.serial].point == blocks[e.block].darts[&after].point
    };
    holders.values().all(|darts| match darts.as_slice() {
        [d, e] => agrees(d, e) && agrees(e, d),
        _ => false,
    })
}

/// A dart of the whole map: a free dart has no third link.
#[derive(Clone, Copy, PartialEq, Eq, Debug)]
pub struct WholeDart {
    pub next: u32,
    pub opposite: u32,
    pub third: Option<u32>,
    pub point: Point,
}

/// The whole map of a mesh.
#[derive(Clone, PartialEq, Eq, Debug, Default)]
pub struct WholeMap {
    pub darts: BTreeMap<u32, WholeDart>,
}

impl Links for WholeMap {
    fn next(&self, serial: u32) -> u32 {
        self.darts[&serial].next
    }

    fn opposite(&self, serial: u32) -> u32 {
        self.darts[&serial].opposite
    }
}

/// All darts with next, opposite and point; a critical dart's third link is the other dart with its label.
pub fn whole_map(blocks: &[Block]) -> WholeMap {
    let holders = holders(blocks);
    let mut darts = BTreeMap::new();
    for block in blocks {
        for (serial, dart) in &block.darts {
            let third = match dart.third {
                Third::Free => None,
                Third::Sewn(partner) => Some(partner),
                Third::Critical { label, .. } => {
                    holders[&label].iter().map(|holder| holder.serial).find(|other| other != serial)
                }
            };
            let (next, opposite, point) = (dart.next, dart.opposite, dart.point);
            darts.insert(*serial, WholeDart { next, opposite, third, point });
        }
    }
    WholeMap { darts }
}
