//! Files for the listing program in a row, and what it prints for each.

use crate::calls;
use crate::damage::requests::block_of;
use crate::file;
use crate::listing;
use crate::message;
use crate::shapes::{self, Map};
use crate::value::{Block, Label, Point, Third, RACK};

/// Files behind their lengths, and the text: a line with each file's number, then what is printed for it.
pub struct Listings {
    pub input: Vec<u8>,
    pub output: String,
}

/// The paper's P and Q in block 0, P's first face sewn to Q's second.
fn sewn_pair() -> Block {
    let mut map = Map::default();
    shapes::pillow(&mut map, 3);
    shapes::pillow(&mut map, 3);
    map.sew(0, 11);
    block_of(&map, 0)
}

fn p() -> Block {
    let mut map = Map::default();
    shapes::pillow(&mut map, 3);
    block_of(&map, 0)
}

/// Both blocks after the volume of a dart went from the first to the second.
fn round(from: &Block, to: &Block, serial: u64) -> Option<(Block, Block)> {
    let outbox = calls::send(RACK, from, u64::from(to.number), serial, usize::MAX).ok()?;
    let transfer = *message::split(&outbox)?.first()?;
    let taken = calls::receive(RACK, to, transfer).ok()?;
    Some((calls::release(RACK, from, u64::from(to.number), serial).ok()?, taken))
}

/// P with its first dart changed.
fn spoilt(change: impl Fn(&mut crate::value::Dart)) -> Block {
    let mut block = p();
    if let Some(dart) = block.darts.get_mut(&1) {
        change(dart);
    }
    block
}

/// A block that only question n refuses, for 4 to 8.
fn refused_blocks() -> Vec<Block> {
    let own = Third::Critical { other: 0, label: Label { maker: 1, number: 0, position: 0 } };
    let mut critical = p();
    for (serial, dart) in &mut critical.darts {
        if *serial <= 3 {
            dart.third = own;
        }
    }
    vec![
        spoilt(|dart| dart.point = Point::of([f64::INFINITY, 0.0, 0.0])),
        spoilt(|dart| dart.next = 7),
        spoilt(|dart| dart.third = Third::Sewn(1)),
        critical,
        spoilt(|dart| dart.point = Point::of([-0.0, 7.5, 1.0])),
    ]
}

fn files() -> Vec<Vec<u8>> {
    let pair = sewn_pair();
    let mut blocks = vec![p(), pair.clone()];
    if let Some((left, taken)) = round(&pair, &Block::empty(1), 1) {
        let after = round(&left, &taken, 7);
        blocks.extend([left, taken]);
        blocks.extend(after.into_iter().flat_map(|(left, taken)| [left, taken]));
    }
    let mut files: Vec<Vec<u8>> = blocks.iter().map(file::encode).collect();
    let mut cut = file::encode(&p());
    cut.pop();
    files.push(cut);
    files.extend(refused_blocks().iter().map(file::encode));
    files.extend([Vec::new(), vec![0; listing::MAX_INPUT], vec![0; listing::MAX_INPUT + 1]]);
    files
}

pub fn listings() -> Listings {
    let mut made = Listings { input: Vec::new(), output: String::new() };
    for (number, bytes) in files().iter().enumerate() {
        made.input.extend_from_slice(&(bytes.len() as u32).to_le_bytes());
        made.input.extend_from_slice(bytes);
        made.output += &format!("file {}\n{}", number + 1, listing::listing(bytes));
    }
    made
}
