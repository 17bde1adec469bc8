//! Value types of a block: points, labels, darts, links by serial.
//!
//! A value may break the rules of a sound block; `sound` says whether it does.

use std::collections::BTreeMap;

/// Most darts a block may hold, on the rack.
pub const MAX_DARTS: usize = 4096;
/// Most darts a volume that moves may have, on the rack; and most darts of any transfer.
pub const MAX_CELL: usize = 512;
/// Most darts a viewer's block may hold.
pub const VIEWER_DARTS: usize = 256;
/// Most darts a volume may have that moves into or out of a viewer.
pub const VIEWER_CELL: usize = 64;
/// Most blocks in a mesh; block numbers are 0 to 15.
pub const MAX_BLOCKS: usize = 16;
/// Greatest position in a label.
pub const MAX_POSITION: u16 = 4095;

/// Who keeps a block: a node of the rack, or the harbour office's viewer.
#[derive(Clone, Copy, PartialEq, Eq, PartialOrd, Ord, Debug)]
pub enum Site {
    Rack,
    Viewer,
}

/// What a site can hold: darts of a block, and of a volume that moves.
#[derive(Clone, Copy, PartialEq, Eq, Debug)]
pub struct Limits {
    pub darts: usize,
    pub cell: usize,
}

pub const RACK: Limits = Limits { darts: MAX_DARTS, cell: MAX_CELL };
pub const VIEWER: Limits = Limits { darts: VIEWER_DARTS, cell: VIEWER_CELL };

impl Site {
    pub fn limits(self) -> Limits {
        match self {
            Site::Rack => RACK,
            Site::Viewer => VIEWER,
        }
    }
}

/// Which blocks of a mesh are viewers': bit b says so of the block numbered b. Bits from 16 on are not looked at.
#[derive(Clone, Copy, PartialEq, Eq, Debug, Default)]
pub struct Viewers(pub u32);

impl Viewers {
    pub const NONE: Viewers = Viewers(0);

    /// Who keeps the block of this number.
    pub fn site(self, number: usize) -> Site {
        if number < MAX_BLOCKS && self.0 >> number & 1 == 1 {
            Site::Viewer
        } else {
            Site::Rack
        }
    }

    /// Most darts of a volume that goes from one block to another: what both ends can hold.
    pub fn cell(self, from: usize, to: usize) -> usize {
        self.site(from).limits().cell.min(self.site(to).limits().cell)
    }

    /// Most darts of a block.
    pub fn darts(self, number: usize) -> usize {
        self.site(number).limits().darts
    }
}

/// The number of the first question answered no.
#[derive(Clone, Copy, PartialEq, Eq, PartialOrd, Ord, Hash, Debug)]
pub struct No(pub u32);

/// A call's answer: what it serves, or the number of its refusal.
pub type Answer<T> = Result<T, No>;

/// Turns a question's answer into a refusal by its number.
pub fn ask(number: u32, yes: bool) -> Answer<()> {
    if yes {
        Ok(())
    } else {
        Err(No(number))
    }
}

/// Three 64-bit floats, kept and compared as bit patterns.
#[derive(Clone, Copy, PartialEq, Eq, PartialOrd, Ord, Hash, Debug, Default)]
pub struct Point(pub [u64; 3]);

impl Point {
    pub fn of(floats: [f64; 3]) -> Point {
        Point(floats.map(f64::to_bits))
    }

    pub fn floats(&self) -> [f64; 3] {
        self.0.map(f64::from_bits)
    }

    pub fn is_finite(&self) -> bool {
        self.floats().iter().all(|c| c.is_finite())
    }
}

/// Maker, number, position: ordered in that way.
#[derive(Clone, Copy, PartialEq, Eq, PartialOrd, Ord, Hash, Debug)]
pub struct Label {
    pub maker: u8,
    pub number: u32,
    pub position: u16,
}

/// The third link of a dart.
#[derive(Clone, Copy, PartialEq, Eq, Debug)]
pub enum Third {
    Free,
    Sewn(u32),
    Critical { other: u8, label: Label },
}

/// A dart without its serial; links are serials.
#[derive(Clone, Copy, PartialEq, Eq, Debug)]
pub struct Dart {
    pub next: u32,
    pub opposite: u32,
    pub third: Third,
    pub point: Point,
}

impl Dart {
    pub fn label(&self) -> Option<Label> {
        match self.third {
            Third::Critical { label, .. } => Some(label),
            _ => None,
        }
    }
}

/// A block: darts in ascending serial.
#[derive(Clone, PartialEq, Eq, Debug)]
pub struct Block {
    pub number: u8,
    pub counter: u32,
    pub darts: BTreeMap<u32, Dart>,
}

impl Block {
    /// An empty block is made from its number alone, counter 0.
    pub fn empty(number: u8) -> Block {
        Block { number, counter: 0, darts: BTreeMap::new() }
    }

    /// The inverse of next, for the darts whose next is held.
    pub fn previous(&self) -> BTreeMap<u32, u32> {
        self.darts.iter().map(|(serial, dart)| (dart.next, *serial)).collect()
    }

    /// The dart that holds each critical label.
    pub fn labels(&self) -> BTreeMap<Label, u32> {
        self.darts.iter().filter_map(|(serial, dart)| Some((dart.label()?, *serial))).collect()
    }
}

/// Next and opposite of a map; walks over cells need no more.
pub trait Links {
    fn next(&self, serial: u32) -> u32;
    fn opposite(&self, serial: u32) -> u32;
}

impl Links for Block {
    fn next(&self, serial: u32) -> u32 {
        self.darts[&serial].next
    }

    fn opposite(&self, serial: u32) -> u32 {
        self.darts[&serial].opposite
    }
}
