//! Requests of send and release, and numbers of empty, over all their answers.

use super::{blocks, some_block, some_serial, Way};
use crate::calls;
use crate::cases::{Case, UNWRITTEN};
use crate::cells;
use crate::image;
use crate::message;
use crate::rng::Rng;
use crate::shapes::{self, Map};
use crate::value::{Block, Dart, Site, Third};

/// Cases of empty.
pub fn empty(rng: &mut Rng, site: Site) -> Vec<Way> {
    let mut ways = Vec::new();
    for (way, number) in [
        ("block 0", 0),
        ("block 15", 15),
        ("any block", rng.below(16) as u64),
        ("block 16", 16),
        ("block 2^32", 1 << 32),
        ("block 2^64 − 1", u64::MAX),
        ("any number", rng.bits() >> rng.below(64)),
    ] {
        ways.push((way, Case::Empty { site, number, block: vec![0; site.words()] }));
        let stale = image::encode_at(site, &pillow_block(3 + rng.below(4), rng.below(16) as u8));
        ways.push((way, Case::Empty { site, number, block: stale }));
    }
    for (way, words) in blocks::wrong_sizes(site, &Block::empty(0)) {
        // The size is asked before the number.
        ways.push((way, Case::Empty { site, number: 16 * rng.below(2) as u64, block: words }));
    }
    ways
}

/// A block of one pillow of n darts a side.
pub fn pillow_block(n: usize, number: u8) -> Block {
    let mut map = Map::default();
    shapes::pillow(&mut map, n);
    block_of(&map, number)
}

/// A map as one block, serials from 1.
pub fn block_of(map: &Map, number: u8) -> Block {
    let points = map.wished_points();
    let serial = |dart: usize| dart as u32 + 1;
    let darts = (0..map.len())
        .map(|dart| {
            let third = map.third[dart].map_or(Third::Free, |partner| Third::Sewn(serial(partner)));
            let (next, opposite) = (serial(map.next[dart]), serial(map.opposite[dart]));
            (serial(dart), Dart { next, opposite, third, point: points[dart] })
        })
        .collect();
    Block { number, counter: 0, darts }
}

/// A block, a destination and a serial.
type Request = (&'static str, Vec<u64>, u64, u64);

/// Requests of one block that reach questions 1, 2 and 9 to 14.
fn requests(rng: &mut Rng, site: Site, held: &[Block]) -> Vec<Request> {
    let block = some_block(rng, held);
    let words = image::encode_at(site, block);
    let serial = u64::from(some_serial(rng, block));
    let own = u64::from(block.number);
    let other = (own + 1 + rng.below(15) as u64) % 16;
    let elsewhere = some_block(rng, held);
    let mut found: Vec<Request> = Vec::new();
    for (way, to) in [
        ("to the block itself", own),
        ("to block 16", 16),
        ("to block 2^32", 1 << 32 | other),
        ("to block 2^64 − 1", u64::MAX),
    ] {
        found.push((way, words.clone(), to, serial));
    }
    for (way, serial) in [
        ("serial 0", 0),
        ("serial 2^32 − 1", u64::from(u32::MAX)),
        ("serial with a bit past 32", serial | 1 << 32),
        ("serial 2^64 − 1", u64::MAX),
        ("any serial", rng.bits() >> 32),
        ("a serial of another block", u64::from(some_serial(rng, elsewhere))),
    ] {
        found.push((way, words.clone(), other, serial));
    }
    // Two noes: the first gives the number.
    found.push(("to itself and serial 0", words.clone(), own, 0));
    for cell in cells::volumes(block, block.darts.keys().copied()).iter().take(12) {
        let serial = cell.iter().nth(rng.below(cell.len())).map_or(0, |dart| u64::from(*dart));
        found.push(("a cell of the block", words.clone(), other, serial));
        found.push(("a cell to any block", words.clone(), rng.below(16) as u64, serial));
        found.extend(at_the_counter(site, block, other, serial));
    }
    for (way, memory) in blocks::memories(rng, site, block) {
        found.push((way, memory, other, serial));
    }
    found.extend(special_cells(rng, site));
    found
}

/// The counter at and one past the most that question 14 allows.
fn at_the_counter(site: Site, block: &Block, to: u64, serial: u64) -> Vec<Request> {
    let cell = cells::volume(block, serial as u32);
    let faces = cells::faces(block, &cell);
    let fresh = faces.iter().filter(|face| matches!(block.darts[&face[0]].third, Third::Sewn(_))).count() as u32;
    if fresh == 0 {
        return Vec::new();
    }
    [("the counter just fits", u32::MAX - fresh), ("the counter too high", u32::MAX - fresh + 1)]
        .into_iter()
        .map(|(way, counter)| (way, image::encode_at(site, &Block { counter, ..block.clone() }), to, serial))
        .collect()
}

/// Cells that question 11, 12 or 13 turns away, and those at the limits; what a viewer cannot hold is left out there.
fn special_cells(rng: &mut Rng, site: Site) -> Vec<Request> {
    let mut found = Vec::new();
    let mut add = |way, build: &dyn Fn(&mut Map)| {
        let mut map = Map::default();
        build(&mut map);
        let serial = 1 + rng.below(map.len()) as u64;
        if map.len() <= site.limits().darts {
            found.push((way, image::encode_at(site, &block_of(&map, 3)), 5, serial));
        }
    };
    add("a loop", &|map| {
        shapes::pillow(map, 1);
    });
    add("a pillow of two", &|map| {
        shapes::pillow(map, 2);
    });
    add("a narrow torus", &|map| {
        shapes::torus(map, 2, 3);
    });
    add("a torus", &|map| {
        shapes::torus(map, 3, 3);
    });
    add("two faces of a cell sewn", &|map| {
        shapes::pillow(map, 3);
        map.sew(0, 3);
    });
    add("a face sewn to itself", &|map| {
        shapes::pillow(map, 4);
        map.sew(0, 1);
    });
    add("a volume sewn within and doubled pairs", &|map| {
        shapes::pillow(map, 2);
        map.sew(0, 1);
    });
    add("64 darts", &|map| {
        shapes::pillow(map, 32);
    });
    add("64 darts of a torus", &|map| {
        shapes::torus(map, 4, 4);
    });
    add("66 darts", &|map| {
        shapes::pillow(map, 33);
    });
    add("66 darts of a prism", &|map| {
        shapes::prism(map, 11);
    });
    add("66 darts, two faces sewn", &|map| {
        shapes::pillow(map, 33);
        map.sew(0, 33);
    });
    add("72 darts of a narrow torus", &|map| {
        shapes::torus(map, 2, 9);
    });
    add("256 darts", &|map| {
        shapes::pillow(map, 128);
    });
    add("512 darts", &|map| {
        shapes::pillow(map, 256);
    });
    add("514 darts", &|map| {
        shapes::pillow(map, 257);
    });
    add("516 darts", &|map| {
        shapes::prism(map, 86);
    });
    found
}

/// Cases of release.
pub fn release(rng: &mut Rng, site: Site, held: &[Block]) -> Vec<Way> {
    let requests = requests(rng, site, held).into_iter();
    requests.map(|(way, block, to, serial)| (way, Case::Release { site, block, to, serial })).collect()
}

/// Cases of send: the same requests, and outboxes of every length that matters.
pub fn send(rng: &mut Rng, site: Site, held: &[Block]) -> Vec<Way> {
    let mut ways = Vec::new();
    let limits = site.limits();
    for (way, block, to, serial) in requests(rng, site, held) {
        let value = image::sound_block(&block, limits);
        let needed = value.and_then(|value| calls::send(limits, &value, to, serial, usize::MAX).ok());
        let case = |room: usize| Case::Send {
            site,
            block: block.clone(),
            to,
            serial,
            outbox: vec![0xc3; room],
            written: UNWRITTEN,
        };
        let room = needed.as_ref().map_or(64, Vec::len);
        ways.push((way, case(room + rng.below(20))));
        if let Some(sent) = needed.filter(|_| rng.one_in(3)) {
            let transfer = message::split(&sent).and_then(|list| Some(list.first()?.len())).unwrap_or(0);
            ways.push(("outbox a byte short", case(sent.len() - 1)));
            ways.push(("outbox that just fits", case(sent.len())));
            ways.push(("outbox for the transfer alone", case(transfer)));
            ways.push(("outbox short of the transfer", case(transfer - 1)));
            ways.push(("no outbox", case(0)));
        }
    }
    ways
}
