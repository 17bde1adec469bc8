//! The two runs agree, every refusal of a round occurs, and balancing ends.

use peer::damage::requests::block_of;
use peer::generate::{self, Mesh, Size};
use peer::lent::{OracleNumbers, Peer};
use peer::rng::Rng;
use peer::runs::{Request, Undivided};
use peer::shapes::{self, Map};
use peer::simulate::{balance, simulate, BothRuns, Turn};
use peer::value::{Block, No, Viewers};

#[test]
fn the_runs_agree() {
    match simulate(&Peer, 3, 8_000) {
        Ok(tally) => {
            println!("{tally:?}");
            for answer in [0, 9, 10, 11, 12, 13, 14, 21, 29] {
                assert!(tally.answers.contains_key(&answer), "nothing answered {answer}");
            }
            assert!(tally.redirects > 1000);
            assert!(tally.with_viewers.iter().flatten().all(|count| *count > 100));
        }
        Err(failure) => panic!("{}", failure.what),
    }
}

/// Every run of moves ends, and keeps the laws that `balance` holds it to.
#[test]
fn balancing_ends() {
    let mut moves = 0;
    for seed in 0..120 {
        let mut rng = Rng::new(seed);
        let mesh = generate::mesh(&mut rng, Size::Small);
        for oracle in 0..3 {
            let floats = [0.5, -1.0, -1.0, 9.0, 9.0, 9.0].map(f64::to_bits);
            let oracle = OracleNumbers { oracle, axis: rng.below(3) as u32, floats };
            moves += balance(&Peer, &mesh, &oracle).unwrap_or_else(|what| panic!("seed {seed}: {what}"));
        }
    }
    assert!(moves > 100, "{moves}");
}

/// The numbers of the two runs for the one cell of a block that goes from block 0 to block 1, and back where it went.
fn numbers(sides: usize, bits: u32, counter: u32, within: bool) -> (u32, u32) {
    let mut map = Map::default();
    shapes::pillow(&mut map, sides);
    if within {
        map.sew(0, sides);
    }
    // A neighbour, so that the count grows.
    shapes::pillow(&mut map, sides);
    if !within {
        map.sew(0, 2 * sides);
    }
    let mut block = block_of(&map, 0);
    block.counter = counter;
    let mesh = Mesh { blocks: vec![block, Block::empty(1)], viewers: Viewers(bits) };
    let request = Request { from: 0, to: 1, serial: 1 };
    let undivided = Undivided::start(&mesh.blocks, mesh.viewers).step(request).err().map_or(0, |No(number)| number);
    let divided = BothRuns::start(&mesh).step(&Peer, Turn { request, order: 0 }).unwrap();
    (undivided, divided)
}

/// From the rack into a viewer, 65 to 512 darts: 11 here; there the first of 12 to 14 that applies, else 29. No other round differs.
#[test]
fn the_numbers_differ_only_into_a_viewer() {
    for sides in [33, 100, 256] {
        assert_eq!(numbers(sides, 0b10, 0, true), (11, 12));
        assert_eq!(numbers(sides, 0b10, u32::MAX, false), (11, 14));
        assert_eq!(numbers(sides, 0b10, u32::MAX - 1, false), (11, 29));
        assert_eq!(numbers(sides, 0b00, u32::MAX, false), (14, 14));
        assert_eq!(numbers(sides, 0b00, 0, true), (12, 12));
        assert_eq!(numbers(sides, 0b00, 0, false), (0, 0));
    }
    // 132 darts are in a viewer's block; 66 do not leave it.
    for bits in [0b01, 0b11] {
        assert_eq!(numbers(33, bits, 0, false), (11, 11));
        assert_eq!(numbers(33, bits, 0, true), (11, 11));
    }
    for bits in 0..4 {
        assert_eq!(numbers(32, bits, 0, false), (0, 0));
        assert_eq!(numbers(32, bits, u32::MAX, false), (14, 14));
        assert_eq!(numbers(32, bits, 0, true), (12, 12));
    }
    assert_eq!(numbers(257, 0b10, 0, false), (11, 11));
}
