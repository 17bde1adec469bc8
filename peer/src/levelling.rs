//! Meshes and oracles for a program that balances blocks to the end, and what it prints.

use crate::balance::{self, Choice};
use crate::descent::Descent;
use crate::file;
use crate::generate::{self, Mesh, Size};
use crate::lent::{OracleNumbers, Peer};
use crate::rng::Rng;
use crate::rounds::{digests, put_head};
use crate::runs::Request;
use crate::shapes::{self, Filling, Map};
use crate::simulate::{BothRuns, Disagreement, Turn};
use crate::value::{Block, Label, No, Point, Viewers};

/// Meshes one after the other: the number of blocks, the viewers (four bytes), each block's file behind its length, the oracle, its axis,
/// its six floats. The text has for each mesh the picked volumes of every block, the moves, how they end, the picked volumes then and a digest of every block.
#[derive(Default)]
pub struct Levelling {
    pub input: Vec<u8>,
    pub output: String,
}

/// Drawn meshes beside those by hand.
const DRAWN: usize = 11;

/// Darts of a mesh that may be stored.
const MAX_DARTS_STORED: usize = 180;

const EVERY: OracleNumbers = OracleNumbers { oracle: 0, axis: 0, floats: [0; 6] };

fn box_of(low: [f64; 3], high: [f64; 3]) -> OracleNumbers {
    let [x0, y0, z0] = low.map(f64::to_bits);
    let [x1, y1, z1] = high.map(f64::to_bits);
    OracleNumbers { oracle: 1, axis: 0, floats: [x0, y0, z0, x1, y1, z1] }
}

fn plane(axis: u32, value: f64) -> OracleNumbers {
    OracleNumbers { oracle: 2, axis, floats: [value.to_bits(), 0, 0, 0, 0, 0] }
}

/// A map cut into blocks, `home` giving the block of each volume; serials from 1, labels made by block 0.
fn cut(map: &Map, count: usize, home: impl Fn(usize) -> usize) -> Vec<Block> {
    let (cell, _) = map.volumes();
    let home: Vec<usize> = cell.iter().map(|volume| home(*volume)).collect();
    let serials: Vec<u32> = (1..=map.len() as u32).collect();
    let mut number = 0;
    let label_of = generate::label_crossings(map, &home, |size| {
        number += 1;
        (0..size as u16).map(|position| Label { maker: 0, number: number - 1, position }).collect()
    });
    let mut counters = vec![0; count];
    counters[0] = number;
    generate::assemble(map, &home, &serials, &map.wished_points(), &label_of, &counters)
}

/// Pillows of one size, so many in each block.
fn pillows(sides: usize, counts: &[usize]) -> Vec<Block> {
    let mut map = Map::default();
    let mut homes = Vec::new();
    for (block, volumes) in counts.iter().enumerate() {
        for _ in 0..*volumes {
            shapes::pillow(&mut map, sides);
            homes.push(block);
        }
    }
    cut(&map, counts.len(), |volume| homes[volume])
}

/// Two volumes that may go and four whose vertex pairs repeat, all in the first of two blocks.
fn stuck() -> Vec<Block> {
    let mut map = Map::default();
    for sides in [2, 3, 2, 2, 3, 2] {
        shapes::pillow(&mut map, sides);
    }
    cut(&map, 2, |_| 0)
}

/// A block whose counter is full gives nothing that is sewn to what stays.
fn full_counter() -> Vec<Block> {
    let mut blocks = cut(&shapes::grid([4, 1, 1], Filling::Hexahedra), 2, |_| 1);
    blocks[1].counter = u32::MAX;
    blocks
}

/// One serial in two blocks.
fn repeated() -> Vec<Block> {
    let mut blocks = pillows(3, &[2, 1]);
    blocks[1].darts = blocks[0].darts.iter().take(6).map(|(serial, dart)| (*serial, *dart)).collect();
    blocks
}

/// Pillows of such sides in each block.
fn mixed(sides: &[&[usize]]) -> Vec<Block> {
    let mut map = Map::default();
    let mut homes = Vec::new();
    for (block, sides) in sides.iter().enumerate() {
        for n in *sides {
            shapes::pillow(&mut map, *n);
            homes.push(block);
        }
    }
    cut(&map, sides.len(), |volume| homes[volume])
}

/// Meshes with viewers, by hand. A volume of 33 sides has 66 darts.
fn with_viewers() -> Vec<(Mesh, OracleNumbers)> {
    let brick = shapes::grid([3, 2, 2], Filling::Hexahedra);
    let of = |blocks: Vec<Block>, bits: u32| (Mesh { blocks, viewers: Viewers(bits) }, EVERY);
    vec![
        // Into a viewer the small ones alone go; then it is blocked.
        of(mixed(&[&[33, 3, 33, 32, 33], &[]]), 0b10),
        // Out of one too; what a viewer may not have goes to the next.
        of(mixed(&[&[33, 3, 33, 3], &[]]), 0b01),
        of(mixed(&[&[33, 33, 33, 33], &[], &[]]), 0xffff_fffa),
        // Sewn cells into viewers, between them and out of them.
        of(cut(&brick, 3, |_| 1), 0b101),
        // Between viewers, the second with room for two and for one; bits of blocks that are not there.
        of(mixed(&[&[3, 3, 3, 3, 3], &[122]]), 0xffff_ffff),
        of(mixed(&[&[3, 3, 3, 3, 3], &[125]]), 0b11),
        // 66 darts between blocks of the rack.
        of(mixed(&[&[], &[33, 33, 33], &[3]]), 0b100),
    ]
}

/// The meshes by hand, with their oracles.
fn by_hand() -> Vec<(Vec<Block>, OracleNumbers)> {
    let hexahedra = shapes::grid([3, 3, 3], Filling::Hexahedra);
    let brick = shapes::grid([3, 2, 2], Filling::Hexahedra);
    let tetrahedra = shapes::grid([2, 2, 1], Filling::Tetrahedra);
    let prisms = shapes::grid([3, 2, 1], Filling::Prisms);
    vec![
        (pillows(3, &[5, 1, 1, 1]), EVERY),
        (pillows(3, &[3, 1, 1]), EVERY),
        // Within one; within one but for volumes that stay; a donor below the mean; a recipient above it.
        (pillows(3, &[2, 1, 2]), EVERY),
        (pillows(2, &[3, 1, 1]), EVERY),
        (pillows(3, &[2, 0, 7]), EVERY),
        (pillows(3, &[4, 2, 0, 0]), EVERY),
        (pillows(4, &[0, 7]), EVERY),
        (pillows(3, &[0]), EVERY),
        // All in one block, faces sewn: every move leaves critical faces behind.
        (cut(&hexahedra, 4, |_| 0), EVERY),
        (cut(&hexahedra, 5, |volume| if volume % 9 == 0 { 2 } else { 4 }), EVERY),
        (cut(&tetrahedra, 16, |volume| if volume < 20 { 15 } else { 7 }), EVERY),
        (cut(&prisms, 3, |volume| volume % 2), EVERY),
        // The corner, a layer, and what a plane cuts.
        (cut(&brick, 3, |_| 1), box_of([0.0; 3], [1.0; 3])),
        (cut(&brick, 3, |_| 2), box_of([0.0; 3], [3.0, 3.0, 0.5])),
        (cut(&brick, 4, |_| 0), plane(2, 1.5)),
        (cut(&tetrahedra, 3, |volume| volume % 2), plane(0, 0.25)),
        (cut(&brick, 3, |_| 0), plane(1, -0.0)),
        (stuck(), EVERY),
        (full_counter(), EVERY),
        (repeated(), EVERY),
        (pillows(3, &[2, 0]), box_of([1.0; 3], [0.0; 3])),
    ]
}

/// A right oracle about points that a mesh has.
fn oracle(rng: &mut Rng, blocks: &[Block]) -> OracleNumbers {
    let points: Vec<Point> = blocks.iter().flat_map(|block| block.darts.values().map(|dart| dart.point)).collect();
    let mut some = || rng.pick(&points).copied().unwrap_or_default().floats();
    let (one, other) = (some(), some());
    match rng.below(3) {
        0 => EVERY,
        1 => box_of([0, 1, 2].map(|axis| one[axis].min(other[axis])), [0, 1, 2].map(|axis| one[axis].max(other[axis]))),
        _ => {
            let axis = rng.below(3);
            plane(axis as u32, one[axis] / 2.0 + other[axis] / 2.0)
        }
    }
}

/// Meshes that are drawn, of those that take some moves.
fn drawn(seed: u64) -> Result<Vec<(Mesh, OracleNumbers)>, Disagreement> {
    let mut found = Vec::new();
    let mut round = 0;
    while found.len() < DRAWN {
        round += 1;
        let mut rng = Rng::new(seed.wrapping_mul(1_000_003).wrapping_add(round));
        let count = rng.between(2, 9);
        let size = if rng.one_in(2) { Size::Medium } else { Size::Small };
        let mesh = generate::mesh_of(&mut rng, size, count);
        let asked = oracle(&mut rng, &mesh.blocks);
        let darts: usize = mesh.blocks.iter().map(|block| block.darts.len()).sum();
        if darts <= MAX_DARTS_STORED && balanced(&mesh, &asked)?.matches("move").count() >= 2 {
            found.push((mesh, asked));
        }
    }
    Ok(found)
}

fn counts(blocks: &[Block], oracle: &OracleNumbers) -> String {
    let Some(oracle) = oracle.oracle() else { return String::new() };
    let counts = balance::counts(blocks, &oracle);
    format!("counts{}\n", counts.iter().map(|count| format!(" {count}")).collect::<String>())
}

/// What the program prints for one mesh; its moves are held to the laws of the rule.
fn balanced(mesh: &Mesh, oracle: &OracleNumbers) -> Result<String, Disagreement> {
    let blocks = &mesh.blocks;
    let asked = oracle.oracle().ok_or("no oracle")?;
    let mut text = format!("blocks {}\n", blocks.len()) + &counts(blocks, oracle);
    let mut runs: Option<BothRuns> = None;
    let mut descent = Descent::start(balance::counts(blocks, &asked));
    let mut now = blocks.clone();
    loop {
        match balance::next_move(&now, mesh.viewers, &asked).map(|next| next.choice) {
            Err(No(number)) => {
                text += &format!("refused {number}\n");
                break;
            }
            Ok(Choice::Level) => {
                descent.end(true)?;
                text += "level\n";
                break;
            }
            Ok(Choice::Blocked) => {
                descent.end(false)?;
                text += "blocked\n";
                break;
            }
            Ok(Choice::Move { donor, recipient, serial }) => {
                text += &format!("move {donor} {recipient} {serial}\n");
                let request = Request { from: donor.into(), to: recipient.into(), serial: serial.into() };
                let both = runs.get_or_insert_with(|| BothRuns::start(mesh));
                let answer = both.step(&Peer, Turn { request, order: 0 })?;
                if answer != 0 {
                    return Err(format!("a next move is refused by {answer}"));
                }
                now = both.blocks()?;
                descent.step(donor.into(), recipient.into(), balance::counts(&now, &asked))?;
            }
        }
    }
    let words: Vec<u64> = now.iter().flat_map(crate::image::encode).collect();
    Ok(text + &counts(&now, oracle) + "digests" + &digests(&words) + "\n")
}

pub fn levelling(seed: u64) -> Result<Levelling, Disagreement> {
    let mut made = Levelling::default();
    let of_the_rack = by_hand().into_iter().map(|(blocks, oracle)| (Mesh::of_the_rack(blocks), oracle));
    for (mesh, oracle) in of_the_rack.chain(with_viewers()).chain(drawn(seed)?) {
        put_head(&mut made.input, &mesh);
        for bytes in mesh.blocks.iter().map(file::encode) {
            made.input.extend_from_slice(&(bytes.len() as u32).to_le_bytes());
            made.input.extend_from_slice(&bytes);
        }
        made.input.extend_from_slice(&[oracle.oracle as u8, oracle.axis as u8]);
        oracle.floats.iter().for_each(|float| made.input.extend_from_slice(&float.to_le_bytes()));
        made.output += &balanced(&mesh, &oracle)?;
    }
    Ok(made)
}
