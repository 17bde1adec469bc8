//! Meshes and requests for a program that plays rounds, and what it prints.

use crate::file;
use crate::generate::Mesh;
use crate::image::WORDS;
use crate::lent::Peer;
use crate::rng::Rng;
use crate::simulate::{mesh_of_seed, BothRuns, Disagreement};
use std::collections::BTreeSet;

/// Meshes one after the other: the number of blocks, the viewers (four bytes), each block's file behind its length, the number of
/// requests, the requests (from, to, serial). The text has a line for each mesh, and for each request its outcome in the divided run and a
/// digest of every block.
#[derive(Default)]
pub struct Rounds {
    pub input: Vec<u8>,
    pub output: String,
}

/// Bytes of a mesh's files that may be stored, and of one that has an answer which none before it has.
const MAX_MESH: usize = 5_000;
const MAX_NEW: usize = 24_000;

/// A remainder of the words' halves, high ones first.
fn digest(words: &[u64]) -> u64 {
    const MODULUS: u64 = 4_294_967_291;
    let step = |sum: u64, half: u64| (sum * 1_000_003 + half) % MODULUS;
    words.iter().fold(0, |sum, word| step(step(sum, word >> 32), word & 0xffff_ffff))
}

/// The number of blocks, and which of them are viewers'.
pub fn put_head(out: &mut Vec<u8>, mesh: &Mesh) {
    out.push(mesh.blocks.len() as u8);
    out.extend_from_slice(&mesh.viewers.0.to_le_bytes());
}

/// A digest of every block of a mesh, of the rack's words for each.
pub fn digests(mesh: &[u64]) -> String {
    mesh.chunks_exact(WORDS).map(|words| format!(" {}", digest(words))).collect()
}

/// At least so many requests.
pub fn rounds(seed: u64, requests: usize) -> Result<Rounds, Disagreement> {
    let mut made = Rounds::default();
    let mut mesh_seed = seed.wrapping_mul(0x1_0000_0000);
    let mut played = 0;
    let mut answers = BTreeSet::new();
    while played < requests {
        mesh_seed = mesh_seed.wrapping_add(1);
        let (mut rng, mesh, turns) = mesh_of_seed(mesh_seed);
        let files: Vec<Vec<u8>> = mesh.blocks.iter().map(file::encode).collect();
        let size: usize = files.iter().map(Vec::len).sum();
        if size > MAX_NEW {
            continue;
        }
        let mut one = Rounds::default();
        put_head(&mut one.input, &mesh);
        for bytes in &files {
            one.input.extend_from_slice(&(bytes.len() as u32).to_le_bytes());
            one.input.extend_from_slice(bytes);
        }
        one.input.push(turns as u8);
        one.output += &format!("blocks {}\n", mesh.blocks.len());
        let found = one.play(&mesh, &mut rng, turns)?;
        if size <= MAX_MESH || !found.is_subset(&answers) {
            answers.extend(found);
            made.input.extend(one.input);
            made.output += &one.output;
            played += turns;
        }
    }
    Ok(made)
}

impl Rounds {
    /// So many requests of a mesh; the answers that came.
    fn play(&mut self, mesh: &Mesh, rng: &mut Rng, turns: usize) -> Result<BTreeSet<u32>, Disagreement> {
        let mut runs = BothRuns::start(mesh);
        let mut last = None;
        let mut answers = BTreeSet::new();
        for _ in 0..turns {
            let turn = runs.draw(rng, last);
            let request = turn.request;
            self.input.extend_from_slice(&[request.from as u8, request.to as u8]);
            self.input.extend_from_slice(&request.serial.to_le_bytes());
            let answer = runs.step(&Peer, turn)?;
            answers.insert(answer);
            match answer {
                0 => self.output += "moved",
                number => self.output += &format!("refused {number}"),
            }
            self.output += &digests(&runs.mesh);
            self.output.push('\n');
            last = Some(request);
        }
        Ok(answers)
    }
}
