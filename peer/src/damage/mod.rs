//! Damaged and undamaged inputs of every call, each with the way it was made.
//!
//! Values are altered in one place and encoded again; bytes and words are also altered raw.

pub mod blocks;
pub mod bytes;
pub mod meshes;
pub mod messages;
pub mod pages;
pub mod requests;

use crate::cases::{Call, Case};
use crate::generate::Mesh;
use crate::rng::Rng;
use crate::value::Block;

/// A case and the way it was made.
pub type Way = (&'static str, Case);

/// Cases of one call, drawn from one mesh. A viewer's call gets a block that a viewer can hold, whoever keeps it in the mesh.
pub fn batch(rng: &mut Rng, call: Call, mesh: &Mesh) -> Vec<Way> {
    let site = call.site();
    let fitting = |block: &Block| block.darts.len() <= site.limits().darts;
    let blocks = &mesh.blocks;
    let held: Vec<Block> = blocks.iter().filter(|block| fitting(block)).cloned().collect();
    match call.on_the_rack() {
        Call::Empty => requests::empty(rng, site),
        Call::CheckMesh => meshes::check_mesh(rng, mesh),
        Call::NextMove => meshes::next_move(rng, mesh),
        Call::Receive => messages::receive(rng, site, blocks),
        Call::Redirect => messages::redirect(rng, site, blocks),
        _ if held.is_empty() => Vec::new(),
        Call::ReadFile => blocks::read_file(rng, site, blocks, &held),
        Call::SaveFile => blocks::save_file(rng, site, &held),
        Call::Send => requests::send(rng, site, &held),
        Call::WritePages => pages::write_pages(rng, site, &held),
        Call::ReadPages => pages::read_pages(rng, site, blocks, &held),
        _ => requests::release(rng, site, &held),
    }
}

/// A block of the mesh, one with darts if there is any.
pub fn some_block<'a>(rng: &mut Rng, mesh: &'a [Block]) -> &'a Block {
    let held: Vec<&Block> = mesh.iter().filter(|block| !block.darts.is_empty()).collect();
    match rng.pick(&held) {
        Some(block) => block,
        None => &mesh[0],
    }
}

/// A serial of the block; 0 when it is empty.
pub fn some_serial(rng: &mut Rng, block: &Block) -> u32 {
    block.darts.keys().nth(rng.below(block.darts.len())).copied().unwrap_or(0)
}
