//! The calls on lent memory and bytes. The answer is 0 or the number of the refusal;
//! a refused call leaves every lent word and byte as it was.

use crate::balance::{self, Choice, NextMove, Oracle};
use crate::calls;
use crate::image::{self, ANSWER, SCRATCH, WORDS};
use crate::mesh;
use crate::value::{ask, Answer, Block, No, Point, Site, Viewers, RACK};

/// The oracle as numbers: 0 every volume, 1 the box, 2 the plane `axis` at the first float.
#[derive(Clone, Copy, PartialEq, Eq, Debug)]
pub struct OracleNumbers {
    pub oracle: u32,
    pub axis: u32,
    /// Bit patterns of x0, y0, z0, x1, y1, z1.
    pub floats: [u64; 6],
}

impl OracleNumbers {
    /// Any other oracle number is none.
    pub fn oracle(&self) -> Option<Oracle> {
        let [x0, y0, z0, x1, y1, z1] = self.floats;
        match self.oracle {
            0 => Some(Oracle::Every),
            1 => Some(Oracle::Box { low: Point([x0, y0, z0]), high: Point([x1, y1, z1]) }),
            2 => Some(Oracle::Plane { axis: self.axis, value: f64::from_bits(x0) }),
            _ => None,
        }
    }
}

/// The calls in the shapes of the C interface; those on one block are the rack's or a viewer's. Implementations are compared
/// through it.
pub trait Core {
    fn empty(&self, site: Site, number: u64, block: &mut [u64]) -> u32;
    fn read_file(&self, site: Site, file: &[u8], block: &mut [u64]) -> u32;
    fn save_file(&self, site: Site, block: &[u64], out: &mut [u8], written: &mut u64) -> u32;
    fn send(&self, site: Site, block: &[u64], to: u64, serial: u64, outbox: &mut [u8], written: &mut u64) -> u32;
    fn receive(&self, site: Site, block: &mut [u64], message: &[u8]) -> u32;
    fn release(&self, site: Site, block: &mut [u64], to: u64, serial: u64) -> u32;
    fn redirect(&self, site: Site, block: &mut [u64], message: &[u8]) -> u32;
    fn check_mesh(&self, mesh: &[u64], viewers: Viewers, scratch: &mut [u64]) -> u32;
    fn next_move(
        &self,
        mesh: &[u64],
        viewers: Viewers,
        oracle: &OracleNumbers,
        scratch: &mut [u64],
        answer: &mut [u64],
    ) -> u32;
    fn write_pages(&self, site: Site, block: &[u64], out: &mut [u8], written: &mut u64) -> u32;
    fn read_pages(&self, site: Site, pages: &[u8], block: &mut [u64]) -> u32;
}

/// This implementation, on values.
pub struct Peer;

/// Questions 1 and 2 of a call on one block.
fn lent_block(site: Site, words: &[u64]) -> Answer<Block> {
    ask(1, words.len() == site.words())?;
    image::sound_block(words, site.limits()).ok_or(No(2))
}

/// Questions 1 and 2 of a call on a mesh: 2 for any block comes before 23, so a block is a viewer's by the number that its
/// image tells, wherever it stands.
fn lent_mesh(mesh: &[u64], viewers: Viewers, scratch: &[u64]) -> Answer<Vec<Block>> {
    ask(1, mesh.len().is_multiple_of(WORDS) && scratch.len() == SCRATCH && scratch.iter().all(|entry| *entry == 0))?;
    mesh.chunks_exact(WORDS)
        .map(|words| {
            let sound = image::sound_block(words, RACK);
            sound.filter(|block| block.darts.len() <= viewers.darts(block.number.into())).ok_or(No(2))
        })
        .collect()
}

/// The number of an answer; what is served goes to `keep`.
fn finish<T>(answer: Answer<T>, keep: impl FnOnce(T)) -> u32 {
    match answer {
        Ok(served) => {
            keep(served);
            0
        }
        Err(No(number)) => number,
    }
}

/// Copies served bytes to the front of the lent ones; bytes past them stay.
fn put_bytes(bytes: &[u8], out: &mut [u8], written: &mut u64) {
    if let Some(front) = out.get_mut(..bytes.len()) {
        front.copy_from_slice(bytes);
        *written = bytes.len() as u64;
    }
}

/// The answer of a next move as words.
pub fn answer_words(next: &NextMove) -> [u64; ANSWER] {
    let mut words = [0; ANSWER];
    match next.choice {
        Choice::Level => {}
        Choice::Blocked => words[0] = 1,
        Choice::Move { donor, recipient, serial } => {
            words[..4].copy_from_slice(&[2, u64::from(donor), u64::from(recipient), u64::from(serial)]);
        }
    }
    words[4] = u64::from(next.mean);
    for (word, surplus) in words[5..].iter_mut().zip(next.surplus) {
        // Two's complement: the sign goes through all 64 bits.
        *word = i64::from(surplus) as u64;
    }
    words
}

impl Core for Peer {
    fn empty(&self, site: Site, number: u64, block: &mut [u64]) -> u32 {
        let answer = ask(1, block.len() == site.words()).and_then(|()| calls::empty(number));
        finish(answer, |after| image::put(&after, block))
    }

    fn read_file(&self, site: Site, file: &[u8], block: &mut [u64]) -> u32 {
        let answer = ask(1, block.len() == site.words()).and_then(|()| calls::read_file(site.limits(), file));
        finish(answer, |after| image::put(&after, block))
    }

    fn save_file(&self, site: Site, block: &[u64], out: &mut [u8], written: &mut u64) -> u32 {
        let answer = lent_block(site, block).and_then(|block| calls::save_file(&block, out.len()));
        finish(answer, |bytes| put_bytes(&bytes, out, written))
    }

    fn send(&self, site: Site, block: &[u64], to: u64, serial: u64, outbox: &mut [u8], written: &mut u64) -> u32 {
        let limits = site.limits();
        let answer = lent_block(site, block).and_then(|block| calls::send(limits, &block, to, serial, outbox.len()));
        finish(answer, |bytes| put_bytes(&bytes, outbox, written))
    }

    fn receive(&self, site: Site, block: &mut [u64], message: &[u8]) -> u32 {
        let answer = lent_block(site, block).and_then(|block| calls::receive(site.limits(), &block, message));
        finish(answer, |after| image::put(&after, block))
    }

    fn release(&self, site: Site, block: &mut [u64], to: u64, serial: u64) -> u32 {
        let answer = lent_block(site, block).and_then(|block| calls::release(site.limits(), &block, to, serial));
        finish(answer, |after| image::put(&after, block))
    }

    fn redirect(&self, site: Site, block: &mut [u64], message: &[u8]) -> u32 {
        let answer = lent_block(site, block).and_then(|block| calls::redirect(&block, message));
        finish(answer, |after| image::put(&after, block))
    }

    fn check_mesh(&self, mesh: &[u64], viewers: Viewers, scratch: &mut [u64]) -> u32 {
        let answer = lent_mesh(mesh, viewers, scratch).and_then(|blocks| mesh::check(&blocks));
        finish(answer, |()| ())
    }

    fn next_move(
        &self,
        mesh: &[u64],
        viewers: Viewers,
        oracle: &OracleNumbers,
        scratch: &mut [u64],
        answer: &mut [u64],
    ) -> u32 {
        let served =
            ask(1, answer.len() == ANSWER).and_then(|()| lent_mesh(mesh, viewers, scratch)).and_then(|blocks| {
                mesh::check(&blocks)?;
                // Question 28: an unknown oracle is refused like a wrong one.
                let oracle = oracle.oracle().filter(Oracle::is_right).ok_or(No(28))?;
                Ok(balance::by_rule(&blocks, viewers, &oracle))
            });
        finish(served, |next| answer.copy_from_slice(&answer_words(&next)))
    }

    fn write_pages(&self, site: Site, block: &[u64], out: &mut [u8], written: &mut u64) -> u32 {
        let answer = lent_block(site, block).and_then(|block| calls::write_pages(&block, out.len()));
        finish(answer, |bytes| put_bytes(&bytes, out, written))
    }

    fn read_pages(&self, site: Site, pages: &[u8], block: &mut [u64]) -> u32 {
        let answer = ask(1, block.len() == site.words()).and_then(|()| calls::read_pages(site.limits(), pages));
        finish(answer, |after| image::put(&after, block))
    }
}
