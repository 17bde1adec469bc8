//! Records of the vector files, read by the format of README.md alone.

use peer::cases::{Call, Case};
use peer::image::ANSWER;
use peer::lent::OracleNumbers;
use peer::value::Viewers;

pub struct Reader<'a> {
    pub bytes: &'a [u8],
}

impl<'a> Reader<'a> {
    pub fn take(&mut self, count: usize) -> &'a [u8] {
        let (front, rest) = self.bytes.split_at(count);
        self.bytes = rest;
        front
    }

    fn u32(&mut self) -> usize {
        u32::from_le_bytes(self.take(4).try_into().unwrap()) as usize
    }

    fn u64(&mut self) -> u64 {
        u64::from_le_bytes(self.take(8).try_into().unwrap())
    }

    pub fn bytes(&mut self) -> Vec<u8> {
        let length = self.u32();
        self.take(length).to_vec()
    }

    fn runs(&mut self, words: &mut [u64]) {
        for _ in 0..self.u32() {
            let (start, count) = (self.u32(), self.u32());
            for word in &mut words[start..start + count] {
                let mut low = [0; 8];
                let count = usize::from(self.take(1)[0]);
                low[..count].copy_from_slice(self.take(count));
                *word = u64::from_le_bytes(low);
            }
        }
    }

    fn memory(&mut self) -> Vec<u64> {
        let mut words = vec![0; self.u32()];
        self.runs(&mut words);
        words
    }

    /// Memory before and after.
    fn changed(&mut self) -> (Vec<u64>, Vec<u64>) {
        let before = self.memory();
        let mut after = before.clone();
        self.runs(&mut after);
        (before, after)
    }

    /// Lent bytes before and after, and how many were written.
    fn room(&mut self) -> (Vec<u8>, Vec<u8>, u64) {
        let room = self.u32();
        let fill = self.take(1)[0];
        let written = self.bytes();
        let mut after = vec![fill; room];
        after[..written.len()].copy_from_slice(&written);
        (vec![fill; room], after, written.len() as u64)
    }

    /// Text behind its length and that of its pieces.
    fn packed(&mut self) -> Vec<u8> {
        let length = self.u32();
        let packed = self.bytes();
        let mut pieces = Reader { bytes: &packed };
        let mut text = Vec::new();
        while !pieces.bytes.is_empty() {
            match usize::from(pieces.take(1)[0]) {
                n @ 0..128 => text.extend_from_slice(pieces.take(n + 1)),
                n => text.resize(text.len() + n - 127, b' '),
            }
        }
        assert_eq!(text.len(), length);
        text
    }
}

/// The case of a record, the answer and the case after the call.
pub fn parse(call: Call, bytes: &[u8]) -> (Case, u32, Case) {
    const UNWRITTEN: u64 = 99;
    let mut r = Reader { bytes };
    let answer = r.u32() as u32;
    let after_writing = |length: u64| if answer == 0 { length } else { UNWRITTEN };
    let site = call.site();
    let (before, after) = match call.on_the_rack() {
        Call::Empty => {
            let number = r.u64();
            let (block, end) = r.changed();
            (Case::Empty { site, number, block }, Case::Empty { site, number, block: end })
        }
        Call::ReadFile => {
            let file = r.bytes();
            let (block, end) = r.changed();
            (Case::ReadFile { site, file: file.clone(), block }, Case::ReadFile { site, file, block: end })
        }
        Call::SaveFile => {
            let block = r.memory();
            let (out, end, length) = r.room();
            let written = after_writing(length);
            (
                Case::SaveFile { site, block: block.clone(), out, written: UNWRITTEN },
                Case::SaveFile { site, block, out: end, written },
            )
        }
        Call::Send => {
            let (to, serial) = (r.u64(), r.u64());
            let block = r.memory();
            let (outbox, end, length) = r.room();
            let written = after_writing(length);
            (
                Case::Send { site, block: block.clone(), to, serial, outbox, written: UNWRITTEN },
                Case::Send { site, block, to, serial, outbox: end, written },
            )
        }
        Call::Receive => {
            let message = r.bytes();
            let (block, end) = r.changed();
            (Case::Receive { site, block, message: message.clone() }, Case::Receive { site, block: end, message })
        }
        Call::Redirect => {
            let message = r.bytes();
            let (block, end) = r.changed();
            (Case::Redirect { site, block, message: message.clone() }, Case::Redirect { site, block: end, message })
        }
        Call::Release => {
            let (to, serial) = (r.u64(), r.u64());
            let (block, end) = r.changed();
            (Case::Release { site, block, to, serial }, Case::Release { site, block: end, to, serial })
        }
        Call::CheckMesh => {
            let viewers = Viewers(r.u32() as u32);
            let case = Case::CheckMesh { viewers, mesh: r.memory(), scratch: r.memory() };
            (case.clone(), case)
        }
        Call::NextMove => {
            let viewers = Viewers(r.u32() as u32);
            let (oracle, axis) = (r.u32() as u32, r.u32() as u32);
            let floats = [0; 6].map(|_| r.u64());
            let oracle = OracleNumbers { oracle, axis, floats };
            let (mesh, scratch) = (r.memory(), r.memory());
            let room = r.u32();
            let words: Vec<u64> = (0..ANSWER).map(|_| r.u64()).collect();
            let stale = vec![UNWRITTEN; room];
            let end = if answer == 0 { words } else { stale.clone() };
            (
                Case::NextMove { mesh: mesh.clone(), viewers, oracle, scratch: scratch.clone(), answer: stale },
                Case::NextMove { mesh, viewers, oracle, scratch, answer: end },
            )
        }
        Call::WritePages => {
            let block = r.memory();
            let room = r.u32();
            let fill = r.take(1)[0];
            let pages = r.packed();
            let mut end = vec![fill; room];
            end[..pages.len()].copy_from_slice(&pages);
            let (out, written) = (vec![fill; room], after_writing(pages.len() as u64));
            (
                Case::WritePages { site, block: block.clone(), out, written: UNWRITTEN },
                Case::WritePages { site, block, out: end, written },
            )
        }
        Call::ReadPages => {
            let pages = r.packed();
            let (block, end) = r.changed();
            (Case::ReadPages { site, pages: pages.clone(), block }, Case::ReadPages { site, pages, block: end })
        }
        viewer => panic!("{viewer:?} is not the rack's"),
    };
    assert!(r.bytes.is_empty());
    (before, answer, after)
}
