//! A round from Rust: P moves from block 0 to block 1, and the mesh is sound before and after. The argument is P's file.

const WORDS: usize = 32776;

// The C names of the archive: 0, or the number of the question that refused; a refused call leaves what was lent.
#[link(name = "dmap", kind = "static")]
extern "C" {
    fn dmap_empty(number: u64, block: *mut u64, words: usize) -> u32;
    fn dmap_read_file(file: *const u8, bytes: usize, block: *mut u64, words: usize) -> u32;
    fn dmap_save_file(block: *const u64, words: usize, out: *mut u8, room: usize, written: *mut u64) -> u32;
    fn dmap_send(block: *const u64, words: usize, to: u64, serial: u64, outbox: *mut u8, room: usize, written: *mut u64) -> u32;
    fn dmap_receive(block: *mut u64, words: usize, message: *const u8, bytes: usize) -> u32;
    fn dmap_release(block: *mut u64, words: usize, to: u64, serial: u64) -> u32;
    fn dmap_check_mesh(mesh: *const u64, words: usize, viewers: u32, scratch: *mut u64, entries: usize) -> u32;
}

/// Blocks in a row. The pointers below lead to whole slices and never overlap: all that the calls ask of their caller.
struct Mesh(Vec<u64>);

impl Mesh {
    fn block(&mut self, number: usize) -> &mut [u64] {
        &mut self.0[number * WORDS..(number + 1) * WORDS]
    }

    fn check(&self) -> u32 {
        let mut scratch = vec![0; 65536];
        unsafe { dmap_check_mesh(self.0.as_ptr(), self.0.len(), 0, scratch.as_mut_ptr(), scratch.len()) }
    }

    fn empty(&mut self, number: usize) -> u32 {
        unsafe { dmap_empty(number as u64, self.block(number).as_mut_ptr(), WORDS) }
    }

    fn read_file(&mut self, number: usize, file: &[u8]) -> u32 {
        unsafe { dmap_read_file(file.as_ptr(), file.len(), self.block(number).as_mut_ptr(), WORDS) }
    }

    fn save_file(&mut self, number: usize, out: &mut [u8]) -> Result<usize, u32> {
        let mut written = 0;
        let answer = unsafe { dmap_save_file(self.block(number).as_ptr(), WORDS, out.as_mut_ptr(), out.len(), &mut written) };
        if answer == 0 { Ok(written as usize) } else { Err(answer) }
    }

    fn send(&mut self, from: usize, to: u64, serial: u64, outbox: &mut [u8]) -> Result<usize, u32> {
        let mut written = 0;
        let block = self.block(from);
        let answer = unsafe { dmap_send(block.as_ptr(), WORDS, to, serial, outbox.as_mut_ptr(), outbox.len(), &mut written) };
        if answer == 0 { Ok(written as usize) } else { Err(answer) }
    }

    fn receive(&mut self, to: usize, message: &[u8]) -> u32 {
        unsafe { dmap_receive(self.block(to).as_mut_ptr(), WORDS, message.as_ptr(), message.len()) }
    }

    fn release(&mut self, from: usize, to: u64, serial: u64) -> u32 {
        unsafe { dmap_release(self.block(from).as_mut_ptr(), WORDS, to, serial) }
    }
}

fn main() {
    let file = std::env::args().nth(1).and_then(|path| std::fs::read(path).ok()).expect("usage: transfer FILE");
    let mut mesh = Mesh(vec![0; 2 * WORDS]);
    let mut outbox = vec![0u8; 65536];

    println!("a file with a byte missing: {}", mesh.read_file(0, &file[..file.len() - 1]));
    println!("P's file: {}", mesh.read_file(0, &file));
    println!("empty block 1: {}", mesh.empty(1));
    println!("check mesh: {}", mesh.check());

    println!("send P to its own block: {:?}", mesh.send(0, 0, 1, &mut outbox));
    println!("send P, 94 bytes of room: {:?}", mesh.send(0, 1, 1, &mut outbox[..94]));
    let sent = mesh.send(0, 1, 1, &mut outbox).expect("P may go");
    println!("send P to block 1: {sent} bytes");

    // P has no relatives: what was sent is the transfer alone. Block 1 takes it before block 0 lets the volume go.
    println!("receive P at block 0: {}", mesh.receive(0, &outbox[..sent]));
    println!("receive P: {}", mesh.receive(1, &outbox[..sent]));
    println!("check mesh, P in both: {}", mesh.check());
    println!("release P: {}", mesh.release(0, 1, 1));
    println!("check mesh: {}", mesh.check());
    println!("block 0 has {} darts, block 1 has {}", mesh.0[2], mesh.0[WORDS + 2]);
    let length = mesh.save_file(1, &mut outbox).expect("a sound block has a file");
    println!("the file of block 1: {length} bytes");
}
