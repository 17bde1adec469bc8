//! A core that differs from the peer in some of its calls.

use peer::lent::{Core, OracleNumbers, Peer};
use peer::value::{Site, Viewers};

pub struct Variant {
    pub empty: fn(Site, u64, &mut [u64]) -> u32,
    pub read_file: fn(Site, &[u8], &mut [u64]) -> u32,
    pub save_file: fn(Site, &[u64], &mut [u8], &mut u64) -> u32,
    pub send: fn(Site, &[u64], u64, u64, &mut [u8], &mut u64) -> u32,
    pub receive: fn(Site, &mut [u64], &[u8]) -> u32,
    pub release: fn(Site, &mut [u64], u64, u64) -> u32,
    pub redirect: fn(Site, &mut [u64], &[u8]) -> u32,
    pub check_mesh: fn(&[u64], Viewers, &mut [u64]) -> u32,
    pub next_move: fn(&[u64], Viewers, &OracleNumbers, &mut [u64], &mut [u64]) -> u32,
    pub write_pages: fn(Site, &[u64], &mut [u8], &mut u64) -> u32,
    pub read_pages: fn(Site, &[u8], &mut [u64]) -> u32,
}

pub const RIGHT: Variant = Variant {
    empty: |site, number, block| Peer.empty(site, number, block),
    read_file: |site, file, block| Peer.read_file(site, file, block),
    save_file: |site, block, out, written| Peer.save_file(site, block, out, written),
    send: |site, block, to, serial, outbox, written| Peer.send(site, block, to, serial, outbox, written),
    receive: |site, block, message| Peer.receive(site, block, message),
    release: |site, block, to, serial| Peer.release(site, block, to, serial),
    redirect: |site, block, message| Peer.redirect(site, block, message),
    check_mesh: |mesh, viewers, scratch| Peer.check_mesh(mesh, viewers, scratch),
    next_move: |mesh, viewers, oracle, scratch, answer| Peer.next_move(mesh, viewers, oracle, scratch, answer),
    write_pages: |site, block, out, written| Peer.write_pages(site, block, out, written),
    read_pages: |site, pages, block| Peer.read_pages(site, pages, block),
};

impl Core for Variant {
    fn empty(&self, site: Site, number: u64, block: &mut [u64]) -> u32 {
        (self.empty)(site, number, block)
    }
    fn read_file(&self, site: Site, file: &[u8], block: &mut [u64]) -> u32 {
        (self.read_file)(site, file, block)
    }
    fn save_file(&self, site: Site, block: &[u64], out: &mut [u8], written: &mut u64) -> u32 {
        (self.save_file)(site, block, out, written)
    }
    fn send(&self, site: Site, block: &[u64], to: u64, serial: u64, outbox: &mut [u8], written: &mut u64) -> u32 {
        (self.send)(site, block, to, serial, outbox, written)
    }
    fn receive(&self, site: Site, block: &mut [u64], message: &[u8]) -> u32 {
        (self.receive)(site, block, message)
    }
    fn release(&self, site: Site, block: &mut [u64], to: u64, serial: u64) -> u32 {
        (self.release)(site, block, to, serial)
    }
    fn redirect(&self, site: Site, block: &mut [u64], message: &[u8]) -> u32 {
        (self.redirect)(site, block, message)
    }
    fn check_mesh(&self, mesh: &[u64], viewers: Viewers, scratch: &mut [u64]) -> u32 {
        (self.check_mesh)(mesh, viewers, scratch)
    }
    fn next_move(
        &self,
        mesh: &[u64],
        viewers: Viewers,
        oracle: &OracleNumbers,
        scratch: &mut [u64],
        answer: &mut [u64],
    ) -> u32 {
        (self.next_move)(mesh, viewers, oracle, scratch, answer)
    }
    fn write_pages(&self, site: Site, block: &[u64], out: &mut [u8], written: &mut u64) -> u32 {
        (self.write_pages)(site, block, out, written)
    }
    fn read_pages(&self, site: Site, pages: &[u8], block: &mut [u64]) -> u32 {
        (self.read_pages)(site, pages, block)
    }
}
