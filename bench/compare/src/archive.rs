//! The archive's calls by their C names, on whole slices that do not overlap: all that they ask of a caller.

use peer::lent::{Core, OracleNumbers};
use peer::value::{Site, Viewers};

pub struct Archive;

type Empty = unsafe extern "C" fn(number: u64, block: *mut u64, words: usize) -> u32;
type Read = unsafe extern "C" fn(text: *const u8, bytes: usize, block: *mut u64, words: usize) -> u32;
type Write = unsafe extern "C" fn(block: *const u64, words: usize, out: *mut u8, room: usize, written: *mut u64) -> u32;
type Send = unsafe extern "C" fn(
    block: *const u64,
    words: usize,
    to: u64,
    serial: u64,
    outbox: *mut u8,
    room: usize,
    written: *mut u64,
) -> u32;
type Inbox = unsafe extern "C" fn(block: *mut u64, words: usize, message: *const u8, bytes: usize) -> u32;
type Release = unsafe extern "C" fn(block: *mut u64, words: usize, to: u64, serial: u64) -> u32;

extern "C" {
    fn dmap_empty(number: u64, block: *mut u64, words: usize) -> u32;
    fn dmap_read_file(file: *const u8, bytes: usize, block: *mut u64, words: usize) -> u32;
    fn dmap_save_file(block: *const u64, words: usize, out: *mut u8, room: usize, written: *mut u64) -> u32;
    fn dmap_send(
        block: *const u64,
        words: usize,
        to: u64,
        serial: u64,
        outbox: *mut u8,
        room: usize,
        written: *mut u64,
    ) -> u32;
    fn dmap_receive(block: *mut u64, words: usize, message: *const u8, bytes: usize) -> u32;
    fn dmap_release(block: *mut u64, words: usize, to: u64, serial: u64) -> u32;
    fn dmap_redirect(block: *mut u64, words: usize, message: *const u8, bytes: usize) -> u32;
    fn dmap_viewer_empty(number: u64, block: *mut u64, words: usize) -> u32;
    fn dmap_viewer_read_file(file: *const u8, bytes: usize, block: *mut u64, words: usize) -> u32;
    fn dmap_viewer_save_file(block: *const u64, words: usize, out: *mut u8, room: usize, written: *mut u64) -> u32;
    fn dmap_viewer_send(
        block: *const u64,
        words: usize,
        to: u64,
        serial: u64,
        outbox: *mut u8,
        room: usize,
        written: *mut u64,
    ) -> u32;
    fn dmap_viewer_receive(block: *mut u64, words: usize, message: *const u8, bytes: usize) -> u32;
    fn dmap_viewer_release(block: *mut u64, words: usize, to: u64, serial: u64) -> u32;
    fn dmap_viewer_redirect(block: *mut u64, words: usize, message: *const u8, bytes: usize) -> u32;
    fn dmap_check_mesh(mesh: *const u64, words: usize, viewers: u32, scratch: *mut u64, entries: usize) -> u32;
    fn dmap_next_move(
        mesh: *const u64,
        words: usize,
        viewers: u32,
        oracle: u32,
        axis: u32,
        x0: f64,
        y0: f64,
        z0: f64,
        x1: f64,
        y1: f64,
        z1: f64,
        scratch: *mut u64,
        entries: usize,
        answer: *mut u64,
        answer_words: usize,
    ) -> u32;
    fn dmap_write_pages(block: *const u64, words: usize, out: *mut u8, room: usize, written: *mut u64) -> u32;
    fn dmap_read_pages(pages: *const u8, bytes: usize, block: *mut u64, words: usize) -> u32;
    fn dmap_viewer_write_pages(block: *const u64, words: usize, out: *mut u8, room: usize, written: *mut u64) -> u32;
    fn dmap_viewer_read_pages(pages: *const u8, bytes: usize, block: *mut u64, words: usize) -> u32;
}

/// The C name of a call by whose it is.
fn of<F>(site: Site, rack: F, viewer: F) -> F {
    match site {
        Site::Rack => rack,
        Site::Viewer => viewer,
    }
}

impl Core for Archive {
    fn empty(&self, site: Site, number: u64, block: &mut [u64]) -> u32 {
        let call = of::<Empty>(site, dmap_empty, dmap_viewer_empty);
        unsafe { call(number, block.as_mut_ptr(), block.len()) }
    }

    fn read_file(&self, site: Site, file: &[u8], block: &mut [u64]) -> u32 {
        let call = of::<Read>(site, dmap_read_file, dmap_viewer_read_file);
        unsafe { call(file.as_ptr(), file.len(), block.as_mut_ptr(), block.len()) }
    }

    fn save_file(&self, site: Site, block: &[u64], out: &mut [u8], written: &mut u64) -> u32 {
        let call = of::<Write>(site, dmap_save_file, dmap_viewer_save_file);
        unsafe { call(block.as_ptr(), block.len(), out.as_mut_ptr(), out.len(), written) }
    }

    fn send(&self, site: Site, block: &[u64], to: u64, serial: u64, outbox: &mut [u8], written: &mut u64) -> u32 {
        let call = of::<Send>(site, dmap_send, dmap_viewer_send);
        unsafe { call(block.as_ptr(), block.len(), to, serial, outbox.as_mut_ptr(), outbox.len(), written) }
    }

    fn receive(&self, site: Site, block: &mut [u64], message: &[u8]) -> u32 {
        let call = of::<Inbox>(site, dmap_receive, dmap_viewer_receive);
        unsafe { call(block.as_mut_ptr(), block.len(), message.as_ptr(), message.len()) }
    }

    fn release(&self, site: Site, block: &mut [u64], to: u64, serial: u64) -> u32 {
        let call = of::<Release>(site, dmap_release, dmap_viewer_release);
        unsafe { call(block.as_mut_ptr(), block.len(), to, serial) }
    }

    fn redirect(&self, site: Site, block: &mut [u64], message: &[u8]) -> u32 {
        let call = of::<Inbox>(site, dmap_redirect, dmap_viewer_redirect);
        unsafe { call(block.as_mut_ptr(), block.len(), message.as_ptr(), message.len()) }
    }

    fn check_mesh(&self, mesh: &[u64], viewers: Viewers, scratch: &mut [u64]) -> u32 {
        unsafe { dmap_check_mesh(mesh.as_ptr(), mesh.len(), viewers.0, scratch.as_mut_ptr(), scratch.len()) }
    }

    fn next_move(
        &self,
        mesh: &[u64],
        viewers: Viewers,
        oracle: &OracleNumbers,
        scratch: &mut [u64],
        answer: &mut [u64],
    ) -> u32 {
        let [x0, y0, z0, x1, y1, z1] = oracle.floats.map(f64::from_bits);
        let (at, entries) = (scratch.as_mut_ptr(), scratch.len());
        let (told, answer_words) = (answer.as_mut_ptr(), answer.len());
        unsafe {
            dmap_next_move(
                mesh.as_ptr(),
                mesh.len(),
                viewers.0,
                oracle.oracle,
                oracle.axis,
                x0,
                y0,
                z0,
                x1,
                y1,
                z1,
                at,
                entries,
                told,
                answer_words,
            )
        }
    }

    fn write_pages(&self, site: Site, block: &[u64], out: &mut [u8], written: &mut u64) -> u32 {
        let call = of::<Write>(site, dmap_write_pages, dmap_viewer_write_pages);
        unsafe { call(block.as_ptr(), block.len(), out.as_mut_ptr(), out.len(), written) }
    }

    fn read_pages(&self, site: Site, pages: &[u8], block: &mut [u64]) -> u32 {
        let call = of::<Read>(site, dmap_read_pages, dmap_viewer_read_pages);
        unsafe { call(pages.as_ptr(), pages.len(), block.as_mut_ptr(), block.len()) }
    }
}
