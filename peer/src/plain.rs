//! A plain, fast version of the calls, directly on the memory image: the baseline for speed. It answers
//! and writes exactly what the value version does.

mod cell;
mod file;
mod inbox;
mod mesh;
mod outbox;
mod pages;
mod sound;

use crate::image::{ANSWER, RECORD};
use crate::lent::{Core, OracleNumbers};
use crate::value::{Site, Viewers, MAX_DARTS, VIEWER_DARTS};
use cell::Cell;
use inbox::Inbox;
use sound::Work;
use std::cell::RefCell;

pub use sound::{Record, Work as SoundWork};

/// What the calls need beside the lent memory; kept between calls so that none starts by clearing it.
pub struct Room {
    work: Work,
    cell: Cell,
    inbox: Inbox,
    out: outbox::Out,
    tables: mesh::Tables,
    files: file::Files,
}

thread_local! {
    static ROOM: RefCell<Box<Room>> = RefCell::new(Box::new(Room {
        work: Work::new(),
        cell: Cell::new(),
        inbox: Inbox::new(),
        out: outbox::Out::new(),
        tables: mesh::Tables::default(),
        files: file::Files::new(),
    }));
}

/// Question 2 on memory of the rack's size.
pub fn is_sound(words: &[u64]) -> bool {
    ROOM.with_borrow_mut(|room| sound::is_sound::<MAX_DARTS>(words, &mut room.work))
}

/// The plain implementation.
pub struct Plain;

/// Questions 1 and 2 of D darts, then the rest.
fn on_block<const D: usize>(words: &[u64], rest: impl FnOnce(&mut Room) -> u32) -> u32 {
    if words.len() != RECORD + RECORD * D {
        return 1;
    }
    ROOM.with_borrow_mut(|room| if sound::is_sound::<D>(words, &mut room.work) { rest(room) } else { 2 })
}

/// The same of a block that is changed.
fn on_block_mut<const D: usize>(words: &mut [u64], rest: impl FnOnce(&mut Room, &mut [u64]) -> u32) -> u32 {
    if words.len() != RECORD + RECORD * D {
        return 1;
    }
    ROOM.with_borrow_mut(|room| if sound::is_sound::<D>(words, &mut room.work) { rest(room, words) } else { 2 })
}

fn read_file<const D: usize>(file: &[u8], block: &mut [u64]) -> u32 {
    if block.len() != RECORD + RECORD * D {
        return 1;
    }
    ROOM.with_borrow_mut(|room| file::read::<D>(file, block, &mut room.work, &mut room.files))
}

fn save_file<const D: usize>(block: &[u64], out: &mut [u8], written: &mut u64) -> u32 {
    on_block::<D>(block, |room| file::save::<D>(block, &mut room.out, out, written))
}

fn send<const D: usize>(block: &[u64], to: u64, serial: u64, outbox: &mut [u8], written: &mut u64) -> u32 {
    on_block::<D>(block, |room| match cell::departure::<D>(block, to, serial, &mut room.cell) {
        0 => outbox::send::<D>(block, to, &room.cell, &mut room.out, outbox, written),
        refused => refused,
    })
}

fn receive<const D: usize>(block: &mut [u64], message: &[u8]) -> u32 {
    on_block_mut::<D>(block, |room, block| inbox::receive::<D>(block, message, &mut room.work, &mut room.inbox))
}

fn release<const D: usize>(block: &mut [u64], to: u64, serial: u64) -> u32 {
    on_block_mut::<D>(block, |room, block| match cell::departure::<D>(block, to, serial, &mut room.cell) {
        0 => {
            cell::remove::<D>(block, to, &mut room.cell);
            0
        }
        refused => refused,
    })
}

fn redirect<const D: usize>(block: &mut [u64], message: &[u8]) -> u32 {
    on_block_mut::<D>(block, |room, block| inbox::redirect::<D>(block, message, &room.work, &mut room.inbox))
}

fn write_pages<const D: usize>(block: &[u64], out: &mut [u8], written: &mut u64) -> u32 {
    on_block::<D>(block, |_| pages::write::<D>(block, out, written))
}

fn read_pages<const D: usize>(bytes: &[u8], block: &mut [u64]) -> u32 {
    if block.len() != RECORD + RECORD * D {
        return 1;
    }
    ROOM.with_borrow_mut(|room| pages::read::<D>(bytes, block, &mut room.work, &mut room.files))
}

impl Core for Plain {
    fn empty(&self, site: Site, number: u64, block: &mut [u64]) -> u32 {
        if block.len() != site.words() {
            return 1;
        }
        file::empty(number, block)
    }

    fn read_file(&self, site: Site, file: &[u8], block: &mut [u64]) -> u32 {
        match site {
            Site::Rack => read_file::<MAX_DARTS>(file, block),
            Site::Viewer => read_file::<VIEWER_DARTS>(file, block),
        }
    }

    fn save_file(&self, site: Site, block: &[u64], out: &mut [u8], written: &mut u64) -> u32 {
        match site {
            Site::Rack => save_file::<MAX_DARTS>(block, out, written),
            Site::Viewer => save_file::<VIEWER_DARTS>(block, out, written),
        }
    }

    fn send(&self, site: Site, block: &[u64], to: u64, serial: u64, outbox: &mut [u8], written: &mut u64) -> u32 {
        match site {
            Site::Rack => send::<MAX_DARTS>(block, to, serial, outbox, written),
            Site::Viewer => send::<VIEWER_DARTS>(block, to, serial, outbox, written),
        }
    }

    fn receive(&self, site: Site, block: &mut [u64], message: &[u8]) -> u32 {
        match site {
            Site::Rack => receive::<MAX_DARTS>(block, message),
            Site::Viewer => receive::<VIEWER_DARTS>(block, message),
        }
    }

    fn release(&self, site: Site, block: &mut [u64], to: u64, serial: u64) -> u32 {
        match site {
            Site::Rack => release::<MAX_DARTS>(block, to, serial),
            Site::Viewer => release::<VIEWER_DARTS>(block, to, serial),
        }
    }

    fn redirect(&self, site: Site, block: &mut [u64], message: &[u8]) -> u32 {
        match site {
            Site::Rack => redirect::<MAX_DARTS>(block, message),
            Site::Viewer => redirect::<VIEWER_DARTS>(block, message),
        }
    }

    fn check_mesh(&self, mesh: &[u64], viewers: Viewers, scratch: &mut [u64]) -> u32 {
        ROOM.with_borrow_mut(|room| mesh::check(mesh, viewers, scratch, &mut room.work, &mut room.tables))
    }

    fn next_move(
        &self,
        mesh: &[u64],
        viewers: Viewers,
        oracle: &OracleNumbers,
        scratch: &mut [u64],
        answer: &mut [u64],
    ) -> u32 {
        if answer.len() != ANSWER {
            return 1;
        }
        ROOM.with_borrow_mut(|room| {
            let Room { work, tables, cell, .. } = &mut **room;
            mesh::next_move(mesh, viewers, oracle, scratch, answer, mesh::Desk { work, tables, cell })
        })
    }

    fn write_pages(&self, site: Site, block: &[u64], out: &mut [u8], written: &mut u64) -> u32 {
        match site {
            Site::Rack => write_pages::<MAX_DARTS>(block, out, written),
            Site::Viewer => write_pages::<VIEWER_DARTS>(block, out, written),
        }
    }

    fn read_pages(&self, site: Site, pages: &[u8], block: &mut [u64]) -> u32 {
        match site {
            Site::Rack => read_pages::<MAX_DARTS>(pages, block),
            Site::Viewer => read_pages::<VIEWER_DARTS>(pages, block),
        }
    }
}
