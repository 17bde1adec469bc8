//! The calls on one block, and whole rounds over three.

use crate::clock::{median, now};
use crate::table::Times;
use crate::SHUFFLES;
use compare::archive::Archive;
use peer::image;
use peer::lent::Core;
use peer::message;
use peer::plain::Plain;
use peer::scenes::{self, Round};
use peer::value::Site;
use std::hint::black_box;

/// Bytes that are enough for the pages of every block.
const ROOM: usize = 340_200;

/// Blocks before a call, what is sent in the round from 0 to 1, the file and the pages of block 0.
struct Setting {
    round: Round,
    messages: Vec<Vec<u8>>,
    file: Vec<u8>,
    pages: Vec<u8>,
}

/// What a call works on: blocks 0, 1 and 2, and room for bytes.
struct Lent {
    site: Site,
    blocks: Vec<Vec<u64>>,
    bytes: Vec<u8>,
    written: u64,
}

/// A call, and the answer that it gives.
pub struct Call {
    pub name: &'static str,
    pub of_a_cell: bool,
    answer: u32,
    /// The blocks that it works on.
    blocks: &'static [usize],
    make: fn(&dyn Core, &mut Lent, &Setting) -> u32,
}

pub const ROUND: &str = "whole round";

pub const CALLS: [Call; 11] = [
    Call { name: "question 2", of_a_cell: false, answer: 16, blocks: &[0], make: question_2 },
    Call {
        name: "empty",
        of_a_cell: false,
        answer: 0,
        blocks: &[0],
        make: |core, lent, _| core.empty(lent.site, 7, &mut lent.blocks[0]),
    },
    Call {
        name: "read file",
        of_a_cell: false,
        answer: 0,
        blocks: &[0],
        make: |core, lent, setting| core.read_file(lent.site, &setting.file, &mut lent.blocks[0]),
    },
    Call {
        name: "save file",
        of_a_cell: false,
        answer: 0,
        blocks: &[0],
        make: |core, lent, _| core.save_file(lent.site, &lent.blocks[0], &mut lent.bytes, &mut lent.written),
    },
    Call {
        name: "write pages",
        of_a_cell: false,
        answer: 0,
        blocks: &[0],
        make: |core, lent, _| core.write_pages(lent.site, &lent.blocks[0], &mut lent.bytes, &mut lent.written),
    },
    Call {
        name: "read pages",
        of_a_cell: false,
        answer: 0,
        blocks: &[0],
        make: |core, lent, setting| core.read_pages(lent.site, &setting.pages, &mut lent.blocks[0]),
    },
    Call { name: "send", of_a_cell: true, answer: 0, blocks: &[0], make: send },
    Call {
        name: "receive",
        of_a_cell: true,
        answer: 0,
        blocks: &[1],
        make: |core, lent, setting| core.receive(lent.site, &mut lent.blocks[1], &setting.messages[0]),
    },
    Call {
        name: "release",
        of_a_cell: true,
        answer: 0,
        blocks: &[0],
        make: |core, lent, setting| core.release(lent.site, &mut lent.blocks[0], 1, setting.round.serial),
    },
    Call {
        name: "redirect",
        of_a_cell: true,
        answer: 0,
        blocks: &[2],
        make: |core, lent, setting| core.redirect(lent.site, &mut lent.blocks[2], &setting.messages[1]),
    },
    Call { name: ROUND, of_a_cell: true, answer: 0, blocks: &[0, 1, 2], make: round },
];

/// A message of no bytes is refused by 16, right after question 2.
fn question_2(core: &dyn Core, lent: &mut Lent, _: &Setting) -> u32 {
    core.receive(lent.site, &mut lent.blocks[0], &[])
}

fn send(core: &dyn Core, lent: &mut Lent, setting: &Setting) -> u32 {
    core.send(lent.site, &lent.blocks[0], 1, setting.round.serial, &mut lent.bytes, &mut lent.written)
}

fn round(core: &dyn Core, lent: &mut Lent, setting: &Setting) -> u32 {
    let sent = send(core, lent, setting);
    let messages = message::split(&lent.bytes[..lent.written as usize]).unwrap_or_default();
    let taken = core.receive(lent.site, &mut lent.blocks[1], messages[0]);
    let released = core.release(lent.site, &mut lent.blocks[0], 1, setting.round.serial);
    sent + taken + released + core.redirect(lent.site, &mut lent.blocks[2], messages[1])
}

/// How the number of a face gives that of its labels, where all faces are critical.
type Labels = fn(u32) -> u32;

pub const LABELS: &[(&str, Labels)] = &[
    ("all darts critical", |number| number),
    ("all critical, numbers of 32 bits", |number| number.wrapping_mul(2_654_435_761)),
    ("all critical, labels chosen to crowd one slot", crowded),
];

/// The n-th number whose labels' search in the proved version starts in slot 0, so that it gives up and a sort decides.
fn crowded(wanted: u32) -> u32 {
    thread_local! {
        static FOUND: Vec<u32> = {
            let slot = |key: u64| (key % (1 << 32) * 2246822519 / 524288 % 8192 + (key >> 32) * 2654435769 / 524288 % 8192) % 8192;
            (0u32..).filter(|number| slot(((3 << 32) + u64::from(*number)) << 12) == 0).take(1024).collect()
        };
    }
    FOUND.with(|found| found[wanted as usize])
}

/// Settings that are lent in turn.
pub struct Desk {
    settings: Vec<Setting>,
}

impl Desk {
    /// A cell of 24 darts, or of 512 or 64, that moves between blocks of about so many, all the rack's or all viewers'.
    pub fn rounds(site: Site, large: bool, shuffled: bool, darts: usize) -> Desk {
        let seeds: Vec<Option<u64>> = if shuffled { (1..=SHUFFLES).map(Some).collect() } else { vec![None] };
        let settings = seeds.iter().map(|seed| Setting::of(scenes::round(site, large, *seed, darts)));
        Desk { settings: settings.collect() }
    }

    /// A block all of whose darts are critical; for question 2 and pages.
    pub fn critical(labels: Labels, shuffled: bool) -> Desk {
        let block = scenes::critical(scenes::hexahedra(shuffled), usize::MAX, labels);
        let round = Round { site: Site::Rack, images: vec![image::encode(&block)], serial: 0 };
        let pages = pages_of(&round);
        Desk { settings: vec![Setting { round, messages: Vec::new(), file: Vec::new(), pages }] }
    }

    /// The medians of a call over so many turns: plain, proved, a copy of the blocks that it works on.
    pub fn times(&self, call: &Call, turns: usize) -> Times {
        let mut lent = self.lent();
        let words = lent.site.words();
        let mut copy = vec![0; words * call.blocks.len()];
        let mut times = [(); 3].map(|()| Vec::with_capacity(turns));
        for turn in 0..turns {
            let [plain, proved, copied] =
                [0, 1, 2].map(|version| &self.settings[(3 * turn + version) % self.settings.len()]);
            times[0].push(lent.time(call, &Plain, plain));
            times[1].push(lent.time(call, &Archive, proved));
            lent.reset(copied);
            let start = now();
            for (copied, block) in copy.chunks_exact_mut(words).zip(call.blocks) {
                copied.copy_from_slice(black_box(&lent.blocks[*block]));
            }
            black_box(&copy);
            times[2].push(now() - start);
        }
        times.map(median)
    }

    /// The medians of the proved call on each of these desks, which take turns too.
    pub fn growth(desks: &[Desk], call: &Call, turns: usize) -> Vec<f64> {
        let mut lent = desks[0].lent();
        let mut times = vec![Vec::with_capacity(turns); desks.len()];
        for turn in 0..turns {
            for (desk, times) in desks.iter().zip(&mut times) {
                times.push(lent.time(call, &Archive, &desk.settings[turn % desk.settings.len()]));
            }
        }
        times.into_iter().map(median).collect()
    }

    fn lent(&self) -> Lent {
        let round = &self.settings[0].round;
        Lent { site: round.site, blocks: round.images.clone(), bytes: vec![0; ROOM], written: 0 }
    }
}

impl Lent {
    fn reset(&mut self, setting: &Setting) {
        for (words, image) in self.blocks.iter_mut().zip(&setting.round.images) {
            words.copy_from_slice(image);
        }
    }

    /// The time of one call on the blocks of a setting as they are at its start.
    fn time(&mut self, call: &Call, core: &dyn Core, setting: &Setting) -> f64 {
        self.reset(setting);
        let start = now();
        let answer = (call.make)(core, black_box(self), setting);
        let time = now() - start;
        assert_eq!(answer, call.answer, "{}", call.name);
        time
    }
}

impl Setting {
    fn of(round: Round) -> Setting {
        let mut bytes = vec![0; ROOM];
        let mut written = 0;
        assert_eq!(Plain.send(round.site, &round.images[0], 1, round.serial, &mut bytes, &mut written), 0);
        let messages = message::split(&bytes[..written as usize]).unwrap_or_default();
        assert_eq!(messages.len(), 2);
        let messages = messages.into_iter().map(<[u8]>::to_vec).collect();
        assert_eq!(Plain.save_file(round.site, &round.images[0], &mut bytes, &mut written), 0);
        bytes.truncate(written as usize);
        let pages = pages_of(&round);
        Setting { round, messages, file: bytes, pages }
    }
}

/// The pages of block 0.
fn pages_of(round: &Round) -> Vec<u8> {
    let (mut bytes, mut written) = (vec![0; ROOM], 0);
    assert_eq!(Plain.write_pages(round.site, &round.images[0], &mut bytes, &mut written), 0);
    bytes.truncate(written as usize);
    bytes
}
