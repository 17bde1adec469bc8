//! Cases as flat binary files, one for each call; README.md has the format.

mod pages;

use crate::calls;
use crate::cases::{all_calls, Call, Case, CALLS, CALLS_ON_PAGES};
use crate::damage::{self, requests};
use crate::file;
use crate::generate::{self, Size};
use crate::image::{self, ANSWER};
use crate::lent::{OracleNumbers, Peer};
use crate::message::{self, Index, Message, Transfer};
use crate::rng::Rng;
use crate::shapes::{self, Map};
use crate::value::{Block, Point, Site, Viewers, RACK};
use pages::ByHand;
use std::cmp::Ordering::{self, Equal, Greater, Less};
use std::collections::{BTreeMap, BTreeSet};
use std::path::Path;

/// Longest record of a case that is not made by hand; a mesh takes more than a block.
fn max_record(call: Call) -> usize {
    match call {
        Call::CheckMesh | Call::NextMove => 2048,
        _ if call.is_about_pages() => 640,
        _ => 1024,
    }
}

fn put_u32(out: &mut Vec<u8>, number: usize) {
    out.extend_from_slice(&(number as u32).to_le_bytes());
}

fn put_u64(out: &mut Vec<u8>, number: u64) {
    out.extend_from_slice(&number.to_le_bytes());
}

/// Bytes behind their length.
fn put_bytes(out: &mut Vec<u8>, bytes: &[u8]) {
    put_u32(out, bytes.len());
    out.extend_from_slice(bytes);
}

/// A word as the count of its low bytes that matter, then those bytes.
fn put_word(out: &mut Vec<u8>, word: u64) {
    let count = (64 - word.leading_zeros() as usize).div_ceil(8);
    out.push(count as u8);
    out.extend_from_slice(&word.to_le_bytes()[..count]);
}

/// The runs of words where `wanted` says so: start, count, words.
fn put_runs(out: &mut Vec<u8>, words: &[u64], wanted: impl Fn(usize) -> bool) {
    let mut runs: Vec<(usize, usize)> = Vec::new();
    for at in (0..words.len()).filter(|at| wanted(*at)) {
        match runs.last_mut() {
            // Up to eight unwanted words cost no more than a run of their own.
            Some((_, end)) if at <= *end + 8 => *end = at + 1,
            _ => runs.push((at, at + 1)),
        }
    }
    put_u32(out, runs.len());
    for (start, end) in runs {
        put_u32(out, start);
        put_u32(out, end - start);
        for word in &words[start..end] {
            put_word(out, *word);
        }
    }
}

/// Memory: its words, then the runs that are not zero.
fn put_memory(out: &mut Vec<u8>, words: &[u64]) {
    put_u32(out, words.len());
    put_runs(out, words, |at| words[at] != 0);
}

/// What a call changed in memory: runs over what was there.
fn put_change(out: &mut Vec<u8>, before: &[u64], after: &[u64]) {
    put_runs(out, after, |at| before[at] != after[at]);
}

/// Lent bytes: room, the byte that fills them, what stands at the front after the call.
fn put_room(out: &mut Vec<u8>, before: &[u8], after: &[u8], written: usize) {
    put_u32(out, before.len());
    out.push(before.first().copied().unwrap_or(0));
    put_bytes(out, &after[..written]);
}

/// A record without its length: the answer, the inputs, what is expected.
pub fn record(case: &Case) -> (u32, Vec<u8>) {
    let mut after = case.clone();
    let answer = after.run(&Peer);
    let mut out = Vec::new();
    put_u32(&mut out, answer as usize);
    let served = |written: u64| if answer == 0 { written as usize } else { 0 };
    match (case, &after) {
        (Case::Empty { number, block, .. }, Case::Empty { block: end, .. }) => {
            put_u64(&mut out, *number);
            put_memory(&mut out, block);
            put_change(&mut out, block, end);
        }
        (Case::ReadFile { file, block, .. }, Case::ReadFile { block: end, .. }) => {
            put_bytes(&mut out, file);
            put_memory(&mut out, block);
            put_change(&mut out, block, end);
        }
        (Case::SaveFile { block, out: room, .. }, Case::SaveFile { out: end, written, .. }) => {
            put_memory(&mut out, block);
            put_room(&mut out, room, end, served(*written));
        }
        (Case::Send { block, to, serial, outbox, .. }, Case::Send { outbox: end, written, .. }) => {
            put_u64(&mut out, *to);
            put_u64(&mut out, *serial);
            put_memory(&mut out, block);
            put_room(&mut out, outbox, end, served(*written));
        }
        (Case::Receive { block, message, .. }, Case::Receive { block: end, .. })
        | (Case::Redirect { block, message, .. }, Case::Redirect { block: end, .. }) => {
            put_bytes(&mut out, message);
            put_memory(&mut out, block);
            put_change(&mut out, block, end);
        }
        (Case::Release { block, to, serial, .. }, Case::Release { block: end, .. }) => {
            put_u64(&mut out, *to);
            put_u64(&mut out, *serial);
            put_memory(&mut out, block);
            put_change(&mut out, block, end);
        }
        (Case::CheckMesh { mesh, viewers, scratch }, _) => {
            put_u32(&mut out, viewers.0 as usize);
            put_memory(&mut out, mesh);
            put_memory(&mut out, scratch);
        }
        (Case::NextMove { mesh, viewers, oracle, scratch, answer: room }, Case::NextMove { answer: end, .. }) => {
            put_u32(&mut out, viewers.0 as usize);
            put_u32(&mut out, oracle.oracle as usize);
            put_u32(&mut out, oracle.axis as usize);
            for float in oracle.floats {
                put_u64(&mut out, float);
            }
            put_memory(&mut out, mesh);
            put_memory(&mut out, scratch);
            put_u32(&mut out, room.len());
            let words = if answer == 0 { end.as_slice() } else { &[0; ANSWER] };
            words.iter().for_each(|word| put_u64(&mut out, *word));
        }
        (Case::WritePages { block, out: room, .. }, Case::WritePages { out: end, written, .. }) => {
            put_memory(&mut out, block);
            put_u32(&mut out, room.len());
            out.push(room.first().copied().unwrap_or(0));
            pages::put_packed(&mut out, &end[..served(*written)]);
        }
        (Case::ReadPages { pages, block, .. }, Case::ReadPages { block: end, .. }) => {
            pages::put_packed(&mut out, pages);
            put_memory(&mut out, block);
            put_change(&mut out, block, end);
        }
        _ => {}
    }
    (answer, out)
}

/// What a record is a case of: its answer, and of a next move what it came to.
#[derive(Clone, Copy, PartialEq, Eq, PartialOrd, Ord, Debug)]
pub enum Sort {
    Answer(u32),
    /// By a box or a plane: 0 level, 1 blocked, 2 a move.
    By {
        oracle: u32,
        kind: u64,
    },
    /// Of every volume: level, the counts being equal or not, the mean 0 or not.
    Level {
        equal: bool,
        empty: bool,
    },
    /// Of every volume: blocked, a block being below the mean or none.
    Blocked {
        below: bool,
    },
    /// Of every volume: a move; where donor and recipient lie to the mean, and whether the donor has just two more.
    Move {
        donor: Ordering,
        recipient: Ordering,
        two: bool,
    },
    /// Refused by 28: the oracle, 3 where there is none, and whether one of its floats is no number.
    WrongOracle {
        oracle: u32,
        nan: bool,
    },
}

/// The sort of a record.
pub fn sort(call: Call, record: &[u8]) -> Sort {
    match (call, u32_at(record, 0)) {
        (Call::NextMove, 0) => sort_of_served(record),
        (Call::NextMove, 28) => {
            let oracle = u32_at(record, 8).min(3);
            // A box has six floats, a plane one.
            let floats = [0, 6, 1, 0][oracle as usize];
            let nan = record[16..].chunks_exact(8).take(floats).any(|float| f64::from_bits(u64_at(float, 0)).is_nan());
            Sort::WrongOracle { oracle, nan }
        }
        (_, answer) => Sort::Answer(answer),
    }
}

/// The sort of a next move that was served.
fn sort_of_served(record: &[u8]) -> Sort {
    let (oracle, blocks) = (u32_at(record, 8), u32_at(record, 64) as usize / image::WORDS);
    let word = |place: usize| u64_at(record, record.len() - 8 * (ANSWER - place));
    let surplus = |block: usize| word(5 + block) as i64;
    match (oracle, word(0)) {
        (0, 0) => Sort::Level { equal: (0..blocks).all(|block| surplus(block) == 0), empty: word(4) == 0 },
        (0, 1) => Sort::Blocked { below: (0..blocks).any(|block| surplus(block) < 0) },
        (0, _) => {
            let [donor, recipient] = [1, 2].map(|place| surplus(word(place) as usize));
            Sort::Move { donor: donor.cmp(&0), recipient: recipient.cmp(&0), two: donor == recipient + 2 }
        }
        (_, kind) => Sort::By { oracle, kind },
    }
}

/// The sorts of next moves that are served, or refused by 28.
fn sorts_of_next_moves() -> Vec<Sort> {
    let mut sorts = Vec::new();
    for oracle in [1, 2] {
        sorts.extend([0, 1, 2].map(|kind| Sort::By { oracle, kind }));
        sorts.extend([false, true].map(|nan| Sort::WrongOracle { oracle, nan }));
    }
    sorts.push(Sort::WrongOracle { oracle: 3, nan: false });
    for yes in [false, true] {
        sorts.extend([false, true].map(|empty| Sort::Level { equal: yes, empty }));
        sorts.push(Sort::Blocked { below: yes });
        // A donor at the mean or below it gives to a block below it.
        let places = [(Less, Less), (Equal, Less), (Greater, Less), (Greater, Equal), (Greater, Greater)];
        sorts.extend(places.map(|(donor, recipient)| Sort::Move { donor, recipient, two: yes }));
    }
    sorts
}

/// The sorts that a call's records have to have.
pub fn sorts(call: Call) -> Vec<Sort> {
    let answers = call.answers().iter();
    match call {
        Call::NextMove => {
            let others = answers.filter(|answer| ![0, 28].contains(*answer)).map(|answer| Sort::Answer(*answer));
            others.chain(sorts_of_next_moves()).collect()
        }
        _ => answers.map(|answer| Sort::Answer(*answer)).collect(),
    }
}

/// Records by sort and way.
type Shelf = BTreeMap<Sort, BTreeMap<&'static str, Vec<Vec<u8>>>>;

/// Draws cases of a call until every sort has some, those apart that the cases about limits have, and there are enough in all.
fn shelf(seed: u64, call: Call, wanted: usize, limits: &[Vec<u8>]) -> Shelf {
    let mut shelf = Shelf::new();
    let mut taken = BTreeSet::new();
    let at_limits: BTreeSet<Sort> = limits.iter().map(|bytes| sort(call, bytes)).collect();
    for round in 0..400 {
        let complete = sorts(call).iter().all(|sort| shelf.contains_key(sort) || at_limits.contains(sort));
        if round >= 12 && complete && taken.len() >= 2 * wanted {
            break;
        }
        let mut rng = Rng::new(seed.wrapping_mul(1_000_003).wrapping_add(round));
        let count = rng.between(2, 5);
        let size = if rng.one_in(3) { Size::Small } else { Size::Tiny };
        let mesh = generate::mesh_of(&mut rng, size, count);
        for (way, case) in damage::batch(&mut rng, call, &mesh) {
            let (_, bytes) = record(&case);
            if bytes.len() <= max_record(call) && taken.insert(bytes.clone()) {
                shelf.entry(sort(call, &bytes)).or_default().entry(way).or_default().push(bytes);
            }
        }
    }
    shelf
}

/// Takes records in turn: sorts, within a sort ways, within a way in order.
fn choose(shelf: Shelf, wanted: usize) -> Vec<Vec<u8>> {
    let mut queues: Vec<Vec<Vec<u8>>> = Vec::new();
    for mut ways in shelf.into_values() {
        for records in ways.values_mut() {
            // Small cases first, but not the very smallest.
            records.sort_by_key(Vec::len);
            let quarter = records.len() / 4;
            records.rotate_left(quarter);
        }
        let mut queue = Vec::new();
        let deepest = ways.values().map(Vec::len).max().unwrap_or(0);
        for depth in 0..deepest {
            queue.extend(ways.values().filter_map(|records| records.get(depth).cloned()));
        }
        queues.push(queue);
    }
    let mut chosen = Vec::new();
    let deepest = queues.iter().map(Vec::len).max().unwrap_or(0);
    for depth in 0..deepest {
        for queue in &queues {
            if chosen.len() < wanted {
                chosen.extend(queue.get(depth).cloned());
            }
        }
    }
    chosen
}

/// A pillow of two n-gons as a block; points at zero keep the records short.
fn pillow(n: usize, number: u8) -> Block {
    flat(requests::pillow_block(n, number))
}

fn flat(mut block: Block) -> Block {
    block.darts.values_mut().for_each(|dart| dart.point = Point::default());
    block
}

/// The same with serials from `first` on.
fn from_serial(first: u32, mut block: Block) -> Block {
    let shift = first - 1;
    block.darts = block
        .darts
        .into_iter()
        .map(|(serial, mut dart)| {
            dart.next += shift;
            dart.opposite += shift;
            (serial + shift, dart)
        })
        .collect();
    block
}

/// Blocks of pillows, each given by its sides; serials in the order given.
fn piles(sides: &[&[usize]]) -> Vec<Block> {
    let mut serial = 1;
    let mut blocks: Vec<Block> = (0..sides.len()).map(|number| Block::empty(number as u8)).collect();
    for (block, sides) in blocks.iter_mut().zip(sides) {
        for n in *sides {
            block.darts.extend(from_serial(serial, pillow(*n, 0)).darts);
            serial += 2 * *n as u32;
        }
    }
    blocks
}

/// The cases made by hand: of most calls a few about limits, whose records may be long.
pub fn limits(call: Call) -> Vec<Case> {
    let ByHand { played, others } = by_hand(call);
    [played, others].concat()
}

fn by_hand(call: Call) -> ByHand {
    match call.on_the_rack() {
        Call::WritePages => pages::written(call.site()),
        Call::ReadPages => pages::read(call.site()),
        _ => ByHand { played: about_limits(call), others: Vec::new() },
    }
}

/// The few cases about limits, whose records may be long.
fn about_limits(call: Call) -> Vec<Case> {
    match call {
        Call::CheckMesh => mesh_limits()
            .into_iter()
            .map(|(blocks, bits)| {
                let mesh = blocks.iter().flat_map(image::encode).collect();
                Case::CheckMesh { mesh, viewers: Viewers(bits), scratch: vec![0; image::SCRATCH] }
            })
            .collect(),
        Call::NextMove => next_move_limits()
            .into_iter()
            .map(|(blocks, bits)| {
                let mesh = blocks.iter().flat_map(image::encode).collect();
                let oracle = OracleNumbers { oracle: 0, axis: 0, floats: [0; 6] };
                let (scratch, answer) = (vec![0; image::SCRATCH], vec![0; ANSWER]);
                Case::NextMove { mesh, viewers: Viewers(bits), oracle, scratch, answer }
            })
            .collect(),
        _ => match call.site() {
            Site::Rack => rack_limits(call),
            Site::Viewer => viewer_limits(call.on_the_rack()),
        },
    }
}

/// A viewer's 256 darts in a mesh, and which bit tells of a block.
fn mesh_limits() -> Vec<(Vec<Block>, u32)> {
    let of = |n: usize| vec![Block::empty(0), pillow(n, 1)];
    let alone = |n: usize| vec![pillow(n, 1)];
    vec![
        (of(128), 0b10),
        (of(129), 0b10),
        (of(129), 0b01),
        // Bits 16 to 31, and those of blocks that are not there.
        (of(129), 0xffff_fffd),
        // Numbered 1 in place 0: the number tells, so 2 comes before 23.
        (alone(129), 0b10),
        (alone(129), 0b01),
    ]
}

/// Volumes about 64 darts and a viewer's room, by who gives and who takes.
fn next_move_limits() -> Vec<(Vec<Block>, u32)> {
    vec![
        // 66 darts do not go into a viewer or out of it; the next volume does, or none.
        (piles(&[&[33, 3], &[]]), 0b10),
        (piles(&[&[33, 3], &[]]), 0b01),
        (piles(&[&[33, 33], &[]]), 0b10),
        (piles(&[&[33, 33], &[]]), 0b01),
        (piles(&[&[33, 33], &[]]), 0b11),
        // Between blocks of the rack they do, whatever the other bits.
        (piles(&[&[33, 33], &[]]), 0xffff_fffc),
        (piles(&[&[33, 33], &[], &[]]), 0b100),
        // The next recipient is the rack's.
        (piles(&[&[33, 33], &[], &[]]), 0b010),
        // 64 darts go.
        (piles(&[&[32, 33], &[]]), 0b10),
        (piles(&[&[32, 33], &[]]), 0b01),
        (piles(&[&[32, 33], &[]]), 0b11),
        // Room for six darts, and for four; at the rack there is more.
        (piles(&[&[3, 3, 3], &[125]]), 0b10),
        (piles(&[&[3, 3, 3], &[126]]), 0b10),
        (piles(&[&[3, 3, 3], &[126], &[]]), 0b010),
        (piles(&[&[3, 3, 3], &[127]]), 0xffff_fffd),
        // A full viewer gives.
        (piles(&[&[119, 3, 3, 3], &[]]), 0b01),
        // 258 darts.
        (piles(&[&[129], &[]]), 0b01),
    ]
}

const FILL: u8 = 0x3c;

fn room(length: usize) -> Vec<u8> {
    vec![FILL; length]
}

/// The transfer of the whole of a block's one volume.
fn transfer(block: &Block, to: u8) -> Vec<u8> {
    let serial = block.darts.keys().next().map_or(0, |serial| u64::from(*serial));
    calls::send(RACK, block, u64::from(to), serial, usize::MAX).unwrap_or_default()
}

fn rack_limits(call: Call) -> Vec<Case> {
    let site = Site::Rack;
    let full = pillow(2048, 2);
    match call {
        Call::ReadFile => {
            let mut odd = full.clone();
            if let Some(lone) = full.darts.get(&1) {
                odd.darts.insert(5000, *lone);
            }
            [&full, &odd]
                .into_iter()
                .map(|block| Case::ReadFile { site, file: file::encode(block), block: image::encode(&Block::empty(9)) })
                .collect()
        }
        Call::SaveFile => {
            let length = file::encode(&full).len();
            vec![Case::SaveFile { site, block: image::encode(&full), out: room(length), written: 0 }]
        }
        // 66 darts go from the rack, whoever gets them.
        Call::Send => [pillow(33, 2), torus(2), pillow(257, 2)]
            .iter()
            .map(|block| {
                let (block, outbox) = (image::encode(block), room(16_000));
                Case::Send { site, block, to: 5, serial: 33, outbox, written: 0 }
            })
            .collect(),
        Call::Release => [pillow(33, 2), torus(2), pillow(257, 2)]
            .iter()
            .map(|block| Case::Release { site, block: image::encode(block), to: 5, serial: 33 })
            .collect(),
        Call::Receive => {
            let message = transfer(&from_serial(9001, requests::pillow_block(4, 0)), 2);
            let big = transfer(&torus(0), 2);
            let mut cases: Vec<Case> = [2044, 2045]
                .into_iter()
                .map(|n| Case::Receive { site, block: image::encode(&pillow(n, 2)), message: message.clone() })
                .collect();
            let empty = || image::encode(&Block::empty(2));
            cases.push(Case::Receive { site, block: empty(), message: transfer(&pillow(33, 0), 2) });
            cases.push(Case::Receive { site, block: empty(), message: big.clone() });
            if let Some(over) = with_513_darts(&big) {
                cases.push(Case::Receive { site, block: empty(), message: over });
            }
            cases
        }
        _ => Vec::new(),
    }
}

/// Cases about a viewer's 256 and 64, and the 512 of any transfer.
fn viewer_limits(call: Call) -> Vec<Case> {
    let site = Site::Viewer;
    let image = |block: &Block| image::encode_at(site, block);
    let empty = || image(&Block::empty(2));
    match call {
        Call::ReadFile => {
            let mut odd = pillow(128, 2);
            if let Some(lone) = odd.darts.get(&1).copied() {
                odd.darts.insert(5000, lone);
            }
            [pillow(128, 2), pillow(129, 2), odd]
                .iter()
                .map(|block| Case::ReadFile { site, file: file::encode(block), block: image(&Block::empty(9)) })
                .collect()
        }
        // An image that says 258 darts is none.
        Call::SaveFile => [pillow(128, 2), pillow(129, 2)]
            .iter()
            .map(|block| {
                let length = file::encode(block).len();
                Case::SaveFile { site, block: image(block), out: room(length), written: 0 }
            })
            .collect(),
        Call::Send => [32, 33]
            .into_iter()
            .map(|n| {
                let block = image(&pillow(n, 2));
                Case::Send { site, block, to: 5, serial: n as u64, outbox: room(4_000), written: 0 }
            })
            .collect(),
        Call::Release => [32, 33]
            .into_iter()
            .map(|n| Case::Release { site, block: image(&pillow(n, 2)), to: 5, serial: n as u64 })
            .collect(),
        Call::Receive => viewer_receives(),
        Call::Redirect => {
            let big = transfer(&torus(0), 2);
            let mut messages = vec![transfer(&pillow(33, 0), 2), big.clone()];
            messages.extend(with_513_darts(&big));
            messages.into_iter().map(|message| Case::Redirect { site, block: empty(), message }).collect()
        }
        _ => Vec::new(),
    }
}

/// A cell of 512 darts with few vertices.
fn torus(number: u8) -> Block {
    let mut map = Map::default();
    shapes::torus(&mut map, 8, 16);
    flat(requests::block_of(&map, number))
}

fn viewer_receives() -> Vec<Case> {
    let site = Site::Viewer;
    let big = transfer(&torus(0), 2);
    let over = |change: fn(&mut Transfer)| altered(&transfer(&pillow(33, 0), 2), change);
    let mut messages: Vec<Vec<u8>> = [32, 33].iter().map(|n| transfer(&pillow(*n, 0), 2)).collect();
    messages.push(big.clone());
    messages.extend(with_513_darts(&big));
    // 65 darts, which are no volume's.
    messages.extend(altered(&transfer(&pillow(32, 0), 2), |t| t.faces[1].push((0, 9000))));
    // 17 comes before 29: to another block, from the receiver.
    messages.push(transfer(&pillow(33, 0), 3));
    messages.extend(over(|t| t.from = t.to));
    // 29 comes before 18, 19 and 20.
    messages.extend(over(|t| t.faces[0][0].1 = 0));
    messages.extend(over(|t| t.points[0].0[0] = f64::NAN.to_bits()));
    messages.extend(over(|t| t.faces[0].rotate_left(1)));
    messages.extend(over(|t| t.part3.push((0, Index(1)))));
    let empty = image::encode_at(site, &Block::empty(2));
    let mut cases: Vec<Case> =
        messages.into_iter().map(|message| Case::Receive { site, block: empty.clone(), message }).collect();
    // 256 darts afterwards, and 258; 29 comes before 21; 258 at the start.
    for (held, sides) in [(125, 3), (126, 3), (97, 32), (126, 33), (129, 3)] {
        let message = transfer(&from_serial(9001, pillow(sides, 0)), 2);
        cases.push(Case::Receive { site, block: image::encode_at(site, &pillow(held, 2)), message });
    }
    cases
}

/// A transfer with one thing altered.
fn altered(bytes: &[u8], change: impl Fn(&mut Transfer)) -> Option<Vec<u8>> {
    let Message::Transfer(mut transfer) = message::decode(bytes)? else { return None };
    change(&mut transfer);
    Some(message::encode(&Message::Transfer(transfer)))
}

/// A transfer of 512 darts with one more.
fn with_513_darts(bytes: &[u8]) -> Option<Vec<u8>> {
    altered(bytes, |transfer| {
        if let Some(face) = transfer.faces.last_mut() {
            face.push((0, 9000));
        }
    })
}

/// The records of a call: N drawn cases, and those made by hand; the others among them are not for the gate.
struct Records {
    drawn: Vec<Vec<u8>>,
    limits: Vec<Vec<u8>>,
    others: Vec<Vec<u8>>,
}

impl Records {
    /// Of those made by hand the ones that have to be played, or the others: what is about a viewer, and what has an answer that
    /// no drawn case has.
    fn limits(&self, call: Call, needed: bool) -> impl Iterator<Item = &Vec<u8>> {
        let about_viewers = call >= Call::CheckMesh;
        let is_new = |limit: &Vec<u8>| !self.drawn.iter().any(|drawn| drawn[..4] == limit[..4]);
        self.limits.iter().filter(move |limit| needed == (about_viewers || is_new(limit)))
    }
}

fn records(seed: u64, call: Call, wanted: usize) -> Records {
    let ByHand { played, others } = by_hand(call);
    let [limits, others] =
        [played, others].map(|cases| cases.iter().map(|case| record(case).1).collect::<Vec<Vec<u8>>>());
    // A viewer's calls are the rack's but for the limits, so fewer will do; and of pages most are made by hand.
    let wanted = match call.site() {
        Site::Rack => wanted,
        Site::Viewer => wanted * 2 / 5,
    };
    let wanted = if call.is_about_pages() { wanted / 5 } else { wanted };
    Records { drawn: choose(shelf(seed, call, wanted, &limits), wanted), limits, others }
}

/// The file of a call: drawn cases, then those made by hand.
fn file_of(records: &Records) -> Vec<u8> {
    let mut out = Vec::new();
    for bytes in records.drawn.iter().chain(&records.limits).chain(&records.others) {
        put_bytes(&mut out, bytes);
    }
    out
}

pub fn vectors(seed: u64, call: Call, wanted: usize) -> Vec<u8> {
    file_of(&records(seed, call, wanted))
}

/// Bytes that the gate's file may have.
pub const GATE_BYTES: usize = 720_000;

/// Bytes that its file of calls on pages may have.
pub const PAGES_BYTES: usize = 290_000;

/// Words of a mesh that the gate's program has room for: six blocks.
const GATE_MESH: u32 = 6 * image::WORDS as u32;

fn u32_at(bytes: &[u8], at: usize) -> u32 {
    bytes[at..at + 4].iter().rev().fold(0, |high, low| high << 8 | u32::from(*low))
}

fn u64_at(bytes: &[u8], at: usize) -> u64 {
    u64::from(u32_at(bytes, at + 4)) << 32 | u64::from(u32_at(bytes, at))
}

/// Whether the gate's program has room for what a record lends. A next move there has an answer of its own, so none is lent.
fn has_room(call: Call, record: &[u8]) -> bool {
    match call {
        Call::CheckMesh => u32_at(record, 8) <= GATE_MESH,
        Call::NextMove => {
            let lent = u32_at(record, record.len() - 8 * ANSWER - 4);
            u32_at(record, 64) <= GATE_MESH && lent as usize == ANSWER
        }
        _ => true,
    }
}

/// A file of the gate, and what a program that plays it has to print.
pub struct Gate {
    pub input: Vec<u8>,
    pub output: String,
}

/// Records for a file of the gate, as far as they fit, and how many there are by call and answer.
struct Played {
    most: usize,
    input: Vec<u8>,
    counts: BTreeMap<Call, BTreeMap<u32, usize>>,
}

impl Played {
    fn new(most: usize, calls: &[(Call, Records)]) -> Self {
        let counts = calls.iter().map(|(call, _)| (*call, BTreeMap::new())).collect();
        Self { most, input: Vec::new(), counts }
    }

    /// Adds a record where it fits; whether it does.
    fn add(&mut self, call: Call, bytes: &[u8]) -> bool {
        // The byte of the call and the length.
        let fits = self.input.len() + 5 + bytes.len() <= self.most && has_room(call, bytes);
        if fits {
            self.input.push(call as u8);
            put_bytes(&mut self.input, bytes);
            *self.counts.entry(call).or_default().entry(u32_at(bytes, 0)).or_default() += 1;
        }
        fits
    }

    fn answers(&self) -> String {
        let mut output = String::new();
        for (call, answers) in &self.counts {
            output += &format!("{}\n", call.name());
            answers.iter().for_each(|(answer, count)| output += &format!("{answer}: {count}\n"));
        }
        output
    }

    fn found(&self) -> String {
        let all: usize = self.counts.values().flat_map(BTreeMap::values).sum();
        format!("as told: {all}\nanother answer: 0\nother content: 0\ncannot be read: 0\npassed over: 0\n")
    }
}

fn gate_of<'a>(calls: &'a [(Call, Records)]) -> Gate {
    let mut played = Played::new(GATE_BYTES, calls);
    for (call, records) in calls {
        for bytes in &records.drawn {
            played.add(*call, bytes);
        }
    }
    // Those about limits come last, first those that have to be there, short ones first: others are left out where they do not fit.
    for needed in [true, false] {
        let of = |(call, records): &'a (Call, Records)| records.limits(*call, needed).map(|bytes| (*call, bytes));
        let mut limits: Vec<(Call, &Vec<u8>)> = calls.iter().flat_map(of).collect();
        limits.sort_by_key(|(_, bytes)| bytes.len());
        for (call, bytes) in limits {
            played.add(call, bytes);
        }
    }
    Gate { output: played.answers() + &played.found(), input: played.input }
}

/// Of calls on pages: each call's drawn cases, then those made by hand. It is told how many of both do not fit.
fn pages_of(calls: &[(Call, Records)]) -> (Gate, usize) {
    let mut played = Played::new(PAGES_BYTES, calls);
    let mut left_out = 0;
    for (call, records) in calls {
        left_out += records.drawn.iter().chain(&records.limits).filter(|bytes| !played.add(*call, bytes)).count();
    }
    (Gate { output: played.found(), input: played.input }, left_out)
}

pub fn gate(seed: u64, wanted: usize) -> Gate {
    gate_of(&CALLS.map(|call| (call, records(seed, call, wanted))))
}

/// That of calls on pages, and how many records do not fit into it.
pub fn pages_gate(seed: u64, wanted: usize) -> (Gate, usize) {
    pages_of(&CALLS_ON_PAGES.map(|call| (call, records(seed, call, wanted))))
}

/// Writes the files of all calls and the gate's; gives the total length of the calls' files.
pub fn write(seed: u64, wanted: usize, folder: &Path) -> std::io::Result<usize> {
    std::fs::create_dir_all(folder)?;
    let mut total = 0;
    let mut played = Vec::new();
    for call in all_calls() {
        let records = records(seed, call, wanted);
        let bytes = file_of(&records);
        total += bytes.len();
        std::fs::write(folder.join(format!("{}.bin", call.name())), bytes)?;
        played.push((call, records));
    }
    let (calls, on_pages) = played.split_at(CALLS.len());
    for (name, gate) in [("gate", gate_of(calls)), ("pages", pages_of(on_pages).0)] {
        std::fs::write(folder.join(format!("{name}.bin")), gate.input)?;
        std::fs::write(folder.join(format!("{name}.txt")), gate.output)?;
    }
    Ok(total)
}
