//! Wrong readings of what a viewer is asked: each is told apart by the gate's vectors, and those of a round by the runs.

#[path = "common/records.rs"]
mod records;
#[path = "common/variant.rs"]
mod variant;

use peer::cases::{Case, CALLS};
use peer::image::{self, VIEWER_WORDS, WORDS};
use peer::lent::{Core, Peer};
use peer::message::{self, Message};
use peer::simulate::simulate;
use peer::value::{Site, Viewers, RACK, VIEWER_CELL};
use peer::vectors;
use records::{parse, Reader};
use variant::{Variant, RIGHT};

/// The same memory with the rack's words.
fn widened(words: &[u64]) -> Vec<u64> {
    let mut wide = words.to_vec();
    wide.resize(WORDS, 0);
    wide
}

/// The darts of a transfer.
fn darts(message: &[u8]) -> usize {
    match message::decode(message) {
        Some(Message::Transfer(transfer)) => transfer.dart_count(),
        _ => 0,
    }
}

/// What the rack says to a message for a viewer's block.
fn at_the_rack(block: &[u64], message: &[u8]) -> u32 {
    Peer.receive(Site::Rack, &mut widened(block), message)
}

/// Receives with 29 behind the questions up to a number.
fn receive_29_after(last: u32, site: Site, block: &mut [u64], message: &[u8]) -> u32 {
    match Peer.receive(site, block, message) {
        29 => {
            let number = at_the_rack(block, message);
            let full = block[2] as usize + darts(message) > 256;
            match number {
                18..=20 if number <= last => number,
                0 | 21 if full && last >= 21 => 21,
                _ => 29,
            }
        }
        number => number,
    }
}

/// Receives with another limit in 29.
fn receive_29_past(most: usize, site: Site, block: &mut [u64], message: &[u8]) -> u32 {
    let number = Peer.receive(site, &mut block.to_vec(), message);
    let over = site == Site::Viewer && darts(message) > most;
    match number {
        29 if !over => match at_the_rack(block, message) {
            0 if block[2] as usize + darts(message) > 256 => 21,
            number => number,
        },
        0 | 18..=21 if over => 29,
        _ => Peer.receive(site, block, message),
    }
}

/// The darts of the cell that holds a serial.
fn cell(words: &[u64], serial: u64) -> usize {
    let Some(block) = image::sound_block(words, RACK) else { return 0 };
    u32::try_from(serial)
        .ok()
        .filter(|serial| block.darts.contains_key(serial))
        .map_or(0, |serial| peer::cells::volume(&block, serial).len())
}

/// What 11 reads at the rack, wrongly.
fn over_at_the_rack(site: Site, words: &[u64], to: u64, serial: u64) -> bool {
    site == Site::Rack && words.len() == WORDS && to < 16 && to != words[0] && cell(words, serial) > VIEWER_CELL
}

/// A mesh check with other limits: the bit of a block, and the most darts of a viewer's.
fn check(mesh: &[u64], bits: impl Fn(usize, &[u64]) -> bool, most: u64, scratch: &mut [u64]) -> u32 {
    match Peer.check_mesh(mesh, Viewers::NONE, scratch) {
        number @ (1 | 2) => number,
        number => {
            let over = |(place, words): (usize, &[u64])| bits(place, words) && words[2] > most;
            if mesh.chunks_exact(WORDS).enumerate().any(over) {
                2
            } else {
                number
            }
        }
    }
}

fn bit(viewers: Viewers, number: u64) -> bool {
    number < 16 && viewers.0 >> number & 1 == 1
}

/// Memory of the other site taken as one's own.
fn any_memory(site: Site, words: &[u64]) -> Site {
    match words.len() {
        WORDS => Site::Rack,
        VIEWER_WORDS => Site::Viewer,
        _ => site,
    }
}

fn misreadings() -> Vec<(&'static str, Variant)> {
    vec![
        (
            "29 before 17",
            Variant {
                receive: |site, block, message| match Peer.receive(site, block, message) {
                    17 if site == Site::Viewer && darts(message) > VIEWER_CELL => 29,
                    number => number,
                },
                ..RIGHT
            },
        ),
        (
            "29 before 16",
            Variant {
                receive: |site, block, message| match Peer.receive(site, block, message) {
                    // A layout that only its 513 darts break.
                    16 if site == Site::Viewer && message.len() > 4_000 => 29,
                    number => number,
                },
                ..RIGHT
            },
        ),
        ("29 after 18", Variant { receive: |s, b, m| receive_29_after(18, s, b, m), ..RIGHT }),
        ("29 after 19", Variant { receive: |s, b, m| receive_29_after(19, s, b, m), ..RIGHT }),
        ("29 after 20", Variant { receive: |s, b, m| receive_29_after(20, s, b, m), ..RIGHT }),
        ("29 after 21", Variant { receive: |s, b, m| receive_29_after(21, s, b, m), ..RIGHT }),
        ("29 past 512 alone", Variant { receive: |s, b, m| receive_29_past(512, s, b, m), ..RIGHT }),
        ("29 past 65", Variant { receive: |s, b, m| receive_29_past(65, s, b, m), ..RIGHT }),
        ("29 past 66", Variant { receive: |s, b, m| receive_29_past(66, s, b, m), ..RIGHT }),
        ("29 from 64 on", Variant { receive: |s, b, m| receive_29_past(63, s, b, m), ..RIGHT }),
        (
            "29 at the rack",
            Variant {
                receive: |site, block, message| match Peer.receive(site, &mut block.to_vec(), message) {
                    0 | 18..=21 if darts(message) > VIEWER_CELL => 29,
                    _ => Peer.receive(site, block, message),
                },
                ..RIGHT
            },
        ),
        (
            "16 past 64 at a viewer",
            Variant {
                receive: |site, block, message| match Peer.receive(site, block, message) {
                    17 | 29 if site == Site::Viewer && darts(message) > VIEWER_CELL => 16,
                    number => number,
                },
                ..RIGHT
            },
        ),
        (
            "a redirect that says 29",
            Variant {
                redirect: |site, block, message| match Peer.redirect(site, block, message) {
                    17 if site == Site::Viewer && darts(message) > VIEWER_CELL => 29,
                    number => number,
                },
                ..RIGHT
            },
        ),
        (
            "a redirect that says 16 past 64",
            Variant {
                redirect: |site, block, message| match Peer.redirect(site, block, message) {
                    17 if site == Site::Viewer && darts(message) > VIEWER_CELL => 16,
                    number => number,
                },
                ..RIGHT
            },
        ),
        (
            "a send of 64 at the rack",
            Variant {
                send: |site, block, to, serial, outbox, written| {
                    if over_at_the_rack(site, block, to, serial) {
                        return 11;
                    }
                    Peer.send(site, block, to, serial, outbox, written)
                },
                ..RIGHT
            },
        ),
        (
            "a release of 64 at the rack",
            Variant {
                release: |site, block, to, serial| {
                    if over_at_the_rack(site, block, to, serial) {
                        return 11;
                    }
                    Peer.release(site, block, to, serial)
                },
                ..RIGHT
            },
        ),
        (
            "a send of 512 at a viewer",
            Variant {
                send: |site, block, to, serial, outbox, written| match Peer
                    .send(site, block, to, serial, outbox, written)
                {
                    11 => Peer.send(Site::Rack, &widened(block), to, serial, outbox, written),
                    number => number,
                },
                ..RIGHT
            },
        ),
        (
            "a release of 512 at a viewer",
            Variant {
                release: |site, block, to, serial| match Peer.release(site, block, to, serial) {
                    11 => Peer.release(Site::Rack, &mut widened(block), to, serial),
                    number => number,
                },
                ..RIGHT
            },
        ),
        (
            "21 at 4,096 in a viewer",
            Variant {
                receive: |site, block, message| match Peer.receive(site, block, message) {
                    21 => at_the_rack(block, message),
                    number => number,
                },
                ..RIGHT
            },
        ),
        (
            "21 from 256 on in a viewer",
            Variant {
                receive: |site, block, message| match Peer.receive(site, &mut block.to_vec(), message) {
                    0 if site == Site::Viewer && block[2] as usize + darts(message) == 256 => 21,
                    _ => Peer.receive(site, block, message),
                },
                ..RIGHT
            },
        ),
        (
            "3 at 4,096 in a viewer",
            Variant {
                read_file: |site, file, block| match Peer.read_file(site, file, block) {
                    3 => Peer.read_file(Site::Rack, file, &mut widened(block)),
                    number => number,
                },
                ..RIGHT
            },
        ),
        (
            "3 from 256 on in a viewer",
            Variant {
                read_file: |site, file, block| {
                    let mut after = block.to_vec();
                    match Peer.read_file(site, file, &mut after) {
                        0 if site == Site::Viewer && after[2] == 256 => 3,
                        _ => Peer.read_file(site, file, block),
                    }
                },
                ..RIGHT
            },
        ),
        (
            "2 from 256 on in a viewer",
            Variant {
                save_file: |site, block, out, written| {
                    if site == Site::Viewer && block.len() == VIEWER_WORDS && block[2] == 256 {
                        return 2;
                    }
                    Peer.save_file(site, block, out, written)
                },
                ..RIGHT
            },
        ),
        ("empty in any memory", Variant { empty: |s, n, b| Peer.empty(any_memory(s, b), n, b), ..RIGHT }),
        ("read_file into any memory", Variant { read_file: |s, f, b| Peer.read_file(any_memory(s, b), f, b), ..RIGHT }),
        (
            "save_file of any memory",
            Variant { save_file: |s, b, o, w| Peer.save_file(any_memory(s, b), b, o, w), ..RIGHT },
        ),
        (
            "send from any memory",
            Variant { send: |s, b, t, n, o, w| Peer.send(any_memory(s, b), b, t, n, o, w), ..RIGHT },
        ),
        ("receive in any memory", Variant { receive: |s, b, m| Peer.receive(any_memory(s, b), b, m), ..RIGHT }),
        ("release in any memory", Variant { release: |s, b, t, n| Peer.release(any_memory(s, b), b, t, n), ..RIGHT }),
        ("redirect in any memory", Variant { redirect: |s, b, m| Peer.redirect(any_memory(s, b), b, m), ..RIGHT }),
        (
            "viewers by place",
            Variant { check_mesh: |m, v, s| check(m, |place, _| bit(v, place as u64), 256, s), ..RIGHT },
        ),
        (
            "viewers by place and number",
            Variant {
                check_mesh: |m, v, s| check(m, |place, w| bit(v, w[0]) && w[0] == place as u64, 256, s),
                ..RIGHT
            },
        ),
        ("viewers not asked", Variant { check_mesh: |m, _, s| Peer.check_mesh(m, Viewers::NONE, s), ..RIGHT }),
        (
            "bits 16 to 31 too",
            Variant { check_mesh: |m, v, s| Peer.check_mesh(m, Viewers(v.0 | v.0 >> 16), s), ..RIGHT },
        ),
        ("any bit for all", Variant { check_mesh: |m, v, s| check(m, |_, _| v.0 != 0, 256, s), ..RIGHT }),
        ("258 in a viewer's block", Variant { check_mesh: |m, v, s| check(m, |_, w| bit(v, w[0]), 258, s), ..RIGHT }),
        ("254 in a viewer's block", Variant { check_mesh: |m, v, s| check(m, |_, w| bit(v, w[0]), 254, s), ..RIGHT }),
        (
            "23 before a viewer's 2",
            Variant {
                check_mesh: |m, v, s| match (Peer.check_mesh(m, v, s), Peer.check_mesh(m, Viewers::NONE, s)) {
                    (2, 23) => 23,
                    (number, _) => number,
                },
                ..RIGHT
            },
        ),
        (
            "a next move that does not ask the viewers",
            Variant { next_move: |m, _, o, s, a| Peer.next_move(m, Viewers::NONE, o, s, a), ..RIGHT },
        ),
        (
            "a next move that takes 258 darts of a viewer",
            Variant {
                next_move: |m, v, o, s, a| match Peer.next_move(m, v, o, s, a) {
                    2 => Peer.next_move(m, Viewers::NONE, o, s, a),
                    number => number,
                },
                ..RIGHT
            },
        ),
    ]
}

/// The gate's records: the case, its answer, what is lent afterwards.
fn records() -> Vec<(Case, u32, Case)> {
    let gate = vectors::gate(1, 60);
    let mut rest = Reader { bytes: &gate.input };
    let mut found = Vec::new();
    while !rest.bytes.is_empty() {
        let call = CALLS[usize::from(rest.take(1)[0])];
        found.push(parse(call, &rest.bytes()));
    }
    found
}

#[test]
fn misreadings_are_told_apart() {
    let records = records();
    let told_apart = |variant: &Variant| {
        records.iter().any(|(case, answer, after)| {
            let mut played = case.clone();
            played.run(variant) != *answer || played != *after
        })
    };
    assert!(!told_apart(&RIGHT), "the right calls are accused");
    let all = misreadings();
    let missed: Vec<&str> = all.iter().filter(|(_, variant)| !told_apart(variant)).map(|(name, _)| *name).collect();
    assert!(missed.is_empty(), "not told apart: {missed:?}");
}

#[test]
fn misreadings_of_a_round_are_noticed_by_the_runs() {
    for wanted in ["29 past 512 alone", "a send of 64 at the rack", "21 from 256 on in a viewer", "29 at the rack"] {
        let (_, variant) = misreadings().into_iter().find(|(name, _)| *name == wanted).unwrap();
        assert!(simulate(&variant, 5, 10_000).is_err(), "{wanted}");
    }
}
