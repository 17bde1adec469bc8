//! The paper's figures, all of them.

mod common;

use common::{block_of, p, pillow, pillows};
use peer::balance::{next_move, Choice, NextMove, Oracle};
use peer::calls;
use peer::file;
use peer::generate::Mesh;
use peer::groups::{group_count, put_number, Reader};
use peer::image;
use peer::lent::{Core, OracleNumbers, Peer};
use peer::listing::listing;
use peer::message::{self, Index, Message, Transfer, Update};
use peer::shapes::{self, Map};
use peer::simulate;
use peer::value::{Block, Label, No, Point, Site, Third, Viewers, RACK, VIEWER};

const ROOM: usize = 65_536;

fn label(maker: u8, number: u32, position: u16) -> Label {
    Label { maker, number, position }
}

/// P and Q sewn 1-12, 2-11, 3-10, in block 0.
fn p_and_q() -> Block {
    let mut map = Map::default();
    shapes::pillow(&mut map, 3);
    shapes::pillow(&mut map, 3);
    assert!(map.sew(0, 11));
    block_of(&map, 0, 1)
}

#[test]
fn p_is_as_the_paper_draws_it() {
    let block = p();
    let links: Vec<(u32, u32, u32)> = block.darts.iter().map(|(s, d)| (*s, d.next, d.opposite)).collect();
    assert_eq!(links, [(1, 2, 6), (2, 3, 5), (3, 1, 4), (4, 5, 3), (5, 6, 2), (6, 4, 1)]);
    assert!(block.darts.values().all(|dart| dart.third == Third::Free));
}

#[test]
fn file_of_p_is_171_bytes() {
    let bytes = calls::save_file(&p(), ROOM).unwrap();
    assert_eq!(bytes.len(), 171);
    assert_eq!(calls::read_file(RACK, &bytes), Ok(p()));
    assert_eq!(calls::save_file(&p(), 171).map(|b| b.len()), Ok(171));
    assert_eq!(calls::save_file(&p(), 170), Err(No(15)));
}

#[test]
fn transfer_of_p_is_95_bytes() {
    assert_eq!(calls::send(RACK, &p(), 1, 1, ROOM).unwrap().len(), 95);
    assert_eq!(calls::send(RACK, &p(), 1, 6, 95).unwrap().len(), 95);
    assert_eq!(calls::send(RACK, &p(), 1, 1, 94), Err(No(15)));
}

#[test]
fn transfer_of_a_tetrahedron_is_134_bytes() {
    let mut map = Map::default();
    shapes::pyramid(&mut map, 3);
    let bytes = calls::send(RACK, &block_of(&map, 0, 1), 1, 1, ROOM).unwrap();
    assert_eq!(bytes.len(), 134);
    assert_eq!(bytes[..2], [0x84, 0x01]);
    // The last serial below 128 is 127: still 134 bytes.
    assert_eq!(calls::send(RACK, &block_of(&map, 3, 116), 1, 116, ROOM).unwrap().len(), 134);
    assert_eq!(calls::send(RACK, &block_of(&map, 3, 117), 1, 117, ROOM).unwrap().len(), 135);
}

#[test]
fn p_then_q_move_to_block_1() {
    let start = p_and_q();
    assert_eq!(start.darts[&1].third, Third::Sewn(12));
    assert_eq!(start.darts[&2].third, Third::Sewn(11));
    assert_eq!(start.darts[&3].third, Third::Sewn(10));
    assert!(peer::sound::is_sound(&start, RACK));

    let first = calls::send(RACK, &start, 1, 1, ROOM).unwrap();
    assert_eq!(first.len(), 97);
    let one = calls::receive(RACK, &Block::empty(1), &first).unwrap();
    let zero = calls::release(RACK, &start, 1, 1).unwrap();
    for (ours, theirs, position) in [(1, 12, 0), (2, 11, 1), (3, 10, 2)] {
        assert_eq!(one.darts[&ours].third, Third::Critical { other: 0, label: label(0, 0, position) });
        assert_eq!(zero.darts[&theirs].third, Third::Critical { other: 1, label: label(0, 0, position) });
    }
    assert_eq!(zero.counter, 1);
    assert_eq!(one.counter, 0);

    let second = calls::send(RACK, &zero, 1, 7, ROOM).unwrap();
    assert_eq!(second.len(), 99);
    let both = calls::receive(RACK, &one, &second).unwrap();
    let none = calls::release(RACK, &zero, 1, 7).unwrap();
    assert!(none.darts.is_empty());
    assert_eq!(none.counter, 1);
    assert_eq!(both.darts[&1].third, Third::Sewn(12));
    assert_eq!(both.darts[&12].third, Third::Sewn(1));
    assert_eq!(both.darts, start.darts);
}

#[test]
fn update_is_nine_bytes() {
    let update = Message::Update(Update { from: 0, to: 2, new: 1, labels: vec![label(0, 5, 0)] });
    let bytes = [0x08, 0x02, 0x00, 0x02, 0x01, 0x01, 0x00, 0x05, 0x00];
    assert_eq!(message::encode(&update), bytes);
    assert_eq!(message::decode(&bytes), Some(update));
}

#[test]
fn groups_are_shortest() {
    for (number, groups) in
        [(0, 1), (127, 1), (128, 2), (16_383, 2), (16_384, 3), (1 << 21, 4), (1 << 28, 5), (u32::MAX, 5)]
    {
        let mut bytes = Vec::new();
        put_number(&mut bytes, u64::from(number));
        assert_eq!((bytes.len(), group_count(number)), (groups, groups));
        let mut reader = Reader::new(&bytes);
        assert_eq!(reader.number(), Some(number));
        assert!(reader.at_end());
    }
    let refused: [&[u8]; 6] = [
        &[0x80, 0x00],
        &[0xff, 0x00],
        &[0x80],
        &[],
        &[0xff, 0xff, 0xff, 0xff, 0x10],
        &[0x80, 0x80, 0x80, 0x80, 0x80, 0x01],
    ];
    for bytes in refused {
        assert_eq!(Reader::new(bytes).number(), None);
    }
}

/// The surpluses of a mesh's blocks, 0 for those that it has not.
fn surpluses(of: &[i32]) -> [i32; 16] {
    let mut all = [0; 16];
    all[..of.len()].copy_from_slice(of);
    all
}

/// Plays the next moves, each served; what was told at each, and the counts at the end.
fn told(start: &[usize]) -> (Vec<NextMove>, Vec<usize>) {
    let mut mesh = pillows(start);
    let mut told = Vec::new();
    loop {
        let next = next_move(&mesh, Viewers::NONE, &Oracle::Every).unwrap();
        told.push(next);
        let Choice::Move { donor, recipient, serial } = next.choice else { break };
        let (from, to) = (usize::from(donor), usize::from(recipient));
        let sent = calls::send(RACK, &mesh[from], to as u64, u64::from(serial), ROOM).unwrap();
        mesh[to] = calls::receive(RACK, &mesh[to], &sent).unwrap();
        mesh[from] = calls::release(RACK, &mesh[from], to as u64, u64::from(serial)).unwrap();
    }
    (told, peer::balance::counts(&mesh, &Oracle::Every))
}

#[test]
fn counts_5_1_1_1_take_four_moves() {
    let (told, end) = told(&[5, 1, 1, 1]);
    let moves = [(0, 1, 1), (0, 1, 7), (0, 2, 13), (1, 3, 1)];
    let mut choices: Vec<Choice> =
        moves.map(|(donor, recipient, serial)| Choice::Move { donor, recipient, serial }).to_vec();
    choices.push(Choice::Level);
    assert_eq!(told.iter().map(|next| next.choice).collect::<Vec<_>>(), choices);
    // The total stays, and so does the mean.
    assert!(told.iter().all(|next| next.mean == 2));
    let surplus: Vec<[i32; 16]> = told.iter().map(|next| next.surplus).collect();
    let wanted = [[3, -1, -1, -1], [2, 0, -1, -1], [1, 1, -1, -1], [0, 1, 0, -1], [0, 0, 0, 0]];
    assert_eq!(surplus, wanted.map(|of| surpluses(&of)));
    assert_eq!(end, [2, 2, 2, 2]);
    let every = OracleNumbers { oracle: 0, axis: 0, floats: [0; 6] };
    assert_eq!(simulate::balance(&Peer, &Mesh::of_the_rack(pillows(&[5, 1, 1, 1])), &every), Ok(4));
}

#[test]
fn counts_3_1_1_end_at_2_2_1() {
    let (told, end) = told(&[3, 1, 1]);
    let first = Choice::Move { donor: 0, recipient: 1, serial: 1 };
    let wanted = [(first, [2, 0, 0]), (Choice::Level, [1, 1, 0])];
    assert_eq!(told, wanted.map(|(choice, of)| NextMove { choice, mean: 1, surplus: surpluses(&of) }));
    assert_eq!(end, [2, 2, 1]);
}

#[test]
fn a_block_has_at_most_4096_darts() {
    let full = pillow(2048, 0, 1);
    let bytes = calls::save_file(&full, 200_000).unwrap();
    let mut memory = vec![7; image::WORDS];
    assert_eq!(Peer.read_file(Site::Rack, &bytes, &mut memory), 0);
    assert_eq!(image::sound_block(&memory, RACK), Some(full));
    // 4,098 darts, all right but their number.
    let over = file::encode(&pillow(2049, 0, 1));
    assert_eq!(calls::read_file(RACK, &over), Err(No(3)));
    // 4,097 darts, the last one beside a full block.
    let mut odd = pillow(2048, 0, 1);
    let mut lone = odd.darts[&1];
    (lone.next, lone.opposite) = (5000, 5000);
    odd.darts.insert(5000, lone);
    assert_eq!(calls::read_file(RACK, &file::encode(&odd)), Err(No(3)));
    // A header that says 4,097 or more is no image.
    memory[2] = 4097;
    let before = memory.clone();
    assert_eq!(Peer.release(Site::Rack, &mut memory, 1, 1), 2);
    assert_eq!(memory, before);
    // Afterwards 4,096 is served, 4,098 refused by 21.
    let transfer = calls::send(RACK, &pillow(4, 0, 9001), 1, 9001, ROOM).unwrap();
    assert_eq!(calls::receive(RACK, &pillow(2044, 1, 1), &transfer).unwrap().darts.len(), 4096);
    assert_eq!(calls::receive(RACK, &pillow(2045, 1, 1), &transfer), Err(No(21)));
}

#[test]
fn a_volume_that_moves_has_at_most_512_darts() {
    let sent = calls::send(RACK, &pillow(256, 0, 1), 1, 1, ROOM).unwrap();
    assert_eq!(calls::receive(RACK, &Block::empty(1), &sent).unwrap().darts.len(), 512);
    assert_eq!(calls::send(RACK, &pillow(257, 0, 1), 1, 1, ROOM), Err(No(11)));
    assert_eq!(calls::release(RACK, &pillow(257, 0, 1), 1, 1), Err(No(11)));
    let Some(Message::Transfer(mut transfer)) = message::decode(&sent) else { panic!("a transfer") };
    // One dart more makes 513.
    transfer.faces[1].push((0, 600));
    assert_eq!(transfer.dart_count(), 513);
    let bytes = message::encode(&Message::Transfer(transfer));
    assert_eq!(calls::receive(RACK, &Block::empty(1), &bytes), Err(No(16)));
}

#[test]
fn a_viewer_has_at_most_256_darts() {
    assert_eq!((image::VIEWER_WORDS, image::WORDS), (2056, 32_776));
    let mut memory = vec![7; image::VIEWER_WORDS];
    let full = pillow(128, 0, 1);
    assert_eq!(Peer.read_file(Site::Viewer, &file::encode(&full), &mut memory), 0);
    assert_eq!(memory, image::encode(&full)[..image::VIEWER_WORDS]);
    assert_eq!(image::sound_block(&memory, VIEWER), Some(full.clone()));
    let (mut out, mut written) = (vec![0; 12_552], 0);
    assert_eq!(Peer.save_file(Site::Viewer, &memory, &mut out, &mut written), 0);
    assert_eq!(&out[..written as usize], file::encode(&full));
    // 258 darts, all right but their number; 257, the last one beside a full block.
    assert_eq!(calls::read_file(VIEWER, &file::encode(&pillow(129, 0, 1))), Err(No(3)));
    let mut odd = full;
    let mut lone = odd.darts[&1];
    (lone.next, lone.opposite) = (5000, 5000);
    odd.darts.insert(5000, lone);
    assert_eq!(calls::read_file(VIEWER, &file::encode(&odd)), Err(No(3)));
    // A header that says 257 or more is no image.
    for count in [257, 258, 4096] {
        memory[2] = count;
        let before = memory.clone();
        assert_eq!(Peer.release(Site::Viewer, &mut memory, 1, 1), 2);
        assert_eq!(memory, before);
    }
    // Afterwards 256 is served, 258 refused by 21.
    let transfer = calls::send(RACK, &pillow(4, 0, 9001), 1, 9001, ROOM).unwrap();
    assert_eq!(calls::receive(VIEWER, &pillow(124, 1, 1), &transfer).unwrap().darts.len(), 256);
    assert_eq!(calls::receive(VIEWER, &pillow(125, 1, 1), &transfer), Err(No(21)));
    assert_eq!(calls::receive(RACK, &pillow(125, 1, 1), &transfer).unwrap().darts.len(), 258);
}

/// The longest file: every number and every label as long as can be.
#[test]
fn a_viewers_file_has_at_most_12552_bytes() {
    let mut block = pillow(128, 15, u32::MAX - 255);
    block.counter = u32::MAX;
    for (number, dart) in (1..).zip(block.darts.values_mut()) {
        let label = label(14, u32::MAX - number, 4095 - number as u16);
        dart.third = Third::Critical { other: 3, label };
    }
    assert!(peer::sound::is_sound(&block, VIEWER));
    // Five for each serial, a byte for kind, other block and maker, five and two for number and position, three coordinates.
    assert_eq!(file::encode(&block).len(), 8 + 49 * 256);
}

#[test]
fn a_volume_out_of_a_viewer_has_at_most_64_darts() {
    let sent = calls::send(VIEWER, &pillow(32, 0, 1), 1, 1, ROOM).unwrap();
    assert_eq!(calls::receive(VIEWER, &Block::empty(1), &sent).unwrap().darts.len(), 64);
    assert!(calls::release(VIEWER, &pillow(32, 0, 1), 1, 1).unwrap().darts.is_empty());
    assert_eq!(calls::send(VIEWER, &pillow(33, 0, 1), 1, 1, ROOM), Err(No(11)));
    assert_eq!(calls::release(VIEWER, &pillow(33, 0, 1), 1, 1), Err(No(11)));
    let sent = calls::send(RACK, &pillow(33, 0, 1), 1, 1, ROOM).unwrap();
    assert_eq!(calls::receive(VIEWER, &Block::empty(1), &sent), Err(No(29)));
}

#[test]
fn listing_of_p() {
    let text = "block 0 darts 6 counter 0\n1 2 6 free\n2 3 5 free\n3 1 4 free\n4 5 3 free\n5 6 2 free\n6 4 1 free\n";
    assert_eq!(listing(&file::encode(&p())), text);
}

#[test]
fn listing_of_others() {
    let sewn = listing(&file::encode(&p_and_q()));
    assert!(sewn.starts_with("block 0 darts 12 counter 0\n1 2 6 sewn 12\n"), "{sewn}");
    let left = calls::release(RACK, &p_and_q(), 1, 1).unwrap();
    let critical = listing(&file::encode(&left));
    assert!(critical.ends_with("10 11 9 crit 1 0.0.2\n11 12 8 crit 1 0.0.1\n12 10 7 crit 1 0.0.0\n"), "{critical}");
    assert_eq!(listing(&[0; 65_537]), "too long\n");
    assert_eq!(listing(&[0; 65_536]), "refused 3\n");
    assert_eq!(listing(&[]), "refused 3\n");
    assert_eq!(listing(&[0, 0, 0]), "block 0 darts 0 counter 0\n");
    assert_eq!(listing(&[0, 0x80, 0]), "refused 3\n");
}

#[test]
fn parts_of_a_transfer_stand_in_order() {
    // A pillow with one face critical with the receiver and one with block 2.
    let mut block = p();
    for (serial, other, position) in [(1, 1, 7), (2, 1, 8), (3, 1, 9), (4, 2, 3), (5, 2, 1), (6, 2, 2)] {
        let third = Third::Critical { other, label: label(5, 6, position) };
        block.darts.get_mut(&serial).unwrap().third = third;
    }
    let sent = calls::send(RACK, &block, 1, 5, ROOM).unwrap();
    let messages = message::split(&sent).unwrap();
    assert_eq!(messages.len(), 2);
    let points: Vec<Point> = [1, 2, 3].iter().map(|s| block.darts[s].point).collect();
    let transfer = Transfer {
        from: 0,
        to: 1,
        points,
        faces: vec![vec![(0, 1), (1, 2), (2, 3)], vec![(0, 4), (2, 5), (1, 6)]],
        part2: vec![(label(5, 6, 7), Index(0))],
        part3: vec![],
        part4: vec![(Index(3), 2, vec![label(5, 6, 3), label(5, 6, 1), label(5, 6, 2)])],
    };
    assert_eq!(message::decode(messages[0]), Some(Message::Transfer(transfer)));
    let update = Update { from: 0, to: 2, new: 1, labels: vec![label(5, 6, 1)] };
    assert_eq!(message::decode(messages[1]), Some(Message::Update(update)));
}
