//! Places where the papers could be read in two ways, and the order of questions.

mod common;

use common::{p, pillow, pillows};
use peer::balance::{next_move, Choice, NextMove, Oracle};
use peer::calls::{read_file, receive, redirect, send};
use peer::file;
use peer::image::{self, ANSWER, SCRATCH, WORDS};
use peer::lent::{Core, OracleNumbers, Peer};
use peer::mesh;
use peer::message::{self, Index, Message, Transfer, Update};
use peer::value::{Answer, Block, Label, No, Point, Site, Third, Viewers, RACK, VIEWER};

const ROOM: usize = 65_536;

fn label(maker: u8, number: u32, position: u16) -> Label {
    Label { maker, number, position }
}

/// Makes the darts of a face critical, with labels in the order of the serials.
fn critical(block: &mut Block, serials: [u32; 3], other: u8, labels: [Label; 3]) {
    for (serial, label) in serials.into_iter().zip(labels) {
        block.darts.get_mut(&serial).unwrap().third = Third::Critical { other, label };
    }
}

/// A block with all points equal, so that any turn of a face fits.
fn flat(mut block: Block) -> Block {
    block.darts.values_mut().for_each(|dart| dart.point = Point::of([1.0, 2.0, -0.0]));
    block
}

fn transfer(bytes: &[u8]) -> Transfer {
    match message::decode(bytes) {
        Some(Message::Transfer(transfer)) => transfer,
        other => panic!("{other:?}"),
    }
}

fn sent(change: impl Fn(&mut Transfer)) -> Vec<u8> {
    let mut t = transfer(&send(RACK, &p(), 1, 1, ROOM).unwrap());
    change(&mut t);
    message::encode(&Message::Transfer(t))
}

fn update(update: Update) -> Vec<u8> {
    message::encode(&Message::Update(update))
}

#[test]
fn a_face_critical_with_two_blocks_is_6() {
    let mut block = p();
    critical(&mut block, [1, 2, 3], 1, [label(2, 0, 0), label(2, 0, 1), label(2, 0, 2)]);
    assert_eq!(read_file(RACK, &file::encode(&block)), Ok(block.clone()));
    block.darts.get_mut(&2).unwrap().third = Third::Critical { other: 2, label: label(2, 0, 1) };
    assert_eq!(read_file(RACK, &file::encode(&block)), Err(No(6)));
}

#[test]
fn both_layouts_are_read_by_both_calls() {
    let transfer = send(RACK, &p(), 1, 1, ROOM).unwrap();
    let fits = update(Update { from: 0, to: 1, new: 2, labels: vec![] });
    assert_eq!(receive(RACK, &Block::empty(1), &fits), Err(No(17)));
    assert_eq!(redirect(&Block::empty(1), &transfer), Err(No(17)));
    let mut broken = fits.clone();
    broken[5] = 1;
    assert_eq!(receive(RACK, &Block::empty(1), &broken), Err(No(16)));
    let mut broken = transfer;
    broken[4] = 4;
    assert_eq!(redirect(&Block::empty(1), &broken), Err(No(16)));
}

#[test]
fn indices_past_the_darts() {
    let one = Block::empty(1);
    let labels = vec![label(9, 0, 0), label(9, 0, 1), label(9, 0, 2)];
    assert_eq!(receive(RACK, &one, &sent(|t| t.part2.push((label(0, 0, 0), Index(6))))), Err(No(20)));
    assert_eq!(receive(RACK, &one, &sent(|t| t.part3.push((4, Index(6))))), Err(No(20)));
    assert_eq!(receive(RACK, &one, &sent(|t| t.part3.push((4, Index(u32::MAX))))), Err(No(20)));
    assert_eq!(receive(RACK, &one, &sent(|t| t.part4.push((Index(6), 5, labels.clone())))), Err(No(16)));
    // Inside a face: its number of labels is read, then 20.
    assert_eq!(receive(RACK, &one, &sent(|t| t.part4.push((Index(4), 5, labels.clone())))), Err(No(20)));
    assert!(receive(RACK, &one, &sent(|t| t.part4.push((Index(3), 5, labels.clone())))).is_ok());
}

#[test]
fn vertices_are_the_rings() {
    let one = Block::empty(1);
    assert_eq!(receive(RACK, &one, &sent(|t| t.points.push(Point::default()))), Err(No(19)));
    assert_eq!(receive(RACK, &one, &sent(|t| t.points.push(Point([0x7ff0_0000_0000_0000, 0, 0])))), Err(No(18)));
    assert_eq!(receive(RACK, &one, &sent(|t| t.points.truncate(2))), Err(No(19)));
    assert_eq!(receive(RACK, &one, &sent(|t| t.faces[0][0].0 = 3)), Err(No(19)));
    assert_eq!(receive(RACK, &one, &sent(|t| t.faces.push(vec![]))), Err(No(19)));
    assert_eq!(receive(RACK, &one, &sent(|t| t.faces.clear())), Err(No(16)));
}

#[test]
fn any_label_of_a_part_2_face_that_fits_is_taken() {
    let mut held = flat(pillow(3, 1, 101));
    critical(&mut held, [101, 102, 103], 0, [label(5, 0, 0), label(5, 0, 1), label(5, 0, 2)]);
    let mut arriving = flat(p());
    critical(&mut arriving, [1, 2, 3], 1, [label(5, 0, 0), label(5, 0, 2), label(5, 0, 1)]);
    let bytes = send(RACK, &arriving, 1, 1, ROOM).unwrap();
    assert_eq!(receive(RACK, &held, &bytes).unwrap().darts[&1].third, Third::Sewn(101));
    let mut turned = transfer(&bytes);
    turned.part2[0].0 = label(5, 0, 1);
    let after = receive(RACK, &held, &message::encode(&Message::Transfer(turned.clone()))).unwrap();
    assert_eq!(after.darts[&1].third, Third::Sewn(102));
    assert_eq!(after.darts[&2].third, Third::Sewn(101));
    assert_eq!(after.darts[&3].third, Third::Sewn(103));
    assert!(peer::sound::is_sound(&after, RACK));
    // New means not held by the block as given, even where part 2 would remove it.
    turned.part4.push((Index(3), 7, vec![label(5, 0, 0), label(5, 1, 1), label(5, 1, 2)]));
    assert_eq!(receive(RACK, &held, &message::encode(&Message::Transfer(turned))), Err(No(20)));
}

#[test]
fn part_3_starts_at_any_number() {
    let one = Block::empty(1);
    let after = receive(RACK, &one, &sent(|t| t.part3 = vec![(u32::MAX - 1, Index(0)), (u32::MAX, Index(3))])).unwrap();
    assert_eq!(after.darts[&5].third, Third::Critical { other: 0, label: label(0, u32::MAX, 1) });
    assert_eq!(receive(RACK, &one, &sent(|t| t.part3 = vec![(u32::MAX, Index(0)), (0, Index(3))])), Err(No(20)));
    assert_eq!(receive(RACK, &one, &sent(|t| t.part3 = vec![(7, Index(0)), (9, Index(3))])), Err(No(20)));
    assert_eq!(receive(RACK, &one, &sent(|t| t.part3 = vec![(7, Index(0)), (7, Index(3))])), Err(No(20)));
}

#[test]
fn updates_may_list_some_faces_in_any_order() {
    let mut block = p();
    critical(&mut block, [1, 2, 3], 4, [label(9, 1, 2), label(9, 1, 1), label(9, 0, 3)]);
    critical(&mut block, [4, 5, 6], 4, [label(8, 1, 0), label(8, 1, 1), label(8, 1, 2)]);
    let (one, two) = (label(9, 0, 3), label(8, 1, 0));
    let with = |labels: Vec<Label>| redirect(&block, &update(Update { from: 4, to: 0, new: 5, labels }));
    assert_eq!(with(vec![]), Ok(block.clone()));
    let after = with(vec![one, two]).unwrap();
    assert!(after.darts.values().all(|dart| matches!(dart.third, Third::Critical { other: 5, .. })));
    assert_eq!(with(vec![two, one]), Ok(after));
    let half = with(vec![one]).unwrap();
    assert!(matches!(half.darts[&2].third, Third::Critical { other: 5, .. }));
    assert!(matches!(half.darts[&5].third, Third::Critical { other: 4, .. }));
    for wrong in [vec![one, one], vec![label(9, 1, 1)], vec![label(1, 1, 1)], vec![one, label(9, 1, 2)]] {
        assert_eq!(with(wrong), Err(No(22)));
    }
    for (from, new) in [(4, 4), (4, 0), (3, 5)] {
        assert_eq!(redirect(&block, &update(Update { from, to: 0, new, labels: vec![one] })), Err(No(22)));
    }
    assert_eq!(redirect(&block, &update(Update { from: 0, to: 0, new: 5, labels: vec![] })), Err(No(17)));
}

#[test]
fn the_first_no_gives_the_number() {
    let one = Block::empty(1);
    let wrong = |t: &mut Transfer| {
        t.points[0].0[0] = f64::NAN.to_bits();
        t.faces[0][0].0 = 9;
        t.part3.push((0, Index(1)));
    };
    assert_eq!(receive(RACK, &Block::empty(2), &sent(wrong)), Err(No(17)));
    assert_eq!(receive(RACK, &one, &sent(wrong)), Err(No(18)));
    assert_eq!(send(RACK, &p(), 0, 0, 0), Err(No(9)));
    assert_eq!(send(RACK, &p(), 16, 0, 0), Err(No(9)));
    assert_eq!(send(RACK, &p(), 1, 0, 0), Err(No(10)));
    assert_eq!(send(RACK, &p(), 1, 1 << 32 | 1, 0), Err(No(10)));
    assert_eq!(Peer.empty(Site::Rack, 16, &mut []), 1);
    assert_eq!(Peer.empty(Site::Rack, 16, &mut vec![0; WORDS]), 9);
    assert_eq!(Peer.read_file(Site::Rack, &[], &mut []), 1);
    assert_eq!(Peer.receive(Site::Rack, &mut vec![1; WORDS], &[]), 2);
}

#[test]
fn mesh_questions_in_order() {
    let mut scratch = vec![0; SCRATCH];
    let mut check = |mesh: &[u64]| Peer.check_mesh(mesh, Viewers::NONE, &mut scratch);
    let words = |blocks: &[Block]| blocks.iter().flat_map(image::encode).collect::<Vec<u64>>();
    assert_eq!(check(&[]), 23);
    assert_eq!(check(&[0; 5]), 1);
    assert_eq!(check(&words(&[Block::empty(0)])), 0);
    assert_eq!(check(&words(&[Block::empty(1)])), 23);
    let sixteen: Vec<Block> = (0..16).map(Block::empty).collect();
    assert_eq!(check(&words(&sixteen)), 0);
    let mut seventeen = words(&sixteen);
    seventeen.extend(image::encode(&Block::empty(0)));
    assert_eq!(check(&seventeen), 23);
    // 2 for any block comes before 23.
    seventeen[16 * WORDS + 7] = 1;
    assert_eq!(check(&seventeen), 2);
    assert_eq!(Peer.check_mesh(&[], Viewers::NONE, &mut vec![0; SCRATCH - 1]), 1);
    let mut stained = vec![0; SCRATCH];
    stained[SCRATCH - 1] = 1;
    assert_eq!(Peer.check_mesh(&seventeen, Viewers::NONE, &mut stained), 1);

    // A named block outside the mesh is 25, a maker outside it 27.
    let (mut zero, mut one) = (p(), pillow(3, 1, 11));
    let labels = [label(0, 0, 0), label(0, 0, 1), label(0, 0, 2)];
    zero.counter = 1;
    critical(&mut zero, [1, 2, 3], 1, labels);
    // The paired face runs the other way; its points are those across.
    critical(&mut one, [11, 13, 12], 0, labels);
    for (mine, theirs) in [(1, 11), (2, 13), (3, 12)] {
        let point = zero.darts[&mine].point;
        let after = one.darts[&theirs].next;
        let mut at = after;
        loop {
            one.darts.get_mut(&at).unwrap().point = point;
            at = one.darts[&one.darts[&at].opposite].next;
            if at == after {
                break;
            }
        }
    }
    assert_eq!(mesh::check(&[zero.clone(), one.clone()]), Ok(()));
    let mut outside = zero.clone();
    critical(&mut outside, [1, 2, 3], 2, labels);
    assert_eq!(mesh::check(&[outside, one.clone()]), Err(No(25)));
    let far = labels.map(|l| Label { maker: 2, ..l });
    let (mut zero2, mut one2) = (zero.clone(), one.clone());
    critical(&mut zero2, [1, 2, 3], 1, far);
    critical(&mut one2, [11, 13, 12], 0, far);
    assert_eq!(mesh::check(&[zero2.clone(), one2.clone()]), Err(No(27)));
    assert_eq!(mesh::check(&[zero2.clone(), one2.clone(), Block::empty(2)]), Err(No(27)));
    let two = Block { counter: 1, ..Block::empty(2) };
    assert_eq!(mesh::check(&[zero2, one2, two]), Ok(()));
    // Labels in the face's own direction are not paired.
    let mut own = one.clone();
    critical(&mut own, [11, 12, 13], 0, labels);
    assert_eq!(mesh::check(&[zero.clone(), own]), Err(No(25)));
    // Points that differ by the sign of a zero do not agree.
    let mut sign = one;
    sign.darts.values_mut().for_each(|dart| dart.point.0[2] ^= 1 << 63);
    assert_eq!(mesh::check(&[zero, sign]), Err(No(26)));
}

/// What the rule chooses, whatever is told beside it.
fn choice(mesh: &[Block], oracle: &Oracle) -> Answer<Choice> {
    next_move(mesh, Viewers::NONE, oracle).map(|next| next.choice)
}

fn from_to(donor: u8, recipient: u8, serial: u32) -> Answer<Choice> {
    Ok(Choice::Move { donor, recipient, serial })
}

#[test]
fn oracles_compare_numbers() {
    let at = |z: f64| {
        let mut block = p();
        block.darts.values_mut().for_each(|dart| dart.point = Point::of([0.0, 0.0, z]));
        block
    };
    let zeros = Oracle::Box { low: Point::of([0.0; 3]), high: Point::of([-0.0; 3]) };
    let moves = from_to(0, 1, 1);
    let two = |z: f64| {
        let mut block = at(z);
        let mut other = pillow(3, 0, 7);
        other.darts.values_mut().for_each(|dart| dart.point = Point::of([0.0, 0.0, z]));
        block.darts.extend(other.darts);
        vec![block, Block::empty(1)]
    };
    // Empty blocks count: two cells over two blocks.
    assert_eq!(choice(&two(-0.0), &Oracle::Every), moves);
    assert_eq!(choice(&two(-0.0), &zeros), moves);
    assert_eq!(choice(&two(5e-324), &zeros), Ok(Choice::Level));
    // P has x 0, 1, 2: strictly below and strictly above.
    let mesh = pillows(&[2, 0]);
    let plane = |value: f64| choice(&mesh, &Oracle::Plane { axis: 0, value });
    assert_eq!(plane(0.0), Ok(Choice::Level));
    assert_eq!(plane(5e-324), moves);
    assert_eq!(plane(2.0), Ok(Choice::Level));
    assert_eq!(plane(1.0), moves);
    assert_eq!(plane(f64::NAN), Err(No(28)));
    assert_eq!(choice(&mesh, &Oracle::Plane { axis: 3, value: 0.0 }), Err(No(28)));
}

#[test]
fn a_donor_has_two_more_than_the_recipient() {
    let of = |counts: &[usize]| choice(&pillows(counts), &Oracle::Every);
    for level in [&[0][..], &[7], &[0, 0], &[3, 3, 3], &[1, 0], &[0, 1], &[2, 1, 2, 1], &[4, 4, 3, 4]] {
        assert_eq!(of(level), Ok(Choice::Level), "{level:?}");
    }
    assert_eq!(of(&[2, 0]), from_to(0, 1, 1));
    assert_eq!(of(&[0, 2]), from_to(1, 0, 1));
    assert_eq!(of(&[2, 1, 0]), from_to(0, 2, 1));
    // The least numbers, not the greatest count or the least.
    assert_eq!(of(&[3, 1, 9]), from_to(0, 1, 1));
    assert_eq!(of(&[3, 1, 0]), from_to(0, 1, 1));
    assert_eq!(of(&[1, 2, 3]), from_to(2, 0, 19));
}

#[test]
fn the_mean_does_not_choose() {
    let of = |counts: &[usize]| next_move(&pillows(counts), Viewers::NONE, &Oracle::Every).unwrap();
    let from_0_to_1 = Choice::Move { donor: 0, recipient: 1, serial: 1 };
    // Donors below the mean and at it, recipients at it and above it.
    for (counts, mean) in
        [(&[2, 0, 7][..], 3), (&[2, 0, 4], 2), (&[3, 1, 1], 1), (&[4, 1, 1, 1], 1), (&[4, 2, 0, 0], 1)]
    {
        let next = of(counts);
        assert_eq!((next.choice, next.mean), (from_0_to_1, mean), "{counts:?}");
    }
}

#[test]
fn level_and_blocked_tell_mean_and_surpluses() {
    let with = |first: &[i32]| {
        let mut surplus = [0; 16];
        surplus[..first.len()].copy_from_slice(first);
        surplus
    };
    let level = NextMove { choice: Choice::Level, mean: 1, surplus: with(&[0, 1, 1]) };
    assert_eq!(next_move(&pillows(&[1, 2, 2]), Viewers::NONE, &Oracle::Every), Ok(level));
    let none = NextMove { choice: Choice::Level, mean: 0, surplus: [0; 16] };
    assert_eq!(next_move(&pillows(&[0; 16]), Viewers::NONE, &Oracle::Every), Ok(none));
    // Loops, which question 13 keeps where they are; with one more in the other block nobody is below the mean.
    let mut block = pillow(1, 0, 1);
    block.darts.extend(pillow(1, 0, 3).darts);
    let blocked = |mean: u32, first: &[i32]| Ok(NextMove { choice: Choice::Blocked, mean, surplus: with(first) });
    assert_eq!(next_move(&[block.clone(), Block::empty(1)], Viewers::NONE, &Oracle::Every), blocked(1, &[1, -1]));
    block.darts.extend(pillow(1, 0, 5).darts);
    let mesh = [block, pillow(1, 1, 7), pillow(1, 2, 9)];
    assert_eq!(next_move(&mesh, Viewers::NONE, &Oracle::Every), blocked(1, &[2, 0, 0]));
}

#[test]
fn what_may_not_move_is_passed_over() {
    let every = |mesh: &[Block]| choice(mesh, &Oracle::Every);
    // Loops first: neither they nor their block give.
    let mut loops = pillow(1, 0, 1);
    loops.darts.extend(pillow(1, 0, 3).darts);
    let mut others = pillow(3, 2, 20);
    others.darts.extend(pillow(1, 2, 10).darts);
    assert_eq!(every(&[loops, Block::empty(1), others]), from_to(2, 1, 20));
    // A recipient with room for six darts takes no eight, and goes before one with more room.
    let mut donor = pillow(4, 0, 1);
    donor.darts.extend(pillow(3, 0, 11).darts);
    donor.darts.extend(pillow(4, 0, 21).darts);
    let mesh = |sides: usize| vec![donor.clone(), pillow(sides, 1, 100), pillow(3, 2, 5000)];
    assert_eq!(every(&mesh(2045)), from_to(0, 1, 11));
    assert_eq!(every(&mesh(2046)), from_to(0, 2, 1));
    assert_eq!(every(&mesh(2044)), from_to(0, 1, 1));
}

#[test]
fn the_answer_has_21_words() {
    const STALE: u64 = 0x77;
    let oracle = OracleNumbers { oracle: 0, axis: 0, floats: [0; 6] };
    let ask = |counts: &[usize], size: usize| {
        let mesh: Vec<u64> = pillows(counts).iter().flat_map(image::encode).collect();
        let mut answer = vec![STALE; size];
        let number = Peer.next_move(&mesh, Viewers::NONE, &oracle, &mut vec![0; SCRATCH], &mut answer);
        (number, answer)
    };
    let (number, answer) = ask(&[0, 0, 5], ANSWER);
    let mut wanted = vec![2, 2, 0, 1, 1, u64::MAX, u64::MAX, 4];
    wanted.resize(21, 0);
    assert_eq!((number, answer), (0, wanted));
    let (number, answer) = ask(&[1, 2], ANSWER);
    let mut wanted = vec![0, 0, 0, 0, 1, 0, 1];
    wanted.resize(21, 0);
    assert_eq!((number, answer), (0, wanted));
    for size in [0, 4, 5, 20, 22, 42] {
        assert_eq!(ask(&[2, 0], size), (1, vec![STALE; size]));
    }
    // The size of the answer goes with those of mesh and scratch, before all else.
    let unsound = vec![1; WORDS];
    assert_eq!(Peer.next_move(&unsound, Viewers::NONE, &oracle, &mut vec![0; SCRATCH], &mut [0; 4]), 1);
    assert_eq!(Peer.next_move(&unsound, Viewers::NONE, &oracle, &mut vec![0; SCRATCH], &mut [0; ANSWER]), 2);
}

/// Blocks of pillows, each given by its sides; serials in the order given.
fn piles(sides: &[&[usize]]) -> Vec<Block> {
    let mut serial = 1;
    let mut blocks: Vec<Block> = (0..sides.len()).map(|number| Block::empty(number as u8)).collect();
    for (block, sides) in blocks.iter_mut().zip(sides) {
        for n in *sides {
            block.darts.extend(pillow(*n, 0, serial).darts);
            serial += 2 * *n as u32;
        }
    }
    blocks
}

/// Memory of a viewer.
fn viewer_words(block: &Block) -> Vec<u64> {
    image::encode_at(Site::Viewer, block)
}

#[test]
fn a_transfer_for_a_viewer_is_asked_29_straight_after_17() {
    let to_one = |sides: usize| send(RACK, &pillow(sides, 0, 1), 1, 1, ROOM).unwrap();
    let one = Block::empty(1);
    let at = |block: &Block, bytes: &[u8]| receive(VIEWER, block, bytes).map(|after| after.darts.len());
    assert_eq!(at(&one, &to_one(32)), Ok(64));
    for sides in [33, 100, 256] {
        assert_eq!(at(&one, &to_one(sides)), Err(No(29)));
        // 17 comes first: to another block, from the receiver, an update.
        assert_eq!(at(&Block::empty(2), &to_one(sides)), Err(No(17)));
        assert_eq!(receive(RACK, &one, &to_one(sides)).map(|after| after.darts.len()), Ok(2 * sides));
    }
    let with = |change: &dyn Fn(&mut Transfer)| {
        let mut t = transfer(&to_one(33));
        change(&mut t);
        message::encode(&Message::Transfer(t))
    };
    assert_eq!(at(&one, &with(&|t| t.from = 1)), Err(No(17)));
    // 29 comes before all that follow.
    for (number, bytes) in [
        (18, with(&|t| t.faces[0][0].1 = 0)),
        (18, with(&|t| t.points[0].0[0] = f64::NAN.to_bits())),
        (19, with(&|t| t.faces[0].rotate_left(1))),
        (20, with(&|t| t.part3.push((0, Index(1))))),
    ] {
        assert_eq!(at(&one, &bytes), Err(No(29)));
        assert_eq!(receive(RACK, &one, &bytes), Err(No(number)));
    }
    // A serial that is held, and no room: 29 again.
    let full = pillow(126, 1, 1);
    assert_eq!(at(&full, &to_one(33)), Err(No(29)));
    assert_eq!(receive(RACK, &full, &to_one(33)), Err(No(18)));
    // 65 darts are no volume's, and yet more than 64.
    let mut odd = transfer(&to_one(32));
    odd.faces[1].push((0, 9000));
    let odd = message::encode(&Message::Transfer(odd));
    assert_eq!(at(&one, &odd), Err(No(29)));
    assert_eq!(receive(RACK, &one, &odd), Err(No(19)));
}

#[test]
fn messages_have_512_darts_for_everybody() {
    let sent = send(RACK, &pillow(256, 0, 1), 1, 1, ROOM).unwrap();
    let mut over = transfer(&sent);
    over.faces[1].push((0, 600));
    let over = message::encode(&Message::Transfer(over));
    let empty = viewer_words(&Block::empty(1));
    for (bytes, receives, redirects) in [(&sent, 29, 17), (&over, 16, 16)] {
        let mut block = empty.clone();
        assert_eq!(Peer.receive(Site::Viewer, &mut block, bytes), receives);
        assert_eq!(Peer.redirect(Site::Viewer, &mut block, bytes), redirects);
        assert_eq!(block, empty);
    }
}

#[test]
fn memory_of_one_site_is_refused_by_1_at_the_other() {
    let file = file::encode(&p());
    let sent = send(RACK, &pillow(3, 1, 9), 0, 9, ROOM).unwrap();
    for (site, memory) in [(Site::Viewer, image::encode(&p())), (Site::Rack, viewer_words(&p()))] {
        let (mut block, mut out, mut written) = (memory.clone(), vec![7; 200], 99);
        let answers = [
            Peer.empty(site, 0, &mut block),
            Peer.read_file(site, &file, &mut block),
            Peer.save_file(site, &memory, &mut out, &mut written),
            Peer.send(site, &memory, 1, 1, &mut out, &mut written),
            Peer.receive(site, &mut block, &sent),
            Peer.release(site, &mut block, 1, 1),
            Peer.redirect(site, &mut block, &sent),
        ];
        assert_eq!(answers, [1; 7]);
        assert_eq!((block, out, written), (memory, vec![7; 200], 99));
    }
}

#[test]
fn the_number_in_the_image_tells_whose_block_it_is() {
    let check = |blocks: &[Block], bits: u32| {
        let mesh: Vec<u64> = blocks.iter().flat_map(image::encode).collect();
        Peer.check_mesh(&mesh, Viewers(bits), &mut vec![0; SCRATCH])
    };
    let with = |sides: usize| [Block::empty(0), pillow(sides, 1, 1)];
    assert_eq!(check(&with(128), 0b10), 0);
    assert_eq!(check(&with(129), 0b10), 2);
    // Other bits, those of blocks that are not there and bits 16 to 31 tell nothing.
    for bits in [0, 0b01, 0xffff_fffd, 0xffff_0000, 1 << 17] {
        assert_eq!(check(&with(129), bits), 0, "{bits:#b}");
    }
    // Numbered 1 in place 0, and 0 in place 1: 2 comes before 23.
    assert_eq!(check(&[pillow(129, 1, 1)], 0b10), 2);
    assert_eq!(check(&[pillow(129, 1, 1)], 0b01), 23);
    assert_eq!(check(&[pillow(128, 1, 1)], 0b10), 23);
    let turned = [pillow(3, 1, 1), pillow(129, 0, 10)];
    assert_eq!(check(&turned, 0b01), 2);
    assert_eq!(check(&turned, 0b10), 23);
    // 2 of the last before 24 of the first.
    assert_eq!(check(&[pillow(3, 0, 1), pillow(3, 1, 1), pillow(129, 2, 9)], 0b100), 2);
    assert_eq!(check(&[pillow(3, 0, 1), pillow(3, 1, 1), pillow(129, 2, 9)], 0b011), 24);
}

#[test]
fn a_next_move_reads_64_at_either_end_and_256_at_the_recipient() {
    let next =
        |sides: &[&[usize]], bits: u32| next_move(&piles(sides), Viewers(bits), &Oracle::Every).map(|next| next.choice);
    let blocked = Ok(Choice::Blocked);
    for bits in [0b10, 0b01, 0b11] {
        assert_eq!(next(&[&[33, 3], &[]], bits), from_to(0, 1, 67));
        assert_eq!(next(&[&[33, 33], &[]], bits), blocked);
        assert_eq!(next(&[&[32, 33], &[]], bits), from_to(0, 1, 1));
    }
    assert_eq!(next(&[&[33, 33], &[]], 0xffff_fffc), from_to(0, 1, 1));
    assert_eq!(next(&[&[33, 33], &[], &[]], 0b010), from_to(0, 2, 1));
    assert_eq!(next(&[&[33, 33], &[], &[]], 0b100), from_to(0, 1, 1));
    // Who is not an end of the move has no say.
    assert_eq!(next(&[&[3], &[33, 33, 33], &[]], 0b001), from_to(1, 2, 7));
    assert_eq!(next(&[&[3, 3, 3], &[125]], 0b10), from_to(0, 1, 1));
    assert_eq!(next(&[&[3, 3, 3], &[126]], 0b10), blocked);
    assert_eq!(next(&[&[3, 3, 3], &[126]], 0b01), from_to(0, 1, 1));
    assert_eq!(next(&[&[3, 3, 3], &[126], &[]], 0b010), from_to(0, 2, 1));
    // Send at the rack does not know who gets the volume.
    assert!(send(RACK, &pillow(33, 0, 1), 1, 1, ROOM).is_ok());
}
