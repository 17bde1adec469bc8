//! The generator reaches every answer of every call, several ways each; refused calls change nothing.

use peer::cases::{self, all_calls};
use peer::damage;
use peer::generate::{self, Size};
use peer::image::{self, WORDS};
use peer::lent::Peer;
use peer::rng::Rng;
use peer::value::{Site, RACK};
use std::collections::{BTreeMap, BTreeSet};

#[test]
fn every_answer_is_reached_several_ways() {
    let mut reached: BTreeMap<(&str, u32), (usize, BTreeSet<&str>)> = BTreeMap::new();
    for seed in 0..40 {
        let mut rng = Rng::new(seed);
        let mesh = generate::mesh(&mut rng, Size::Small);
        for call in all_calls() {
            for (way, case) in damage::batch(&mut rng, call, &mesh) {
                let mut after = case.clone();
                let answer = after.run(&Peer);
                assert!(answer == 0 || after == case, "{} is refused by {answer}, yet changed: {way}", call.name());
                assert!(call.answers().contains(&answer), "{} answers {answer}: {way}", call.name());
                let entry = reached.entry((call.name(), answer)).or_default();
                entry.0 += 1;
                entry.1.insert(way);
            }
        }
    }
    for call in all_calls() {
        for answer in call.answers() {
            let (times, ways) = reached.get(&(call.name(), *answer)).cloned().unwrap_or_default();
            println!("{:10} {answer:2}: {times:5} times, {} ways", call.name(), ways.len());
        }
    }
    for call in all_calls() {
        for answer in call.answers() {
            let ways = reached.get(&(call.name(), *answer)).map_or(0, |(_, ways)| ways.len());
            assert!(ways >= 2, "{} answers {answer} only {ways} ways", call.name());
        }
    }
}

#[test]
fn generated_meshes_are_sound_and_varied() {
    let mut blocks_seen = BTreeSet::new();
    let (mut full, mut over, mut top, mut minus_zero, mut subnormal, mut critical) = (0, 0, 0, 0, 0, 0);
    for seed in 0..400 {
        let mut rng = Rng::new(seed);
        let size = if seed % 20 == 0 {
            Size::Large
        } else if seed % 4 == 0 {
            Size::Medium
        } else {
            Size::Small
        };
        let mesh = generate::mesh(&mut rng, size);
        assert_eq!(peer::mesh::check(&mesh.blocks), Ok(()), "seed {seed}");
        blocks_seen.insert(mesh.blocks.len());
        for block in &mesh.blocks {
            let words = image::encode(block);
            assert_eq!(words.len(), WORDS);
            assert_eq!(image::sound_block(&words, RACK).as_ref(), Some(block), "seed {seed}");
            full += usize::from(block.darts.len() == 4096);
            top += usize::from(block.counter > u32::MAX - 10);
            over += usize::from(
                peer::cells::volumes(block, block.darts.keys().copied()).iter().any(|cell| cell.len() > 512),
            );
            critical += block.labels().len();
            let floats: Vec<f64> = block.darts.values().flat_map(|dart| dart.point.floats()).collect();
            minus_zero += usize::from(floats.iter().any(|f| *f == 0.0 && f.is_sign_negative()));
            subnormal += usize::from(floats.iter().any(|f| f.is_subnormal()));
        }
    }
    // Large maps shrink to fit few blocks.
    for seed in 0..150 {
        let mut rng = Rng::new(seed);
        let count = rng.between(1, 3);
        let mesh = generate::mesh_of(&mut rng, Size::Large, count);
        assert_eq!(peer::mesh::check(&mesh.blocks), Ok(()), "seed {seed}");
        assert!(mesh.blocks.iter().all(|block| peer::sound::is_sound(block, RACK)), "seed {seed}");
    }
    assert_eq!(blocks_seen, (1..=16).collect());
    for (what, count) in [
        ("full blocks", full),
        ("cells over 512", over),
        ("counters near the top", top),
        ("minus zeros", minus_zero),
        ("subnormals", subnormal),
        ("critical darts", critical),
    ] {
        println!("{what}: {count}");
        assert!(count > 0, "{what}");
    }
}

#[test]
fn blocks_and_files_round_trip() {
    for seed in 0..200 {
        let mut rng = Rng::new(seed);
        let size = if seed % 40 == 0 { Size::Large } else { Size::Small };
        for block in generate::mesh(&mut rng, size).blocks {
            let bytes = peer::calls::save_file(&block, usize::MAX).unwrap();
            let read = peer::calls::read_file(RACK, &bytes).unwrap();
            assert_eq!(read, block);
            assert_eq!(peer::calls::save_file(&read, bytes.len()).unwrap(), bytes);
        }
    }
}

#[test]
fn every_file_that_is_read_is_written_back() {
    let mut served = 0;
    for seed in 0..300 {
        let mut rng = Rng::new(seed);
        let mesh = generate::mesh(&mut rng, Size::Small);
        for (_, case) in damage::blocks::read_file(&mut rng, Site::Rack, &mesh.blocks, &mesh.blocks) {
            let cases::Case::ReadFile { file, .. } = case else { continue };
            if let Ok(block) = peer::calls::read_file(RACK, &file) {
                served += 1;
                assert_eq!(peer::calls::save_file(&block, usize::MAX), Ok(file));
            }
        }
    }
    assert!(served > 300);
}

#[test]
fn messages_round_trip() {
    let mut count = 0;
    for seed in 0..200 {
        let mut rng = Rng::new(seed);
        let mesh = generate::mesh(&mut rng, Size::Small);
        for block in &mesh.blocks {
            for cell in peer::cells::volumes(block, block.darts.keys().copied()) {
                let to = (u64::from(block.number) + 1) % 16;
                let serial = u64::from(*cell.first().unwrap());
                let Ok(sent) = peer::calls::send(RACK, block, to, serial, usize::MAX) else { continue };
                for bytes in peer::message::split(&sent).unwrap() {
                    let message = peer::message::decode(bytes).unwrap();
                    assert_eq!(peer::message::encode(&message), bytes);
                    count += 1;
                }
            }
        }
    }
    assert!(count > 500, "{count}");
}
