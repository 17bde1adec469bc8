//! The plain version answers and writes what the value version does.

use peer::cases::{self, all_calls};
use peer::damage;
use peer::generate::{self, Size};
use peer::image;
use peer::lent::Peer;
use peer::plain::{is_sound, Plain};
use peer::rng::Rng;
use peer::simulate::simulate;
use peer::value::RACK;

#[test]
fn plain_equals_value_on_damaged_input() {
    for seed in 1000..1040 {
        let mut rng = Rng::new(seed);
        let size = if seed % 3 == 0 { Size::Tiny } else { Size::Small };
        let mesh = generate::mesh(&mut rng, size);
        for call in all_calls() {
            for (way, case) in damage::batch(&mut rng, call, &mesh) {
                if let Err(what) = cases::compare(&case, &Plain, &Peer) {
                    panic!("seed {seed}, {way}: {what}");
                }
            }
        }
    }
}

#[test]
fn plain_equals_value_on_larger_meshes() {
    for seed in 0..4 {
        let mut rng = Rng::new(seed);
        let size = if seed % 2 == 0 { Size::Large } else { Size::Medium };
        let mesh = generate::mesh_of(&mut rng, size, 3);
        for call in all_calls() {
            for (way, case) in damage::batch(&mut rng, call, &mesh) {
                if !rng.one_in(4) {
                    continue;
                }
                if let Err(what) = cases::compare(&case, &Plain, &Peer) {
                    panic!("seed {seed}, {way}: {what}");
                }
            }
        }
    }
}

#[test]
fn plain_question_2_equals_the_value_version() {
    for seed in 0..400 {
        let mut rng = Rng::new(seed);
        for block in generate::mesh(&mut rng, Size::Small).blocks {
            let words = image::encode(&block);
            assert!(is_sound(&words));
            for _ in 0..10 {
                let mut other = words.clone();
                let used = 8 * (1 + block.darts.len());
                for _ in 0..rng.between(1, 2) {
                    let at = rng.below(used);
                    other[at] = match rng.below(4) {
                        0 => other[at] ^ 1 << rng.below(64),
                        1 => other[at].wrapping_add(1),
                        2 => words[rng.below(used)],
                        _ => other[at] ^ 1 << rng.below(3),
                    };
                }
                assert_eq!(is_sound(&other), image::sound_block(&other, RACK).is_some(), "seed {seed}");
            }
        }
    }
}

#[test]
fn plain_plays_the_divided_run() {
    if let Err(failure) = simulate(&Plain, 11, 6_000) {
        panic!("{}", failure.what);
    }
}
