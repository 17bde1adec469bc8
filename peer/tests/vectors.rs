//! The vector files: read by the format of README.md alone, run, and compared with what they expect.

#[path = "common/records.rs"]
mod records;

use peer::cases::{Call, CALLS};
use peer::image::WORDS;
use peer::lent::Peer;
use peer::vectors;
use records::{parse, Reader};
use std::collections::{BTreeMap, BTreeSet};

#[test]
fn the_default_set_is_small_complete_and_right() {
    let mut total = 0;
    for call in CALLS {
        let file = vectors::vectors(1, call, 200);
        total += file.len();
        let mut answers = BTreeSet::new();
        let mut rest = Reader { bytes: &file };
        let (mut count, mut long) = (0, 0);
        while !rest.bytes.is_empty() {
            let record = rest.bytes();
            let (mut case, answer, after) = parse(call, &record);
            assert_eq!(case.run(&Peer), answer);
            assert!(case == after, "{} record {count}", call.name());
            answers.insert(answer);
            count += 1;
            long += usize::from(record.len() > 4096);
        }
        println!("{}: {count} cases, {} bytes, answers {answers:?}", call.name(), file.len());
        assert_eq!(answers, call.answers().iter().copied().collect(), "{}", call.name());
        assert!(long <= 4, "{}: {long} long records", call.name());
    }
    println!("{total} bytes in all");
    assert!(total < 2_250_000, "{total}");
}

#[test]
fn vectors_are_deterministic() {
    for call in [Call::Empty, Call::Redirect] {
        assert_eq!(vectors::vectors(3, call, 20), vectors::vectors(3, call, 20));
        assert_ne!(vectors::vectors(3, call, 20), vectors::vectors(4, call, 20));
    }
    assert_eq!(WORDS, 32_776);
}

/// The gate's file has every answer of the calls, and its counts are those that it tells.
#[test]
fn the_gate_has_every_answer() {
    let gate = vectors::gate(1, 60);
    assert!(gate.input.len() <= vectors::GATE_BYTES);
    let mut rest = Reader { bytes: &gate.input };
    let mut counts = BTreeMap::<(Call, u32), usize>::new();
    let mut sorts = BTreeSet::new();
    while !rest.bytes.is_empty() {
        let call = CALLS[usize::from(rest.take(1)[0])];
        let record = rest.bytes();
        let (mut case, answer, after) = parse(call, &record);
        assert_eq!(case.run(&Peer), answer);
        assert!(case == after);
        *counts.entry((call, answer)).or_default() += 1;
        sorts.insert((call, vectors::sort(call, &record)));
    }
    let all = CALLS.iter().flat_map(|call| vectors::sorts(*call).into_iter().map(|sort| (*call, sort)));
    let missing: Vec<_> = all.filter(|sort| !sorts.contains(sort)).collect();
    assert!(missing.is_empty(), "{missing:?}");
    let mut output = String::new();
    for call in CALLS {
        output += &format!("{}\n", call.name());
        for answer in call.answers() {
            output += &format!("{answer}: {}\n", counts[&(call, *answer)]);
        }
    }
    output += &format!("as told: {}\n", counts.values().sum::<usize>());
    assert!(gate.output.starts_with(&output), "{}", gate.output);
}

/// What is about a viewer's limits is in the gate's file, all of it.
#[test]
fn the_gate_has_the_limits_of_a_viewer() {
    let gate = vectors::gate(1, 60);
    let mut rest = Reader { bytes: &gate.input };
    let mut played = BTreeSet::new();
    while !rest.bytes.is_empty() {
        let call = CALLS[usize::from(rest.take(1)[0])];
        played.insert((call, rest.bytes()));
    }
    let mut count = 0;
    for call in CALLS.into_iter().filter(|call| *call >= Call::CheckMesh) {
        for case in vectors::limits(call) {
            assert!(played.contains(&(call, vectors::record(&case).1)), "{}", call.name());
            count += 1;
        }
    }
    assert!(count > 50, "{count}");
}
