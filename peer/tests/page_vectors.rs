//! The vector files of calls on pages, read by the format of README.md alone.

#[path = "common/records.rs"]
mod records;

use peer::cases::{all_calls, Call, Case, CALLS_ON_PAGES};
use peer::lent::Peer;
use peer::value::Site;
use peer::vectors;
use records::{parse, Reader};
use std::collections::BTreeSet;

#[test]
fn the_default_set_of_pages_is_small_complete_and_right() {
    let mut total = 0;
    for call in CALLS_ON_PAGES {
        let file = vectors::vectors(1, call, 200);
        total += file.len();
        let mut answers = BTreeSet::new();
        let mut rest = Reader { bytes: &file };
        let mut long = 0;
        while !rest.bytes.is_empty() {
            let record = rest.bytes();
            let (mut case, answer, after) = parse(call, &record);
            assert_eq!(case.run(&Peer), answer);
            assert!(case == after, "{}", call.name());
            answers.insert(answer);
            long += usize::from(record.len() > 4096);
        }
        assert_eq!(answers, call.answers().iter().copied().collect(), "{}", call.name());
        assert!(long <= 5, "{}: {long} long records", call.name());
    }
    assert!(total < 1_000_000, "{total}");
}

/// All pages that are wanted are in the gate's file: every answer of each call, the dart counts about the ends of pages, and those of full
/// blocks.
#[test]
fn the_gate_has_the_pages() {
    let (gate, left_out) = vectors::pages_gate(1, 60);
    assert!(gate.input.len() <= vectors::PAGES_BYTES && left_out == 0, "{left_out} left out");
    let calls = all_calls();
    let mut rest = Reader { bytes: &gate.input };
    let (mut written, mut read) = (BTreeSet::new(), BTreeSet::new());
    let mut answers = BTreeSet::<(Call, u32)>::new();
    let mut count = 0;
    while !rest.bytes.is_empty() {
        let call = calls[usize::from(rest.take(1)[0])];
        let (mut case, answer, after) = parse(call, &rest.bytes());
        assert_eq!(case.run(&Peer), answer);
        assert!(case == after);
        answers.insert((call, answer));
        count += 1;
        match after {
            Case::WritePages { site, block, .. } if answer == 0 => written.insert((site, block[2])),
            Case::ReadPages { site, block, .. } if answer == 0 => read.insert((site, block[2])),
            _ => continue,
        };
    }
    for call in CALLS_ON_PAGES {
        assert!(call.answers().iter().all(|answer| answers.contains(&(call, *answer))), "{}", call.name());
    }
    for count in [0, 2, 58, 60, 118, 120] {
        assert!(written.contains(&(Site::Rack, count)) && read.contains(&(Site::Rack, count)), "{count}");
    }
    assert!(read.contains(&(Site::Rack, 4096)));
    assert!(written.contains(&(Site::Viewer, 256)) && read.contains(&(Site::Viewer, 256)));
    assert_eq!(gate.output.lines().next(), Some(format!("as told: {count}").as_str()));
}
