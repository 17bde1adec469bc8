//! What the stored balancings have to hold, and the laws that they are held to.

use peer::descent::Descent;
use peer::levelling;

#[test]
fn balancings_end_in_every_way() {
    let made = levelling::levelling(1).unwrap();
    let meshes: Vec<&str> = made.output.split("blocks ").collect();
    assert!(made.input.len() < 262_144);
    let starts = [
        "4\ncounts 5 1 1 1\nmove 0 1 1\nmove 0 1 7\nmove 0 2 13\nmove 1 3 1\nlevel\ncounts 2 2 2 2\n",
        "3\ncounts 3 1 1\nmove 0 1 1\nlevel\ncounts 2 2 1\n",
        "3\ncounts 2 1 2\nlevel\ncounts 2 1 2\n",
        "3\ncounts 3 1 1\nblocked\ncounts 3 1 1\n",
        "3\ncounts 2 0 7\nmove 0 1 1\n",
        "4\ncounts 4 2 0 0\nmove 0 1 1\n",
    ];
    for (mesh, start) in meshes[1..].iter().zip(starts) {
        assert!(mesh.starts_with(start), "{mesh}");
    }
    // With viewers, behind the twenty-one of the rack: what a viewer may not have stays or goes to the next, and its room ends it.
    let with_viewers = [
        "2\ncounts 5 0\nmove 0 1 67\nmove 0 1 139\nlevel\ncounts 3 2\n",
        "2\ncounts 4 0\nmove 0 1 67\nmove 0 1 139\nlevel\ncounts 2 2\n",
        "3\ncounts 4 0 0\nmove 0 2 1\nmove 0 2 67\nblocked\ncounts 2 0 2\n",
        "3\ncounts 0 12 0\nmove 1 0 1\n",
        "2\ncounts 5 1\nmove 0 1 1\nmove 0 1 7\nlevel\ncounts 3 3\n",
        "2\ncounts 5 1\nmove 0 1 1\nblocked\ncounts 4 2\n",
        "3\ncounts 0 3 1\nmove 1 0 1\nlevel\ncounts 1 2 1\n",
    ];
    for (mesh, start) in meshes[22..].iter().zip(with_viewers) {
        assert!(mesh.starts_with(start), "{mesh}");
    }
    let with = |end: &str| meshes.iter().filter(|mesh| mesh.contains(end)).count();
    assert!(
        with("\nlevel\n") > 10 && with("\nblocked\n") > 1 && with("\nrefused 24\n") == 1 && with("\nrefused 28\n") == 1
    );
    // A dozen moves or more.
    assert!(meshes.iter().filter(|mesh| mesh.matches("move").count() >= 12).count() >= 3);
}

#[test]
fn the_laws_tell_moves_of_the_rule_from_others() {
    for number in 0..5usize.pow(4) {
        let counts = [number % 5, number / 5 % 5, number / 25 % 5, number / 125];
        let start = || Descent::start(counts.to_vec());
        let level = counts.iter().all(|one| counts.iter().all(|other| *one <= other + 1));
        assert!(start().end(level).is_ok() && start().end(!level).is_err(), "{counts:?}");
        for (donor, recipient) in (0..16).map(|pair| (pair / 4, pair % 4)) {
            if donor != recipient && counts[donor] > 0 {
                let mut after = counts.to_vec();
                after[donor] -= 1;
                after[recipient] += 1;
                let kept = start().step(donor, recipient, after).is_ok();
                assert_eq!(kept, counts[donor] >= counts[recipient] + 2, "{counts:?}, {donor} to {recipient}");
            }
        }
    }
}

/// The sum of differences is greatest where half of the blocks have nothing and the others the most.
#[test]
fn a_balance_has_at_most_131072_moves() {
    let mut counts = vec![0; 8];
    counts.resize(16, 4096);
    assert_eq!(Descent::start(counts).left(), 131_072);
}
