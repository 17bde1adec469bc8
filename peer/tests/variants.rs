//! Wrong programs that come near: each is noticed when the runs are compared, or told apart by the vectors.

#[path = "common/records.rs"]
mod records;
#[path = "common/variant.rs"]
mod variant;

use peer::balance::{self, Oracle};
use peer::calls;
use peer::cases::{Call, Case, CALLS};
use peer::image::{self, ANSWER, WORDS};
use peer::lent::{Core, Peer};
use peer::simulate::{self, simulate};
use peer::value::{Block, Label, Site, Third, Viewers, MAX_CELL, MAX_DARTS, RACK, VIEWER_CELL, VIEWER_DARTS};
use peer::vectors;
use records::{parse, Reader};
use std::collections::BTreeMap;
use variant::{Variant, RIGHT};

/// The right release, then a change that knows the counter before it and the labels it made.
fn release_then(site: Site, words: &mut [u64], to: u64, serial: u64, change: fn(u32, &mut Block)) -> u32 {
    let before = image::decode(words).map_or(0, |block| block.counter);
    let answer = Peer.release(site, words, to, serial);
    if answer == 0 {
        let mut block = image::decode(words).unwrap();
        change(before, &mut block);
        image::put(&block, words);
    }
    answer
}

/// Labels the face left behind in its own direction, from the same dart.
fn own_direction(before: u32, block: &mut Block) {
    let number = block.number;
    let fresh = |label: &Label| label.maker == number && label.number >= before;
    let mut sizes: BTreeMap<u32, u16> = BTreeMap::new();
    for label in block.labels().keys().filter(|label| fresh(label)) {
        *sizes.entry(label.number).or_default() += 1;
    }
    for dart in block.darts.values_mut() {
        if let Third::Critical { label, .. } = &mut dart.third {
            if fresh(label) {
                label.position = (sizes[&label.number] - label.position) % sizes[&label.number];
            }
        }
    }
}

/// Falls back to the least counter that the block's labels allow.
fn number_again(_: u32, block: &mut Block) {
    let own = block.labels().keys().filter(|label| label.maker == block.number).map(|label| label.number + 1).max();
    block.counter = own.unwrap_or(0);
}

/// Advances the counter by the darts of part 3 instead of its faces.
fn counter_by_darts(before: u32, block: &mut Block) {
    let fresh = block.labels().keys().filter(|l| l.maker == block.number && l.number >= before).count();
    block.counter = block.counter.max(before.saturating_add(fresh as u32));
}

fn notices(name: &str, variant: Variant) {
    match simulate(&variant, 5, 20_000) {
        Ok(_) => panic!("{name}: not noticed"),
        Err(failure) => {
            // The shrunk case still shows the disagreement.
            assert!(simulate::play(&variant, &failure.mesh, &failure.turns).is_err(), "{name}");
            assert!(simulate::play(&RIGHT, &failure.mesh, &failure.turns).is_ok(), "{name}");
            println!("{name}: {} after {} requests", failure.what, failure.turns.len());
        }
    }
}

#[test]
fn labels_in_the_own_direction_are_noticed() {
    notices(
        "own direction",
        Variant { release: |site, b, to, s| release_then(site, b, to, s, own_direction), ..RIGHT },
    );
}

#[test]
fn a_number_used_again_is_noticed() {
    notices("number again", Variant { release: |site, b, to, s| release_then(site, b, to, s, number_again), ..RIGHT });
}

#[test]
fn a_release_that_only_pretends_is_noticed() {
    notices("pretended release", Variant { release: |_, _, _, _| 0, ..RIGHT });
}

#[test]
fn redirects_left_out_are_noticed() {
    notices("redirects left out", Variant { redirect: |_, _, _| 0, ..RIGHT });
}

#[test]
fn nothing_moved_is_noticed() {
    notices("nothing moved", Variant { receive: |_, _, _| 0, release: |_, _, _, _| 0, redirect: |_, _, _| 0, ..RIGHT });
}

#[test]
fn a_counter_advanced_by_darts_is_noticed() {
    notices(
        "counter by darts",
        Variant { release: |site, b, to, s| release_then(site, b, to, s, counter_by_darts), ..RIGHT },
    );
}

#[test]
fn the_right_calls_are_not_accused() {
    assert!(simulate(&RIGHT, 5, 2_000).is_ok());
}

/// The picked volumes of each block, and their mean.
struct Counts {
    of: Vec<usize>,
    mean: usize,
}

impl Counts {
    fn new(of: Vec<usize>) -> Counts {
        let mean = of.iter().sum::<usize>() / of.len();
        Counts { of, mean }
    }

    /// Whether no two counts differ by so much.
    fn within(&self, difference: usize) -> bool {
        self.of.iter().all(|one| self.of.iter().all(|other| *one < other + difference))
    }

    /// Whether nobody is above the mean or nobody below it.
    fn level_by_the_mean(&self) -> bool {
        self.of.iter().all(|count| *count <= self.mean) || self.of.iter().all(|count| *count >= self.mean)
    }

    /// The words of the mean and of the surpluses.
    fn tell(&self, words: &mut [u64; ANSWER], mean: usize, surplus: fn(i64) -> u64) {
        words[4] = mean as u64;
        for (word, count) in words[5..].iter_mut().zip(&self.of) {
            *word = surplus(*count as i64 - mean as i64);
        }
    }
}

/// A rule of the next move in parts, so that each can be wrong.
struct Rule {
    counts: fn(&[Block], &Oracle) -> Vec<usize>,
    /// Whether a block gives to another.
    gives: fn(&Counts, usize, usize) -> bool,
    /// What pairs of donor and recipient are ordered by.
    key: fn(&Counts, usize, usize) -> [usize; 2],
    /// How many pairs are tried, and how many volumes of each.
    tried: [usize; 2],
    /// Most darts of a volume from a donor to a recipient, and of the recipient afterwards.
    most: fn(Viewers, usize, usize) -> [usize; 2],
    /// Whether what has no move is level.
    level: fn(&Counts) -> bool,
    /// Writes mean and surpluses beside the move.
    tell: fn(&Counts, &mut [u64; ANSWER]),
}

const RULE: Rule = Rule {
    counts: balance::counts,
    gives: |c, donor, recipient| c.of[donor] >= c.of[recipient] + 2,
    key: |_, donor, recipient| [donor, recipient],
    tried: [usize::MAX; 2],
    most: |v, donor, recipient| [v.cell(donor, recipient), v.darts(recipient)],
    level: |c| c.within(2),
    tell: |c, words| c.tell(words, c.mean, |surplus| surplus as u64),
};

impl Rule {
    fn answer(&self, blocks: &[Block], viewers: Viewers, oracle: &Oracle) -> [u64; ANSWER] {
        let counts = Counts::new((self.counts)(blocks, oracle));
        let mut words = [0; ANSWER];
        words[..4].copy_from_slice(&self.choose(blocks, viewers, oracle, &counts));
        (self.tell)(&counts, &mut words);
        words
    }

    fn choose(&self, blocks: &[Block], viewers: Viewers, oracle: &Oracle, counts: &Counts) -> [u64; 4] {
        let all = 0..blocks.len();
        let pairs = all.clone().flat_map(|donor| all.clone().map(move |recipient| (donor, recipient)));
        let mut pairs: Vec<_> = pairs.filter(|(donor, recipient)| (self.gives)(counts, *donor, *recipient)).collect();
        pairs.sort_by_key(|(donor, recipient)| (self.key)(counts, *donor, *recipient));
        let picked = balance::picked(blocks, oracle);
        for (donor, recipient) in pairs.into_iter().take(self.tried[0]) {
            for cell in picked[donor].iter().take(self.tried[1]) {
                let serial = u64::from(*cell.first().unwrap());
                let [most, held] = (self.most)(viewers, donor, recipient);
                let has_room = blocks[recipient].darts.len() + cell.len() <= held;
                if has_room && calls::may_leave(most, &blocks[donor], recipient as u64, serial) {
                    return [2, donor as u64, recipient as u64, serial];
                }
            }
        }
        [u64::from(!(self.level)(counts)), 0, 0, 0]
    }
}

/// Mean and surpluses, but with no answer of one kind.
fn told_unless(kind: u64, counts: &Counts, words: &mut [u64; ANSWER]) {
    if words[0] != kind {
        (RULE.tell)(counts, words);
    }
}

fn wrong_rules() -> Vec<(&'static str, Rule)> {
    vec![
        ("counts of all volumes", Rule { counts: |blocks, _| balance::counts(blocks, &Oracle::Every), ..RULE }),
        ("one more", Rule { gives: |c, d, r| c.of[d] > c.of[r], level: |c| c.within(1), ..RULE }),
        ("three more", Rule { gives: |c, d, r| c.of[d] >= c.of[r] + 3, level: |c| c.within(3), ..RULE }),
        (
            "from above the mean to below it",
            Rule { gives: |c, d, r| c.of[d] > c.mean && c.of[r] < c.mean, level: Counts::level_by_the_mean, ..RULE },
        ),
        ("a donor above the mean", Rule { gives: |c, d, r| (RULE.gives)(c, d, r) && c.of[d] > c.mean, ..RULE }),
        ("a donor not below the mean", Rule { gives: |c, d, r| (RULE.gives)(c, d, r) && c.of[d] >= c.mean, ..RULE }),
        ("a recipient below the mean", Rule { gives: |c, d, r| (RULE.gives)(c, d, r) && c.of[r] < c.mean, ..RULE }),
        (
            "a recipient not above the mean",
            Rule { gives: |c, d, r| (RULE.gives)(c, d, r) && c.of[r] <= c.mean, ..RULE },
        ),
        ("level by the mean", Rule { level: Counts::level_by_the_mean, ..RULE }),
        ("level where all are equal", Rule { level: |c| c.within(1), ..RULE }),
        ("level where two apart", Rule { level: |c| c.within(3), ..RULE }),
        ("never blocked", Rule { level: |_| true, ..RULE }),
        ("never level", Rule { level: |_| false, ..RULE }),
        ("the greatest donor", Rule { key: |c, d, r| [usize::MAX - c.of[d], r], ..RULE }),
        ("the least recipient", Rule { key: |c, d, r| [d, c.of[r]], ..RULE }),
        ("the recipient first", Rule { key: |_, d, r| [r, d], ..RULE }),
        ("512 wherever", Rule { most: |v, _, r| [MAX_CELL, v.darts(r)], ..RULE }),
        (
            "64 wherever there are viewers",
            Rule { most: |v, _, r| [if v.0 == 0 { 512 } else { 64 }, v.darts(r)], ..RULE },
        ),
        ("64 wherever", Rule { most: |v, _, r| [VIEWER_CELL, v.darts(r)], ..RULE }),
        ("64 by the recipient alone", Rule { most: |v, _, r| [v.site(r).limits().cell, v.darts(r)], ..RULE }),
        ("64 by the donor alone", Rule { most: |v, d, r| [v.site(d).limits().cell, v.darts(r)], ..RULE }),
        ("64 where both are viewers'", Rule { most: |v, d, r| [v.cell(d, d).max(v.cell(r, r)), v.darts(r)], ..RULE }),
        (
            "62 at a viewer",
            Rule { most: |v, d, r| [v.cell(d, r) - 2 * usize::from(v.cell(d, r) == 64), v.darts(r)], ..RULE },
        ),
        (
            "66 at a viewer",
            Rule { most: |v, d, r| [v.cell(d, r) + 2 * usize::from(v.cell(d, r) == 64), v.darts(r)], ..RULE },
        ),
        ("4,096 wherever", Rule { most: |v, d, r| [v.cell(d, r), MAX_DARTS], ..RULE }),
        ("256 wherever", Rule { most: |v, d, r| [v.cell(d, r), VIEWER_DARTS], ..RULE }),
        ("256 by the donor", Rule { most: |v, d, r| [v.cell(d, r), v.darts(d)], ..RULE }),
        ("256 at either end", Rule { most: |v, d, r| [v.cell(d, r), v.darts(d).min(v.darts(r))], ..RULE }),
        (
            "254 at a viewer",
            Rule { most: |v, d, r| [v.cell(d, r), v.darts(r) - 2 * usize::from(v.darts(r) == 256)], ..RULE },
        ),
        (
            "258 at a viewer",
            Rule { most: |v, d, r| [v.cell(d, r), v.darts(r) + 2 * usize::from(v.darts(r) == 256)], ..RULE },
        ),
        ("bits 16 to 31 too", Rule { most: |v, d, r| (RULE.most)(Viewers(v.0 | v.0 >> 16), d, r), ..RULE }),
        (
            "any bit for all",
            Rule { most: |v, d, r| (RULE.most)(Viewers(if v.0 == 0 { 0 } else { u32::MAX }), d, r), ..RULE },
        ),
        ("the next block's bit", Rule { most: |v, d, r| (RULE.most)(Viewers(v.0 << 1), d, r), ..RULE }),
        ("one pair alone", Rule { tried: [1, usize::MAX], ..RULE }),
        ("one volume alone", Rule { tried: [usize::MAX, 1], ..RULE }),
        (
            "the mean rounded up",
            Rule {
                tell: |c, words| c.tell(words, c.of.iter().sum::<usize>().div_ceil(c.of.len()), |s| s as u64),
                ..RULE
            },
        ),
        (
            "the mean rounded to the nearest",
            Rule {
                tell: |c, words| {
                    let (total, blocks) = (c.of.iter().sum::<usize>(), c.of.len());
                    c.tell(words, (2 * total + blocks) / (2 * blocks), |s| s as u64)
                },
                ..RULE
            },
        ),
        ("surpluses without sign", Rule { tell: |c, words| c.tell(words, c.mean, i64::unsigned_abs), ..RULE }),
        ("surpluses cut at zero", Rule { tell: |c, words| c.tell(words, c.mean, |s| s.max(0) as u64), ..RULE }),
        ("surpluses of 32 bits", Rule { tell: |c, words| c.tell(words, c.mean, |s| u64::from(s as u32)), ..RULE }),
        ("surpluses of 63 bits", Rule { tell: |c, words| c.tell(words, c.mean, |s| s as u64 & !(1 << 63)), ..RULE }),
        (
            "counts for surpluses",
            Rule {
                tell: |c, words| {
                    c.tell(words, 0, |s| s as u64);
                    words[4] = c.mean as u64;
                },
                ..RULE
            },
        ),
        (
            "told after the move",
            Rule {
                tell: |c, words| {
                    (RULE.tell)(c, words);
                    if words[0] == 2 {
                        let (donor, recipient) = (5 + words[1] as usize, 5 + words[2] as usize);
                        words[donor] = words[donor].wrapping_sub(1);
                        words[recipient] = words[recipient].wrapping_add(1);
                    }
                },
                ..RULE
            },
        ),
        ("not told where level", Rule { tell: |c, words| told_unless(0, c, words), ..RULE }),
        ("not told where blocked", Rule { tell: |c, words| told_unless(1, c, words), ..RULE }),
        ("not told with a move", Rule { tell: |c, words| told_unless(2, c, words), ..RULE }),
        (
            "blocks that are not there in deficit",
            Rule {
                tell: |c, words| {
                    words[5..].fill((c.mean as u64).wrapping_neg());
                    (RULE.tell)(c, words);
                },
                ..RULE
            },
        ),
    ]
}

/// The next moves that the gate's file has served: blocks, viewers, oracle, answer.
fn served() -> Vec<(Vec<Block>, Viewers, Oracle, Vec<u64>)> {
    let gate = vectors::gate(1, 60);
    let mut rest = Reader { bytes: &gate.input };
    let mut found = Vec::new();
    while !rest.bytes.is_empty() {
        let call = CALLS[usize::from(rest.take(1)[0])];
        let record = rest.bytes();
        if call != Call::NextMove {
            continue;
        }
        if let (Case::NextMove { mesh, viewers, oracle, .. }, 0, Case::NextMove { answer, .. }) = parse(call, &record) {
            let blocks = mesh.chunks_exact(WORDS).map(|words| image::sound_block(words, RACK).unwrap()).collect();
            found.push((blocks, viewers, oracle.oracle().unwrap(), answer));
        }
    }
    found
}

#[test]
fn wrong_rules_are_told_apart() {
    let served = served();
    let told_apart = |rule: &Rule| {
        served.iter().any(|(blocks, viewers, oracle, answer)| rule.answer(blocks, *viewers, oracle)[..] != answer[..])
    };
    assert!(!told_apart(&RULE), "the right rule is accused");
    let missed: Vec<&str> = wrong_rules().iter().filter(|(_, rule)| !told_apart(rule)).map(|(name, _)| *name).collect();
    assert!(missed.is_empty(), "not told apart: {missed:?}");
}
