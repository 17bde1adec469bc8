//! Damage to bytes: raw, and of one item of a layout.

use crate::groups::{put_number, put_tokens, Token};
use crate::rng::Rng;

/// Raw damage to a file or message.
pub fn raw(rng: &mut Rng, bytes: &[u8]) -> Vec<(&'static str, Vec<u8>)> {
    let mut found = vec![("no bytes", Vec::new()), ("a byte more", [bytes, &[0]].concat())];
    if bytes.is_empty() {
        return found;
    }
    let at = rng.below(bytes.len());
    found.push(("the last byte missing", bytes[..bytes.len() - 1].to_vec()));
    found.push(("cut", bytes[..at].to_vec()));
    let mut flipped = bytes.to_vec();
    flipped[at] ^= 1 << rng.below(8);
    found.push(("a bit flipped", flipped));
    let mut other = bytes.to_vec();
    other[at] = rng.bits() as u8;
    found.push(("a byte changed", other));
    let mut dropped = bytes.to_vec();
    dropped.remove(at);
    found.push(("a byte dropped", dropped));
    let mut doubled = bytes.to_vec();
    doubled.insert(at, bytes[at]);
    found.push(("a byte doubled", doubled));
    found.push(("random bytes", (0..rng.below(40)).map(|_| rng.bits() as u8).collect()));
    found
}

/// Damage to one number of a layout: overlong, too large, or past the limit of its role.
pub fn tokens(rng: &mut Rng, tokens: &[Token]) -> Vec<(&'static str, Vec<u8>)> {
    let mut found = Vec::new();
    let numbers: Vec<usize> = (0..tokens.len()).filter(|at| !tokens[*at].coordinate).collect();
    if let Some(&at) = rng.pick(&numbers) {
        found.push(("an overlong group", with_overlong(tokens, at, 1)));
    }
    if let Some(&at) = rng.pick(&numbers) {
        found.push(("a group of six bytes", with_overlong(tokens, at, 6)));
    }
    if let Some(&at) = rng.pick(&numbers) {
        found.push(("a number of 2^32", with_value(tokens, at, 1 << 32)));
    }
    if let Some(&at) = rng.pick(&numbers) {
        found.push(("any number of any value", with_value(tokens, at, rng.bits() >> (32 + rng.below(32)))));
    }
    for (role, value, way) in LIMITS {
        let places: Vec<usize> = numbers.iter().copied().filter(|at| tokens[*at].role == *role).collect();
        if let Some(&at) = rng.pick(&places) {
            found.push((*way, with_value(tokens, at, *value)));
        }
    }
    for (role, way_less, way_more) in COUNTS {
        let places: Vec<usize> = numbers.iter().copied().filter(|at| tokens[*at].role == *role).collect();
        if let Some(&at) = rng.pick(&places) {
            found.push((*way_more, with_value(tokens, at, tokens[at].value + 1)));
            if tokens[at].value > 0 {
                found.push((*way_less, with_value(tokens, at, tokens[at].value - 1)));
            }
        }
    }
    found
}

/// The first value past each limit.
const LIMITS: &[(&str, u64, &str)] = &[
    ("block", 16, "block 16"),
    ("from", 16, "from 16"),
    ("to", 16, "to 16"),
    ("new", 16, "new block 16"),
    ("other", 16, "other block 16"),
    ("maker", 16, "maker 16"),
    ("position", 4096, "position 4,096"),
    ("kind", 3, "kind 3"),
    ("kind", 0, "kind 0"),
    ("darts", 257, "a count of 257 darts"),
    ("darts", 4097, "a count of 4,097 darts"),
    ("vertices", u32::MAX as u64, "a count of 2^32 − 1 vertices"),
    ("faces", u32::MAX as u64, "a count of 2^32 − 1 faces"),
    ("size", u32::MAX as u64, "a face of 2^32 − 1 darts"),
    ("index4", 512, "a part 4 index past the darts"),
    ("labels", u32::MAX as u64, "a count of 2^32 − 1 labels"),
];

/// Counts that promise one item too few or too many.
const COUNTS: &[(&str, &str, &str)] = &[
    ("darts", "a dart too few promised", "a dart too many promised"),
    ("vertices", "a vertex too few promised", "a vertex too many promised"),
    ("faces", "a face too few promised", "a face too many promised"),
    ("part2", "a part 2 entry too few promised", "a part 2 entry too many promised"),
    ("part3", "a part 3 entry too few promised", "a part 3 entry too many promised"),
    ("part4", "a part 4 entry too few promised", "a part 4 entry too many promised"),
    ("labels", "a label too few promised", "a label too many promised"),
];

/// One item altered to something near, past a limit or strange.
pub fn altered(rng: &mut Rng, tokens: &[Token]) -> Vec<Token> {
    let mut changed = tokens.to_vec();
    // Addresses and coordinates are few or many: each kind of item gets its turn.
    let coordinate = rng.one_in(3);
    let head = rng.one_in(4);
    let places: Vec<usize> =
        (0..tokens.len()).filter(|at| if head { *at < 3 } else { tokens[*at].coordinate == coordinate }).collect();
    if let Some(&at) = rng.pick(&places) {
        let value = tokens[at].value;
        changed[at].value = if tokens[at].coordinate {
            [f64::NAN.to_bits(), f64::INFINITY.to_bits(), value ^ 1, value ^ 1 << 63][rng.below(4)]
        } else {
            [0, value + 1, value.saturating_sub(1), 16, u64::from(u32::MAX)][rng.below(5)]
        };
    }
    changed
}

fn with_value(tokens: &[Token], at: usize, value: u64) -> Vec<u8> {
    let mut changed = tokens.to_vec();
    changed[at].value = value;
    put_tokens(&changed)
}

/// One number with needless zero groups behind it.
fn with_overlong(tokens: &[Token], at: usize, zeros: usize) -> Vec<u8> {
    let mut bytes = put_tokens(&tokens[..at]);
    let mut number = Vec::new();
    put_number(&mut number, tokens[at].value);
    if let Some(last) = number.last_mut() {
        *last |= 0x80;
    }
    number.extend(std::iter::repeat_n(0x80, zeros - 1));
    number.push(0);
    bytes.extend(number);
    bytes.extend(put_tokens(&tokens[at + 1..]));
    bytes
}
