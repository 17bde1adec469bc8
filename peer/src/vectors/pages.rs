//! Packed pages, and the cases of pages that are made by hand.

use super::{pillow, put_u32, room};
use crate::cases::Case;
use crate::damage::pages::{self as damaged, Sheets};
use crate::image;
use crate::pages::{self, DART_LINES};
use crate::rng::Rng;
use crate::value::{Block, Dart, Label, Point, Site, Third};
use std::collections::BTreeMap;

/// Most literal bytes, and most blanks, of a piece.
const PIECE: usize = 128;

/// Text behind its length and that of its pieces: literal bytes, or a count of blanks.
pub fn put_packed(out: &mut Vec<u8>, text: &[u8]) {
    put_u32(out, text.len());
    let start = out.len();
    put_u32(out, 0);
    let mut rest = text;
    while !rest.is_empty() {
        let blanks = blanks_at(rest).min(PIECE);
        let taken = if blanks > 0 {
            out.push((127 + blanks) as u8);
            blanks
        } else {
            // One or two blanks cost no more as bytes.
            let literal = (0..rest.len()).find(|at| blanks_at(&rest[*at..]) > 2).unwrap_or(rest.len()).min(PIECE);
            out.push((literal - 1) as u8);
            out.extend_from_slice(&rest[..literal]);
            literal
        };
        rest = &rest[taken..];
    }
    let length = (out.len() - start - 4) as u32;
    out[start..start + 4].copy_from_slice(&length.to_le_bytes());
}

fn blanks_at(text: &[u8]) -> usize {
    text.iter().take(PIECE).take_while(|byte| **byte == b' ').count()
}

/// Cases made by hand: those that the gate has to play, and others, most of them too long for it.
pub struct ByHand {
    pub played: Vec<Case>,
    pub others: Vec<Case>,
}

fn label(maker: u8, number: u32, position: u16) -> Label {
    Label { maker, number, position }
}

fn critical(other: u8, label: Label) -> Third {
    Third::Critical { other, label }
}

fn block_of<const N: usize>(number: u8, darts: [(u32, u32, u32, Third); N]) -> Block {
    let dart = |next, opposite, third| Dart { next, opposite, third, point: Point::default() };
    let darts = darts.map(|(serial, next, opposite, third)| (serial, dart(next, opposite, third)));
    Block { number, counter: 0, darts: darts.into() }
}

/// Every kind of third link: a free and a critical face of two darts, two sewn ones of one.
fn all_kinds(number: u8, label: Label) -> Block {
    let other = (number + 4) % 16;
    let second = Label { position: label.position ^ 1, ..label };
    block_of(
        number,
        [
            (1, 2, 4, Third::Free),
            (2, 1, 3, Third::Free),
            (3, 4, 2, critical(other, label)),
            (4, 3, 1, critical(other, second)),
            (5, 5, 6, Third::Sewn(6)),
            (6, 6, 5, Third::Sewn(5)),
        ],
    )
}

/// Two darts in faces of one, so that the third link of each is right or wrong by itself.
fn small() -> Block {
    block_of(9, [(1, 1, 2, Third::Free), (2, 2, 1, critical(13, label(9, 41, 0)))])
}

/// So many darts in faces of one, opposite in pairs: free, sewn and critical.
fn pairs(count: usize) -> Block {
    let serial = |place: usize| 3 + place as u32;
    let dart = |place: usize| {
        let third = match place % 16 {
            2 | 3 => Third::Sewn(serial(place ^ 1)),
            5 => critical(13, label(3, place as u32, 9)),
            _ => Third::Free,
        };
        (serial(place), Dart { next: serial(place), opposite: serial(place ^ 1), third, point: Point::default() })
    };
    Block { number: 2, counter: 400, darts: (0..count).map(dart).collect() }
}

/// Blocks of each kind of link with the least and the widest numbers, and dart counts about the ends of pages.
fn blocks(site: Site) -> Vec<Block> {
    let mut found = vec![
        Block { counter: 1, ..all_kinds(0, label(0, 0, 0)) },
        damaged::at_the_top(&all_kinds(11, label(15, u32::MAX, 4095))),
        Block { counter: u32::MAX, ..all_kinds(15, label(15, u32::MAX - 1, 4095)) },
    ];
    let counts: &[usize] = match site {
        Site::Rack => &[0, 2, 58, 60, 118, 120],
        Site::Viewer => &[0, 256],
    };
    found.extend(counts.iter().map(|count| pairs(*count)));
    found
}

fn elsewhere(site: Site) -> Site {
    match site {
        Site::Rack => Site::Viewer,
        Site::Viewer => Site::Rack,
    }
}

/// A block of the rack as full as can be, or with darts too many.
fn full(past: usize) -> Block {
    pillow(2048 + past / 2, 2)
}

/// Cases of write_pages.
pub fn written(site: Site) -> ByHand {
    let case = |block: &Block, length: usize| {
        let block = image::encode_at(site, block);
        Case::WritePages { site, block, out: room(length), written: 0 }
    };
    let length = |block: &Block| pages::encode(block).len();
    let fitting = |block: &Block| case(block, length(block));
    let short = |block: &Block| case(block, length(block) - 1);
    let mut played: Vec<Case> = blocks(site).iter().map(fitting).collect();
    let counted = Block { counter: 42, ..small() };
    played.extend([short(&counted), case(&counted, 0), case(&counted, pages::PAGE + 40)]);
    played.extend([short(&Block::empty(3)), short(&pairs(60)), case(&pairs(60), pages::PAGE)]);
    let block = image::encode_at(elsewhere(site), &counted);
    played.push(Case::WritePages { site, block, out: room(pages::PAGE), written: 0 });
    // 2 comes before 30: an own label past the counter.
    played.extend([fitting(&small()), short(&small())]);
    let others = match site {
        Site::Rack => {
            played.push(short(&pairs(118)));
            // Numbers of pages with two digits.
            vec![fitting(&pairs(10 * DART_LINES + 2)), fitting(&full(0)), short(&full(0))]
        }
        // An image that says 258 darts is none.
        Site::Viewer => {
            let mut others = vec![case(&pairs(258), 5 * pages::PAGE)];
            others.extend([2, 58, 60, 118, 120].map(|count| fitting(&pairs(count))));
            others
        }
    };
    ByHand { played, others }
}

/// Cases of read_pages.
pub fn read(site: Site) -> ByHand {
    let case = |pages: Vec<u8>| Case::ReadPages { site, pages, block: vec![0; site.words()] };
    let of = |block: &Block| case(pages::encode(block));
    let mut played: Vec<Case> = blocks(site).iter().map(of).collect();
    // A viewer's call reads as the rack's does: some of what is wrong will do there.
    let step = if site == Site::Rack { 1 } else { 3 };
    played.extend(sevens().iter().step_by(step).map(of));
    // What was in memory may be any, and goes, points and all, if the pages are taken.
    let mut stale = image::encode_at(site, &pairs(12));
    stale.iter_mut().skip(13).step_by(8).take(12).for_each(|x| *x = 1.5f64.to_bits());
    if let Some(last) = stale.last_mut() {
        *last = 7;
    }
    for block in [small(), damaged::first_darts(&small(), 1)] {
        played.push(Case::ReadPages { site, pages: pages::encode(&block), block: stale.clone() });
    }
    played.push(Case::ReadPages { site, pages: pages::encode(&small()), block: vec![0; elsewhere(site).words()] });
    let mut others = Vec::new();
    let Wrong { first, rest } = wrong_pages();
    match site {
        Site::Rack => {
            // An odd count: the last dart's opposite is not held.
            played.push(of(&damaged::first_darts(&pairs(60), DART_LINES)));
            played.extend(first.into_iter().map(case));
            others.extend(rest.into_iter().map(case));
            played.push(of(&full(0)));
            others.extend([of(&full(2)), of(&damaged::first_darts(&full(2), 4097))]);
        }
        Site::Viewer => {
            played.extend(first.into_iter().filter(|pages| pages.len() == pages::PAGE).step_by(12).map(case));
            played.push(of(&pairs(258)));
            others.push(of(&damaged::first_darts(&pairs(258), 257)));
            others.extend([2, 58, 60, 118, 120].map(|count| of(&pairs(count))));
        }
    }
    ByHand { played, others }
}

/// Blocks about 7, and that 5 and 6 come before it.
fn sevens() -> Vec<Block> {
    let with = |change: &dyn Fn(&mut BTreeMap<u32, Dart>)| {
        let mut block = all_kinds(9, label(9, 5, 0));
        change(&mut block.darts);
        block
    };
    let set = |darts: &mut BTreeMap<u32, Dart>, serial: u32, third: Third| {
        darts.entry(serial).and_modify(|dart| dart.third = third);
    };
    let last = critical(13, label(9, u32::MAX, 0));
    vec![
        with(&|d| set(d, 4, last)),
        with(&|d| set(d, 4, critical(13, label(9, u32::MAX - 1, 0)))),
        with(&|d| set(d, 4, critical(13, label(8, u32::MAX, 0)))),
        // A label twice; a face critical with its own block.
        with(&|d| set(d, 4, critical(13, label(9, 5, 0)))),
        Block { number: 13, ..all_kinds(9, label(9, 5, 0)) },
        with(&|d| {
            set(d, 4, last);
            d.entry(1).and_modify(|dart| dart.next = 0);
        }),
        with(&|d| {
            set(d, 4, last);
            set(d, 5, Third::Sewn(0));
        }),
        with(&|d| {
            set(d, 5, Third::Sewn(7));
            d.entry(1).and_modify(|dart| dart.opposite = 9);
        }),
        // A face critical with two blocks.
        with(&|d| set(d, 4, critical(12, label(9, 4, 1)))),
    ]
}

/// Pages that are none, and a few that are: those that tell most come first.
struct Wrong {
    first: Vec<Vec<u8>>,
    rest: Vec<Vec<u8>>,
}

/// Every wrong spelling of every number, every wrong third link, every wrong line and page.
fn wrong_pages() -> Wrong {
    let mut rng = Rng::new(3);
    let (sheets, two_pages) = (Sheets::of(&small()), Sheets::of(&pairs(60)));
    let (mut first, mut rest) = (Vec::new(), Vec::new());
    for (turn, (_, spelling)) in damaged::SPELLINGS.iter().enumerate() {
        for (field, (in_first, column)) in damaged::FIELDS.iter().enumerate() {
            let pages = damaged::spelt(&sheets, if *in_first { 0 } else { 2 }, *column, *spelling);
            // Each in one number of the first line and in one of a dart's.
            if field % 3 == turn % 3 {
                first.push(pages);
            } else {
                rest.push(pages);
            }
        }
    }
    for (_, (in_first, column), value) in damaged::VALUES {
        first.push(sheets.with_number(if *in_first { 0 } else { 2 }, *column, value));
    }
    first.extend(damaged::THIRDS.iter().map(|text| sheets.with_third(1, text)));
    rest.extend(damaged::MORE_THIRDS.iter().map(|text| sheets.with_third(1, text)));
    // Two pages are long: where one tells as much it is that.
    let mut change = |changes: &[(&str, damaged::Change)], of: &Sheets| -> Vec<Vec<u8>> {
        let mut changed = |change: &damaged::Change| {
            let mut other = of.clone();
            change(&mut rng, &mut other).then(|| other.bytes())
        };
        changes.iter().filter_map(|(_, way)| changed(way)).collect()
    };
    first.extend(change(damaged::LINE_CHANGES, &sheets));
    first.extend(change(damaged::PAGE_CHANGES, &sheets));
    first.extend(change(damaged::CHANGES_OF_TWO, &two_pages));
    rest.extend(change(damaged::LINE_CHANGES, &two_pages));
    rest.extend(change(damaged::PAGE_CHANGES, &two_pages));
    first.extend(damaged::ENDS.iter().map(|(_, change)| damaged::with_end(&sheets, 2, *change)));
    Wrong { first, rest }
}
