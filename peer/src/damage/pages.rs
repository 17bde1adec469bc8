//! Damage to pages: numbers and third links in their columns, lines, whole pages, raw bytes; and rooms to write them into.

use super::messages::fill;
use super::{blocks, bytes, some_block, some_serial, Way};
use crate::cases::{Case, UNWRITTEN};
use crate::image;
use crate::pages::{self, DART_LINES, LINE, PAGE};
use crate::rng::Rng;
use crate::value::{Block, Dart, Label, Site, Third, MAX_POSITION};
use std::collections::{BTreeMap, BTreeSet};

/// Lines of a page.
const LINES: usize = 1 + DART_LINES;
const BLANK: [u8; LINE - 1] = [b' '; LINE - 1];

/// Pages as lines without their line feeds.
#[derive(Clone)]
pub struct Sheets(Vec<Vec<u8>>);

impl Sheets {
    pub fn of(block: &Block) -> Sheets {
        Sheets(pages::encode(block).chunks_exact(LINE).map(|line| line[..LINE - 1].to_vec()).collect())
    }

    pub fn bytes(&self) -> Vec<u8> {
        self.0.iter().flat_map(|line| line.iter().chain(b"\n")).copied().collect()
    }

    fn firsts(&self) -> Vec<usize> {
        (0..self.0.len()).step_by(LINES).collect()
    }

    pub fn darts(&self) -> Vec<usize> {
        (0..self.0.len()).filter(|at| at % LINES != 0 && self.0[*at] != BLANK).collect()
    }

    fn blanks(&self) -> Vec<usize> {
        (0..self.0.len()).filter(|at| self.0[*at] == BLANK).collect()
    }

    fn pages(&self) -> usize {
        self.0.len() / LINES
    }

    /// Puts text into columns, the last of it where it is too long.
    fn put(&mut self, line: usize, columns: std::ops::Range<usize>, text: &str, right: bool) {
        let width = columns.len();
        let text = if right { format!("{text:>width$}") } else { format!("{text:width$}") };
        let from = text.len() - width;
        self.0[line][columns].copy_from_slice(&text.as_bytes()[from..]);
    }

    /// What stands in ten columns, without blanks.
    fn number(&self, line: usize, column: usize) -> String {
        String::from_utf8_lossy(&self.0[line][column..column + 10]).trim().to_string()
    }

    fn put_number(&mut self, line: usize, column: usize, text: &str) {
        self.put(line, column..column + 10, text, true);
    }

    fn put_third(&mut self, line: usize, text: &str) {
        self.put(line, 32..80, text, false);
    }

    /// The bytes with another number in ten columns of a line.
    pub fn with_number(&self, line: usize, column: usize, text: &str) -> Vec<u8> {
        let mut other = self.clone();
        other.put_number(line, column, text);
        other.bytes()
    }

    /// The bytes with another third link in a line.
    pub fn with_third(&self, line: usize, text: &str) -> Vec<u8> {
        let mut other = self.clone();
        other.put_third(line, text);
        other.bytes()
    }

    /// The first lines as they have to be for so many pages of this block.
    fn number_pages(&mut self, from: usize, count: usize) {
        for (page, line) in self.firsts().into_iter().enumerate() {
            self.put_number(line, 10, &(page + from).to_string());
            self.put_number(line, 20, &count.to_string());
        }
    }
}

/// Numbers spelt as none is written, from their right spelling.
pub const SPELLINGS: &[(&str, fn(&str) -> String)] = &[
    ("a number with a zero in front", |n| format!("0{n}")),
    ("a number filled up with zeros", |n| format!("{n:0>10}")),
    ("a number with a plus", |n| format!("+{n}")),
    ("a number with a minus", |n| format!("-{n}")),
    ("no number", |_| String::new()),
    ("a number of 2^32 in columns", |_| "4294967296".into()),
    ("a number of ten nines", |_| "9999999999".into()),
    ("a number at the left", |n| format!("{n:10}")),
    ("a number a column to the left", |n| format!("{n} ")),
    ("a number behind a tab", |n| format!("\t{n}")),
    ("a number with a letter", |n| format!("{n}a")),
    ("a number in two", |n| format!("{n} 1")),
    ("a number with a point", |n| format!("{n}.0")),
];

/// Where numbers stand: in a first line or in a dart's, from which column on.
pub const FIELDS: [(bool, usize); 6] = [(true, 0), (true, 10), (true, 20), (false, 0), (false, 10), (false, 20)];

/// Pages with the number in a field spelt otherwise.
pub fn spelt(sheets: &Sheets, line: usize, column: usize, spelling: fn(&str) -> String) -> Vec<u8> {
    sheets.with_number(line, column, &spelling(&sheets.number(line, column)))
}

/// Numbers that a field cannot have, or that are wrong there.
pub const VALUES: &[(&str, (bool, usize), &str)] = &[
    ("block 16 on a page", (true, 0), "16"),
    ("block 2^32 − 1 on a page", (true, 0), "4294967295"),
    ("block −0 on a page", (true, 0), "-0"),
    ("page 0", (true, 10), "0"),
    ("page 2", (true, 10), "2"),
    ("page count 0", (true, 20), "0"),
    ("page count 2", (true, 20), "2"),
    ("page count 3", (true, 20), "3"),
    ("own serial 0", (false, 0), "0"),
    ("own serial −0", (false, 0), "-0"),
    ("own serial 2^32 − 1", (false, 0), "4294967295"),
    ("next 0 on a page", (false, 10), "0"),
    ("next 2^32 − 1", (false, 10), "4294967295"),
    ("opposite 0", (false, 20), "0"),
    ("opposite 2^32 − 1", (false, 20), "4294967295"),
];

/// Third links as they are not written, out of range, or wrong where they stand.
pub const THIRDS: &[&str] = &[
    "",
    "free",
    "Free",
    "FREE",
    " free",
    "frees",
    "free 0",
    "free\t",
    "free                                           x",
    "sewn 0",
    "sewn 4294967295",
    "sewn 4294967296",
    "sewn 01",
    "sewn +1",
    "sewn -0",
    "sewn  1",
    "sewn 1 1",
    "crit 1",
    "crit 16 0.0.0",
    "crit 1 16.0.0",
    "crit 1 0.4294967296.0",
    "crit 1 0.0.4096",
    "crit 01 0.0.0",
    "crit 1 00.0.0",
    "crit 1 0.00.0",
    "crit 1 0.0.01",
    "crit 1 0.0",
    "crit 1 0.0.0.0",
    "crit 1 0.0.0 0",
    "crit 1  0.0.0",
    "crit 1 0,0,0",
    "CRIT 1 0.0.0",
    "crit 1 0.-0.0",
    "crit 15 15.4294967295.4095",
];

/// More of them.
pub const MORE_THIRDS: &[&str] = &[
    "fre",
    "free  1",
    "free .",
    "                                            free",
    "sewn",
    "sewn 99999999999",
    "sewn 00",
    "sewn -1",
    "sewn\t1",
    "sewn 1.",
    "sewn 1x",
    "sewn1",
    "Sewn 1",
    "SEWN 1",
    "crit",
    "crit 4294967295 0.0.0",
    "crit 1 256.0.0",
    "crit 1 0.99999999999.0",
    "crit 1 0.0.65536",
    "crit 1 0.0.00",
    "crit +1 0.0.0",
    "crit 1 +0.0.0",
    "crit 1 0.0.-0",
    "crit 1 0.0.",
    "crit 1 .0.0",
    "crit 1 0..0",
    "crit 1 0 0 0",
    "crit 1.0.0.0",
    "crit  1 0.0.0",
    "crit 1 0.0.0x",
    "Crit 1 0.0.0",
];

/// Alters lines; false when there is no such place.
pub type Change = fn(&mut Rng, &mut Sheets) -> bool;

/// Changes of lines.
pub const LINE_CHANGES: &[(&str, Change)] = &[
    ("the last dart's line blanked", |_, s| s.darts().last().map(|at| s.0[*at].fill(b' ')).is_some()),
    ("the first dart's line blanked", |_, s| s.darts().first().map(|at| s.0[*at].fill(b' ')).is_some()),
    ("a dart's line blanked", |rng, s| rng.pick(&s.darts()).map(|at| s.0[*at].fill(b' ')).is_some()),
    ("a dart behind a blank line", |_, s| {
        let Some(&last) = s.darts().last() else { return false };
        swap(s, last, last + 1)
    }),
    ("a dart on the last line", |_, s| {
        let (Some(&last), end) = (s.darts().last(), s.0.len() - 1) else { return false };
        last != end && swap(s, last, end)
    }),
    ("a dart between darts moved to the end", |_, s| {
        let (Some(&first), Some(&last)) = (s.darts().first(), s.darts().last()) else { return false };
        (last + 1) % LINES != 0 && swap(s, first, last + 1)
    }),
    ("two darts exchanged on a page", |_, s| matches!(s.darts()[..], [a, b, ..] if swap(s, a, b))),
    ("the last two darts exchanged", |_, s| matches!(s.darts()[..], [.., a, b] if swap(s, a, b))),
    ("a dart's line twice", |_, s| {
        let Some(&last) = s.darts().last() else { return false };
        let line = s.0[last].clone();
        (last + 1) % LINES != 0 && s.0.get_mut(last + 1).map(|next| *next = line).is_some()
    }),
    ("a serial as the one before", |rng, s| {
        let darts = s.darts();
        let Some([a, b]) = rng.pick(&darts.windows(2).collect::<Vec<_>>()).copied() else { return false };
        let serial = s.number(*a, 0);
        s.put_number(*b, 0, &serial);
        true
    }),
    ("something in a blank line", |rng, s| {
        let byte = *rng.pick(b"x0.\t\0\xa0").unwrap_or(&b'x');
        let Some(&at) = rng.pick(&s.blanks()) else { return false };
        s.0[at][rng.below(LINE - 1)] = byte;
        true
    }),
    ("something behind the first line's numbers", |rng, s| {
        let Some(&at) = rng.pick(&s.firsts()) else { return false };
        s.0[at][rng.between(30, 79)] = b'1';
        true
    }),
    ("something before a third link", |rng, s| {
        let column = rng.between(30, 31);
        rng.pick(&s.darts()).map(|at| s.0[*at][column] = b'0').is_some()
    }),
    ("a third link a column to the right", |rng, s| {
        rng.pick(&s.darts()).map(|at| s.0[*at][32..].rotate_right(1)).is_some()
    }),
    ("a third link a column to the left", |rng, s| {
        rng.pick(&s.darts()).map(|at| s.0[*at][31..].rotate_left(1)).is_some()
    }),
    ("a third link at the right", |rng, s| {
        let Some(&at) = rng.pick(&s.darts()) else { return false };
        let text = String::from_utf8_lossy(&s.0[at][32..]).trim().to_string();
        s.put(at, 32..80, &text, true);
        true
    }),
    ("a line in upper case", |rng, s| rng.pick(&s.darts()).map(|at| s.0[*at].make_ascii_uppercase()).is_some()),
    ("tabs for blanks", |rng, s| {
        let Some(&at) = rng.pick(&s.darts()) else { return false };
        s.0[at].iter_mut().filter(|byte| **byte == b' ').for_each(|byte| *byte = b'\t');
        true
    }),
    ("a first line missing", |_, s| {
        s.0.remove(0);
        s.0.push(BLANK.to_vec());
        true
    }),
    ("a first line twice", |_, s| {
        let first = s.0[0].clone();
        s.0.insert(1, first);
        s.0.pop();
        true
    }),
    ("a blank first line", |rng, s| rng.pick(&s.firsts()).map(|at| s.0[*at].fill(b' ')).is_some()),
    ("a line missing", |_, s| s.0.pop().is_some()),
    ("a line more", |_, s| {
        s.0.push(BLANK.to_vec());
        true
    }),
    ("a column more in a line", |rng, s| {
        let at = rng.below(s.0.len());
        s.0[at].push(b' ');
        true
    }),
    ("a column less in a line", |rng, s| {
        let at = rng.below(s.0.len());
        s.0[at].pop().is_some()
    }),
    ("a column from one line to another", |_, s| {
        s.0[1].push(b' ');
        s.0[2].pop().is_some()
    }),
    ("blanks at the ends of lines missing", |_, s| {
        s.0.iter_mut().for_each(|line| line.truncate(line.trim_ascii_end().len()));
        true
    }),
];

/// Changes of the numbers of pages.
pub const PAGE_CHANGES: &[(&str, Change)] = &[
    ("a blank page more", |_, s| {
        let first = s.0[0].clone();
        s.0.push(first);
        s.0.extend(std::iter::repeat_n(BLANK.to_vec(), DART_LINES));
        s.number_pages(1, s.pages());
        true
    }),
    ("a blank page more, the counts as they were", |_, s| {
        let (first, count) = (s.0[0].clone(), s.pages());
        s.0.push(first);
        s.0.extend(std::iter::repeat_n(BLANK.to_vec(), DART_LINES));
        s.number_pages(1, count);
        true
    }),
    ("a page twice", |rng, s| {
        let page = rng.below(s.pages());
        let copy: Vec<Vec<u8>> = s.0[page * LINES..(page + 1) * LINES].to_vec();
        s.0.splice(page * LINES..page * LINES, copy);
        true
    }),
    ("pages numbered from 0", |_, s| {
        s.number_pages(0, s.pages());
        true
    }),
    ("a page count one too low", |_, s| {
        s.number_pages(1, s.pages() - 1);
        true
    }),
    ("a page count one too high", |_, s| {
        s.number_pages(1, s.pages() + 1);
        true
    }),
    ("all pages numbered 1", |_, s| {
        let of = s.pages().to_string();
        for at in s.firsts() {
            s.put_number(at, 10, "1");
            s.put_number(at, 20, &of);
        }
        s.pages() > 1
    }),
    ("page and page count exchanged", |_, s| {
        let [page, count] = [10, 20].map(|column| s.number(0, column));
        s.put_number(0, 10, &count);
        s.put_number(0, 20, &page);
        page != count
    }),
];

/// Changes of more than one page.
pub const CHANGES_OF_TWO: &[(&str, Change)] = &[
    ("the last page missing", |_, s| {
        s.0.truncate(s.0.len() - LINES);
        true
    }),
    ("the last page missing, the counts as they have to be", |_, s| {
        s.0.truncate(s.0.len() - LINES);
        s.number_pages(1, s.pages());
        s.pages() > 0
    }),
    ("two pages exchanged", |_, s| {
        s.0.rotate_left(LINES);
        s.pages() > 1
    }),
    ("two pages exchanged, their numbers as they have to be", |_, s| {
        s.0.rotate_left(LINES);
        s.number_pages(1, s.pages());
        s.pages() > 1
    }),
    ("another block on a later page", |rng, s| {
        let Some(&at) = rng.pick(&s.firsts()[1..]) else { return false };
        let block = if s.number(at, 0) == "1" { "2" } else { "1" };
        s.put_number(at, 0, block);
        true
    }),
];

fn swap(sheets: &mut Sheets, one: usize, other: usize) -> bool {
    // The first line of a page is no place for a dart.
    let right = other < sheets.0.len() && one % LINES != 0 && other % LINES != 0;
    if right {
        sheets.0.swap(one, other);
    }
    right
}

/// Alters bytes about the line feed at a place.
type End = fn(&mut Vec<u8>, usize);

/// Wrong ends of lines.
pub const ENDS: &[(&str, End)] = &[
    ("a line feed missing", |b, at| {
        b.remove(at);
    }),
    ("a line feed twice", |b, at| b.insert(at, b'\n')),
    ("a carriage return for a line feed", |b, at| b[at] = b'\r'),
    ("a blank for a line feed", |b, at| b[at] = b' '),
    ("a zero for a line feed", |b, at| b[at] = 0),
    ("a line feed a column early", |b, at| b.swap(at - 1, at)),
    ("a line feed within a line", |b, at| b[at - 47] = b'\n'),
    ("carriage returns before line feeds", |b, _| {
        *b = b.split_inclusive(|byte| *byte == b'\n').flat_map(|line| [&line[..LINE - 1], b"\r\n"].concat()).collect();
    }),
    ("carriage returns in the last column", |b, _| b.iter_mut().skip(79).step_by(LINE).for_each(|c| *c = b'\r')),
    ("the last line feed missing", |b, _| b.truncate(b.len() - 1)),
    ("half a page", |b, _| b.truncate(PAGE / 2)),
    ("a mark in front", |b, _| *b = [b"\xef\xbb\xbf", &b[..]].concat()),
];

/// Pages with one wrong end, the line given.
pub fn with_end(sheets: &Sheets, line: usize, change: End) -> Vec<u8> {
    let mut bytes = sheets.bytes();
    change(&mut bytes, LINE * (line + 1) - 1);
    bytes
}

/// Pages that differ in one byte: columns of a first line, a dart's, a blank one.
fn columns(rng: &mut Rng, sheets: &Sheets) -> Vec<(&'static str, Vec<u8>)> {
    let good = sheets.bytes();
    let sorts = [
        ("a byte of a first line", sheets.firsts()),
        ("a byte of a dart's line", sheets.darts()),
        ("a byte of a blank line", sheets.blanks()),
    ];
    let mut found = Vec::new();
    for (way, lines) in sorts {
        for _ in 0..3 {
            let Some(line) = rng.pick(&lines) else { break };
            let at = LINE * line + rng.below(LINE);
            let mut other = good.clone();
            other[at] = match rng.below(4) {
                0 => rng.bits() as u8,
                1 => good[at] ^ 1 << rng.below(8),
                2 => *rng.pick(b" 0123456789").unwrap_or(&b' '),
                _ => *rng.pick(b" 0123456789.+-\tfresewncrit\n\r").unwrap_or(&b' '),
            };
            found.push((way, other));
        }
    }
    found
}

/// Blocks with the widest numbers, with a dart count that is odd, with own labels at the end of the counter.
fn strange(rng: &mut Rng, block: &Block) -> Vec<(&'static str, Block)> {
    let mut found = vec![
        ("an empty block", Block::empty(block.number)),
        ("one dart alone", first_darts(block, 1)),
        ("59 darts", first_darts(block, DART_LINES)),
        ("serials up to 2^32 − 1", at_the_top(block)),
        ("a number of two digits", Block { number: 10 + rng.below(6) as u8, ..block.clone() }),
    ];
    let others: Vec<u8> = block.darts.values().filter_map(other_of).collect();
    if let Some(&other) = rng.pick(&others) {
        found.push(("a block that its own face names", Block { number: other, ..block.clone() }));
    }
    let labels = [
        ("the greatest label of another maker", (block.number + 1) % 16, u32::MAX),
        ("an own label of 2^32 − 1", block.number, u32::MAX),
        ("an own label of 2^32 − 2", block.number, u32::MAX - 1),
        ("an own label of 0", block.number, 0),
    ];
    for (way, maker, number) in labels {
        let mut other = block.clone();
        let label = Label { maker, number, position: MAX_POSITION };
        let critical: Vec<u32> = block.labels().into_values().collect();
        let Some(serial) = rng.pick(&critical) else { break };
        if let Some(Third::Critical { label: held, .. }) = other.darts.get_mut(serial).map(|dart| &mut dart.third) {
            *held = label;
        }
        found.push((way, other));
    }
    found
}

fn other_of(dart: &Dart) -> Option<u8> {
    match dart.third {
        Third::Critical { other, .. } => Some(other),
        _ => None,
    }
}

/// The first darts of a block alone.
pub fn first_darts(block: &Block, count: usize) -> Block {
    let darts = block.darts.iter().take(count).map(|(serial, dart)| (*serial, *dart)).collect();
    Block { darts, ..block.clone() }
}

/// The same block with the greatest serials.
pub fn at_the_top(block: &Block) -> Block {
    let first = u32::MAX - block.darts.len() as u32 + 1;
    let new: BTreeMap<u32, u32> = block.darts.keys().zip(first..).map(|(serial, new)| (*serial, new)).collect();
    let renamed = |serial: u32| new.get(&serial).copied().unwrap_or(serial);
    let darts = block.darts.iter().map(|(serial, dart)| {
        let third = match dart.third {
            Third::Sewn(partner) => Third::Sewn(renamed(partner)),
            third => third,
        };
        (renamed(*serial), Dart { next: renamed(dart.next), opposite: renamed(dart.opposite), third, ..*dart })
    });
    Block { darts: darts.collect(), ..block.clone() }
}

/// Pages of a block, right and wrong.
fn wrong(rng: &mut Rng, block: &Block) -> Vec<(&'static str, Vec<u8>)> {
    let sheets = Sheets::of(block);
    let good = sheets.bytes();
    let mut found = vec![("as it is", good.clone())];
    let values = blocks::changed(rng, block).into_iter().chain(blocks::changed_twice(rng, block));
    found.extend(values.map(|(way, block)| (way, pages::encode(&block))));
    found.extend(strange(rng, block).into_iter().map(|(way, block)| (way, pages::encode(&block))));
    let (firsts, darts) = (sheets.firsts(), sheets.darts());
    let lines = |first: bool| if first { &firsts } else { &darts };
    for (way, spelling) in SPELLINGS {
        let (first, column) = FIELDS[rng.below(FIELDS.len())];
        if let Some(&line) = rng.pick(lines(first)) {
            found.push((*way, spelt(&sheets, line, column, *spelling)));
        }
    }
    for (way, (first, column), value) in VALUES {
        if let Some(&line) = rng.pick(lines(*first)) {
            found.push((*way, sheets.with_number(line, *column, value)));
        }
    }
    for (way, count) in [("a third link that is none", 6), ("two third links that are none", 2)] {
        for _ in 0..count {
            let mut other = sheets.clone();
            for _ in 0..if count == 2 { 2 } else { 1 } {
                if let (Some(&line), Some(text)) = (rng.pick(&darts), rng.pick(&[THIRDS, MORE_THIRDS].concat())) {
                    other.put_third(line, text);
                }
            }
            found.push((way, other.bytes()));
        }
    }
    for (way, change) in [LINE_CHANGES, PAGE_CHANGES, CHANGES_OF_TWO].concat() {
        let mut other = sheets.clone();
        if change(rng, &mut other) {
            found.push((way, other.bytes()));
        }
    }
    for (way, change) in ENDS {
        found.push((*way, with_end(&sheets, rng.below(sheets.0.len()), *change)));
    }
    found.extend(columns(rng, &sheets));
    found.extend(bytes::raw(rng, &good));
    found
}

/// Cases of read_pages: of any block, into memory that holds one which the site can hold.
pub fn read_pages(rng: &mut Rng, site: Site, mesh: &[Block], held: &[Block]) -> Vec<Way> {
    let from = if rng.one_in(8) { mesh } else { held };
    let block = some_block(rng, from).clone();
    let stale = image::encode_at(site, some_block(rng, held));
    let case = |pages: Vec<u8>| Case::ReadPages { site, pages, block: stale.clone() };
    let mut ways: Vec<Way> = wrong(rng, &block).into_iter().map(|(way, pages)| (way, case(pages))).collect();
    let good = pages::encode(&block);
    for (way, memory) in blocks::wrong_sizes(site, &block) {
        // The size is asked before the layout.
        let pages = if rng.one_in(2) { good.clone() } else { Vec::new() };
        ways.push((way, Case::ReadPages { site, pages, block: memory }));
    }
    // Any words are good memory to read into.
    let noise = (0..site.words()).map(|_| rng.bits()).collect();
    ways.push(("into noise", Case::ReadPages { site, pages: good, block: noise }));
    if rng.one_in(8) {
        let most = site.limits().darts;
        for (way, goal) in
            [("a full block", most), ("two darts past the most", most + 2), ("a full page", DART_LINES * 2)]
        {
            let Some(full) = fill(rng, &block, goal, &BTreeSet::new()) else { continue };
            ways.push((way, case(pages::encode(&full))));
            if way == "two darts past the most" {
                ways.push(("a dart past the most", case(pages::encode(&first_darts(&full, most + 1)))));
            }
        }
    }
    ways
}

/// Cases of write_pages.
pub fn write_pages(rng: &mut Rng, site: Site, held: &[Block]) -> Vec<Way> {
    let block = some_block(rng, held);
    let length = pages::encode(block).len();
    let case =
        |block: Vec<u64>, room: usize| Case::WritePages { site, block, out: vec![0xa5; room], written: UNWRITTEN };
    let mut ways: Vec<Way> = Vec::new();
    for (way, words) in blocks::memories(rng, site, block) {
        // The size and the image are asked before the room.
        let room = if rng.one_in(3) { length - 1 } else { length + 9 };
        ways.push((way, case(words, room)));
    }
    let mut blocks = vec![block.clone(), Block::empty(rng.below(16) as u8), at_the_top(block)];
    if rng.one_in(8) {
        let goals = [("a full block", site.limits().darts), ("a full page", DART_LINES * 2)];
        blocks.extend(goals.iter().filter_map(|(_, goal)| fill(rng, block, *goal, &BTreeSet::new())));
    }
    for block in blocks {
        let (words, length) = (image::encode_at(site, &block), pages::encode(&block).len());
        for (way, room) in [
            ("room to spare", length + 1 + rng.below(80)),
            ("room for a page more", length + PAGE),
            ("room that just fits", length),
            ("room a byte short", length - 1),
            ("room a page short", length - PAGE),
            ("no room", 0),
            ("any room", rng.below(2 * length)),
        ] {
            ways.push((way, case(words.clone(), room)));
        }
    }
    let any = some_serial(rng, block);
    let mut widest = block.clone();
    if let Some(Third::Critical { label, .. }) = widest.darts.get_mut(&any).map(|dart| &mut dart.third) {
        *label = Label { maker: (block.number + 1) % 16, number: u32::MAX, position: MAX_POSITION };
        ways.push(("the greatest label of another maker", case(image::encode_at(site, &widest), length)));
    }
    ways
}
