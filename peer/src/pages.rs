//! A block on the wall: pages of 60 lines of 80 columns, each line ended by one line feed.

use crate::listing;
use crate::sound;
use crate::value::{Block, Dart, Label, Limits, Point, Third};

/// Lines for darts on a page, behind its first line.
pub const DART_LINES: usize = 59;
/// Bytes of a line: 80 columns and the line feed.
pub const LINE: usize = 81;
/// Bytes of a page.
pub const PAGE: usize = (1 + DART_LINES) * LINE;

/// How many pages so many darts take; an empty block gives one.
pub fn page_count(darts: usize) -> usize {
    darts.div_ceil(DART_LINES).max(1)
}

/// All pages of a block. Works on any value, sound or not.
pub fn encode(block: &Block) -> Vec<u8> {
    let lines: Vec<String> = block.darts.iter().map(|(serial, dart)| dart_line(*serial, dart)).collect();
    let pages = page_count(lines.len());
    let mut text = String::with_capacity(PAGE * pages);
    for page in 0..pages {
        text += &format!("{:>10}{:>10}{pages:>10}{:50}\n", block.number, page + 1, "");
        for line in page * DART_LINES..(page + 1) * DART_LINES {
            text += &format!("{:80}\n", lines.get(line).map_or("", String::as_str));
        }
    }
    text.into_bytes()
}

fn dart_line(serial: u32, dart: &Dart) -> String {
    format!("{serial:>10}{:>10}{:>10}  {:48}", dart.next, dart.opposite, listing::third(dart.third))
}

/// Question 3: the value within limits that gives exactly these pages. Its points are zero and its counter is 0: neither is on them.
pub fn decode(bytes: &[u8], limits: Limits) -> Option<Block> {
    let lines: Vec<&str> = std::str::from_utf8(bytes).ok()?.split('\n').collect();
    let mut block = Block::empty(number(lines[0], 0)?);
    for (at, line) in lines.iter().enumerate() {
        if at % (1 + DART_LINES) != 0 && !line.trim().is_empty() {
            let third = third_of(line.get(30..)?.trim())?;
            let dart = Dart { next: number(line, 10)?, opposite: number(line, 20)?, third, point: Point::default() };
            block.darts.insert(number(line, 0)?, dart);
        }
    }
    // What was read freely has to be what is written: order, blanks, zeros in front and the number of pages follow.
    (sound::within_limits(&block, limits) && encode(&block) == bytes).then_some(block)
}

/// The number in ten columns.
fn number<T: std::str::FromStr>(line: &str, column: usize) -> Option<T> {
    line.get(column..column + 10)?.trim().parse().ok()
}

/// The third link of a listing's text.
fn third_of(text: &str) -> Option<Third> {
    match text.split(' ').collect::<Vec<_>>()[..] {
        ["free"] => Some(Third::Free),
        ["sewn", partner] => Some(Third::Sewn(partner.parse().ok()?)),
        ["crit", other, label] => {
            let [maker, number, position] = label.split('.').collect::<Vec<_>>()[..] else { return None };
            let (maker, number, position) = (maker.parse().ok()?, number.parse().ok()?, position.parse().ok()?);
            Some(Third::Critical { other: other.parse().ok()?, label: Label { maker, number, position } })
        }
        _ => None,
    }
}
