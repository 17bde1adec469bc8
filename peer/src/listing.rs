//! The listing text of a block file.

use crate::calls;
use crate::value::{Block, No, Third, RACK};
use std::fmt::Write;

/// Longest input the listing program reads.
pub const MAX_INPUT: usize = 65_536;

/// What the listing program prints for its input; each line ends with a line feed.
pub fn listing(input: &[u8]) -> String {
    if input.len() > MAX_INPUT {
        return "too long\n".to_string();
    }
    match calls::read_file(RACK, input) {
        Ok(block) => lines(&block),
        Err(No(number)) => format!("refused {number}\n"),
    }
}

/// The header and a line for each dart.
pub fn lines(block: &Block) -> String {
    let mut text = format!("block {} darts {} counter {}\n", block.number, block.darts.len(), block.counter);
    for (serial, dart) in &block.darts {
        let third = third(dart.third);
        // Writing to a string cannot fail.
        let _ = writeln!(text, "{serial} {} {} {third}", dart.next, dart.opposite);
    }
    text
}

/// A third link as a line ends with it.
pub fn third(link: Third) -> String {
    match link {
        Third::Free => "free".to_string(),
        Third::Sewn(partner) => format!("sewn {partner}"),
        Third::Critical { other, label } => {
            format!("crit {other} {}.{}.{}", label.maker, label.number, label.position)
        }
    }
}
