//! The block file: block, counter, dart count; then each dart.

use crate::groups::{put_tokens, Reader, Token};
use crate::value::{Block, Dart, Label, Limits, Point, Third, MAX_BLOCKS, MAX_POSITION};
use std::collections::BTreeMap;

/// The file's items in order. Works on any value, sound or not.
pub fn tokens(block: &Block) -> Vec<Token> {
    let mut out = vec![
        Token::number("block", u64::from(block.number)),
        Token::number("counter", u64::from(block.counter)),
        Token::number("darts", block.darts.len() as u64),
    ];
    for (serial, dart) in &block.darts {
        out.push(Token::number("serial", u64::from(*serial)));
        out.push(Token::number("next", u64::from(dart.next)));
        out.push(Token::number("opposite", u64::from(dart.opposite)));
        match dart.third {
            Third::Free => out.push(Token::number("kind", 0)),
            Third::Sewn(partner) => {
                out.push(Token::number("kind", 1));
                out.push(Token::number("sewn", u64::from(partner)));
            }
            Third::Critical { other, label } => {
                out.push(Token::number("kind", 2));
                out.push(Token::number("other", u64::from(other)));
                put_label(&mut out, label);
            }
        }
        out.extend(dart.point.0.map(Token::coordinate));
    }
    out
}

/// A label as three numbers: maker, number, position.
pub fn put_label(out: &mut Vec<Token>, label: Label) {
    out.push(Token::number("maker", u64::from(label.maker)));
    out.push(Token::number("number", u64::from(label.number)));
    out.push(Token::number("position", u64::from(label.position)));
}

/// A block number, at most 15.
pub fn get_block(reader: &mut Reader) -> Option<u8> {
    Some(reader.at_most(MAX_BLOCKS as u32 - 1)? as u8)
}

/// A label within its limits.
pub fn get_label(reader: &mut Reader) -> Option<Label> {
    let maker = get_block(reader)?;
    let number = reader.number()?;
    let position = reader.at_most(u32::from(MAX_POSITION))? as u16;
    Some(Label { maker, number, position })
}

/// A point as three coordinates.
pub fn get_point(reader: &mut Reader) -> Option<Point> {
    Some(Point([reader.coordinate()?, reader.coordinate()?, reader.coordinate()?]))
}

pub fn encode(block: &Block) -> Vec<u8> {
    put_tokens(&tokens(block))
}

/// Question 3: the layout to the last byte and its limits.
pub fn decode(bytes: &[u8], limits: Limits) -> Option<Block> {
    let mut reader = Reader::new(bytes);
    let number = get_block(&mut reader)?;
    let counter = reader.number()?;
    let count = reader.at_most(limits.darts as u32)?;
    let mut darts = BTreeMap::new();
    let mut last = 0;
    for _ in 0..count {
        let serial = reader.number()?;
        // At least 1 and ascending.
        if serial <= last {
            return None;
        }
        last = serial;
        let next = reader.number()?;
        let opposite = reader.number()?;
        let third = match reader.number()? {
            0 => Third::Free,
            1 => Third::Sewn(reader.number()?),
            2 => Third::Critical { other: get_block(&mut reader)?, label: get_label(&mut reader)? },
            _ => return None,
        };
        let point = get_point(&mut reader)?;
        darts.insert(serial, Dart { next, opposite, third, point });
    }
    reader.at_end().then_some(Block { number, counter, darts })
}
