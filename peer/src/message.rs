//! The two messages: a transfer moves a volume, an update renames the block behind some faces.

use crate::file::{get_block, get_label, get_point, put_label};
use crate::groups::{put_number, put_tokens, Reader, Token};
use crate::value::{Label, Point, MAX_CELL};

/// The index of a dart in a message; never a place in a block.
#[derive(Clone, Copy, PartialEq, Eq, PartialOrd, Ord, Debug)]
pub struct Index(pub u32);

/// One dart of a transfer: its vertex number and its serial.
pub type Corner = (u32, u32);

#[derive(Clone, PartialEq, Eq, Debug)]
pub struct Transfer {
    pub from: u8,
    pub to: u8,
    pub points: Vec<Point>,
    pub faces: Vec<Vec<Corner>>,
    /// Faces critical with the receiver.
    pub part2: Vec<(Label, Index)>,
    /// Faces that were sewn and get a new number.
    pub part3: Vec<(u32, Index)>,
    /// Faces critical with other blocks.
    pub part4: Vec<(Index, u8, Vec<Label>)>,
}

#[derive(Clone, PartialEq, Eq, Debug)]
pub struct Update {
    pub from: u8,
    pub to: u8,
    pub new: u8,
    pub labels: Vec<Label>,
}

#[derive(Clone, PartialEq, Eq, Debug)]
pub enum Message {
    Transfer(Transfer),
    Update(Update),
}

impl Transfer {
    pub fn dart_count(&self) -> usize {
        self.faces.iter().map(Vec::len).sum()
    }

    /// The face that starts at an index, if one does; faces of size 0 start nowhere.
    pub fn face_at(&self, index: Index) -> Option<&[Corner]> {
        let mut start = 0;
        for face in &self.faces {
            if start == index.0 as usize && !face.is_empty() {
                return Some(face);
            }
            start += face.len();
        }
        None
    }

    /// The items after the length, in order.
    pub fn tokens(&self) -> Vec<Token> {
        let mut out = vec![
            Token::number("kind", 1),
            Token::number("from", u64::from(self.from)),
            Token::number("to", u64::from(self.to)),
            Token::number("vertices", self.points.len() as u64),
        ];
        for point in &self.points {
            out.extend(point.0.map(Token::coordinate));
        }
        out.push(Token::number("faces", self.faces.len() as u64));
        for face in &self.faces {
            out.push(Token::number("size", face.len() as u64));
            for (vertex, serial) in face {
                out.push(Token::number("vertex", u64::from(*vertex)));
                out.push(Token::number("serial", u64::from(*serial)));
            }
        }
        out.push(Token::number("part2", self.part2.len() as u64));
        for (label, index) in &self.part2 {
            put_label(&mut out, *label);
            out.push(Token::number("index2", u64::from(index.0)));
        }
        out.push(Token::number("part3", self.part3.len() as u64));
        for (number, index) in &self.part3 {
            out.push(Token::number("fresh", u64::from(*number)));
            out.push(Token::number("index3", u64::from(index.0)));
        }
        out.push(Token::number("part4", self.part4.len() as u64));
        for (index, other, labels) in &self.part4 {
            out.push(Token::number("index4", u64::from(index.0)));
            out.push(Token::number("other", u64::from(*other)));
            for label in labels {
                put_label(&mut out, *label);
            }
        }
        out
    }
}

impl Update {
    /// The items after the length, in order.
    pub fn tokens(&self) -> Vec<Token> {
        let mut out = vec![
            Token::number("kind", 2),
            Token::number("from", u64::from(self.from)),
            Token::number("to", u64::from(self.to)),
            Token::number("new", u64::from(self.new)),
            Token::number("labels", self.labels.len() as u64),
        ];
        for label in &self.labels {
            put_label(&mut out, *label);
        }
        out
    }
}

/// The items of a message, behind their length.
pub fn frame(tokens: &[Token]) -> Vec<u8> {
    let rest = put_tokens(tokens);
    let mut out = Vec::new();
    put_number(&mut out, rest.len() as u64);
    out.extend_from_slice(&rest);
    out
}

pub fn encode(message: &Message) -> Vec<u8> {
    match message {
        Message::Transfer(transfer) => frame(&transfer.tokens()),
        Message::Update(update) => frame(&update.tokens()),
    }
}

/// Question 16: the layout of its kind to the last byte; an unknown kind has none.
pub fn decode(bytes: &[u8]) -> Option<Message> {
    let mut reader = Reader::new(bytes);
    let rest = reader.number()?;
    if rest as usize != reader.left() {
        return None;
    }
    let message = match reader.number()? {
        1 => Message::Transfer(get_transfer(&mut reader)?),
        2 => Message::Update(get_update(&mut reader)?),
        _ => return None,
    };
    reader.at_end().then_some(message)
}

fn get_transfer(reader: &mut Reader) -> Option<Transfer> {
    let from = get_block(reader)?;
    let to = get_block(reader)?;
    // Counts are not trusted: lists grow only as bytes arrive.
    let mut points = Vec::new();
    for _ in 0..reader.number()? {
        points.push(get_point(reader)?);
    }
    let mut faces: Vec<Vec<Corner>> = Vec::new();
    let mut darts = 0;
    for _ in 0..reader.number()? {
        let mut face = Vec::new();
        for _ in 0..reader.number()? {
            face.push((reader.number()?, reader.number()?));
            darts += 1;
            if darts > MAX_CELL {
                return None;
            }
        }
        faces.push(face);
    }
    if darts == 0 {
        return None;
    }
    let mut part2 = Vec::new();
    for _ in 0..reader.number()? {
        part2.push((get_label(reader)?, Index(reader.number()?)));
    }
    let mut part3 = Vec::new();
    for _ in 0..reader.number()? {
        part3.push((reader.number()?, Index(reader.number()?)));
    }
    let mut part4 = Vec::new();
    for _ in 0..reader.number()? {
        let index = reader.at_most(darts as u32 - 1)?;
        let other = get_block(reader)?;
        let mut labels = Vec::new();
        for _ in 0..size_around(&faces, index) {
            labels.push(get_label(reader)?);
        }
        part4.push((Index(index), other, labels));
    }
    Some(Transfer { from, to, points, faces, part2, part3, part4 })
}

/// The size of the face in which a dart index lies.
fn size_around(faces: &[Vec<Corner>], index: u32) -> usize {
    let mut end = 0;
    for face in faces {
        end += face.len();
        if (index as usize) < end {
            return face.len();
        }
    }
    0
}

fn get_update(reader: &mut Reader) -> Option<Update> {
    let from = get_block(reader)?;
    let to = get_block(reader)?;
    let new = get_block(reader)?;
    let mut labels = Vec::new();
    for _ in 0..reader.number()? {
        labels.push(get_label(reader)?);
    }
    Some(Update { from, to, new, labels })
}

/// Splits what a send wrote into its messages, by their lengths.
pub fn split(bytes: &[u8]) -> Option<Vec<&[u8]>> {
    let mut messages = Vec::new();
    let mut rest = bytes;
    while !rest.is_empty() {
        let mut reader = Reader::new(rest);
        let length = reader.number()? as usize;
        let whole = (rest.len() - reader.left()).checked_add(length)?;
        if whole > rest.len() {
            return None;
        }
        messages.push(&rest[..whole]);
        rest = &rest[whole..];
    }
    Some(messages)
}

/// The block a message is addressed to.
pub fn address(message: &[u8]) -> Option<u32> {
    let mut reader = Reader::new(message);
    reader.number()?;
    reader.number()?;
    reader.number()?;
    reader.number()
}
