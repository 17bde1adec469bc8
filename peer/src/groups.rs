//! Numbers as groups of seven bits, coordinates as eight bytes, and a reader of both.

/// Count of groups by bit length 0 to 32.
pub const GROUPS: [usize; 33] =
    [1, 1, 1, 1, 1, 1, 1, 1, 2, 2, 2, 2, 2, 2, 2, 3, 3, 3, 3, 3, 3, 3, 4, 4, 4, 4, 4, 4, 4, 5, 5, 5, 5];

/// How many groups the shortest form of a number takes.
pub fn group_count(number: u32) -> usize {
    GROUPS[(32 - number.leading_zeros()) as usize]
}

/// Writes the shortest form, lowest group first, top bit on all but the last.
pub fn put_number(out: &mut Vec<u8>, number: u64) {
    let mut rest = number;
    while rest >= 0x80 {
        out.push(rest as u8 | 0x80);
        rest >>= 7;
    }
    out.push(rest as u8);
}

/// One item of a layout with its role: a number in groups, or a coordinate's pattern.
/// Values may lie outside the layout's limits, so that damage can be written down.
#[derive(Clone, Copy, PartialEq, Eq, Debug)]
pub struct Token {
    pub role: &'static str,
    pub value: u64,
    pub coordinate: bool,
}

impl Token {
    pub fn number(role: &'static str, value: u64) -> Token {
        Token { role, value, coordinate: false }
    }

    pub fn coordinate(bits: u64) -> Token {
        Token { role: "coordinate", value: bits, coordinate: true }
    }
}

/// The bytes of a list of tokens.
pub fn put_tokens(tokens: &[Token]) -> Vec<u8> {
    let mut out = Vec::new();
    for token in tokens {
        if token.coordinate {
            out.extend_from_slice(&token.value.to_le_bytes());
        } else {
            put_number(&mut out, token.value);
        }
    }
    out
}

/// Reads from the first byte on; `None` once the layout fails.
pub struct Reader<'a> {
    bytes: &'a [u8],
    at: usize,
}

impl<'a> Reader<'a> {
    pub fn new(bytes: &'a [u8]) -> Reader<'a> {
        Reader { bytes, at: 0 }
    }

    pub fn left(&self) -> usize {
        self.bytes.len() - self.at
    }

    pub fn at_end(&self) -> bool {
        self.left() == 0
    }

    fn byte(&mut self) -> Option<u8> {
        let byte = *self.bytes.get(self.at)?;
        self.at += 1;
        Some(byte)
    }

    /// A number below 2^32 in its shortest form.
    pub fn number(&mut self) -> Option<u32> {
        let mut value: u64 = 0;
        for group in 0..5 {
            let byte = self.byte()?;
            value |= u64::from(byte & 0x7f) << (7 * group);
            if byte & 0x80 == 0 {
                // A last group of zero is overlong unless it is the only one.
                if byte == 0 && group > 0 {
                    return None;
                }
                return u32::try_from(value).ok();
            }
        }
        None
    }

    /// A number at most `limit`.
    pub fn at_most(&mut self, limit: u32) -> Option<u32> {
        self.number().filter(|number| *number <= limit)
    }

    /// A coordinate's pattern, least significant byte first.
    pub fn coordinate(&mut self) -> Option<u64> {
        let end = self.at.checked_add(8)?;
        let bytes = self.bytes.get(self.at..end)?;
        self.at = end;
        Some(u64::from_le_bytes(bytes.try_into().ok()?))
    }
}
