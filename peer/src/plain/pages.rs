//! Pages on images: a line is cut at its columns, and eight digits are read at once.

use super::file::{first_no, Files};
use super::sound::{is_sound, records, Record, Work};
use crate::pages::{page_count, DART_LINES, LINE, PAGE};

type Line = [u8; LINE];

/// A line of 80 blanks.
const BLANK: Line = {
    let mut line = [b' '; LINE];
    line[LINE - 1] = b'\n';
    line
};

/// The two digits of each number below 100.
const PAIRS: [[u8; 2]; 100] = {
    let mut pairs = [[0; 2]; 100];
    let mut number = 0;
    while number < 100 {
        pairs[number] = [b'0' + (number / 10) as u8, b'0' + (number % 10) as u8];
        number += 1;
    }
    pairs
};

const BLANKS: u64 = u64::from_le_bytes([b' '; 8]);
const ZEROS: u64 = u64::from_le_bytes([b'0'; 8]);
const TOP_BITS: u64 = u64::from_le_bytes([0x80; 8]);

/// Puts the digits of a number in front of a column.
#[inline]
fn put_before(line: &mut Line, column: usize, number: u32) {
    let (mut rest, mut at) = (number, column);
    while rest >= 100 {
        at -= 2;
        line[at..at + 2].copy_from_slice(&PAIRS[(rest % 100) as usize]);
        rest /= 100;
    }
    if rest >= 10 {
        line[at - 2..at].copy_from_slice(&PAIRS[rest as usize]);
    } else {
        line[at - 1] = b'0' + rest as u8;
    }
}

/// Puts the digits of a number from a column on; gives the column behind them.
#[inline]
fn put_from(line: &mut Line, column: usize, number: u32) -> usize {
    let end = column + 1 + number.checked_ilog10().unwrap_or(0) as usize;
    put_before(line, end, number);
    end
}

fn first_line(block: u64, page: usize, pages: usize) -> Line {
    let mut line = BLANK;
    put_before(&mut line, 10, block as u32);
    put_before(&mut line, 20, page as u32);
    put_before(&mut line, 30, pages as u32);
    line
}

#[inline]
fn put_third(line: &mut Line, kind: u64, link: u64, sewn_to: u32) {
    match kind {
        0 => line[32..36].copy_from_slice(b"free"),
        1 => {
            line[32..36].copy_from_slice(b"sewn");
            put_from(line, 37, sewn_to);
        }
        _ => {
            line[32..36].copy_from_slice(b"crit");
            let at = put_from(line, 37, (kind >> 2) as u32) + 1;
            let at = put_from(line, at, (link >> 44) as u32);
            line[at] = b'.';
            let at = put_from(line, at + 1, (link >> 12) as u32);
            line[at] = b'.';
            put_from(line, at + 1, (link & 0xfff) as u32);
        }
    }
}

/// Question 30, then the pages of a sound block.
pub fn write<const D: usize>(words: &[u64], room: &mut [u8], written: &mut u64) -> u32 {
    let Some((header, darts)) = records::<D>(words) else { return 2 };
    let held = &darts[..header[2] as usize];
    let pages = page_count(held.len());
    let Some(out) = room.get_mut(..PAGE * pages) else { return 30 };
    let serial = |place: u64| darts[place as usize & (D - 1)][0] as u32;
    let (lines, _) = out.as_chunks_mut::<LINE>();
    for (page, lines) in lines.chunks_exact_mut(1 + DART_LINES).enumerate() {
        let darts = &held[held.len().min(page * DART_LINES)..held.len().min((page + 1) * DART_LINES)];
        lines[0] = first_line(header[0], page + 1, pages);
        for (line, [own, next, opposite, kind, link, ..]) in lines[1..].iter_mut().zip(darts) {
            *line = BLANK;
            put_before(line, 10, *own as u32);
            put_before(line, 20, serial(*next));
            put_before(line, 30, serial(*opposite));
            put_third(line, *kind, *link, serial(*link));
        }
        lines[1 + darts.len()..].fill(BLANK);
    }
    *written = (PAGE * pages) as u64;
    0
}

/// The bytes above 9, by their top bits.
#[inline]
fn no_digits(bytes: u64) -> u64 {
    (((bytes & !TOP_BITS) + 0x7676_7676_7676_7676) | bytes) & TOP_BITS
}

/// The number of eight digits, the first in the lowest byte.
#[inline]
fn eight(digits: u64) -> u64 {
    let pairs = digits.wrapping_mul(10).wrapping_add(digits >> 8);
    let (even, odd) = (pairs & 0xff_0000_00ff, pairs >> 16 & 0xff_0000_00ff);
    even.wrapping_mul(0x000f_4240_0000_0064).wrapping_add(odd.wrapping_mul(0x0000_2710_0000_0001)) >> 32
}

/// The number in the ten columns before one.
#[inline]
fn number_before(line: &Line, column: usize) -> Option<u64> {
    let ten: &[u8; 10] = line[column - 10..column].try_into().ok()?;
    let [a, b, eight_columns @ ..] = *ten;
    if [a, b] != *b"  " {
        return wide(ten);
    }
    let columns = u64::from_le_bytes(eight_columns);
    let blanks = (columns ^ BLANKS).trailing_zeros() / 8;
    if blanks == 8 {
        return None;
    }
    let digits = (columns ^ ZEROS) >> (8 * blanks) << (8 * blanks);
    let zero_in_front = blanks < 7 && digits >> (8 * blanks) & 0xff == 0;
    (no_digits(digits) == 0 && !zero_in_front).then(|| eight(digits))
}

/// The same of nine or ten digits.
#[cold]
fn wide(ten: &[u8; 10]) -> Option<u64> {
    let digits = if ten[0] == b' ' { &ten[1..] } else { &ten[..] };
    if digits[0] == b'0' || !digits.iter().all(u8::is_ascii_digit) {
        return None;
    }
    let number = digits.iter().fold(0, |number, digit| 10 * number + u64::from(digit - b'0'));
    (number >> 32 == 0).then_some(number)
}

/// The number from a column on, which is moved past it.
#[inline]
fn number_from(line: &Line, column: &mut usize) -> Option<u64> {
    let digits = u64::from_le_bytes(*line.get(*column..)?.first_chunk()?) ^ ZEROS;
    let count = no_digits(digits).trailing_zeros() / 8;
    if count == 0 || (count > 1 && digits & 0xff == 0) {
        return None;
    }
    *column += count as usize;
    let mut number = eight(digits << (64 - 8 * count));
    if count == 8 {
        for _ in 0..2 {
            let next = *line.get(*column)?;
            if next.is_ascii_digit() {
                number = 10 * number + u64::from(next - b'0');
                *column += 1;
            }
        }
    }
    (number >> 32 == 0).then_some(number)
}

/// A number at most `limit` and the byte behind it.
#[inline]
fn number_then(line: &Line, column: &mut usize, limit: u64, behind: u8) -> Option<u64> {
    let number = number_from(line, column)?;
    let right = number <= limit && line[*column] == behind;
    *column += 1;
    right.then_some(number)
}

/// Kind word and link, the serial of a sewn one.
#[inline]
fn third(line: &Line) -> Option<(u64, u64)> {
    let mut column = 37;
    let found = match &line[32..37] {
        b"free " => (0, 0),
        b"sewn " => (1, number_from(line, &mut column)?),
        b"crit " => {
            let other = number_then(line, &mut column, 15, b' ')?;
            let maker = number_then(line, &mut column, 15, b'.')?;
            let number = number_then(line, &mut column, u32::MAX.into(), b'.')?;
            let position = number_from(line, &mut column).filter(|position| *position <= 4095)?;
            (2 + 4 * other, (maker << 32 | number) << 12 | position)
        }
        _ => return None,
    };
    // Blanks up to the line feed.
    (line[column..] == BLANK[column..]).then_some(found)
}

/// Question 3: the image, with serials where places belong and the counter that may be 2^32.
fn parse<const D: usize>(bytes: &[u8], files: &mut Files) -> Option<()> {
    let pages = bytes.len() / PAGE;
    if pages == 0 || pages > page_count(D) || bytes.len() % PAGE != 0 {
        return None;
    }
    let (lines, _) = bytes.as_chunks::<LINE>();
    let number = number_before(&lines[0], 10).filter(|number| *number <= 15)?;
    let last = lines.chunks_exact(1 + DART_LINES).next_back()?;
    let on_last = last[1..].iter().position(|line| *line == BLANK).unwrap_or(DART_LINES);
    let count = DART_LINES * (pages - 1) + on_last;
    if count > D || (on_last == 0 && pages > 1) || last[1 + on_last..].iter().any(|line| *line != BLANK) {
        return None;
    }
    let (header, darts) = files.room(count)?;
    let (mut least, mut counter) = (1, 0);
    for (page, lines) in lines.chunks_exact(1 + DART_LINES).enumerate() {
        if lines[0] != first_line(number, page + 1, pages) {
            return None;
        }
        let from = page * DART_LINES;
        let to = count.min(from + DART_LINES);
        for (dart, line) in darts[from..to].iter_mut().zip(&lines[1..]) {
            let serial = number_before(line, 10)?;
            let next = number_before(line, 20)?;
            let opposite = number_before(line, 30)?;
            if serial < least || line[30..32] != *b"  " {
                return None;
            }
            least = serial + 1;
            let (kind, link) = third(line)?;
            if kind > 1 && link >> 44 == number {
                counter = counter.max((link >> 12 & 0xffff_ffff) + 1);
            }
            *dart = [serial, next, opposite, kind, link, 0, 0, 0];
        }
    }
    *header = [number, counter, count as u64, 0, 0, 0, 0, 0];
    Some(())
}

pub fn read<const D: usize>(bytes: &[u8], block: &mut [u64], work: &mut Work, files: &mut Files) -> u32 {
    if parse::<D>(bytes, files).is_none() {
        return 3;
    }
    files.link();
    if is_sound::<D>(files.image::<D>(), work) {
        block.copy_from_slice(files.image::<D>());
        return 0;
    }
    let Some((header, darts)) = records::<D>(files.image::<D>()) else { return 1 };
    let darts: &[Record] = &darts[..header[2] as usize];
    // Points are all zero: what is left is a counter of 2^32.
    first_no(header, darts).min(7)
}
