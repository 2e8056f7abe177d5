//! Event lines: taking them apart, and printing the answers.

use crate::module::Answer;
use std::io::{self, BufRead, Read};

/// The longest readable line.
pub const LONGEST: usize = 160;
/// Room for the bytes of the longest readable line.
pub type Room = [u8; LONGEST / 2];

/// A readable line; `bytes` lie in the room lent to `parse`.
#[derive(Clone, Copy, Debug, PartialEq, Eq)]
pub enum Event<'a> {
    Format([u16; 4]),
    Read {
        board: u16,
        cell: u16,
        n: u16,
    },
    Write {
        board: u16,
        cell: u16,
        bytes: &'a [u8],
    },
    Start {
        board: u16,
        bytes: &'a [u8],
    },
    Acknowledge {
        board: u16,
        bytes: &'a [u8],
    },
    Fault {
        board: u16,
    },
    PowerUp,
    Allowance(u16),
}

impl Event<'_> {
    pub fn letter(&self) -> u8 {
        match self {
            Event::Format(_) => b'F',
            Event::Read { .. } => b'R',
            Event::Write { .. } => b'W',
            Event::Start { .. } => b'C',
            Event::Acknowledge { .. } => b'A',
            Event::Fault { .. } => b'X',
            Event::PowerUp => b'U',
            Event::Allowance(_) => b'Z',
        }
    }
}

/// None where the line is refused 6.
pub fn parse<'a>(line: &[u8], room: &'a mut Room) -> Option<Event<'a>> {
    if line.len() > LONGEST {
        return None;
    }
    let mut fields = line.split(|byte| *byte == b',');
    let event = match fields.next()? {
        b"F" => {
            let mut next = || number(fields.next()?);
            Event::Format([next()?, next()?, next()?, next()?])
        }
        b"R" => {
            let mut next = || number(fields.next()?);
            Event::Read {
                board: next()?,
                cell: next()?,
                n: next()?,
            }
        }
        b"W" => Event::Write {
            board: number(fields.next()?)?,
            cell: number(fields.next()?)?,
            bytes: pairs(fields.next()?, room)?,
        },
        b"C" => Event::Start {
            board: number(fields.next()?)?,
            bytes: pairs(fields.next()?, room)?,
        },
        b"A" => Event::Acknowledge {
            board: number(fields.next()?)?,
            bytes: pairs(fields.next()?, room)?,
        },
        b"X" => Event::Fault {
            board: number(fields.next()?)?,
        },
        b"U" => Event::PowerUp,
        b"Z" => Event::Allowance(number(fields.next()?)?),
        _ => return None,
    };
    // A comma too many leaves a field over.
    fields.next().is_none().then_some(event)
}

/// 0 to 65,535 without leading zeros.
pub fn number(field: &[u8]) -> Option<u16> {
    if field.is_empty() || field.len() > 5 || (field.len() > 1 && field[0] == b'0') {
        return None;
    }
    let mut value = 0_u32;
    for byte in field {
        if !byte.is_ascii_digit() {
            return None;
        }
        value = value * 10 + u32::from(byte - b'0');
    }
    u16::try_from(value).ok()
}

/// Pairs of 0-9 A-F, perhaps none.
fn pairs<'a>(field: &[u8], room: &'a mut Room) -> Option<&'a [u8]> {
    if !field.len().is_multiple_of(2) {
        return None;
    }
    let count = field.len() / 2;
    for (byte, pair) in room.iter_mut().zip(field.chunks_exact(2)) {
        *byte = digit(pair[0])? << 4 | digit(pair[1])?;
    }
    room.get(..count)
}

fn digit(byte: u8) -> Option<u8> {
    match byte {
        b'0'..=b'9' => Some(byte - b'0'),
        b'A'..=b'F' => Some(byte - b'A' + 10),
        _ => None,
    }
}

/// Puts the next line, without its line feed, into `line`; false at the end.
/// Of an over-long line only the beginning is kept, which is long enough to
/// be refused.
pub fn next_line(input: &mut impl BufRead, line: &mut Vec<u8>) -> io::Result<bool> {
    const MOST: usize = LONGEST + 2;
    line.clear();
    let count = input.by_ref().take(MOST as u64).read_until(b'\n', line)?;
    if line.last() == Some(&b'\n') {
        line.pop();
    } else if count == MOST {
        input.skip_until(b'\n')?;
    }
    Ok(count != 0)
}

const HEX: &[u8; 16] = b"0123456789ABCDEF";

/// One output line.
pub fn print(out: &mut Vec<u8>, number: u32, letter: u8, answer: &Answer, bytes: &[u8]) {
    decimal(out, number);
    out.extend_from_slice(&[b',', letter, b',']);
    decimal(out, answer.code.into());
    let group = answer.group;
    out.extend_from_slice(&[
        b',',
        b'0' + u8::from(answer.decided),
        b',',
        HEX[usize::from(group >> 12)],
        HEX[usize::from(group >> 8 & 15)],
        HEX[usize::from(group >> 4 & 15)],
        HEX[usize::from(group & 15)],
        b',',
    ]);
    decimal(out, answer.stores);
    out.push(b',');
    for byte in bytes {
        out.extend_from_slice(&[HEX[usize::from(byte >> 4)], HEX[usize::from(byte & 15)]]);
    }
    out.push(b'\n');
}

fn decimal(out: &mut Vec<u8>, value: u32) {
    let mut digits = [0_u8; 10];
    let mut at = digits.len();
    let mut left = value;
    loop {
        at -= 1;
        digits[at] = b'0' + (left % 10) as u8;
        left /= 10;
        if left == 0 {
            break;
        }
    }
    out.extend_from_slice(&digits[at..]);
}
