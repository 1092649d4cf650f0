//! Lines of the drill, read a byte at a time. A line of any length takes the same memory.

use std::io::{self, BufRead};

/// The most fields that a line can have: those of `L`.
const MOST_FIELDS: usize = 7;

/// What is kept of a field.
#[derive(Clone, Copy, Debug)]
pub struct Field {
    /// The first byte; 0 if there is none.
    first: u8,
    length: u64,
    /// The value in base 10; none if it is no number or above 64 bits.
    decimal: Option<u64>,
    /// The value in base 16, lower case; none if it is no number or above 64 bits.
    hexadecimal: Option<u64>,
}

impl Field {
    const EMPTY: Field = Field { first: 0, length: 0, decimal: Some(0), hexadecimal: Some(0) };

    fn push(&mut self, byte: u8) {
        if self.length == 0 {
            self.first = byte;
        }
        self.length = self.length.saturating_add(1);
        self.decimal = appended(self.decimal, 10, byte);
        self.hexadecimal = appended(self.hexadecimal, 16, byte);
    }

    /// A decimal number. Leading zeros are allowed, a number above 64 bits is not.
    pub fn decimal(&self) -> Option<u64> {
        if self.length > 0 {
            self.decimal
        } else {
            None
        }
    }

    /// A number of exactly `digits` lower-case hexadecimal digits.
    pub fn hexadecimal(&self, digits: u64) -> Option<u64> {
        if self.length == digits {
            self.hexadecimal
        } else {
            None
        }
    }

    fn letter(&self) -> Option<u8> {
        (self.length == 1).then_some(self.first)
    }
}

fn appended(number: Option<u64>, base: u64, byte: u8) -> Option<u64> {
    let digit = match byte {
        b'0'..=b'9' => u64::from(byte - b'0'),
        b'a'..=b'f' => u64::from(byte - b'a') + 10,
        _ => return None,
    };
    if digit >= base {
        return None;
    }
    number?.checked_mul(base)?.checked_add(digit)
}

/// What is kept of a line.
#[derive(Debug)]
pub struct Line {
    fields: [Field; MOST_FIELDS],
    /// The number of fields, at least 1. Above the most, it is only known to be too many.
    count: usize,
}

impl Line {
    fn new() -> Line {
        Line { fields: [Field::EMPTY; MOST_FIELDS], count: 1 }
    }

    fn push(&mut self, byte: u8) {
        if byte == b'\t' {
            self.count = self.count.saturating_add(1);
        } else if let Some(field) = self.fields.get_mut(self.count - 1) {
            field.push(byte);
        }
    }

    /// The letter in the first field, and the fields after it.
    pub fn parts(&self) -> Option<(u8, &[Field])> {
        let (first, rest) = self.fields.get(..self.count)?.split_first()?;
        Some((first.letter()?, rest))
    }

    /// Reads to the next LF or the end of input; `None` if there is nothing left.
    pub fn read(input: &mut impl BufRead) -> io::Result<Option<Line>> {
        let mut line = Line::new();
        let mut is_empty = true;
        loop {
            let bytes = input.fill_buf()?;
            if bytes.is_empty() {
                return Ok(if is_empty { None } else { Some(line) });
            }
            is_empty = false;
            let end = bytes.iter().position(|&byte| byte == b'\n');
            let taken = end.unwrap_or(bytes.len());
            bytes[..taken].iter().for_each(|&byte| line.push(byte));
            input.consume(taken + usize::from(end.is_some()));
            if end.is_some() {
                return Ok(Some(line));
            }
        }
    }
}
