//! The lines of opening, delivery and recording.

use pack_reference::engine::Coin;
use pack_reference::Opening;

pub const LINE_BYTES: usize = 512;

/// The lent bytes, and how many of them are written.
struct Line<'a> {
    bytes: &'a mut [u8; LINE_BYTES],
    length: usize,
}

impl Line<'_> {
    #[inline]
    fn byte(&mut self, byte: u8) {
        self.bytes[self.length & (LINE_BYTES - 1)] = byte;
        self.length += 1;
    }

    /// A tab and a number.
    fn decimal(&mut self, mut number: u64) {
        let mut digits = [0; 20];
        let mut first = digits.len();
        loop {
            first -= 1;
            digits[first] = b'0' + (number % 10) as u8;
            number /= 10;
            if number == 0 {
                break;
            }
        }
        self.byte(b'\t');
        digits[first..].iter().for_each(|&digit| self.byte(digit));
    }

    /// A tab and so many digits.
    fn hexadecimal(&mut self, number: u64, digits: u32) {
        self.byte(b'\t');
        for place in (0..digits).rev() {
            self.byte(digit((number >> (4 * place)) as u8 & 15));
        }
    }
}

#[inline]
fn digit(half: u8) -> u8 {
    half + if half < 10 { b'0' } else { b'a' - 10 }
}

/// Writes the line of an opening that is accepted, and answers its length.
pub fn opening(bytes: &mut [u8; LINE_BYTES], opening: &Opening) -> u64 {
    let Opening { version, n, ta, ts, own, session, input, coins, weights, boxed } = *opening;
    let mut line = Line { bytes, length: 0 };
    line.byte(b'O');
    for number in [version, n, ta, ts, own, u64::from(session)] {
        line.decimal(number);
    }
    line.hexadecimal(input, 16);
    coins.iter().for_each(|&coin| line.hexadecimal(u64::from(coin), 8));
    weights.iter().for_each(|&weight| line.decimal(u64::from(weight)));
    line.decimal(boxed);
    line.byte(b'\n');
    line.length as u64
}

/// The same of a delivery; its message has at most 140 bytes.
#[inline]
pub fn delivery(bytes: &mut [u8; LINE_BYTES], link: u64, message: &[u8]) -> u64 {
    let mut line = Line { bytes, length: 0 };
    line.byte(b'D');
    line.decimal(link);
    line.byte(b'\t');
    let digits = line.bytes[line.length..].chunks_exact_mut(2);
    for (two, &byte) in digits.zip(message) {
        two.copy_from_slice(&[digit(byte >> 4), digit(byte & 15)]);
    }
    line.length += 2 * message.len();
    line.byte(b'\n');
    line.length as u64
}

/// The same of a recording.
pub fn recording(bytes: &mut [u8; LINE_BYTES], coin: Coin) -> u64 {
    let mut line = Line { bytes, length: 0 };
    line.byte(b'K');
    [coin.vote, coin.round, coin.bit].into_iter().for_each(|number| line.decimal(number));
    line.byte(b'\n');
    line.length as u64
}
