//! The lines of a journal: what each call writes, and how it is read back.

use crate::session::Opening;

/// Bytes that each call must be lent at least for its line.
pub const LINE_BYTES: usize = 512;
/// The line of a turn.
pub const TURN_LINE: &[u8] = b"T\n";

/// A line that was read back.
#[derive(Clone, Debug, PartialEq, Eq)]
pub enum Line {
    Opening(OpeningLine),
    Delivery { link: u64, message: Vec<u8> },
    Turn,
    Recording { vote: u64, round: u64, bit: u64 },
}

/// What an `O` line holds. Its numbers are as wide as those of an [`Opening`].
#[derive(Clone, Debug, PartialEq, Eq)]
pub struct OpeningLine {
    version: u64,
    n: u64,
    ta: u64,
    ts: u64,
    own: u64,
    session: u32,
    input: u64,
    coins: Vec<u32>,
    weights: Vec<u8>,
    boxed: u64,
}

impl OpeningLine {
    pub fn opening(&self) -> Opening<'_> {
        let OpeningLine { version, n, ta, ts, own, session, input, boxed, .. } = *self;
        let (coins, weights) = (&self.coins, &self.weights);
        Opening { version, n, ta, ts, own, session, input, coins, weights, boxed }
    }

    /// The fields behind the letter: version, n, ta, ts, own number, session, input, n coin words; then n weights and
    /// whether the coins are boxed, or, in older lines, n weights, or nothing, which reads as all 1. Older ones are printed.
    fn read(fields: &[&[u8]]) -> Option<OpeningLine> {
        let [version, n, ta, ts, own, session, input, lists @ ..] = fields else { return None };
        let n = decimal(n)?;
        let count = usize::try_from(n).ok()?;
        let (coins, rest) = lists.split_at_checked(count)?;
        let (weights, flag) = rest.split_at_checked(count).unwrap_or((rest, &[]));
        let coin = |field: &&[u8]| Some(hexadecimal(field, 8)? as u32);
        let weight = |field: &&[u8]| u8::try_from(decimal(field)?).ok();
        let weights: Vec<u8> = weights.iter().map(weight).collect::<Option<_>>()?;
        let boxed = match flag {
            [] => 0,
            [flag] => decimal(flag)?,
            _ => return None,
        };
        Some(OpeningLine {
            version: decimal(version)?,
            n,
            ta: decimal(ta)?,
            ts: decimal(ts)?,
            own: decimal(own)?,
            session: u32::try_from(decimal(session)?).ok()?,
            input: hexadecimal(input, 16)?,
            coins: coins.iter().map(coin).collect::<Option<_>>()?,
            weights: if weights.is_empty() { vec![1; count] } else { weights },
            boxed,
        })
    }
}

impl Line {
    /// A complete line without its LF; `None` if it has not the form of one.
    pub fn read(line: &[u8]) -> Option<Line> {
        let fields: Vec<&[u8]> = line.split(|&byte| byte == b'\t').collect();
        match fields[..] {
            [b"O", ref rest @ ..] => OpeningLine::read(rest).map(Line::Opening),
            [b"D", link, message] => {
                Some(Line::Delivery { link: decimal(link)?, message: bytes(message)? })
            }
            [b"T"] => Some(Line::Turn),
            [b"K", vote, round, bit] => {
                let [vote, round, bit] = [vote, round, bit].map(decimal);
                Some(Line::Recording { vote: vote?, round: round?, bit: bit? })
            }
            _ => None,
        }
    }
}

/// The line of an opening.
pub fn opening_line(opening: &Opening) -> Vec<u8> {
    let Opening { version, n, ta, ts, own, session, input, coins, weights, boxed } = *opening;
    let mut line = format!("O\t{version}\t{n}\t{ta}\t{ts}\t{own}\t{session}\t{input:016x}");
    coins.iter().for_each(|word| line += &format!("\t{word:08x}"));
    weights.iter().for_each(|weight| line += &format!("\t{weight}"));
    line += &format!("\t{boxed}\n");
    line.into_bytes()
}

/// The line of a delivery.
pub fn delivery_line(link: u64, message: &[u8]) -> Vec<u8> {
    let mut line = format!("D\t{link}\t").into_bytes();
    let digit = |half: u8| b"0123456789abcdef"[usize::from(half)];
    line.extend(message.iter().flat_map(|byte| [digit(byte >> 4), digit(byte & 15)]));
    line.push(b'\n');
    line
}

/// The line of a recording.
pub fn recording_line(vote: u64, round: u64, bit: u64) -> Vec<u8> {
    format!("K\t{vote}\t{round}\t{bit}\n").into_bytes()
}

/// A decimal without a leading zero, below 2^64 (PROTOCOL 11.3, 11.12).
fn decimal(field: &[u8]) -> Option<u64> {
    let digits = field.iter().all(u8::is_ascii_digit);
    if !digits || (field.len() > 1 && field[0] == b'0') {
        return None;
    }
    std::str::from_utf8(field).ok()?.parse().ok()
}

/// So many lower-case hexadecimal digits, at most 16.
fn hexadecimal(field: &[u8], digits: usize) -> Option<u64> {
    if field.len() != digits {
        return None;
    }
    field.iter().try_fold(0, |number, &digit| Some(number << 4 | u64::from(half(digit)?)))
}

/// Two lower-case hexadecimal digits for each byte.
fn bytes(field: &[u8]) -> Option<Vec<u8>> {
    if field.is_empty() || field.len() % 2 != 0 {
        return None;
    }
    field.chunks(2).map(|two| Some(half(two[0])? << 4 | half(two[1])?)).collect()
}

fn half(digit: u8) -> Option<u8> {
    match digit {
        b'0'..=b'9' => Some(digit - b'0'),
        b'a'..=b'f' => Some(digit - b'a' + 10),
        _ => None,
    }
}
