//! One call of a trace: read from the front of a line, made on a state, and its answer as the fields behind it.

use std::fmt;

use crate::engine::Engine;
use crate::journal::LINE_BYTES;
use crate::session::Opening;
use crate::settings::Settings;

/// Bytes or words that a call can be lent at most here.
const MOST_LENT: usize = 1 << 20;
/// Lent bytes and words hold this before a call.
const UNWRITTEN: u8 = 0xa5;

#[derive(Clone, Debug, PartialEq, Eq)]
pub enum Call {
    Opening(TracedOpening),
    Delivery { link: u64, message: Vec<u8> },
    Turn { capacity: usize },
    Report { named: usize, in_force: usize },
}

/// An opening with printed coins and weights of 1.
#[derive(Clone, Debug, PartialEq, Eq)]
pub struct TracedOpening {
    version: u64,
    n: u64,
    ta: u64,
    ts: u64,
    own: u64,
    session: u32,
    input: u64,
    coins: Vec<u32>,
}

impl TracedOpening {
    /// `None` where it is boxed or has other weights.
    pub fn new(opening: &Opening) -> Option<TracedOpening> {
        let Opening { version, n, ta, ts, own, session, input, coins, weights, boxed } = *opening;
        let coins = coins.to_vec();
        (boxed == 0 && weights == Settings::ones(n)).then_some(TracedOpening {
            version,
            n,
            ta,
            ts,
            own,
            session,
            input,
            coins,
        })
    }

    fn opening(&self) -> Opening<'_> {
        let TracedOpening { version, n, ta, ts, own, session, input, ref coins } = *self;
        let (weights, boxed) = (Settings::ones(n), 0);
        Opening { version, n, ta, ts, own, session, input, coins, weights, boxed }
    }
}

impl Call {
    /// The call at the front of these fields, and the fields behind it.
    pub fn read<'a>(fields: &'a [&'a str]) -> Option<(Call, &'a [&'a str])> {
        match fields {
            ["O", version, n, ta, ts, own, session, input, coins, answer @ ..] => {
                let [version, n, ta, ts, own] = [version, n, ta, ts, own].map(|text| decimal(text));
                let (version, n, ta, ts, own) = (version?, n?, ta?, ts?, own?);
                let session = decimal(session)?.try_into().ok()?;
                let input = hexadecimal(input, 16)?;
                let word = |text: &str| Some(hexadecimal(text, 8)? as u32);
                let coins = listed(coins).map(word).collect::<Option<_>>()?;
                let opening = TracedOpening { version, n, ta, ts, own, session, input, coins };
                Some((Call::Opening(opening), answer))
            }
            ["D", link, message, answer @ ..] => {
                let (link, message) = (decimal(link)?, bytes(message)?);
                Some((Call::Delivery { link, message }, answer))
            }
            ["T", capacity, answer @ ..] => {
                Some((Call::Turn { capacity: lent(capacity)? }, answer))
            }
            ["R", named, in_force, answer @ ..] => {
                let (named, in_force) = (lent(named)?, lent(in_force)?);
                Some((Call::Report { named, in_force }, answer))
            }
            _ => None,
        }
    }

    /// Makes the call. Answers the fields behind it.
    pub fn make<E: Engine>(&self, engine: &E, state: &mut E::State) -> String {
        let line = &mut [UNWRITTEN; LINE_BYTES];
        match self {
            Call::Opening(opening) => refusal(engine.open(state, &opening.opening(), line)),
            Call::Delivery { link, message } => {
                refusal(engine.deliver(state, *link, message, line))
            }
            Call::Turn { capacity } => {
                let mut message = vec![UNWRITTEN; *capacity];
                turn_answer(engine.turn(state, &mut message, line), &message)
            }
            Call::Report { named, in_force } => {
                let mut sets = [named, in_force].map(|words| vec![u64::from(UNWRITTEN); *words]);
                let [named, in_force] = &mut sets;
                let answer = engine.report(state, named, in_force);
                report_answer(answer, named, in_force)
            }
        }
    }
}

impl fmt::Display for Call {
    fn fmt(&self, f: &mut fmt::Formatter<'_>) -> fmt::Result {
        match self {
            Call::Opening(opening) => {
                let TracedOpening { version, n, ta, ts, own, session, input, coins } = opening;
                let coins: Vec<String> = coins.iter().map(|word| format!("{word:08x}")).collect();
                write!(f, "O\t{version}\t{n}\t{ta}\t{ts}\t{own}\t{session}\t{input:016x}\t")?;
                f.write_str(&or_none(coins.join(",")))
            }
            Call::Delivery { link, message } => write!(f, "D\t{link}\t{}", digits(message)),
            Call::Turn { capacity } => write!(f, "T\t{capacity}"),
            Call::Report { named, in_force } => write!(f, "R\t{named}\t{in_force}"),
        }
    }
}

/// The number of the refusal, 0 for accepted.
pub fn refusal(answer: u64) -> String {
    (answer & 0xff).to_string()
}

/// Refusal, outcome and message. The message stands at the front of the lent bytes.
pub fn turn_answer(answer: u64, lent: &[u8]) -> String {
    let length = (answer >> 16 & 0xffff) as usize;
    let message = digits(&lent[..length]);
    format!("{}\t{}\t{message}", refusal(answer), answer >> 8 & 0xff)
}

/// Refusal, exit, both sets and the turns.
pub fn report_answer(answer: u64, named: &[u64], in_force: &[u64]) -> String {
    let [exit, named_values, in_force_values] = [8, 16, 24].map(|place| answer >> place & 0xff);
    let named = set(&named[..named_values as usize]);
    let in_force = set(&in_force[..in_force_values as usize]);
    format!("{}\t{exit}\t{named}\t{in_force}\t{}", refusal(answer), answer >> 32)
}

fn set(values: &[u64]) -> String {
    or_none(values.iter().map(|value| format!("{value:016x}")).collect::<Vec<_>>().join(","))
}

fn digits(bytes: &[u8]) -> String {
    or_none(bytes.iter().map(|byte| format!("{byte:02x}")).collect())
}

fn or_none(list: String) -> String {
    if list.is_empty() {
        "-".to_string()
    } else {
        list
    }
}

/// The entries of a list; `-` has none.
fn listed(text: &str) -> impl Iterator<Item = &str> {
    text.split(',').filter(move |_| text != "-")
}

fn decimal(text: &str) -> Option<u64> {
    text.bytes().all(|byte| byte.is_ascii_digit()).then(|| text.parse().ok())?
}

fn lent(text: &str) -> Option<usize> {
    usize::try_from(decimal(text)?).ok().filter(|&lent| lent <= MOST_LENT)
}

fn hexadecimal(text: &str, digits: usize) -> Option<u64> {
    let fits = text.len() == digits && text.bytes().all(|byte| byte.is_ascii_hexdigit());
    fits.then(|| u64::from_str_radix(text, 16).ok())?
}

fn bytes(text: &str) -> Option<Vec<u8>> {
    if text == "-" {
        return Some(Vec::new());
    }
    let byte = |two: &[u8]| Some(hexadecimal(std::str::from_utf8(two).ok()?, 2)? as u8);
    text.as_bytes().chunks(2).map(byte).collect()
}
