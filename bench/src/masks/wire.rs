//! 01, "Message bytes".

use super::state::{Session, Words};
use super::{layout, refusal};

pub const SEND: u8 = 1;
pub const ECHO: u8 = 2;
pub const READY: u8 = 3;
pub const EST: u8 = 4;
pub const AUX: u8 = 5;
pub const COMMIT: u8 = 6;
pub const FINISH: u8 = 7;

pub const HEAD: usize = 12;
pub const LONGEST: usize = 140;
pub const ROUNDS: u8 = 32;

/// Value k, from 0, behind the head.
#[inline]
pub fn value(message: &[u8], k: usize) -> u64 {
    let start = HEAD + 8 * k;
    u64::from_be_bytes(message[start..start + 8].try_into().expect("8 bytes"))
}

/// Refusals 2 to 7 in their order; 0 if the message is taken.
#[inline]
pub fn check(words: &Words, session: &Session, link: u64, message: &[u8]) -> u64 {
    if message.len() < HEAD || message.len() != HEAD + 8 * usize::from(message[5]) {
        return refusal::LENGTH;
    }
    // Version 1 ends with COMMIT, version 2 with FINISH.
    let version = words[layout::VERSION] as u8;
    if message[0] != version || !(SEND..=version + (COMMIT - 1)).contains(&message[1]) {
        return refusal::KIND;
    }
    let number = u32::from_be_bytes(message[8..12].try_into().expect("4 bytes"));
    if number != words[layout::SESSION] as u32 {
        return refusal::SESSION;
    }
    if u64::from(message[2]) != link || !(1..=session.n).contains(&link) {
        return refusal::SENDER;
    }
    if !fields_right(session.n as u8, message) {
        return refusal::FIELD;
    }
    if !values_right(message) {
        return refusal::VALUE;
    }
    0
}

#[inline(always)]
fn fields_right(n: u8, message: &[u8]) -> bool {
    let (instance, round, count) = (message[3], message[4], message[5]);
    let one_instance = (1..=n).contains(&instance) & (count == 1);
    let fits = match message[1] {
        SEND => one_instance & (round == 0) & (instance == message[2]),
        ECHO | READY | FINISH => one_instance & (round == 0),
        EST | AUX => one_instance & (1..=ROUNDS).contains(&round),
        _ => (instance == 0) & (round == 0) & (1..=n).contains(&count),
    };
    fits & (message[6] | message[7] == 0)
}

#[inline(always)]
fn values_right(message: &[u8]) -> bool {
    match message[1] {
        EST | AUX | FINISH => value(message, 0) <= 1,
        COMMIT => {
            let count = usize::from(message[5]);
            (1..count).all(|k| value(message, k - 1) < value(message, k))
        }
        _ => true,
    }
}

/// Writes a message at the front of the lent bytes, and answers the turn's number.
#[inline]
pub fn send(words: &Words, head: [u8; 3], values: &[u64], lent: &mut [u8]) -> u64 {
    let [kind, instance, round] = head;
    let (own, count) = (words[layout::OWN] as u8, values.len() as u8);
    let version = words[layout::VERSION] as u8;
    lent[..8].copy_from_slice(&[version, kind, own, instance, round, count, 0, 0]);
    lent[8..12].copy_from_slice(&(words[layout::SESSION] as u32).to_be_bytes());
    for (bytes, value) in lent[HEAD..].chunks_exact_mut(8).zip(values) {
        bytes.copy_from_slice(&value.to_be_bytes());
    }
    1 << 8 | ((HEAD + 8 * values.len()) as u64) << 16
}
