//! The rules written for speed, as an engine beside the proved one and the reference.

pub mod masks;
pub mod plain;
pub mod trace;

use pack_reference::box_engine::BoxEngine;
use pack_reference::c_engine::{words, CEngine, Words};
use pack_reference::coin_box::BoxOpening;
use pack_reference::engine::{Coin, Engine};
use pack_reference::journal::{Line, LINE_BYTES};
use pack_reference::message::LONGEST;
use pack_reference::Opening;

/// [`masks`] as an engine over the words of a state.
#[derive(Clone, Copy, Debug, Default)]
pub struct Masks;

impl Engine for Masks {
    type State = Words;

    fn blank(&self) -> Words {
        words(&[0; masks::STATE_WORDS])
    }

    fn littered(&self, seed: u64) -> Words {
        CEngine.littered(seed)
    }

    fn open(&self, state: &mut Words, opening: &Opening, line: &mut [u8]) -> u64 {
        masks::open(state, opening, line)
    }

    fn deliver(&self, state: &mut Words, link: u64, message: &[u8], line: &mut [u8]) -> u64 {
        masks::deliver(state, link, message, line)
    }

    fn turn(&self, state: &mut Words, message: &mut [u8], line: &mut [u8]) -> u64 {
        masks::turn(state, message, line)
    }

    fn report(&self, state: &Words, named: &mut [u64], in_force: &mut [u64]) -> u64 {
        masks::report(state, named, in_force)
    }

    fn restore(&self, state: &mut Words, journal: &[u8], message: &mut [u8]) -> u64 {
        restore(state, journal, message)
    }

    fn record(&self, state: &mut Words, coin: Coin, line: &mut [u8]) -> u64 {
        masks::record_coin(state, coin, line)
    }
}

impl BoxEngine for Masks {
    type CoinBox = Words;

    fn blank_box(&self) -> Words {
        words(&[0; masks::coin_box::BOX_WORDS])
    }

    fn open_box(&self, coin_box: &mut Words, opening: &BoxOpening) -> u64 {
        masks::coin_box::open(coin_box, opening)
    }

    fn request(&self, coin_box: &mut Words, requester: u64, vote: u64, round: u64) -> u64 {
        masks::coin_box::request(coin_box, requester, vote, round)
    }
}

/// The calls of a journal's lines, made by the masks; the lines are read by the reference.
pub fn restore(state: &mut [u64], journal: &[u8], message: &mut [u8]) -> u64 {
    if state.len() != masks::STATE_WORDS {
        return masks::refusal::NO_STATE;
    }
    if message.len() < LONGEST {
        return masks::refusal::SHORT;
    }
    let mut words = [0; masks::STATE_WORDS];
    let (mut sent, mut length) = ([0; LONGEST], 0);
    let (mut number, mut complete) = (0, 0);
    for line in journal.split_inclusive(|&byte| byte == b'\n').filter(|line| line.ends_with(b"\n"))
    {
        number += 1;
        complete += line.len();
        let read = Line::read(&line[..line.len() - 1]);
        let Some(sent_length) = apply(&mut words, number == 1, read, &mut sent) else {
            return masks::refusal::JOURNAL | number << 8;
        };
        length = sent_length;
    }
    if number == 0 {
        return masks::refusal::JOURNAL | 1 << 8;
    }
    state.copy_from_slice(&words);
    message[..length].copy_from_slice(&sent[..length]);
    u64::from(length != 0) << 8 | (length as u64) << 16 | (complete as u64) << 32
}

/// Makes the line's call. Answers the length of the message that it sent, and `None` where it cannot be applied.
fn apply(words: &mut [u64], first: bool, line: Option<Line>, sent: &mut [u8]) -> Option<usize> {
    let lent = &mut [0; LINE_BYTES];
    let answer = match (line?, first) {
        (Line::Opening(opening), true) => masks::open(words, &opening.opening(), lent),
        (Line::Delivery { link, message }, false) => masks::deliver(words, link, &message, lent),
        (Line::Recording { vote, round, bit }, false) => {
            masks::record_coin(words, Coin { vote, round, bit }, lent)
        }
        (Line::Turn, false) => {
            let answer = masks::turn(words, sent, lent);
            return (answer > 0xff).then_some((answer >> 16) as usize);
        }
        _ => return None,
    };
    (answer & 0xff == 0).then_some(0)
}
