//! Calls at honest ones that must be refused.

use super::claim::Violation;
use super::feeder::Feeder;
use crate::box_engine::BoxEngine;
use crate::engine::Coin;
use crate::journal::LINE_BYTES;
use crate::message::LONGEST;
use crate::packing::refusal;
use crate::report::SET_WORDS;
use crate::session::Opening;
use crate::settings::Number;
use crate::standing_engine::StandingEngine;

impl<E: BoxEngine + StandingEngine> Feeder<'_, E> {
    /// Lends too little, delivers broken bytes, opens with settings that are refused, or records no coin.
    pub(super) fn make_refused_call(&mut self) -> Result<(), Violation> {
        let numbers: Vec<Number> = self.honest.keys().copied().collect();
        if numbers.is_empty() {
            return Ok(());
        }
        let number = self.random.pick(&numbers);
        let link = u64::from(self.random.pick(&numbers));
        let version = self.plan.settings.version().byte();
        let mut message = vec![version, 1, link as u8, link as u8, 0, 1, 0, 0];
        message.extend(self.plan.session.to_be_bytes());
        message.extend([0; 8]);
        let choice = self.random.below(12);
        let line = &mut [0; LINE_BYTES];
        let state = &mut self.honest.get_mut(&number).expect("an honest number").state;
        let refused_opening = Opening { ts: 100, ..self.plan.opening(number, 0) };
        let answer = match choice {
            0 => self.engine.turn(state, &mut [0; LONGEST - 1], line),
            1 => self.engine.report(state, &mut [0; SET_WORDS], &mut [0; SET_WORDS - 1]),
            2 => self.engine.deliver(state, link, &message[..11], line),
            3 => self.engine.deliver(state, link + 256, &message, line),
            4 => self.engine.open(state, &refused_opening, line),
            5 => self.engine.turn(state, &mut [0; LONGEST], &mut line[1..]),
            6 => self.engine.restore(state, b"O\t1\n", &mut [0; LONGEST - 1]),
            7 => self.engine.record(state, Coin { vote: link, round: 33, bit: 0 }, line),
            8 => self.engine.record(state, Coin { vote: link, round: 1, bit: 2 }, line),
            place => {
                message[[0, 6, 8][place as usize - 9]] ^= 0x80;
                self.engine.deliver(state, link, &message, line)
            }
        };
        if refusal(answer).is_none() || answer > 0xff {
            return Err(Violation::Answer { at: number, call: "refused call", answer });
        }
        self.check(number)
    }
}
