//! 02, N10: restores from journals that were cut, damaged, mixed up or made up.

use super::calls::length;
use super::journals::{damages, made_up, mixtures};
use super::recorded::Recording;
use super::{Answers, UNWRITTEN};
use crate::attack::random::Random;
use crate::engine::Engine;
use crate::message::LONGEST;
use crate::packing::{refusal, unpack_restore, RestoreAnswer};
use crate::report::SET_WORDS;

struct Restorer<'a, E: Engine> {
    engine: &'a E,
    random: Random,
    answers: Answers,
}

/// Restores the journals of so many sessions: cut at every byte of a short one and at many bytes of a long one, each byte
/// changed, lines edited, mixed with those of another session; then journals that no session wrote. It panics unless a cut
/// journal gives the state that the calls up to its last complete line left, and that line's message.
pub fn restores<E: Engine>(engine: &E, seed: u64, sessions: u64) -> Answers
where
    E::State: Clone + PartialEq,
{
    let mut restorer = Restorer { engine, random: Random::new(seed), answers: Answers::default() };
    for _ in 0..sessions {
        let most = restorer.random.pick(&[2, 4, 4, 16]);
        let short = Recording::new(engine, &mut restorer.random, most, 24);
        for cut in 0..=short.journal.len() {
            restorer.cut(&short, cut);
        }
        let long = Recording::new(engine, &mut restorer.random, most, 400);
        for _ in 0..60 {
            let cut = restorer.random.below(1 + long.journal.len() as u64) as usize;
            restorer.cut(&long, cut);
        }
        restorer.cut(&long, long.journal.len());
        if !short.boxed {
            restorer.older(&short, 2);
            restorer.older(&short, 2 + 2 * short.n as usize);
        }
        for journal in damages(&mut restorer.random, &short.journal) {
            restorer.restore(&journal);
        }
        for journal in mixtures(&mut restorer.random, &short.journal, &long.journal) {
            restorer.restore(&journal);
        }
    }
    let some = Recording::new(engine, &mut restorer.random, 4, 24);
    for journal in made_up(&mut restorer.random, &some.journal) {
        restorer.restore(&journal);
    }
    restorer.answers
}

impl<E: Engine> Restorer<'_, E>
where
    E::State: Clone + PartialEq,
{
    /// Onto a buffer that holds anything, with bytes for the message mostly enough. Answers what was left.
    fn restore(&mut self, journal: &[u8]) -> (u64, E::State, Vec<u8>) {
        let mut state = self.engine.littered(self.random.word());
        let mut message = vec![UNWRITTEN; length(&mut self.random, LONGEST)];
        let answer = self.engine.restore(&mut state, journal, &mut message);
        self.answers.note(answer);
        if refusal(answer).is_none() {
            let (mut named, mut in_force) = ([7; SET_WORDS], [8; SET_WORDS]);
            let report = self.engine.report(&state, &mut named, &mut in_force);
            self.answers.note_report(report);
        }
        (answer, state, message)
    }

    fn cut(&mut self, recording: &Recording<E>, cut: usize) {
        let mut journal = recording.journal[..cut].to_vec();
        if self.random.once_in(4) {
            journal.extend(b"D\t1\t\r\x00\xff");
        }
        let complete = recording.lines.iter().take_while(|line| line.end <= cut).last();
        let (answer, state, message) = self.restore(&journal);
        let expected = match complete {
            _ if message.len() < LONGEST => 8,
            None => 15 | 1 << 8,
            Some(line) => {
                assert!(state == line.state, "another state after a cut at byte {cut}");
                let sent = line.message.len();
                assert_eq!(message[..sent], line.message, "another message, cut at byte {cut}");
                assert!(message[sent..].iter().all(|&byte| byte == UNWRITTEN), "other bytes");
                u64::from(sent != 0) << 8 | (sent as u64) << 16 | (line.end as u64) << 32
            }
        };
        assert_eq!(answer, expected, "the answer to a cut at byte {cut}");
    }

    /// The older forms of the first line of a printed session: its last bytes are missing, those of the flag and perhaps
    /// of the weights.
    fn older(&mut self, recording: &Recording<E>, missing: usize) {
        let first = recording.lines[0].end;
        let mut journal = recording.journal[..first - 1 - missing].to_vec();
        journal.extend(&recording.journal[first - 1..]);
        let (answer, state, message) = self.restore(&journal);
        let weights_stay = missing == 2 || recording.weights.iter().all(|&weight| weight == 1);
        if weights_stay && message.len() >= LONGEST {
            let last = recording.lines.last().expect("an opening");
            assert!(state == last.state, "another state with {missing} bytes less");
            let complete = journal.len();
            let read = unpack_restore(answer);
            assert!(
                matches!(read, Some(RestoreAnswer::Restored { complete: c, .. }) if c == complete),
                "the answer with {missing} bytes less"
            );
        }
    }
}
