//! Every message damaged in every place, delivered to a fresh state or to one that holds it.

use super::calls::EDGES;
use super::Answers;
use crate::engine::Engine;
use crate::journal::LINE_BYTES;
use crate::message::{Message, PackSet, HEAD};
use crate::session::Opening;
use crate::settings::{Number, Version};

const SESSION: u32 = 0x0102_0304;
/// n, ta, ts, and the weight of each; the sender is the last concentrator.
const SETTINGS: [(u64, u64, u64, u8); 4] =
    [(1, 1, 1, 4), (4, 1, 1, 1), (7, 0, 3, 1), (16, 5, 5, 2)];

struct Deliveries<'a, E: Engine> {
    engine: &'a E,
    state: E::State,
    answers: Answers,
}

/// Delivers each kind of message with each byte set to each value, in each length, and over wrong links.
pub fn damaged_deliveries<E: Engine>(engine: &E) -> Answers
where
    E::State: Clone,
{
    let mut deliveries = Deliveries { engine, state: engine.blank(), answers: Answers::default() };
    for (version, (n, ta, ts, weight)) in
        Version::ALL.into_iter().flat_map(|version| SETTINGS.map(|settings| (version, settings)))
    {
        let (coins, weights) = (&vec![0; n as usize][..], &vec![weight; n as usize][..]);
        let (own, session, input, boxed) = (1, SESSION, 5, 0);
        let opening = Opening {
            version: version.number(),
            n,
            ta,
            ts,
            own,
            session,
            input,
            coins,
            weights,
            boxed,
        };
        for message in messages(n as Number) {
            let answer = engine.open(&mut deliveries.state, &opening, &mut [0; LINE_BYTES]);
            assert_eq!(answer & 0xff, 0, "good settings");
            let bytes = message.to_bytes(version, n as Number, SESSION);
            deliveries.damage(n, &bytes);
            deliveries.deliver_here(n, &bytes);
            deliveries.damage(n, &bytes);
        }
    }
    deliveries.answers
}

/// Each kind, FINISH in both versions, with the highest instance and round, and the shortest and the longest COMMIT.
fn messages(n: Number) -> Vec<Message> {
    let (instance, round) = (n, 32);
    vec![
        Message::Send { value: 5 },
        Message::Echo { instance, value: u64::MAX },
        Message::Ready { instance, value: 0 },
        Message::Est { instance, round, value: true },
        Message::Aux { instance, round: 1, value: false },
        Message::Commit { values: PackSet::from([7]) },
        Message::Commit { values: (1..=u64::from(n)).map(|k| k << 40).collect() },
        Message::Finish { instance, value: true },
    ]
}

impl<E: Engine> Deliveries<'_, E>
where
    E::State: Clone,
{
    /// To a copy of the state.
    fn deliver(&mut self, link: u64, bytes: &[u8]) {
        let answer =
            self.engine.deliver(&mut self.state.clone(), link, bytes, &mut [7; LINE_BYTES]);
        self.answers.note(answer);
    }

    fn deliver_here(&mut self, link: u64, bytes: &[u8]) {
        let answer = self.engine.deliver(&mut self.state, link, bytes, &mut [7; LINE_BYTES]);
        self.answers.note(answer);
    }

    fn damage(&mut self, link: u64, bytes: &[u8]) {
        for place in 0..bytes.len() {
            let mut damaged = bytes.to_vec();
            for value in 0..=255 {
                damaged[place] = value;
                self.deliver(link, &damaged);
            }
        }
        self.change_length(link, bytes);
        for other in (0..=17).chain(EDGES).chain([link + 256, link + (1 << 32)]) {
            self.deliver(other, bytes);
        }
    }

    /// Every length up to three values more, and every count with its own length.
    fn change_length(&mut self, link: u64, bytes: &[u8]) {
        for length in 0..bytes.len() + 24 {
            let mut changed = bytes.to_vec();
            changed.resize(length, 0xff);
            self.deliver(link, &changed);
        }
        for count in 0..=255 {
            let mut changed = bytes.to_vec();
            changed[5] = count;
            changed.resize(HEAD + 8 * usize::from(count), 0xff);
            self.deliver(link, &changed);
        }
    }
}
