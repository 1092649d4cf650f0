//! The random choices of how the calls of a feeder follow each other.

use super::claim::Conditions;
use super::plan::{Aim, Group, Hold, Pace};
use super::random::Random;
use crate::settings::{Number, Settings};

/// A delay that lasts until nothing else is on its way.
const WHOLE_SESSION: u64 = 1_000_000;
/// A delay that lasts until votes that do not wait for anything are decided.
pub const UNTIL_DECIDED: u64 = 3_000;
/// A delay that lasts until ESTs were relayed.
const UNTIL_ACCEPTED: u64 = 300;

pub fn pace(
    random: &mut Random,
    settings: &Settings,
    aim: Aim,
    target: Number,
    conditions: Conditions,
) -> Pace {
    Pace {
        holds: holds(random, settings, aim, target),
        jitter: random.pick(&[1, 1, 5, 30, 200]),
        laziness: match aim {
            Aim::BusyHosts => None,
            _ => Some(random.pick(&[1, 1, 2, 5])),
        },
        refused_calls: random.pick(&[20, 200]),
        call_limit: if aim == Aim::SplitCoin {
            20_000
        } else {
            random.pick(&[3_000, 6_000, 12_000])
        },
        power_losses: power_losses(random, conditions),
        asking: match aim {
            Aim::SplitCoin => (1, random.pick(&[1, 60, 60])),
            _ => random.pick(&[(1, 1), (1, 1), (3, 3), (1, 20), (20, 1)]),
        },
        peeks: random.pick(&[4, 40]),
    }
}

/// In one of three feeders; always where lines of messages that left may be lost.
fn power_losses(random: &mut Random, conditions: Conditions) -> Option<u64> {
    match (conditions, random.below(9)) {
        (Conditions::LostLines, _) => Some(50),
        (_, 0) => Some(10),
        (_, 1) => Some(60),
        (_, 2) => Some(300),
        _ => None,
    }
}

/// COMMITs for a long time, and what else the aim asks for.
fn holds(random: &mut Random, settings: &Settings, aim: Aim, target: Number) -> Vec<Hold> {
    let delay = random.pick(&[500, 5_000, WHOLE_SESSION]);
    let mut holds = vec![Hold { kinds: (6, 6), delay, ..Hold::default() }];
    let numbers: Vec<Number> = settings.numbers().collect();
    let readies =
        Hold { kinds: (3, 3), instance: Some(target), delay: WHOLE_SESSION, ..Hold::default() };
    match aim {
        Aim::SplitVote => {}
        Aim::HeavyAgainstLight | Aim::LatePack => {
            holds[0].delay = WHOLE_SESSION;
            holds.push(Hold { delay: UNTIL_DECIDED, ..readies });
        }
        Aim::SplitStart => holds.push(Hold { to_group: Some(Group::B), ..readies }),
        Aim::BusyHosts => {
            // Group B has started with 0 when the ESTs come.
            let ests = Hold { kinds: (4, 4), delay: 0, until: UNTIL_DECIDED, ..readies };
            holds.extend([ests, Hold { to_group: Some(Group::B), ..readies }]);
        }
        Aim::SplitCoin => {
            // Group B then sees both values in its AUXs.
            let auxes = Hold { kinds: (5, 5), delay: UNTIL_ACCEPTED, ..readies };
            let to_group = Some(Group::B);
            holds.extend([Hold { to_group, ..readies }, Hold { to_group, ..auxes }]);
        }
        Aim::BlockedBroadcast => {
            holds.push(Hold { to_one: Some(random.pick(&numbers)), ..readies });
        }
        Aim::Agreement | Aim::EqualPacks | Aim::MoreLiars => {
            if random.once_in(4) {
                holds.clear();
            }
            holds.extend((0..random.below(3)).map(|_| hold(random, &numbers)));
        }
    }
    holds
}

/// A broadcast, its READYs, a vote or everything, to one concentrator, one group or all.
pub fn hold(random: &mut Random, numbers: &[Number]) -> Hold {
    let kinds = random.pick(&[(1, 1), (1, 3), (3, 3), (3, 3), (4, 5), (1, 5)]);
    let instance = (!random.once_in(4)).then_some(random.pick(numbers));
    let to_one = (!random.once_in(3)).then_some(random.pick(numbers));
    let to_group = (to_one.is_none() && random.once_in(2)).then_some(Group::B);
    let delay = random.pick(&[100, 1_000, 10_000, WHOLE_SESSION]);
    Hold { kinds, instance, to_group, to_one, delay, until: 0 }
}
