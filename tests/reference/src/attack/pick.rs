//! The random choices of a plan.

use std::collections::{BTreeMap, BTreeSet};

use super::claim::Conditions;
use super::pacing::{hold, UNTIL_DECIDED};
use super::plan::{Aim, Faces, Group, Hold, Opened, Plan};
use super::random::Random;
use super::script::{Script, Watch};
use crate::compare::all_settings;
use crate::settings::{Number, Settings, Weight};

/// The most concentrators of a feeder in the attack, and the number of packs.
pub const MOST: usize = 7;

pub fn aim(random: &mut Random) -> Aim {
    match random.below(13) {
        0..=2 => Aim::Agreement,
        3 | 4 => Aim::EqualPacks,
        5 | 6 => Aim::BlockedBroadcast,
        7 => Aim::HeavyAgainstLight,
        8 => Aim::SplitVote,
        9 | 10 => Aim::SplitStart,
        _ => Aim::SplitCoin,
    }
}

/// The aims about what sets hold, in one of eight plans; none where conditions are not met.
pub fn aim_at_packs(random: &mut Random, conditions: Conditions) -> Option<Aim> {
    match random.below(16) {
        _ if conditions != Conditions::Met => None,
        0 => Some(Aim::MoreLiars),
        1 => Some(Aim::LatePack),
        _ => None,
    }
}

/// The aim at AUXs with both values accepted, in one of eight of the other plans; none where conditions are not met.
pub fn aim_at_auxes(random: &mut Random, conditions: Conditions) -> Option<Aim> {
    (conditions == Conditions::Met && random.once_in(8)).then_some(Aim::BusyHosts)
}

/// Whether feeders with these settings can have the aim.
pub fn suits(settings: &Settings, aim: Aim) -> bool {
    match aim {
        Aim::Agreement => true,
        Aim::EqualPacks => settings.ts() > 0,
        Aim::MoreLiars => settings.ts() > settings.ta(),
        Aim::LatePack => settings.numbers().any(|number| is_in_ta(settings, number)),
        // With ta = 0 no vote can start with 0, and the first half has no liars.
        Aim::BlockedBroadcast | Aim::SplitVote | Aim::SplitStart => settings.ta() > 0,
        // Two groups that weigh 2·ta at most.
        Aim::BusyHosts => settings.weight(settings.numbers()) <= 4 * Weight::from(settings.ta()),
        // Two light enough: the target, and one that starts its vote with 0.
        Aim::SplitCoin => {
            settings.numbers().filter(|&number| is_in_ta(settings, number)).count() > 2
        }
        // All heavy ones make Exit 1; without one of them votes start with 0, and the light ones are more in number.
        Aim::HeavyAgainstLight => {
            let light = settings.numbers().filter(|&number| is_light(settings, number));
            let count = light.clone().count();
            let starts = settings.numbers().any(|number| is_heavy_in_ta(settings, number));
            2 * count >= usize::from(settings.n())
                && settings.weight(light) <= settings.ts().into()
                && starts
        }
    }
}

/// Any valid settings with n up to 7 that suit the aim; half of the time all weights are 1.
pub fn settings(random: &mut Random, aim: Aim) -> Settings {
    let suits = |settings: &Settings| suits(settings, aim);
    loop {
        let all: Vec<Settings> = if random.once_in(2) {
            all_settings(MOST as u64).filter(suits).collect()
        } else {
            Settings::all_with(&weights(random)).filter(suits).collect()
        };
        if !all.is_empty() {
            return random.pick(&all);
        }
    }
}

fn is_light(settings: &Settings, number: Number) -> bool {
    settings.weight([number]) == 1
}

fn is_in_ta(settings: &Settings, number: Number) -> bool {
    settings.weight([number]) <= settings.ta().into()
}

fn is_heavy_in_ta(settings: &Settings, number: Number) -> bool {
    !is_light(settings, number) && is_in_ta(settings, number)
}

/// From 1 to 4, for up to 7 concentrators.
fn weights(random: &mut Random) -> Vec<u8> {
    // Mostly many.
    let n = 1 + random.below(MOST as u64).max(random.below(MOST as u64));
    (0..n).map(|_| 1 + random.below(u64::from(Settings::HEAVIEST)) as u8).collect()
}

/// Who leaves ta unnamed: some, where that means the ta of the settings.
pub fn unnamed(random: &mut Random, settings: &Settings) -> BTreeSet<Number> {
    let [n, ts] = [settings.n(), settings.ts()].map(u64::from);
    if Settings::new(n, Settings::UNNAMED, ts, settings.weights()) != Ok(*settings) {
        return BTreeSet::new();
    }
    settings.numbers().filter(|_| random.once_in(4)).collect()
}

/// Mostly of as much weight as there may be.
pub fn liars(random: &mut Random, settings: &Settings, aim: Aim) -> BTreeSet<Number> {
    let most = u64::from(match aim {
        Aim::EqualPacks | Aim::MoreLiars => settings.ts(),
        Aim::BusyHosts => 0,
        _ => settings.ta(),
    });
    let less = if random.once_in(4) { random.below(most + 1) } else { 0 };
    of_weight(random, settings, settings.numbers().collect(), most - less)
}

/// Seven different packs.
pub fn packs(random: &mut Random) -> Vec<u64> {
    let first = random.pick(&[0, 5, u64::MAX - MOST as u64]);
    random.some((first..first + MOST as u64).collect(), MOST)
}

/// One of the first packs for each, in turn or at random.
pub fn inputs(
    random: &mut Random,
    settings: &Settings,
    honest: &[Number],
    packs: &[u64],
    aim: Aim,
) -> BTreeMap<Number, u64> {
    let kinds = match aim {
        Aim::Agreement => random.pick(&[1, 2, 2, 2, 3, MOST]),
        Aim::EqualPacks => 1,
        Aim::MoreLiars => random.pick(&[2, 3, MOST]),
        Aim::BlockedBroadcast => 2,
        Aim::HeavyAgainstLight => {
            let pack = |number: Number| packs[usize::from(is_light(settings, number))];
            return honest.iter().map(|&number| (number, pack(number))).collect();
        }
        Aim::LatePack | Aim::SplitVote | Aim::SplitStart | Aim::BusyHosts | Aim::SplitCoin => MOST,
    };
    let in_turn = kinds == MOST || random.once_in(2);
    let shuffled = random.some(honest.to_vec(), honest.len());
    let mut input = |place: usize| {
        packs[if in_turn { place % kinds } else { random.below(kinds as u64) as usize }]
    };
    shuffled.into_iter().enumerate().map(|(place, number)| (number, input(place))).collect()
}

/// At random; or so that group A makes up all quorums of a vote with the liars, or that neither group has a value accepted alone.
pub fn groups(
    random: &mut Random,
    settings: &Settings,
    honest: &[Number],
    aim: Aim,
) -> BTreeMap<Number, Group> {
    if aim == Aim::SplitCoin {
        let second = of_weight(random, settings, honest.to_vec(), settings.ta().into());
        let group = |number| if second.contains(&number) { Group::B } else { Group::A };
        return settings.numbers().map(|number| (number, group(number))).collect();
    }
    if aim == Aim::BusyHosts {
        let first = of_weight(random, settings, honest.to_vec(), 2 * u64::from(settings.ta()));
        let group = |number| if first.contains(&number) { Group::A } else { Group::B };
        return settings.numbers().map(|number| (number, group(number))).collect();
    }
    let share = random.pick(&[2, 2, 4]);
    let mut group = || if random.once_in(share) { Group::B } else { Group::A };
    settings.numbers().map(|number| (number, group())).collect()
}

/// Some that weigh no more than this in all, as many as come.
fn of_weight(
    random: &mut Random,
    settings: &Settings,
    numbers: Vec<Number>,
    most: u64,
) -> BTreeSet<Number> {
    let mut some = BTreeSet::new();
    for number in random.some(numbers, MOST) {
        let weight = settings.weight(some.iter().copied().chain([number]));
        if u64::from(weight) <= most {
            some.insert(number);
        }
    }
    some
}

/// Random words, or words with more ones, at times with 1 in round 1.
pub fn coins(random: &mut Random, settings: &Settings) -> Vec<u32> {
    let more_ones = random.once_in(2);
    let first_one = random.once_in(2);
    let mut word = || {
        let extra = if more_ones { random.word() } else { 0 };
        (random.word() | extra) as u32 | u32::from(first_one)
    };
    settings.numbers().map(|_| word()).collect()
}

pub fn opened(random: &mut Random) -> Opened {
    match random.below(40) {
        0 => Opened::Never,
        1 | 2 => Opened::At(random.below(300)),
        _ => Opened::At(0),
    }
}

/// The first packs are those that honest ones put in.
pub fn faces(random: &mut Random, packs: &[u64], aim: Aim) -> Faces {
    let known = random.pick(&packs[..2]);
    let any = random.pick(packs);
    match random.below(5) {
        _ if aim == Aim::SplitCoin => Faces::One(any),
        // Nobody else puts it in.
        _ if aim == Aim::LatePack => Faces::One(packs[MOST - 1]),
        0 => Faces::None,
        1 => Faces::One(known),
        2 => Faces::One(any),
        _ => Faces::Two(known, any),
    }
}

/// A third of the feeders are boxed, those whose aim is about that, and all where recorded bits differ.
pub fn boxed(random: &mut Random, aim: Aim, conditions: Conditions) -> bool {
    random.once_in(3) || aim == Aim::SplitCoin || conditions == Conditions::OtherBits
}

/// Of boxed coins a script knows nothing; what liars do once they see one is noted there.
pub fn script(
    random: &mut Random,
    settings: &Settings,
    coins: Option<&[u32]>,
    packs: &[u64],
    aim: Aim,
    target: Number,
) -> Script {
    let mut script = Script::default();
    let flood_in = match aim {
        Aim::SplitVote => {
            script.add_split(target, coins);
            return script;
        }
        Aim::SplitStart => {
            script.add_fight(random, target, coins.is_none());
            return script;
        }
        Aim::SplitCoin => {
            script.watches.insert(target, Watch::Lead);
            return script;
        }
        Aim::LatePack | Aim::BusyHosts => return script,
        Aim::EqualPacks | Aim::MoreLiars => 2,
        Aim::Agreement | Aim::BlockedBroadcast | Aim::HeavyAgainstLight => 5,
    };
    if random.once_in(flood_in) {
        let instances = some_numbers(random, settings);
        script.add_flood(random, settings, &instances, packs);
    }
    if random.once_in(2) {
        for vote in some_numbers(random, settings) {
            match random.below(2) {
                0 => script.add_split(vote, coins),
                _ => script.add_fight(random, vote, coins.is_none()),
            }
        }
    }
    script
}

/// Version 2: in most feeders, lies of FINISHes in some votes; in some, FINISHes that are held back, or one that learns of
/// decisions before it can decide, and lies about these.
pub fn finishes(random: &mut Random, plan: &mut Plan) {
    if !random.once_in(4) {
        for vote in some_numbers(random, &plan.settings) {
            plan.script.add_finishes(random, vote);
        }
    }
    if random.once_in(2) {
        let numbers: Vec<Number> = plan.settings.numbers().collect();
        plan.pace.holds.push(Hold { kinds: (7, 7), ..hold(random, &numbers) });
    } else if random.once_in(2) {
        let numbers: Vec<Number> = plan.settings.numbers().collect();
        let to_one = Some(random.pick(&numbers));
        let delay = UNTIL_DECIDED;
        plan.pace.holds.push(Hold { kinds: (4, 5), to_one, delay, ..Hold::default() });
        plan.script.contradicts = true;
    }
}

/// One number, some, or all.
fn some_numbers(random: &mut Random, settings: &Settings) -> Vec<Number> {
    let all: Vec<Number> = settings.numbers().collect();
    let count = random.pick(&[1, 1, 2, all.len(), all.len()]);
    random.some(all, count)
}

/// The instance that an aim is about.
pub fn target(
    random: &mut Random,
    settings: &Settings,
    liars: &BTreeSet<Number>,
    aim: Aim,
) -> Number {
    let suits = |&number: &Number| match aim {
        Aim::LatePack => liars.is_empty() || liars.contains(&number),
        Aim::HeavyAgainstLight => is_heavy_in_ta(settings, number),
        Aim::SplitCoin => is_in_ta(settings, number),
        _ => true,
    };
    random.pick(&settings.numbers().filter(suits).collect::<Vec<Number>>())
}
