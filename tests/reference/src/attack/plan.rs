//! The plan of one feeder: settings, liars, inputs, coins, and the order of calls.

use std::collections::{BTreeMap, BTreeSet};

use super::claim::{Conditions, Owed};
use super::pacing;
use super::pick;
use super::random::Random;
use super::script::Script;
use crate::coin_box::BoxOpening;
use crate::session::Opening;
use crate::settings::{Number, Settings, Version, Weight};

/// What a plan is drawn up for.
#[derive(Clone, Copy, Debug, PartialEq, Eq)]
pub enum Aim {
    /// The first half of demand 3: liars of weight ta at most.
    Agreement,
    /// The second half: liars of weight up to ts, and all others put in one pack.
    EqualPacks,
    /// What is owed of different packs too: liars of weight up to ts.
    MoreLiars,
    /// First half; all packs different, and the READYs of a liar's broadcast kept from all until the votes are decided.
    LatePack,
    /// First half; two packs, and one broadcast's READYs kept from one concentrator for the whole session.
    BlockedBroadcast,
    /// First half; few heavy ones put in one pack and as many light ones another, and one heavy broadcast's READYs are
    /// kept from all until the votes are decided.
    HeavyAgainstLight,
    /// First half; all packs different, and AUXs against one vote.
    SplitVote,
    /// First half; all packs different, one broadcast's READYs kept from one group, and its vote fought over.
    SplitStart,
    /// No liars; all packs different, one broadcast's READYs kept from one group and the ESTs of its vote from all until the other
    /// votes are decided; all turn only once all that is due was delivered, so that both values can be accepted between two turns.
    BusyHosts,
    /// First half; boxed, all packs different, one broadcast's READYs kept from a group of weight ta at most, and liars lead
    /// its vote by the coins that they see.
    SplitCoin,
}

/// Liars can treat the honest ones of the two groups differently.
#[derive(Clone, Copy, Debug, PartialEq, Eq)]
pub enum Group {
    A,
    B,
}

/// What the liars run besides their script.
#[derive(Clone, Copy, Debug, PartialEq, Eq)]
pub enum Faces {
    /// Nothing.
    None,
    /// An engine of the rules, with this input.
    One(u64),
    /// Two engines of the rules with inputs of their own: one talks to group A, the other to group B.
    Two(u64, u64),
}

/// When an honest one is opened, in steps of the feeder.
#[derive(Clone, Copy, Debug, PartialEq, Eq)]
pub enum Opened {
    At(u64),
    Never,
}

/// Messages that are held back: those that fit all that is named.
#[derive(Clone, Copy, Debug, Default)]
pub struct Hold {
    /// The lowest and the highest kind.
    pub kinds: (u8, u8),
    pub instance: Option<Number>,
    pub to_group: Option<Group>,
    pub to_one: Option<Number>,
    pub delay: u64,
    /// A step up to which they are held, whenever they were sent.
    pub until: u64,
}

impl Hold {
    fn covers(&self, message: &[u8], to: Number, group: Group) -> bool {
        let (first, last) = self.kinds;
        (first..=last).contains(&message[1])
            && self.instance.is_none_or(|instance| message[3] == instance)
            && self.to_group.is_none_or(|held| held == group)
            && self.to_one.is_none_or(|held| held == to)
    }

    /// The steps that it holds a message that is sent now.
    fn delay_from(&self, now: u64) -> u64 {
        self.delay.max(self.until.saturating_sub(now))
    }
}

/// How calls follow each other.
#[derive(Clone, Debug)]
pub struct Pace {
    pub holds: Vec<Hold>,
    /// The most steps that an ordinary message takes.
    pub jitter: u64,
    /// A concentrator turns until idle once in so many deliveries to it; or else only once all that is due was delivered.
    pub laziness: Option<u64>,
    /// Once in so many steps there is a call that must be refused.
    pub refused_calls: u64,
    /// Once in so many steps an honest one loses power, if ever.
    pub power_losses: Option<u64>,
    /// An honest one of group A, or of group B, asks for the coins that it waits for once in so many times that it could.
    pub asking: (u64, u64),
    /// Once in so many steps a liar asks for any coin.
    pub peeks: u64,
    pub call_limit: u64,
}

#[derive(Clone, Debug)]
pub struct Plan {
    pub settings: Settings,
    /// Who gives ta as 255.
    unnamed: BTreeSet<Number>,
    pub session: u32,
    /// Whether the coins are in a box.
    pub boxed: bool,
    coins: Vec<u32>,
    /// What a boxed session is opened with in their place.
    no_coins: Vec<u32>,
    /// Of the honest ones.
    pub inputs: BTreeMap<Number, u64>,
    pub openings: BTreeMap<Number, Opened>,
    /// The buffers served another session before.
    pub used_before: bool,
    pub liars: BTreeSet<Number>,
    pub groups: BTreeMap<Number, Group>,
    pub faces: Faces,
    pub script: Script,
    pub pace: Pace,
}

impl Plan {
    /// Half of the plans are of version 2, and some are about the packs in sets, or about AUXs with both values accepted.
    pub fn new(seed: u64, conditions: Conditions) -> Plan {
        let version = Random::new(seed.rotate_left(32)).pick(&Version::ALL);
        let aim = pick::aim_at_packs(&mut Random::new(seed.rotate_left(48)), conditions);
        let at_auxes = || pick::aim_at_auxes(&mut Random::new(seed.rotate_left(8)), conditions);
        match aim.or_else(at_auxes) {
            Some(aim) => {
                Plan::aimed(&mut Random::new(seed), aim, conditions).in_version(seed, version)
            }
            None => Plan::of_version(seed, conditions, version),
        }
    }

    /// The plan of one seed, in this version; both have the same settings, liars and lies, but for FINISHes.
    pub fn of_version(seed: u64, conditions: Conditions, version: Version) -> Plan {
        let random = &mut Random::new(seed);
        let aim = pick::aim(random);
        Plan::aimed(random, aim, conditions).in_version(seed, version)
    }

    /// A plan with these settings and printed coins.
    pub fn with_settings(seed: u64, settings: Settings) -> Plan {
        let random = &mut Random::new(seed);
        let mut aim = pick::aim(random);
        while !pick::suits(&settings, aim) || aim == Aim::SplitCoin {
            aim = pick::aim(random);
        }
        let version_1 = settings.with_version(Version::One);
        let mut plan = Plan::drawn(random, aim, version_1, Conditions::Met);
        plan.boxed = false;
        plan.in_version(seed, settings.version())
    }

    fn in_version(mut self, seed: u64, version: Version) -> Plan {
        self.settings = self.settings.with_version(version);
        if version == Version::Two {
            pick::finishes(&mut Random::new(seed.rotate_left(16)), &mut self);
        }
        self
    }

    fn aimed(random: &mut Random, aim: Aim, conditions: Conditions) -> Plan {
        let settings = pick::settings(random, aim);
        Plan::drawn(random, aim, settings, conditions)
    }

    fn drawn(random: &mut Random, aim: Aim, settings: Settings, conditions: Conditions) -> Plan {
        let liars = pick::liars(random, &settings, aim);
        let honest: Vec<Number> =
            settings.numbers().filter(|number| !liars.contains(number)).collect();
        let packs = pick::packs(random);
        let coins = pick::coins(random, &settings);
        let target = pick::target(random, &settings, &liars, aim);
        let boxed = pick::boxed(random, aim, conditions);
        let printed = (!boxed).then_some(&coins[..]);
        Plan {
            settings,
            unnamed: pick::unnamed(random, &settings),
            session: random.word() as u32,
            inputs: pick::inputs(random, &settings, &honest, &packs, aim),
            openings: honest.iter().map(|&number| (number, pick::opened(random))).collect(),
            used_before: random.once_in(4),
            liars,
            groups: pick::groups(random, &settings, &honest, aim),
            faces: pick::faces(random, &packs, aim),
            script: pick::script(random, &settings, printed, &packs, aim, target),
            pace: pacing::pace(random, &settings, aim, target, conditions),
            boxed,
            no_coins: vec![0; coins.len()],
            coins,
        }
    }

    /// The opening of one concentrator, honest or not.
    pub fn opening(&self, own: Number, input: u64) -> Opening<'_> {
        let named = u64::from(self.settings.ta());
        Opening {
            version: self.settings.version().number(),
            n: u64::from(self.settings.n()),
            ta: if self.unnamed.contains(&own) { Settings::UNNAMED } else { named },
            ts: u64::from(self.settings.ts()),
            own: u64::from(own),
            session: self.session,
            input,
            coins: if self.boxed { &self.no_coins } else { &self.coins },
            weights: self.settings.weights(),
            boxed: u64::from(self.boxed),
        }
    }

    /// The opening of the box, with ta named.
    pub fn box_opening(&self) -> BoxOpening<'_> {
        let [n, ta, ts] =
            [self.settings.n(), self.settings.ta(), self.settings.ts()].map(u64::from);
        BoxOpening { n, ta, ts, coins: &self.coins, weights: self.settings.weights() }
    }

    /// The steps that a message that is sent now takes on its way.
    pub fn delay(&self, random: &mut Random, message: &[u8], to: Number, now: u64) -> u64 {
        let covers = |hold: &&Hold| hold.covers(message, to, self.groups[&to]);
        let held = self.pace.holds.iter().filter(covers).map(|hold| hold.delay_from(now)).max();
        random.below(self.pace.jitter) + held.unwrap_or(0)
    }

    fn liars_weight(&self) -> Weight {
        self.settings.weight(self.liars.iter().copied())
    }

    /// What is owed of this feeder.
    pub fn owed(&self) -> Owed {
        let weight = self.liars_weight();
        let up_to_ts = weight <= self.settings.ts().into();
        let pack = if up_to_ts { self.only_pack() } else { None };
        Owed { up_to_ta: weight <= self.settings.ta().into(), up_to_ts, pack }
    }

    /// The pack that every honest one that is opened puts in, if it is one.
    fn only_pack(&self) -> Option<u64> {
        let is_opened = |number: &Number| self.openings[number] != Opened::Never;
        let mut packs =
            self.inputs.iter().filter(|(number, _)| is_opened(number)).map(|(_, &pack)| pack);
        let first = packs.next()?;
        packs.all(|pack| pack == first).then_some(first)
    }
}
