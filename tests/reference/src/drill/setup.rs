//! The first lines of the drill: N, C and P.

use std::collections::btree_map::Entry;
use std::collections::BTreeMap;

use super::{Bad, Field};
use crate::session::{Opening, Session};
use crate::settings::{Number, Settings, Version};

/// The most concentrators of a drill.
const MOST: u8 = 4;

/// The settings, the coins named, and the input of each honest concentrator.
pub struct Setup {
    settings: Settings,
    session: u32,
    coins: BTreeMap<Number, u32>,
    inputs: BTreeMap<Number, u64>,
}

impl Setup {
    /// Takes the N line.
    pub fn new(letter: u8, fields: &[Field]) -> Result<Setup, Bad> {
        let (b'N', [n, ta, ts, session]) = (letter, fields) else { return Err(Bad) };
        let decimal = |field: &Field| field.decimal().ok_or(Bad);
        let settings =
            Settings::unweighted(decimal(n)?, decimal(ta)?, decimal(ts)?).map_err(|_| Bad)?;
        let session = u32::try_from(decimal(session)?).map_err(|_| Bad)?;
        if settings.n() > MOST {
            return Err(Bad);
        }
        Ok(Setup { settings, session, coins: BTreeMap::new(), inputs: BTreeMap::new() })
    }

    /// Takes a C or P line.
    pub fn take(&mut self, letter: u8, fields: &[Field]) -> Result<(), Bad> {
        match (letter, fields) {
            (b'C', [i, word]) => {
                let word = word.hexadecimal(8).ok_or(Bad)?;
                put_once(self.number(i)?, word as u32, &mut self.coins)
            }
            (b'P', [p, value]) => {
                let value = value.hexadecimal(16).ok_or(Bad)?;
                put_once(self.number(p)?, value, &mut self.inputs)
            }
            _ => Err(Bad),
        }
    }

    /// A field that names a concentrator or a vote, 1 to n.
    pub fn number(&self, field: &Field) -> Result<Number, Bad> {
        field.decimal().and_then(|number| self.settings.number(number)).ok_or(Bad)
    }

    pub fn session(&self) -> u32 {
        self.session
    }

    /// Opens the honest concentrators. A missing C is 00000000.
    pub fn sessions(&self) -> BTreeMap<Number, Session> {
        let coin = |number| self.coins.get(&number).copied().unwrap_or(0);
        let coins: Vec<u32> = self.settings.numbers().map(coin).collect();
        let open = |(&own, &input): (&Number, &u64)| {
            let opening = Opening {
                version: Version::One.number(),
                n: u64::from(self.settings.n()),
                ta: u64::from(self.settings.ta()),
                ts: u64::from(self.settings.ts()),
                own: u64::from(own),
                session: self.session,
                input,
                coins: &coins,
                weights: self.settings.weights(),
                boxed: 0,
            };
            (own, Session::open(&opening).expect("the N line holds good settings"))
        };
        self.inputs.iter().map(open).collect()
    }
}

fn put_once<V>(number: Number, value: V, places: &mut BTreeMap<Number, V>) -> Result<(), Bad> {
    match places.entry(number) {
        Entry::Vacant(place) => {
            place.insert(value);
            Ok(())
        }
        Entry::Occupied(_) => Err(Bad),
    }
}
