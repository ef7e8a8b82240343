//! Nonces, tokens and orders, as the pages of `docs` have them.

use crate::hashes::{Key, Words};
use crate::journal::{Counts, Journal, NONE, PLACES, Record};
use crate::token::{Amounts, amounts_of, read_token, upper_hex};
use std::fmt;

/// The currency of each unit, and a note's value.
pub const UNITS: [(&str, u64); 4] = [("EUR", 10), ("EUR", 20), ("EUR", 50), ("USD", 20)];

const UNIT: usize = 0;
const TRANSPORT: usize = 1;
const OUTLET: usize = 2;
const TAKEN: usize = 3;
const REJECTED: usize = 5;

/// The kinds of orders, as the journal writes them, with the place that an order takes from, and the one it moves to.
const STACK: (u8, usize, usize) = (1, UNIT, TRANSPORT);
const PRESENT: (u8, usize, usize) = (2, TRANSPORT, OUTLET);
const REJECT: (u8, usize, usize) = (3, TRANSPORT, REJECTED);

/// Why a line is refused, with what its answer tells of it.
pub enum Refusal {
    Plain(&'static str),
    Noted { code: &'static str, record: u64 },
    Left { code: &'static str, left: u64 },
}

impl fmt::Display for Refusal {
    fn fmt(&self, to: &mut fmt::Formatter<'_>) -> fmt::Result {
        match self {
            Refusal::Plain(code) => write!(to, "{code}"),
            Refusal::Noted { code, record } => write!(to, "{code} record {record}"),
            Refusal::Left { code, left } => write!(to, "{code} left {left}"),
        }
    }
}

/// An entry of the mechanism's list.
#[allow(dead_code)]
enum Motion {
    Moved { number: u64, kind: u8, moved: Counts, diverted: Counts },
    Taken { counts: Counts },
    Loaded { unit: u8, count: u32 },
}

/// The token that is bound to the live nonce, and what was presented on it.
struct Bound {
    token: String,
    amounts: Amounts,
    presented: Counts,
}

pub struct Guard {
    key: Key,
    words: Words,
    journal: Journal,
    issues: u64,
    mark: u64,
    live: Option<String>,
    bound: Option<Bound>,
    places: [Counts; PLACES],
    motions: Vec<Motion>,
}

/// What notes are worth in a currency, in thousandths.
fn worth(counts: &Counts, currency: &str) -> u64 {
    UNITS.iter().zip(counts).filter(|(unit, _)| unit.0 == currency).map(|(unit, count)| 1000 * unit.1 * u64::from(*count)).sum()
}

impl Guard {
    /// The program's bench, with the Start in its journal.
    pub fn boot() -> Guard {
        let mut places = [NONE; PLACES];
        places[UNIT] = [100, 100, 100, 100, 0, 0, 0, 0];
        let mut journal = Journal::new();
        journal.append(Record::Start { issues: 0, places: Box::new(places) });
        Guard {
            key: Key::new(&[0x0b; 32]),
            words: Words::new([0; 32]),
            journal,
            issues: 0,
            mark: 1,
            live: None,
            bound: None,
            places,
            motions: Vec::new(),
        }
    }

    pub fn key(&self) -> &Key {
        &self.key
    }

    pub fn live(&self) -> Option<&str> {
        self.live.as_deref()
    }

    pub fn places(&self) -> &[Counts; PLACES] {
        &self.places
    }

    fn fit(&self) -> Result<(), Refusal> {
        if self.journal.has_room() { Ok(()) } else { Err(Refusal::Plain("deviceNotReady")) }
    }

    fn noted(&self, code: &'static str) -> Refusal {
        Refusal::Noted { code, record: self.mark }
    }

    pub fn issue(&mut self) -> Result<&str, Refusal> {
        self.fit()?;
        let number = self.issues + 1;
        let word = self.words.of(number);
        self.journal.append(Record::Issue { number, word });
        (self.issues, self.mark, self.bound) = (number, self.journal.records(), None);
        Ok(self.live.insert(format!("{word:016X}{number:016X}")))
    }

    /// Whether a nonce lived.
    pub fn clear(&mut self) -> Result<bool, Refusal> {
        self.fit()?;
        if self.live.take().is_none() {
            return Ok(false);
        }
        self.journal.append(Record::Clear);
        (self.mark, self.bound) = (self.journal.records(), None);
        Ok(true)
    }

    /// The amounts of a token that serves the live nonce.
    fn admit(&self, text: &str) -> Result<Amounts, Refusal> {
        let token = read_token(text).map_err(Refusal::Plain)?;
        let nonce = self.live.as_ref().ok_or_else(|| self.noted("noCommandNonce"))?;
        if token.nonce != nonce {
            return Err(self.noted("invalidTokenNonce"));
        }
        if token.mac != upper_hex(&self.key.mac(&text.as_bytes()[..text.len() - 76])) {
            return Err(Refusal::Plain("invalidTokenHMAC"));
        }
        let amounts = amounts_of(&token).ok_or(Refusal::Plain("invalidTokenFormat"))?;
        match &self.bound {
            Some(bound) if bound.token != text => Err(Refusal::Plain("invalidToken")),
            None if self.places[TRANSPORT] != NONE => Err(Refusal::Plain("sequenceError")),
            _ => Ok(amounts),
        }
    }

    /// What was presented, the transport and these notes are in no currency worth more than the amounts.
    fn covers(&self, amounts: &Amounts, presented: &Counts, notes: &Counts) -> Result<(), Refusal> {
        for currency in ["EUR", "USD"] {
            let allowed = amounts.iter().find(|(other, _)| other == currency).map_or(0, |(_, amount)| *amount);
            let spent = worth(presented, currency) + worth(&self.places[TRANSPORT], currency);
            if spent + worth(notes, currency) > allowed {
                return Err(Refusal::Left { code: "invalidToken", left: allowed.saturating_sub(spent) });
            }
        }
        Ok(())
    }

    /// The checks of a dispense, in their order, the token's binding, and then an order for each unit.
    pub fn dispense(&mut self, token: &str, counts: &Counts) -> Result<Counts, Refusal> {
        self.fit()?;
        let amounts = self.admit(token)?;
        if *counts == NONE || counts[UNITS.len()..].iter().any(|count| *count != 0) {
            return Err(Refusal::Plain("invalidDenomination"));
        }
        if counts.iter().sum::<u32>() > 60 {
            return Err(Refusal::Plain("tooManyItems"));
        }
        if counts.iter().zip(self.places[UNIT]).any(|(count, have)| *count > have) {
            return Err(Refusal::Plain("notDispensable"));
        }
        self.covers(&amounts, &self.bound.as_ref().map_or(NONE, |bound| bound.presented), counts)?;
        if self.bound.is_none() {
            self.journal.append(Record::Bind { token: token.to_string() });
            self.bound = Some(Bound { token: token.to_string(), amounts, presented: NONE });
        }
        for unit in (0..UNITS.len()).filter(|unit| counts[*unit] != 0) {
            let mut one = NONE;
            one[unit] = counts[unit];
            self.stack(one)?;
        }
        Ok(*counts)
    }

    fn stack(&mut self, counts: Counts) -> Result<(), Refusal> {
        self.fit()?;
        let bound = self.served()?;
        self.covers(&bound.amounts, &bound.presented, &counts)?;
        self.carry_out(STACK, counts);
        Ok(())
    }

    /// The token that is bound to the live nonce.
    fn served(&self) -> Result<&Bound, Refusal> {
        self.live.as_ref().ok_or_else(|| self.noted("noCommandNonce"))?;
        self.bound.as_ref().ok_or(Refusal::Plain("authorisationRequired"))
    }

    pub fn present(&mut self) -> Result<Counts, Refusal> {
        self.fit()?;
        self.served()?;
        let counts = self.transported()?;
        if self.places[OUTLET] != NONE {
            return Err(Refusal::Plain("sequenceError"));
        }
        self.carry_out(PRESENT, counts);
        if let Some(bound) = &mut self.bound {
            bound.presented.iter_mut().zip(counts).for_each(|(all, count)| *all += count);
        }
        Ok(counts)
    }

    pub fn reject(&mut self) -> Result<Counts, Refusal> {
        self.fit()?;
        let counts = self.transported()?;
        self.carry_out(REJECT, counts);
        Ok(counts)
    }

    fn transported(&self) -> Result<Counts, Refusal> {
        Some(self.places[TRANSPORT]).filter(|counts| *counts != NONE).ok_or(Refusal::Plain("noItems"))
    }

    /// Writes an order, moves its notes, and writes what was done.
    fn carry_out(&mut self, (kind, from, to): (u8, usize, usize), counts: Counts) {
        self.journal.append(Record::Order { kind, counts });
        self.shift(from, to, &counts);
        self.motions.push(Motion::Moved { number: self.journal.records(), kind, moved: counts, diverted: NONE });
        self.journal.append(Record::Done { moved: counts, diverted: NONE });
    }

    fn shift(&mut self, from: usize, to: usize, counts: &Counts) {
        for (unit, count) in counts.iter().enumerate() {
            self.places[from][unit] -= count;
            self.places[to][unit] += count;
        }
    }

    /// The customer takes what lies in the outlet.
    pub fn take(&mut self) -> Counts {
        let counts = self.places[OUTLET];
        self.shift(OUTLET, TAKEN, &counts);
        self.motions.push(Motion::Taken { counts });
        counts
    }

    pub fn fill(&mut self, unit: usize, count: u32) -> Result<(), Refusal> {
        let place = unit.checked_sub(1).filter(|place| *place < UNITS.len()).ok_or(Refusal::Plain("invalidUnit"))?;
        if count + self.places[UNIT][place] > 10_000 {
            return Err(Refusal::Plain("storageFull"));
        }
        self.fit()?;
        self.places[UNIT][place] += count;
        self.motions.push(Motion::Loaded { unit: unit as u8, count });
        self.journal.append(Record::Load { unit: unit as u8, count });
        Ok(())
    }
}
