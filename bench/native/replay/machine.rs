//! The dispenser's side of the machine, as the pages of `docs` have it: what becomes of a text, and the steps of work.

use crate::hashes::{Key, word_of};
use crate::message::{Ask, Notes, read_ask, read_command};
use crate::token::{Amounts, amounts_of, read_token, upper_hex};
use std::collections::VecDeque;

/// Numbers of notes of the units.
pub type Counts = [u32; 8];

/// The currency of each unit, and a note's value.
const UNITS: [(&str, u64); 4] = [("EUR", 10), ("EUR", 20), ("EUR", 50), ("USD", 20)];
pub const NONE: Counts = [0; 8];

/// What notes are worth in a currency, in its unit.
pub fn worth(counts: &Counts, currency: &str) -> u64 {
    UNITS.iter().zip(counts).filter(|(unit, _)| unit.0 == currency).map(|(unit, count)| unit.1 * u64::from(*count)).sum()
}

/// As few notes as can be of the units, the dearest first, which is least with their values.
fn least(units: &Counts, currency: &str, amount: u64) -> Result<Counts, Answer> {
    if UNITS.iter().all(|unit| unit.0 != currency) {
        return Err(error("invalidCurrency"));
    }
    let (mut notes, mut left) = (NONE, amount);
    for unit in (0..UNITS.len()).rev().filter(|unit| UNITS[*unit].0 == currency) {
        notes[unit] = (left / UNITS[unit].1).min(u64::from(units[unit])) as u32;
        left -= u64::from(notes[unit]) * UNITS[unit].1;
    }
    if left == 0 { Ok(notes) } else { Err(error("notDispensable")) }
}

/// Moves notes from one place to another.
fn shift(counts: &Counts, from: &mut Counts, to: &mut Counts) {
    for ((count, from), to) in counts.iter().zip(from).zip(to) {
        *from -= count;
        *to += count;
    }
}

fn big_endian(counts: &Counts) -> [u8; 32] {
    let mut bytes = [0; 32];
    bytes.chunks_exact_mut(4).zip(counts).for_each(|(bytes, count)| bytes.copy_from_slice(&count.to_be_bytes()));
    bytes
}

/// The units that have notes, in this form, joined by commas.
pub fn listed(counts: &Counts, form: impl Fn(usize, u32) -> String) -> String {
    let units: Vec<String> = (0..8).filter(|unit| counts[*unit] != 0).map(|unit| form(unit + 1, counts[unit])).collect();
    units.join(",")
}

/// What the answer of a dispense tells.
fn denomination(notes: &Counts) -> String {
    let values = listed(notes, |unit, count| format!(r#""unit{unit}":{count}"#));
    let amounts = ["EUR", "USD"].map(|currency| (currency, worth(notes, currency)));
    let amounts: Vec<String> = amounts.iter().filter(|amount| amount.1 != 0).map(|(letters, sum)| format!(r#""{letters}":{sum}"#)).collect();
    format!(r#"{{"denomination":{{"currencies":{{{}}},"values":{{{values}}}}}}}"#, amounts.join(","))
}

/// A journal with its header.
pub trait Journal {
    /// Appends a record whose body is made of these parts.
    fn append(&mut self, body: &[&[u8]]);

    /// How many records it has.
    fn records(&self) -> u64;

    /// How many bytes it has.
    fn len(&self) -> u64;
}

/// The first bytes of a journal, with a closed gate.
pub const HEADER: &[u8] = b"XFSJRNL2\0";

/// Writes a record's length and body, and the closed gate behind it.
pub fn frame(bytes: &mut Vec<u8>, body: &[&[u8]]) {
    let length = body.iter().map(|part| part.len()).sum::<usize>() as u16;
    bytes.extend_from_slice(&length.to_be_bytes());
    body.iter().for_each(|part| bytes.extend_from_slice(part));
    bytes.push(0);
}

/// The token that is bound to the live nonce, and what was presented on it.
struct Bound {
    token: String,
    amounts: Amounts,
    presented: Counts,
}

/// A step of a command that runs: an order is written, carried out and settled; notes are loaded, and it is written down.
#[derive(Clone, Copy)]
enum Step {
    Stack { issue: u64, unit: usize, count: u32 },
    Present,
    Act { is_stack: bool, counts: Counts },
    Settle { is_stack: bool, counts: Counts },
    Load { unit: usize, count: u32 },
    Note { unit: usize, count: u32 },
}

enum Stage {
    Waiting,
    Running { steps: VecDeque<Step>, notes: Option<Counts> },
    Ready(Answer),
}

struct Command {
    client: u32,
    id: u64,
    name: String,
    ask: Ask,
    stage: Stage,
}

impl Command {
    /// Whether an order of it is written and not yet settled.
    fn has_order(&self) -> bool {
        let Stage::Running { steps, .. } = &self.stage else { return false };
        matches!(steps.front(), Some(Step::Act { .. } | Step::Settle { .. }))
    }
}

/// A completion code and a payload.
type Answer = (&'static str, String);

fn plain(code: &'static str) -> Answer {
    (code, "{}".to_string())
}

fn error(name: &str) -> Answer {
    ("commandErrorCode", format!(r#"{{"errorCode":"{name}"}}"#))
}

/// The counts, where they name no unit past the table.
fn of_table(counts: Option<Counts>) -> Option<Counts> {
    counts.filter(|counts| counts[UNITS.len()..].iter().all(|count| *count == 0))
}

/// A client of the dispenser, or of another service, which knows the command Status alone.
pub struct Client {
    pub number: u32,
    pub is_cash: bool,
    pub waiting: Vec<String>,
}

pub struct Machine<J> {
    pub key: Key,
    seed: [u8; 32],
    pub journal: J,
    // How long a nonce lives, where its life ends, and the moment of its issue, in milliseconds.
    life: Option<u64>,
    issued: u64,
    issues: u64,
    mark: u64,
    pub live: Option<String>,
    bound: Option<Bound>,
    units: Counts,
    transport: Counts,
    pub outlet: Counts,
    taken: Counts,
    exchange: bool,
    queue: Vec<Command>,
    pub clients: Vec<Client>,
}

impl<J: Journal> Machine<J> {
    /// The program's bench, with the Boot in its journal. A life is so many milliseconds.
    pub fn boot(journal: J, life: Option<u64>) -> Machine<J> {
        let mut machine = Machine {
            key: Key::new(&[0x0b; 32]),
            seed: [0; 32],
            journal,
            life,
            issued: 0,
            issues: 0,
            mark: 1,
            live: None,
            bound: None,
            units: [100, 100, 100, 100, 0, 0, 0, 0],
            transport: NONE,
            outlet: NONE,
            taken: NONE,
            exchange: false,
            queue: Vec::new(),
            clients: Vec::new(),
        };
        machine.journal.append(&[b"K", &[0; 8], &big_endian(&machine.units), &[0; 160]]);
        machine
    }

    /// Takes a client, where there is room.
    pub fn connect(&mut self, number: u32, is_cash: bool) -> bool {
        let has_room = self.clients.len() < 64;
        if has_room {
            let place = self.clients.partition_point(|client| client.number < number);
            self.clients.insert(place, Client { number, is_cash, waiting: Vec::new() });
        }
        has_room
    }

    fn send(&mut self, client: u32, frame: String) {
        if let Some(client) = self.clients.iter_mut().find(|other| other.number == client) {
            client.waiting.push(frame);
        }
    }

    fn complete(&mut self, client: u32, name: &str, id: u64, (code, payload): &Answer) {
        let header = format!(r#"{{"completionCode":"{code}","name":"{name}","requestId":{id},"type":"completion","version":"2.0"}}"#);
        self.send(client, format!(r#"{{"header":{header},"payload":{payload}}}"#));
    }

    /// Takes a text of a client.
    pub fn post(&mut self, client: u32, text: &[u8]) {
        let (name, id, payload) = match read_command(text) {
            Ok(command) => command,
            Err(id) => {
                let id = id.map_or(String::new(), |id| format!(r#""requestId":{id},"#));
                return self.send(client, format!(r#"{{"header":{{{id}"status":"invalidMessage","type":"acknowledge","version":"2.0"}}}}"#));
            }
        };
        let is_cash = self.clients.iter().any(|other| other.number == client && other.is_cash);
        let ask = read_ask(&name, &payload).filter(|ask| is_cash || matches!(ask, Ask::Status));
        let pending = self.queue.iter().filter(|command| command.client == client);
        let is_right = (1..=2_147_483_647).contains(&id) && pending.clone().all(|command| command.id != id);
        let is_pending = ask.as_ref().is_some_and(|ask| !matches!(ask, Ask::Status));
        let is_crowded = is_pending && (pending.count() >= 32 || self.queue.len() >= 256);
        let status = match (is_right, is_crowded) {
            (false, _) => r#""status":"invalidRequestID","#,
            (true, true) => r#""status":"tooManyRequests","#,
            (true, false) => "",
        };
        self.send(client, format!(r#"{{"header":{{"name":"{name}","requestId":{id},{status}"type":"acknowledge","version":"2.0"}}}}"#));
        match ask {
            _ if !status.is_empty() => {}
            Some(Ask::Status) => self.complete(client, &name, id, &self.status(is_cash)),
            Some(ask) => self.queue.push(Command { client, id, name, ask, stage: Stage::Waiting }),
            None => self.complete(client, &name, id, &plain("invalidCommand")),
        }
    }

    /// Whether the journal has room for the records of a command.
    fn fit(&self) -> Result<(), Answer> {
        let is_full = self.journal.records() + 3 > 1_000_000 || self.journal.len() + 2_048 > 17_179_869_184;
        if is_full { Err(plain("deviceNotReady")) } else { Ok(()) }
    }

    fn status(&self, is_cash: bool) -> Answer {
        let device = if is_cash && self.fit().is_err() { "hardwareError" } else { "online" };
        ("success", format!(r#"{{"common":{{"device":"{device}"}}}}"#))
    }

    /// One step of work, by the first case that applies: an open order, a life that is over, a result, a nonce, the plan that runs, a
    /// command that waits.
    pub fn work(&mut self, now: u64) -> bool {
        let is_over = self.live.is_some() && self.life.is_some_and(|life| now.saturating_sub(self.issued) >= life);
        let first = |is_it: fn(&Command) -> bool| self.queue.iter().position(is_it);
        let running = first(|command| matches!(command.stage, Stage::Running { .. }));
        if let Some(at) = first(|command| command.has_order()) {
            self.go_on(at);
        } else if is_over {
            self.expire();
        } else if let Some(at) = first(|command| matches!(command.stage, Stage::Ready(_))) {
            let Command { client, id, name, stage, .. } = self.queue.remove(at);
            if let Stage::Ready(answer) = stage {
                self.complete(client, &name, id, &answer);
            }
        } else if let Some(at) = first(|command| matches!((&command.stage, &command.ask), (Stage::Waiting, Ask::Issue))) {
            self.queue[at].stage = Stage::Ready(self.issue(now).unwrap_or_else(|refusal| refusal));
        } else if let Some(at) = running {
            self.go_on(at);
        } else if let Some(at) = first(|command| matches!(command.stage, Stage::Waiting)) {
            let ask = std::mem::replace(&mut self.queue[at].ask, Ask::Bad);
            self.queue[at].stage = self.begin(ask).unwrap_or_else(Stage::Ready);
        } else {
            return false;
        }
        true
    }

    fn issue(&mut self, now: u64) -> Result<Answer, Answer> {
        self.fit()?;
        let number = self.issues + 1;
        let word = word_of(&self.seed, number);
        self.journal.append(&[b"I", &number.to_be_bytes(), &word.to_be_bytes()]);
        let text = format!("{word:016X}{number:016X}");
        let payload = format!(r#"{{"commandNonce":"{text}"}}"#);
        (self.issues, self.mark, self.live, self.bound) = (number, self.journal.records(), Some(text), None);
        self.issued = now;
        Ok(("success", payload))
    }

    /// Ends the life of the live nonce.
    fn expire(&mut self) {
        self.journal.append(&[b"E"]);
        (self.mark, self.live, self.bound) = (self.journal.records(), None, None);
        let text = r#"{"header":{"name":"Common.NonceClearedEvent","type":"unsolicited","version":"2.0"},"payload":{"reasonDescription":"expired"}}"#;
        self.clients.iter_mut().filter(|client| client.is_cash).for_each(|client| client.waiting.push(text.to_string()));
    }

    /// The checks of a command that waits, which then runs; else its result.
    fn begin(&mut self, ask: Ask) -> Result<Stage, Answer> {
        let active = || if self.exchange { Err(error("exchangeActive")) } else { Ok(()) };
        let inactive = || if self.exchange { Ok(()) } else { Err(error("noExchangeActive")) };
        match ask {
            Ask::Issue | Ask::Status | Ask::Bad => Err(plain("invalidData")),
            Ask::Dispense { notes, token } => active().and_then(|()| self.begin_dispense(notes, token)),
            Ask::Present => active().map(|()| Stage::Running { steps: VecDeque::from([Step::Present]), notes: None }),
            Ask::SetStorage { added } => inactive().and_then(|()| self.begin_storage(added)),
            Ask::StartExchange | Ask::EndExchange => {
                if matches!(ask, Ask::StartExchange) { active()? } else { inactive()? }
                self.exchange = !self.exchange;
                Err(plain("success"))
            }
        }
    }

    fn begin_storage(&self, added: Option<Counts>) -> Result<Stage, Answer> {
        self.fit()?;
        let added = of_table(added).ok_or_else(|| error("invalidUnit"))?;
        if added.iter().zip(self.units).any(|(count, notes)| *count != 0 && count + notes > 10_000) {
            return Err(error("storageFull"));
        }
        let of_unit = |unit: usize| [Step::Load { unit, count: added[unit] }, Step::Note { unit, count: added[unit] }];
        let steps = (0..8).filter(|unit| added[*unit] != 0).flat_map(of_unit).collect();
        Ok(Stage::Running { steps, notes: None })
    }

    fn begin_dispense(&mut self, notes: Notes, token: Option<String>) -> Result<Stage, Answer> {
        self.fit()?;
        let token = token.ok_or_else(|| plain("authorisationRequired"))?;
        let amounts = self.admit(&token)?;
        let notes = match notes {
            Notes::Counted(notes) => of_table(notes).filter(|notes| *notes != NONE).ok_or_else(|| error("invalidDenomination"))?,
            Notes::Least { currency, amount } => least(&self.units, &currency, amount)?,
        };
        if notes.iter().sum::<u32>() > 60 {
            return Err(error("tooManyItems"));
        }
        if notes.iter().zip(self.units).any(|(count, have)| *count > have) {
            return Err(error("notDispensable"));
        }
        let presented = self.bound.as_ref().map_or(NONE, |bound| bound.presented);
        self.covers(&amounts, &presented, &notes)?;
        if self.bound.is_none() {
            self.journal.append(&[b"T", token.as_bytes()]);
            self.bound = Some(Bound { token, amounts, presented });
        }
        let issue = self.issues;
        let steps = (0..8).filter(|unit| notes[*unit] != 0).map(|unit| Step::Stack { issue, unit, count: notes[unit] }).collect();
        Ok(Stage::Running { steps, notes: Some(notes) })
    }

    fn noted(&self, code: &'static str) -> Answer {
        (code, format!(r#"{{"journalRecord":{}}}"#, self.mark))
    }

    /// The amounts of a token that serves the live nonce.
    fn admit(&self, text: &str) -> Result<Amounts, Answer> {
        let token = read_token(text).map_err(plain)?;
        let nonce = self.live.as_ref().ok_or_else(|| self.noted("noCommandNonce"))?;
        if token.nonce != nonce {
            return Err(self.noted("invalidTokenNonce"));
        }
        if token.mac != upper_hex(&self.key.mac(&text.as_bytes()[..text.len() - 76])) {
            return Err(plain("invalidTokenHMAC"));
        }
        let amounts = amounts_of(&token).ok_or_else(|| plain("invalidTokenFormat"))?;
        match &self.bound {
            Some(bound) if bound.token != text => Err(plain("invalidToken")),
            None if self.transport != NONE => Err(plain("sequenceError")),
            _ => Ok(amounts),
        }
    }

    /// What was presented, the transport and these notes are in no currency worth more than the amounts.
    fn covers(&self, amounts: &Amounts, presented: &Counts, notes: &Counts) -> Result<(), Answer> {
        for currency in ["EUR", "USD"] {
            let allowed = amounts.iter().find(|(other, _)| other == currency).map_or(0, |(_, amount)| *amount);
            if 1000 * (worth(presented, currency) + worth(&self.transport, currency) + worth(notes, currency)) > allowed {
                return Err(plain("invalidToken"));
            }
        }
        Ok(())
    }

    /// Does the next step of the command that runs. Behind the last one, or where one is refused, it has its result.
    fn go_on(&mut self, at: usize) {
        let Stage::Running { steps, notes } = &mut self.queue[at].stage else { return };
        let (Some(step), notes) = (steps.pop_front(), *notes) else { return };
        let next = self.take_step(step);
        let Stage::Running { steps, .. } = &mut self.queue[at].stage else { return };
        match next {
            Err(refusal) => self.queue[at].stage = Stage::Ready(refusal),
            Ok(Some(step)) => steps.push_front(step),
            Ok(None) if !steps.is_empty() => {}
            Ok(None) => self.queue[at].stage = Stage::Ready(("success", notes.as_ref().map_or("{}".to_string(), denomination))),
        }
    }

    /// Does a step, and says which one an order has next.
    fn take_step(&mut self, step: Step) -> Result<Option<Step>, Answer> {
        match step {
            Step::Stack { issue, unit, count } => self.stack(issue, unit, count).map(Some),
            Step::Present => self.present().map(Some),
            Step::Act { is_stack, counts } => {
                let (from, to) = if is_stack { (&mut self.units, &mut self.transport) } else { (&mut self.transport, &mut self.outlet) };
                shift(&counts, from, to);
                Ok(Some(Step::Settle { is_stack, counts }))
            }
            Step::Settle { is_stack, counts } => {
                self.journal.append(&[b"D", &big_endian(&counts), &[0; 32]]);
                if let (false, Some(bound)) = (is_stack, &mut self.bound) {
                    bound.presented.iter_mut().zip(counts).for_each(|(all, count)| *all += count);
                }
                Ok(None)
            }
            Step::Load { unit, count } => {
                self.units[unit] += count;
                Ok(None)
            }
            Step::Note { unit, count } => {
                self.fit()?;
                self.journal.append(&[b"L", &[unit as u8 + 1], &count.to_be_bytes()]);
                Ok(None)
            }
        }
    }

    /// The token that is bound to the live nonce.
    fn served(&self) -> Result<&Bound, Answer> {
        self.fit()?;
        self.live.as_ref().ok_or_else(|| self.noted("noCommandNonce"))?;
        self.bound.as_ref().ok_or_else(|| plain("authorisationRequired"))
    }

    fn stack(&mut self, issue: u64, unit: usize, count: u32) -> Result<Step, Answer> {
        if issue != self.issues {
            return Err(self.noted("invalidTokenNonce"));
        }
        let bound = self.served()?;
        let mut counts = NONE;
        counts[unit] = count;
        self.covers(&bound.amounts, &bound.presented, &counts)?;
        if self.units[unit] < count {
            return Err(error("notDispensable"));
        }
        self.journal.append(&[&[b'O', 1], &big_endian(&counts)]);
        Ok(Step::Act { is_stack: true, counts })
    }

    fn present(&mut self) -> Result<Step, Answer> {
        self.served()?;
        let counts = self.transport;
        if counts == NONE {
            return Err(error("noItems"));
        }
        if self.outlet != NONE {
            return Err(plain("sequenceError"));
        }
        self.journal.append(&[&[b'O', 2], &big_endian(&counts)]);
        Ok(Step::Act { is_stack: false, counts })
    }

    /// The customer takes what lies in the outlet.
    pub fn take(&mut self) -> Counts {
        let counts = self.outlet;
        shift(&counts, &mut self.outlet, &mut self.taken);
        counts
    }
}
