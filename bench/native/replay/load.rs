//! Rounds of withdrawals by one client, and the line that sums them up.

use crate::MemoryJournal;
use crate::json::{Value, parse};
use crate::machine::{Journal, Machine, worth};
use crate::token::mint;

const CLIENT: u32 = 1;

/// What the client keeps of what comes back.
struct Load<'a> {
    machine: &'a mut Machine<MemoryJournal>,
    asked: u64,
    nonce: Option<String>,
    failed: bool,
}

impl Load<'_> {
    /// Asks something, lets the machine rest, and hears what came back.
    fn say(&mut self, name: &str, payload: &str) {
        self.asked += 1;
        let text = format!(r#"{{"header":{{"name":"{name}","requestId":{},"type":"command"}},"payload":{payload}}}"#, self.asked);
        self.machine.post(CLIENT, text.as_bytes());
        self.machine.rest();
        let frames = std::mem::take(&mut self.machine.clients[0].waiting);
        frames.iter().for_each(|frame| self.hear(frame));
    }

    fn hear(&mut self, frame: &str) {
        let Some(answer) = parse(frame.as_bytes()) else { return };
        let Some(code) = answer.get("header").and_then(|header| header.get("completionCode")) else { return };
        self.failed |= code.text() != Some("success");
        let nonce = answer.get("payload").and_then(|payload| payload.get("commandNonce"));
        self.nonce = nonce.and_then(Value::text).map(str::to_string).or(self.nonce.take());
    }

    fn withdraw(&mut self, amount: u64) {
        self.nonce = None;
        self.say("Common.GetCommandNonce", "{}");
        let token = self.nonce.as_ref().map(|nonce| mint(&self.machine.key, nonce, &vec![("EUR".to_string(), 1000 * amount)]));
        let token = token.map_or(String::new(), |token| format!(r#","token":"{token}""#));
        self.say("CashDispenser.Dispense", &format!(r#"{{"denomination":{{"currencies":{{"EUR":{amount}}}}},"mix":"minimum"{token}}}"#));
        self.say("CashDispenser.Present", "{}");
    }

    fn refill(&mut self) {
        self.say("Storage.StartExchange", "{}");
        self.say("Storage.SetStorage", r#"{"storage":{"unit1":{"added":4},"unit2":{"added":6},"unit3":{"added":4}}}"#);
        self.say("Storage.EndExchange", "{}");
    }
}

pub fn play(machine: &mut Machine<MemoryJournal>, rounds: u64) -> String {
    machine.connect(CLIENT, true);
    let mut load = Load { machine, asked: 0, nonce: None, failed: false };
    let (mut refused, mut presented) = (0, 0);
    for i in 0..rounds {
        load.failed = false;
        load.withdraw(10 * (1 + 7 * i % 8));
        refused += u64::from(load.failed);
        presented += worth(&load.machine.take(), "EUR");
        if (i + 1) % 8 == 0 {
            load.refill();
        }
    }
    format!("rounds {rounds} presented EUR {presented} refused {refused} records {}", load.machine.journal.records())
}
