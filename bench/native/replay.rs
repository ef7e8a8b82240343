//! A native peer of `xfs replay` for the lines that the script `bench/withdrawals` makes: `join`, `say`, `rest`, `mint` and `take`, and
//! at the cash dispenser nonces, dispenses, presents and exchanges; and of `xfs load N` for `bench/load`. Written from the pages of
//! `docs` over std alone, it does the same work and writes the same bytes. The scripts build it, compare the outputs and time both.
#[path = "replay/hashes.rs"]
mod hashes;
#[path = "replay/json.rs"]
mod json;
#[path = "replay/load.rs"]
mod load;
#[path = "replay/machine.rs"]
mod machine;
#[path = "replay/message.rs"]
mod message;
#[path = "replay/token.rs"]
mod token;

use machine::{HEADER, Journal, Machine, frame, listed};
use std::io::{self, BufRead, Write};
use std::process::ExitCode;
use token::{Amounts, mint, read_amount};

/// A journal in memory: there is nothing to sync.
struct MemoryJournal {
    bytes: Vec<u8>,
    records: u64,
}

impl MemoryJournal {
    fn new() -> MemoryJournal {
        MemoryJournal { bytes: HEADER.to_vec(), records: 0 }
    }
}

impl Journal for MemoryJournal {
    /// Writes a record behind the closed gate byte, and then opens it.
    fn append(&mut self, body: &[&[u8]]) {
        let gate = self.bytes.len() - 1;
        frame(&mut self.bytes, body);
        self.bytes[gate] = 1;
        self.records += 1;
    }

    fn records(&self) -> u64 {
        self.records
    }

    fn len(&self) -> u64 {
        self.bytes.len() as u64
    }
}

impl Machine<MemoryJournal> {
    /// Works until nothing is left to do.
    fn rest(&mut self) -> u32 {
        let mut steps = 0;
        while steps < 100_000 && self.work(0) {
            steps += 1;
        }
        steps
    }
}

/// A machine, and the last token that was minted for it.
struct Script {
    machine: Machine<MemoryJournal>,
    minted: String,
}

impl Script {
    /// Answers a line, with the frames that wait. None where it is no script line.
    fn answer(&mut self, line: &str, out: &mut Vec<u8>) -> Option<()> {
        match line.split_once(' ').unwrap_or((line, "")) {
            ("join", rest) => writeln!(out, "{}", self.join(rest)?).ok()?,
            ("say", rest) => {
                let (client, message) = rest.split_once(' ')?;
                let number = client.parse().ok()?;
                if self.machine.clients.iter().any(|client| client.number == number) {
                    self.machine.post(number, message.replace('@', &self.minted).as_bytes());
                } else {
                    writeln!(out, "no client").ok()?;
                }
            }
            ("rest", "") => {
                writeln!(out, "rested {}", self.machine.rest()).ok()?;
            }
            ("mint", amounts) => {
                let amounts = amounts.split(',').map(read_amount).collect::<Option<Amounts>>()?;
                self.minted = self.machine.live.as_ref().map_or(String::new(), |nonce| mint(&self.machine.key, nonce, &amounts));
                writeln!(out, "token {}", if self.minted.is_empty() { "none" } else { &self.minted }).ok()?;
            }
            ("take", "") => {
                let counts = self.machine.take();
                let units = listed(&counts, |unit, count| format!("unit{unit}:{count}"));
                writeln!(out, "taken {}", if units.is_empty() { "none" } else { &units }).ok()?;
            }
            _ if line.is_empty() || line.starts_with('#') => {}
            _ => return None,
        }
        for client in &mut self.machine.clients {
            for frame in client.waiting.drain(..) {
                writeln!(out, "{} {frame}", client.number).ok()?;
            }
        }
        Some(())
    }

    fn join(&mut self, rest: &str) -> Option<String> {
        let number = rest.strip_suffix(" cash")?.parse().ok()?;
        if self.machine.clients.iter().any(|client| client.number == number) {
            return Some("no client".to_string());
        }
        Some(if self.machine.connect(number, true) { format!("joined {number}") } else { "full".to_string() })
    }
}

/// Plays a load where the words say one, else answers lines.
fn main() -> io::Result<ExitCode> {
    match std::env::args().nth(1).and_then(|rounds| rounds.parse().ok()) {
        Some(rounds) => println!("{}", load::play(&mut Machine::boot(MemoryJournal::new(), None), rounds)),
        None => return answer_lines(),
    }
    Ok(ExitCode::SUCCESS)
}

/// Answers each line before the next one is read.
fn answer_lines() -> io::Result<ExitCode> {
    let (mut input, mut output) = (io::BufReader::with_capacity(65_536, io::stdin().lock()), io::stdout().lock());
    let mut script = Script { machine: Machine::boot(MemoryJournal::new(), None), minted: String::new() };
    let (mut line, mut answer, mut number) = (Vec::new(), Vec::new(), 0);
    while input.read_until(b'\n', &mut line)? > 0 {
        number += 1;
        let text = line.strip_suffix(b"\n").unwrap_or(&line);
        let text = text.strip_suffix(b"\r").unwrap_or(text);
        let text = std::str::from_utf8(text).ok().filter(|text| text.len() <= 70_000);
        if text.and_then(|text| script.answer(text, &mut answer)).is_none() {
            writeln!(output, "line {number}: not a script line")?;
            return Ok(ExitCode::from(4));
        }
        output.write_all(&answer)?;
        line.clear();
        answer.clear();
    }
    Ok(ExitCode::SUCCESS)
}
