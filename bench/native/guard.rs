//! A native peer of `xfs guard` for the lines that the script `bench/lines` makes: `issue`, `clear`, `mint`, `dispense`,
//! `present`, `reject`, `take`, `fill` and `show`. Written from the pages of `docs` over std alone, it does the same work and writes the same
//! bytes; beside the journal's bytes it keeps the records and the mechanism's list, which the library tells by calls. The script builds it,
//! compares the outputs and times both.
#[path = "replay/hashes.rs"]
mod hashes;
#[path = "guard/journal.rs"]
mod journal;
#[path = "guard/ledger.rs"]
mod ledger;
#[path = "replay/token.rs"]
mod token;

use journal::{Counts, NONE, PLACES};
use ledger::{Guard, Refusal, UNITS};
use std::io::{self, BufRead, Write};
use std::process::ExitCode;
use token::{Amounts, mint, read_amount};

/// A guard, and the last token that was minted for it.
struct Script {
    guard: Guard,
    minted: String,
}

/// Counts by the names of units, which rise.
fn read_counts(text: &str) -> Option<Counts> {
    let mut counts = NONE;
    for field in text.split(',') {
        let (unit, count) = field.strip_prefix("unit")?.split_once(':')?;
        let unit: usize = unit.parse().ok().filter(|unit| (1..=8).contains(unit))?;
        counts[unit - 1] = count.parse().ok().filter(|count| *count <= 1_000_000)?;
    }
    Some(counts)
}

/// Writes the units that have notes.
fn write_counts(out: &mut Vec<u8>, counts: &Counts) -> io::Result<()> {
    let mut separator = "";
    for (unit, count) in counts.iter().enumerate().filter(|(_, count)| **count != 0) {
        write!(out, "{separator}unit{}:{count}", unit + 1)?;
        separator = ",";
    }
    writeln!(out, "{}", if separator.is_empty() { "none" } else { "" })
}

/// Writes what moved, or why nothing did.
fn write_moved(out: &mut Vec<u8>, moved: Result<Counts, Refusal>) -> io::Result<()> {
    match moved {
        Ok(counts) => {
            out.extend_from_slice(b"moved ");
            write_counts(out, &counts)
        }
        Err(refusal) => writeln!(out, "refused {refusal}"),
    }
}

impl Script {
    /// Answers a line. None where it is no script line.
    fn answer(&mut self, line: &str, out: &mut Vec<u8>) -> Option<()> {
        let (verb, rest) = line.split_once(' ').unwrap_or((line, ""));
        match (verb, rest) {
            ("issue", "") => match self.guard.issue() {
                Ok(nonce) => writeln!(out, "nonce {nonce}"),
                Err(refusal) => writeln!(out, "refused {refusal}"),
            },
            ("clear", "") => match self.guard.clear() {
                Ok(lived) => writeln!(out, "{}", if lived { "cleared" } else { "nothing to clear" }),
                Err(refusal) => writeln!(out, "refused {refusal}"),
            },
            ("mint", amounts) => {
                let amounts = amounts.split(',').map(read_amount).collect::<Option<Amounts>>()?;
                self.minted = self.guard.live().map_or(String::new(), |nonce| mint(self.guard.key(), nonce, &amounts));
                writeln!(out, "token {}", if self.minted.is_empty() { "none" } else { &self.minted })
            }
            ("dispense", rest) => {
                let (token, counts) = rest.split_once(' ')?;
                let token = if token == "@" { &self.minted } else { token };
                write_moved(out, self.guard.dispense(token, &read_counts(counts)?))
            }
            ("present", "") => write_moved(out, self.guard.present()),
            ("reject", "") => write_moved(out, self.guard.reject()),
            ("take", "") => {
                out.extend_from_slice(b"taken ");
                write_counts(out, &self.guard.take())
            }
            ("fill", rest) => {
                let (unit, count) = rest.strip_prefix("unit")?.split_once(' ')?;
                match self.guard.fill(unit.parse().ok()?, count.parse().ok()?) {
                    Ok(()) => writeln!(out, "filled"),
                    Err(refusal) => writeln!(out, "refused {refusal}"),
                }
            }
            ("show", "") => self.show(out),
            _ if line.is_empty() || line.starts_with('#') => Ok(()),
            _ => return None,
        }
        .ok()
    }

    fn show(&self, out: &mut Vec<u8>) -> io::Result<()> {
        for unit in 0..UNITS.len() {
            write!(out, "unit{}", unit + 1)?;
            (0..PLACES).try_for_each(|place| write!(out, " {}", self.guard.places()[place][unit]))?;
            out.push(b'\n');
        }
        Ok(())
    }
}

/// Answers each line before the next one is read.
fn main() -> io::Result<ExitCode> {
    let (mut input, mut output) = (io::BufReader::with_capacity(65_536, io::stdin().lock()), io::stdout().lock());
    let mut script = Script { guard: Guard::boot(), minted: String::new() };
    let (mut line, mut answer, mut number) = (Vec::new(), Vec::new(), 0);
    while input.read_until(b'\n', &mut line)? > 0 {
        number += 1;
        let text = line.strip_suffix(b"\n").unwrap_or(&line);
        let text = text.strip_suffix(b"\r").unwrap_or(text);
        let text = std::str::from_utf8(text).ok().filter(|text| text.len() <= 70_000);
        if text.and_then(|text| script.answer(text, &mut answer)).is_none() {
            writeln!(output, "line {number}: not a script line")?;
            return Ok(ExitCode::from(4));
        }
        output.write_all(&answer)?;
        line.clear();
        answer.clear();
    }
    Ok(ExitCode::SUCCESS)
}
