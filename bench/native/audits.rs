//! What `xfs audit` does, natively: the records of a journal and the entries of a mechanism's list, as lines, and the verdict on them. Only
//! for `audits`.

#[path = "replay/hashes.rs"]
#[allow(dead_code)]
mod hashes;
#[path = "replay/token.rs"]
#[allow(dead_code)]
mod token;

use std::io::{self, BufRead, Write};
use std::process::ExitCode;

const KEY: [u8; 32] = [0x0b; 32];
const UNITS: [(&str, u64); 4] = [("EUR", 10), ("EUR", 20), ("EUR", 50), ("USD", 20)];

type Counts = [u32; 8];
type Places = [Counts; 6];

#[derive(Clone, Copy, PartialEq)]
enum Kind {
    Stack,
    Present,
    Reject,
    Retract,
}

enum Record {
    Issue { number: u64, word: u64 },
    Clear,
    Expire,
    Start { issues: u64 },
    Boot,
    Bind { token: Box<[u8]> },
    Order { kind: Kind, counts: Counts },
    Done { moved: Counts, diverted: Counts },
    Load,
}

enum Entry {
    Moved { number: u64, kind: Kind, moved: Counts, diverted: Counts },
    Taken { counts: Counts },
    Loaded { unit: usize, count: u32 },
}

fn digit(byte: u8) -> Option<u8> {
    match byte {
        b'0'..=b'9' => Some(byte - b'0'),
        b'A'..=b'F' => Some(byte - b'A' + 10),
        b'a'..=b'f' => Some(byte - b'a' + 10),
        _ => None,
    }
}

/// The bytes of two digits each.
fn bytes_of(text: &str, into: &mut Vec<u8>) -> Option<()> {
    into.clear();
    if text.len() % 2 != 0 {
        return None;
    }
    for pair in text.as_bytes().chunks_exact(2) {
        into.push(digit(pair[0])? << 4 | digit(pair[1])?);
    }
    Some(())
}

fn long(bytes: &[u8]) -> Option<u64> {
    Some(u64::from_be_bytes(bytes.try_into().ok()?))
}

fn eight(bytes: &[u8]) -> Option<Counts> {
    let mut counts = [0; 8];
    if bytes.len() != 32 {
        return None;
    }
    for (count, bytes) in counts.iter_mut().zip(bytes.chunks_exact(4)) {
        *count = u32::from_be_bytes([bytes[0], bytes[1], bytes[2], bytes[3]]);
    }
    Some(counts)
}

/// A record, by its body (docs/JOURNAL.md).
fn record_of(body: &[u8]) -> Option<Record> {
    let (first, rest) = body.split_first()?;
    match (first, rest.len()) {
        (b'I', 16) => Some(Record::Issue { number: long(&rest[..8])?, word: long(&rest[8..])? }),
        (b'C', 0) => Some(Record::Clear),
        (b'E', 0) => Some(Record::Expire),
        (b'K', 200) => Some(Record::Start { issues: long(&rest[..8])? }),
        (b'B', 192) => Some(Record::Boot),
        (b'T', 1..=1024) => Some(Record::Bind { token: rest.into() }),
        (b'O', 33) => {
            let kind = [Kind::Stack, Kind::Present, Kind::Reject, Kind::Retract].get(usize::from(rest[0]).checked_sub(1)?)?;
            Some(Record::Order { kind: *kind, counts: eight(&rest[1..])? })
        }
        (b'D', 64) => Some(Record::Done { moved: eight(&rest[..32])?, diverted: eight(&rest[32..])? }),
        (b'L', 5) if (1..=8).contains(&rest[0]) => Some(Record::Load),
        _ => None,
    }
}

/// A whole number without leading zeros.
fn number(text: &str) -> Option<u64> {
    let is_one = text == "0" || !text.starts_with('0') && text.bytes().all(|byte| byte.is_ascii_digit());
    text.parse().ok().filter(|_| is_one)
}

fn unit(text: &str) -> Option<usize> {
    let unit = text.strip_prefix("unit")?;
    matches!(unit.as_bytes(), [b'1'..=b'8']).then(|| usize::from(unit.as_bytes()[0] - b'1'))
}

fn count(text: &str) -> Option<u32> {
    number(text).filter(|count| *count <= 1_000_000).map(|count| count as u32)
}

fn counts(text: &str) -> Option<Counts> {
    let mut counts = [0; 8];
    if text == "none" {
        return Some(counts);
    }
    let mut next = 0;
    for part in text.split(',') {
        let (name, text) = part.split_once(':')?;
        let place = unit(name).filter(|place| *place >= next)?;
        counts[place] = count(text)?;
        next = place + 1;
    }
    Some(counts)
}

fn places<'a>(mut fields: impl Iterator<Item = &'a str>) -> Option<Places> {
    let mut places = [[0; 8]; 6];
    for place in &mut places {
        *place = counts(fields.next()?)?;
    }
    fields.next().is_none().then_some(places)
}

#[derive(Default)]
struct Handed {
    records: Vec<Record>,
    entries: Vec<Entry>,
    from: Places,
    to: Places,
    body: Vec<u8>,
}

impl Handed {
    fn take(&mut self, line: &str) -> Option<()> {
        if line.is_empty() || line.starts_with('#') {
            return Some(());
        }
        let mut fields = line.split(' ');
        match fields.next()? {
            "record" => {
                bytes_of(fields.next()?, &mut self.body)?;
                self.records.push(record_of(&self.body)?);
            }
            "moved" => {
                let number = number(fields.next()?)?;
                let kind = match fields.next()? {
                    "stack" => Kind::Stack,
                    "present" => Kind::Present,
                    "reject" => Kind::Reject,
                    "retract" => Kind::Retract,
                    _ => return None,
                };
                self.entries.push(Entry::Moved { number, kind, moved: counts(fields.next()?)?, diverted: counts(fields.next()?)? });
            }
            "taken" => self.entries.push(Entry::Taken { counts: counts(fields.next()?)? }),
            "loaded" => self.entries.push(Entry::Loaded { unit: unit(fields.next()?)?, count: count(fields.next()?)? }),
            "from" => {
                self.from = places(fields)?;
                return Some(());
            }
            "to" => {
                self.to = places(fields)?;
                return Some(());
            }
            _ => return None,
        }
        fields.next().is_none().then_some(())
    }

    /// The record of a number, which counts from 1.
    fn record(&self, number: u64) -> Option<&Record> {
        self.records.get(usize::try_from(number).ok()?.checked_sub(1)?)
    }

    fn agrees(&self) -> bool {
        let (mut last, mut told) = (0, self.entries.iter().filter_map(moved_of).peekable());
        for (number, kind, moved, diverted) in self.entries.iter().filter_map(moved_of) {
            let Some(Record::Order { kind: asked, counts }) = self.record(number) else {
                return false;
            };
            let lies_within = |u: usize| u64::from(moved[u]) + u64::from(diverted[u]) <= u64::from(counts[u]);
            if number <= last || *asked != kind || !(0..8).all(lies_within) {
                return false;
            }
            last = number;
        }
        let mut order = None;
        for (at, record) in (1..).zip(&self.records) {
            match (record, order.take()) {
                (Record::Done { moved, diverted }, Some(kind)) => {
                    while told.next_if(|entry| entry.0 + 1 < at).is_some() {}
                    if told.peek() != Some(&(at - 1, kind, moved, diverted)) {
                        return false;
                    }
                }
                (Record::Done { .. }, None) => return false,
                (Record::Boot | Record::Start { .. }, _) => {}
                (_, Some(_)) => return false,
                (Record::Order { kind, .. }, None) => order = Some(*kind),
                _ => {}
            }
        }
        true
    }

    fn is_numbered(&self) -> bool {
        let mut issued = 0;
        for record in &self.records {
            match record {
                Record::Issue { number, .. } => {
                    issued += 1;
                    if *number != issued {
                        return false;
                    }
                }
                Record::Start { issues } if *issues != issued => return false,
                _ => {}
            }
        }
        true
    }

    fn is_within(&self, key: &hashes::Key) -> bool {
        let (mut read, mut live) = (0, None);
        let mut claim: Option<(usize, token::Amounts, [u64; 4])> = None;
        for entry in &self.entries {
            let Entry::Moved { number, kind: Kind::Present, moved, .. } = entry else { continue };
            for record in &self.records[read..*number as usize - 1] {
                read += 1;
                match record {
                    Record::Issue { .. } => live = Some(read),
                    Record::Clear | Record::Expire | Record::Start { .. } | Record::Boot => live = None,
                    _ => {}
                }
            }
            let Some(issue) = live else { return false };
            if claim.as_ref().is_none_or(|claim| claim.0 != issue) {
                let Some(amounts) = self.amounts(key, issue) else { return false };
                claim = Some((issue, amounts, [0; 4]));
            }
            let (_, amounts, shown) = claim.as_mut().expect("it was made");
            for (i, (currency, _)) in UNITS.iter().enumerate() {
                shown[i] += UNITS.iter().zip(moved).filter(|(unit, _)| unit.0 == *currency).map(|(unit, count)| 1000 * unit.1 * u64::from(*count)).sum::<u64>();
                let allowed = amounts.iter().find(|amount| amount.0 == *currency).map_or(0, |amount| amount.1);
                if shown[i] > allowed {
                    return false;
                }
            }
        }
        true
    }

    /// The amounts of the first token that was bound while an issue lived, where it is one for its nonce.
    fn amounts(&self, key: &hashes::Key, issue: usize) -> Option<token::Amounts> {
        let Record::Issue { number, word } = self.records[issue - 1] else { return None };
        for record in &self.records[issue..] {
            match record {
                Record::Bind { token } => {
                    let text = std::str::from_utf8(token).ok()?;
                    let read = token::read_token(text).ok()?;
                    let is_genuine = read.nonce == format!("{word:016X}{number:016X}")
                        && read.mac == token::upper_hex(&key.mac(&token[..token.len() - ",HMACSHA256=".len() - 64]));
                    return if is_genuine { Some(token::amounts_of(&read).unwrap_or_default()) } else { None };
                }
                Record::Issue { .. } | Record::Clear | Record::Expire | Record::Start { .. } | Record::Boot => return None,
                _ => {}
            }
        }
        None
    }

    fn leads_to(&self) -> bool {
        let mut sums = self.from.map(|counts| counts.map(i128::from));
        for entry in &self.entries {
            match entry {
                Entry::Moved { kind, moved, diverted, .. } => {
                    let (from, to) = match kind {
                        Kind::Stack => (0, 1),
                        Kind::Present => (1, 2),
                        Kind::Reject => (1, 5),
                        Kind::Retract => (2, 4),
                    };
                    for u in 0..8 {
                        sums[from][u] -= i128::from(moved[u]) + i128::from(diverted[u]);
                        sums[to][u] += i128::from(moved[u]);
                        sums[5][u] += i128::from(diverted[u]);
                    }
                }
                Entry::Taken { counts } => {
                    for u in 0..8 {
                        sums[2][u] -= i128::from(counts[u]);
                        sums[3][u] += i128::from(counts[u]);
                    }
                }
                Entry::Loaded { unit, count } => sums[0][*unit] += i128::from(*count),
            }
        }
        sums == self.to.map(|counts| counts.map(i128::from))
    }

    fn verdict(&self) -> &'static str {
        if !self.agrees() {
            "broken agrees"
        } else if !self.is_numbered() {
            "broken numbered"
        } else if !self.is_within(&hashes::Key::new(&KEY)) {
            "broken within"
        } else if !self.leads_to() {
            "broken places"
        } else {
            "clean"
        }
    }
}

fn moved_of(entry: &Entry) -> Option<(u64, Kind, &Counts, &Counts)> {
    match entry {
        Entry::Moved { number, kind, moved, diverted } => Some((*number, *kind, moved, diverted)),
        _ => None,
    }
}

fn main() -> io::Result<ExitCode> {
    let (mut input, mut output) = (io::BufReader::with_capacity(65_536, io::stdin().lock()), io::stdout().lock());
    let (mut handed, mut line, mut number) = (Handed::default(), String::new(), 0);
    while input.read_line(&mut line)? > 0 {
        number += 1;
        if handed.take(line.trim_end_matches('\n')).is_none() {
            writeln!(output, "line {number}: not a script line")?;
            return Ok(ExitCode::from(4));
        }
        line.clear();
    }
    writeln!(output, "{}", handed.verdict())?;
    Ok(ExitCode::SUCCESS)
}
