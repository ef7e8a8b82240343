//! Commands, as a client says them.

use crate::json::{Members, Value, parse};
use crate::machine::{Counts, NONE};
use crate::token::are_digits;

/// The notes of a dispense: counts, None where a name is that of no unit; or so much of a currency in as few as can be.
pub enum Notes {
    Counted(Option<Counts>),
    Least { currency: String, amount: u64 },
}

/// What a command asks, of which Status alone is answered at once. The counts are None where a name is that of no unit.
pub enum Ask {
    Status,
    Issue,
    Dispense { notes: Notes, token: Option<String> },
    Present,
    StartExchange,
    SetStorage { added: Option<Counts> },
    EndExchange,
    Bad,
}

/// Two parts joined by a point, each a letter A to Z and at most 63 letters or digits.
fn is_name(text: &str) -> bool {
    let is_part = |part: &[u8]| part.len() <= 64 && part[..1].iter().all(u8::is_ascii_uppercase) && part.iter().all(u8::is_ascii_alphanumeric);
    text.split_once('.').is_some_and(|(a, b)| !a.is_empty() && !b.is_empty() && is_part(a.as_bytes()) && is_part(b.as_bytes()))
}

/// The name, the request id and the payload of a command; else the id that a refusal tells.
pub fn read_command(text: &[u8]) -> Result<(String, u64, Value), Option<u64>> {
    let message = if text.len() <= 65_536 { parse(text) } else { None };
    let message = message.ok_or(None)?;
    let header = message.get("header").filter(|header| header.members().is_some()).ok_or(None)?;
    let id = header.get("requestId").and_then(|id| id.whole(0, u64::MAX));
    let refused = id.filter(|id| (1..=2_147_483_647).contains(id));
    let is_kind = header.get("type").and_then(Value::text) == Some("command");
    let name = header.get("name").and_then(Value::text).filter(|name| is_name(name)).map(str::to_string);
    let is_timed = header.get("timeout").is_none_or(|timeout| timeout.whole(0, 2_147_483_647).is_some());
    let is_version = |text: &str| text.split_once('.').is_some_and(|(major, minor)| are_digits(major, 9) && are_digits(minor, 9));
    let is_versed = header.get("version").is_none_or(|version| version.text().is_some_and(is_version));
    let (true, Some(name), Some(id), true, true) = (is_kind, name, id, is_timed, is_versed) else { return Err(refused) };
    let Value::Object(mut members) = message else { return Err(None) };
    match members.iter().position(|(key, _)| key == "payload").map(|at| members.swap_remove(at).1) {
        None | Some(Value::Null) => Ok((name, id, Value::Object(Vec::new()))),
        Some(payload @ Value::Object(_)) => Ok((name, id, payload)),
        Some(_) => Err(refused),
    }
}

/// Counts by the names of units, None where a name is another.
fn read_counts(members: &Members, count_of: impl Fn(&Value) -> Option<u64>) -> Option<Option<Counts>> {
    let (mut counts, mut are_units) = (NONE, true);
    for (name, value) in members {
        let count = count_of(value)? as u32;
        match name.strip_prefix("unit").map(str::as_bytes) {
            Some([digit @ b'1'..=b'8']) => counts[usize::from(digit - b'1')] = count,
            _ => are_units = false,
        }
    }
    Some(are_units.then_some(counts))
}

/// What a command asks of the dispenser, or None where it has none of this name here.
pub fn read_ask(name: &str, payload: &Value) -> Option<Ask> {
    Some(match name {
        "Common.Status" => Ask::Status,
        "Common.GetCommandNonce" => Ask::Issue,
        "CashDispenser.Dispense" => read_dispense(payload).unwrap_or(Ask::Bad),
        "CashDispenser.Present" => Ask::Present,
        "Storage.StartExchange" => Ask::StartExchange,
        "Storage.SetStorage" => read_storage(payload).unwrap_or(Ask::Bad),
        "Storage.EndExchange" => Ask::EndExchange,
        _ => return None,
    })
}

fn read_dispense(payload: &Value) -> Option<Ask> {
    let denomination = payload.get("denomination").filter(|denomination| denomination.members().is_some())?;
    let notes = match payload.get("mix")?.text()? {
        "individual" => Notes::Counted(match denomination.get("values") {
            Some(values) => read_counts(values.members()?, |count| count.whole(0, 1_000_000))?,
            None => Some(NONE),
        }),
        "minimum" => read_least(denomination)?,
        _ => return None,
    };
    let token = match payload.get("token") {
        Some(token) => Some(token.text()?.to_string()),
        None => None,
    };
    Some(Ask::Dispense { notes, token })
}

fn read_least(denomination: &Value) -> Option<Notes> {
    let [(currency, amount)] = &denomination.get("currencies")?.members()?[..] else { return None };
    let is_currency = currency.len() == 3 && currency.bytes().all(|byte| byte.is_ascii_uppercase());
    let amount = amount.whole(1, 1_000_000).filter(|_| is_currency)?;
    Some(Notes::Least { currency: currency.clone(), amount })
}

fn read_storage(payload: &Value) -> Option<Ask> {
    let units = payload.get("storage")?.members().filter(|units| !units.is_empty())?;
    let added = read_counts(units, |unit| unit.get("added")?.whole(1, 10_000))?;
    Some(Ask::SetStorage { added })
}
