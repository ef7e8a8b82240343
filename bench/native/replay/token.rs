//! The dispense token.

use crate::hashes::Key;
use std::fmt::Write;

/// Amounts by currency, in thousandths.
pub type Amounts = Vec<(String, u64)>;

pub fn are_digits(text: &str, most: usize) -> bool {
    (1..=most).contains(&text.len()) && text.bytes().all(|byte| byte.is_ascii_digit())
}

/// An amount as tokens and lines have it.
pub fn read_amount(text: &str) -> Option<(String, u64)> {
    let (number, currency) = text.split_at_checked(text.len().checked_sub(3)?)?;
    let (whole, part) = number.split_once('.').unwrap_or((number, "000"));
    if !are_digits(whole, 9) || !are_digits(part, 3) || !currency.bytes().all(|byte| byte.is_ascii_uppercase()) {
        return None;
    }
    let thousandths = part.parse::<u64>().ok()? * [100, 10, 1][part.len() - 1];
    Some((currency.to_string(), whole.parse::<u64>().ok()? * 1000 + thousandths))
}

pub fn upper_hex(bytes: &[u8]) -> String {
    let digit = |half: u8| char::from(b"0123456789ABCDEF"[usize::from(half)]);
    bytes.iter().flat_map(|byte| [digit(byte >> 4), digit(byte & 15)]).collect()
}

fn is_hex(text: &str) -> bool {
    text.bytes().all(|byte| matches!(byte, b'0'..=b'9' | b'A'..=b'F'))
}

/// A genuine token for a nonce.
pub fn mint(key: &Key, nonce: &str, amounts: &Amounts) -> String {
    let mut pairs = String::new();
    for (i, (currency, amount)) in amounts.iter().enumerate() {
        let decimals = format!("{:03}", amount % 1000);
        let decimals = decimals.strip_suffix('0').unwrap_or(&decimals);
        write!(pairs, ",DISPENSE{}={}.{decimals}{currency}", i + 1, amount / 1000).expect("a string takes all");
    }
    let covered = format!("NONCE={nonce},TOKENFORMAT=1,TOKENLENGTH={:04}{pairs}", nonce.len() + pairs.len() + 113);
    let mac = upper_hex(&key.mac(covered.as_bytes()));
    format!("{covered},HMACSHA256={mac}")
}

pub struct Token<'a> {
    pub nonce: &'a str,
    pairs: Vec<(&'a str, &'a str)>,
    pub mac: &'a str,
}

/// The parts of a token's text, or the code of its fault.
pub fn read_token(text: &str) -> Result<Token<'_>, &'static str> {
    const FORMAT: &str = "invalidTokenFormat";
    if text.len() > 1024 {
        return Err("notEnoughSpace");
    }
    let (nonce, rest) = text.strip_prefix("NONCE=").and_then(|rest| rest.split_once(',')).ok_or(FORMAT)?;
    let rest = rest.strip_prefix("TOKENFORMAT=1,TOKENLENGTH=").ok_or(FORMAT)?;
    let (length, mut rest) = rest.split_once(',').ok_or(FORMAT)?;
    let is_right = length.len() == 4 && are_digits(length, 4) && length.parse() == Ok(text.len());
    if !is_right || nonce.is_empty() || nonce.len() > 128 || !is_hex(nonce) {
        return Err(FORMAT);
    }
    let mut pairs = Vec::new();
    loop {
        let (key, behind) = rest.split_once('=').ok_or(FORMAT)?;
        if key == "HMACSHA256" {
            let is_mac = behind.len() == 64 && is_hex(behind);
            return if is_mac { Ok(Token { nonce, pairs, mac: behind }) } else { Err(FORMAT) };
        }
        let is_key = (1..=32).contains(&key.len()) && key.bytes().all(|byte| byte.is_ascii_uppercase() || byte.is_ascii_digit());
        let is_taken = ["NONCE", "TOKENFORMAT", "TOKENLENGTH"].contains(&key) || pairs.iter().any(|(other, _)| *other == key);
        if !is_key || is_taken || key.as_bytes()[0].is_ascii_digit() {
            return Err(FORMAT);
        }
        if behind.is_empty() || behind.starts_with(',') {
            return Err("invalidTokenKeyNoValue");
        }
        let (value, after) = behind.split_once(',').ok_or(FORMAT)?;
        if !value.bytes().all(|byte| (b'!'..=b'~').contains(&byte) && byte != b'=') {
            return Err(FORMAT);
        }
        pairs.push((key, value));
        rest = after;
    }
}

/// A token's amounts, or None where it has none.
pub fn amounts_of(token: &Token) -> Option<Amounts> {
    let is_numbered = |key: &str| key.strip_prefix("DISPENSE").is_some_and(|number| matches!(number.as_bytes(), [b'1'..=b'9']));
    let mut amounts = Amounts::new();
    for number in 1..=token.pairs.iter().filter(|pair| is_numbered(pair.0)).count() {
        let key = format!("DISPENSE{number}");
        let amount = read_amount(token.pairs.iter().find(|pair| pair.0 == key)?.1)?;
        if amounts.iter().any(|other| other.0 == amount.0) {
            return None;
        }
        amounts.push(amount);
    }
    if amounts.is_empty() { None } else { Some(amounts) }
}
