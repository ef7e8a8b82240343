//! What `xfs host` does, natively: lines of accounts and of asks, answered with the same bytes. Only for `asks`.

#[path = "replay/hashes.rs"]
#[allow(dead_code)]
mod hashes;
#[path = "replay/token.rs"]
#[allow(dead_code)]
mod token;

use std::collections::{BTreeMap, HashMap};
use std::io::{self, BufRead, Write};
use std::process::ExitCode;

const KEY: [u8; 32] = [0x0b; 32];
const ACCOUNTS: usize = 10_000;
const TRANSACTIONS: usize = 100_000;

struct Account {
    currency: String,
    balance: u64,
}

/// A first ask, as it was said, and how it was answered; the token of one that was paid is made again.
struct First {
    account: u64,
    nonce: String,
    currency: String,
    amount: u64,
    refusal: Option<String>,
}

struct Host {
    key: hashes::Key,
    accounts: BTreeMap<u64, Account>,
    asked: HashMap<u64, First>,
    used: HashMap<String, u64>,
}

/// A whole number without leading zeros.
fn number(text: &str) -> Option<u64> {
    let is_one = text == "0" || !text.starts_with('0') && text.bytes().all(|byte| byte.is_ascii_digit());
    text.parse().ok().filter(|_| is_one)
}

fn nonce(text: &str) -> Option<&str> {
    let is_one = (1..=128).contains(&text.len()) && text.bytes().all(|byte| matches!(byte, b'0'..=b'9' | b'A'..=b'F'));
    is_one.then_some(text)
}

impl Host {
    fn new() -> Host {
        Host { key: hashes::Key::new(&KEY), accounts: BTreeMap::new(), asked: HashMap::new(), used: HashMap::new() }
    }

    fn open(&mut self, account: u64, currency: String, balance: u64) -> &'static str {
        if self.accounts.contains_key(&account) {
            return "known";
        }
        if self.accounts.len() >= ACCOUNTS {
            return "full";
        }
        self.accounts.insert(account, Account { currency, balance });
        "opened"
    }

    fn ask(&mut self, tx: u64, ask: First) -> String {
        let first = match self.asked.get(&tx) {
            Some(first) => {
                let is_same = first.account == ask.account && first.nonce == ask.nonce && first.currency == ask.currency && first.amount == ask.amount;
                if !is_same {
                    return "refused other".to_string();
                }
                first
            }
            None if self.asked.len() >= TRANSACTIONS => return "full".to_string(),
            None => {
                let refusal = self.decide(tx, &ask);
                self.asked.entry(tx).or_insert(First { refusal, ..ask })
            }
        };
        match &first.refusal {
            Some(refusal) => refusal.clone(),
            None => format!("token {}", token::mint(&self.key, &first.nonce, &vec![(first.currency.clone(), first.amount)])),
        }
    }

    fn decide(&mut self, tx: u64, ask: &First) -> Option<String> {
        let Some(account) = self.accounts.get_mut(&ask.account) else {
            return Some("refused account".to_string());
        };
        if account.currency != ask.currency {
            return Some("refused currency".to_string());
        }
        if let Some(user) = self.used.get(&ask.nonce) {
            return Some(format!("refused nonce used {user}"));
        }
        if account.balance < ask.amount {
            return Some(format!("refused balance {}", account.balance));
        }
        account.balance -= ask.amount;
        self.used.insert(ask.nonce.clone(), tx);
        None
    }

    fn answer(&mut self, line: &str) -> Option<String> {
        let fields: Vec<&str> = line.split(' ').collect();
        match fields[..] {
            ["open", account, amount] => {
                let (currency, balance) = token::read_amount(amount)?;
                Some(self.open(number(account)?, currency, balance).to_string())
            }
            ["ask", tx, account, text, amount] => {
                let (currency, amount) = token::read_amount(amount)?;
                let ask = First { account: number(account)?, nonce: nonce(text)?.to_string(), currency, amount, refusal: None };
                Some(self.ask(number(tx)?, ask))
            }
            _ => None,
        }
    }
}

fn main() -> io::Result<ExitCode> {
    let (mut input, mut output) = (io::BufReader::with_capacity(65_536, io::stdin().lock()), io::stdout().lock());
    let (mut host, mut line, mut number) = (Host::new(), String::new(), 0);
    while input.read_line(&mut line)? > 0 {
        number += 1;
        let Some(answer) = host.answer(line.trim_end_matches('\n')) else {
            writeln!(output, "line {number}: not a script line")?;
            return Ok(ExitCode::from(4));
        };
        output.write_all(format!("{answer}\n").as_bytes())?;
        line.clear();
    }
    Ok(ExitCode::SUCCESS)
}
