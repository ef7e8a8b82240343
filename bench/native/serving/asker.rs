//! The clients.

use crate::handshake::dial;
use crate::hashes::Key;
use crate::token::mint;
use std::io::{BufReader, Error, ErrorKind, Read, Result, Write};
use std::net::TcpStream;
use std::thread;
use std::time::{Duration, Instant};

const MASK: [u8; 4] = [0x37, 0xfa, 0x21, 0x3d];
const LONGEST: Duration = Duration::from_secs(10);
// A server that starts is tried so many times, and a Present while notes lie in the outlet.
const TRIES: u32 = 500;
const TRY: Duration = Duration::from_millis(20);
const LOOK: Duration = Duration::from_millis(1);
// Between two withdrawals, and not counted: the worker of the outlet looks each millisecond whether notes are to be taken.
const TAKEN: Duration = Duration::from_millis(5);

const STATUS: &str = r#"{"header":{"name":"Common.Status","requestId":1,"type":"command","version":"2.0"},"payload":{}}"#;
const TOLD: [&str; 2] = [
    r#"{"header":{"name":"Common.Status","requestId":1,"type":"acknowledge","version":"2.0"}}"#,
    r#"{"header":{"completionCode":"success","name":"Common.Status","requestId":1,"type":"completion","version":"2.0"},"payload":{"common":{"device":"online"}}}"#,
];
// One note each, of which the machine has 100.
const AMOUNTS: [(&str, u64); 4] = [("EUR", 10), ("EUR", 20), ("EUR", 50), ("USD", 20)];

fn bad(told: &str) -> Error {
    Error::new(ErrorKind::InvalidData, told)
}

fn reach(port: u16) -> Result<TcpStream> {
    for _ in 1..TRIES {
        match TcpStream::connect(("127.0.0.1", port)) {
            Ok(stream) => return Ok(stream),
            Err(_) => thread::sleep(TRY),
        }
    }
    TcpStream::connect(("127.0.0.1", port))
}

/// A connection, once its handshake is done.
fn connect(port: u16) -> Result<TcpStream> {
    let mut stream = reach(port)?;
    stream.set_nodelay(true)?;
    stream.set_read_timeout(Some(LONGEST))?;
    dial(&mut stream)?;
    Ok(stream)
}

fn connect_all(port: u16, clients: u32) -> Result<Vec<TcpStream>> {
    (0..clients).map(|_| connect(port)).collect()
}

/// The first bytes of the frame of a text below 65,536 bytes.
fn head(length: usize, mask: u8) -> Vec<u8> {
    match length {
        short @ 0..=125 => vec![0x81, mask | short as u8],
        long => {
            let [high, low] = (long as u16).to_be_bytes();
            vec![0x81, mask | 126, high, low]
        }
    }
}

/// The frame that a client sends.
fn masked(text: &str) -> Vec<u8> {
    let mut frame = head(text.len(), 0x80);
    frame.extend_from_slice(&MASK);
    frame.extend(text.bytes().enumerate().map(|(i, byte)| byte ^ MASK[i % 4]));
    frame
}

/// The frame that a server sends.
fn plain(text: &str) -> Vec<u8> {
    let mut frame = head(text.len(), 0);
    frame.extend_from_slice(text.as_bytes());
    frame
}

/// Asks Common.Status so many times, one behind the other, and tells what each took.
fn ask_status(mut stream: TcpStream, texts: u32) -> Result<Vec<Duration>> {
    let asked = masked(STATUS);
    let due = TOLD.map(plain).concat();
    let mut told = vec![0; due.len()];
    let mut spent = Vec::with_capacity(texts as usize);
    for _ in 0..texts {
        let began = Instant::now();
        stream.write_all(&asked)?;
        stream.read_exact(&mut told)?;
        spent.push(began.elapsed());
        if told != due {
            return Err(bad("another status"));
        }
    }
    Ok(spent)
}

/// What such a part of them took at most.
fn part(spent: &mut [Duration], hundredths: usize) -> f64 {
    spent.sort();
    spent[(spent.len() * hundredths / 100).min(spent.len() - 1)].as_secs_f64()
}

pub fn ask(port: u16, clients: u32, texts: u32) -> Result<()> {
    let streams = connect_all(port, clients)?;
    let began = Instant::now();
    let spent = thread::scope(|scope| {
        let asking: Vec<_> = streams.into_iter().map(|stream| scope.spawn(move || ask_status(stream, texts))).collect();
        asking.into_iter().map(|client| client.join().expect("a client has failed")).collect::<Result<Vec<_>>>()
    })?;
    let clock = began.elapsed().as_secs_f64();
    println!("{clock} {}", part(&mut spent.concat(), 99));
    Ok(())
}

pub fn idle(port: u16, clients: u32, seconds: u64) -> Result<()> {
    let _streams = connect_all(port, clients)?;
    println!("open");
    thread::sleep(Duration::from_secs(seconds));
    Ok(())
}

/// A client that withdraws.
struct Client {
    stream: BufReader<TcpStream>,
    asked: u32,
}

impl Client {
    fn hear(&mut self) -> Result<String> {
        let mut head = [0; 2];
        self.stream.read_exact(&mut head)?;
        let mut length = usize::from(head[1]);
        if length == 126 {
            self.stream.read_exact(&mut head)?;
            length = usize::from(u16::from_be_bytes(head));
        }
        let mut text = vec![0; length];
        self.stream.read_exact(&mut text)?;
        String::from_utf8(text).map_err(|_| bad("no text"))
    }

    /// Asks something, and hears up to its completion, which must be a success.
    fn ask(&mut self, name: &str, payload: &str) -> Result<String> {
        self.asked += 1;
        let text = format!(r#"{{"header":{{"name":"{name}","requestId":{},"type":"command","version":"2.0"}},"payload":{payload}}}"#, self.asked);
        self.stream.get_ref().write_all(&masked(&text))?;
        let (acknowledge, completion) = (self.hear()?, self.hear()?);
        let is_done = acknowledge.contains("acknowledge") && !acknowledge.contains("status") && completion.contains(r#""completionCode":"success""#);
        if is_done { Ok(completion) } else { Err(bad(&format!("{acknowledge} {completion}"))) }
    }

    fn withdraw(&mut self, key: &Key, (currency, amount): (&str, u64)) -> Result<()> {
        let told = self.ask("Common.GetCommandNonce", "{}")?;
        let nonce = told.split(r#""commandNonce":""#).nth(1).and_then(|rest| rest.get(..32)).ok_or_else(|| bad("no nonce"))?;
        let token = mint(key, nonce, &vec![(currency.to_string(), 1000 * amount)]);
        let denomination = format!(r#"{{"currencies":{{"{currency}":{amount}}}}}"#);
        self.ask("CashDispenser.Dispense", &format!(r#"{{"denomination":{denomination},"mix":"minimum","token":"{token}"}}"#))?;
        self.present()
    }

    /// Has the notes presented, once those of the withdrawal before are taken.
    fn present(&mut self) -> Result<()> {
        for _ in 1..TRIES {
            match self.ask("CashDispenser.Present", "{}") {
                Err(error) if error.to_string().contains("sequenceError") => thread::sleep(LOOK),
                done => return done.map(drop),
            }
        }
        self.ask("CashDispenser.Present", "{}").map(drop)
    }
}

pub fn withdraw(port: u16, times: usize) -> Result<()> {
    let mut client = Client { stream: BufReader::new(connect(port)?), asked: 0 };
    let key = Key::new(&[0x0b; 32]);
    let mut spent = Vec::new();
    for i in 0..times {
        let began = Instant::now();
        client.withdraw(&key, AMOUNTS[i % AMOUNTS.len()])?;
        spent.push(began.elapsed());
        thread::sleep(TAKEN);
    }
    let average = spent.iter().sum::<Duration>().as_secs_f64() / times as f64;
    println!("{average} {} {}", part(&mut spent, 50), part(&mut spent, 99));
    Ok(())
}
