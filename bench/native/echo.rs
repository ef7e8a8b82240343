//! `echo serve`: a native server that answers each text with itself, with the turns of the proved one; `echo ask PORT TEXTS` times
//! a connection on which so many texts of 200 bytes are asked, one behind the other. Over std alone, so the handshake is the
//! sample of RFC 6455, section 1.3. The script `bench/echo` builds and runs it.
#[path = "serving/handshake.rs"]
mod handshake;
#[path = "serving/link.rs"]
mod link;

use crate::handshake::dial;
use crate::link::Link;
use std::io::{Error, ErrorKind, Read, Result, Write};
use std::net::{TcpListener, TcpStream};
use std::time::{Duration, Instant};

fn serve() -> Result<()> {
    let listener = TcpListener::bind(("127.0.0.1", 0))?;
    println!("{}", listener.local_addr()?.port());
    let (stream, _) = listener.accept()?;
    let mut link = Link::open(stream)?;
    let mut answered = 0u64;
    while let Ok(taken) = link.take() {
        if let Some(text) = taken {
            link.give(&text);
            answered += 1;
        }
    }
    println!("{answered} answered");
    Ok(())
}

/// Asks, and prints how many seconds it took; where there is nothing to ask it stays quiet for ten.
fn ask(port: u16, texts: u32) -> Result<()> {
    let mut stream = TcpStream::connect(("127.0.0.1", port))?;
    stream.set_nodelay(true)?;
    stream.set_read_timeout(Some(Duration::from_secs(10)))?;
    dial(&mut stream)?;
    let mut asked = vec![0x81, 0xfe, 0, 200, 0x37, 0xfa, 0x21, 0x3d];
    let key = [0x37, 0xfa, 0x21, 0x3d];
    asked.extend((0..200).map(|k| b'a' ^ key[k % 4]));
    let mut answer = [0u8; 204];
    let began = Instant::now();
    for _ in 0..texts {
        stream.write_all(&asked)?;
        stream.read_exact(&mut answer)?;
        if answer[..4] != [0x81, 126, 0, 200] || answer[4..] != [b'a'; 200] {
            return Err(Error::from(ErrorKind::InvalidData));
        }
    }
    if texts == 0 {
        std::thread::sleep(Duration::from_secs(10));
    }
    println!("{}", began.elapsed().as_secs_f64());
    Ok(())
}

fn main() -> Result<()> {
    let words: Vec<String> = std::env::args().skip(1).collect();
    match words.iter().map(String::as_str).collect::<Vec<_>>()[..] {
        ["serve"] => serve(),
        ["ask", port, texts] => ask(port.parse().map_err(Error::other)?, texts.parse().map_err(Error::other)?),
        _ => Err(Error::from(ErrorKind::InvalidInput)),
    }
}
