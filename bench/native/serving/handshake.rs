//! The handshake, with the sample key of RFC 6455, section 1.3.

use std::io::{Error, ErrorKind, Read, Result, Write};
use std::net::TcpStream;

const REQUEST: &str = "GET /xfs4iot/v1.0/cashdispenser HTTP/1.1\r\nHost: 127.0.0.1\r\nUpgrade: websocket\r\nConnection: Upgrade\r\nSec-WebSocket-Key: dGhlIHNhbXBsZSBub25jZQ==\r\nSec-WebSocket-Version: 13\r\n\r\n";
const REPLY: &str = "HTTP/1.1 101 Switching Protocols\r\nConnection: Upgrade\r\nUpgrade: websocket\r\nSec-WebSocket-Accept: s3pPLMBiTxaQ9kYGzzhZRbK+xOo=\r\n\r\n";
const KEY: &str = "dGhlIHNhbXBsZSBub25jZQ==";
const ACCEPT: &str = "s3pPLMBiTxaQ9kYGzzhZRbK+xOo=";
const LONGEST: usize = 4_096;

/// The bytes up to the blank line that ends a head, which must have this word in it.
fn expect_head(stream: &mut TcpStream, word: &str) -> Result<()> {
    let mut bytes = Vec::new();
    let mut byte = [0u8];
    while !bytes.ends_with(b"\r\n\r\n") && bytes.len() < LONGEST {
        stream.read_exact(&mut byte)?;
        bytes.push(byte[0]);
    }
    if String::from_utf8_lossy(&bytes).contains(word) { Ok(()) } else { Err(Error::from(ErrorKind::InvalidData)) }
}

pub fn accept(stream: &mut TcpStream) -> Result<()> {
    expect_head(stream, KEY)?;
    stream.write_all(REPLY.as_bytes())
}

pub fn dial(stream: &mut TcpStream) -> Result<()> {
    stream.write_all(REQUEST.as_bytes())?;
    expect_head(stream, ACCEPT)
}
