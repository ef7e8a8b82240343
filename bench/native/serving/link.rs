//! The server's end of a connection.

use crate::handshake::accept;
use std::io::{Error, ErrorKind, Read, Result, Write};
use std::net::TcpStream;
use std::time::Duration;

// The reads of `xfs serve` (crates/xfs_sockets): while an answer is owed, 32 looks of four reads each come back at once.
const LOOKS: u32 = 32;
const READS: u32 = 4;
// How many frames answer a text: its acknowledge and its completion.
const ANSWERS: u32 = 2;
// How long a read waits then, and where no answer is owed, and where so many looks in a row found nothing.
const READ_MILLIS: u64 = 1;
const IDLE_MILLIS: u64 = 48;
const IDLE_LOOKS: u32 = 64;
const LONG_IDLE_MILLIS: u64 = 100;

const READ_BYTES: usize = 16_384;

/// A connection that keeps what came and isn't a whole frame, and whose reads wait where no answer is owed.
pub struct Link {
    stream: TcpStream,
    buffer: Vec<u8>,
    held: Vec<u8>,
    given: Vec<u8>,
    waits: bool,
    pause: u64,
    owed: u32,
    looks: u32,
}

impl Link {
    /// Does the server's part of the handshake, for which the client has two seconds.
    pub fn open(mut stream: TcpStream) -> Result<Link> {
        stream.set_nodelay(true)?;
        stream.set_write_timeout(Some(Duration::from_secs(10)))?;
        stream.set_read_timeout(Some(Duration::from_secs(2)))?;
        accept(&mut stream)?;
        stream.set_read_timeout(Some(Duration::from_millis(IDLE_MILLIS)))?;
        Ok(Link { stream, buffer: vec![0; READ_BYTES], held: Vec::new(), given: Vec::new(), waits: true, pause: IDLE_MILLIS, owed: 0, looks: 0 })
    }

    fn set_waits(&mut self, waits: bool) -> Result<()> {
        if self.waits != waits {
            self.stream.set_nonblocking(!waits)?;
            self.waits = waits;
        }
        Ok(())
    }

    fn set_pause(&mut self, millis: u64) -> Result<()> {
        if self.pause != millis {
            self.stream.set_read_timeout(Some(Duration::from_millis(millis)))?;
            self.pause = millis;
        }
        Ok(())
    }

    fn prepare_read(&mut self) -> Result<()> {
        if self.owed == 0 {
            self.set_pause(if self.looks < IDLE_LOOKS { IDLE_MILLIS } else { LONG_IDLE_MILLIS })?;
        } else if self.looks < LOOKS {
            return self.set_waits(false);
        } else {
            self.set_pause(READ_MILLIS)?;
        }
        self.set_waits(true)
    }

    /// Sends what was given.
    fn send(&mut self) -> Result<()> {
        if self.given.is_empty() {
            return Ok(());
        }
        self.set_waits(true)?;
        self.stream.write_all(&self.given)?;
        self.given.clear();
        Ok(())
    }

    /// The next text, if one has come.
    pub fn take(&mut self) -> Result<Option<Vec<u8>>> {
        self.send()?;
        self.prepare_read()?;
        for _ in 0..if self.waits { 1 } else { READS } {
            if let Some(text) = self.read()? {
                self.owed += ANSWERS;
                self.looks = 0;
                return Ok(Some(text));
            }
        }
        self.looks = self.looks.saturating_add(1);
        Ok(None)
    }

    fn read(&mut self) -> Result<Option<Vec<u8>>> {
        if let Some(text) = self.framed()? {
            return Ok(Some(text));
        }
        match self.stream.read(&mut self.buffer) {
            Ok(0) => return Err(Error::from(ErrorKind::UnexpectedEof)),
            Ok(count) => self.held.extend_from_slice(&self.buffer[..count]),
            Err(error) if matches!(error.kind(), ErrorKind::WouldBlock | ErrorKind::TimedOut | ErrorKind::Interrupted) => return Ok(None),
            Err(error) => return Err(error),
        }
        self.framed()
    }

    /// The payload of a masked text below 65,536 bytes, if it has come whole.
    fn framed(&mut self) -> Result<Option<Vec<u8>>> {
        if self.held.len() < 4 {
            return Ok(None);
        }
        if self.held[0] != 0x81 || self.held[1] & 0x80 == 0 || self.held[1] == 0xff {
            return Err(Error::from(ErrorKind::InvalidData));
        }
        let (at, length) = match self.held[1] & 0x7f {
            126 => (4, usize::from(u16::from_be_bytes([self.held[2], self.held[3]]))),
            short => (2, usize::from(short)),
        };
        if self.held.len() < at + 4 + length {
            return Ok(None);
        }
        let key = [self.held[at], self.held[at + 1], self.held[at + 2], self.held[at + 3]];
        let text: Vec<u8> = self.held[at + 4..at + 4 + length].iter().enumerate().map(|(k, byte)| byte ^ key[k % 4]).collect();
        self.held.drain(..at + 4 + length);
        match std::str::from_utf8(&text) {
            Ok(_) => Ok(Some(text)),
            Err(_) => Err(Error::from(ErrorKind::InvalidData)),
        }
    }

    /// A text below 65,536 bytes, which is sent with the next take.
    pub fn give(&mut self, text: &[u8]) {
        self.given.push(0x81);
        match text.len() {
            short @ 0..=125 => self.given.push(short as u8),
            long => {
                self.given.push(126);
                self.given.extend_from_slice(&(long as u16).to_be_bytes());
            }
        }
        self.given.extend_from_slice(text);
        self.owed = self.owed.saturating_sub(1);
        self.looks = 0;
    }
}
