//! A native peer of `xfs serve` for what the script `bench/serve` measures, and the clients that load either of them:
//!
//!     serve COUNT PORT PORT PORT PORT    a server, until so many connections came and have ended; the last port is the dispenser's
//!     ask PORT CLIENTS TEXTS             so many clients side by side, each of which asks Common.Status so many times: seconds in all, and
//!                                        those that all texts but the slowest hundredth took at most
//!     withdraw PORT TIMES                one client that withdraws so many times, at most 400: seconds of one on average, the median, and
//!                                        those that all but the slowest hundredth took at most
//!     idle PORT CLIENTS SECONDS          so many clients that say nothing; it writes `open` once all are connected
//!
//! Over std alone, so the handshake is the sample of RFC 6455, section 1.3. The server has the turns of `xfs serve`: a thread a connection,
//! one lock around the machine, which a session takes for each text, each step of work and each look at its frames; three workers and the
//! loop of the doors, which pause longer each time there is nothing to do, and workers wake by a post; and the same reads, writes, records and syncs: the frames
//! that answer a text leave in one write.
#[path = "serving/asker.rs"]
mod asker;
#[path = "serving/backoff.rs"]
mod backoff;
#[path = "serving/bell.rs"]
mod bell;
#[path = "serving/file_journal.rs"]
mod file_journal;
#[path = "serving/handshake.rs"]
mod handshake;
#[path = "replay/hashes.rs"]
mod hashes;
#[path = "replay/json.rs"]
mod json;
#[path = "serving/link.rs"]
mod link;
#[path = "replay/machine.rs"]
mod machine;
#[path = "replay/message.rs"]
mod message;
#[path = "serving/server.rs"]
mod server;
#[path = "replay/token.rs"]
mod token;

use std::io::{Error, ErrorKind, Result};
use std::str::FromStr;

fn number<N: FromStr>(word: &str) -> Result<N> {
    word.parse().map_err(|_| Error::from(ErrorKind::InvalidInput))
}

fn main() -> Result<()> {
    let words: Vec<String> = std::env::args().skip(1).collect();
    match words.iter().map(String::as_str).collect::<Vec<_>>()[..] {
        ["serve", count, publisher, card, keys, cash] => {
            server::serve(number(count)?, [number(publisher)?, number(card)?, number(keys)?, number(cash)?])
        }
        ["ask", port, clients, texts] => asker::ask(number(port)?, number(clients)?, number(texts)?),
        ["withdraw", port, times] => asker::withdraw(number(port)?, number(times)?),
        ["idle", port, clients, seconds] => asker::idle(number(port)?, number(clients)?, number(seconds)?),
        _ => Err(Error::from(ErrorKind::InvalidInput)),
    }
}
