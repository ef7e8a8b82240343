//! The server: its doors, its sessions and its workers.

use crate::backoff::Backoff;
use crate::bell::Bell;
use crate::file_journal::FileJournal;
use crate::link::Link;
use crate::machine::{Machine, NONE};
use std::io::{ErrorKind, Result};
use std::net::{TcpListener, TcpStream};
use std::sync::atomic::{AtomicBool, Ordering};
use std::sync::{Mutex, MutexGuard};
use std::thread::{self, Scope};
use std::time::{Duration, Instant};

// The place of the dispenser's port.
const CASH: usize = 3;
const JOURNAL: &str = "xfs.journal";
const LIFE_MILLIS: u64 = 600_000;
// The longest pauses, in milliseconds.
const LONGEST_OF_A_WORKER: u64 = 50;
const LONGEST_AT_THE_DOORS: u64 = 16;
const MOST_TURNS: u64 = 4_294_967_296;
// So that a server that is forgotten ends.
const LONGEST: Duration = Duration::from_secs(600);

/// What all threads share. Each call but `now` takes the lock once.
struct Hall {
    machine: Mutex<Machine<FileJournal>>,
    begun: Instant,
    ended: AtomicBool,
    // Of the workers, in the order of their ports behind the first.
    bells: [Bell; 3],
}

impl Hall {
    fn now(&self) -> u64 {
        self.begun.elapsed().as_millis() as u64
    }

    fn lock(&self) -> MutexGuard<'_, Machine<FileJournal>> {
        self.machine.lock().expect("a thread has failed")
    }

    fn connect(&self, client: u32, is_cash: bool) -> bool {
        self.lock().connect(client, is_cash)
    }

    fn leave(&self, client: u32) {
        self.lock().clients.retain(|other| other.number != client);
    }

    fn post(&self, client: u32, text: &[u8], bell: Option<&Bell>) {
        self.lock().post(client, text);
        bell.inspect(|bell| bell.ring());
    }

    /// One step of the work of a service, of which the dispenser alone has some.
    fn work(&self, is_cash: bool) -> bool {
        let now = self.now();
        let mut machine = self.lock();
        is_cash && machine.work(now)
    }

    fn outbox(&self, client: u32) -> Vec<String> {
        let mut machine = self.lock();
        let found = machine.clients.iter_mut().find(|other| other.number == client);
        found.map_or(Vec::new(), |client| std::mem::take(&mut client.waiting))
    }

    /// Whether notes lie in the outlet of the dispenser.
    fn wants(&self, is_cash: bool) -> bool {
        let machine = self.lock();
        is_cash && machine.outlet != NONE
    }

    fn take(&self) {
        self.lock().take();
    }
}

/// Serves one connection until it ends.
fn converse(hall: &Hall, client: u32, place: usize, stream: TcpStream) -> Result<()> {
    let mut link = Link::open(stream)?;
    let (is_cash, bell) = (place == CASH, place.checked_sub(1).map(|worker| &hall.bells[worker]));
    for _ in 0..MOST_TURNS {
        if let Some(text) = link.take()? {
            hall.post(client, &text, bell);
        }
        hall.work(is_cash);
        for frame in hall.outbox(client) {
            link.give(frame.as_bytes());
        }
    }
    Ok(())
}

/// A session, whose connection may end as it will.
fn session(hall: &Hall, client: u32, place: usize, stream: TcpStream) {
    if hall.connect(client, place == CASH) {
        let _ended = converse(hall, client, place, stream);
        hall.leave(client);
    }
}

/// Tends a device, until the server ends.
fn tend(hall: &Hall, place: usize) {
    let is_cash = place == CASH;
    let mut backoff = Backoff::up_to(LONGEST_OF_A_WORKER, &hall.bells[place - 1]);
    while !hall.ended.load(Ordering::SeqCst) {
        backoff.begin_look();
        let is_wanted = hall.wants(is_cash);
        if is_wanted {
            hall.take();
        }
        if hall.work(is_cash) || is_wanted {
            backoff.reset();
        } else {
            backoff.pause();
        }
    }
}

fn listen(port: u16) -> Result<TcpListener> {
    let listener = TcpListener::bind(("127.0.0.1", port))?;
    listener.set_nonblocking(true)?;
    Ok(listener)
}

/// Takes connections until all have come, with a session for each.
fn take_all<'a>(sessions: &'a Scope<'a, '_>, hall: &'a Hall, listeners: &[TcpListener], count: u32) -> Result<()> {
    let mut taken = 0;
    let bell = Bell::default();
    let mut backoff = Backoff::up_to(LONGEST_AT_THE_DOORS, &bell);
    while taken < count && hall.begun.elapsed() < LONGEST {
        let before = taken;
        backoff.begin_look();
        for (place, listener) in listeners.iter().enumerate() {
            match listener.accept() {
                Ok((stream, _)) => {
                    taken += 1;
                    let client = taken;
                    sessions.spawn(move || session(hall, client, place, stream));
                }
                Err(error) if error.kind() == ErrorKind::WouldBlock => {}
                Err(error) => return Err(error),
            }
        }
        if taken == before {
            backoff.pause();
        } else {
            backoff.reset();
        }
    }
    Ok(())
}

pub fn serve(count: u32, ports: [u16; 4]) -> Result<()> {
    let listeners = ports.iter().map(|port| listen(*port)).collect::<Result<Vec<TcpListener>>>()?;
    let machine = Machine::boot(FileJournal::create(JOURNAL)?, Some(LIFE_MILLIS));
    let hall = Hall { machine: Mutex::new(machine), begun: Instant::now(), ended: AtomicBool::new(false), bells: Default::default() };
    thread::scope(|workers| {
        for place in 1..=CASH {
            let hall = &hall;
            workers.spawn(move || tend(hall, place));
        }
        let taken = thread::scope(|sessions| take_all(sessions, &hall, &listeners, count));
        hall.ended.store(true, Ordering::SeqCst);
        hall.bells.iter().for_each(Bell::ring);
        taken
    })
}
