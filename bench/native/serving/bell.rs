//! What wakes a worker that has nothing to do, as in `xfs serve` (crates/xfs_server).

use std::sync::OnceLock;
use std::sync::atomic::{AtomicBool, Ordering};
use std::thread::{self, Thread};
use std::time::Duration;

/// A bell at which one thread listens.
#[derive(Default)]
pub struct Bell {
    listens: AtomicBool,
    listener: OnceLock<Thread>,
}

impl Bell {
    /// The thread listens from now on.
    pub fn listen(&self) {
        self.listener.get_or_init(thread::current);
        self.listens.store(true, Ordering::SeqCst);
    }

    /// Sleeps until it rings, or for so long; not at all where it has rung since `listen`. True where it rang.
    pub fn sleep(&self, time: Duration) -> bool {
        if self.listens.load(Ordering::SeqCst) {
            thread::park_timeout(time);
        }
        !self.listens.load(Ordering::SeqCst)
    }

    pub fn ring(&self) {
        if self.listens.load(Ordering::SeqCst) {
            self.listens.store(false, Ordering::SeqCst);
            self.listener.get().inspect(|listener| listener.unpark());
        }
    }
}
