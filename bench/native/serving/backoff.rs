//! How long whoever finds nothing waits before the next look, as in `xfs serve` (crates/xfs_server).

use crate::bell::Bell;
use std::thread;
use std::time::Duration;

const SHORT_PAUSES: u32 = 16;

/// The pauses between looks that find nothing: sixteen of a millisecond, then each twice the one before, up to a longest. A long
/// one ends where the bell rings.
pub struct Backoff<'b> {
    bell: &'b Bell,
    longest: u64,
    made: u32,
    millis: u64,
}

impl<'b> Backoff<'b> {
    /// Up to so many milliseconds.
    pub fn up_to(longest: u64, bell: &'b Bell) -> Backoff<'b> {
        Backoff { bell, longest, made: 0, millis: 1 }
    }

    pub fn reset(&mut self) {
        *self = Backoff::up_to(self.longest, self.bell);
    }

    /// Before a look behind which a long pause may come.
    pub fn begin_look(&self) {
        if self.made >= SHORT_PAUSES {
            self.bell.listen();
        }
    }

    pub fn pause(&mut self) {
        if self.made < SHORT_PAUSES {
            self.made += 1;
            thread::sleep(Duration::from_millis(self.millis));
        } else {
            self.millis = (2 * self.millis).min(self.longest);
            if self.bell.sleep(Duration::from_millis(self.millis)) {
                self.reset();
            }
        }
    }
}
