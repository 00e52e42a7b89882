//! The pace at which rows are changed.

use std::thread;
use std::time::{Duration, Instant};

const BETWEEN_TURNS: Duration = Duration::from_millis(1);

/// Changes at a rate, until all are made: in each turn those that are due by the clock.
pub struct Pace {
    begun: Instant,
    rate: u64,
    all: u64,
    made: u64,
}

impl Pace {
    pub fn new(rate: u64, all: u64) -> Pace {
        Pace {
            begun: Instant::now(),
            rate,
            all,
            made: 0,
        }
    }

    /// Sleeps a millisecond, and gives how many changes have become due by then; none where all are made.
    pub fn turn(&mut self) -> Option<u64> {
        if self.made >= self.all {
            return None;
        }
        thread::sleep(BETWEEN_TURNS);
        let due = self.begun.elapsed().as_millis() * u128::from(self.rate) / 1000;
        let due = due.min(u128::from(self.all)) as u64;
        let new = due - self.made;
        self.made = due;
        Some(new)
    }
}
