//! A window that moves: rows are put at its end and removed at its front.

use crate::cases::Load;
use crate::rows::remove;
use crate::stores::Store;
use crate::Outcome;

/// A window of rows whose keys are consecutive numbers, in eight bytes, the highest first.
pub struct Window {
    rows: u64,
    // The number of the least key.
    least: u64,
}

fn put<S: Store>(store: &S, number: u64) -> Outcome<()> {
    let key = number.to_be_bytes();
    store.put(&key, &key)
}

impl Window {
    pub fn new(rows: u64) -> Window {
        Window { rows, least: 0 }
    }
}

impl Load for Window {
    fn fill<S: Store>(&mut self, store: &S) -> Outcome<()> {
        for number in 0..self.rows {
            put(store, number)?;
        }
        Ok(())
    }

    /// A move: a put of a new greatest key, and a remove of the least.
    fn step<S: Store>(&mut self, store: &S) -> Outcome<()> {
        put(store, self.least + self.rows)?;
        remove(store, &self.least.to_be_bytes())?;
        self.least += 1;
        Ok(())
    }
}
