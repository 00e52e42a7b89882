//! What is measured.

use crate::keys::{present_and_absent, Kind};
use crate::memory::{figures, Figures, Watched};
use crate::rows::{put_all, remove_all, Order};
use crate::stores::Store;
use crate::window::Window;
use crate::Outcome;
use std::time::{Duration, Instant};

// A store of fewer rows is filled and emptied again, until enough removes are timed.
const LEAST_CALLS: usize = 100_000;

/// Rows that come and go, in steps, while about as many stay.
pub trait Load {
    /// Puts the rows that are there at the beginning.
    fn fill<S: Store>(&mut self, store: &S) -> Outcome<()>;

    /// Makes one step.
    fn step<S: Store>(&mut self, store: &S) -> Outcome<()>;

    /// Makes so many steps.
    fn steps<S: Store>(&mut self, store: &S, count: u64) -> Outcome<()> {
        for _ in 0..count {
            self.step(store)?;
        }
        Ok(())
    }
}

// ---- memory

/// Counts when all rows are put, and when all are removed.
pub fn emptied(order: Order, rows: usize) -> Outcome<Figures> {
    let (keys, _) = present_and_absent(Kind::Random, rows);
    let removed = order.of(&keys);
    let watched = Watched::open()?;
    put_all(&watched.store, &keys)?;
    let full = watched.reading()?;
    remove_all(&watched.store, &removed)?;
    Ok(figures(&full, &watched.reading()?))
}

/// Counts after the first steps, and after all.
pub fn kept(mut load: impl Load, first: u64, all: u64) -> Outcome<Figures> {
    let watched = Watched::open()?;
    load.fill(&watched.store)?;
    load.steps(&watched.store, first)?;
    let early = watched.reading()?;
    load.steps(&watched.store, all.saturating_sub(first))?;
    Ok(figures(&early, &watched.reading()?))
}

// ---- times

fn took(call: impl FnOnce() -> Outcome<()>) -> Outcome<Duration> {
    let begun = Instant::now();
    call()?;
    Ok(begun.elapsed())
}

// Nanoseconds of each of so many calls.
fn each(took: Duration, calls: u64) -> f64 {
    took.as_nanos() as f64 / calls as f64
}

/// Times removes of all rows by chance.
pub fn removes<S: Store>(rows: usize) -> Outcome<Figures> {
    let (keys, _) = present_and_absent(Kind::Random, rows);
    let removed = Order::Random.of(&keys);
    let rounds = LEAST_CALLS.div_ceil(rows.max(1));
    let mut all = Duration::ZERO;
    for _ in 0..rounds {
        let store = S::open(0)?;
        put_all(&store, &keys)?;
        all += took(|| remove_all(&store, &removed))?;
    }
    Ok(vec![("call", each(all, (rounds * rows) as u64))])
}

/// Times moves of a window.
pub fn moves<S: Store>(rows: u64, count: u64) -> Outcome<Figures> {
    let store = S::open(0)?;
    let mut window = Window::new(rows);
    window.fill(&store)?;
    let all = took(|| window.steps(&store, count))?;
    Ok(vec![("call", each(all, count))])
}
