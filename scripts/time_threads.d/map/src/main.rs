//! Threads over one locked map, in phases that are timed: what the index's side does, over a `BTreeMap` in a `Mutex` or
//! in an `RwLock`.
//!
//! `time_threads_map mutex|rwlock THREADS KEYS CALLS RANGES HOLDINGS`: as the index's side takes them, and it prints the
//! same lines, with no events. `scripts/time_threads` runs both and makes the table.

#[allow(dead_code)]
#[path = "../../../time_index.d/src/keys.rs"]
mod keys;
mod map;
mod plan;

use crate::map::{Kind, Map, KINDS};
use crate::plan::{Plan, Share};
use std::env;
use std::error::Error;
use std::sync::{Mutex, PoisonError};
use std::thread;
use std::time::Instant;

type Outcome<T> = Result<T, Box<dyn Error>>;

fn keys_of(share: &Share, kind: Kind) -> &[u64] {
    match kind {
        Kind::PutNew => &share.new,
        Kind::Range => &share.starts,
        _ => &share.asked,
    }
}

// One phase: each thread makes its calls of the kind. Prints how long they took in all.
fn run_phase(map: &Map, kind: Kind, plan: &Plan) {
    let begun = Instant::now();
    thread::scope(|scope| {
        for share in &plan.shares {
            scope.spawn(|| map.call_all(kind, keys_of(share, kind)));
        }
    });
    let took = begun.elapsed().as_nanos();
    let calls: usize = plan
        .shares
        .iter()
        .map(|share| keys_of(share, kind).len())
        .sum();
    println!("{}\t{took}\t{calls}\t0\t{calls}", kind.name());
}

// Holds a lock round a number so many times, in equal parts by each thread, and prints how long that took.
fn time_holdings(threads: u64, times: u64) {
    let number = Mutex::new(0u64);
    let begun = Instant::now();
    thread::scope(|scope| {
        for _ in 0..threads {
            scope.spawn(|| {
                for _ in 0..times / threads {
                    *number.lock().unwrap_or_else(PoisonError::into_inner) += 1;
                }
            });
        }
    });
    let took = begun.elapsed().as_nanos();
    let held = number.into_inner().unwrap_or_else(PoisonError::into_inner);
    println!("holding\t{took}\t{held}\t0\t{held}");
}

fn main() -> Outcome<()> {
    let mut words = env::args().skip(1);
    let lock = words.next().unwrap_or_default();
    let map = Map::new(&lock).ok_or("the lock is mutex or rwlock")?;
    let sizes = words.map(|word| word.parse::<u64>());
    let sizes: Vec<u64> = sizes.collect::<Result<_, _>>()?;
    let [threads, keys, calls, ranges, holdings] = *sizes.as_slice() else {
        return Err("it takes mutex|rwlock THREADS KEYS CALLS RANGES HOLDINGS".into());
    };
    if threads == 0 || keys < threads {
        return Err("a thread at least, and a key for each".into());
    }
    let plan = Plan::new(threads, keys, calls, ranges);
    map.call_all(Kind::PutNew, &plan.base);
    for kind in KINDS {
        run_phase(&map, kind, &plan);
    }
    time_holdings(threads, holdings);
    Ok(())
}
