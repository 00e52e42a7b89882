//! Readers of a map behind a `RwLock`, while one thread changes its rows: what the index's side does with a view.
//!
//! `time_published_map READERS ROWS RATE DELTAS`: as the index's side takes them, and it prints the same line.
//! `scripts/time_published` runs both and makes the table.

#[allow(dead_code)]
#[path = "../../../time_index.d/src/keys.rs"]
mod keys;
mod map;
mod pace;

use crate::keys::Chance;
use crate::map::Map;
use crate::pace::Pace;
use std::env;
use std::error::Error;
use std::sync::atomic::{AtomicBool, Ordering};
use std::thread;
use std::time::Instant;

type Outcome<T> = Result<T, Box<dyn Error>>;

fn chosen(chance: &mut Chance, keys: &[u64]) -> u64 {
    keys[(chance.number() % keys.len() as u64) as usize]
}

// Puts new rows of keys by chance, at the pace. Gives in how many turns.
fn write(map: &Map, keys: &[u64], mut pace: Pace) -> u64 {
    let mut chance = Chance::new(7);
    let mut turns = 0;
    while let Some(new) = pace.turn() {
        let puts: Vec<u64> = (0..new).map(|_| chosen(&mut chance, keys)).collect();
        map.put_all(&puts, turns);
        turns += 1;
    }
    turns
}

// Reads pages from keys by chance, until all is put.
fn watch(map: &Map, keys: &[u64], seed: u64, ended: &AtomicBool) -> u64 {
    let mut chance = Chance::new(seed);
    let mut reads = 0;
    while !ended.load(Ordering::SeqCst) {
        map.read(chosen(&mut chance, keys));
        reads += 1;
    }
    reads
}

fn main() -> Outcome<()> {
    let words = env::args().skip(1).map(|word| word.parse::<u64>());
    let words: Vec<u64> = words.collect::<Result<_, _>>()?;
    let [readers, rows, rate, deltas] = *words.as_slice() else {
        return Err("it takes READERS ROWS RATE DELTAS".into());
    };
    let mut chance = Chance::new(88_172_645_463_325_252);
    let keys: Vec<u64> = (0..rows).map(|_| chance.number()).collect();
    let map = Map::new(&keys);
    let ended = AtomicBool::new(false);
    let begun = Instant::now();
    let (turns, reads) = thread::scope(|scope| {
        let (map, keys, ended) = (&map, &keys, &ended);
        let watchers: Vec<_> = (1..=readers)
            .map(|reader| scope.spawn(move || watch(map, keys, 2 * reader, ended)))
            .collect();
        let turns = write(map, keys, Pace::new(rate, deltas));
        ended.store(true, Ordering::SeqCst);
        let reads = watchers.into_iter().map(|watcher| watcher.join());
        reads.sum::<Result<u64, _>>().map(|reads| (turns, reads))
    })
    .map_err(|_| "a reader broke off")?;
    let took = begun.elapsed().as_nanos();
    println!("{took}\t{reads}\t{deltas}\t{turns}");
    Ok(())
}
