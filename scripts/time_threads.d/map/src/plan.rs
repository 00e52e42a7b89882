//! What is asked, all made beforehand: the same as on the index's side.

use crate::keys::Chance;

/// What one thread asks: keys as numbers, of its share alone.
pub struct Share {
    pub new: Vec<u64>,
    pub asked: Vec<u64>,
    pub starts: Vec<u64>,
}

/// The keys that are put before anything is timed, and what each thread asks then.
pub struct Plan {
    pub base: Vec<u64>,
    pub shares: Vec<Share>,
}

// The keys of a share: each thread's is each `threads`th key, from another one on.
fn dealt(keys: &[u64], thread: u64, threads: u64) -> Vec<u64> {
    let from_its_own = keys.iter().skip(thread as usize);
    from_its_own.step_by(threads as usize).copied().collect()
}

// So many keys of these, by chance.
fn chosen(chance: &mut Chance, keys: &[u64], count: u64) -> Vec<u64> {
    (0..count)
        .map(|_| keys[(chance.number() % keys.len() as u64) as usize])
        .collect()
}

impl Plan {
    /// So many keys in all, of which the last `calls` are put anew; and calls and ranges, in equal parts by each thread.
    pub fn new(threads: u64, keys: u64, calls: u64, ranges: u64) -> Plan {
        let mut chance = Chance::new(88_172_645_463_325_252);
        let mut numbers = |count| (0..count).map(|_| chance.number()).collect::<Vec<u64>>();
        let base = numbers(keys.saturating_sub(calls));
        let new = numbers(calls.min(keys));
        let shares = (0..threads).map(|thread| {
            let new = dealt(&new, thread, threads);
            let all = [dealt(&base, thread, threads), new.clone()].concat();
            let asked = chosen(&mut chance, &all, calls / threads);
            let starts = chosen(&mut chance, &all, ranges / threads);
            Share { new, asked, starts }
        });
        let shares = shares.collect();
        Plan { base, shares }
    }
}
