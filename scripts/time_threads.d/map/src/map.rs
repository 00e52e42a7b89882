//! The locked map, and a thread's calls on it.

use std::collections::BTreeMap;
use std::hint::black_box;
use std::sync::{Mutex, PoisonError, RwLock};

type Columns = Vec<Vec<u8>>;
type Rows = BTreeMap<Vec<u8>, Columns>;

const ROWS_OF_RANGE: usize = 100;

/// The kinds of calls that are timed.
#[derive(Clone, Copy)]
pub enum Kind {
    PutNew,
    PutOver,
    Get,
    /// Gets and puts in turn.
    Mixed,
    Range,
}

pub const KINDS: [Kind; 5] = [
    Kind::PutNew,
    Kind::PutOver,
    Kind::Get,
    Kind::Mixed,
    Kind::Range,
];

impl Kind {
    pub fn name(self) -> &'static str {
        match self {
            Kind::PutNew => "put new",
            Kind::PutOver => "put over",
            Kind::Get => "get",
            Kind::Mixed => "get and put",
            Kind::Range => "range of 100",
        }
    }
}

/// Rows under a lock: one that is held alone, or one that reads share.
pub enum Map {
    Alone(Mutex<Rows>),
    Shared(RwLock<Rows>),
}

impl Map {
    /// An empty map. `lock` is `mutex` or `rwlock`.
    pub fn new(lock: &str) -> Option<Map> {
        match lock {
            "mutex" => Some(Map::Alone(Mutex::default())),
            "rwlock" => Some(Map::Shared(RwLock::default())),
            _ => None,
        }
    }

    fn change<T>(&self, done: impl FnOnce(&mut Rows) -> T) -> T {
        match self {
            Map::Alone(rows) => done(&mut rows.lock().unwrap_or_else(PoisonError::into_inner)),
            Map::Shared(rows) => done(&mut rows.write().unwrap_or_else(PoisonError::into_inner)),
        }
    }

    fn read<T>(&self, done: impl FnOnce(&Rows) -> T) -> T {
        match self {
            Map::Alone(rows) => done(&rows.lock().unwrap_or_else(PoisonError::into_inner)),
            Map::Shared(rows) => done(&rows.read().unwrap_or_else(PoisonError::into_inner)),
        }
    }

    // (what it allocates and lets go, it does outside the lock, but for the node of a new key)
    fn put(&self, number: u64, value: u64) {
        let key = number.to_be_bytes().to_vec();
        let columns = vec![value.to_be_bytes().to_vec()];
        let before = self.change(|rows| rows.insert(key, columns));
        drop(before);
    }

    fn get(&self, number: u64) {
        let row = self.read(|rows| rows.get(&number.to_be_bytes()[..]).cloned());
        assert!(black_box(row).is_some(), "a wrong answer of a get");
    }

    fn range(&self, number: u64) {
        let rows: Vec<(Vec<u8>, Columns)> = self.read(|rows| {
            rows.range(number.to_be_bytes().to_vec()..)
                .take(ROWS_OF_RANGE)
                .map(|(key, columns)| (key.clone(), columns.clone()))
                .collect()
        });
        assert!(!black_box(rows).is_empty(), "a wrong answer of a range");
    }

    /// A call of the kind of each key.
    pub fn call_all(&self, kind: Kind, keys: &[u64]) {
        for (at, key) in keys.iter().enumerate() {
            match kind {
                Kind::PutNew => self.put(*key, *key),
                Kind::PutOver => self.put(*key, !*key),
                Kind::Get => self.get(*key),
                Kind::Mixed if at % 2 == 0 => self.get(*key),
                Kind::Mixed => self.put(*key, *key),
                Kind::Range => self.range(*key),
            }
        }
    }
}
