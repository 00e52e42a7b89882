//! The map, with its count and the sum of its rows, under a lock of readers and writers.

use std::collections::BTreeMap;
use std::hint::black_box;
use std::sync::{PoisonError, RwLock};

type Columns = Vec<Vec<u8>>;

const ROWS_OF_PAGE: usize = 100;

/// What a read copies: the count, the sum, and the first rows.
struct Page {
    count: usize,
    sum: u128,
    rows: Vec<(Vec<u8>, Columns)>,
}

struct Rows {
    rows: BTreeMap<Vec<u8>, Columns>,
    sum: u128,
}

/// Rows under a lock.
pub struct Map {
    rows: RwLock<Rows>,
}

// The first column as a number, the highest byte first.
fn amount(columns: &Columns) -> u128 {
    let first = columns.first().map_or(&[][..], Vec::as_slice);
    first.try_into().map_or(0, u64::from_be_bytes).into()
}

fn pair(key: u64, value: u64) -> (Vec<u8>, Columns) {
    let columns = vec![value.to_be_bytes().to_vec()];
    (key.to_be_bytes().to_vec(), columns)
}

impl Map {
    pub fn new(keys: &[u64]) -> Map {
        let rows = keys.iter().map(|key| pair(*key, 0)).collect();
        Map {
            rows: RwLock::new(Rows { rows, sum: 0 }),
        }
    }

    /// Puts rows of these keys, in one holding of the lock.
    pub fn put_all(&self, keys: &[u64], value: u64) {
        let pairs: Vec<_> = keys.iter().map(|key| pair(*key, value)).collect();
        let mut all = self.rows.write().unwrap_or_else(PoisonError::into_inner);
        for (key, columns) in pairs {
            all.sum += amount(&columns);
            let before = all.rows.insert(key, columns);
            all.sum -= before.map_or(0, |columns| amount(&columns));
        }
    }

    /// A page from a key on.
    pub fn read(&self, key: u64) {
        let all = self.rows.read().unwrap_or_else(PoisonError::into_inner);
        let from_key = all.rows.range(key.to_be_bytes().to_vec()..);
        let rows = from_key
            .take(ROWS_OF_PAGE)
            .map(|(key, columns)| (key.clone(), columns.clone()))
            .collect();
        let (count, sum) = (all.rows.len(), all.sum);
        drop(all);
        let page = black_box(Page { count, sum, rows });
        assert!(page.count > 0 && !page.rows.is_empty(), "a wrong page");
        black_box(page.sum);
    }
}
