//! The two sides: the index under a lock, and the map under a lock.
//!
//! Each keeps, where views are asked for, some of all rows whose first column is at least a number, with their count and
//! the sum of those numbers, up to date after each put.

use crate::Outcome;
use rowanspan::{Batch, Index, Keys, Options, RowTest, View};
use std::collections::BTreeMap;
use std::ops::Bound;
use std::sync::{Mutex, MutexGuard, PoisonError};

/// A row, as the map has it: its columns.
pub type Columns = Vec<Vec<u8>>;

/// A key and what is put into its row.
pub type Put = (Vec<u8>, [u8; 8]);

/// What is measured.
pub trait Store: Sized {
    /// The row of a key, as a get returns it.
    type Row;

    /// That a key's row is still the one that it was.
    type Condition;

    /// An empty one, which keeps up this number of views, at most four.
    fn open(views: usize) -> Outcome<Self>;

    /// Puts a row of one column.
    fn put(&self, key: &[u8], value: &[u8]) -> Outcome<()>;

    /// Puts rows one after the other, in one holding of the lock.
    fn put_each(&self, puts: &[Put]) -> Outcome<()>;

    /// The condition that the key's row stays as it is.
    fn condition(&self, key: &[u8]) -> Outcome<Self::Condition>;

    /// Puts rows as one change, if all conditions hold. Returns whether it was made.
    fn put_all(&self, conditions: &[Self::Condition], puts: &[Put]) -> Outcome<bool>;

    /// A copy of the row of a key.
    fn get(&self, key: &[u8]) -> Outcome<Option<Self::Row>>;

    /// Copies of the rows of many keys, by one call if there is such a call, in one holding of the lock.
    fn get_many(&self, keys: &[Vec<u8>]) -> Outcome<Vec<Option<Self::Row>>>;

    /// The same by a get of each key, in one holding of the lock.
    fn get_each(&self, keys: &[Vec<u8>]) -> Outcome<Vec<Option<Self::Row>>>;

    /// Copies of the first rows from a key on, with their keys.
    fn range(&self, start: &[u8], limit: u16) -> Outcome<Vec<(Vec<u8>, Self::Row)>>;

    /// Copies of the last rows before a key, with their keys, that of the greatest key first.
    fn range_back(&self, before: &[u8], limit: u16) -> Outcome<Vec<(Vec<u8>, Self::Row)>>;

    /// How many rows have keys from one on and before another one.
    fn count(&self, start: &[u8], end: &[u8]) -> Outcome<usize>;

    /// Removes the row of a key. Returns whether there was one.
    fn remove(&self, key: &[u8]) -> Outcome<bool>;

    /// How many rows each view has, and their sum.
    fn shown(&self) -> Outcome<Vec<(u64, u128)>>;
}

// From what number on each view takes rows: all, three quarters, half and a quarter of them.
fn least(view: usize) -> u64 {
    (view as u64) << 62
}

/// What a lock holds.
pub fn locked<T>(lock: &Mutex<T>) -> MutexGuard<'_, T> {
    lock.lock().unwrap_or_else(PoisonError::into_inner)
}

// ---- the index

/// The index.
pub struct Indexed {
    pub index: Mutex<Index>,
    views: Vec<View>,
}

impl Store for Indexed {
    type Row = rowanspan::Row;
    type Condition = (Vec<u8>, u64);

    fn open(views: usize) -> Outcome<Indexed> {
        let mut index = Index::open(Options::default())?;
        let views = (0..views)
            .map(|view| index.build(Keys::From(b""), RowTest::AtLeast(0, least(view))))
            .collect::<Result<_, _>>()?;
        Ok(Indexed {
            index: Mutex::new(index),
            views,
        })
    }

    fn put(&self, key: &[u8], value: &[u8]) -> Outcome<()> {
        let mut index = locked(&self.index);
        index.put(key, &[(0, value)])?;
        if !self.views.is_empty() {
            index.keep_views()?;
        }
        Ok(())
    }

    fn put_each(&self, puts: &[Put]) -> Outcome<()> {
        let mut index = locked(&self.index);
        for (key, value) in puts {
            index.put(key, &[(0, value)])?;
        }
        Ok(())
    }

    fn condition(&self, key: &[u8]) -> Outcome<(Vec<u8>, u64)> {
        let row = locked(&self.index).get(key)?;
        Ok((key.to_vec(), row.map_or(0, |row| row.version)))
    }

    fn put_all(&self, conditions: &[(Vec<u8>, u64)], puts: &[Put]) -> Outcome<bool> {
        let mut batch = Batch::new();
        for (key, version) in conditions {
            batch = batch.require(key, *version);
        }
        for (key, value) in puts {
            batch = batch.put(key, &[(0, value)]);
        }
        Ok(locked(&self.index).batch(&batch)?.is_made())
    }

    fn get(&self, key: &[u8]) -> Outcome<Option<rowanspan::Row>> {
        Ok(locked(&self.index).get(key)?)
    }

    fn get_many(&self, keys: &[Vec<u8>]) -> Outcome<Vec<Option<rowanspan::Row>>> {
        Ok(locked(&self.index).get_many(keys)?)
    }

    fn get_each(&self, keys: &[Vec<u8>]) -> Outcome<Vec<Option<rowanspan::Row>>> {
        let index = locked(&self.index);
        let rows = keys.iter().map(|key| index.get(key));
        Ok(rows.collect::<Result<_, _>>()?)
    }

    fn range(&self, start: &[u8], limit: u16) -> Outcome<Vec<(Vec<u8>, rowanspan::Row)>> {
        Ok(locked(&self.index).first(start, limit, &[])?)
    }

    fn range_back(&self, before: &[u8], limit: u16) -> Outcome<Vec<(Vec<u8>, rowanspan::Row)>> {
        Ok(locked(&self.index).last(Some(before), limit, &[])?)
    }

    fn count(&self, start: &[u8], end: &[u8]) -> Outcome<usize> {
        Ok(locked(&self.index).count(start..end)?)
    }

    fn remove(&self, key: &[u8]) -> Outcome<bool> {
        Ok(locked(&self.index).remove(key)?.is_some())
    }

    fn shown(&self) -> Outcome<Vec<(u64, u128)>> {
        let index = locked(&self.index);
        let commits = index.commits();
        self.views
            .iter()
            .map(|view| {
                let page = index.view(*view, commits, b"", 1)?;
                Ok((page.count, page.sums.iter().sum()))
            })
            .collect()
    }
}

// ---- the map

/// A view of the map, kept up by hand.
struct Kept {
    least: u64,
    rows: BTreeMap<Vec<u8>, Columns>,
    sum: u128,
}

// The first column as a number, the highest byte first.
fn amount(columns: &Columns) -> u64 {
    let first = columns.first().map_or(&[][..], Vec::as_slice);
    first.try_into().map_or(0, u64::from_be_bytes)
}

impl Kept {
    fn put(&mut self, key: &[u8], columns: &Columns) {
        let now = amount(columns);
        let before = if now >= self.least {
            self.sum += u128::from(now);
            self.rows.insert(key.to_vec(), columns.clone())
        } else {
            self.rows.remove(key)
        };
        self.sum -= before.map_or(0, |columns| u128::from(amount(&columns)));
    }
}

struct Map {
    rows: BTreeMap<Vec<u8>, Columns>,
    views: Vec<Kept>,
}

/// The map.
pub struct Mapped {
    map: Mutex<Map>,
}

impl Store for Mapped {
    type Row = Columns;
    type Condition = (Vec<u8>, Option<Columns>);

    fn open(views: usize) -> Outcome<Mapped> {
        let views = (0..views).map(|view| Kept {
            least: least(view),
            rows: BTreeMap::new(),
            sum: 0,
        });
        Ok(Mapped {
            map: Mutex::new(Map {
                rows: BTreeMap::new(),
                views: views.collect(),
            }),
        })
    }

    fn put(&self, key: &[u8], value: &[u8]) -> Outcome<()> {
        let mut map = locked(&self.map);
        let columns = vec![value.to_vec()];
        for view in &mut map.views {
            view.put(key, &columns);
        }
        map.rows.insert(key.to_vec(), columns);
        Ok(())
    }

    fn put_each(&self, puts: &[Put]) -> Outcome<()> {
        let mut map = locked(&self.map);
        for (key, value) in puts {
            map.rows.insert(key.clone(), vec![value.to_vec()]);
        }
        Ok(())
    }

    fn condition(&self, key: &[u8]) -> Outcome<(Vec<u8>, Option<Columns>)> {
        Ok((key.to_vec(), self.get(key)?))
    }

    fn put_all(&self, conditions: &[Self::Condition], puts: &[Put]) -> Outcome<bool> {
        let mut map = locked(&self.map);
        if conditions
            .iter()
            .any(|(key, columns)| map.rows.get(key) != columns.as_ref())
        {
            return Ok(false);
        }
        for (key, value) in puts {
            map.rows.insert(key.clone(), vec![value.to_vec()]);
        }
        Ok(true)
    }

    fn get(&self, key: &[u8]) -> Outcome<Option<Columns>> {
        Ok(locked(&self.map).rows.get(key).cloned())
    }

    fn get_many(&self, keys: &[Vec<u8>]) -> Outcome<Vec<Option<Columns>>> {
        self.get_each(keys)
    }

    fn get_each(&self, keys: &[Vec<u8>]) -> Outcome<Vec<Option<Columns>>> {
        let map = locked(&self.map);
        Ok(keys.iter().map(|key| map.rows.get(key).cloned()).collect())
    }

    fn range(&self, start: &[u8], limit: u16) -> Outcome<Vec<(Vec<u8>, Columns)>> {
        let map = locked(&self.map);
        let rows = map
            .rows
            .range::<[u8], _>((Bound::Included(start), Bound::Unbounded));
        Ok(rows
            .take(limit.into())
            .map(|(key, columns)| (key.clone(), columns.clone()))
            .collect())
    }

    fn range_back(&self, before: &[u8], limit: u16) -> Outcome<Vec<(Vec<u8>, Columns)>> {
        let map = locked(&self.map);
        let rows = map
            .rows
            .range::<[u8], _>((Bound::Unbounded, Bound::Excluded(before)));
        Ok(rows
            .rev()
            .take(limit.into())
            .map(|(key, columns)| (key.clone(), columns.clone()))
            .collect())
    }

    fn count(&self, start: &[u8], end: &[u8]) -> Outcome<usize> {
        let map = locked(&self.map);
        let rows = map
            .rows
            .range::<[u8], _>((Bound::Included(start), Bound::Excluded(end)));
        Ok(rows.count())
    }

    fn remove(&self, key: &[u8]) -> Outcome<bool> {
        Ok(locked(&self.map).rows.remove(key).is_some())
    }

    fn shown(&self) -> Outcome<Vec<(u64, u128)>> {
        let map = locked(&self.map);
        Ok(map
            .views
            .iter()
            .map(|view| (view.rows.len() as u64, view.sum))
            .collect())
    }
}
