//! Batches: several changes that are made as one, if conditions hold.

use crate::calls::{DONE, UNMET};
use crate::error::Error;
use crate::index::Index;
use crate::passed::{BatchChange, BatchCondition, ColumnSet};
use crate::shared::SharedIndex;
use std::ops::Range;

/// The most conditions of a batch, and the most changes.
pub const MAX_BATCH: usize = 1000;

// Bytes that are set: in which column, and where they are among those of the changes.
#[derive(Clone, Debug, PartialEq, Eq)]
struct Set {
    column: u8,
    bytes: Range<usize>,
}

// Where a key is among the bytes of the changes, and where its sets are; or none, if its row is removed.
#[derive(Clone, Debug, PartialEq, Eq)]
struct Change {
    key: Range<usize>,
    sets: Option<Range<usize>>,
}

// Appends a copy of some bytes, and returns where it is.
fn append(to: &mut Vec<u8>, bytes: &[u8]) -> Range<usize> {
    let from = to.len();
    to.extend_from_slice(bytes);
    from..to.len()
}

/// Changes that [`Index::batch`] makes as one, if conditions hold. It has copies of the keys and columns, and may be
/// made more than once. Each method adds a condition or a change: up to 1000 conditions and 1000 changes, and no two
/// changes of one key.
///
/// ```
/// use rowanspan::{Batch, Batched, Error, Index, Made, Options};
///
/// let mut index = Index::open(Options::default())?;
/// let commit = index.put("apple", &[(0, b"red")])?;
/// let batch = Batch::new()
///     .require("apple", commit)
///     .require_absent("pear")
///     .put("pear", &[(0, b"green")])
///     .remove("apple");
/// let made = Made { to: 3, numbers: vec![Some(2), Some(3)] };
/// assert_eq!(index.batch(&batch)?, Batched::Made(made));
/// assert_eq!(index.batch(&batch)?, Batched::Unmet { place: 0, found: 0 });
/// # Ok::<(), Error>(())
/// ```
#[derive(Clone, Debug, Default, PartialEq, Eq)]
#[must_use]
pub struct Batch {
    // where the key of a condition is, and the version
    conditions: Vec<(Range<usize>, u64)>,
    // the keys of all conditions
    condition_keys: Vec<u8>,
    changes: Vec<Change>,
    sets: Vec<Set>,
    // the keys of all changes, and the bytes that they set
    bytes: Vec<u8>,
}

impl Batch {
    /// A batch without conditions and changes.
    ///
    /// ```
    /// # use rowanspan::{Batch, Batched, Error, Index, Made, Options};
    /// # let mut index = Index::open(Options::default())?;
    /// let made = Made { to: 0, numbers: vec![] };
    /// assert_eq!(index.batch(&Batch::new())?, Batched::Made(made));
    /// # Ok::<(), Error>(())
    /// ```
    pub fn new() -> Batch {
        Batch::default()
    }

    /// The same batch, with the condition that the key's row is of this version, or, if `version` is 0, that the key
    /// has no row.
    ///
    /// ```
    /// # use rowanspan::{Batch, Batched, Error, Index, Options};
    /// # let mut index = Index::open(Options::default())?;
    /// let batch = Batch::new().require("apple", 7).put("pear", &[]);
    /// assert_eq!(index.batch(&batch)?, Batched::Unmet { place: 0, found: 0 });
    /// # Ok::<(), Error>(())
    /// ```
    pub fn require(mut self, key: impl AsRef<[u8]>, version: u64) -> Batch {
        let key = append(&mut self.condition_keys, key.as_ref());
        self.conditions.push((key, version));
        self
    }

    /// The same batch, with the condition that the key has no row.
    ///
    /// ```
    /// # use rowanspan::{Batch, Batched, Error, Index, Options};
    /// # let mut index = Index::open(Options::default())?;
    /// index.put("apple", &[])?;
    /// let batch = Batch::new().require_absent("apple").put("pear", &[]);
    /// assert_eq!(index.batch(&batch)?, Batched::Unmet { place: 0, found: 1 });
    /// # Ok::<(), Error>(())
    /// ```
    pub fn require_absent(self, key: impl AsRef<[u8]>) -> Batch {
        self.require(key, 0)
    }

    /// The same batch, with a change that sets columns of a key's row, as [`Index::put`] does.
    ///
    /// ```
    /// # use rowanspan::{Batch, Error, Index, Options};
    /// # let mut index = Index::open(Options::default())?;
    /// let mut batch = Batch::new();
    /// for key in ["apple", "pear"] {
    ///     batch = batch.put(key, &[(0, key.as_bytes())]);
    /// }
    /// assert!(index.batch(&batch)?.is_made());
    /// assert_eq!(index.get_column("pear", 0)?, Some(b"pear".to_vec()));
    /// # Ok::<(), Error>(())
    /// ```
    pub fn put(mut self, key: impl AsRef<[u8]>, sets: &[(u8, &[u8])]) -> Batch {
        let key = append(&mut self.bytes, key.as_ref());
        let from = self.sets.len();
        for (column, bytes) in sets {
            let bytes = append(&mut self.bytes, bytes);
            self.sets.push(Set {
                column: *column,
                bytes,
            });
        }
        let sets = Some(from..self.sets.len());
        self.changes.push(Change { key, sets });
        self
    }

    /// The same batch, with a change that removes a key's row, if it has one.
    ///
    /// ```
    /// # use rowanspan::{Batch, Batched, Error, Index, Made, Options};
    /// # let mut index = Index::open(Options::default())?;
    /// index.put("apple", &[])?;
    /// let made = Made { to: 2, numbers: vec![None, Some(2)] };
    /// let batch = Batch::new().remove("pear").remove("apple");
    /// assert_eq!(index.batch(&batch)?, Batched::Made(made));
    /// # Ok::<(), Error>(())
    /// ```
    pub fn remove(mut self, key: impl AsRef<[u8]>) -> Batch {
        let key = append(&mut self.bytes, key.as_ref());
        self.changes.push(Change { key, sets: None });
        self
    }
}

/// What a batch has made.
#[derive(Clone, Debug, PartialEq, Eq)]
pub struct Made {
    /// The number of its last commit, or of the newest commit if it has made none.
    pub to: u64,
    /// For each change the number of its commit, in the order in which they were added, or none for a remove of a key
    /// without a row.
    pub numbers: Vec<Option<u64>>,
}

/// What a batch came to.
#[derive(Clone, Debug, PartialEq, Eq)]
#[must_use = "a condition may not hold, and then nothing was changed"]
pub enum Batched {
    /// All conditions held, and all changes were made.
    Made(Made),
    /// A condition doesn't hold, and nothing was changed.
    Unmet {
        /// The place of the first such condition, from 0 on.
        place: usize,
        /// The version that the row of its key has, or 0 if the key has no row.
        found: u64,
    },
}

impl Batched {
    /// Whether the batch was made.
    ///
    /// ```
    /// # use rowanspan::{Batch, Error, Index, Options};
    /// # let mut index = Index::open(Options::default())?;
    /// let batch = Batch::new().require_absent("apple").put("apple", &[]);
    /// assert!(index.batch(&batch)?.is_made());
    /// assert!(!index.batch(&batch)?.is_made());
    /// # Ok::<(), Error>(())
    /// ```
    #[must_use]
    pub fn is_made(&self) -> bool {
        matches!(self, Batched::Made(_))
    }
}

impl Index {
    /// Makes the changes of a batch as one, if all of its conditions hold, as consecutive commits: first the puts in
    /// their order, and then the removes in theirs. If a condition doesn't hold, or a change is refused, also for
    /// memory, nothing changes.
    ///
    /// If there are views, the log holds all commits of a batch for them: a batch of more than `log_capacity` commits
    /// is [`FeedFull`](Error::FeedFull) then. A [`feed`](Index::feed) may begin or end in the middle of a batch. A page
    /// of a view may show a part of a batch until [`keep_views`](Index::keep_views) has advanced the view over it; a
    /// page whose floor is `to` of [`Made`] shows all of it.
    ///
    /// ```
    /// # use rowanspan::{Batch, Batched, Error, Index, Options};
    /// # let mut index = Index::open(Options::default())?;
    /// # index.put("apple", &[(0, &[5])])?;
    /// // moves 2 of the apples to the pears, unless another caller has changed them since they were read
    /// let apples = index.get("apple")?.expect("there are apples");
    /// let batch = Batch::new()
    ///     .require("apple", apples.version)
    ///     .require_absent("pear")
    ///     .put("apple", &[(0, &[apples.columns[0][0] - 2])])
    ///     .put("pear", &[(0, &[2])]);
    /// match index.batch(&batch)? {
    ///     Batched::Made(made) => assert_eq!(made.to, 3),
    ///     Batched::Unmet { place, found } => println!("condition {place}: version {found}"),
    /// }
    /// assert_eq!(index.get_column("apple", 0)?, Some(vec![3]));
    /// # Ok::<(), Error>(())
    /// ```
    ///
    /// # Errors
    ///
    /// [`BadBatch`](Error::BadBatch) if there are more than 1000 conditions or 1000 changes, or if a key is changed
    /// twice, [`KeyTooLong`](Error::KeyTooLong), [`BadColumn`](Error::BadColumn),
    /// [`ColumnTooLong`](Error::ColumnTooLong), [`FeedFull`](Error::FeedFull), [`ArenaFull`](Error::ArenaFull),
    /// [`Spent`](Error::Spent) and [`NoMemory`](Error::NoMemory). [`InFolder`](Error::InFolder) if the index has a
    /// folder: a crash could leave a part of a batch there.
    pub fn batch(&mut self, batch: &Batch) -> Result<Batched, Error> {
        let conditions: Vec<_> = batch
            .conditions
            .iter()
            .map(|(key, version)| BatchCondition::new(&batch.condition_keys[key.clone()], *version))
            .collect();
        let columns: Vec<_> = batch
            .sets
            .iter()
            .map(|set| ColumnSet::new(set.column, &batch.bytes[set.bytes.clone()]))
            .collect();
        let changes: Vec<_> = batch
            .changes
            .iter()
            .map(|change| {
                let sets = change.sets.clone().map(|sets| &columns[sets]);
                BatchChange::new(&batch.bytes[change.key.clone()], sets)
            })
            .collect();
        let (status, written) = self.library.batch(&conditions, &changes);
        match status {
            DONE => Ok(Batched::Made(Made {
                to: written.number,
                numbers: written
                    .numbers
                    .into_iter()
                    .map(|number| (number > 0).then_some(number))
                    .collect(),
            })),
            UNMET => Ok(Batched::Unmet {
                // (it is below the number of conditions)
                place: written.number as usize,
                found: written.found,
            }),
            _ => Err(Error::of(status, written.number)),
        }
    }
}

impl SharedIndex {
    /// [`Index::batch`], in one holding of the mutex.
    ///
    /// ```
    /// # use rowanspan::{Batch, Error, Options, SharedIndex};
    /// # let index = SharedIndex::open(Options::default())?;
    /// let batch = Batch::new().put("apple", &[(0, b"red")]).put("pear", &[]);
    /// assert!(index.batch(&batch)?.is_made());
    /// assert_eq!(index.len(), 2);
    /// # Ok::<(), Error>(())
    /// ```
    ///
    /// # Errors
    ///
    /// Those of [`Index::batch`].
    pub fn batch(&self, batch: &Batch) -> Result<Batched, Error> {
        self.lock().batch(batch)
    }
}
