//! An index, and its calls that are those of a map.

use crate::answers::Row;
use crate::calls::{answer, done, length, some_answer, ABSENT, MAX_COLUMN_BYTES, NO_ROOM};
use crate::error::Error;
use crate::options::Options;
use crate::passed::ColumnSet;
use crate::range::{KeyRange, Pairs, Source};
use crate::raw::Library;
use std::fmt;

/// The most rows of a range or page, and the most deltas of a feed.
pub const MAX_LIMIT: u16 = 1000;

/// The most bytes of a key.
pub const MAX_KEY_BYTES: usize = 1024;

/// An ordered key-value index, with views that stay exact. Dropping it frees its memory. It may be moved to another
/// thread; a [`SharedIndex`](crate::SharedIndex) is one that threads share.
///
/// A key is anything that is bytes: `"apple"`, `b"apple"`, a `Vec<u8>`. A call that fails has changed no row, no commit
/// and no view, but for [`NotWritten`](Error::NotWritten). Limits are tested before memory is taken: a call that breaks
/// one never fails with [`NoMemory`](Error::NoMemory), unless it is a batch, or the log of a folder lacks a commit.
///
/// ```
/// use rowanspan::{Error, Index, Options};
///
/// let mut index = Index::open(Options::default())?;
/// index.put("apple", &[(0, b"red")])?;
/// for pair in &index {
///     let (key, row) = pair?;
///     assert_eq!((&key[..], &row.columns[0][..]), (&b"apple"[..], &b"red"[..]));
/// }
/// # Ok::<(), Error>(())
/// ```
pub struct Index {
    pub(crate) library: Library,
}

impl fmt::Debug for Index {
    fn fmt(&self, f: &mut fmt::Formatter<'_>) -> fmt::Result {
        f.debug_struct("Index").finish_non_exhaustive()
    }
}

fn column_sets<'a>(sets: &[(u8, &'a [u8])]) -> Vec<ColumnSet<'a>> {
    sets.iter()
        .map(|(column, bytes)| ColumnSet::new(*column, bytes))
        .collect()
}

impl Index {
    /// An empty index, whose rows are in memory alone. [`open_folder`](Index::open_folder) opens one whose rows are in a
    /// folder too.
    ///
    /// ```
    /// use rowanspan::{Error, Index, Options};
    ///
    /// let index = Index::open(Options::default().columns(2))?;
    /// assert_eq!((index.columns(), index.commits()), (2, 0));
    /// assert_eq!(Index::open(Options::default().columns(17)).err(), Some(Error::BadColumn));
    /// # Ok::<(), Error>(())
    /// ```
    ///
    /// # Errors
    ///
    /// [`BadColumn`](Error::BadColumn) or [`BadLimit`](Error::BadLimit) if an option is out of its bounds, and
    /// [`NoMemory`](Error::NoMemory).
    pub fn open(options: Options) -> Result<Index, Error> {
        match Library::open(options.columns, options.log_capacity, options.log_retention) {
            Ok(library) => Ok(Index { library }),
            Err(status) => Err(Error::of(status, 0)),
        }
    }

    /// Sets columns of a key's row, each by its number. The other columns stay as they were; those of a new row are
    /// empty. Returns the number of the commit.
    ///
    /// ```
    /// # use rowanspan::{Error, Index, Options};
    /// # let mut index = Index::open(Options::default().columns(2))?;
    /// assert_eq!(index.put("apple", &[(0, b"red"), (1, b"sweet")])?, 1);
    /// assert_eq!(index.put("apple", &[(0, b"green")])?, 2);
    /// assert_eq!(index.get_column("apple", 1)?, Some(b"sweet".to_vec()));
    /// # Ok::<(), Error>(())
    /// ```
    ///
    /// # Errors
    ///
    /// [`KeyTooLong`](Error::KeyTooLong), [`BadColumn`](Error::BadColumn), [`ColumnTooLong`](Error::ColumnTooLong),
    /// [`FeedFull`](Error::FeedFull), [`ArenaFull`](Error::ArenaFull), [`Spent`](Error::Spent) and
    /// [`NoMemory`](Error::NoMemory). With a folder, [`DiskFull`](Error::DiskFull), [`DiskFailed`](Error::DiskFailed),
    /// and [`NotWritten`](Error::NotWritten): then the put was made in memory.
    pub fn put(&mut self, key: impl AsRef<[u8]>, sets: &[(u8, &[u8])]) -> Result<u64, Error> {
        done(self.library.put(key.as_ref(), &column_sets(sets)))
    }

    /// A [`put`](Index::put) that is done only if the key's row is of this version, or if `version` is 0 and the key
    /// has no row.
    ///
    /// ```
    /// # use rowanspan::{Error, Index, Options};
    /// # let mut index = Index::open(Options::default())?;
    /// let commit = index.put_if("apple", &[(0, b"red")], 0)?;
    /// assert_eq!(index.put_if("apple", &[(0, b"green")], commit)?, 2);
    /// assert_eq!(index.put_if("apple", &[(0, b"blue")], commit), Err(Error::OtherVersion(2)));
    /// # Ok::<(), Error>(())
    /// ```
    ///
    /// # Errors
    ///
    /// [`OtherVersion`](Error::OtherVersion), which has the row's version, if the row is of another one; and those of
    /// [`put`](Index::put).
    pub fn put_if(
        &mut self,
        key: impl AsRef<[u8]>,
        sets: &[(u8, &[u8])],
        version: u64,
    ) -> Result<u64, Error> {
        let sets = column_sets(sets);
        done(self.library.put_if(key.as_ref(), &sets, version))
    }

    /// Removes a key's row. Returns the number of the commit, or none if the key has no row.
    ///
    /// ```
    /// # use rowanspan::{Error, Index, Options};
    /// # let mut index = Index::open(Options::default())?;
    /// index.put("apple", &[(0, b"red")])?;
    /// assert_eq!(index.remove("apple")?, Some(2));
    /// assert_eq!(index.remove("apple")?, None);
    /// # Ok::<(), Error>(())
    /// ```
    ///
    /// # Errors
    ///
    /// [`KeyTooLong`](Error::KeyTooLong), [`FeedFull`](Error::FeedFull), [`Spent`](Error::Spent) and
    /// [`NoMemory`](Error::NoMemory). With a folder, [`DiskFull`](Error::DiskFull), [`DiskFailed`](Error::DiskFailed),
    /// and [`NotWritten`](Error::NotWritten): then the row was removed in memory.
    pub fn remove(&mut self, key: impl AsRef<[u8]>) -> Result<Option<u64>, Error> {
        match self.library.remove(key.as_ref()) {
            (ABSENT, _) => Ok(None),
            answer => done(answer).map(Some),
        }
    }

    /// The row of a key, or none if it has no row. The library copies it into memory on the stack and allocates
    /// nothing. Each column that is returned is allocated.
    ///
    /// ```
    /// # use rowanspan::{Error, Index, Options};
    /// # let mut index = Index::open(Options::default())?;
    /// index.put("apple", &[(0, b"red")])?;
    /// let row = index.get("apple")?.expect("it was put");
    /// assert_eq!((row.version, &row.columns[0][..]), (1, &b"red"[..]));
    /// assert_eq!(index.get("pear")?, None);
    /// # Ok::<(), Error>(())
    /// ```
    ///
    /// # Errors
    ///
    /// [`KeyTooLong`](Error::KeyTooLong), and never [`NoMemory`](Error::NoMemory).
    pub fn get(&self, key: impl AsRef<[u8]>) -> Result<Option<Row>, Error> {
        self.get_columns(key, &[])
    }

    /// The row of a key, with the columns of these numbers in this order, or with all columns if none are named.
    ///
    /// ```
    /// # use rowanspan::{Error, Index, Options};
    /// # let mut index = Index::open(Options::default().columns(2))?;
    /// index.put("apple", &[(0, b"red"), (1, b"sweet")])?;
    /// let row = index.get_columns("apple", &[1])?.expect("it was put");
    /// assert_eq!(row.columns, [b"sweet"]);
    /// # Ok::<(), Error>(())
    /// ```
    ///
    /// # Errors
    ///
    /// [`KeyTooLong`](Error::KeyTooLong) and [`BadColumn`](Error::BadColumn), and never
    /// [`NoMemory`](Error::NoMemory).
    pub fn get_columns(&self, key: impl AsRef<[u8]>, columns: &[u8]) -> Result<Option<Row>, Error> {
        answer(
            |room| self.library.get(key.as_ref(), columns, room),
            |mut reader| reader.row(),
        )
    }

    /// The bytes of the column of this number of a key's row, or none if the key has no row.
    ///
    /// ```
    /// # use rowanspan::{Error, Index, Options};
    /// # let mut index = Index::open(Options::default())?;
    /// index.put("apple", &[(0, b"red")])?;
    /// assert_eq!(index.get_column("apple", 0)?, Some(b"red".to_vec()));
    /// # Ok::<(), Error>(())
    /// ```
    ///
    /// # Errors
    ///
    /// Those of [`get_columns`](Index::get_columns).
    pub fn get_column(&self, key: impl AsRef<[u8]>, column: u8) -> Result<Option<Vec<u8>>, Error> {
        let mut room = [0; MAX_COLUMN_BYTES];
        let (status, number) = self.library.get_column(key.as_ref(), column, &mut room);
        Ok(length(status, number)?.map(|count| room[..count].to_vec()))
    }

    /// Whether a key has a row. It allocates nothing.
    ///
    /// ```
    /// # use rowanspan::{Error, Index, Options};
    /// # let mut index = Index::open(Options::default())?;
    /// index.put("apple", &[])?;
    /// assert!(index.contains_key("apple")?);
    /// assert!(!index.contains_key("pear")?);
    /// # Ok::<(), Error>(())
    /// ```
    ///
    /// # Errors
    ///
    /// [`KeyTooLong`](Error::KeyTooLong), and never [`NoMemory`](Error::NoMemory).
    pub fn contains_key(&self, key: impl AsRef<[u8]>) -> Result<bool, Error> {
        // (there is no room for the bytes of the column, so they aren't copied)
        match self.library.get_column(key.as_ref(), 0, &mut []) {
            (NO_ROOM, _) => Ok(true),
            (status, number) => Ok(length(status, number)?.is_some()),
        }
    }

    /// The rows whose keys are in a range, in the order of their keys, or against it by [`rev`](Iterator::rev). A range
    /// that ends before it begins has none. They are read by 32 at first, and then by more, up to 1000 at a time, from
    /// either end.
    ///
    /// ```
    /// # let mut index = rowanspan::Index::open(rowanspan::Options::default())?;
    /// # for key in ["a", "b", "c"] { index.put(key, &[])?; }
    /// use std::ops::Bound;
    /// assert_eq!(index.range("a".."c").count(), 2);
    /// assert_eq!(index.range("b"..).count(), 2);
    /// assert_eq!(index.range((Bound::Excluded("a"), Bound::Included("c"))).count(), 2);
    /// assert_eq!(index.range(..).count(), 3);
    /// let (key, _) = index.range(.."c").next_back().expect("there are keys before c")?;
    /// assert_eq!(key, b"b");
    /// # Ok::<(), rowanspan::Error>(())
    /// ```
    ///
    /// # Errors
    ///
    /// The call doesn't fail. An item of the iterator may be [`NoMemory`](Error::NoMemory), and the first one of either
    /// end is [`KeyTooLong`](Error::KeyTooLong) if the key is that the range begins with. After an error the iterator
    /// ends.
    pub fn range(&self, range: impl KeyRange) -> Pairs<'_> {
        Pairs::of_range(Source::Own(self), &range)
    }

    /// All rows, in the order of their keys: see [`range`](Index::range).
    ///
    /// ```
    /// # let mut index = rowanspan::Index::open(rowanspan::Options::default())?;
    /// # for key in ["a", "b", "c"] { index.put(key, &[])?; }
    /// assert_eq!(index.iter().count(), 3);
    /// # Ok::<(), rowanspan::Error>(())
    /// ```
    ///
    /// # Errors
    ///
    /// Those of [`range`](Index::range).
    pub fn iter(&self) -> Pairs<'_> {
        self.range(..)
    }

    /// The rows whose keys begin with these bytes, in the order of their keys: see [`range`](Index::range).
    ///
    /// ```
    /// # let mut index = rowanspan::Index::open(rowanspan::Options::default())?;
    /// # for key in ["a", "b1", "b2", "c"] { index.put(key, &[])?; }
    /// assert_eq!(index.prefix("b").count(), 2);
    /// # Ok::<(), rowanspan::Error>(())
    /// ```
    ///
    /// # Errors
    ///
    /// Those of [`range`](Index::range).
    pub fn prefix(&self, prefix: impl AsRef<[u8]>) -> Pairs<'_> {
        Pairs::of_prefix(Source::Own(self), prefix.as_ref())
    }

    /// The first rows from a key on, at most `limit` (1 to 1000), with the columns of these numbers in this order, or
    /// with all columns if none are named.
    ///
    /// ```
    /// # let mut index = rowanspan::Index::open(rowanspan::Options::default())?;
    /// # for key in ["a", "b", "c"] { index.put(key, &[])?; }
    /// let pairs = index.first("b", 1, &[])?;
    /// assert_eq!((pairs.len(), &pairs[0].0[..]), (1, &b"b"[..]));
    /// # Ok::<(), rowanspan::Error>(())
    /// ```
    ///
    /// # Errors
    ///
    /// [`KeyTooLong`](Error::KeyTooLong), [`BadColumn`](Error::BadColumn), [`BadLimit`](Error::BadLimit) and
    /// [`NoMemory`](Error::NoMemory).
    pub fn first(
        &self,
        start: impl AsRef<[u8]>,
        limit: u16,
        columns: &[u8],
    ) -> Result<Vec<(Vec<u8>, Row)>, Error> {
        some_answer(
            |room| self.library.range(start.as_ref(), limit, columns, room),
            |mut reader| reader.pairs(),
        )
    }

    /// The last rows whose keys are before a key, or the last rows of all if `before` is none; the greatest key first.
    /// Limit and columns are as of [`first`](Index::first). It costs about twice as much.
    ///
    /// ```
    /// # let mut index = rowanspan::Index::open(rowanspan::Options::default())?;
    /// # for key in ["a", "b", "c"] { index.put(key, &[])?; }
    /// let pairs = index.last(Some(b"c"), 1000, &[])?;
    /// assert_eq!((pairs.len(), &pairs[0].0[..], &pairs[1].0[..]), (2, &b"b"[..], &b"a"[..]));
    /// assert_eq!(index.last(None, 1, &[])?[0].0, b"c");
    /// # Ok::<(), rowanspan::Error>(())
    /// ```
    ///
    /// # Errors
    ///
    /// Those of [`first`](Index::first).
    pub fn last(
        &self,
        before: Option<&[u8]>,
        limit: u16,
        columns: &[u8],
    ) -> Result<Vec<(Vec<u8>, Row)>, Error> {
        some_answer(
            |room| self.library.range_back(before, limit, columns, room),
            |mut reader| reader.pairs(),
        )
    }

    /// The row with the least key, or none if there are no rows.
    ///
    /// ```
    /// # let mut index = rowanspan::Index::open(rowanspan::Options::default())?;
    /// assert_eq!(index.first_key_value()?, None);
    /// # for key in ["a", "b", "c"] { index.put(key, &[])?; }
    /// assert_eq!(index.first_key_value()?.expect("there are rows").0, b"a");
    /// # Ok::<(), rowanspan::Error>(())
    /// ```
    ///
    /// # Errors
    ///
    /// [`NoMemory`](Error::NoMemory).
    pub fn first_key_value(&self) -> Result<Option<(Vec<u8>, Row)>, Error> {
        Ok(self.first("", 1, &[])?.pop())
    }

    /// The row with the greatest key, or none if there are no rows.
    ///
    /// ```
    /// # let mut index = rowanspan::Index::open(rowanspan::Options::default())?;
    /// assert_eq!(index.last_key_value()?, None);
    /// # for key in ["a", "b", "c"] { index.put(key, &[])?; }
    /// assert_eq!(index.last_key_value()?.expect("there are rows").0, b"c");
    /// # Ok::<(), rowanspan::Error>(())
    /// ```
    ///
    /// # Errors
    ///
    /// [`NoMemory`](Error::NoMemory).
    pub fn last_key_value(&self) -> Result<Option<(Vec<u8>, Row)>, Error> {
        Ok(self.last(None, 1, &[])?.pop())
    }
}

/// All rows, as [`iter`](Index::iter) returns them.
impl<'a> IntoIterator for &'a Index {
    type Item = Result<(Vec<u8>, Row), Error>;
    type IntoIter = Pairs<'a>;

    fn into_iter(self) -> Pairs<'a> {
        self.iter()
    }
}
