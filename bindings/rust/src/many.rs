//! The rows of many keys in one call.

use crate::answers::Row;
use crate::calls::{answer_in, ABSENT};
use crate::error::Error;
use crate::index::{Index, MAX_LIMIT};
use crate::passed::KeyBytes;
use crate::shared::SharedIndex;

// For how many bytes of the answer to a key there is room at first: more than a row with one column of 64 bytes has.
const ROOM_FOR_A_KEY: usize = 128;

impl Index {
    /// The rows of up to 1000 keys, in the order of the keys; a key without a row has none. A key may be there more than
    /// once.
    ///
    /// ```
    /// # use rowanspan::{Error, Index, Options};
    /// # let mut index = Index::open(Options::default())?;
    /// index.put("apple", &[(0, b"red")])?;
    /// let rows = index.get_many(["apple", "pear"])?;
    /// assert_eq!(rows, [index.get("apple")?, None]);
    /// # Ok::<(), Error>(())
    /// ```
    ///
    /// # Errors
    ///
    /// [`KeyTooLong`](Error::KeyTooLong) if a key is too long, [`BadLimit`](Error::BadLimit) if there are more than 1000
    /// keys, and [`NoMemory`](Error::NoMemory).
    pub fn get_many(
        &self,
        keys: impl IntoIterator<Item = impl AsRef<[u8]>>,
    ) -> Result<Vec<Option<Row>>, Error> {
        self.get_many_columns(keys, &[])
    }

    /// The rows of up to 1000 keys, as of [`get_many`](Index::get_many), with the columns of these numbers in this
    /// order, or with all columns if none are named.
    ///
    /// ```
    /// # use rowanspan::{Error, Index, Options};
    /// # let mut index = Index::open(Options::default().columns(2))?;
    /// index.put("apple", &[(0, b"red"), (1, b"sweet")])?;
    /// let rows = index.get_many_columns(["apple", "pear"], &[1])?;
    /// assert_eq!(rows[0].as_ref().expect("it was put").columns, [b"sweet"]);
    /// assert_eq!(rows[1], None);
    /// # Ok::<(), Error>(())
    /// ```
    ///
    /// # Errors
    ///
    /// Those of [`get_many`](Index::get_many), and [`BadColumn`](Error::BadColumn).
    pub fn get_many_columns(
        &self,
        keys: impl IntoIterator<Item = impl AsRef<[u8]>>,
        columns: &[u8],
    ) -> Result<Vec<Option<Row>>, Error> {
        self.rows_of(&keys.into_iter().collect::<Vec<_>>(), columns)
    }

    fn rows_of(
        &self,
        keys: &[impl AsRef<[u8]>],
        columns: &[u8],
    ) -> Result<Vec<Option<Row>>, Error> {
        let keys: Vec<_> = keys.iter().map(|key| KeyBytes::new(key.as_ref())).collect();
        let mut room = vec![0; 8 + ROOM_FOR_A_KEY * keys.len().min(usize::from(MAX_LIMIT))];
        answer_in(
            &mut room,
            |room| self.library.get_many(&keys, columns, room),
            |mut reader| reader.maybe_rows(),
        )?
        .ok_or(Error::Unknown(ABSENT))
    }
}

impl SharedIndex {
    /// [`Index::get_many`], in one holding of the mutex. The keys are collected before that, so their iterator may call
    /// the index.
    ///
    /// ```
    /// # use rowanspan::{Error, Options, SharedIndex};
    /// # let index = SharedIndex::open(Options::default())?;
    /// index.put("apple", &[(0, b"red")])?;
    /// assert_eq!(index.get_many(["pear", "apple"])?, [None, index.get("apple")?]);
    /// # Ok::<(), Error>(())
    /// ```
    ///
    /// # Errors
    ///
    /// Those of [`Index::get_many`].
    pub fn get_many(
        &self,
        keys: impl IntoIterator<Item = impl AsRef<[u8]>>,
    ) -> Result<Vec<Option<Row>>, Error> {
        self.get_many_columns(keys, &[])
    }

    /// [`Index::get_many_columns`], in one holding of the mutex, as of [`get_many`](SharedIndex::get_many).
    ///
    /// ```
    /// # use rowanspan::{Error, Options, SharedIndex};
    /// # let index = SharedIndex::open(Options::default().columns(2))?;
    /// index.put("apple", &[(1, b"sweet")])?;
    /// let rows = index.get_many_columns(["apple"], &[1])?;
    /// assert_eq!(rows[0].as_ref().expect("it was put").columns, [b"sweet"]);
    /// # Ok::<(), Error>(())
    /// ```
    ///
    /// # Errors
    ///
    /// Those of [`Index::get_many_columns`].
    pub fn get_many_columns(
        &self,
        keys: impl IntoIterator<Item = impl AsRef<[u8]>>,
        columns: &[u8],
    ) -> Result<Vec<Option<Row>>, Error> {
        let keys: Vec<_> = keys.into_iter().collect();
        self.lock().rows_of(&keys, columns)
    }
}
