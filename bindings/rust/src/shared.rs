//! An index that threads share.

use crate::answers::{Delta, Page, Row, Totals};
use crate::error::Error;
use crate::index::Index;
use crate::options::Options;
use crate::range::{KeyRange, Pairs, Source};
use crate::upkeep::Tidied;
use crate::views::{Keys, RowTest, View};
use std::path::Path;
use std::sync::{Arc, Mutex, MutexGuard, PoisonError};

/// An [`Index`] behind a mutex, with its methods over `&self`. A clone is the same index. The last clone that is dropped
/// frees its memory.
///
/// The calls of all threads run one after another, also those that only read: a call waits until that of another thread
/// has returned. [`lock`](SharedIndex::lock) makes several calls in one holding of the mutex. A [`range`] holds it while
/// it reads some rows, and not between two reads.
///
/// [`range`]: SharedIndex::range
///
/// ```
/// use rowanspan::{Error, Options, SharedIndex};
///
/// let index = SharedIndex::open(Options::default())?;
/// let threads: Vec<_> = (0..8)
///     .map(|number| {
///         let index = index.clone();
///         std::thread::spawn(move || index.put([number], &[(0, b"red")]))
///     })
///     .collect();
/// for thread in threads {
///     thread.join().expect("no call panics")?;
/// }
/// assert_eq!((index.len(), index.range(..).count()), (8, 8));
/// # Ok::<(), Error>(())
/// ```
#[derive(Clone, Debug)]
pub struct SharedIndex {
    index: Arc<Mutex<Index>>,
}

impl From<Index> for SharedIndex {
    fn from(index: Index) -> SharedIndex {
        SharedIndex {
            index: Arc::new(Mutex::new(index)),
        }
    }
}

macro_rules! as_of_index {
    ($(fn $name:ident($($argument:ident: $type:ty),*) -> $answer:ty;)*) => {$(
        #[doc = concat!("[`Index::", stringify!($name), "`], in one holding of the mutex.")]
        ///
        /// # Errors
        ///
        #[doc = concat!("Those of [`Index::", stringify!($name), "`].")]
        pub fn $name(&self $(, $argument: $type)*) -> Result<$answer, Error> {
            self.lock().$name($($argument),*)
        }
    )*};
}

macro_rules! value_of_index {
    ($(fn $name:ident() -> $answer:ty;)*) => {$(
        #[doc = concat!("[`Index::", stringify!($name), "`], in one holding of the mutex.")]
        #[must_use]
        pub fn $name(&self) -> $answer {
            self.lock().$name()
        }
    )*};
}

#[rustfmt::skip]
impl SharedIndex {
    as_of_index! {
        fn put(key: impl AsRef<[u8]>, sets: &[(u8, &[u8])]) -> u64;
        fn put_if(key: impl AsRef<[u8]>, sets: &[(u8, &[u8])], version: u64) -> u64;
        fn remove(key: impl AsRef<[u8]>) -> Option<u64>;
        fn get(key: impl AsRef<[u8]>) -> Option<Row>;
        fn get_columns(key: impl AsRef<[u8]>, columns: &[u8]) -> Option<Row>;
        fn get_column(key: impl AsRef<[u8]>, column: u8) -> Option<Vec<u8>>;
        fn contains_key(key: impl AsRef<[u8]>) -> bool;
        fn first(start: impl AsRef<[u8]>, limit: u16, columns: &[u8]) -> Vec<(Vec<u8>, Row)>;
        fn last(before: Option<&[u8]>, limit: u16, columns: &[u8]) -> Vec<(Vec<u8>, Row)>;
        fn count(range: impl KeyRange) -> usize;
        fn count_up_to(range: impl KeyRange, most: usize) -> usize;
        fn first_key_value() -> Option<(Vec<u8>, Row)>;
        fn last_key_value() -> Option<(Vec<u8>, Row)>;
        fn build(keys: Keys<'_>, test: RowTest<'_>) -> View;
        fn apply(view: Option<View>) -> Option<u64>;
        fn keep_views() -> u64;
        fn view(view: View, floor: u64, start: impl AsRef<[u8]>, limit: u16) -> Page;
        fn totals(view: View, floor: u64) -> Totals;
        fn drop_view(view: View) -> ();
        fn feed(from: u64, limit: u16) -> Vec<Delta>;
        fn tidy(key: impl AsRef<[u8]>) -> Tidied;
        fn advance() -> u64;
        fn sync() -> u64;
        fn checkpoint() -> ();
    }

    value_of_index! {
        fn len() -> usize;
        fn is_empty() -> bool;
        fn commits() -> u64;
        fn nodes() -> u64;
        fn columns() -> u64;
        fn durable() -> u64;
    }
}

impl SharedIndex {
    /// [`Index::open`].
    ///
    /// # Errors
    ///
    /// Those of [`Index::open`].
    pub fn open(options: Options) -> Result<SharedIndex, Error> {
        Index::open(options).map(SharedIndex::from)
    }

    /// [`Index::open_folder`].
    ///
    /// # Errors
    ///
    /// Those of [`Index::open_folder`].
    pub fn open_folder(path: impl AsRef<Path>, options: Options) -> Result<SharedIndex, Error> {
        Index::open_folder(path, options).map(SharedIndex::from)
    }

    /// The index, for several calls that no other thread's come between. Other threads wait until it is dropped. A
    /// thread that calls the index while it has the guard waits forever.
    ///
    /// ```
    /// # use rowanspan::{Error, Options, SharedIndex};
    /// # let index = SharedIndex::open(Options::default())?;
    /// let mut held = index.lock();
    /// let row = held.get("apple")?;
    /// let commit = held.put("apple", &[(0, b"red")])?;
    /// assert_eq!((row, held.commits()), (None, commit));
    /// # Ok::<(), Error>(())
    /// ```
    pub fn lock(&self) -> MutexGuard<'_, Index> {
        // a thread that panicked had no call open, so the index is whole
        self.index.lock().unwrap_or_else(PoisonError::into_inner)
    }

    /// [`Index::collect`], in one holding of the mutex.
    pub fn collect(&self) -> u64 {
        self.lock().collect()
    }

    /// [`Index::range`]. Each read of some rows is one holding of the mutex: what other threads change between two
    /// reads, after the last key that was returned, may be seen or not.
    pub fn range(&self, range: impl KeyRange) -> Pairs<'_> {
        Pairs::of_range(Source::Shared(self), &range)
    }

    /// [`Index::prefix`], read as by [`range`](SharedIndex::range).
    pub fn prefix(&self, prefix: impl AsRef<[u8]>) -> Pairs<'_> {
        Pairs::of_prefix(Source::Shared(self), prefix.as_ref())
    }

    /// [`Index::iter`], read as by [`range`](SharedIndex::range).
    pub fn iter(&self) -> Pairs<'_> {
        self.range(..)
    }
}

/// All rows, as [`iter`](SharedIndex::iter) returns them.
impl<'a> IntoIterator for &'a SharedIndex {
    type Item = Result<(Vec<u8>, Row), Error>;
    type IntoIter = Pairs<'a>;

    fn into_iter(self) -> Pairs<'a> {
        self.iter()
    }
}
