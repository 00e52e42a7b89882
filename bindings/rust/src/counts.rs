//! How many rows an index has, and how many of them in a range of keys.

use crate::calls::DONE;
use crate::error::Error;
use crate::index::Index;
use crate::range::{KeyRange, Unread};

impl Index {
    /// How many rows there are. It costs next to nothing: the rows aren't counted.
    ///
    /// ```
    /// # use rowanspan::{Error, Index, Options};
    /// # let mut index = Index::open(Options::default())?;
    /// index.put("apple", &[(0, b"red")])?;
    /// index.put("apple", &[(0, b"green")])?;
    /// assert_eq!(index.len(), 1);
    /// # Ok::<(), Error>(())
    /// ```
    #[must_use]
    pub fn len(&self) -> usize {
        // (no index has 2^32 rows)
        self.library.len() as usize
    }

    /// Whether there are no rows.
    ///
    /// ```
    /// # use rowanspan::{Error, Index, Options};
    /// # let mut index = Index::open(Options::default())?;
    /// assert!(index.is_empty());
    /// index.put("apple", &[])?;
    /// assert!(!index.is_empty());
    /// # Ok::<(), Error>(())
    /// ```
    #[must_use]
    pub fn is_empty(&self) -> bool {
        self.len() == 0
    }

    /// How many rows have keys in a range. Ranges are as of [`range`](Index::range), and a range that ends before it
    /// begins has none.
    ///
    /// It walks over the rows that it counts, and copies none, as the method [`count`](Iterator::count) of a range or of
    /// a [`prefix`](Index::prefix) does, which returns no error. The number of all rows is ready ([`len`](Index::len)),
    /// and so is the count of a view ([`totals`](Index::totals)).
    ///
    /// ```
    /// # let mut index = rowanspan::Index::open(rowanspan::Options::default())?;
    /// # for key in ["a", "b", "c"] { index.put(key, &[])?; }
    /// assert_eq!(index.count("a".."c")?, 2);
    /// assert_eq!(index.count("b"..)?, 2);
    /// assert_eq!(index.count("c".."a")?, 0);
    /// assert_eq!(index.count(..)?, 3);
    /// # Ok::<(), rowanspan::Error>(())
    /// ```
    ///
    /// # Errors
    ///
    /// [`KeyTooLong`](Error::KeyTooLong) if the range begins with a key that is too long, and
    /// [`NoMemory`](Error::NoMemory).
    pub fn count(&self, range: impl KeyRange) -> Result<usize, Error> {
        self.count_up_to(range, usize::MAX)
    }

    /// How many rows have keys in a range, or `most` if there are more: see [`count`](Index::count). The walk ends after
    /// `most` rows.
    ///
    /// ```
    /// # let mut index = rowanspan::Index::open(rowanspan::Options::default())?;
    /// # for key in ["a", "b", "c"] { index.put(key, &[])?; }
    /// assert_eq!(index.count_up_to(.., 2)?, 2);
    /// assert_eq!(index.count_up_to("c".., 2)?, 1);
    /// # Ok::<(), rowanspan::Error>(())
    /// ```
    ///
    /// # Errors
    ///
    /// Those of [`count`](Index::count).
    pub fn count_up_to(&self, range: impl KeyRange, most: usize) -> Result<usize, Error> {
        match Unread::of(&range) {
            Some(keys) => self.count_keys(&keys, most),
            None => Ok(0),
        }
    }

    /// How many rows have these keys, up to a number.
    pub(crate) fn count_keys(&self, keys: &Unread, most: usize) -> Result<usize, Error> {
        // (no index has as many rows as that)
        let most = u32::try_from(most).unwrap_or(u32::MAX);
        match self.library.count(&keys.start, keys.end().as_deref(), most) {
            (DONE, count) => Ok(count as usize),
            (status, _) => Err(Error::of(status, 0)),
        }
    }
}
