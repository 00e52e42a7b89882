//! The calls of an index for its commits and its nodes.

use crate::answers::Delta;
use crate::calls::{done, some_answer, DONE};
use crate::error::Error;
use crate::index::Index;

/// What a tidy has done.
#[derive(Clone, Copy, Debug, PartialEq, Eq)]
pub enum Tidied {
    /// There was nothing to do.
    Nothing,
    /// It took out an empty border.
    EmptyBorder,
    /// It took out an interior with one child, below the root.
    LoneChild,
    /// It took out a root with one child.
    LoneRootChild,
    /// It took out an empty layer.
    EmptyLayer,
}

impl Index {
    /// What the commits after commit `from` did, in their order, at most `limit` (1 to 1000) of them.
    ///
    /// ```
    /// # use rowanspan::{Error, Index, Options};
    /// let mut index = Index::open(Options::default().log_retention(100))?;
    /// index.put("apple", &[(0, b"red")])?;
    /// index.remove("apple")?;
    /// let deltas = index.feed(1, 10)?;
    /// assert_eq!((deltas.len(), deltas[0].number), (1, 2));
    /// assert!(deltas[0].before.is_some() && deltas[0].after.is_none());
    /// # Ok::<(), Error>(())
    /// ```
    ///
    /// # Errors
    ///
    /// [`Behind`](Error::Behind) if the log no longer has some of them, [`BadLimit`](Error::BadLimit) and
    /// [`NoMemory`](Error::NoMemory).
    pub fn feed(&self, from: u64, limit: u16) -> Result<Vec<Delta>, Error> {
        some_answer(
            |room| self.library.feed(from, limit, room),
            |mut reader| reader.deltas(),
        )
    }

    /// Takes at most one node out of the tree near the place of a key, if removes have left one that isn't needed.
    /// [`Index::collect`] frees it. A program needs neither, since each remove that leaves a node without rows does
    /// both.
    ///
    /// ```
    /// # use rowanspan::{Error, Index, Options, Tidied};
    /// # let mut index = Index::open(Options::default())?;
    /// index.put("apple", &[])?;
    /// assert_eq!(index.tidy("apple")?, Tidied::Nothing);
    /// # Ok::<(), Error>(())
    /// ```
    ///
    /// # Errors
    ///
    /// [`KeyTooLong`](Error::KeyTooLong), [`Spent`](Error::Spent) and [`NoMemory`](Error::NoMemory).
    pub fn tidy(&mut self, key: impl AsRef<[u8]>) -> Result<Tidied, Error> {
        match done(self.library.tidy(key.as_ref()))? {
            0 => Ok(Tidied::Nothing),
            1 => Ok(Tidied::EmptyBorder),
            2 => Ok(Tidied::LoneChild),
            3 => Ok(Tidied::LoneRootChild),
            4 => Ok(Tidied::EmptyLayer),
            _ => Err(Error::Unknown(DONE)),
        }
    }

    /// Begins the next epoch. Returns its number.
    ///
    /// ```
    /// # use rowanspan::{Error, Index, Options};
    /// # let mut index = Index::open(Options::default())?;
    /// assert_eq!(index.advance()?, 1);
    /// # Ok::<(), Error>(())
    /// ```
    ///
    /// # Errors
    ///
    /// [`Spent`](Error::Spent).
    pub fn advance(&mut self) -> Result<u64, Error> {
        done(self.library.advance())
    }

    /// Frees the nodes that tidies took out. Returns how many.
    ///
    /// ```
    /// # use rowanspan::{Error, Index, Options};
    /// # let mut index = Index::open(Options::default())?;
    /// assert_eq!(index.collect(), 0);
    /// # Ok::<(), Error>(())
    /// ```
    pub fn collect(&mut self) -> u64 {
        self.library.collect()
    }

    /// How many commits were made, which is the number of the last one.
    ///
    /// ```
    /// # use rowanspan::{Error, Index, Options};
    /// # let mut index = Index::open(Options::default())?;
    /// index.put("apple", &[])?;
    /// assert_eq!(index.commits(), 1);
    /// # Ok::<(), Error>(())
    /// ```
    #[must_use]
    pub fn commits(&self) -> u64 {
        self.library.commits()
    }

    /// How many nodes are in use, of at most 4,294,967,295 nodes.
    ///
    /// ```
    /// # use rowanspan::{Error, Index, Options};
    /// # let index = Index::open(Options::default())?;
    /// assert_eq!(index.nodes(), 2);
    /// # Ok::<(), Error>(())
    /// ```
    #[must_use]
    pub fn nodes(&self) -> u64 {
        self.library.nodes()
    }

    /// How many columns a row has.
    ///
    /// ```
    /// # use rowanspan::{Error, Index, Options};
    /// let index = Index::open(Options::default().columns(2))?;
    /// assert_eq!(index.columns(), 2);
    /// # Ok::<(), Error>(())
    /// ```
    #[must_use]
    pub fn columns(&self) -> u64 {
        self.library.columns()
    }
}
