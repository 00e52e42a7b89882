//! How an index is opened.

/// How an index is opened. [`Options::default`] has one column, a log that holds up to 65,536 commits for views, and no
/// commits that are kept for no view; a folder's log is shortened each 64 MiB. Each method changes one option.
///
/// ```
/// use rowanspan::{Error, Index, Options};
///
/// let index = Index::open(Options::default().columns(4).log_retention(100))?;
/// assert_eq!(index.columns(), 4);
/// # Ok::<(), Error>(())
/// ```
#[derive(Clone, Copy, Debug, PartialEq, Eq)]
#[non_exhaustive]
pub struct Options {
    /// How many columns a row has: 1 to 16.
    pub columns: u64,
    /// How many commits the log may hold for the view that is furthest behind: 1 to 65,536.
    pub log_capacity: u64,
    /// How many of the last commits the log keeps for readers of [`Index::feed`](crate::Index::feed): at most 65,536.
    pub log_retention: u64,
    /// After how many bytes more the log of a folder is shortened; 0 if only
    /// [`Index::checkpoint`](crate::Index::checkpoint) does it. An index without a folder doesn't use it.
    pub checkpoint: u64,
}

impl Options {
    /// The same options, with this number of columns: 1 to 16.
    ///
    /// ```
    /// assert_eq!(rowanspan::Options::default().columns(4).columns, 4);
    /// ```
    #[must_use]
    pub fn columns(self, columns: u64) -> Options {
        Options { columns, ..self }
    }

    /// The same options, with a log that may hold this number of commits for the view that is furthest behind: 1 to
    /// 65,536.
    ///
    /// ```
    /// assert_eq!(rowanspan::Options::default().log_capacity(4096).log_capacity, 4096);
    /// ```
    #[must_use]
    pub fn log_capacity(self, log_capacity: u64) -> Options {
        Options {
            log_capacity,
            ..self
        }
    }

    /// The same options, with a log that keeps this number of the last commits: at most 65,536.
    ///
    /// ```
    /// assert_eq!(rowanspan::Options::default().log_retention(100).log_retention, 100);
    /// ```
    #[must_use]
    pub fn log_retention(self, log_retention: u64) -> Options {
        Options {
            log_retention,
            ..self
        }
    }

    /// The same options, with a folder's log that is shortened after this number of bytes more; 0: not unasked.
    ///
    /// ```
    /// assert_eq!(rowanspan::Options::default().checkpoint(1_000_000).checkpoint, 1_000_000);
    /// ```
    #[must_use]
    pub fn checkpoint(self, checkpoint: u64) -> Options {
        Options { checkpoint, ..self }
    }

    /// The former name of [`log_capacity`](Options::log_capacity).
    #[deprecated(note = "its name is now log_capacity")]
    #[must_use]
    pub fn feed(self, feed: u64) -> Options {
        self.log_capacity(feed)
    }

    /// The former name of [`log_retention`](Options::log_retention).
    #[deprecated(note = "its name is now log_retention")]
    #[must_use]
    pub fn keep(self, keep: u64) -> Options {
        self.log_retention(keep)
    }
}

impl Default for Options {
    fn default() -> Options {
        Options {
            columns: 1,
            log_capacity: 65_536,
            log_retention: 0,
            checkpoint: 67_108_864,
        }
    }
}
