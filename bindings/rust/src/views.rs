//! Views of an index, and its calls for them.

use crate::answers::{Page, Totals};
use crate::calls::{done, some_answer, CURRENT};
use crate::error::Error;
use crate::index::Index;
use crate::passed::ViewTest;

/// A view of an index, as [`Index::build`] returns it.
///
/// It is the view's number, so a copy is the same view. An index uses a number once: after [`Index::drop_view`] there
/// is no view of it. Another index may have another view of the same number, which isn't told apart.
#[derive(Clone, Copy, Debug, PartialEq, Eq, Hash)]
pub struct View(u64);

impl View {
    /// Its number, from 1 on.
    ///
    /// ```
    /// # use rowanspan::{Error, Index, Keys, Options, RowTest};
    /// # let mut index = Index::open(Options::default())?;
    /// let view = index.build(Keys::Prefix(b"a"), RowTest::Any)?;
    /// assert_eq!(view.number(), 1);
    /// # Ok::<(), Error>(())
    /// ```
    #[must_use]
    pub fn number(self) -> u64 {
        self.0
    }
}

/// The keys of a view.
#[derive(Clone, Copy, Debug, PartialEq, Eq)]
pub enum Keys<'a> {
    /// The keys that begin with these bytes.
    Prefix(&'a [u8]),
    /// The keys from this one on.
    From(&'a [u8]),
    /// The keys from the first one on that are before the second.
    Between(&'a [u8], &'a [u8]),
}

/// The test that a row passes if a view is to show it. The amount of a column is its bytes as a number, the highest
/// byte first, or 0 if there are more than eight.
#[derive(Clone, Copy, Debug, PartialEq, Eq)]
pub enum RowTest<'a> {
    /// Each row passes.
    Any,
    /// The column of this number has these bytes.
    Equals(u8, &'a [u8]),
    /// The amount of the column of this number is at least this.
    AtLeast(u8, u64),
}

impl<'a> RowTest<'a> {
    fn of_library(self) -> ViewTest<'a> {
        match self {
            RowTest::Any => ViewTest::new(0, 0, 0, &[]),
            RowTest::Equals(column, bytes) => ViewTest::new(1, column, 0, bytes),
            RowTest::AtLeast(column, least) => ViewTest::new(2, column, least, &[]),
        }
    }
}

impl Index {
    /// Builds a view, which is at the newest commit.
    ///
    /// ```
    /// # use rowanspan::{Error, Index, Keys, Options, RowTest};
    /// # let mut index = Index::open(Options::default())?;
    /// index.put("apple", &[(0, b"\x05")])?;
    /// let view = index.build(Keys::Prefix(b"a"), RowTest::AtLeast(0, 3))?;
    /// assert_eq!(index.view(view, 0, "", 1)?.count, 1);
    /// # Ok::<(), Error>(())
    /// ```
    ///
    /// # Errors
    ///
    /// [`KeyTooLong`](Error::KeyTooLong), [`BadColumn`](Error::BadColumn), [`ColumnTooLong`](Error::ColumnTooLong),
    /// [`BadRange`](Error::BadRange), [`TooManyViews`](Error::TooManyViews), [`Spent`](Error::Spent) and
    /// [`NoMemory`](Error::NoMemory).
    pub fn build(&mut self, keys: Keys<'_>, test: RowTest<'_>) -> Result<View, Error> {
        let test = test.of_library();
        done(match keys {
            Keys::Prefix(key) => self.library.build_prefix(key, test),
            Keys::From(lo) => self.library.build_from(lo, test),
            Keys::Between(lo, hi) => self.library.build_between(lo, hi, test),
        })
        .map(View)
    }

    /// Applies the next commit to a view; if `view` is none, to the view that is furthest behind. Returns the number of
    /// the commit at which the view then is, or none if there was nothing to apply.
    ///
    /// ```
    /// # use rowanspan::{Error, Index, Keys, Options, RowTest};
    /// # let mut index = Index::open(Options::default())?;
    /// let view = index.build(Keys::Prefix(b"a"), RowTest::Any)?;
    /// index.put("apple", &[])?;
    /// assert_eq!(index.apply(Some(view))?, Some(1));
    /// assert_eq!(index.apply(None)?, None);
    /// # Ok::<(), Error>(())
    /// ```
    ///
    /// # Errors
    ///
    /// [`NoSuchView`](Error::NoSuchView) and [`NoMemory`](Error::NoMemory).
    pub fn apply(&mut self, view: Option<View>) -> Result<Option<u64>, Error> {
        match self.library.apply(view.map_or(0, View::number)) {
            (CURRENT, _) => Ok(None),
            answer => done(answer).map(Some),
        }
    }

    /// Applies commits to the views that are behind, until all are at the newest commit. Returns how many times it
    /// applied a commit to a view.
    ///
    /// ```
    /// # use rowanspan::{Error, Index, Keys, Options, RowTest};
    /// # let mut index = Index::open(Options::default())?;
    /// let view = index.build(Keys::Prefix(b"a"), RowTest::Any)?;
    /// index.put("apple", &[])?;
    /// index.put("apricot", &[])?;
    /// assert_eq!(index.keep_views()?, 2);
    /// assert_eq!(index.view(view, 2, "", 1)?.count, 2);
    /// # Ok::<(), Error>(())
    /// ```
    ///
    /// # Errors
    ///
    /// [`NoMemory`](Error::NoMemory). The commits that were applied by then stay applied.
    pub fn keep_views(&mut self) -> Result<u64, Error> {
        done(self.library.keep_views())
    }

    /// What a view shows if it is at commit `floor` or later, with its first rows from a key on, at most `limit` (1 to
    /// 1000).
    ///
    /// ```
    /// # use rowanspan::{Error, Index, Keys, Options, RowTest};
    /// # let mut index = Index::open(Options::default())?;
    /// index.put("apple", &[(0, b"\x05")])?;
    /// let view = index.build(Keys::Prefix(b"a"), RowTest::Any)?;
    /// let page = index.view(view, 1, "", 10)?;
    /// assert_eq!((page.at, page.count, page.sums[0], page.rows.len()), (1, 1, 5, 1));
    /// assert_eq!(index.view(view, 2, "", 10), Err(Error::Behind(1)));
    /// # Ok::<(), Error>(())
    /// ```
    ///
    /// # Errors
    ///
    /// [`Behind`](Error::Behind) if the view is before the floor, [`KeyTooLong`](Error::KeyTooLong),
    /// [`BadLimit`](Error::BadLimit), [`NoSuchView`](Error::NoSuchView) and [`NoMemory`](Error::NoMemory).
    pub fn view(
        &self,
        view: View,
        floor: u64,
        start: impl AsRef<[u8]>,
        limit: u16,
    ) -> Result<Page, Error> {
        some_answer(
            |room| {
                self.library
                    .view(view.number(), floor, start.as_ref(), limit, room)
            },
            |mut reader| reader.page(),
        )
    }

    /// The totals of a view if it is at commit `floor` or later: those of its pages. No row is read, and the library
    /// takes no memory.
    ///
    /// ```
    /// # use rowanspan::{Error, Index, Keys, Options, RowTest};
    /// # let mut index = Index::open(Options::default())?;
    /// index.put("apple", &[(0, b"\x05")])?;
    /// let view = index.build(Keys::Prefix(b"a"), RowTest::Any)?;
    /// let totals = index.totals(view, 1)?;
    /// assert_eq!((totals.at, totals.count, &totals.sums[..]), (1, 1, &[5][..]));
    /// assert_eq!(index.totals(view, 2), Err(Error::Behind(1)));
    /// # Ok::<(), Error>(())
    /// ```
    ///
    /// # Errors
    ///
    /// [`Behind`](Error::Behind) if the view is before the floor, and [`NoSuchView`](Error::NoSuchView).
    pub fn totals(&self, view: View, floor: u64) -> Result<Totals, Error> {
        let (status, totals) = self.library.totals(view.number(), floor);
        done((status, totals.commit)).map(|at| Totals {
            at,
            count: totals.row_count,
            sums: totals.sums(),
        })
    }

    /// Ends a view.
    ///
    /// ```
    /// # use rowanspan::{Error, Index, Keys, Options, RowTest};
    /// # let mut index = Index::open(Options::default())?;
    /// let view = index.build(Keys::Prefix(b"a"), RowTest::Any)?;
    /// index.drop_view(view)?;
    /// assert_eq!(index.drop_view(view), Err(Error::NoSuchView));
    /// # Ok::<(), Error>(())
    /// ```
    ///
    /// # Errors
    ///
    /// [`NoSuchView`](Error::NoSuchView).
    pub fn drop_view(&mut self, view: View) -> Result<(), Error> {
        done((self.library.drop_view(view.number()), 0)).map(|_| ())
    }
}
