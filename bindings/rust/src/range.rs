//! Ranges of keys, and the iterator over their rows.

use crate::answers::Row;
use crate::error::Error;
use crate::index::{Index, MAX_KEY_BYTES, MAX_LIMIT};
use crate::shared::SharedIndex;
use std::iter::FusedIterator;
use std::ops::{
    Bound, Range, RangeBounds, RangeFrom, RangeFull, RangeInclusive, RangeTo, RangeToInclusive,
};
use std::vec::IntoIter;

type Bounds = (Bound<Vec<u8>>, Bound<Vec<u8>>);

mod sealed {
    /// A range whose bounds can be copied.
    pub trait Bounded {
        fn bounds(&self) -> super::Bounds;
    }
}

use sealed::Bounded;

/// A range of keys, as [`Index::range`] takes it: each range of the standard library (`..`, `lo..`, `lo..hi`,
/// `lo..=hi`, `..hi`, `..=hi`), and a pair of [`Bound`]s. Its keys are of any one type that is bytes, such as `&str`,
/// `&[u8]` or `Vec<u8>`.
pub trait KeyRange: Bounded {}

fn copied<K: AsRef<[u8]>>(bound: Bound<&K>) -> Bound<Vec<u8>> {
    match bound {
        Bound::Included(key) => Bound::Included(key.as_ref().to_vec()),
        Bound::Excluded(key) => Bound::Excluded(key.as_ref().to_vec()),
        Bound::Unbounded => Bound::Unbounded,
    }
}

macro_rules! key_ranges {
    ($($range:ty),*) => {$(
        impl<K: AsRef<[u8]>> Bounded for $range {
            fn bounds(&self) -> Bounds {
                let start = RangeBounds::<K>::start_bound(self);
                (copied(start), copied(RangeBounds::<K>::end_bound(self)))
            }
        }

        impl<K: AsRef<[u8]>> KeyRange for $range {}
    )*};
}

key_ranges!(
    Range<K>,
    RangeFrom<K>,
    RangeInclusive<K>,
    RangeTo<K>,
    RangeToInclusive<K>,
    (Bound<K>, Bound<K>)
);

impl Bounded for RangeFull {
    fn bounds(&self) -> Bounds {
        (Bound::Unbounded, Bound::Unbounded)
    }
}

impl KeyRange for RangeFull {}

// The least key that comes after all keys that begin so, if there is one.
fn after_prefix(prefix: &[u8]) -> Option<Vec<u8>> {
    let rest = prefix.iter().rev().skip_while(|byte| **byte == u8::MAX);
    let mut after = prefix[..rest.count()].to_vec();
    *after.last_mut()? += 1;
    Some(after)
}

// The least key after this one, if there is one.
fn after_key(key: &[u8]) -> Option<Vec<u8>> {
    if key.len() == MAX_KEY_BYTES {
        after_prefix(key)
    } else {
        Some([key, &[0]].concat())
    }
}

// The key before which all keys of this end are, and no others; none if that holds for all keys.
fn key_at_end(end: &Bound<Vec<u8>>) -> Option<Vec<u8>> {
    match end {
        // (no key is as long, so those before it are those up to what it begins with)
        Bound::Included(key) | Bound::Excluded(key) if key.len() > MAX_KEY_BYTES => {
            after_key(&key[..MAX_KEY_BYTES])
        }
        Bound::Included(key) => after_key(key),
        Bound::Excluded(key) => Some(key.clone()),
        Bound::Unbounded => None,
    }
}

/// The index that a range reads.
#[derive(Clone, Copy, Debug)]
pub(crate) enum Source<'a> {
    Own(&'a Index),
    Shared(&'a SharedIndex),
}

impl Source<'_> {
    fn first(self, start: &[u8], limit: u16) -> Result<Vec<(Vec<u8>, Row)>, Error> {
        match self {
            Source::Own(index) => index.first(start, limit, &[]),
            Source::Shared(index) => index.first(start, limit, &[]),
        }
    }

    fn last(self, before: Option<&[u8]>, limit: u16) -> Result<Vec<(Vec<u8>, Row)>, Error> {
        match self {
            Source::Own(index) => index.last(before, limit, &[]),
            Source::Shared(index) => index.last(before, limit, &[]),
        }
    }

    fn count(self, keys: &Unread) -> Result<usize, Error> {
        match self {
            Source::Own(index) => index.count_keys(keys, usize::MAX),
            Source::Shared(index) => index.lock().count_keys(keys, usize::MAX),
        }
    }
}

/// The keys of a range that weren't read yet.
#[derive(Debug)]
pub(crate) struct Unread {
    pub(crate) start: Vec<u8>,
    end: Bound<Vec<u8>>,
}

impl Unread {
    /// The keys of a range, if there are any.
    pub(crate) fn of(range: &impl KeyRange) -> Option<Unread> {
        let (start, end) = range.bounds();
        let start = match start {
            Bound::Included(key) => key,
            Bound::Excluded(key) => after_key(&key)?,
            Bound::Unbounded => Vec::new(),
        };
        Some(Unread { start, end }).filter(|unread| !unread.is_empty())
    }

    /// The key before which all of them are, and no others from the start on; none if that holds for all keys.
    pub(crate) fn end(&self) -> Option<Vec<u8>> {
        key_at_end(&self.end)
    }

    fn is_past_end(&self, key: &[u8]) -> bool {
        match &self.end {
            Bound::Included(end) => key > &end[..],
            Bound::Excluded(end) => key >= &end[..],
            Bound::Unbounded => false,
        }
    }

    fn is_empty(&self) -> bool {
        self.is_past_end(&self.start)
    }
}

// How many rows are read first; the next times four times as many, up to MAX_LIMIT.
const FIRST_LIMIT: u16 = 32;

// The rows that one end of an iterator has read and not yet returned, and how many it reads next.
#[derive(Debug)]
struct End {
    read: IntoIter<(Vec<u8>, Row)>,
    limit: u16,
}

impl End {
    fn new() -> End {
        End {
            read: Vec::new().into_iter(),
            limit: FIRST_LIMIT,
        }
    }

    // Keeps the rows that were read, of which the first ones are of the range. Returns the key of the last one if there
    // may be more after it.
    fn keep(&mut self, mut pairs: Vec<(Vec<u8>, Row)>, inside: usize) -> Option<Vec<u8>> {
        let last = match inside == usize::from(self.limit) {
            true => pairs.last().map(|(key, _)| key.clone()),
            false => None,
        };
        pairs.truncate(inside);
        self.read = pairs.into_iter();
        self.limit = self.limit.saturating_mul(4).min(MAX_LIMIT);
        last
    }
}

/// The rows of a range, in the order of their keys: see [`Index::range`] and [`Index::prefix`]. It is read from both
/// ends: [`rev`](Iterator::rev) returns the rows against that order, and
/// [`next_back`](DoubleEndedIterator::next_back) the last one. Each row is returned once. After an error it ends.
/// [`count`](Iterator::count) copies no rows.
#[derive(Debug)]
#[must_use = "an iterator reads no rows before it is asked for them"]
pub struct Pairs<'a> {
    source: Source<'a>,
    // the keys between those that both ends have read, if there may be any
    unread: Option<Unread>,
    front: End,
    // (its rows are against the order of their keys)
    back: End,
}

impl<'a> Pairs<'a> {
    pub(crate) fn of_range(source: Source<'a>, range: &impl KeyRange) -> Pairs<'a> {
        Pairs::new(source, Unread::of(range))
    }

    pub(crate) fn of_prefix(source: Source<'a>, prefix: &[u8]) -> Pairs<'a> {
        let (start, end) = (prefix.to_vec(), after_prefix(prefix));
        let end = end.map_or(Bound::Unbounded, Bound::Excluded);
        Pairs::new(source, Some(Unread { start, end }))
    }

    fn new(source: Source<'a>, unread: Option<Unread>) -> Pairs<'a> {
        Pairs {
            source,
            unread,
            front: End::new(),
            back: End::new(),
        }
    }

    fn read_front(&mut self, unread: Unread) -> Result<(), Error> {
        let pairs = self.source.first(&unread.start, self.front.limit)?;
        let inside = pairs.partition_point(|(key, _)| !unread.is_past_end(key));
        let next = self.front.keep(pairs, inside);
        self.unread = next.and_then(|key| after_key(&key)).map(|start| Unread {
            start,
            end: unread.end,
        });
        Ok(())
    }

    fn read_back(&mut self, unread: Unread) -> Result<(), Error> {
        if unread.start.len() > MAX_KEY_BYTES {
            return Err(Error::KeyTooLong);
        }
        let before = unread.end();
        let pairs = self.source.last(before.as_deref(), self.back.limit)?;
        let inside = pairs.partition_point(|(key, _)| *key >= unread.start);
        self.unread = self.back.keep(pairs, inside).map(|key| Unread {
            start: unread.start,
            end: Bound::Excluded(key),
        });
        Ok(())
    }

    // Reads rows by this function if there may be some that weren't read. After an error none are left.
    fn read_more(
        &mut self,
        read: impl FnOnce(&mut Self, Unread) -> Result<(), Error>,
    ) -> Result<(), Error> {
        let Some(unread) = self.unread.take().filter(|unread| !unread.is_empty()) else {
            return Ok(());
        };
        let done = read(self, unread);
        if done.is_err() {
            self.front = End::new();
            self.back = End::new();
        }
        done
    }
}

impl Iterator for Pairs<'_> {
    type Item = Result<(Vec<u8>, Row), Error>;

    fn next(&mut self) -> Option<Self::Item> {
        if let Some(pair) = self.front.read.next() {
            return Some(Ok(pair));
        }
        if let Err(error) = self.read_more(Self::read_front) {
            return Some(Err(error));
        }
        let pair = self.front.read.next();
        pair.or_else(|| self.back.read.next_back()).map(Ok)
    }

    // Copies no rows.
    fn count(self) -> usize {
        let source = self.source;
        let unread = self.unread.filter(|unread| !unread.is_empty());
        match unread.map_or(Ok(0), |keys| source.count(&keys)) {
            Ok(count) => self.front.read.len() + count + self.back.read.len(),
            // the error is the last item
            Err(_) => self.front.read.len() + 1,
        }
    }
}

impl DoubleEndedIterator for Pairs<'_> {
    fn next_back(&mut self) -> Option<Self::Item> {
        if let Some(pair) = self.back.read.next() {
            return Some(Ok(pair));
        }
        if let Err(error) = self.read_more(Self::read_back) {
            return Some(Err(error));
        }
        let pair = self.back.read.next();
        pair.or_else(|| self.front.read.next_back()).map(Ok)
    }
}

impl FusedIterator for Pairs<'_> {}
