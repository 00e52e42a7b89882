//! Rowanspan in a Rust program: an ordered key-value index in memory, with views that stay exact. Its rows may be in a
//! folder too ([`Index::open_folder`]).
//!
//! ```
//! use rowanspan::{Error, Index, Options};
//!
//! let mut index = Index::open(Options::default())?;
//! let commit = index.put("apple", &[(0, b"red")])?;
//! let row = index.get("apple")?.expect("it was put");
//! assert_eq!((row.version, &row.columns[0][..]), (commit, &b"red"[..]));
//! for pair in index.range("a".."b") {
//!     let (key, row) = pair?;
//!     println!("{key:?} {row:?}");
//! }
//! # Ok::<(), Error>(())
//! ```
//!
//! The crate links `librowanspan.a`, from the folder in the environment's `ROWANSPAN_DIST` or from its `lib`; without
//! that, from the release or the checkout in which the crate is.
//!
//! An [`Index`] is `Send`: it may be moved to another thread. It isn't `Sync`: the library takes one call at a time,
//! also if both calls only read. Threads share a [`SharedIndex`].
//!
//! ```compile_fail
//! fn is_sync<T: Sync>() {}
//! is_sync::<rowanspan::Index>();
//! ```
#![deny(unsafe_code)]
#![warn(missing_docs)]

mod answers;
mod batches;
mod calls;
mod counts;
mod error;
mod folder;
mod index;
mod many;
mod options;
mod passed;
mod range;
#[allow(unsafe_code)]
mod raw;
mod shared;
mod upkeep;
mod views;

pub use answers::{Delta, Page, Row, Totals};
pub use batches::{Batch, Batched, Made, MAX_BATCH};
pub use error::Error;
pub use index::{Index, MAX_KEY_BYTES, MAX_LIMIT};
pub use options::Options;
pub use range::{KeyRange, Pairs};
pub use shared::SharedIndex;
pub use upkeep::Tidied;
pub use views::{Keys, RowTest, View};

/// The version of the library that is linked, as `1.2.3`.
///
/// ```
/// assert_eq!(rowanspan::version(), env!("CARGO_PKG_VERSION"));
/// ```
#[must_use]
pub fn version() -> &'static str {
    raw::version()
}
