//! Why a call fails.

use std::fmt;

/// Why a call failed. It has changed no row, no commit and no view, but for [`NotWritten`](Error::NotWritten).
#[derive(Clone, Debug, PartialEq, Eq)]
#[non_exhaustive]
pub enum Error {
    /// Out of memory: an allocation was refused.
    NoMemory,
    /// A key has more than [`MAX_KEY_BYTES`](crate::MAX_KEY_BYTES) bytes.
    KeyTooLong,
    /// A column doesn't exist or is named twice; or an index was to be opened, and not with 1 to 16 columns.
    BadColumn,
    /// A column has more than 64 bytes.
    ColumnTooLong,
    /// A limit isn't from 1 to 1000; or `log_capacity` isn't from 1 to 65536, or `log_retention` is
    /// over 65536.
    BadLimit,
    /// Too few nodes are free: an index has 4,294,967,295 nodes at most.
    ArenaFull,
    /// The log is full: views hold it from this commit on.
    FeedFull(u64),
    /// There are already 64 views.
    TooManyViews,
    /// No view has this number.
    NoSuchView,
    /// The view is at this commit, before the floor; or the log begins after this commit.
    Behind(u64),
    /// The end of a view's range is not after its start.
    BadRange,
    /// A counter is at its greatest value.
    Spent,
    /// The row has this version, not the one asked for; 0 means that the key has no row.
    OtherVersion(u64),
    /// A batch has more than 1000 conditions, or more than 1000 changes, or it changes a key twice.
    BadBatch,
    /// The folder or its files can't be made, opened or read, for this reason.
    FolderFailed(String),
    /// Another index or process has the folder.
    FolderBusy,
    /// The files of the folder are no logs of such an index, or rows or durable commits are missing. This says in which
    /// file. Nothing was changed in them.
    FolderDamaged(String),
    /// The disk is full: nothing was written, and the call can be made again.
    DiskFull,
    /// The disk has failed: nothing is written until the folder is opened again.
    DiskFailed,
    /// The rows are in memory alone.
    NoFolder,
    /// The change was made in memory, and its commit, which has this number, was not written to the log. The next change
    /// writes it first, and so does a [`sync`](crate::Index::sync).
    NotWritten(u64),
    /// An index with a folder makes no batches.
    InFolder,
    /// The library returned a status that no call returns: it is another library.
    Unknown(u32),
}

impl Error {
    /// The error of a status and of the number that the call has written.
    pub(crate) fn of(status: u32, number: u64) -> Error {
        match status {
            1 => Error::NoMemory,
            2 => Error::KeyTooLong,
            3 => Error::BadColumn,
            4 => Error::ColumnTooLong,
            5 => Error::BadLimit,
            6 => Error::ArenaFull,
            7 => Error::FeedFull(number),
            10 => Error::TooManyViews,
            11 => Error::NoSuchView,
            12 => Error::Behind(number),
            13 => Error::BadRange,
            14 => Error::Spent,
            16 => Error::OtherVersion(number),
            17 => Error::BadBatch,
            107 => Error::FolderBusy,
            109 => Error::DiskFull,
            110 => Error::DiskFailed,
            111 => Error::NoFolder,
            112 => Error::NotWritten(number),
            114 => Error::InFolder,
            other => Error::Unknown(other),
        }
    }

    /// The error of the status with which a folder wasn't opened, and of what the library says about it.
    pub(crate) fn of_folder(status: u32, message: String) -> Error {
        match status {
            106 => Error::FolderFailed(message),
            108 => Error::FolderDamaged(message),
            other => Error::of(other, 0),
        }
    }
}

impl fmt::Display for Error {
    fn fmt(&self, f: &mut fmt::Formatter<'_>) -> fmt::Result {
        match self {
            Error::NoMemory => write!(f, "out of memory"),
            Error::KeyTooLong => write!(f, "a key has more than 1,024 bytes"),
            Error::BadColumn => write!(
                f,
                "a column doesn't exist or is named twice; an index has 1 to 16 columns"
            ),
            Error::ColumnTooLong => write!(f, "a column has more than 64 bytes"),
            Error::BadLimit => write!(
                f,
                "a limit is not from 1 to 1000, or an option is out of its bounds"
            ),
            Error::ArenaFull => write!(f, "too few of the 4,294,967,295 nodes are free"),
            Error::FeedFull(from) => write!(
                f,
                "the log is full: views or open calls hold it from commit {from} on"
            ),
            Error::TooManyViews => write!(f, "there are already 64 views"),
            Error::NoSuchView => write!(f, "no view has this number"),
            Error::Behind(at) => {
                write!(f, "the view is at commit {at}, or the log begins after it")
            }
            Error::BadRange => write!(f, "the end of a range is not after its start"),
            Error::Spent => write!(f, "a counter is at its greatest value"),
            Error::OtherVersion(found) => write!(
                f,
                "the row has version {found}, not the one asked for; 0 means no row"
            ),
            Error::BadBatch => write!(
                f,
                "a batch has more than 1,000 conditions or changes, or changes a key twice"
            ),
            Error::FolderFailed(why) | Error::FolderDamaged(why) => f.write_str(why),
            Error::FolderBusy => write!(f, "another index or process has the folder"),
            Error::DiskFull => write!(f, "the disk is full"),
            Error::DiskFailed => write!(f, "the disk has failed"),
            Error::NoFolder => write!(f, "the rows are in memory alone"),
            Error::NotWritten(commit) => write!(
                f,
                "the change is in memory, and its commit {commit} was not written to the log"
            ),
            Error::InFolder => write!(
                f,
                "an index with a folder makes no batches, and nothing changed"
            ),
            Error::Unknown(status) => write!(f, "the library returned the status {status}"),
        }
    }
}

impl std::error::Error for Error {}
