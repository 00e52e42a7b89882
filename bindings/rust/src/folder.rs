//! An index whose rows are in a folder.

use crate::calls::{done, DONE};
use crate::error::Error;
use crate::index::Index;
use crate::options::Options;
use crate::raw::Library;
use std::ffi::CString;
use std::os::unix::ffi::OsStrExt;
use std::path::Path;

impl Index {
    /// An index with the rows of a folder. The folder is made if it is missing, but no folder above it. The files in it
    /// are as those of `mtserve --data`.
    ///
    /// A put, put_if or remove is made in memory, and then its commit is written to a log in the folder. A crash of the
    /// process undoes no commit that was written. A crash of the machine undoes none that was synced
    /// ([`sync`](Index::sync)). The log is shortened from time to time, with the changes
    /// ([`Options::checkpoint`](crate::Options::checkpoint)).
    ///
    /// If a commit can't be written, the change returns [`NotWritten`](Error::NotWritten), and is in memory alone. Each
    /// further change first writes what the log lacks. If that fails, it returns [`DiskFull`](Error::DiskFull),
    /// [`DiskFailed`](Error::DiskFailed) or [`NoMemory`](Error::NoMemory), and changes nothing. All other calls continue.
    ///
    /// When the index is dropped, all commits are made durable, as by [`sync`](Index::sync), and the folder is free for
    /// others. A folder is of one index at a time.
    ///
    /// ```
    /// use rowanspan::{Error, Index, Options};
    ///
    /// # let folder = std::env::temp_dir().join(format!("rowanspan-open-{}", std::process::id()));
    /// let mut index = Index::open_folder(&folder, Options::default())?;
    /// index.put("apple", &[(0, b"red")])?;
    /// assert_eq!(Index::open_folder(&folder, Options::default()).err(), Some(Error::FolderBusy));
    /// drop(index);
    ///
    /// let index = Index::open_folder(&folder, Options::default())?;
    /// assert_eq!(index.get("apple")?.expect("it was put").version, 1);
    /// # drop(index);
    /// # std::fs::remove_dir_all(folder).expect("it is there");
    /// # Ok::<(), Error>(())
    /// ```
    ///
    /// # Errors
    ///
    /// [`FolderFailed`](Error::FolderFailed), [`FolderBusy`](Error::FolderBusy) and
    /// [`FolderDamaged`](Error::FolderDamaged), also if the index of the folder has another number of columns;
    /// [`DiskFull`](Error::DiskFull), [`BadColumn`](Error::BadColumn) or [`BadLimit`](Error::BadLimit) if an option is
    /// out of its bounds, [`ArenaFull`](Error::ArenaFull) and [`NoMemory`](Error::NoMemory).
    pub fn open_folder(path: impl AsRef<Path>, options: Options) -> Result<Index, Error> {
        let folder = CString::new(path.as_ref().as_os_str().as_bytes())
            .map_err(|_| Error::FolderFailed("the path of the folder has a zero byte".into()))?;
        Library::open_folder(
            &folder,
            options.columns,
            options.log_capacity,
            options.log_retention,
            options.checkpoint,
        )
        .map(|library| Index { library })
        .map_err(|(status, message)| Error::of_folder(status, message))
    }

    /// Makes all commits durable: no crash undoes them. Returns the number of the last one. If the log lacks a commit, it
    /// writes that first.
    ///
    /// ```
    /// # use rowanspan::{Error, Index, Options};
    /// # let folder = std::env::temp_dir().join(format!("rowanspan-sync-{}", std::process::id()));
    /// let mut index = Index::open_folder(&folder, Options::default())?;
    /// let commit = index.put("apple", &[(0, b"red")])?;
    /// assert_eq!(index.sync()?, commit);
    /// # drop(index);
    /// # std::fs::remove_dir_all(folder).expect("it is there");
    /// # Ok::<(), Error>(())
    /// ```
    ///
    /// # Errors
    ///
    /// [`NoFolder`](Error::NoFolder), [`DiskFull`](Error::DiskFull), [`DiskFailed`](Error::DiskFailed) and
    /// [`NoMemory`](Error::NoMemory).
    pub fn sync(&mut self) -> Result<u64, Error> {
        done(self.library.sync())
    }

    /// The number of the last commit that no crash undoes; 0 if the rows are in memory alone.
    ///
    /// ```
    /// # use rowanspan::{Error, Index, Options};
    /// # let folder = std::env::temp_dir().join(format!("rowanspan-durable-{}", std::process::id()));
    /// let mut index = Index::open_folder(&folder, Options::default())?;
    /// let commit = index.put("apple", &[(0, b"red")])?;
    /// assert!(index.durable() < commit);
    /// index.sync()?;
    /// assert_eq!(index.durable(), commit);
    /// # drop(index);
    /// # std::fs::remove_dir_all(folder).expect("it is there");
    /// # Ok::<(), Error>(())
    /// ```
    #[must_use]
    pub fn durable(&self) -> u64 {
        self.library.durable()
    }

    /// Shortens the log at once: it continues in the other file of the folder, to which all rows are copied. If that is
    /// in progress, it is completed. All commits are durable then.
    ///
    /// ```
    /// # use rowanspan::{Error, Index, Options};
    /// # let folder = std::env::temp_dir().join(format!("rowanspan-checkpoint-{}", std::process::id()));
    /// let mut index = Index::open_folder(&folder, Options::default().checkpoint(0))?;
    /// let commit = index.put("apple", &[(0, b"red")])?;
    /// index.checkpoint()?;
    /// assert_eq!(index.durable(), commit);
    /// # drop(index);
    /// # std::fs::remove_dir_all(folder).expect("it is there");
    /// # Ok::<(), Error>(())
    /// ```
    ///
    /// # Errors
    ///
    /// [`NoFolder`](Error::NoFolder), [`DiskFull`](Error::DiskFull), [`DiskFailed`](Error::DiskFailed) and
    /// [`NoMemory`](Error::NoMemory). After `DiskFull` and `NoMemory` it can be called again. If the other file has failed,
    /// the log stays in its file, and isn't shortened before the folder is opened again.
    pub fn checkpoint(&mut self) -> Result<(), Error> {
        match self.library.checkpoint() {
            DONE => Ok(()),
            status => Err(Error::of(status, 0)),
        }
    }
}
