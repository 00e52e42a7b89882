//! Tests of an index whose rows are in a folder: what survives a drop and the end of a process, by example and by chance
//! against a `BTreeMap`, and why a folder isn't opened.

mod chance;

use chance::Chance;
use rowanspan::{Error, Index, Keys, Options, Row, RowTest, SharedIndex};
use std::collections::BTreeMap;
use std::env;
use std::ffi::OsStr;
use std::fs;
use std::os::unix::ffi::OsStrExt;
use std::path::{Path, PathBuf};
use std::process::{abort, id, Command};
use std::thread;

/// The folder of a test, which is removed at its end.
struct Folder(PathBuf);

impl Folder {
    fn of(test: &str) -> Folder {
        let path = env::temp_dir().join(format!("rowanspan-{test}-{}", id()));
        let _ = fs::remove_dir_all(&path);
        Folder(path)
    }

    fn open(&self) -> Result<Index, Error> {
        Index::open_folder(&self.0, Options::default())
    }

    /// How many bytes of its files aren't zeros at their ends.
    fn used(&self) -> usize {
        ["even-wal", "odd-wal"]
            .iter()
            .filter_map(|name| fs::read(self.0.join(name)).ok())
            .map(|bytes| {
                bytes
                    .iter()
                    .rposition(|byte| *byte != 0)
                    .map_or(0, |at| at + 1)
            })
            .sum()
    }
}

impl Drop for Folder {
    fn drop(&mut self) {
        let _ = fs::remove_dir_all(&self.0);
    }
}

#[test]
fn rows_survive() -> Result<(), Error> {
    let folder = Folder::of("rows");
    let two = Options::default().columns(2);
    let mut index = Index::open_folder(&folder.0, two)?;
    assert_eq!((index.commits(), index.durable()), (0, 0));
    assert_eq!(index.put("apple", &[(0, b"red"), (1, b"sweet")])?, 1);
    assert_eq!(index.put("fig", &[(0, b"blue")])?, 2);
    assert_eq!(index.remove("fig")?, Some(3));
    assert_eq!(index.put_if("apple", &[(0, b"green")], 1)?, 4);
    assert_eq!((index.durable(), index.sync()?, index.durable()), (0, 4, 4));
    drop(index);

    let mut index = Index::open_folder(&folder.0, two)?;
    let columns = vec![b"green".to_vec(), b"sweet".to_vec()];
    assert_eq!(
        index.get("apple")?,
        Some(Row {
            version: 4,
            columns
        })
    );
    assert_eq!(
        (index.get("fig")?, index.len(), index.columns()),
        (None, 1, 2)
    );
    assert_eq!(index.put_if("apple", &[], 1), Err(Error::OtherVersion(4)));
    assert_eq!(index.put("fig", &[])?, 5);
    Ok(())
}

#[test]
fn without_a_folder() -> Result<(), Error> {
    let mut index = Index::open(Options::default())?;
    index.put("apple", &[])?;
    assert_eq!(index.sync(), Err(Error::NoFolder));
    assert_eq!(index.checkpoint(), Err(Error::NoFolder));
    assert_eq!((index.durable(), index.commits()), (0, 1));
    Ok(())
}

const PUTS: u64 = 1000;
const OF_CHILD: &str = "ROWANSPAN_TEST_FOLDER";

/// Puts rows, and ends the process, if `ended_without_a_drop` has started it.
#[test]
fn put_and_abort() {
    if let Some(folder) = env::var_os(OF_CHILD) {
        let mut index = Index::open_folder(folder, Options::default()).expect("it is free");
        for number in 0..PUTS {
            assert_eq!(index.put(number.to_be_bytes(), &[]), Ok(number + 1));
        }
        abort();
    }
}

#[test]
fn ended_without_a_drop() -> Result<(), Error> {
    let folder = Folder::of("abort");
    let ended = Command::new(env::current_exe().expect("it has a path"))
        .args(["--exact", "put_and_abort"])
        .env(OF_CHILD, &folder.0)
        .output()
        .expect("it runs");
    assert!(!ended.status.success());
    let index = folder.open()?;
    assert_eq!((index.commits(), index.len()), (PUTS, PUTS as usize));
    assert_eq!(index.durable(), PUTS);
    Ok(())
}

fn said(path: impl AsRef<Path>, options: Options) -> String {
    match Index::open_folder(path, options) {
        Err(fault @ (Error::FolderDamaged(_) | Error::FolderFailed(_))) => fault.to_string(),
        other => panic!("it is {other:?}"),
    }
}

#[test]
fn folders_that_are_not_opened() -> Result<(), Error> {
    let folder = Folder::of("faults");
    let mut index = folder.open()?;
    index.put("apple", &[])?;
    assert_eq!(folder.open().err(), Some(Error::FolderBusy));
    drop(index);
    let two = Options::default().columns(2);
    assert!(said(&folder.0, two).contains("even-wal"));
    assert_eq!(folder.open()?.commits(), 1);
    fs::write(folder.0.join("even-wal"), [b'x'; 4096]).expect("it is there");
    let fault = Index::open_folder(&folder.0, Options::default()).err();
    assert!(matches!(&fault, Some(Error::FolderDamaged(why)) if why.contains("even-wal")));
    for path in ["/dev/null/rows", "/nowhere/rows", ""] {
        let fault = Index::open_folder(path, Options::default()).err();
        assert!(
            matches!(fault, Some(Error::FolderFailed(_))),
            "{path}: {fault:?}"
        );
    }
    assert!(said(OsStr::from_bytes(b"a\0b"), two).contains("zero byte"));
    let none = Options::default().columns(0);
    assert_eq!(
        Index::open_folder("/nowhere/rows", none).err(),
        Some(Error::BadColumn)
    );
    Ok(())
}

#[test]
fn names_that_are_no_text() -> Result<(), Error> {
    let folder = Folder::of("names");
    fs::create_dir(&folder.0).expect("it isn't there");
    let path = folder.0.join(OsStr::from_bytes(b"\xff\xfe"));
    Index::open_folder(&path, Options::default())?.put("apple", &[])?;
    assert_eq!(Index::open_folder(&path, Options::default())?.len(), 1);
    Ok(())
}

#[test]
fn views_of_a_folder() -> Result<(), Error> {
    let folder = Folder::of("views");
    let mut index = folder.open()?;
    index.put("a1", &[(0, b"\x05")])?;
    drop(index);
    let mut index = folder.open()?;
    let view = index.build(Keys::Prefix(b"a"), RowTest::Any)?;
    index.put("a2", &[(0, b"\x07")])?;
    index.keep_views()?;
    let totals = index.totals(view, 2)?;
    assert_eq!((totals.count, &totals.sums[..]), (2, &[12][..]));
    assert_eq!(index.feed(1, 10)?[0].number, 2);
    assert_eq!(index.feed(0, 10).err(), Some(Error::Behind(1)));
    Ok(())
}

#[test]
fn threads_share_a_folder() -> Result<(), Error> {
    let folder = Folder::of("threads");
    let index = SharedIndex::open_folder(&folder.0, Options::default().checkpoint(5000))?;
    let threads: Vec<_> = (0..4u8)
        .map(|own| {
            let index = index.clone();
            thread::spawn(move || -> Result<(), Error> {
                for number in 0..200u8 {
                    let commit = index.put([own, number], &[(0, &[number])])?;
                    if number % 50 == 0 {
                        assert!(index.sync()? >= commit && index.durable() >= commit);
                    }
                }
                Ok(())
            })
        })
        .collect();
    for thread in threads {
        thread.join().expect("no call panics")?;
    }
    index.checkpoint()?;
    assert_eq!((index.durable(), index.commits()), (800, 800));
    drop(index);
    assert_eq!(folder.open()?.len(), 800);
    Ok(())
}

/// 20 times some hundred changes, while the log is shortened, and the rows after each time.
#[test]
fn changes_by_chance() -> Result<(), Error> {
    let folder = Folder::of("chance");
    let options = Options::default().checkpoint(4000);
    let (mut chance, mut rows, mut commits, mut most) = (Chance(7), BTreeMap::new(), 0, 0);
    for round in 0..20 {
        let mut index = Index::open_folder(&folder.0, options)?;
        assert_eq!((index.commits(), index.len()), (commits, rows.len()));
        let found = index.iter().collect::<Result<BTreeMap<_, _>, _>>()?;
        assert_eq!(found, rows);
        for _ in 0..chance.below(600) {
            let mut key = chance.key();
            key.truncate(5);
            if chance.below(3) == 0 {
                commits += u64::from(rows.contains_key(&key));
                assert_eq!(index.remove(&key)?, rows.remove(&key).map(|_| commits));
            } else {
                commits += 1;
                let bytes = vec![chance.below(256) as u8; chance.below(65) as usize];
                assert_eq!(index.put(&key, &[(0, &bytes)])?, commits);
                rows.insert(
                    key,
                    Row {
                        version: commits,
                        columns: vec![bytes],
                    },
                );
            }
        }
        if round % 7 == 3 {
            index.checkpoint()?;
        }
        drop(index);
        most = most.max(folder.used());
    }
    assert!(commits > 1000);
    // (a row takes up to some 100 bytes, and each of both files up to twice its rows and the limit)
    assert!(most < 2 * 2 * (300 * 100 + 4000), "{most} bytes");
    Ok(())
}
