//! Batches: what they make, which conditions don't hold, what is refused, and threads that move amounts.

mod chance;

use chance::Chance;
use rowanspan::{
    Batch, Batched, Error, Index, Keys, Made, Options, RowTest, SharedIndex, MAX_BATCH,
    MAX_KEY_BYTES,
};
use std::collections::{BTreeMap, HashSet};
use std::thread;

fn made(to: u64, numbers: &[u64]) -> Result<Batched, Error> {
    let numbers = numbers
        .iter()
        .map(|number| (*number > 0).then_some(*number))
        .collect();
    Ok(Batched::Made(Made { to, numbers }))
}

fn unmet(place: usize, found: u64) -> Result<Batched, Error> {
    Ok(Batched::Unmet { place, found })
}

// The keys with their versions and their columns.
fn shown(index: &Index) -> Vec<(Vec<u8>, u64, Vec<Vec<u8>>)> {
    index
        .iter()
        .flatten()
        .map(|(key, row)| (key, row.version, row.columns))
        .collect()
}

fn row(key: &str, version: u64, columns: [&str; 2]) -> (Vec<u8>, u64, Vec<Vec<u8>>) {
    let columns = columns.map(|column| column.as_bytes().to_vec());
    (key.into(), version, columns.into())
}

// A number as a column has it.
fn amount(bytes: &[u8]) -> u64 {
    bytes
        .iter()
        .fold(0, |sum, byte| sum << 8 | u64::from(*byte))
}

#[test]
fn by_example() -> Result<(), Error> {
    let mut index = Index::open(Options::default().columns(2))?;
    index.put("apple", &[(0, b"red"), (1, b"sweet")])?;
    index.put("fig", &[])?;
    let batch = Batch::new()
        .require("apple", 1)
        .require_absent("pear")
        .remove("fig")
        .put("apple", &[(0, b"green")])
        .remove("none")
        .put("pear", &[(1, b"soft"), (0, b"")]);
    assert_eq!(index.batch(&batch), made(5, &[5, 3, 0, 4]));
    let rows = vec![
        row("apple", 3, ["green", "sweet"]),
        row("pear", 4, ["", "soft"]),
    ];
    assert_eq!((shown(&index), index.commits()), (rows.clone(), 5));
    assert_eq!(index.batch(&batch), unmet(0, 3));
    let batch = Batch::new()
        .require("apple", 3)
        .require_absent("fig")
        .require_absent("pear")
        .require("none", 1)
        .remove("apple");
    assert_eq!(index.batch(&batch), unmet(2, 4));
    assert_eq!((shown(&index), index.commits()), (rows, 5));
    Ok(())
}

// Keys and columns may be of any kind that is bytes, and the batch has copies of them.
#[test]
fn of_other_kinds() -> Result<(), Error> {
    let mut index = Index::open(Options::default())?;
    let mut batch = Batch::default();
    for number in 0..3u8 {
        let (key, value) = (vec![number; 2], vec![number]);
        batch = batch
            .require_absent(&key)
            .put(key, &[(0, value.as_slice())]);
    }
    let batch = batch.put(*b"", &[]).put(String::from("key"), &[]);
    assert_eq!(index.batch(&batch.clone()), made(5, &[1, 2, 3, 4, 5]));
    assert_eq!(index.batch(&batch), unmet(0, 1));
    assert_eq!(index.get_column([2, 2], 0)?, Some(vec![2]));
    assert!(index.contains_key("")? && index.contains_key("key")?);
    Ok(())
}

#[test]
fn without_changes_or_conditions() -> Result<(), Error> {
    let mut index = Index::open(Options::default())?;
    assert_eq!(index.batch(&Batch::new()), made(0, &[]));
    index.put("apple", &[])?;
    assert_eq!(index.batch(&Batch::new()), made(1, &[]));
    assert_eq!(index.batch(&Batch::new().require("apple", 1)), made(1, &[]));
    assert_eq!(index.batch(&Batch::new().require("pear", 1)), unmet(0, 0));
    assert_eq!(index.batch(&Batch::new().remove("pear")), made(1, &[0]));
    Ok(())
}

// Each limit, in the order in which they are answered. Nothing changes.
#[test]
fn limits() -> Result<(), Error> {
    let mut index = Index::open(Options::default())?;
    index.put("apple", &[(0, b"red")])?;
    let before = shown(&index);
    let (long, wide) = ([b'k'; MAX_KEY_BYTES + 1], [0; 65]);
    let sets: &[(u8, &[u8])] = &[(0, &wide)];
    let many = (0..=MAX_BATCH).fold(Batch::new(), |batch, number| {
        batch.require(long, number as u64)
    });
    let more = (0..=MAX_BATCH).fold(Batch::new(), |batch, _| batch.put(long, &[]));
    let wrong = [
        (many, Error::BadBatch),
        (more, Error::BadBatch),
        (
            Batch::new().put("a", &[(1, b"")]).require(long, 0),
            Error::KeyTooLong,
        ),
        (
            Batch::new().put("a", &[(1, b"")]).remove(long),
            Error::BadColumn,
        ),
        (
            Batch::new().remove(long).put("a", &[(1, b"")]),
            Error::KeyTooLong,
        ),
        (
            Batch::new().put("a", sets).put(long, &[]),
            Error::ColumnTooLong,
        ),
        (
            Batch::new().put("a", &[(0, b"b"), (0, b"c")]),
            Error::BadColumn,
        ),
        (
            Batch::new().put("a", &[]).put("a", sets),
            Error::ColumnTooLong,
        ),
        (Batch::new().put("a", &[]).put("a", &[]), Error::BadBatch),
        (
            Batch::new().put("a", &[]).put("b", &[]).remove("a"),
            Error::BadBatch,
        ),
        (
            Batch::new().require("a", 7).put("a", &[]).remove("a"),
            Error::BadBatch,
        ),
    ];
    for (at, (batch, error)) in wrong.into_iter().enumerate() {
        assert_eq!(index.batch(&batch), Err(error), "{at}");
        assert_eq!((shown(&index), index.commits()), (before.clone(), 1));
    }
    Ok(())
}

#[test]
fn the_most_of_both() -> Result<(), Error> {
    let mut index = Index::open(Options::default())?;
    let keys = (0..MAX_BATCH).map(|number| format!("{number:03}"));
    let batch = keys.fold(Batch::new(), |batch, key| {
        batch.require_absent(&key).put(&key, &[])
    });
    let numbers: Vec<_> = (1..=MAX_BATCH as u64).collect();
    assert_eq!(index.batch(&batch), made(1000, &numbers));
    let batch = (0..MAX_BATCH as u64).fold(Batch::new(), |batch, number| {
        let key = format!("{number:03}");
        batch.require(&key, number + 1).remove(key)
    });
    let numbers: Vec<_> = (1001..=2000).collect();
    assert_eq!(index.batch(&batch), made(2000, &numbers));
    assert!(index.is_empty());
    Ok(())
}

// A batch for which the log has no room, since a view holds it, and a page that shows all of a batch.
#[test]
fn beside_a_view() -> Result<(), Error> {
    let mut index = Index::open(Options::default().log_capacity(3))?;
    let view = index.build(Keys::Prefix(b""), RowTest::Any)?;
    index.put("a", &[])?;
    let three = Batch::new().put("a", &[]).put("b", &[]).put("c", &[]);
    assert_eq!(index.batch(&three), Err(Error::FeedFull(0)));
    assert_eq!((index.len(), index.commits()), (1, 1));
    assert_eq!(index.keep_views()?, 1);
    assert_eq!(index.batch(&three), made(4, &[2, 3, 4]));
    assert_eq!(index.view(view, 4, "", 9), Err(Error::Behind(1)));
    assert_eq!(index.keep_views()?, 3);
    let page = index.view(view, 4, "", 9)?;
    assert_eq!((page.at, page.count), (4, 3));
    assert_eq!(
        index.batch(&three.clone().remove("d")),
        made(7, &[5, 6, 7, 0])
    );
    index.keep_views()?;
    assert_eq!(index.batch(&three.put("d", &[])), Err(Error::FeedFull(7)));
    Ok(())
}

#[test]
fn in_a_folder() -> Result<(), Error> {
    let folder = std::env::temp_dir().join(format!("rowanspan-batches-{}", std::process::id()));
    let mut index = Index::open_folder(&folder, Options::default())?;
    index.put("apple", &[])?;
    for batch in [
        Batch::new(),
        Batch::new().put("pear", &[]),
        Batch::new().remove([0; 2000]),
    ] {
        assert_eq!(index.batch(&batch), Err(Error::InFolder));
    }
    assert_eq!((index.len(), index.commits()), (1, 1));
    drop(index);
    std::fs::remove_dir_all(folder).expect("it is there");
    Ok(())
}

// What a batch makes of rows in a plain map: their versions, and the number of each change's commit.
fn make_plainly(
    plain: &mut BTreeMap<Vec<u8>, u64>,
    changes: &[(Vec<u8>, bool)],
    commits: &mut u64,
) -> Vec<u64> {
    let mut numbers = vec![0; changes.len()];
    for removes in [false, true] {
        for (at, (key, _)) in changes.iter().enumerate().filter(|(_, it)| it.1 == removes) {
            if !removes || plain.contains_key(key) {
                *commits += 1;
                numbers[at] = *commits;
            }
            if removes {
                plain.remove(key);
            } else {
                plain.insert(key.clone(), *commits);
            }
        }
    }
    numbers
}

#[test]
fn against_a_map() -> Result<(), Error> {
    let (mut index, mut plain) = (Index::open(Options::default())?, BTreeMap::new());
    let (mut chance, mut commits, mut misses) = (Chance(88172645463325252), 0, 0);
    for _ in 0..4000 {
        let mut seen = HashSet::new();
        let changes: Vec<_> = (0..chance.below(12))
            .map(|_| (chance.key(), chance.below(3) == 0))
            .filter(|(key, _)| seen.insert(key.clone()))
            .collect();
        let conditions: Vec<_> = (0..chance.below(3))
            .map(|_| {
                let (key, off) = (chance.key(), u64::from(chance.below(20) == 0));
                (plain.get(&key).copied().unwrap_or(0) + off, key)
            })
            .collect();
        let mut batch = Batch::new();
        for (version, key) in &conditions {
            batch = batch.require(key, *version);
        }
        for (key, removes) in &changes {
            batch = match removes {
                true => batch.remove(key),
                false => batch.put(key, &[]),
            };
        }
        let found = |key: &Vec<u8>| plain.get(key).copied().unwrap_or(0);
        match conditions
            .iter()
            .position(|(version, key)| found(key) != *version)
        {
            Some(place) => {
                misses += 1;
                assert_eq!(
                    index.batch(&batch),
                    unmet(place, found(&conditions[place].1))
                );
            }
            None => {
                let numbers = make_plainly(&mut plain, &changes, &mut commits);
                assert_eq!(index.batch(&batch), made(commits, &numbers));
            }
        }
        assert_eq!((index.len(), index.commits()), (plain.len(), commits));
    }
    let rows: BTreeMap<_, _> = index
        .iter()
        .flatten()
        .map(|(key, row)| (key, row.version))
        .collect();
    assert!(misses > 50 && plain.len() > 500);
    assert_eq!(rows, plain);
    Ok(())
}

const ACCOUNTS: u8 = 5;

// Moves 1 from an account to another, and again if another thread has changed one of them.
fn move_one(index: &SharedIndex, from: u8, to: u8) -> Result<(), Error> {
    loop {
        let rows = index.get_many([[from], [to]])?;
        let [Some(source), Some(target)] = &rows[..] else {
            panic!("both are there");
        };
        let (less, more) = (amount(&source.columns[0]), amount(&target.columns[0]) + 1);
        if less == 0 {
            return Ok(());
        }
        let batch = Batch::new()
            .require([from], source.version)
            .require([to], target.version)
            .put([from], &[(0, &(less - 1).to_be_bytes())])
            .put([to], &[(0, &more.to_be_bytes())]);
        if index.batch(&batch)?.is_made() {
            return Ok(());
        }
    }
}

#[test]
fn threads_that_move_amounts() -> Result<(), Error> {
    let index = SharedIndex::open(Options::default())?;
    let view = index.build(Keys::Prefix(b""), RowTest::Any)?;
    let filled = (0..ACCOUNTS).fold(Batch::new(), |batch, account| {
        batch.put([account], &[(0, &100u64.to_be_bytes())])
    });
    assert!(index.batch(&filled)?.is_made());
    let threads: Vec<_> = (0..4)
        .map(|number| {
            let index = index.clone();
            thread::spawn(move || {
                let mut chance = Chance(number + 1);
                for _ in 0..500 {
                    let from = chance.below(ACCOUNTS.into()) as u8;
                    move_one(&index, from, (from + 1 + chance.below(4) as u8) % ACCOUNTS)?;
                    let commit = index.commits();
                    index.keep_views()?;
                    assert_eq!(commit % 2, 1);
                }
                Ok::<(), Error>(())
            })
        })
        .collect();
    for thread in threads {
        thread.join().expect("the thread ends")?;
    }
    let totals = index.totals(view, index.commits())?;
    assert_eq!((totals.count, &totals.sums[..]), (5, &[500][..]));
    Ok(())
}
