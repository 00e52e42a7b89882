//! Tests of an index that threads share.

use rowanspan::{Error, Index, Keys, Options, RowTest, SharedIndex};
use std::panic::{catch_unwind, AssertUnwindSafe};
use std::thread;

const THREADS: u8 = 8;

fn in_threads(
    index: &SharedIndex,
    work: fn(&SharedIndex, u8) -> Result<(), Error>,
) -> Result<(), Error> {
    let threads: Vec<_> = (0..THREADS)
        .map(|number| {
            let index = index.clone();
            thread::spawn(move || work(&index, number))
        })
        .collect();
    threads
        .into_iter()
        .try_for_each(|thread| thread.join().expect("the thread ends"))
}

#[test]
fn a_clone_is_the_same_index() -> Result<(), Error> {
    fn is_shared<T: Clone + Send + Sync>(_: &T) {}
    let index = SharedIndex::open(Options::default())?;
    is_shared(&index);
    let other = index.clone();
    drop(index);
    assert_eq!(other.put("apple", &[(0, b"red")])?, 1);
    Ok(())
}

#[test]
fn puts_gets_and_ranges_of_threads() -> Result<(), Error> {
    let index = SharedIndex::from(Index::open(Options::default())?);
    let view = index.build(Keys::Prefix(b""), RowTest::Any)?;
    in_threads(&index, |index, number| {
        for count in 0..250u8 {
            let commit = index.put([number, count], &[(0, &[count])])?;
            let found = index.get([number, count / 2])?.expect("it was put");
            assert_eq!(found.columns, [[count / 2]]);
            assert!(index.commits() >= commit);
            if count % 50 == 0 {
                let keys = index.prefix([number]).collect::<Result<Vec<_>, _>>()?;
                assert_eq!(keys.len(), usize::from(count) + 1);
                assert!(index.keep_views().is_ok());
            }
        }
        Ok(())
    })?;
    assert_eq!((index.commits(), index.iter().count()), (2000, 2000));
    index.keep_views()?;
    let totals = index.totals(view, 2000)?;
    let sum = u128::from(THREADS) * (0..250).sum::<u128>();
    assert_eq!((totals.count, &totals.sums[..]), (2000, &[sum][..]));
    Ok(())
}

#[test]
fn several_calls_in_one_holding() -> Result<(), Error> {
    let index = SharedIndex::open(Options::default())?;
    in_threads(&index, |index, _| {
        for _ in 0..100 {
            let mut held = index.lock();
            let before = held.get_column("n", 0)?.map_or(0, |bytes| bytes[0]);
            held.put("n", &[(0, &[before.wrapping_add(1)])])?;
        }
        Ok(())
    })?;
    assert_eq!(index.get_column("n", 0)?, Some(vec![(800 % 256) as u8]));
    Ok(())
}

#[test]
fn conditional_puts_of_threads() -> Result<(), Error> {
    let index = SharedIndex::open(Options::default())?;
    in_threads(&index, |index, _| {
        for _ in 0..100 {
            loop {
                let row = index.get("n")?;
                let before = row.as_ref().map_or(0, |row| row.columns[0][0]);
                let version = row.map_or(0, |row| row.version);
                match index.put_if("n", &[(0, &[before.wrapping_add(1)])], version) {
                    Err(Error::OtherVersion(_)) => {}
                    other => break other.map(|_| ())?,
                }
            }
        }
        Ok(())
    })?;
    assert_eq!(index.get_column("n", 0)?, Some(vec![(800 % 256) as u8]));
    assert_eq!(index.commits(), 800);
    Ok(())
}

#[test]
fn a_panic_leaves_the_index_usable() -> Result<(), Error> {
    let index = SharedIndex::open(Options::default())?;
    let panicked = catch_unwind(AssertUnwindSafe(|| {
        let mut held = index.lock();
        held.put("apple", &[(0, b"red")]).expect("there is room");
        panic!("a caller's own");
    }));
    assert!(panicked.is_err());
    assert_eq!(index.get_column("apple", 0)?, Some(b"red".to_vec()));
    Ok(())
}
