//! How many rows there are, and counts of ranges: by example, and against a `BTreeMap`.

mod chance;
mod keys;

use chance::Chance;
use keys::{awkward_keys, bounds_of, is_proper};
use rowanspan::{Error, Index, Options, SharedIndex, MAX_KEY_BYTES};
use std::collections::BTreeMap;
use std::ops::Bound;
use std::thread;

fn index_of(keys: &[Vec<u8>]) -> Result<Index, Error> {
    let mut index = Index::open(Options::default())?;
    for key in keys {
        index.put(key, &[(0, b"v")])?;
    }
    Ok(index)
}

// A put over a row adds none, and a change that is refused or finds no row leaves the number as it is.
#[test]
fn of_all_rows() -> Result<(), Error> {
    let mut index = Index::open(Options::default())?;
    assert_eq!((index.len(), index.is_empty()), (0, true));
    assert_eq!(index.remove("a")?, None);
    assert_eq!((index.len(), index.is_empty()), (0, true));
    index.put("a", &[(0, b"red")])?;
    index.put("", &[])?;
    assert_eq!((index.len(), index.is_empty()), (2, false));
    index.put("a", &[(0, b"green")])?;
    assert!(index.put_if("b", &[], 9).is_err() && index.put("b", &[(1, b"")]).is_err());
    assert_eq!(index.len(), 2);
    index.put_if("b", &[], 0)?;
    assert_eq!(index.len(), 3);
    index.remove("a")?;
    assert_eq!((index.remove("a")?, index.len()), (None, 2));
    let shared = SharedIndex::from(index);
    assert_eq!((shared.len(), shared.is_empty()), (2, false));
    shared.remove("")?;
    shared.remove("b")?;
    assert_eq!((shared.len(), shared.is_empty()), (0, true));
    Ok(())
}

#[test]
fn each_form_of_a_range() -> Result<(), Error> {
    let mut index = index_of(&["a", "b", "bb", "c"].map(Vec::from))?;
    assert_eq!(index.count(..)?, 4);
    assert_eq!(index.count("b"..)?, 3);
    assert_eq!(index.count(b"b"..b"c")?, 2);
    assert_eq!(index.count("b".to_string()..="c".to_string())?, 3);
    assert_eq!(index.count(..b"b".to_vec())?, 1);
    assert_eq!(index.count(..=&b"bb"[..])?, 3);
    assert_eq!(
        index.count((Bound::Excluded("b"), Bound::Included("c")))?,
        2
    );
    assert_eq!(index.count("c".."a")?, 0);
    assert_eq!(index.count("b".."b")?, 0);
    assert_eq!(
        index.count((Bound::Excluded("b"), Bound::Excluded("b")))?,
        0
    );
    assert_eq!(index.count("d"..)?, 0);
    assert_eq!(index.count(.."")?, 0);
    index.remove("b")?;
    assert_eq!((index.count(..)?, index.count("b".."c")?), (3, 1));
    assert_eq!(Index::open(Options::default())?.count(..)?, 0);
    Ok(())
}

#[test]
fn up_to_a_number() -> Result<(), Error> {
    let index = index_of(&["a", "b", "bb", "c"].map(Vec::from))?;
    for (most, wanted) in [
        (0, 0),
        (1, 1),
        (2, 2),
        (3, 3),
        (4, 3),
        (1 << 32, 3),
        (usize::MAX, 3),
    ] {
        assert_eq!(index.count_up_to("b".., most)?, wanted, "{most}");
        assert_eq!(index.count_up_to("c".."b", most)?, 0, "{most}");
    }
    Ok(())
}

#[test]
fn bounds_against_a_map() -> Result<(), Error> {
    let keys = awkward_keys();
    let plain: BTreeMap<_, _> = keys.iter().map(|key| (key.clone(), ())).collect();
    let index = index_of(&keys)?;
    for lo in &keys {
        for hi in &keys {
            for start in bounds_of(lo) {
                for end in bounds_of(hi) {
                    let wanted = match is_proper(&start, &end) {
                        true => plain.range((start.clone(), end.clone())).count(),
                        false => 0,
                    };
                    let bounds = || (start.clone(), end.clone());
                    assert_eq!(index.count(bounds())?, wanted, "{lo:?} {hi:?}");
                    for most in [0, 1, wanted.saturating_sub(1), wanted, wanted + 1] {
                        assert_eq!(index.count_up_to(bounds(), most)?, wanted.min(most));
                    }
                }
            }
        }
    }
    Ok(())
}

// The method of an iterator, which may have returned some rows, from either end.
#[test]
fn of_iterators() -> Result<(), Error> {
    let keys: Vec<_> = (0..500).map(|at| format!("{at:03}").into_bytes()).collect();
    let index = index_of(&keys)?;
    for (fronts, backs) in [
        (0, 0),
        (1, 0),
        (0, 1),
        (1, 1),
        (32, 0),
        (33, 40),
        (160, 160),
        (161, 300),
        (250, 250),
        (499, 0),
        (0, 500),
    ] {
        let mut pairs = index.iter();
        assert_eq!(
            pairs.by_ref().take(fronts).filter(Result::is_ok).count(),
            fronts
        );
        let back = pairs.by_ref().rev().take(backs);
        assert_eq!(back.filter(Result::is_ok).count(), backs);
        assert_eq!(pairs.count(), 500 - fronts - backs, "{fronts} {backs}");
    }
    assert_eq!(index.range("100".."200").count(), 100);
    assert_eq!(index.range("200".."100").count(), 0);
    assert_eq!(index.prefix("12").count(), 10);
    assert_eq!(index.prefix("9").count(), 0);
    assert_eq!(SharedIndex::from(index).prefix("4").count(), 100);
    Ok(())
}

// They are those that a range refuses.
#[test]
fn keys_that_are_too_long() -> Result<(), Error> {
    let index = index_of(&[vec![b'k'; MAX_KEY_BYTES]])?;
    let long = vec![b'k'; MAX_KEY_BYTES + 1];
    assert_eq!(index.count(long.clone()..), Err(Error::KeyTooLong));
    assert_eq!(
        index.count((Bound::Excluded(&long), Bound::Unbounded)),
        Err(Error::KeyTooLong)
    );
    assert_eq!(index.count_up_to(long.clone().., 0), Err(Error::KeyTooLong));
    // (the error is an item)
    assert_eq!(index.range(long.clone()..).count(), 1);
    assert_eq!(index.count(..long.clone())?, 1);
    assert_eq!(index.count(..=long.clone())?, 1);
    assert_eq!(index.count(..vec![u8::MAX; 2000])?, 1);
    assert_eq!(index.count(..vec![b'j'; 2000])?, 0);
    assert_eq!(index.count(long[1..].to_vec()..)?, 1);
    assert_eq!(index.count(..long[1..].to_vec())?, 0);
    assert_eq!(
        index.count((
            Bound::Excluded(vec![u8::MAX; MAX_KEY_BYTES]),
            Bound::Unbounded
        ))?,
        0
    );
    Ok(())
}

#[test]
fn against_a_map() -> Result<(), Error> {
    let (mut index, mut plain) = (Index::open(Options::default())?, BTreeMap::new());
    let mut chance = Chance(88172645463325252);
    for round in 0..20000 {
        let key = chance.key();
        if chance.below(100) < if round / 5000 % 2 == 1 { 55 } else { 30 } {
            assert_eq!(index.remove(&key)?.is_some(), plain.remove(&key).is_some());
        } else {
            plain.insert(key.clone(), index.put(&key, &[])?);
        }
        assert_eq!(index.len(), plain.len());
        if round % 20 == 0 {
            let (lo, hi) = (chance.key(), chance.key());
            let (lo, hi) = (lo.clone().min(hi.clone()), lo.max(hi));
            let wanted = plain.range(lo.clone()..hi.clone()).count();
            assert_eq!(index.count(&lo[..]..&hi[..])?, wanted);
            let most = chance.below(2 * wanted as u64 + 2) as usize;
            assert_eq!(index.count_up_to(lo..hi, most)?, wanted.min(most));
            assert_eq!(index.count(..)?, plain.len());
        }
    }
    assert!(plain.len() > 1000);
    Ok(())
}

// Each thread puts two rows at a time, so no other one counts an odd number.
#[test]
fn of_a_shared_index() -> Result<(), Error> {
    let index = SharedIndex::open(Options::default())?;
    let threads: Vec<_> = (0..8u8)
        .map(|number| {
            let index = index.clone();
            thread::spawn(move || -> Result<(), Error> {
                for count in 0..100u8 {
                    let mut held = index.lock();
                    held.put([number, count, 0], &[])?;
                    held.put([number, count, 1], &[])?;
                    drop(held);
                    assert_eq!((index.count(..)? % 2, index.len() % 2), (0, 0));
                    let own = index.count([number]..[number + 1])?;
                    assert_eq!(own, 2 * (usize::from(count) + 1));
                    assert_eq!(index.count_up_to([number]..[number + 1], 3)?, own.min(3));
                }
                Ok(())
            })
        })
        .collect();
    for thread in threads {
        thread.join().expect("the thread ends")?;
    }
    assert_eq!((index.count(..)?, index.len()), (1600, 1600));
    Ok(())
}
