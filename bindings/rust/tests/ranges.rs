//! Ranges and prefixes against a `BTreeMap`, and what errors and the version say.

mod keys;

use keys::{awkward_keys, bounds_of, is_proper};
use rowanspan::{Error, Index, Options, Row, MAX_KEY_BYTES};
use std::collections::BTreeMap;
use std::ops::Bound;

type Keys = Vec<Vec<u8>>;

fn index_of(keys: &[Vec<u8>]) -> Result<Index, Error> {
    let mut index = Index::open(Options::default())?;
    for key in keys {
        index.put(key, &[(0, b"v")])?;
    }
    Ok(index)
}

fn keys_of(pairs: impl Iterator<Item = Result<(Vec<u8>, Row), Error>>) -> Result<Keys, Error> {
    pairs.map(|pair| Ok(pair?.0)).collect()
}

fn reversed(mut keys: Keys) -> Keys {
    keys.reverse();
    keys
}

#[test]
fn each_form_of_a_range() -> Result<(), Error> {
    let index = index_of(&["a", "b", "bb", "c"].map(Vec::from))?;
    let keys = |wanted: &[&str]| wanted.iter().map(|key| Vec::from(*key)).collect::<Keys>();
    assert_eq!(keys_of(index.range(..))?, keys(&["a", "b", "bb", "c"]));
    assert_eq!(keys_of(index.range("b"..))?, keys(&["b", "bb", "c"]));
    assert_eq!(keys_of(index.range(b"b"..b"c"))?, keys(&["b", "bb"]));
    assert_eq!(
        keys_of(index.range("b".to_string()..="c".to_string()))?,
        keys(&["b", "bb", "c"])
    );
    assert_eq!(keys_of(index.range(..b"b".to_vec()))?, keys(&["a"]));
    assert_eq!(
        keys_of(index.range(..=&b"bb"[..]))?,
        keys(&["a", "b", "bb"])
    );
    assert_eq!(
        keys_of(index.range((Bound::Excluded("b"), Bound::Included("c"))))?,
        keys(&["bb", "c"])
    );
    assert_eq!(keys_of(index.range("c".."a"))?, keys(&[]));
    assert_eq!(keys_of(index.range("b".."b"))?, keys(&[]));
    assert_eq!(
        keys_of(index.range((Bound::Excluded("b"), Bound::Excluded("b"))))?,
        keys(&[])
    );
    assert_eq!(keys_of(index.prefix("b"))?, keys(&["b", "bb"]));
    assert_eq!(keys_of(index.prefix(""))?, keys(&["a", "b", "bb", "c"]));
    assert_eq!(keys_of(index.prefix(b"bbb"))?, keys(&[]));
    Ok(())
}

#[test]
fn bounds_against_a_map() -> Result<(), Error> {
    let keys = awkward_keys();
    let plain: BTreeMap<_, _> = keys.iter().map(|key| (key.clone(), ())).collect();
    let index = index_of(&keys)?;
    for lo in &keys {
        for hi in &keys {
            for start in bounds_of(lo) {
                for end in bounds_of(hi) {
                    let wanted = match is_proper(&start, &end) {
                        true => plain
                            .range((start.clone(), end.clone()))
                            .map(|(key, ())| key.clone())
                            .collect(),
                        false => Keys::new(),
                    };
                    assert_eq!(
                        keys_of(index.range((start.clone(), end.clone())))?,
                        wanted,
                        "{lo:?} {hi:?}"
                    );
                    assert_eq!(
                        keys_of(index.range((start.clone(), end)).rev())?,
                        reversed(wanted),
                        "{lo:?} {hi:?}"
                    );
                }
            }
        }
    }
    Ok(())
}

#[test]
fn prefixes_against_a_map() -> Result<(), Error> {
    let keys = awkward_keys();
    let index = index_of(&keys)?;
    for prefix in &keys {
        let wanted: Keys = keys
            .iter()
            .filter(|key| key.starts_with(prefix))
            .cloned()
            .collect();
        assert!(!wanted.is_empty());
        assert_eq!(keys_of(index.prefix(prefix))?, wanted, "{prefix:?}");
        assert_eq!(keys_of(index.prefix(prefix).rev())?, reversed(wanted));
    }
    Ok(())
}

// Ends at each place about the numbers of rows that are read at once.
#[test]
fn ends_among_many() -> Result<(), Error> {
    let key = |number: usize| format!("{number:05}").into_bytes();
    let keys: Keys = (0..3000).map(key).collect();
    let index = index_of(&keys)?;
    for count in [
        0, 1, 31, 32, 33, 159, 160, 161, 671, 672, 673, 1671, 1672, 1673, 2671, 2672, 2673, 3000,
    ] {
        assert_eq!(keys_of(index.range(..key(count)))?, keys[..count]);
        assert_eq!(keys_of(index.range(key(count)..))?, keys[count..]);
        assert_eq!(
            keys_of(index.range(key(7)..=key(count)))?,
            keys[7..(count + 1).clamp(7, 3000)]
        );
        assert_eq!(
            keys_of(index.range(..key(count)).rev())?,
            reversed(keys[..count].to_vec())
        );
        assert_eq!(
            keys_of(index.range(key(count)..).rev())?,
            reversed(keys[count..].to_vec())
        );
    }
    let mut pairs = index.range(key(2999)..);
    assert!(pairs.next().is_some());
    assert!(pairs.next().is_none() && pairs.next().is_none());
    Ok(())
}

#[test]
fn keys_that_are_too_long() -> Result<(), Error> {
    let index = index_of(&[vec![b'k'; MAX_KEY_BYTES]])?;
    let long = vec![b'k'; MAX_KEY_BYTES + 1];
    for mut pairs in [
        index.range(long.clone()..),
        index.range((Bound::Excluded(&long), Bound::Unbounded)),
        index.prefix(&long),
    ] {
        assert_eq!(pairs.next(), Some(Err(Error::KeyTooLong)));
        assert_eq!(pairs.next(), None);
    }
    for mut pairs in [index.range(long.clone()..), index.prefix(&long)] {
        assert_eq!(pairs.next_back(), Some(Err(Error::KeyTooLong)));
        assert_eq!((pairs.next_back(), pairs.next()), (None, None));
    }
    assert_eq!(index.range(..long.clone()).count(), 1);
    assert_eq!(index.range(..long.clone()).rev().count(), 1);
    assert_eq!(index.range(..=long).rev().count(), 1);
    assert_eq!(index.range(..vec![u8::MAX; 2000]).rev().count(), 1);
    assert_eq!(index.range(..vec![b'j'; 2000]).rev().count(), 0);
    Ok(())
}

#[test]
fn errors_say_what_was_wrong() -> Result<(), Error> {
    let mut index = Index::open(Options::default())?;
    let error: Box<dyn std::error::Error> = Box::new(index.put_if("k", &[], 7).unwrap_err());
    assert_eq!(
        error.to_string(),
        "the row has version 0, not the one asked for; 0 means no row"
    );
    let error = index.put([0; MAX_KEY_BYTES + 1], &[]).unwrap_err();
    assert_eq!(error.to_string(), "a key has more than 1,024 bytes");
    let error = Index::open(Options::default().columns(0)).unwrap_err();
    assert_eq!(
        error.to_string(),
        "a column doesn't exist or is named twice; an index has 1 to 16 columns"
    );
    Ok(())
}

#[test]
fn the_version_is_that_of_the_crate() {
    assert_eq!(rowanspan::version(), env!("CARGO_PKG_VERSION"));
}
