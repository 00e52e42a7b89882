//! The last rows before a key, and iterators that are read from both ends.

mod chance;

use chance::Chance;
use rowanspan::{Error, Index, Options, Row, SharedIndex, MAX_KEY_BYTES};
use std::collections::BTreeMap;

type Keys = Vec<Vec<u8>>;

fn index_of(count: usize) -> Result<(Index, Keys), Error> {
    let mut index = Index::open(Options::default())?;
    let keys: Keys = (0..count)
        .map(|number| format!("{number:05}").into_bytes())
        .collect();
    for key in &keys {
        index.put(key, &[(0, key)])?;
    }
    Ok((index, keys))
}

fn keys_of(pairs: impl Iterator<Item = Result<(Vec<u8>, Row), Error>>) -> Result<Keys, Error> {
    pairs.map(|pair| Ok(pair?.0)).collect()
}

#[test]
fn the_last_rows() -> Result<(), Error> {
    let mut index = Index::open(Options::default().columns(2))?;
    assert_eq!(index.last(None, 1000, &[])?, []);
    assert_eq!(
        (index.first_key_value()?, index.last_key_value()?),
        (None, None)
    );
    for key in ["b", "a", "ab", "c"] {
        index.put(key, &[(1, key.as_bytes())])?;
    }
    let row = |version, columns: &[&[u8]]| Row {
        version,
        columns: columns.iter().map(|column| column.to_vec()).collect(),
    };
    assert_eq!(
        index.last(Some(b"b"), 9, &[])?,
        [
            (b"ab".to_vec(), row(3, &[b"", b"ab"])),
            (b"a".to_vec(), row(2, &[b"", b"a"]))
        ]
    );
    assert_eq!(
        index.last(None, 1, &[1, 0])?,
        [(b"c".to_vec(), row(4, &[b"c", b""]))]
    );
    assert_eq!(index.last(Some(b"a"), 9, &[])?, []);
    assert_eq!(index.last(Some(b""), 9, &[])?, []);
    assert_eq!(index.last(Some(b"a\0"), 9, &[])?.len(), 1);
    assert_eq!(index.last_key_value()?, index.last(None, 1, &[])?.pop());
    assert_eq!(index.first_key_value()?, index.first("", 1, &[])?.pop());
    index.put("", &[])?;
    assert_eq!(
        index.first_key_value()?,
        Some((vec![], row(5, &[b"", b""])))
    );
    assert_eq!(index.last(Some(b""), 9, &[])?, []);
    Ok(())
}

#[test]
fn what_is_refused() -> Result<(), Error> {
    let (index, _) = index_of(1500)?;
    let long = [b'k'; MAX_KEY_BYTES + 1];
    assert_eq!(index.last(Some(&long), 0, &[1]), Err(Error::KeyTooLong));
    assert_eq!(index.last(None, 0, &[1]), Err(Error::BadColumn));
    assert_eq!(index.last(None, 1, &[0, 0]), Err(Error::BadColumn));
    assert_eq!(index.last(None, 0, &[]), Err(Error::BadLimit));
    assert_eq!(index.last(None, 1001, &[]), Err(Error::BadLimit));
    assert_eq!(index.last(Some(&long[1..]), 1000, &[])?.len(), 1000);
    Ok(())
}

#[test]
fn both_ends() -> Result<(), Error> {
    // each turn reads as many rows from the front, and then as many from the back
    for (fronts, backs) in [
        (1, 0),
        (0, 1),
        (1, 1),
        (3, 1),
        (1, 7),
        (40, 33),
        (1000, 1),
        (1, 1000),
    ] {
        for count in [0, 1, 2, 31, 32, 33, 63, 64, 65, 200, 2500] {
            let (index, keys) = index_of(count)?;
            let mut pairs = index.iter();
            let (mut front, mut back) = (Keys::new(), Keys::new());
            while front.len() + back.len() < count {
                for pair in pairs.by_ref().take(fronts) {
                    front.push(pair?.0);
                }
                for pair in pairs.by_ref().rev().take(backs) {
                    back.push(pair?.0);
                }
            }
            assert_eq!((pairs.next(), pairs.next_back()), (None, None));
            front.extend(back.into_iter().rev());
            assert_eq!(front, keys, "{fronts} {backs}");
        }
    }
    Ok(())
}

#[test]
fn both_ends_of_a_range() -> Result<(), Error> {
    let (index, keys) = index_of(300)?;
    let mut pairs = index.range("00010".."00100");
    assert_eq!(keys_of(pairs.by_ref().take(40))?, keys[10..50]);
    let mut back = keys[60..100].to_vec();
    back.reverse();
    assert_eq!(keys_of(pairs.by_ref().rev().take(40))?, back);
    assert_eq!(keys_of(pairs.by_ref().take(10))?, keys[50..60]);
    assert_eq!((pairs.next_back(), pairs.next()), (None, None));
    let mut below = index.prefix("0000");
    assert_eq!(below.next_back().expect("there is one")?.0, b"00009");
    assert_eq!(below.count(), 9);
    Ok(())
}

// The index changes between two reads. No key is returned twice, and each that is there throughout is returned.
#[test]
fn both_ends_among_changes() -> Result<(), Error> {
    let (index, keys) = index_of(400)?;
    let index = SharedIndex::from(index);
    let (mut pairs, mut front, mut back) = (index.iter(), Keys::new(), Keys::new());
    while front.len() + back.len() < 1000 {
        let (Some(first), Some(last)) = (pairs.next(), pairs.next_back()) else {
            break;
        };
        let (first, last) = (first?.0, last?.0);
        assert!(first < last);
        for key in [&first, &last] {
            index.put([key, &b"+"[..]].concat(), &[])?;
            index.remove(key)?;
            index.put(key, &[])?;
        }
        index.put("!", &[])?;
        index.put("~", &[])?;
        front.push(first);
        back.push(last);
    }
    assert_eq!((pairs.next(), pairs.next_back()), (None, None));
    front.extend(back.into_iter().rev());
    assert!(front.windows(2).all(|two| two[0] < two[1]));
    assert!(keys.iter().all(|key| front.binary_search(key).is_ok()));
    Ok(())
}

#[test]
fn of_a_shared_index() -> Result<(), Error> {
    let (index, keys) = index_of(100)?;
    let index = SharedIndex::from(index);
    assert_eq!(index.last(None, 1, &[])?[0].0, keys[99]);
    assert_eq!(index.first_key_value()?.expect("there are rows").0, keys[0]);
    assert_eq!(index.last_key_value()?.expect("there are rows").0, keys[99]);
    let last = index.prefix("0004").next_back().expect("there is one")?;
    assert_eq!(last.0, keys[49]);
    Ok(())
}

#[test]
fn against_a_map() -> Result<(), Error> {
    let (mut index, mut plain) = (Index::open(Options::default())?, BTreeMap::new());
    let mut chance = Chance(88172645463325252);
    for round in 0..20000 {
        let key = chance.key();
        if chance.below(100) < if round / 5000 % 2 == 1 { 55 } else { 30 } {
            assert_eq!(index.remove(&key)?.is_some(), plain.remove(&key).is_some());
        } else {
            plain.insert(key.clone(), index.put(&key, &[])?);
        }
        if round % 10 == 0 {
            let (key, limit) = (chance.key(), 1 + chance.below(60) as u16);
            let got = index.last(Some(&key), limit, &[])?;
            let got = got.iter().map(|(key, row)| (key, &row.version));
            assert!(got.eq(plain.range(..key).rev().take(usize::from(limit))));
        }
        if round % 500 == 0 {
            let (lo, hi) = (chance.key(), chance.key());
            let (lo, hi) = (lo.clone().min(hi.clone()), lo.max(hi));
            let got = index
                .range(lo.clone()..hi.clone())
                .rev()
                .collect::<Result<Vec<_>, _>>()?;
            let got = got.iter().map(|(key, row)| (key, &row.version));
            assert!(got.eq(plain.range(lo..hi).rev()));
        }
    }
    assert!(plain.len() > 1000);
    Ok(())
}
