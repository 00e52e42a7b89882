//! The rows of many keys in one call: by example, and against a `BTreeMap`.

mod chance;

use chance::Chance;
use rowanspan::{Error, Index, Options, Row, SharedIndex, MAX_KEY_BYTES};
use std::collections::BTreeMap;

fn row(version: u64, columns: &[&[u8]]) -> Option<Row> {
    Some(Row {
        version,
        columns: columns.iter().map(|column| column.to_vec()).collect(),
    })
}

#[test]
fn by_example() -> Result<(), Error> {
    let mut index = Index::open(Options::default().columns(2))?;
    assert_eq!(index.get_many(["a", ""])?, [None, None]);
    assert_eq!(index.get_many([""; 0])?, []);
    index.put("a", &[(0, b"red"), (1, b"sweet")])?;
    index.put("", &[(1, b"none")])?;
    let (a, empty) = (row(1, &[b"red", b"sweet"]), row(2, &[b"", b"none"]));
    assert_eq!(
        index.get_many(["b", "a", "", "a"])?,
        [None, a.clone(), empty, a.clone()]
    );
    let owned = vec![b"a".to_vec(), b"b".to_vec()];
    assert_eq!(index.get_many(&owned)?, [a.clone(), None]);
    assert_eq!(index.get_many(owned)?, [a.clone(), None]);
    assert_eq!(index.get_many([*b"a", *b"b"])?, [a, None]);
    assert_eq!(
        index.get_many_columns(["a", "b"], &[1, 0])?,
        [row(1, &[b"sweet", b"red"]), None]
    );
    assert_eq!(index.get_many_columns(["a"], &[1])?, [row(1, &[b"sweet"])]);
    index.remove("a")?;
    assert_eq!(index.get_many(["a"])?, [None]);
    Ok(())
}

#[test]
fn limits() -> Result<(), Error> {
    let mut index = Index::open(Options::default())?;
    index.put("k".repeat(MAX_KEY_BYTES), &[])?;
    let long = "k".repeat(MAX_KEY_BYTES + 1);
    let most = vec![&long[1..]; 1000];
    assert_eq!(index.get_many(&most)?, vec![row(1, &[b""]); 1000]);
    let more = vec![&long[1..]; 1001];
    assert_eq!(index.get_many(&more), Err(Error::BadLimit));
    let columns = |keys: &[&str], columns: &[u8]| index.get_many_columns(keys, columns);
    assert_eq!(columns(&more, &[1]), Err(Error::BadColumn));
    assert_eq!(columns(&["a"], &[0, 0]), Err(Error::BadColumn));
    assert_eq!(columns(&["a", &long], &[1]), Err(Error::KeyTooLong));
    assert_eq!(columns(&[], &[1]), Err(Error::BadColumn));
    Ok(())
}

#[test]
fn against_a_map() -> Result<(), Error> {
    let (mut index, mut plain) = (Index::open(Options::default())?, BTreeMap::new());
    let mut chance = Chance(88172645463325252);
    for round in 0..20000 {
        let key = chance.key();
        if chance.below(100) < if round / 5000 % 2 == 1 { 55 } else { 30 } {
            assert_eq!(index.remove(&key)?.is_some(), plain.remove(&key).is_some());
        } else {
            plain.insert(key.clone(), index.put(&key, &[])?);
        }
        if round % 20 == 0 {
            let first = chance.key();
            let there = plain.range(first..).take(5).map(|(key, _)| key.clone());
            let keys: Vec<_> = there
                .chain((0..chance.below(60)).map(|_| chance.key()))
                .collect();
            let wanted: Vec<_> = keys
                .iter()
                .map(|key| plain.get(key).and_then(|version| row(*version, &[b""])))
                .collect();
            assert_eq!(index.get_many(&keys)?, wanted);
        }
    }
    assert!(plain.len() > 1000);
    Ok(())
}

// The iterator of the keys calls the index, which is not locked then.
#[test]
fn of_a_shared_index() -> Result<(), Error> {
    let index = SharedIndex::open(Options::default())?;
    index.put("a", &[(0, b"b")])?;
    index.put("b", &[(0, b"c")])?;
    let named = index
        .range(..)
        .flatten()
        .map(|(_, row)| row.columns[0].clone());
    assert_eq!(index.get_many(named)?, [row(2, &[b"c"]), None]);
    assert_eq!(index.get_many_columns(["a"], &[0])?, [row(1, &[b"b"])]);
    assert_eq!(index.get_many_columns(["a"], &[1]), Err(Error::BadColumn));
    Ok(())
}
