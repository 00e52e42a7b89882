//! The index by example, and 20,000 calls by chance against a `BTreeMap`.

use rowanspan::{Delta, Error, Index, Keys, Options, Row, RowTest, Tidied, View, MAX_KEY_BYTES};
use std::collections::{BTreeMap, HashSet};
use std::thread;

fn row(version: u64, columns: &[&[u8]]) -> Row {
    Row {
        version,
        columns: columns.iter().map(|column| column.to_vec()).collect(),
    }
}

#[test]
fn rows() -> Result<(), Error> {
    let mut index = Index::open(Options::default())?;
    assert_eq!(index.get(b"apple")?, None);
    assert_eq!(index.put(b"apple", &[(0, b"red")])?, 1);
    assert_eq!(index.put(b"", &[])?, 2);
    assert_eq!(index.get(b"apple")?, Some(row(1, &[b"red"])));
    let pairs = index.range(..).collect::<Result<Vec<_>, Error>>()?;
    assert_eq!(
        pairs,
        [
            (b"".to_vec(), row(2, &[b""])),
            (b"apple".to_vec(), row(1, &[b"red"]))
        ]
    );
    assert_eq!(index.into_iter().collect::<Result<Vec<_>, Error>>()?, pairs);
    assert_eq!(index.first(b"", 1, &[])?, pairs[..1]);
    assert_eq!(index.remove(b"apple")?, Some(3));
    assert_eq!(index.remove(b"apple")?, None);
    assert_eq!((index.commits(), index.nodes(), index.columns()), (3, 2, 1));
    assert_eq!(index.len(), 1);
    assert_eq!(index.tidy(b"apple")?, Tidied::Nothing);
    assert_eq!((index.advance()?, index.collect()), (1, 0));
    Ok(())
}

#[test]
fn conditional_puts() -> Result<(), Error> {
    let mut index = Index::open(Options::default())?;
    assert_eq!(
        index.put_if(b"apple", &[(0, b"red")], 1),
        Err(Error::OtherVersion(0))
    );
    assert_eq!(index.put_if(b"apple", &[(0, b"red")], 0)?, 1);
    assert_eq!(
        index.put_if(b"apple", &[(0, b"green")], 0),
        Err(Error::OtherVersion(1))
    );
    assert_eq!(index.put_if(b"apple", &[(0, b"green")], 1)?, 2);
    assert_eq!(index.get(b"apple")?, Some(row(2, &[b"green"])));
    assert_eq!(index.remove(b"apple")?, Some(3));
    assert_eq!(index.put_if(b"apple", &[], 2), Err(Error::OtherVersion(0)));
    assert_eq!(index.put_if(b"k", &[(1, b"")], 9), Err(Error::BadColumn));
    Ok(())
}

fn two() -> Options {
    Options::default()
        .columns(2)
        .log_capacity(2)
        .log_retention(1)
}

#[test]
fn options() {
    let options = two();
    assert_eq!(
        (options.columns, options.log_capacity, options.log_retention),
        (2, 2, 1)
    );
    let default = Options::default();
    assert_eq!(
        (default.columns, default.log_capacity, default.log_retention),
        (1, 65_536, 0)
    );
    #[allow(deprecated)]
    let former = Options::default().columns(2).feed(2).keep(1);
    assert_eq!(former, options);
    for (wrong, error) in [
        (two().columns(0), Error::BadColumn),
        (two().columns(17), Error::BadColumn),
        (two().log_capacity(0), Error::BadLimit),
        (two().log_capacity(65_537), Error::BadLimit),
        (two().log_retention(65_537), Error::BadLimit),
    ] {
        assert_eq!(Index::open(wrong).err(), Some(error), "{wrong:?}");
    }
}

#[test]
fn refusals() -> Result<(), Error> {
    let mut index = Index::open(two())?;
    assert_eq!(
        index.put([0u8; MAX_KEY_BYTES + 1], &[]),
        Err(Error::KeyTooLong)
    );
    assert_eq!(index.put(b"k", &[(2, b"")]), Err(Error::BadColumn));
    assert_eq!(
        index.put(b"k", &[(0, b""), (0, b"")]),
        Err(Error::BadColumn)
    );
    assert_eq!(index.put(b"k", &[(0, &[0; 65])]), Err(Error::ColumnTooLong));
    assert_eq!(index.first(b"", 0, &[]), Err(Error::BadLimit));
    assert_eq!(index.get_columns(b"", &[2]), Err(Error::BadColumn));
    assert_eq!(
        index.build(Keys::Between(b"b", b"a"), RowTest::Any),
        Err(Error::BadRange)
    );
    Ok(())
}

#[test]
fn refusals_of_views() -> Result<(), Error> {
    let mut index = Index::open(two())?;
    let view = index.build(Keys::From(b""), RowTest::Any)?;
    assert_eq!(index.put(b"a", &[])?, 1);
    assert_eq!(index.put(b"b", &[])?, 2);
    assert_eq!(index.put(b"c", &[]), Err(Error::FeedFull(0)));
    assert_eq!(index.view(view, 1, b"", 1), Err(Error::Behind(0)));
    assert_eq!(index.totals(view, 1), Err(Error::Behind(0)));
    assert_eq!(index.apply(Some(view))?, Some(1));
    assert_eq!(index.keep_views()?, 1);
    assert_eq!(index.keep_views()?, 0);
    assert_eq!(index.apply(None)?, None);
    assert_eq!(index.apply(Some(view))?, None);
    assert_eq!(index.feed(0, 1), Err(Error::Behind(1)));
    index.drop_view(view)?;
    assert_eq!(index.drop_view(view), Err(Error::NoSuchView));
    assert_eq!(index.view(view, 0, b"", 1), Err(Error::NoSuchView));
    assert_eq!(index.totals(view, 9), Err(Error::NoSuchView));
    assert_eq!(index.apply(Some(view)), Err(Error::NoSuchView));
    let built = (0..64)
        .map(|_| index.build(Keys::Prefix(b"z"), RowTest::Any))
        .collect::<Result<HashSet<View>, Error>>()?;
    assert_eq!((built.len(), built.contains(&view)), (64, false));
    assert_eq!(
        index.build(Keys::Prefix(b"z"), RowTest::Any),
        Err(Error::TooManyViews)
    );
    Ok(())
}

#[test]
fn views_and_feeds() -> Result<(), Error> {
    let mut index = Index::open(Options::default().log_retention(9))?;
    index.put(b"a1", &[(0, &[255; 8])])?;
    let all = index.build(Keys::Prefix(b"a"), RowTest::Any)?;
    let large = index.build(Keys::Between(b"a", b"b"), RowTest::AtLeast(0, 8))?;
    let same = index.build(Keys::Prefix(b""), RowTest::Equals(0, b"\x07"))?;
    index.put(b"a2", &[(0, b"\x07")])?;
    index.keep_views()?;
    let page = index.view(all, 2, b"a2", 9)?;
    assert_eq!(
        (page.at, page.count, &page.sums[..]),
        (2, 2, &[u128::from(u64::MAX) + 7][..])
    );
    assert_eq!(page.rows, [(b"a2".to_vec(), row(2, &[b"\x07"]))]);
    let totals = index.totals(all, 2)?;
    assert_eq!(
        (totals.at, totals.count, totals.sums),
        (page.at, page.count, page.sums)
    );
    assert_eq!(
        (
            index.view(large, 2, b"", 9)?.count,
            index.view(same, 2, b"", 9)?.count
        ),
        (1, 1)
    );
    index.remove(b"a2")?;
    let gone = Delta {
        number: 3,
        key: b"a2".to_vec(),
        before: Some(row(2, &[b"\x07"])),
        after: None,
    };
    assert_eq!(index.feed(2, 9)?, [gone]);
    Ok(())
}

#[test]
fn ranges_of_many() -> Result<(), Error> {
    let mut index = Index::open(Options::default())?;
    let key = |number: u32| format!("{number:08}").into_bytes();
    for number in 0..2000 {
        index.put(key(number), &[(0, &[1; 60])])?;
    }
    let last = [255u8; MAX_KEY_BYTES];
    index.put(last, &[])?;
    let keys = index
        .range(key(5)..)
        .map(|pair| Ok(pair?.0))
        .collect::<Result<Vec<_>, Error>>()?;
    let wanted: Vec<_> = (5..2000).map(key).chain([last.to_vec()]).collect();
    assert_eq!(keys, wanted);
    Ok(())
}

#[test]
fn rows_of_every_size() -> Result<(), Error> {
    let mut index = Index::open(Options::default().columns(16))?;
    for length in [0, 1, 63, 64] {
        let bytes = vec![b'x'; length];
        let sets: Vec<(u8, &[u8])> = (0..16).map(|column| (column, &bytes[..])).collect();
        let commit = index.put(b"key", &sets)?;
        let wanted = row(commit, &vec![&bytes[..]; 16]);
        assert_eq!(index.get(b"key")?, Some(wanted));
        let wanted = row(commit, &[&bytes[..]; 2]);
        assert_eq!(index.get_columns(b"key", &[15, 0])?, Some(wanted));
    }
    Ok(())
}

#[test]
fn which_keys_are_there() -> Result<(), Error> {
    let mut index = Index::open(Options::default().columns(2))?;
    index.put("empty", &[])?;
    index.put("full", &[(0, &[7; 64]), (1, b"x")])?;
    assert!(index.contains_key("empty")? && index.contains_key(b"full")?);
    assert!(!index.contains_key("")? && !index.contains_key("ful")?);
    index.remove("full")?;
    assert!(!index.contains_key("full")?);
    assert_eq!(
        index.contains_key([0; MAX_KEY_BYTES + 1]),
        Err(Error::KeyTooLong)
    );
    Ok(())
}

#[test]
fn one_column() -> Result<(), Error> {
    let mut index = Index::open(Options::default().columns(16))?;
    index.put(b"key", &[(15, &[7; 64]), (2, b"abc")])?;
    assert_eq!(index.get_column(b"key", 2)?, Some(b"abc".to_vec()));
    assert_eq!(index.get_column("key", 15)?, Some(vec![7; 64]));
    assert_eq!(index.get_column(b"key", 0)?, Some(vec![]));
    assert_eq!(index.get_column(b"kex", 2)?, None);
    assert_eq!(index.get_column(b"key", 16), Err(Error::BadColumn));
    assert_eq!(
        index.get_column([0; MAX_KEY_BYTES + 1], 2),
        Err(Error::KeyTooLong)
    );
    Ok(())
}

#[test]
fn another_thread() -> Result<(), Error> {
    let mut index = Index::open(Options::default())?;
    index.put(b"apple", &[(0, b"red")])?;
    let moved = thread::spawn(move || -> Result<Index, Error> {
        assert_eq!(index.get(b"apple")?, Some(row(1, &[b"red"])));
        index.put(b"pear", &[(0, b"green")])?;
        Ok(index)
    });
    let index = moved.join().expect("the thread ends")?;
    assert_eq!(index.get(b"pear")?, Some(row(2, &[b"green"])));
    Ok(())
}

struct Chance(u64);

impl Chance {
    fn below(&mut self, bound: u64) -> u64 {
        self.0 ^= self.0 << 13;
        self.0 ^= self.0 >> 7;
        self.0 ^= self.0 << 17;
        self.0 % bound
    }

    fn bytes(&mut self, most: u64, letters: u64) -> Vec<u8> {
        (0..self.below(most + 1))
            .map(|_| b'a' + self.below(letters) as u8)
            .collect()
    }

    fn key(&mut self) -> Vec<u8> {
        let front = [0, 0, 8, 16][self.below(4) as usize];
        [vec![b'a'; front], self.bytes(4, 3)].concat()
    }
}

fn put_if_by_chance(
    index: &mut Index,
    plain: &mut BTreeMap<Vec<u8>, Row>,
    chance: &mut Chance,
) -> Result<(), Error> {
    let (key, bytes) = (chance.key(), chance.bytes(6, 26));
    let found = plain.get(&key).map_or(0, |row| row.version);
    let version = found + chance.below(2);
    match index.put_if(&key, &[(0, &bytes)], version) {
        Err(Error::OtherVersion(other)) => assert!(version != found && other == found),
        put => {
            assert_eq!(version, found);
            let row = plain.entry(key).or_insert_with(|| row(0, &[b"", b""]));
            row.version = put?;
            row.columns[0] = bytes;
        }
    }
    Ok(())
}

fn put_by_chance(
    index: &mut Index,
    plain: &mut BTreeMap<Vec<u8>, Row>,
    chance: &mut Chance,
) -> Result<(), Error> {
    let (key, bytes, column) = (chance.key(), chance.bytes(6, 26), chance.below(2) as u8);
    let commit = index.put(&key, &[(column, &bytes)])?;
    let row = plain.entry(key).or_insert_with(|| row(0, &[b"", b""]));
    row.version = commit;
    row.columns[usize::from(column)] = bytes;
    Ok(())
}

fn first_by_chance(
    index: &Index,
    plain: &BTreeMap<Vec<u8>, Row>,
    chance: &mut Chance,
) -> Result<(), Error> {
    let (key, limit) = (chance.key(), 1 + chance.below(30) as usize);
    let wanted: Vec<_> = plain
        .range(key.clone()..)
        .take(limit)
        .map(|(key, row)| (key.clone(), row.clone()))
        .collect();
    assert_eq!(index.first(&key, limit as u16, &[])?, wanted);
    Ok(())
}

#[test]
fn random_calls_against_a_map() -> Result<(), Error> {
    let mut index = Index::open(Options::default().columns(2))?;
    let mut plain = BTreeMap::new();
    let mut chance = Chance(88172645463325252);
    let view = index.build(Keys::Prefix(b"aa"), RowTest::Any)?;
    for _ in 0..20_000 {
        match chance.below(10) {
            0..=2 => put_by_chance(&mut index, &mut plain, &mut chance)?,
            3 => put_if_by_chance(&mut index, &mut plain, &mut chance)?,
            4..=5 => {
                let key = chance.key();
                assert_eq!(index.remove(&key)?.is_some(), plain.remove(&key).is_some());
            }
            6..=7 => {
                let key = chance.key();
                let wanted = plain.get(&key).cloned();
                let first = wanted.as_ref().map(|row| row.columns[0].clone());
                assert_eq!(index.contains_key(&key)?, first.is_some());
                assert_eq!(index.get_column(&key, 0)?, first);
                assert_eq!(index.get(&key)?, wanted);
            }
            8 => first_by_chance(&index, &plain, &mut chance)?,
            _ => {
                index.keep_views()?;
                let shown = plain.iter().filter(|(key, _)| key.starts_with(b"aa"));
                let wanted: Vec<_> = shown.map(|(key, row)| (key.clone(), row.clone())).collect();
                let page = index.view(view, index.commits(), b"", 1000)?;
                assert_eq!((page.count, page.rows), (wanted.len() as u64, wanted));
                let keys = index.into_iter().map(|pair| Ok(pair?.0));
                let keys = keys.collect::<Result<Vec<_>, Error>>()?;
                assert!(keys.iter().eq(plain.keys()));
            }
        }
    }
    Ok(())
}
