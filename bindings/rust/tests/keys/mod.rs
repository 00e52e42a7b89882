//! Keys and bounds that are awkward, for tests against a map.

use rowanspan::MAX_KEY_BYTES;
use std::collections::BTreeSet;
use std::ops::Bound;

/// Keys that begin alike or with the greatest bytes, and some of the greatest length.
pub fn awkward_keys() -> Vec<Vec<u8>> {
    let mut keys = BTreeSet::new();
    for front in [
        &b""[..],
        b"a",
        b"a\0",
        b"a\xff",
        b"\xff",
        b"\xff\xff",
        b"b",
        b"aaaaaaaabbbbbbbb",
    ] {
        for back in [&b""[..], b"\0", b"a", b"\xff", b"\xff\xff"] {
            keys.insert([front, back].concat());
        }
    }
    for byte in [b'a', b'b', u8::MAX] {
        keys.insert(vec![byte; MAX_KEY_BYTES]);
    }
    keys.into_iter().collect()
}

/// The bounds at a key, and none.
pub fn bounds_of(key: &[u8]) -> [Bound<Vec<u8>>; 3] {
    [
        Bound::Included(key.to_vec()),
        Bound::Excluded(key.to_vec()),
        Bound::Unbounded,
    ]
}

/// Whether a map takes these bounds: it panics if the first comes after the second.
pub fn is_proper(start: &Bound<Vec<u8>>, end: &Bound<Vec<u8>>) -> bool {
    match (start, end) {
        (Bound::Excluded(lo), Bound::Excluded(hi)) => lo < hi,
        (Bound::Included(lo) | Bound::Excluded(lo), Bound::Included(hi) | Bound::Excluded(hi)) => {
            lo <= hi
        }
        _ => true,
    }
}
