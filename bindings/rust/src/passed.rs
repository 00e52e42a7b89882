//! What is passed to the library's functions, and what they write, in the layouts of the header.

use std::marker::PhantomData;

/// New bytes for a column, as the library takes them.
#[repr(C)]
pub(crate) struct ColumnSet<'a> {
    column: u8,
    at: *const u8,
    length: usize,
    bytes: PhantomData<&'a [u8]>,
}

impl<'a> ColumnSet<'a> {
    pub(crate) fn new(column: u8, bytes: &'a [u8]) -> ColumnSet<'a> {
        ColumnSet {
            column,
            at: bytes.as_ptr(),
            length: bytes.len(),
            bytes: PhantomData,
        }
    }
}

/// A key, as the library takes many of them.
#[repr(C)]
pub(crate) struct KeyBytes<'a> {
    at: *const u8,
    length: usize,
    bytes: PhantomData<&'a [u8]>,
}

impl<'a> KeyBytes<'a> {
    pub(crate) fn new(bytes: &'a [u8]) -> KeyBytes<'a> {
        KeyBytes {
            at: bytes.as_ptr(),
            length: bytes.len(),
            bytes: PhantomData,
        }
    }
}

/// A condition of a batch, as the library takes it.
#[repr(C)]
pub(crate) struct BatchCondition<'a> {
    key: *const u8,
    key_length: usize,
    version: u64,
    bytes: PhantomData<&'a [u8]>,
}

impl<'a> BatchCondition<'a> {
    pub(crate) fn new(key: &'a [u8], version: u64) -> BatchCondition<'a> {
        BatchCondition {
            key: key.as_ptr(),
            key_length: key.len(),
            version,
            bytes: PhantomData,
        }
    }
}

/// A change of a batch, as the library takes it.
#[repr(C)]
pub(crate) struct BatchChange<'a> {
    key: *const u8,
    key_length: usize,
    sets: *const ColumnSet<'a>,
    count: usize,
    removes: bool,
    parts: PhantomData<(&'a [u8], &'a [ColumnSet<'a>])>,
}

impl<'a> BatchChange<'a> {
    /// A put of these sets, or a remove if there are none.
    pub(crate) fn new(key: &'a [u8], sets: Option<&'a [ColumnSet<'a>]>) -> BatchChange<'a> {
        let (removes, sets) = (sets.is_none(), sets.unwrap_or_default());
        BatchChange {
            key: key.as_ptr(),
            key_length: key.len(),
            sets: sets.as_ptr(),
            count: sets.len(),
            removes,
            parts: PhantomData,
        }
    }
}

/// What a call for a batch has written: its number, the version that was found, and the number of each change.
pub(crate) struct BatchNumbers {
    pub(crate) number: u64,
    pub(crate) found: u64,
    pub(crate) numbers: Vec<u64>,
}

/// A test of rows, as the library takes it.
#[repr(C)]
pub(crate) struct ViewTest<'a> {
    kind: u8,
    column: u8,
    least: u64,
    at: *const u8,
    length: usize,
    bytes: PhantomData<&'a [u8]>,
}

impl<'a> ViewTest<'a> {
    pub(crate) fn new(kind: u8, column: u8, least: u64, bytes: &'a [u8]) -> ViewTest<'a> {
        ViewTest {
            kind,
            column,
            least,
            at: bytes.as_ptr(),
            length: bytes.len(),
            bytes: PhantomData,
        }
    }
}

/// A sum of up to 128 bits, as its halves.
#[repr(C)]
#[derive(Clone, Copy, Default)]
struct Sum {
    upper: u64,
    lower: u64,
}

/// The totals of a view, as the library writes them.
#[repr(C)]
#[derive(Default)]
pub(crate) struct ViewTotals {
    pub(crate) commit: u64,
    pub(crate) row_count: u64,
    sum_count: usize,
    sums: [Sum; 16],
}

impl ViewTotals {
    pub(crate) fn sums(&self) -> Vec<u128> {
        self.sums
            .iter()
            .take(self.sum_count)
            .map(|sum| u128::from(sum.upper) << 64 | u128::from(sum.lower))
            .collect()
    }
}
