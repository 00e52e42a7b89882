//! The library's functions, and the one place that calls them.

use crate::passed::{
    BatchChange, BatchCondition, BatchNumbers, ColumnSet, KeyBytes, ViewTest, ViewTotals,
};
use std::ffi::{c_char, c_uint, CStr};
use std::ptr::NonNull;

// How many bytes of a message are read.
const MESSAGE: usize = 1024;

// An index of the library, of which only the address is known.
#[repr(C)]
struct Opened {
    nothing: [u8; 0],
}

type Handle = *mut Opened;
type Number = *mut u64;

#[rustfmt::skip]
extern "C" {
    fn rowanspan_version() -> *const c_char;
    fn rowanspan_open(index: *mut Handle, columns: u64, log_capacity: u64, log_retention: u64) -> c_uint;
    fn rowanspan_open_folder(index: *mut Handle, folder: *const c_char, columns: u64, log_capacity: u64,
                             log_retention: u64, checkpoint: u64, message: *mut c_char, room: usize) -> c_uint;
    fn rowanspan_sync(index: Handle, durable: Number) -> c_uint;
    fn rowanspan_durable(index: Handle) -> u64;
    fn rowanspan_checkpoint(index: Handle) -> c_uint;
    fn rowanspan_close(index: Handle);
    fn rowanspan_put(index: Handle, key: *const u8, key_length: usize, sets: *const ColumnSet<'_>, count: usize,
                     commit: Number) -> c_uint;
    fn rowanspan_put_if(index: Handle, key: *const u8, key_length: usize, sets: *const ColumnSet<'_>, count: usize,
                        version: u64, commit: Number) -> c_uint;
    fn rowanspan_remove(index: Handle, key: *const u8, key_length: usize, commit: Number) -> c_uint;
    fn rowanspan_batch(index: Handle, conditions: *const BatchCondition<'_>, condition_count: usize,
                       changes: *const BatchChange<'_>, change_count: usize, numbers: Number, number: Number,
                       found: Number) -> c_uint;
    fn rowanspan_tidy(index: Handle, key: *const u8, key_length: usize, tidied: Number) -> c_uint;
    fn rowanspan_get(index: Handle, key: *const u8, key_length: usize, columns: *const u8, column_count: usize,
                     into: *mut u8, room: usize, length: Number) -> c_uint;
    fn rowanspan_get_column(index: Handle, key: *const u8, key_length: usize, column: u8, into: *mut u8, room: usize,
                            length: Number) -> c_uint;
    fn rowanspan_get_many(index: Handle, keys: *const KeyBytes<'_>, count: usize, columns: *const u8,
                          column_count: usize, into: *mut u8, room: usize, length: Number) -> c_uint;
    fn rowanspan_range(index: Handle, start: *const u8, start_length: usize, limit: u16, columns: *const u8,
                       column_count: usize, into: *mut u8, room: usize, length: Number) -> c_uint;
    fn rowanspan_range_back(index: Handle, before: *const u8, before_length: usize, limit: u16, columns: *const u8,
                            column_count: usize, into: *mut u8, room: usize, length: Number) -> c_uint;
    fn rowanspan_count(index: Handle, start: *const u8, start_length: usize, end: *const u8, end_length: usize,
                       most: u32, count: *mut u32) -> c_uint;
    fn rowanspan_build_prefix(index: Handle, prefix: *const u8, prefix_length: usize, test: ViewTest<'_>,
                              view: Number) -> c_uint;
    fn rowanspan_build_from(index: Handle, lo: *const u8, lo_length: usize, test: ViewTest<'_>,
                            view: Number) -> c_uint;
    fn rowanspan_build_between(index: Handle, lo: *const u8, lo_length: usize, hi: *const u8, hi_length: usize,
                               test: ViewTest<'_>, view: Number) -> c_uint;
    fn rowanspan_view(index: Handle, view: u64, floor: u64, start: *const u8, start_length: usize, limit: u16,
                      into: *mut u8, room: usize, length: Number) -> c_uint;
    fn rowanspan_totals(index: Handle, view: u64, floor: u64, totals: *mut ViewTotals) -> c_uint;
    fn rowanspan_apply(index: Handle, view: u64, commit: Number) -> c_uint;
    fn rowanspan_keep_views(index: Handle, applied: Number) -> c_uint;
    fn rowanspan_drop(index: Handle, view: u64) -> c_uint;
    fn rowanspan_feed(index: Handle, from: u64, limit: u16, into: *mut u8, room: usize, length: Number) -> c_uint;
    fn rowanspan_advance(index: Handle, epoch: Number) -> c_uint;
    fn rowanspan_collect(index: Handle) -> u64;
    fn rowanspan_commits(index: Handle) -> u64;
    fn rowanspan_len(index: Handle) -> u64;
    fn rowanspan_nodes(index: Handle) -> u64;
    fn rowanspan_columns(index: Handle) -> u64;
}

/// The version of the library.
pub(crate) fn version() -> &'static str {
    // SAFETY: it is the address of a text that ends in a zero byte and is never freed.
    let text = unsafe { CStr::from_ptr(rowanspan_version()) };
    text.to_str().unwrap_or_default()
}

/// An open index of the library. By its pointer it is neither `Send` nor `Sync`, and it is made `Send` below.
///
/// A call that only reads takes `&self`: the library makes no call back, so no two calls are made at once.
pub(crate) struct Library {
    index: NonNull<Opened>,
}

// SAFETY: what an index of the library holds is proved to be `Send`. An index is for one call at a time, and calls from
// two threads have to be ordered by a lock, or by the start or the join of a thread: since `Library` isn't `Sync`, safe
// code makes a call from another thread only after the value was moved there, or lent by a lock, which orders them.
unsafe impl Send for Library {}

// Makes a call of this symbol, and returns what it returns. The arguments are those after the index.
macro_rules! call {
    ($library:expr, $symbol:ident $(, $argument:expr)*) => {
        // SAFETY: the index is one that `open` has made and that isn't closed, and no other call is open: `Library`
        // isn't `Sync`. Pointers are those of references that live during the call, with their lengths, or null for the
        // key that a range back or a count may be without. Those that the call writes through are of `&mut`, so that
        // none overlaps another.
        unsafe { $symbol($library.index.as_ptr() $(, $argument)*) }
    };
}

// Makes a call of this symbol, and returns its status and the number that it writes. The arguments are those between
// the index and that number.
macro_rules! answered {
    ($library:expr, $symbol:ident $(, $argument:expr)*) => {{
        let mut number = 0u64;
        let status = call!($library, $symbol $(, $argument)*, &mut number);
        (status, number)
    }};
}

// The address and the length of a key that the library may be without. (The address of a key is never null, also if the
// key is empty.)
fn maybe(key: Option<&[u8]>) -> (*const u8, usize) {
    key.map_or((std::ptr::null(), 0), |key| (key.as_ptr(), key.len()))
}

#[rustfmt::skip]
impl Library {
    /// An empty index, or the status of an error.
    pub(crate) fn open(columns: u64, log_capacity: u64, log_retention: u64) -> Result<Library, u32> {
        let mut index = std::ptr::null_mut();
        // SAFETY: the address is that of a variable.
        let status = unsafe { rowanspan_open(&mut index, columns, log_capacity, log_retention) };
        NonNull::new(index).map(|index| Library { index }).ok_or(status)
    }

    /// An index with the rows of a folder, or the status of an error and what the library says about it.
    pub(crate) fn open_folder(folder: &CStr, columns: u64, log_capacity: u64, log_retention: u64,
                              checkpoint: u64) -> Result<Library, (u32, String)> {
        let (mut index, mut room) = (std::ptr::null_mut(), [0u8; MESSAGE]);
        // SAFETY: the addresses are those of variables and of a text that ends in a zero byte. The library writes to the
        // room no more bytes than it has.
        let status = unsafe {
            rowanspan_open_folder(&mut index, folder.as_ptr(), columns, log_capacity, log_retention, checkpoint,
                                  room.as_mut_ptr().cast(), room.len())
        };
        let message = room.split(|byte| *byte == 0).next().unwrap_or_default();
        NonNull::new(index)
            .map(|index| Library { index })
            .ok_or_else(|| (status, String::from_utf8_lossy(message).into_owned()))
    }

    pub(crate) fn sync(&mut self) -> (u32, u64) {
        answered!(self, rowanspan_sync)
    }

    pub(crate) fn durable(&self) -> u64 {
        call!(self, rowanspan_durable)
    }

    pub(crate) fn checkpoint(&mut self) -> u32 {
        call!(self, rowanspan_checkpoint)
    }

    pub(crate) fn put(&mut self, key: &[u8], sets: &[ColumnSet<'_>]) -> (u32, u64) {
        answered!(self, rowanspan_put, key.as_ptr(), key.len(), sets.as_ptr(), sets.len())
    }

    pub(crate) fn put_if(&mut self, key: &[u8], sets: &[ColumnSet<'_>], version: u64) -> (u32, u64) {
        answered!(self, rowanspan_put_if, key.as_ptr(), key.len(), sets.as_ptr(), sets.len(), version)
    }

    pub(crate) fn remove(&mut self, key: &[u8]) -> (u32, u64) {
        answered!(self, rowanspan_remove, key.as_ptr(), key.len())
    }

    pub(crate) fn batch(&mut self, conditions: &[BatchCondition<'_>],
                        changes: &[BatchChange<'_>]) -> (u32, BatchNumbers) {
        let mut written = BatchNumbers { number: 0, found: 0, numbers: vec![0; changes.len()] };
        let status = call!(self, rowanspan_batch, conditions.as_ptr(), conditions.len(), changes.as_ptr(),
                           changes.len(), written.numbers.as_mut_ptr(), &mut written.number, &mut written.found);
        (status, written)
    }

    pub(crate) fn tidy(&mut self, key: &[u8]) -> (u32, u64) {
        answered!(self, rowanspan_tidy, key.as_ptr(), key.len())
    }

    pub(crate) fn get(&self, key: &[u8], columns: &[u8], into: &mut [u8]) -> (u32, u64) {
        answered!(self, rowanspan_get, key.as_ptr(), key.len(), columns.as_ptr(), columns.len(), into.as_mut_ptr(),
                  into.len())
    }

    pub(crate) fn get_column(&self, key: &[u8], column: u8, into: &mut [u8]) -> (u32, u64) {
        answered!(self, rowanspan_get_column, key.as_ptr(), key.len(), column, into.as_mut_ptr(), into.len())
    }

    pub(crate) fn get_many(&self, keys: &[KeyBytes<'_>], columns: &[u8], into: &mut [u8]) -> (u32, u64) {
        answered!(self, rowanspan_get_many, keys.as_ptr(), keys.len(), columns.as_ptr(), columns.len(),
                  into.as_mut_ptr(), into.len())
    }

    pub(crate) fn range(&self, start: &[u8], limit: u16, columns: &[u8], into: &mut [u8]) -> (u32, u64) {
        answered!(self, rowanspan_range, start.as_ptr(), start.len(), limit, columns.as_ptr(), columns.len(),
                  into.as_mut_ptr(), into.len())
    }

    pub(crate) fn range_back(&self, before: Option<&[u8]>, limit: u16, columns: &[u8],
                             into: &mut [u8]) -> (u32, u64) {
        let (at, length) = maybe(before);
        answered!(self, rowanspan_range_back, at, length, limit, columns.as_ptr(), columns.len(), into.as_mut_ptr(),
                  into.len())
    }

    pub(crate) fn count(&self, start: &[u8], end: Option<&[u8]>, most: u32) -> (u32, u32) {
        let (mut count, (at, length)) = (0, maybe(end));
        let status = call!(self, rowanspan_count, start.as_ptr(), start.len(), at, length, most, &mut count);
        (status, count)
    }

    pub(crate) fn build_prefix(&mut self, prefix: &[u8], test: ViewTest<'_>) -> (u32, u64) {
        answered!(self, rowanspan_build_prefix, prefix.as_ptr(), prefix.len(), test)
    }

    pub(crate) fn build_from(&mut self, lo: &[u8], test: ViewTest<'_>) -> (u32, u64) {
        answered!(self, rowanspan_build_from, lo.as_ptr(), lo.len(), test)
    }

    pub(crate) fn build_between(&mut self, lo: &[u8], hi: &[u8], test: ViewTest<'_>) -> (u32, u64) {
        answered!(self, rowanspan_build_between, lo.as_ptr(), lo.len(), hi.as_ptr(), hi.len(), test)
    }

    pub(crate) fn view(&self, view: u64, floor: u64, start: &[u8], limit: u16, into: &mut [u8]) -> (u32, u64) {
        answered!(self, rowanspan_view, view, floor, start.as_ptr(), start.len(), limit, into.as_mut_ptr(), into.len())
    }

    pub(crate) fn totals(&self, view: u64, floor: u64) -> (u32, ViewTotals) {
        let mut totals = ViewTotals::default();
        let status = call!(self, rowanspan_totals, view, floor, &mut totals);
        (status, totals)
    }

    pub(crate) fn feed(&self, from: u64, limit: u16, into: &mut [u8]) -> (u32, u64) {
        answered!(self, rowanspan_feed, from, limit, into.as_mut_ptr(), into.len())
    }

    pub(crate) fn apply(&mut self, view: u64) -> (u32, u64) {
        answered!(self, rowanspan_apply, view)
    }

    pub(crate) fn keep_views(&mut self) -> (u32, u64) {
        answered!(self, rowanspan_keep_views)
    }

    pub(crate) fn drop_view(&mut self, view: u64) -> u32 {
        call!(self, rowanspan_drop, view)
    }

    pub(crate) fn advance(&mut self) -> (u32, u64) {
        answered!(self, rowanspan_advance)
    }

    pub(crate) fn collect(&mut self) -> u64 {
        call!(self, rowanspan_collect)
    }

    pub(crate) fn commits(&self) -> u64 {
        call!(self, rowanspan_commits)
    }

    pub(crate) fn len(&self) -> u64 {
        call!(self, rowanspan_len)
    }

    pub(crate) fn nodes(&self) -> u64 {
        call!(self, rowanspan_nodes)
    }

    pub(crate) fn columns(&self) -> u64 {
        call!(self, rowanspan_columns)
    }
}

impl Drop for Library {
    fn drop(&mut self) {
        // SAFETY: the index is one that `open` has made, no call is open, and there are none after this one.
        unsafe { rowanspan_close(self.index.as_ptr()) };
    }
}
