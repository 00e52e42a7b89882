//! What the calls of an index share: the statuses that are no errors, and how an answer is asked for and read.

use crate::answers::Reader;
use crate::error::Error;

pub(crate) const DONE: u32 = 0;
pub(crate) const ABSENT: u32 = 102;
pub(crate) const NO_ROOM: u32 = 103;
pub(crate) const CURRENT: u32 = 104;
pub(crate) const UNMET: u32 = 113;

/// The most bytes of a column.
pub(crate) const MAX_COLUMN_BYTES: usize = 64;

// How many bytes of an answer are read without an allocation: those of a row with 16 columns of 64 bytes.
const ROOM_ON_STACK: usize = 8 + 8 + 16 * (8 + MAX_COLUMN_BYTES);

/// The number that a call has written.
pub(crate) fn done((status, number): (u32, u64)) -> Result<u64, Error> {
    match status {
        DONE => Ok(number),
        _ => Err(Error::of(status, number)),
    }
}

/// The length of an answer, or none if a key has no row.
pub(crate) fn length(status: u32, number: u64) -> Result<Option<usize>, Error> {
    match status {
        DONE => Ok(Some(usize::try_from(number).map_err(|_| Error::NoMemory)?)),
        ABSENT => Ok(None),
        _ => Err(Error::of(status, number)),
    }
}

/// What is read of an answer, or none if a key has no row. If the room on the stack is too small, it asks again, with
/// room on the heap.
pub(crate) fn answer<T>(
    ask: impl Fn(&mut [u8]) -> (u32, u64),
    read: impl FnOnce(Reader<'_>) -> T,
) -> Result<Option<T>, Error> {
    answer_in(&mut [0; ROOM_ON_STACK], ask, read)
}

/// What is read of an answer for which there is this room at first, or none if a key has no row. If it is too small, it
/// asks again, with room on the heap.
pub(crate) fn answer_in<T>(
    room: &mut [u8],
    ask: impl Fn(&mut [u8]) -> (u32, u64),
    read: impl FnOnce(Reader<'_>) -> T,
) -> Result<Option<T>, Error> {
    let (status, number) = ask(room);
    if status != NO_ROOM {
        return Ok(length(status, number)?.map(|count| read(Reader::new(&room[..count]))));
    }
    let mut room = vec![0; usize::try_from(number).map_err(|_| Error::NoMemory)?];
    let (status, number) = ask(&mut room);
    Ok(length(status, number)?.map(|count| read(Reader::new(&room[..count]))))
}

/// What is read of an answer that is always there.
pub(crate) fn some_answer<T>(
    ask: impl Fn(&mut [u8]) -> (u32, u64),
    read: impl FnOnce(Reader<'_>) -> T,
) -> Result<T, Error> {
    answer(ask, read)?.ok_or(Error::Unknown(ABSENT))
}
