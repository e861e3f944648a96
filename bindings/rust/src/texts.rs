//! The texts that the library writes, with the room that it needs.
use crate::{raw, Error, LineError};

/// The room for a first try of a whole text, in bytes.
const SHORT_TEXT: usize = 4096;

/// The text that the library writes into a room of so many bytes, and is given the place for its size; or the status that says why not.
fn written<const ROOM: usize>(
    write: impl FnOnce(&mut [u8], &mut usize) -> u32,
) -> Result<String, u32> {
    let (mut room, mut size) = ([0u8; ROOM], 0);
    let status = write(&mut room, &mut size);
    raw::done(status, ()).map(|()| String::from_utf8_lossy(&room[..size]).into_owned())
}

/// The answer that the library writes to a line: it has room for each.
pub(crate) fn answer(
    write: impl FnOnce(&mut [u8], &mut usize) -> u32,
) -> Result<String, LineError> {
    written::<{ raw::LONGEST_ANSWER }>(write).map_err(LineError::of)
}

/// The answer that the library writes of a reply, for which it has room; none where the numbers are no reply.
pub(crate) fn reply_line(write: impl FnOnce(&mut [u8], &mut usize) -> u32) -> Option<String> {
    written::<{ raw::LONGEST_ANSWER }>(write).ok()
}

/// The line that the library writes of a call, for which it has room.
pub(crate) fn call_line(write: impl FnOnce(&mut [u8], &mut usize) -> u32) -> String {
    written::<{ raw::LONGEST_CALL }>(write).expect("each call of this crate has a line")
}

/// The list, or the text of a table, that the library writes: where the room was too short, it is asked again with as much as it said.
pub(crate) fn whole(mut write: impl FnMut(&mut [u8], &mut usize) -> u32) -> Result<String, Error> {
    let (mut text, mut size) = (Vec::<u8>::new(), SHORT_TEXT);
    loop {
        text.try_reserve_exact(size).map_err(|_| Error::NoMemory)?;
        text.resize(size, 0);
        match write(&mut text, &mut size) {
            raw::DONE => {
                text.truncate(size);
                // Without a copy, as a text may be long.
                return Ok(String::from_utf8(text).expect("the library writes ASCII"));
            }
            raw::NO_ROOM => text.clear(),
            status => return Err(Error::of(status)),
        }
    }
}
