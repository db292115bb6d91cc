//! Room for what a call writes.
use crate::calls;

/// The most bytes of room that bytes get before the library says what they need.
const MOST_ROOM: usize = 1 << 20;

/// How much room a text or a key gets at first. What is written for most of them fits.
pub fn for_bytes(given: &[u8]) -> usize {
    given.len().saturating_mul(8).saturating_add(64).min(MOST_ROOM)
}

/// A call with what it is given. What is left is its room, its length, and where it writes the length that it needs.
pub fn with<'a, Opened>(
    call: calls::Writes<Opened>,
    opened: &'a mut Opened,
    given: &'a [u8],
) -> impl FnMut(*mut u8, usize, &mut usize) -> u32 + 'a {
    // SAFETY: what is given is borrowed for the call, and `room` bytes from `out` on belong to the call alone.
    move |out, room, needed| unsafe { call(opened, given.as_ptr(), given.len(), out, room, needed) }
}

/// Appends what a call writes, with at least `wanted` bytes of room. Where these are too few, it is called again with
/// what it needs. Otherwise than by [`calls::OK`] the vector stays as it was, and the status is the error.
pub fn append(
    to: &mut Vec<u8>,
    mut wanted: usize,
    mut call: impl FnMut(*mut u8, usize, &mut usize) -> u32,
) -> Result<(), u32> {
    loop {
        to.try_reserve(wanted).map_err(|_| calls::MEMORY)?;
        let (room, mut needed) = (to.spare_capacity_mut(), 0);
        match call(room.as_mut_ptr().cast(), room.len(), &mut needed) {
            calls::OK => {
                // SAFETY: by uca.h the first `needed` bytes of the room are written.
                unsafe { to.set_len(to.len() + needed) };
                return Ok(());
            }
            calls::SMALL => wanted = needed,
            status => return Err(status),
        }
    }
}

/// Room for what a call writes, which the next call uses again.
#[derive(Default)]
pub struct Room(Vec<u8>);

impl Room {
    /// What a call writes, in a vector of its length. Otherwise the status is the error.
    pub fn written(
        &mut self,
        wanted: usize,
        call: impl FnMut(*mut u8, usize, &mut usize) -> u32,
    ) -> Result<Vec<u8>, u32> {
        let mut room = std::mem::take(&mut self.0);
        room.clear();
        let copied = append(&mut room, wanted, call).and_then(|()| copy_of(&room));
        if room.capacity() <= MOST_ROOM {
            self.0 = room;
        }
        copied
    }
}

fn copy_of(bytes: &[u8]) -> Result<Vec<u8>, u32> {
    let mut copy = Vec::new();
    copy.try_reserve_exact(bytes.len()).map_err(|_| calls::MEMORY)?;
    copy.extend_from_slice(bytes);
    Ok(copy)
}
