//! What a map lacks of a peer's, and the messages that ask for it.

use crate::raw::{self, Lacking};
use crate::{Fault, Map, check, written};

/// All messages of a channel, of which nothing else is known: to be asked for by its id.
impl Default for Lacking {
    fn default() -> Lacking {
        Lacking { flags: 31, ..Lacking::ZEROS }
    }
}

impl Map {
    /// The message that asks a peer for the ids of its channels of `blocks` blocks from `first_block` on, and for the timestamps of
    /// their updates.
    pub fn ask_range(&self, first_block: u32, blocks: u32) -> Result<Vec<u8>, Fault> {
        let mut handle = self.handle();
        // SAFETY: a handle of this crate, and the length of the buffer.
        written(|room, len, needed| unsafe { raw::lgm_ask_range(&mut *handle, first_block, blocks, room, len, needed) })
    }

    /// The message that asks a peer for gossip with timestamps from `first` on, in seconds since 1970, for so many seconds.
    pub fn ask_filter(&self, first: u32, seconds: u32) -> Result<Vec<u8>, Fault> {
        let mut handle = self.handle();
        // SAFETY: a handle of this crate, and the length of the buffer.
        written(|room, len, needed| unsafe { raw::lgm_ask_filter(&mut *handle, first, seconds, room, len, needed) })
    }

    /// What the map lacks of the channels in a peer's `reply_channel_range`, by ascending id.
    pub fn lacking(&self, reply: &[u8]) -> Result<Vec<Lacking>, Fault> {
        // Ids have eight bytes each.
        let mut room = vec![Lacking::ZEROS; reply.len() / 8];
        let (bytes, len, mut count) = (reply.as_ptr(), reply.len(), 0);
        let (found, most) = (room.as_mut_ptr(), room.len());
        // SAFETY: a handle of this crate, a reference, and the lengths of both buffers.
        check(unsafe { raw::lgm_lacking(&mut *self.handle(), bytes, len, found, most, &mut count) })?;
        room.truncate(count);
        Ok(room)
    }

    /// The message that asks a peer for what is lacking of the first of these channels, at most
    /// [`MOST_IDS`](crate::numbers::MOST_IDS). Only their ids and flags count.
    pub fn ask_ids(&self, lacking: &[Lacking]) -> Result<Vec<u8>, Fault> {
        let mut handle = self.handle();
        let (channels, count) = (lacking.as_ptr(), lacking.len());
        // SAFETY: a handle of this crate, and the lengths of both buffers.
        written(|room, len, needed| unsafe { raw::lgm_ask_ids(&mut *handle, channels, count, room, len, needed) })
    }

    /// The block up to which a range is covered, exclusive, with a peer's `reply_channel_range` more. `next_block` is that without
    /// it, at first the first block of the range.
    pub fn covered(&self, reply: &[u8], next_block: u64) -> Result<u64, Fault> {
        let mut covered = next_block;
        // SAFETY: a handle of this crate, and references.
        check(unsafe { raw::lgm_covered(&mut *self.handle(), reply.as_ptr(), reply.len(), &mut covered) })?;
        Ok(covered)
    }
}
