//! Closing channels since they are old.

use crate::raw::{self, Pruned};
use crate::{Fault, Map, check};

/// How many channels a buffer has room for at first.
const ROOM: usize = 256;

impl Map {
    /// Removes each channel whose latest update, of both directions, has a timestamp below `before`, in seconds since 1970, and
    /// each without an update that was funded below a block. Returns them by ascending id; if memory runs out, those that were
    /// removed, if any were: another call goes on.
    pub fn prune(&mut self, before: u32, block: u32) -> Result<Vec<Pruned>, Fault> {
        let mut pruned = vec![Pruned::ZEROS; ROOM];
        loop {
            let mut needed = 0;
            let (room, len) = (pruned.as_mut_ptr(), pruned.len());
            // SAFETY: a handle of this crate, references, and the length of the buffer.
            let outcome = check(unsafe { raw::lgm_prune(self.own_handle(), before, block, room, len, &mut needed) });
            pruned.resize(needed, Pruned::ZEROS);
            match outcome {
                Err(Fault::ROOM) => {}
                Err(Fault::NO_MEMORY) if needed > 0 => return Ok(pruned),
                outcome => return outcome.map(|()| pruned),
            }
        }
    }
}
