//! A map as bytes, for a restart.

use crate::raw;
use crate::{Fault, Map, opened, written};

impl Map {
    /// The map of this chain that was saved as these bytes, with its mark there; others have the fault whose word is `not-saved`.
    /// `known` and `seed` are those of [`Map::new`], and needn't be those of the map that was saved.
    pub fn load(chain: &[u8; 32], known: Option<&[u8]>, seed: &[u8; 16], saved: &[u8]) -> Result<Map, Fault> {
        let bits = known.unwrap_or(&[]);
        let (bytes, len) = (saved.as_ptr(), saved.len());
        // SAFETY: a closed handle, and references.
        opened(|handle| unsafe {
            raw::lgm_load(handle, chain, known.is_none(), bits.as_ptr(), bits.len(), seed, bytes, len)
        })
    }

    /// All that the map has as bytes: its channels, updates and nodes as they were received, and its bans.
    pub fn save(&self) -> Result<Vec<u8>, Fault> {
        let mut handle = self.handle();
        // SAFETY: a handle of this crate, and the length of the buffer.
        written(|room, len, needed| unsafe { raw::lgm_save(&mut *handle, room, len, needed) })
    }
}
