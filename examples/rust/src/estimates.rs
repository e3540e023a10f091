//! What a payer has learnt of edges.

use crate::raw::{self, Estimate};
use crate::{Fault, Map, Point, check, written};
use std::sync::{Mutex, MutexGuard, PoisonError};

/// Nothing is known of an edge.
impl Default for Estimate {
    fn default() -> Estimate {
        Estimate { most_msat: u64::MAX, ..Estimate::ZEROS }
    }
}

/// What a payer has learnt of edges, mostly from its tries to pay. An edge is named by its id and the node that it leaves,
/// and needn't be in a map. The calls that read lock it for one another.
#[derive(Debug)]
pub struct Estimates {
    handle: Mutex<raw::Handle>,
}

impl Estimates {
    /// Nothing is known.
    pub fn new() -> Result<Estimates, Fault> {
        // SAFETY: a closed handle.
        Estimates::opened(|handle| unsafe { raw::lgm_estimates_open(handle) })
    }

    /// What was saved as these bytes; others have the fault whose word is `not-saved`.
    pub fn load(saved: &[u8]) -> Result<Estimates, Fault> {
        // SAFETY: a closed handle, and a reference.
        Estimates::opened(|handle| unsafe { raw::lgm_estimates_load(handle, saved.as_ptr(), saved.len()) })
    }

    /// What is known of edges, as bytes.
    pub fn save(&self) -> Result<Vec<u8>, Fault> {
        let mut handle = self.handle();
        // SAFETY: a handle of this crate, and the length of the buffer.
        written(|room, len, needed| unsafe { raw::lgm_estimates_save(&mut *handle, room, len, needed) })
    }

    /// Those in a handle that a call opens.
    pub(crate) fn opened(open: impl FnOnce(&mut raw::Handle) -> u32) -> Result<Estimates, Fault> {
        let mut handle = raw::Handle::ZEROS;
        check(open(&mut handle))?;
        Ok(Estimates { handle: Mutex::new(handle) })
    }

    /// The handle, for one call that reads. One that panicked left it whole: no call of the library unwinds.
    pub(crate) fn handle(&self) -> MutexGuard<'_, raw::Handle> {
        self.handle.lock().unwrap_or_else(PoisonError::into_inner)
    }

    /// The handle, which nobody else has.
    fn own_handle(&mut self) -> &mut raw::Handle {
        self.handle.get_mut().unwrap_or_else(PoisonError::into_inner)
    }

    /// What is believed of an edge, also if nothing is known of it.
    pub fn get(&self, scid: u64, from: &Point) -> Estimate {
        let mut estimate = Estimate::default();
        // SAFETY: a handle of this crate, and references. An open handle has no fault.
        unsafe { raw::lgm_estimate(&mut *self.handle(), scid, from, &mut estimate) };
        estimate
    }

    /// Sets what is believed of an edge, whatever was known of it.
    pub fn set(&mut self, scid: u64, from: &Point, estimate: &Estimate) -> Result<(), Fault> {
        // SAFETY: a handle of this crate, and references.
        check(unsafe { raw::lgm_estimates_set(self.own_handle(), scid, from, estimate) })
    }

    /// Notes that an edge carried an amount, in msat: it surely carries as much.
    pub fn carried(&mut self, scid: u64, from: &Point, amount_msat: u64) -> Result<(), Fault> {
        // SAFETY: a handle of this crate, and a reference.
        check(unsafe { raw::lgm_estimates_carried(self.own_handle(), scid, from, amount_msat) })
    }

    /// Notes that an edge failed to carry an amount, in msat: it surely carries less.
    pub fn failed(&mut self, scid: u64, from: &Point, amount_msat: u64) -> Result<(), Fault> {
        // SAFETY: a handle of this crate, and a reference.
        check(unsafe { raw::lgm_estimates_failed(self.own_handle(), scid, from, amount_msat) })
    }

    /// Forgets what is known of an edge, and returns whether something was.
    pub fn forget(&mut self, scid: u64, from: &Point) -> bool {
        // SAFETY: a handle of this crate, and a reference. An open handle has no fault but that nothing was known.
        unsafe { raw::lgm_estimates_forget(self.own_handle(), scid, from) == 0 }
    }

    /// Has what is known of edges fade: half of it is left for each half-life, both in one unit of time. What then says little is
    /// forgotten, and so are edges of channels that the map doesn't have.
    pub fn fade(&mut self, map: &Map, elapsed: u32, half_life: u32) -> Result<(), Fault> {
        let mut beside = map.handle();
        // SAFETY: two handles of this crate.
        check(unsafe { raw::lgm_estimates_fade(self.own_handle(), &mut *beside, elapsed, half_life) })
    }

    /// The number of edges of which something is known.
    pub fn count(&self) -> usize {
        // SAFETY: a handle of this crate.
        unsafe { raw::lgm_estimates_count(&mut *self.handle()) }
    }

    /// The edge at a place below that number, by its id and the node that it leaves, with what is believed of it. An edge of
    /// which something new is known comes last; [`Estimates::forget`] changes the places.
    pub fn at(&self, place: usize) -> Option<(u64, Point, Estimate)> {
        let (mut scid, mut from, mut estimate) = (0, [0; 33], Estimate::default());
        // SAFETY: a handle of this crate, and references.
        let number = unsafe { raw::lgm_estimates_at(&mut *self.handle(), place, &mut scid, &mut from, &mut estimate) };
        if number == 0 { Some((scid, from, estimate)) } else { None }
    }
}

impl Drop for Estimates {
    fn drop(&mut self) {
        // SAFETY: a handle of this crate.
        unsafe { raw::lgm_estimates_free(self.own_handle()) }
    }
}
