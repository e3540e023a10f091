//! Edges beside a map, limits of edges, and the odds of a route over them.

use crate::arrival::raw_hop;
use crate::raw::{self, Edge, Limit};
use crate::{Estimates, Fault, Hop, Map, Overlay, Point, check};

impl Edge {
    /// A channel of the payer's own, announced or not, which can send so many msat.
    pub fn own(scid: u64, payer: Point, peer: Point, can_send_msat: u64) -> Edge {
        Edge { scid, htlc_maximum_msat: can_send_msat, from: payer, to: peer, ..Edge::ZEROS }
    }

    /// An edge of a route hint of an invoice (BOLT 11, field `r`): its id, the node that it leaves, the next one or the payee,
    /// the two parts of its fee, and its delta in blocks. What it carries isn't told.
    pub fn hint(scid: u64, from: Point, to: Point, base_msat: u32, millionths: u32, delta: u16) -> Edge {
        Edge {
            scid,
            htlc_maximum_msat: u64::MAX,
            fee_base_msat: base_msat,
            fee_proportional_millionths: millionths,
            cltv_expiry_delta: delta,
            from,
            to,
            ..Edge::ZEROS
        }
    }
}

impl Limit {
    /// The edge with an id out of a node carries at most so many msat.
    pub fn most(scid: u64, from: Point, most_msat: u64) -> Limit {
        Limit { scid, most_msat, from }
    }

    /// It isn't used.
    pub fn excluding(scid: u64, from: Point) -> Limit {
        Limit::most(scid, from, 0)
    }
}

impl Map {
    /// How likely a route is to fail, in millionths: 3,000,000 are odds of 3 to 1 that it does. It is by the edges and limits
    /// of an overlay, and by what was learnt. The map is locked first, and then the estimates.
    pub fn odds(&self, hops: &[Hop], overlay: &Overlay, estimates: Option<&Estimates>) -> Result<u32, Fault> {
        let attempt = raw::Attempt {
            edges: overlay.edges.as_ptr(),
            edges_len: overlay.edges.len(),
            limits: overlay.limits.as_ptr(),
            limits_len: overlay.limits.len(),
            ..raw::Attempt::ZEROS
        };
        let hops: Vec<_> = hops.iter().map(raw_hop).collect();
        let mut handle = self.handle();
        let (mut locked, mut nothing) = (estimates.map(Estimates::handle), raw::Handle::ZEROS);
        let known = locked.as_deref_mut().unwrap_or(&mut nothing);
        let mut odds = 0;
        // SAFETY: two handles of this crate, references, and the lengths of all lists.
        check(unsafe { raw::lgm_odds(&mut *handle, &attempt, known, hops.as_ptr(), hops.len(), &mut odds) })?;
        Ok(odds)
    }
}
