//! A verified map of Lightning gossip, with routes over it: a safe wrapper of `include/lgm.h`.
//!
//! The wrapper meets the conditions of the header: its pointers come from references, a handle is in one place, is used by
//! one call at a time, and is freed when the [`Map`] is dropped. A `Map` is `Send` and `Sync`. Threads that read beside one
//! that changes a map take a published one each, by [`Map::publish`] and [`Map::share`]. A [`Payer`] says what to send next for
//! invoices, by what became of what was sent.

mod arrival;
mod edges;
mod estimates;
mod lookups;
pub mod numbers;
mod payer;
mod pruning;
mod raw;
mod reading;
mod saving;
mod syncing;
mod version;

use std::fmt;
use std::num::{NonZeroU8, NonZeroU16, NonZeroU64, NonZeroUsize};
use std::sync::{Mutex, MutexGuard, PoisonError};

pub use arrival::{Arrival, Record, write_payloads};
pub use estimates::Estimates;
pub use lookups::{Channel, Direction, Node, Which};
pub use numbers::Kind;
pub use payer::{Ending, Invoice, Part, Payer, Preferences, Sight, SentPart, Unpaid};
pub use raw::{Bounds, Edge, Estimate, Lacking, Limit, PaymentInfo, Pruned};
pub use reading::{Signed, Signers, reads};
pub use version::LIBRARY_VERSION;

use numbers::{MOST_HOPS, MOST_PAYLOADS, SO_FAR, WORD_LEN};

/// A compressed public key.
pub type Point = [u8; 33];

/// The version of the library that is linked.
pub fn library_version() -> u32 {
    // SAFETY: a call without arguments.
    unsafe { raw::lgm_version() }
}

/// Why a call failed, by its number (`include/lgm.h`), which is one of these constants. The map is unchanged, or the estimates,
/// or the payer.
#[derive(Clone, Copy, Debug, PartialEq, Eq)]
pub struct Fault(pub u32);

impl Fault {
    /// Its word, such as `not-newer`, as the library has it.
    pub fn word(self) -> String {
        let mut word = [0; WORD_LEN];
        // SAFETY: the word has its length.
        unsafe { raw::lgm_word(self.0, &mut word) };
        word.iter().take_while(|byte| **byte != 0).map(|byte| char::from(*byte)).collect()
    }
}

impl fmt::Display for Fault {
    fn fmt(&self, f: &mut fmt::Formatter<'_>) -> fmt::Result {
        write!(f, "{}: {}", self.text(), self.meaning())
    }
}

impl std::error::Error for Fault {}

fn check(number: u32) -> Result<(), Fault> {
    if number == 0 { Ok(()) } else { Err(Fault(number)) }
}

/// The verdict on a message's signatures: four of a `channel_announcement`, one of any other.
#[derive(Clone, Copy, Debug, PartialEq, Eq)]
pub enum Sig {
    /// Whether all four are valid.
    AllFour(bool),
    /// The one signature is valid for this key.
    By(Point),
    /// It is valid for no key.
    Nobody,
}

/// The verdict on the funding output of a `channel_announcement`.
#[derive(Clone, Copy, Debug, PartialEq, Eq)]
pub enum Funding {
    /// It wasn't looked up.
    NotAsked,
    /// It is unspent, pays to the 2-of-2 of the bitcoin keys, and holds this many satoshi.
    Unspent(u64),
    /// It is spent.
    Spent,
    /// It doesn't exist, or pays to something else.
    Wrong,
}

/// A payment to be made.
#[derive(Clone, Copy, Debug)]
pub struct Payment {
    /// The node that pays.
    pub payer: Point,
    /// The node that is paid.
    pub payee: Point,
    /// What the payee receives, in msat.
    pub amount_msat: u64,
    /// The block height at which the HTLC to the payee expires.
    pub expiry: u32,
    /// The payment secret, from the invoice.
    pub secret: [u8; 32],
}

impl Payment {
    /// As C has it.
    fn raw(&self) -> raw::Payment {
        raw::Payment {
            amount_msat: self.amount_msat,
            expiry: self.expiry,
            payer: self.payer,
            payee: self.payee,
            secret: self.secret,
        }
    }
}

/// What a payer knows beside the map. The default is nothing.
#[derive(Clone, Copy, Debug, Default)]
pub struct Overlay<'a> {
    /// Edges beside the map's: of those with one id out of one node the first counts.
    pub edges: &'a [Edge],
    /// Limits of what edges carry: the least one of an edge counts.
    pub limits: &'a [Limit],
    /// Nodes whose edges in the map aren't used. They may be paid, and the edges above may leave them.
    pub silent: &'a [Point],
}

/// What a payer prefers and has learnt, and limits of its route and of the search for it. The default prefers nothing, and
/// limits nothing but the search.
///
/// ```
/// let within_a_week = lgm::Search { most_delay: std::num::NonZeroU16::new(1_008), ..lgm::Search::default() };
/// ```
#[derive(Clone, Copy, Debug, Default)]
pub struct Search<'a> {
    /// What a failed try is worth to the payer, in msat.
    pub failure_msat: u32,
    /// What each hop is worth to it, in msat.
    pub hop_msat: u32,
    /// What it has learnt of edges. They are locked while the call runs.
    pub estimates: Option<&'a Estimates>,
    /// The most blocks between the expiry of the route and that of the payment.
    pub most_delay: Option<NonZeroU16>,
    /// The most hops. There are never more than 20.
    pub most_hops: Option<NonZeroU8>,
    /// The most labels of the search, of some 50 bytes each. The library has a limit if this is `None`.
    pub most_labels: Option<NonZeroUsize>,
    /// The most steps of the search: edges looked at, and labels compared. The library has a limit if this is `None`.
    pub most_steps: Option<NonZeroU64>,
}

impl Search<'_> {
    /// As C has it.
    fn raw(&self) -> raw::Search {
        raw::Search {
            most_steps: self.most_steps.map_or(0, NonZeroU64::get),
            most_labels: self.most_labels.map_or(0, NonZeroUsize::get),
            failure_msat: self.failure_msat,
            hop_msat: self.hop_msat,
            most_delay: self.most_delay.map_or(0, NonZeroU16::get),
            most_hops: self.most_hops.map_or(0, NonZeroU8::get),
        }
    }
}

/// One channel of a route, with the HTLC that is offered over it.
#[derive(Clone, Debug, PartialEq, Eq)]
pub struct Hop {
    /// The channel.
    pub scid: u64,
    /// The amount of the HTLC, in msat.
    pub amount_msat: u64,
    /// The block height at which the HTLC expires.
    pub expiry: u32,
    /// The node that offers it.
    pub from: Point,
    /// The node that receives it.
    pub to: Point,
    /// The payload for that node.
    pub payload: Vec<u8>,
}

/// A route that was found.
#[derive(Clone, Debug, PartialEq, Eq)]
pub struct Found {
    /// Its hops, from the payer on.
    pub hops: Vec<Hop>,
    /// Whether it is the best one. That isn't known if labels or steps ran out.
    pub is_best: bool,
}

/// A map of one chain: one that changes, by [`Map::new`], or a published one, by [`Map::publish`] or [`Map::share`], which
/// never does. What would change a published map returns a fault whose word is `published`.
///
/// The calls that read lock it for one another. A thread with a published map of its own waits for nobody, and nobody for
/// it.
#[derive(Debug)]
pub struct Map {
    handle: Mutex<raw::Handle>,
}

impl Map {
    /// A map without channels. If `known` is `None`, all features of nodes are known, else those whose bits are set.
    /// The seed is 16 random bytes.
    pub fn new(chain: &[u8; 32], known: Option<&[u8]>, seed: &[u8; 16]) -> Result<Map, Fault> {
        let bits = known.unwrap_or(&[]);
        // SAFETY: a closed handle, and references.
        opened(|handle| unsafe { raw::lgm_open(handle, chain, known.is_none(), bits.as_ptr(), bits.len(), seed) })
    }

    /// The handle, for one call that reads. One that panicked left it whole: no call of the library unwinds.
    fn handle(&self) -> MutexGuard<'_, raw::Handle> {
        self.handle.lock().unwrap_or_else(PoisonError::into_inner)
    }

    /// The handle, which nobody else has.
    fn own_handle(&mut self) -> &mut raw::Handle {
        self.handle.get_mut().unwrap_or_else(PoisonError::into_inner)
    }

    /// Offers a gossip message, with the verdicts on it.
    pub fn offer(&mut self, message: &[u8], sig: Sig, funding: Funding) -> Result<(), Fault> {
        let (sig, signer) = match sig {
            Sig::AllFour(true) => (numbers::SIG_ALL_FOUR, [0; 33]),
            Sig::AllFour(false) => (numbers::SIG_NOT_ALL_FOUR, [0; 33]),
            Sig::By(point) => (numbers::SIG_BY, point),
            Sig::Nobody => (numbers::SIG_NOBODY, [0; 33]),
        };
        let (funding, sat) = match funding {
            Funding::NotAsked => (numbers::FUNDING_NOT_ASKED, 0),
            Funding::Unspent(sat) => (numbers::FUNDING_UNSPENT, sat),
            Funding::Spent => (numbers::FUNDING_SPENT, 0),
            Funding::Wrong => (numbers::FUNDING_WRONG, 0),
        };
        let (bytes, len) = (message.as_ptr(), message.len());
        // SAFETY: a handle of this crate, and references.
        check(unsafe { raw::lgm_offer(self.own_handle(), bytes, len, sig, &signer, funding, sat) })
    }

    /// Removes a channel, because its funding output was spent.
    pub fn close_channel(&mut self, scid: u64) -> Result<(), Fault> {
        // SAFETY: a handle of this crate.
        check(unsafe { raw::lgm_close_channel(self.own_handle(), scid) })
    }

    /// Bans a node, and removes its channels, as contradicting announcements ban theirs.
    pub fn ban(&mut self, point: &Point) -> Result<(), Fault> {
        // SAFETY: a handle of this crate, and a reference.
        check(unsafe { raw::lgm_ban(self.own_handle(), point) })
    }

    /// Moves the mark to the map as it is now.
    pub fn mark(&mut self) -> Result<(), Fault> {
        // SAFETY: a handle of this crate.
        check(unsafe { raw::lgm_mark(self.own_handle()) })
    }

    /// The map as it is now, for good.
    pub fn publish(&self) -> Result<Map, Fault> {
        // SAFETY: a handle of this crate, and a closed one.
        opened(|published| unsafe { raw::lgm_publish(&mut *self.handle(), published) })
    }

    /// One more owner of a published map, which isn't copied.
    pub fn share(&self) -> Result<Map, Fault> {
        // SAFETY: a handle of this crate, and a closed one.
        opened(|other| unsafe { raw::lgm_share(&mut *self.handle(), other) })
    }

    /// How many messages, closes and bans the map has accepted, or had when it was published.
    pub fn version(&self) -> u64 {
        // SAFETY: a handle of this crate.
        unsafe { raw::lgm_version_of(&mut *self.handle()) }
    }

    /// The number of channels.
    pub fn count(&self) -> usize {
        // SAFETY: a handle of this crate.
        unsafe { raw::lgm_count(&mut *self.handle()) }
    }

    /// The route by which the payer sends the least, from the payer on.
    pub fn route(&self, payment: &Payment) -> Result<Vec<Hop>, Fault> {
        let (asked, mut handle) = (payment.raw(), self.handle());
        let found = routed(|hops, payloads, lengths| {
            let (room, len) = (hops.as_mut_ptr(), hops.len());
            let (bytes, bytes_len) = (payloads.as_mut_ptr(), payloads.len());
            // SAFETY: a handle of this crate, references, and the lengths of both buffers.
            unsafe { raw::lgm_route(&mut *handle, &asked, room, len, bytes, bytes_len, lengths) }
        })?;
        Ok(found.hops)
    }

    /// The best route over what the payer knows beside the map, by what it prefers, within limits. The fault whose word is
    /// `undecided` says nothing about the payment: labels or steps ran out before a route was found.
    ///
    /// The map is locked first, and then the estimates.
    pub fn route_over(&self, payment: &Payment, overlay: &Overlay, search: &Search) -> Result<Found, Fault> {
        let (attempt, mut handle) = (attempt(payment, overlay, search), self.handle());
        let (mut locked, mut nothing) = (search.estimates.map(Estimates::handle), raw::Handle::ZEROS);
        let known = locked.as_deref_mut().unwrap_or(&mut nothing);
        routed(|hops, payloads, lengths| {
            let (room, len) = (hops.as_mut_ptr(), hops.len());
            let (bytes, bytes_len) = (payloads.as_mut_ptr(), payloads.len());
            // SAFETY: two handles of this crate, references, and the lengths of all lists and buffers.
            unsafe { raw::lgm_attempt_route(&mut *handle, &attempt, known, room, len, bytes, bytes_len, lengths) }
        })
    }

    /// Why there is no route over what the payer knows beside the map, within limits, as a fault of [`Kind::Reason`]; `None` if
    /// there is a route. What the payer prefers and has learnt doesn't matter.
    pub fn no_route_reason(&self, payment: &Payment, overlay: &Overlay, search: &Search) -> Result<Option<Fault>, Fault> {
        let attempt = attempt(payment, overlay, search);
        // SAFETY: a handle of this crate, and a reference.
        match check(unsafe { raw::lgm_no_route_reason(&mut *self.handle(), &attempt) }) {
            Err(fault) if fault.kind() == Some(Kind::Reason) => Ok(Some(fault)),
            outcome => outcome.map(|()| None),
        }
    }

    /// The replies to a peer's query.
    pub fn query(&self, message: &[u8]) -> Result<Vec<Vec<u8>>, Fault> {
        messages(&mut self.handle(), raw::lgm_query, message)
    }

    /// The messages that pass a peer's filter.
    pub fn filter(&self, message: &[u8]) -> Result<Vec<Vec<u8>>, Fault> {
        messages(&mut self.handle(), raw::lgm_filter, message)
    }

    /// The messages that pass a peer's filter now, and didn't at the mark.
    pub fn news(&self, message: &[u8]) -> Result<Vec<Vec<u8>>, Fault> {
        messages(&mut self.handle(), raw::lgm_news, message)
    }

    /// The messages that pass a peer's filter here, and didn't in an earlier map, which is published for this call.
    pub fn news_since(&self, before: &Map, message: &[u8]) -> Result<Vec<Vec<u8>>, Fault> {
        let earlier = before.publish()?;
        let mut before = earlier.handle();
        let mut after = self.handle();
        let (bytes, len) = (message.as_ptr(), message.len());
        let written = written(|room, room_len, needed| {
            // SAFETY: two handles of this crate, references, and the lengths of both buffers.
            unsafe { raw::lgm_news_between(&mut *before, &mut *after, bytes, len, room, room_len, needed) }
        })?;
        Ok(unframed(&written))
    }
}

impl Map {
    /// The key whose signature is to be verified, or `None` of a channel announcement, which has four, if the message would be
    /// accepted with the right verdicts. Else the refusal that it has even with these.
    pub fn wanted(&self, message: &[u8]) -> Result<Option<Point>, Fault> {
        let mut key = [0; 33];
        let (bytes, len) = (message.as_ptr(), message.len());
        // SAFETY: a handle of this crate, and references.
        check(unsafe { raw::lgm_wanted(&mut *self.handle(), bytes, len, &mut key) })?;
        Ok(if key[0] == 0 { None } else { Some(key) })
    }
}

impl Drop for Map {
    fn drop(&mut self) {
        // SAFETY: a handle of this crate.
        unsafe { raw::lgm_free(self.own_handle()) }
    }
}

// SAFETY: what a handle holds is proved to be `Send` (`boxed` of crates/lgm_c makes its box), and a handle is used by one call
// at a time, since each call borrows it alone.
unsafe impl Send for raw::Handle {}

/// What threads may do, seen when this is compiled.
const _: () = {
    const fn is_shared<T: Send + Sync>() {}
    is_shared::<Map>();
    is_shared::<Estimates>();
    is_shared::<Payer>();
};

/// An attempt as C has it, which is used while all of this lives.
fn attempt(payment: &Payment, overlay: &Overlay, search: &Search) -> raw::Attempt {
    raw::Attempt {
        payment: payment.raw(),
        edges: overlay.edges.as_ptr(),
        edges_len: overlay.edges.len(),
        limits: overlay.limits.as_ptr(),
        limits_len: overlay.limits.len(),
        silent: overlay.silent.as_ptr().cast(),
        silent_len: overlay.silent.len(),
        search: search.raw(),
    }
}

/// The first fault of a message, by its number in `include/lgm.h`, as the fault `malformed` doesn't tell; `None` if it has none.
pub fn first_fault(message: &[u8]) -> Option<Fault> {
    // SAFETY: a reference, and its length.
    check(unsafe { raw::lgm_fault_of(message.as_ptr(), message.len()) }).err()
}

/// A map in a handle that a call opens.
fn opened(open: impl FnOnce(&mut raw::Handle) -> u32) -> Result<Map, Fault> {
    let mut handle = raw::Handle::ZEROS;
    check(open(&mut handle))?;
    Ok(Map { handle: Mutex::new(handle) })
}

/// The route that a call writes to buffers that are never too short.
fn routed(call: impl FnOnce(&mut [raw::Hop], &mut [u8], &mut raw::Lengths) -> u32) -> Result<Found, Fault> {
    let mut hops = [raw::Hop::ZEROS; MOST_HOPS];
    let mut payloads = [0; MOST_PAYLOADS];
    let mut lengths = raw::Lengths::ZEROS;
    let number = call(&mut hops, &mut payloads, &mut lengths);
    if number != SO_FAR {
        check(number)?;
    }
    let hops = route(&hops[..lengths.hops], &payloads[..lengths.payloads]);
    Ok(Found { hops, is_best: number != SO_FAR })
}

/// A route from its hops, and their payloads one after the other.
fn route(hops: &[raw::Hop], mut payloads: &[u8]) -> Vec<Hop> {
    let found = hops.iter().map(|hop| {
        let (payload, others) = payloads.split_at(hop.payload_len);
        payloads = others;
        Hop {
            scid: hop.scid,
            amount_msat: hop.amount_msat,
            expiry: hop.expiry,
            from: hop.from,
            to: hop.to,
            payload: payload.to_vec(),
        }
    });
    found.collect()
}

/// A call that writes messages for a peer's message.
type MessagesCall = unsafe extern "C" fn(*mut raw::Handle, *const u8, usize, *mut u8, usize, *mut usize) -> u32;

/// The messages that a call writes for a peer's message.
fn messages(handle: &mut raw::Handle, call: MessagesCall, message: &[u8]) -> Result<Vec<Vec<u8>>, Fault> {
    let (bytes, len) = (message.as_ptr(), message.len());
    let written = written(|room, room_len, needed| {
        // SAFETY: a handle of this crate, references, and the lengths of both buffers.
        unsafe { call(&mut *handle, bytes, len, room, room_len, needed) }
    })?;
    Ok(unframed(&written))
}

/// The bytes that a call writes to a buffer, which grows if it is too short.
fn written(mut call: impl FnMut(*mut u8, usize, &mut usize) -> u32) -> Result<Vec<u8>, Fault> {
    let mut room = vec![0; 4096];
    loop {
        let mut needed = 0;
        let outcome = check(call(room.as_mut_ptr(), room.len(), &mut needed));
        room.resize(needed, 0);
        match outcome {
            Ok(()) => return Ok(room),
            Err(Fault::ROOM) => {}
            Err(fault) => return Err(fault),
        }
    }
}

/// Messages one after the other, each after its length in eight bytes.
fn unframed(mut written: &[u8]) -> Vec<Vec<u8>> {
    let mut messages = Vec::new();
    while let Some((len, rest)) = written.split_first_chunk::<8>() {
        let (message, others) = rest.split_at(u64::from_le_bytes(*len) as usize);
        messages.push(message.to_vec());
        written = others;
    }
    messages
}
