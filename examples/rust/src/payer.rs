//! A payer: what to send next for invoices, by what became of what was sent. It has no sockets and no node.

use crate::arrival::raw_record;
use crate::numbers::{MOST_HOPS, MOST_PAYLOADS, PART_HELD, PART_UNREADABLE, WHOLE};
use crate::raw::{self, Bounds, PaymentInfo};
use crate::{Edge, Estimates, Fault, Hop, Map, Point, Record, check, route, written};
use std::fmt;
use std::num::{NonZeroU64, NonZeroUsize};
use std::sync::{Mutex, MutexGuard, PoisonError};

/// What a payee asks for (BOLT 11), as the caller has decoded it, and what else the payer sends to it.
#[derive(Clone, Copy, Debug)]
pub struct Invoice<'a> {
    /// The node that is paid.
    pub payee: Point,
    /// 1 msat or more; where the invoice has none, it is the payer's choice.
    pub amount_msat: u64,
    /// The payment secret, of the field `s`.
    pub secret: [u8; 32],
    /// In blocks, of the field `c`.
    pub min_final_cltv_expiry_delta: u16,
    /// Of the fields `r`: an edge from each node to the next, the last one to the payee.
    pub hints: &'a [Edge],
    /// The payment metadata, of the field `m`. Without bytes there are none.
    pub metadata: &'a [u8],
    /// Custom records, by ascending types.
    pub records: &'a [Record<'a>],
    /// Whether the payee takes several parts: feature 16 or 17.
    pub basic_mpp: bool,
}

impl Invoice<'_> {
    /// One with a delta of 18 blocks, for one part, and without the rest.
    pub fn new(payee: Point, amount_msat: u64, secret: [u8; 32]) -> Invoice<'static> {
        Invoice {
            payee,
            amount_msat,
            secret,
            min_final_cltv_expiry_delta: 18,
            hints: &[],
            metadata: &[],
            records: &[],
            basic_mpp: false,
        }
    }
}

impl Bounds {
    /// Fees of so many msat; 100 tries, 16 parts at once of 10,000 sat or more, and 2,016 blocks.
    pub fn new(most_fee_msat: u64) -> Bounds {
        Bounds { most_fee_msat, least_part_msat: 10_000_000, most_tries: 100, most_parts: 16, most_blocks: 2_016 }
    }
}

/// What a payer prefers, in msat.
#[derive(Clone, Copy, Debug, PartialEq, Eq)]
pub struct Preferences {
    /// What a failed try is worth to it.
    pub failure_msat: u32,
    /// What each hop is worth to it.
    pub hop_msat: u32,
}

/// What a payer sees when it asks for a part.
#[derive(Clone, Copy, Debug, Default)]
pub struct Sight<'a> {
    /// The payer's channels, each with what it can send now, as its node tells.
    pub channels: &'a [Edge],
    /// How many parts they reckon: all with a lower number. What later ones take is deducted.
    pub reckoned: u64,
    /// The height of the chain.
    pub height: u32,
    /// By default a failed try is worth 200 millionths of the payment's amount, but a hundredth of it up to 20 sat, and a hop
    /// half a satoshi.
    pub preferences: Option<Preferences>,
    /// The most labels of a search, and the most steps. The library has limits if these are `None`.
    pub most_labels: Option<NonZeroUsize>,
    pub most_steps: Option<NonZeroU64>,
}

impl Sight<'_> {
    /// As C has it.
    fn raw(&self) -> raw::Sight {
        let Preferences { failure_msat, hop_msat } =
            self.preferences.unwrap_or(Preferences { failure_msat: 0, hop_msat: 0 });
        raw::Sight {
            channels: self.channels.as_ptr(),
            channels_len: self.channels.len(),
            reckoned: self.reckoned,
            most_steps: self.most_steps.map_or(0, NonZeroU64::get),
            most_labels: self.most_labels.map_or(0, NonZeroUsize::get),
            height: self.height,
            failure_msat,
            hop_msat,
            prefers: self.preferences.is_some(),
        }
    }
}

/// A part that is under way from now on, to be sent.
#[derive(Clone, Debug, PartialEq, Eq)]
pub struct Part {
    /// How many parts the payer had sent before, over all payments.
    pub number: u64,
    /// What the payee gets, in msat.
    pub amount_msat: u64,
    /// What is sent beyond that, in msat.
    pub fee_msat: u64,
    /// The odds that it fails, in millionths.
    pub odds: u32,
    /// The blocks until its first HTLC expires.
    pub blocks: u32,
    /// Whether its route is the best one. That isn't known if labels or steps ran out.
    pub is_best: bool,
    /// Its hops, from the payer on, with their payloads.
    pub hops: Vec<Hop>,
}

/// How a part ended.
#[derive(Clone, Copy, Debug, PartialEq, Eq)]
pub enum Ending {
    /// It is under way, or has arrived if its payment is paid.
    Held,
    /// It failed, and no failure message could be read.
    Unreadable,
    /// It failed with this `failure_code` of BOLT 4, returned by the node at this place.
    Failed {
        /// The place.
        place: u8,
        /// The code.
        code: u16,
    },
}

/// A part that was sent before. Its hops have no payloads.
#[derive(Clone, Debug, PartialEq, Eq)]
pub struct SentPart {
    /// Its number.
    pub number: u64,
    /// What the payee gets, in msat.
    pub amount_msat: u64,
    /// What is sent beyond that, in msat.
    pub fee_msat: u64,
    /// The blocks from the height at which it was asked for until its first HTLC expires.
    pub blocks: u32,
    /// How it ended.
    pub ending: Ending,
    /// Its hops, from the payer on.
    pub hops: Vec<Hop>,
}

/// Why no part is sent. What is under way is still to be waited for.
#[derive(Clone, Copy, Debug, PartialEq, Eq)]
pub enum Unpaid {
    /// The cheapest route charges this fee, in msat, beyond what the bound leaves.
    TooDear(u64),
    /// The payer's channels can send no more than this together, in msat.
    ChannelsShort(u64),
    /// The edges into the payee can carry no more than this together, in msat.
    PayeeShort(u64),
    /// The paths from the payer to the payee can carry no more than this together, in msat.
    PathsShort(u64),
    /// The payee returned this `failure_code`.
    PayeeRefused(u16),
    /// For another reason, as `no-route`, or a fault.
    Other(Fault),
}

impl Unpaid {
    /// Of a number that isn't 0, with what comes with it.
    fn of(fault: Fault, detail: u64) -> Unpaid {
        match fault {
            Fault::TOO_DEAR => Unpaid::TooDear(detail),
            Fault::CHANNELS_SHORT => Unpaid::ChannelsShort(detail),
            Fault::PAYEE_SHORT => Unpaid::PayeeShort(detail),
            Fault::PATHS_SHORT => Unpaid::PathsShort(detail),
            Fault::PAYEE_REFUSED => Unpaid::PayeeRefused(detail as u16),
            other => Unpaid::Other(other),
        }
    }

    /// Its number.
    pub fn fault(self) -> Fault {
        match self {
            Unpaid::TooDear(_) => Fault::TOO_DEAR,
            Unpaid::ChannelsShort(_) => Fault::CHANNELS_SHORT,
            Unpaid::PayeeShort(_) => Fault::PAYEE_SHORT,
            Unpaid::PathsShort(_) => Fault::PATHS_SHORT,
            Unpaid::PayeeRefused(_) => Fault::PAYEE_REFUSED,
            Unpaid::Other(fault) => fault,
        }
    }
}

impl fmt::Display for Unpaid {
    fn fmt(&self, f: &mut fmt::Formatter<'_>) -> fmt::Result {
        match self {
            Unpaid::TooDear(fee) => write!(f, "the cheapest route charges {fee} msat: allow more, or pay less"),
            Unpaid::ChannelsShort(room) => write!(f, "the payer's channels can send {room} msat: pay less, or wait"),
            Unpaid::PayeeShort(room) => write!(f, "{room} msat can reach the payee: pay less, or pass its hints"),
            Unpaid::PathsShort(room) => write!(f, "all paths can carry {room} msat to the payee: pay less"),
            Unpaid::PayeeRefused(code) => write!(f, "the payee refused with {code:#06x}: ask it for another invoice"),
            Unpaid::Other(fault) => fault.fmt(f),
        }
    }
}

impl std::error::Error for Unpaid {}

/// A node that pays: its payments, with what is under way of them, and what it has learnt of edges. Payments and parts have
/// numbers. The calls lock it for one another; those with a map lock the payer first, and then the map.
#[derive(Debug)]
pub struct Payer {
    handle: Mutex<raw::Handle>,
}

impl Payer {
    /// One that has begun no payment, and has learnt what these estimates have, of which it gets a copy.
    pub fn new(point: &Point, learnt: Option<&Estimates>) -> Result<Payer, Fault> {
        let mut nothing = raw::Handle::ZEROS;
        let mut locked = learnt.map(Estimates::handle);
        let estimates = locked.as_deref_mut().unwrap_or(&mut nothing);
        // SAFETY: a closed handle, one of this crate or a closed one, and a reference.
        opened(|handle| unsafe { raw::lgm_payer_open(handle, point, estimates) })
    }

    /// The payer that was saved as these bytes.
    pub fn load(saved: &[u8]) -> Result<Payer, Fault> {
        // SAFETY: a closed handle, and a reference.
        opened(|handle| unsafe { raw::lgm_payer_load(handle, saved.as_ptr(), saved.len()) })
    }

    /// All that it is, as bytes. Save it before a part is sent.
    pub fn save(&self) -> Result<Vec<u8>, Fault> {
        let mut handle = self.handle();
        // SAFETY: a handle of this crate, and the length of the buffer.
        written(|room, len, needed| unsafe { raw::lgm_payer_save(&mut *handle, room, len, needed) })
    }

    /// The handle, for one call. One that panicked left it whole: no call of the library unwinds.
    fn handle(&self) -> MutexGuard<'_, raw::Handle> {
        self.handle.lock().unwrap_or_else(PoisonError::into_inner)
    }

    /// Begins a payment, and returns its number. An invoice that is begun twice is paid twice.
    pub fn begin(&self, invoice: &Invoice, bounds: &Bounds) -> Result<u64, Fault> {
        let records: Vec<_> = invoice.records.iter().map(raw_record).collect();
        let asked = raw::Invoice {
            amount_msat: invoice.amount_msat,
            hints: invoice.hints.as_ptr(),
            hints_len: invoice.hints.len(),
            metadata: invoice.metadata.as_ptr(),
            metadata_len: invoice.metadata.len(),
            records: records.as_ptr(),
            records_len: records.len(),
            min_final_cltv_expiry_delta: invoice.min_final_cltv_expiry_delta,
            basic_mpp: invoice.basic_mpp,
            payee: invoice.payee,
            secret: invoice.secret,
        };
        let mut payment = 0;
        // SAFETY: a handle of this crate, references, and the lengths of all lists.
        check(unsafe { raw::lgm_payer_begin(&mut *self.handle(), &asked, bounds, &mut payment) })?;
        Ok(payment)
    }

    /// The next part of a payment, which is under way from now on; `None` if all of the amount is under way, or the payee took
    /// it. A payee that takes several parts holds them until all have come, so ask for parts until there is none.
    pub fn next_part(&self, map: &Map, payment: u64, sight: &Sight) -> Result<Option<Part>, Unpaid> {
        let mut hops = [raw::Hop::ZEROS; MOST_HOPS];
        let mut payloads = [0; MOST_PAYLOADS];
        let mut part = raw::Part::ZEROS;
        let seen = sight.raw();
        let (mut handle, mut over) = (self.handle(), map.handle());
        let (room, bytes) = (hops.as_mut_ptr(), payloads.as_mut_ptr());
        // SAFETY: two handles of this crate, references, and the lengths of all lists and buffers.
        let number = unsafe {
            raw::lgm_payer_next(&mut *handle, &mut *over, payment, &seen, &mut part, room, MOST_HOPS, bytes, MOST_PAYLOADS)
        };
        if number == WHOLE {
            return Ok(None);
        }
        check(number).map_err(|fault| Unpaid::of(fault, part.detail))?;
        Ok(Some(Part {
            number: part.part,
            amount_msat: part.amount_msat,
            fee_msat: part.fee_msat,
            odds: part.odds,
            blocks: part.blocks,
            is_best: part.is_best,
            hops: route(&hops[..part.lengths.hops], &payloads[..part.lengths.payloads]),
        }))
    }

    /// Notes that a part failed with a failure message (BOLT 4): the place of the node that returned it, where 1 is the node
    /// that the first hop leads to and 0 the payer, and its `failure_code`. If the message is about an edge's terms, offer the
    /// update that came with it to the map first: `is_renewed` says whether it was accepted.
    pub fn failed(&self, payment: u64, part: u64, place: u8, code: u16, is_renewed: bool) -> Result<(), Fault> {
        // SAFETY: a handle of this crate.
        check(unsafe { raw::lgm_payer_failed(&mut *self.handle(), payment, part, place, code, is_renewed) })
    }

    /// Notes that a part failed, and that no failure message could be read.
    pub fn unreadable(&self, payment: u64, part: u64) -> Result<(), Fault> {
        // SAFETY: a handle of this crate.
        check(unsafe { raw::lgm_payer_unreadable(&mut *self.handle(), payment, part) })
    }

    /// Notes that the payee took the whole: a preimage came back. All parts that are under way have arrived.
    pub fn fulfilled(&self, payment: u64) -> Result<(), Fault> {
        // SAFETY: a handle of this crate.
        check(unsafe { raw::lgm_payer_fulfilled(&mut *self.handle(), payment) })
    }

    /// Sends nothing more for a payment. What is under way is waited for.
    pub fn abandon(&self, payment: u64) -> Result<(), Fault> {
        // SAFETY: a handle of this crate.
        check(unsafe { raw::lgm_payer_abandon(&mut *self.handle(), payment) })
    }

    /// Forgets a payment of which nothing is under way. What was learnt stays.
    pub fn forget(&self, payment: u64) -> Result<(), Fault> {
        // SAFETY: a handle of this crate.
        check(unsafe { raw::lgm_payer_forget(&mut *self.handle(), payment) })
    }

    /// Has what was learnt fade: half of it is left for each half-life, both in one unit of time.
    pub fn fade(&self, map: &Map, elapsed: u32, half_life: u32) -> Result<(), Fault> {
        let (mut handle, mut over) = (self.handle(), map.handle());
        // SAFETY: two handles of this crate.
        check(unsafe { raw::lgm_payer_fade(&mut *handle, &mut *over, elapsed, half_life) })
    }

    /// A copy of what was learnt of edges.
    pub fn learnt(&self) -> Result<Estimates, Fault> {
        let mut handle = self.handle();
        // SAFETY: a handle of this crate, and a closed one.
        Estimates::opened(|estimates| unsafe { raw::lgm_payer_learnt(&mut *handle, estimates) })
    }

    /// How many parts were sent, over all payments: the number of the next one.
    pub fn sent(&self) -> u64 {
        // SAFETY: a handle of this crate.
        unsafe { raw::lgm_payer_sent(&mut *self.handle()) }
    }

    /// A payment as it stands. Its stage is one of the numbers `STAGE_OPEN`, `STAGE_ABANDONED` and `STAGE_PAID`.
    pub fn payment(&self, payment: u64) -> Result<PaymentInfo, Fault> {
        let mut info = PaymentInfo::ZEROS;
        // SAFETY: a handle of this crate, and a reference.
        check(unsafe { raw::lgm_payer_payment(&mut *self.handle(), payment, &mut info) })?;
        Ok(info)
    }

    /// The numbers of all payments that were begun, but for those that were forgotten.
    pub fn payments(&self) -> Vec<u64> {
        let (mut handle, mut found, mut payment) = (self.handle(), Vec::new(), 0);
        // SAFETY: a handle of this crate, and a reference.
        while unsafe { raw::lgm_payer_next_payment(&mut *handle, found.is_empty(), &mut payment) } == 0 {
            found.push(payment);
        }
        found
    }

    /// The part at a place of a payment, in the order in which they were sent, if there is one.
    pub fn part(&self, payment: u64, place: usize) -> Result<Option<SentPart>, Fault> {
        let (mut hops, mut part) = ([raw::Hop::ZEROS; MOST_HOPS], raw::PartInfo::ZEROS);
        let (room, len) = (hops.as_mut_ptr(), hops.len());
        // SAFETY: a handle of this crate, references, and the length of the buffer.
        match check(unsafe { raw::lgm_payer_part(&mut *self.handle(), payment, place, &mut part, room, len) }) {
            Err(Fault::NONE) => return Ok(None),
            outcome => outcome?,
        }
        let ending = match part.ending {
            PART_HELD => Ending::Held,
            PART_UNREADABLE => Ending::Unreadable,
            _ => Ending::Failed { place: part.place, code: part.code },
        };
        Ok(Some(SentPart {
            number: part.part,
            amount_msat: part.amount_msat,
            fee_msat: part.fee_msat,
            blocks: part.blocks,
            ending,
            hops: route(&hops[..part.hops], &[]),
        }))
    }
}

impl Drop for Payer {
    fn drop(&mut self) {
        // SAFETY: a handle of this crate.
        unsafe { raw::lgm_payer_free(self.handle.get_mut().unwrap_or_else(PoisonError::into_inner)) }
    }
}

/// A payer in a handle that a call opens.
fn opened(open: impl FnOnce(&mut raw::Handle) -> u32) -> Result<Payer, Fault> {
    let mut handle = raw::Handle::ZEROS;
    check(open(&mut handle))?;
    Ok(Payer { handle: Mutex::new(handle) })
}
