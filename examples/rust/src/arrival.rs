//! Payloads for what a payee gets beside the route.

use crate::numbers::MOST_PAYLOADS;
use crate::{Fault, Hop, check, raw};

/// A custom record of the payee's payload: its type, and its value.
#[derive(Clone, Copy, Debug, PartialEq, Eq)]
pub struct Record<'a> {
    /// The type: at least 65,536. Of an even one that it doesn't know the payee refuses the payment.
    pub kind: u64,
    /// The value.
    pub value: &'a [u8],
}

/// What the payee gets beside the amount and the expiry over the last hop.
#[derive(Clone, Copy, Debug, Default, PartialEq, Eq)]
pub struct Arrival<'a> {
    /// What it is to get by all parts of the payment together, in msat; of one in one part, the amount.
    pub total_msat: u64,
    /// The payment metadata, from the invoice. Without bytes there are none.
    pub metadata: &'a [u8],
    /// Custom records, by ascending types.
    pub records: &'a [Record<'a>],
    /// The payment secret, from the invoice.
    pub secret: [u8; 32],
}

/// Writes the payloads of hops for what the payee gets, each in place of the hop's.
///
/// The fault whose word is `argument` says that the hops aren't 1 to 20 that follow one another, that types aren't ascending
/// or are below 65,536, or that the payloads don't fit an onion packet. The hops are then unchanged.
pub fn write_payloads(hops: &mut [Hop], arrival: &Arrival) -> Result<(), Fault> {
    let records: Vec<_> = arrival.records.iter().map(raw_record).collect();
    let given = raw::Arrival {
        total_msat: arrival.total_msat,
        metadata: arrival.metadata.as_ptr(),
        metadata_len: arrival.metadata.len(),
        records: records.as_ptr(),
        records_len: records.len(),
        secret: arrival.secret,
    };
    let mut made: Vec<_> = hops.iter().map(raw_hop).collect();
    let mut payloads = [0; MOST_PAYLOADS];
    let mut lengths = raw::Lengths::ZEROS;
    let (room, len) = (made.as_mut_ptr(), made.len());
    let (bytes, bytes_len) = (payloads.as_mut_ptr(), payloads.len());
    // SAFETY: references, and the lengths of all lists and buffers, which live as long as the call.
    check(unsafe { raw::lgm_payloads(&given, room, len, bytes, bytes_len, &mut lengths) })?;
    let mut rest = payloads.as_slice();
    for (hop, made) in hops.iter_mut().zip(&made) {
        let (payload, others) = rest.split_at(made.payload_len);
        rest = others;
        hop.payload = payload.to_vec();
    }
    Ok(())
}

pub(crate) fn raw_record(record: &Record) -> raw::Record {
    raw::Record { r#type: record.kind, value: record.value.as_ptr(), value_len: record.value.len() }
}

pub(crate) fn raw_hop(hop: &Hop) -> raw::Hop {
    raw::Hop {
        scid: hop.scid,
        amount_msat: hop.amount_msat,
        payload_len: 0,
        expiry: hop.expiry,
        from: hop.from,
        to: hop.to,
    }
}
