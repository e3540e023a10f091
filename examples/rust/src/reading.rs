//! What a verifier needs of a message.

use crate::raw;
use crate::{Fault, Point, check};

/// Whose signatures a message has.
#[derive(Clone, Copy, Debug, PartialEq, Eq)]
pub enum Signers {
    /// A `channel_announcement` has four, by node 1, node 2, `bitcoin_key_1` and `bitcoin_key_2`.
    Channel([Point; 4]),
    /// A `node_announcement` has one, by its node.
    Node(Point),
    /// A `channel_update` has one, by node 1 of the channel. [`Map::wanted`](crate::Map::wanted) tells its key.
    Node1,
    /// A `channel_update` has one, by node 2 of the channel.
    Node2,
    /// A query or a reply has none.
    Nobody,
}

/// A message, as who verifies it sees it.
#[derive(Clone, Copy, Debug, PartialEq, Eq)]
pub struct Signed<'a> {
    /// Its type, as 258.
    pub kind: u16,
    /// The id of its channel, if it is of one.
    pub scid: Option<u64>,
    /// Whose signatures it has, in their order.
    pub signers: Signers,
    /// The signatures, of 64 bytes each, one after the other.
    pub signatures: &'a [u8],
    /// The bytes whose double SHA-256 is signed.
    pub signed: &'a [u8],
}

/// What a verifier needs of a message: the keys that signed it, its signatures, and the bytes that are signed.
///
/// ```
/// let update = [&[1, 2][..], &[0; 136]].concat();
/// let told = lgm::reads(&update)?;
/// assert_eq!((told.kind, told.scid, told.signers), (258, Some(0), lgm::Signers::Node1));
/// assert_eq!((told.signatures.len(), told.signed.len()), (64, 72));
/// # Ok::<(), lgm::Fault>(())
/// ```
pub fn reads(message: &[u8]) -> Result<Signed<'_>, Fault> {
    let mut told = raw::Signed::ZEROS;
    // SAFETY: references, and the length of the message.
    check(unsafe { raw::lgm_reads(message.as_ptr(), message.len(), &mut told) })?;
    let (front, signed) = message.split_at(told.signed_from);
    Ok(Signed {
        kind: told.r#type,
        scid: told.has_scid.then_some(told.scid),
        signers: signers(&told),
        signatures: &front[2..],
        signed: if told.signatures == 0 { &[] } else { signed },
    })
}

/// Whose signatures there are.
fn signers(told: &raw::Signed) -> Signers {
    match (told.signatures, told.has_scid, told.is_second) {
        (4, ..) => Signers::Channel([told.key_1, told.key_2, told.key_3, told.key_4]),
        (0, ..) => Signers::Nobody,
        (_, false, _) => Signers::Node(told.key_1),
        (_, true, false) => Signers::Node1,
        (_, true, true) => Signers::Node2,
    }
}
