//! What a map has: its channels and nodes, their messages, and who is banned.

use crate::raw;
use crate::{Fault, Map, Point, check, written};

/// The terms of a channel's direction, from its `channel_update`.
#[derive(Clone, Copy, Debug, PartialEq, Eq)]
pub struct Direction {
    /// The message flags.
    pub message_flags: u8,
    /// The channel flags. Bit 0 is the direction, bit 1 disables it.
    pub channel_flags: u8,
    /// The `cltv_expiry_delta`, in blocks.
    pub cltv_expiry_delta: u16,
    /// When the update was made, in seconds since 1970.
    pub timestamp: u32,
    /// The base fee, in msat.
    pub fee_base_msat: u32,
    /// The proportional fee, in millionths.
    pub fee_proportional_millionths: u32,
    /// The least amount, in msat.
    pub htlc_minimum_msat: u64,
    /// The greatest amount, in msat.
    pub htlc_maximum_msat: u64,
}

impl Direction {
    /// Whether bit 1 of the channel flags is set.
    pub fn is_disabled(&self) -> bool {
        self.channel_flags & 2 != 0
    }

    /// The terms that C wrote, if the map has some.
    fn held(written: &raw::Direction) -> Option<Direction> {
        written.is_held.then_some(Direction {
            message_flags: written.message_flags,
            channel_flags: written.channel_flags,
            cltv_expiry_delta: written.cltv_expiry_delta,
            timestamp: written.timestamp,
            fee_base_msat: written.fee_base_msat,
            fee_proportional_millionths: written.fee_proportional_millionths,
            htlc_minimum_msat: written.htlc_minimum_msat,
            htlc_maximum_msat: written.htlc_maximum_msat,
        })
    }
}

/// A channel. Node 1 is the lesser of its two points, compared as bytes.
#[derive(Clone, Copy, Debug, PartialEq, Eq)]
pub struct Channel {
    /// Its capacity, in satoshi.
    pub capacity_sat: u64,
    /// The one node.
    pub node_1: Point,
    /// The other node.
    pub node_2: Point,
    /// What node 1 sets, for payments from it to node 2; none if the map has no such update.
    pub from_1: Option<Direction>,
    /// What node 2 sets.
    pub from_2: Option<Direction>,
}

/// A node, from its `node_announcement`.
#[derive(Clone, Debug, PartialEq, Eq)]
pub struct Node {
    /// When the announcement was made, in seconds since 1970.
    pub timestamp: u32,
    /// Its color.
    pub rgb: [u8; 3],
    /// Its name: any bytes.
    pub alias: [u8; 32],
    /// Its addresses as they were announced, descriptors one after the other.
    pub addresses: Vec<u8>,
}

/// A message of a channel.
#[derive(Clone, Copy, Debug, PartialEq, Eq)]
pub enum Which {
    /// Its announcement.
    Announcement = 0,
    /// The update that node 1 sets.
    Update1 = 1,
    /// The update that node 2 sets.
    Update2 = 2,
}

/// A call that goes through points.
type NextPointCall = unsafe extern "C" fn(*mut raw::Handle, bool, *mut Point) -> u32;

impl Map {
    /// What the map has of a channel.
    pub fn channel(&self, scid: u64) -> Result<Channel, Fault> {
        let mut channel = raw::Channel::ZEROS;
        // SAFETY: a handle of this crate, and a reference.
        check(unsafe { raw::lgm_channel(&mut *self.handle(), scid, &mut channel) })?;
        Ok(Channel {
            capacity_sat: channel.capacity_sat,
            node_1: channel.node_1,
            node_2: channel.node_2,
            from_1: Direction::held(&channel.from_1),
            from_2: Direction::held(&channel.from_2),
        })
    }

    /// What the map has of a node.
    pub fn node(&self, point: &Point) -> Result<Node, Fault> {
        let mut node = raw::Node::ZEROS;
        let addresses = written(|room, room_len, needed| {
            // SAFETY: a handle of this crate, references, and the length of the buffer.
            unsafe { raw::lgm_node(&mut *self.handle(), point, &mut node, room, room_len, needed) }
        })?;
        Ok(Node { timestamp: node.timestamp, rgb: node.rgb, alias: node.alias, addresses })
    }

    /// The ids of all channels, ascending. Between two of them the map may change.
    pub fn channels(&self) -> impl Iterator<Item = u64> + '_ {
        // SAFETY: a handle of this crate, and a reference.
        keys(0, |is_first, scid| unsafe { raw::lgm_next_channel(&mut *self.handle(), is_first, scid) })
    }

    /// The points of all nodes with an announcement, ascending byte by byte.
    pub fn nodes(&self) -> impl Iterator<Item = Point> + '_ {
        self.points(raw::lgm_next_node)
    }

    /// The points of all banned nodes, ascending byte by byte.
    pub fn banned(&self) -> impl Iterator<Item = Point> + '_ {
        self.points(raw::lgm_next_banned)
    }

    /// The points that a call goes through.
    fn points(&self, call: NextPointCall) -> impl Iterator<Item = Point> + '_ {
        // SAFETY: a handle of this crate, and a reference.
        keys([0; 33], move |is_first, point| unsafe { call(&mut *self.handle(), is_first, point) })
    }

    /// A message of a channel, as it was received; none if the map has no such update.
    pub fn message(&self, scid: u64, which: Which) -> Result<Option<Vec<u8>>, Fault> {
        let found = written(|room, room_len, needed| {
            // SAFETY: a handle of this crate, references, and the length of the buffer.
            unsafe { raw::lgm_channel_message(&mut *self.handle(), scid, which as u32, room, room_len, needed) }
        });
        match found {
            Ok(message) => Ok(Some(message)),
            Err(Fault::NONE) => Ok(None),
            Err(fault) => Err(fault),
        }
    }

    /// A node's announcement, as it was received.
    pub fn node_message(&self, point: &Point) -> Result<Vec<u8>, Fault> {
        written(|room, room_len, needed| {
            // SAFETY: a handle of this crate, references, and the length of the buffer.
            unsafe { raw::lgm_node_message(&mut *self.handle(), point, room, room_len, needed) }
        })
    }
}

/// The keys that a call goes through, which it replaces by the next one each. A map in a [`Map`] is open, so a call has no
/// fault but that there is none.
fn keys<K: Copy>(mut key: K, mut call: impl FnMut(bool, &mut K) -> u32) -> impl Iterator<Item = K> {
    let mut is_first = true;
    std::iter::from_fn(move || {
        let found = check(call(is_first, &mut key)).ok().map(|()| key);
        is_first = false;
        found
    })
}
