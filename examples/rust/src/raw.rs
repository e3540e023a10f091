// Made of include/lgm.h by python3 surface/make.py. Change that, and not this.
//! The declarations of `include/lgm.h`.
#![allow(dead_code)] // no wrapper uses all of it

use std::ffi::c_void;
use std::ptr;

/// A handle, of whatever kind: all have this form.
#[repr(C)]
#[derive(Debug)]
pub struct Handle {
    pub is_open: bool,
    pub at: *mut c_void,
}

impl Handle {
    /// A closed handle.
    pub(crate) const ZEROS: Handle = Handle { is_open: false, at: ptr::null_mut() };
}

/// A message, as who verifies it sees it.
#[repr(C)]
#[derive(Clone, Copy, Debug, PartialEq, Eq)]
pub struct Signed {
    /// The id of its channel, or 0.
    pub scid: u64,
    /// Where the bytes begin whose double SHA-256 is signed: they end where the message does.
    pub signed_from: usize,
    /// The parts of the id: the height of the block with the funding transaction.
    pub block: u32,
    /// The index of that transaction in the block.
    pub transaction: u32,
    /// The index of the funding output in it.
    pub output: u16,
    /// 256, a channel_announcement; 257, a node_announcement; 258, a channel_update; or another one.
    pub r#type: u16,
    /// Whether it is of a channel: a channel_announcement or a channel_update.
    pub has_scid: bool,
    /// Of a channel_update: whether node 2 of the channel signs it, and not node 1.
    pub is_second: bool,
    /// How many it has, of 64 bytes each, one after the other from byte 2 on: 4, 1 or 0.
    pub signatures: u8,
    /// The key of the first signature: of a channel_announcement node 1, of a node_announcement its node.
    pub key_1: [u8; 33],
    /// That of the second one, which a channel_announcement alone has: node 2.
    pub key_2: [u8; 33],
    /// That of the third one: bitcoin_key_1.
    pub key_3: [u8; 33],
    /// That of the fourth one: bitcoin_key_2.
    pub key_4: [u8; 33],
}

impl Signed {
    /// All zeros.
    pub(crate) const ZEROS: Signed = Signed {
        scid: 0,
        signed_from: 0,
        block: 0,
        transaction: 0,
        output: 0,
        r#type: 0,
        has_scid: false,
        is_second: false,
        signatures: 0,
        key_1: [0; 33],
        key_2: [0; 33],
        key_3: [0; 33],
        key_4: [0; 33],
    };
}

/// A channel that was closed since it is old.
#[repr(C)]
#[derive(Clone, Copy, Debug, PartialEq, Eq)]
pub struct Pruned {
    pub scid: u64,
    /// Of its latest update, in seconds since 1970; 0 without one.
    pub timestamp: u32,
}

impl Pruned {
    /// All zeros.
    pub(crate) const ZEROS: Pruned = Pruned {
        scid: 0,
        timestamp: 0,
    };
}

/// A payment to be made.
#[repr(C)]
#[derive(Clone, Copy, Debug, PartialEq, Eq)]
pub struct Payment {
    /// What the payee receives.
    pub amount_msat: u64,
    /// The expiry of the HTLC to the payee.
    pub expiry: u32,
    pub payer: [u8; 33],
    pub payee: [u8; 33],
    /// The payment secret, from the invoice.
    pub secret: [u8; 32],
}

impl Payment {
    /// All zeros.
    pub(crate) const ZEROS: Payment = Payment {
        amount_msat: 0,
        expiry: 0,
        payer: [0; 33],
        payee: [0; 33],
        secret: [0; 32],
    };
}

/// A hop of a route: one channel, with the HTLC that is offered over it.
#[repr(C)]
#[derive(Clone, Copy, Debug, PartialEq, Eq)]
pub struct Hop {
    pub scid: u64,
    /// The amount of the HTLC.
    pub amount_msat: u64,
    /// The length of the payload for the receiving node.
    pub payload_len: usize,
    /// The expiry of the HTLC.
    pub expiry: u32,
    /// The node that offers it.
    pub from: [u8; 33],
    /// The node that receives it.
    pub to: [u8; 33],
}

impl Hop {
    /// All zeros.
    pub(crate) const ZEROS: Hop = Hop {
        scid: 0,
        amount_msat: 0,
        payload_len: 0,
        expiry: 0,
        from: [0; 33],
        to: [0; 33],
    };
}

/// The size of a route: the number of its hops, and the bytes of all their payloads.
#[repr(C)]
#[derive(Clone, Copy, Debug, PartialEq, Eq)]
pub struct Lengths {
    pub hops: usize,
    pub payloads: usize,
}

impl Lengths {
    /// All zeros.
    pub(crate) const ZEROS: Lengths = Lengths {
        hops: 0,
        payloads: 0,
    };
}

/// A record of the payee's payload that BOLT 4 doesn't define, as 5482373484 with the preimage of a spontaneous
/// payment.
#[repr(C)]
#[derive(Clone, Copy, Debug, PartialEq, Eq)]
pub struct Record {
    /// At least 65,536; of an even one that it doesn't know the payee refuses the payment.
    pub r#type: u64,
    pub value: *const u8,
    pub value_len: usize,
}

impl Record {
    /// All zeros.
    pub(crate) const ZEROS: Record = Record {
        r#type: 0,
        value: ptr::null(),
        value_len: 0,
    };
}

/// What the payee gets beside the amount and the expiry over the last hop.
#[repr(C)]
#[derive(Clone, Copy, Debug, PartialEq, Eq)]
pub struct Arrival {
    /// What it is to get by all parts of the payment together; of one in one part, the amount.
    pub total_msat: u64,
    /// The payment metadata, from the invoice (BOLT 11, field `m`); with the length 0, none.
    pub metadata: *const u8,
    pub metadata_len: usize,
    /// Custom records, by ascending types.
    pub records: *const Record,
    pub records_len: usize,
    /// The payment secret, from the invoice.
    pub secret: [u8; 32],
}

impl Arrival {
    /// All zeros.
    pub(crate) const ZEROS: Arrival = Arrival {
        total_msat: 0,
        metadata: ptr::null(),
        metadata_len: 0,
        records: ptr::null(),
        records_len: 0,
        secret: [0; 32],
    };
}

/// What a payer believes of an edge. Of one of which nothing is known: 0, UINT64_MAX and 0.
#[repr(C)]
#[derive(Clone, Copy, Debug, PartialEq, Eq)]
pub struct Estimate {
    /// It surely carries this much: up to it a payment has no penalty for a failure.
    pub least_msat: u64,
    /// It surely carries no more: the odds of a failure count on a balance up to it.
    pub most_msat: u64,
    /// What the payer would rather pay than use it.
    pub penalty_msat: u64,
}

impl Estimate {
    /// All zeros.
    pub(crate) const ZEROS: Estimate = Estimate {
        least_msat: 0,
        most_msat: 0,
        penalty_msat: 0,
    };
}

/// An edge beside the map's, by the caller's word: a channel of the payer's own, announced or not, or a route hint of
/// an invoice (BOLT 11, field `r`). Its nodes needn't be in the map, and it has no capacity.
#[repr(C)]
#[derive(Clone, Copy, Debug, PartialEq, Eq)]
pub struct Edge {
    /// As the node that the edge leaves resolves it.
    pub scid: u64,
    /// The least amount of a payment over it.
    pub htlc_minimum_msat: u64,
    /// The most that it carries, 1 or more: of a channel of the payer's own, what it can send; of a hint, UINT64_MAX.
    pub htlc_maximum_msat: u64,
    /// The payer's own channel charges nothing and adds no delay, whatever it has here.
    pub fee_base_msat: u32,
    /// Of what is forwarded.
    pub fee_proportional_millionths: u32,
    /// In blocks.
    pub cltv_expiry_delta: u16,
    /// The node that it leaves.
    pub from: [u8; 33],
    /// The node that it leads to.
    pub to: [u8; 33],
}

impl Edge {
    /// All zeros.
    pub(crate) const ZEROS: Edge = Edge {
        scid: 0,
        htlc_minimum_msat: 0,
        htlc_maximum_msat: 0,
        fee_base_msat: 0,
        fee_proportional_millionths: 0,
        cltv_expiry_delta: 0,
        from: [0; 33],
        to: [0; 33],
    };
}

/// What the edge with an id out of a node carries at most, one of the map or of the extra ones.
#[repr(C)]
#[derive(Clone, Copy, Debug, PartialEq, Eq)]
pub struct Limit {
    pub scid: u64,
    /// 0 excludes the edge.
    pub most_msat: u64,
    /// The node that the edge leaves: the other direction of the channel has a limit of its own.
    pub from: [u8; 33],
}

impl Limit {
    /// All zeros.
    pub(crate) const ZEROS: Limit = Limit {
        scid: 0,
        most_msat: 0,
        from: [0; 33],
    };
}

#[repr(C)]
#[derive(Clone, Copy, Debug, PartialEq, Eq)]
pub struct Point {
    pub point: [u8; 33],
}

impl Point {
    /// All zeros.
    pub(crate) const ZEROS: Point = Point {
        point: [0; 33],
    };
}

/// What a payer prefers, and limits of its route and of the search for it. All zeros prefer nothing, and limit
/// nothing but the search.
#[repr(C)]
#[derive(Clone, Copy, Debug, PartialEq, Eq)]
pub struct Search {
    /// The most steps: edges looked at, and labels compared; 0 stands for LGM_MOST_STEPS.
    pub most_steps: u64,
    /// The most labels, of some 50 bytes each; 0 stands for LGM_MOST_LABELS.
    pub most_labels: usize,
    /// What a failed try is worth to the payer.
    pub failure_msat: u32,
    /// What each hop is.
    pub hop_msat: u32,
    /// The most delay in blocks, of all channels but the first; 0 stands for any.
    pub most_delay: u16,
    /// The most channels, up to 20; 0 stands for 20.
    pub most_hops: u8,
}

impl Search {
    /// All zeros.
    pub(crate) const ZEROS: Search = Search {
        most_steps: 0,
        most_labels: 0,
        failure_msat: 0,
        hop_msat: 0,
        most_delay: 0,
        most_hops: 0,
    };
}

/// A payment to be tried: what its payer knows beside the map (docs/protocol.md, "What a payer knows beside the
/// map"), and what it prefers ("A route that arrives"). All zeros but the payment are a payment over the map alone.
/// - each of the edges stands in place of the map's with its id out of its node; of such edges the first counts;
/// - the least limit of an edge counts;
/// - no edge of the map that leaves a silent node is used. The node may be paid, and edges of this attempt may leave
///   it.
#[repr(C)]
#[derive(Clone, Copy, Debug, PartialEq, Eq)]
pub struct Attempt {
    pub payment: Payment,
    pub edges: *const Edge,
    pub edges_len: usize,
    pub limits: *const Limit,
    pub limits_len: usize,
    pub silent: *const Point,
    pub silent_len: usize,
    pub search: Search,
}

impl Attempt {
    /// All zeros.
    pub(crate) const ZEROS: Attempt = Attempt {
        payment: Payment::ZEROS,
        edges: ptr::null(),
        edges_len: 0,
        limits: ptr::null(),
        limits_len: 0,
        silent: ptr::null(),
        silent_len: 0,
        search: Search::ZEROS,
    };
}

/// What a payee asks for (BOLT 11), as the caller has decoded it, and what else the payer sends to it.
#[repr(C)]
#[derive(Clone, Copy, Debug, PartialEq, Eq)]
pub struct Invoice {
    /// 1 or more; where the invoice has none, it is the payer's choice.
    pub amount_msat: u64,
    /// Of the fields `r`: an edge from each node to the next, the last one to the payee.
    pub hints: *const Edge,
    pub hints_len: usize,
    /// The payment metadata, of the field `m`; with the length 0, none.
    pub metadata: *const u8,
    pub metadata_len: usize,
    /// Custom records, by ascending types.
    pub records: *const Record,
    pub records_len: usize,
    /// In blocks, of the field `c`.
    pub min_final_cltv_expiry_delta: u16,
    /// Whether the payee takes several parts: feature 16 or 17.
    pub basic_mpp: bool,
    pub payee: [u8; 33],
    /// The payment secret, of the field `s`.
    pub secret: [u8; 32],
}

impl Invoice {
    /// All zeros.
    pub(crate) const ZEROS: Invoice = Invoice {
        amount_msat: 0,
        hints: ptr::null(),
        hints_len: 0,
        metadata: ptr::null(),
        metadata_len: 0,
        records: ptr::null(),
        records_len: 0,
        min_final_cltv_expiry_delta: 0,
        basic_mpp: false,
        payee: [0; 33],
        secret: [0; 32],
    };
}

/// What a payment may take.
#[repr(C)]
#[derive(Clone, Copy, Debug, PartialEq, Eq)]
pub struct Bounds {
    /// The fees of all parts together that are under way or have arrived.
    pub most_fee_msat: u64,
    /// Of a part, if the amount is divided.
    pub least_part_msat: u64,
    /// Parts that are ever sent.
    pub most_tries: usize,
    /// Parts that are under way or have arrived, where the payee takes several: 1 or more.
    pub most_parts: usize,
    /// Until the first HTLC of a part expires.
    pub most_blocks: u16,
}

impl Bounds {
    /// All zeros.
    pub(crate) const ZEROS: Bounds = Bounds {
        most_fee_msat: 0,
        least_part_msat: 0,
        most_tries: 0,
        most_parts: 0,
        most_blocks: 0,
    };
}

/// What a payer sees when it asks for a part of a payment.
#[repr(C)]
#[derive(Clone, Copy, Debug, PartialEq, Eq)]
pub struct Sight {
    /// The payer's channels: edges out of it, each with what it can send now, which may be 0.
    pub channels: *const Edge,
    pub channels_len: usize,
    /// How many parts they reckon: all with a lower number. What later ones take is deducted.
    pub reckoned: u64,
    /// As of lgm_search.
    pub most_steps: u64,
    /// As of lgm_search.
    pub most_labels: usize,
    /// The height of the chain.
    pub height: u32,
    /// What a failed try is worth to the payer, if it `prefers`.
    pub failure_msat: u32,
    /// What each hop is, if it `prefers`.
    pub hop_msat: u32,
    /// Whether these two count. Otherwise a failed try is worth 200 millionths of the payment's amount, but a
    /// hundredth of it up to 20 satoshi, and a hop half a satoshi.
    pub prefers: bool,
}

impl Sight {
    /// All zeros.
    pub(crate) const ZEROS: Sight = Sight {
        channels: ptr::null(),
        channels_len: 0,
        reckoned: 0,
        most_steps: 0,
        most_labels: 0,
        height: 0,
        failure_msat: 0,
        hop_msat: 0,
        prefers: false,
    };
}

/// A part that is under way from now on.
#[repr(C)]
#[derive(Clone, Copy, Debug, PartialEq, Eq)]
pub struct Part {
    /// Its number: how many parts the payer had sent before.
    pub part: u64,
    /// What the payee gets.
    pub amount_msat: u64,
    /// What is sent beyond that.
    pub fee_msat: u64,
    /// What comes with some faults, see lgm_payer_next; unchanged otherwise.
    pub detail: u64,
    /// The numbers of its hops, and of the bytes of their payloads.
    pub lengths: Lengths,
    /// The odds that it fails, in millionths, as lgm_odds has them.
    pub odds: u32,
    /// From the height until its first HTLC expires.
    pub blocks: u32,
    /// False, if its route may not be the best one, since labels or steps ran out.
    pub is_best: bool,
}

impl Part {
    /// All zeros.
    pub(crate) const ZEROS: Part = Part {
        part: 0,
        amount_msat: 0,
        fee_msat: 0,
        detail: 0,
        lengths: Lengths::ZEROS,
        odds: 0,
        blocks: 0,
        is_best: false,
    };
}

/// A payment.
#[repr(C)]
#[derive(Clone, Copy, Debug, PartialEq, Eq)]
pub struct PaymentInfo {
    pub amount_msat: u64,
    /// What is neither under way nor has arrived.
    pub left_msat: u64,
    /// Of the parts that are under way or have arrived.
    pub fee_msat: u64,
    /// How many were ever sent.
    pub parts: usize,
    /// How many of them haven't failed: they are under way, or have arrived if it is paid.
    pub parts_held: usize,
    pub stage: u32,
}

impl PaymentInfo {
    /// All zeros.
    pub(crate) const ZEROS: PaymentInfo = PaymentInfo {
        amount_msat: 0,
        left_msat: 0,
        fee_msat: 0,
        parts: 0,
        parts_held: 0,
        stage: 0,
    };
}

/// A part that was sent.
#[repr(C)]
#[derive(Clone, Copy, Debug, PartialEq, Eq)]
pub struct PartInfo {
    /// Its number.
    pub part: u64,
    /// What the payee gets.
    pub amount_msat: u64,
    /// What is sent beyond that.
    pub fee_msat: u64,
    /// How many hops its route has.
    pub hops: usize,
    /// From the height at which it was asked for until its first HTLC expires.
    pub blocks: u32,
    /// How it ended.
    pub ending: u32,
    /// The failure_code, of a part that failed with a message; else 0.
    pub code: u16,
    /// The place of the node that returned it; else 0.
    pub place: u8,
}

impl PartInfo {
    /// All zeros.
    pub(crate) const ZEROS: PartInfo = PartInfo {
        part: 0,
        amount_msat: 0,
        fee_msat: 0,
        hops: 0,
        blocks: 0,
        ending: 0,
        code: 0,
        place: 0,
    };
}

/// A channel of which a map lacks messages that a peer has. The timestamps are those of the peer's updates by node 1
/// and by node 2, in seconds since 1970, and 0 without an update, or if the reply tells none: who has pruned an old
/// channel compares them.
#[repr(C)]
#[derive(Clone, Copy, Debug, PartialEq, Eq)]
pub struct Lacking {
    pub scid: u64,
    pub timestamp_1: u32,
    pub timestamp_2: u32,
    /// Bit 0: the announcement; bits 1 and 2: the updates of node 1 and node 2; bits 3 and 4: these nodes.
    pub flags: u8,
}

impl Lacking {
    /// All zeros.
    pub(crate) const ZEROS: Lacking = Lacking {
        scid: 0,
        timestamp_1: 0,
        timestamp_2: 0,
        flags: 0,
    };
}

/// The terms of a channel's direction, from its channel_update. If the map has none, all is 0.
#[repr(C)]
#[derive(Clone, Copy, Debug, PartialEq, Eq)]
pub struct Direction {
    pub is_held: bool,
    pub message_flags: u8,
    /// Bit 0: the direction; bit 1: disabled.
    pub channel_flags: u8,
    pub cltv_expiry_delta: u16,
    pub timestamp: u32,
    pub fee_base_msat: u32,
    pub fee_proportional_millionths: u32,
    pub htlc_minimum_msat: u64,
    pub htlc_maximum_msat: u64,
}

impl Direction {
    /// All zeros.
    pub(crate) const ZEROS: Direction = Direction {
        is_held: false,
        message_flags: 0,
        channel_flags: 0,
        cltv_expiry_delta: 0,
        timestamp: 0,
        fee_base_msat: 0,
        fee_proportional_millionths: 0,
        htlc_minimum_msat: 0,
        htlc_maximum_msat: 0,
    };
}

/// A channel. Node 1 is the lesser of the two points, compared as bytes.
#[repr(C)]
#[derive(Clone, Copy, Debug, PartialEq, Eq)]
pub struct Channel {
    pub capacity_sat: u64,
    pub node_1: [u8; 33],
    pub node_2: [u8; 33],
    /// Set by node 1, for payments from it to node 2.
    pub from_1: Direction,
    pub from_2: Direction,
}

impl Channel {
    /// All zeros.
    pub(crate) const ZEROS: Channel = Channel {
        capacity_sat: 0,
        node_1: [0; 33],
        node_2: [0; 33],
        from_1: Direction::ZEROS,
        from_2: Direction::ZEROS,
    };
}

/// A node, from its node_announcement.
#[repr(C)]
#[derive(Clone, Copy, Debug, PartialEq, Eq)]
pub struct Node {
    pub timestamp: u32,
    pub rgb: [u8; 3],
    /// Any bytes.
    pub alias: [u8; 32],
}

impl Node {
    /// All zeros.
    pub(crate) const ZEROS: Node = Node {
        timestamp: 0,
        rgb: [0; 3],
        alias: [0; 32],
    };
}

unsafe extern "C" {
    /// The version of the library, to be compared with LGM_VERSION.
    pub fn lgm_version() -> u32;
    /// The word of a number that a call returned, as `lgm run` writes it.
    pub fn lgm_word(number: u32, word: *mut [u8; 24]);
    /// Opens a closed handle, with a map of this chain without channels and nodes, and without a mark.
    pub fn lgm_open(
        map: *mut Handle,
        chain: *const [u8; 32],
        all_known: bool,
        known: *const u8,
        known_len: usize,
        seed: *const [u8; 16],
    ) -> u32;
    /// Frees the map of a handle, if it is open, and closes the handle.
    pub fn lgm_free(map: *mut Handle);
    /// Writes the map of a handle as bytes, with its chain, a version and a checksum, and their length to `needed`.
    pub fn lgm_save(map: *mut Handle, bytes: *mut u8, bytes_len: usize, needed: *mut usize) -> u32;
    /// Opens a closed handle with the map of this chain that was saved as these bytes, and sets its mark there.
    pub fn lgm_load(
        map: *mut Handle,
        chain: *const [u8; 32],
        all_known: bool,
        known: *const u8,
        known_len: usize,
        seed: *const [u8; 16],
        bytes: *const u8,
        bytes_len: usize,
    ) -> u32;
    /// Offers a gossip message, beginning with the two bytes of its type, with the verdicts on it.
    pub fn lgm_offer(
        map: *mut Handle,
        message: *const u8,
        message_len: usize,
        sig: u32,
        signer: *const [u8; 33],
        funding: u32,
        sat: u64,
    ) -> u32;
    /// Tells whether a message is worth verifying.
    pub fn lgm_wanted(map: *mut Handle, message: *const u8, message_len: usize, signer: *mut [u8; 33]) -> u32;
    /// The first fault of a message, as LGM_MALFORMED doesn't tell.
    pub fn lgm_fault_of(message: *const u8, message_len: usize) -> u32;
    /// Tells what a verifier needs of a message.
    pub fn lgm_reads(message: *const u8, message_len: usize, read: *mut Signed) -> u32;
    /// Closes a channel, because its funding output was spent.
    pub fn lgm_close_channel(map: *mut Handle, scid: u64) -> u32;
    /// Bans a node, as contradicting announcements of a channel ban the nodes of both.
    pub fn lgm_ban(map: *mut Handle, point: *const [u8; 33]) -> u32;
    /// Closes each channel whose latest update, of both directions, has a timestamp below `before`, in seconds since
    /// 1970, and each channel without an update that was funded below the block `block`.
    pub fn lgm_prune(
        map: *mut Handle,
        before: u32,
        block: u32,
        pruned: *mut Pruned,
        pruned_len: usize,
        needed: *mut usize,
    ) -> u32;
    /// The number of channels, or 0 for a closed handle.
    pub fn lgm_count(map: *mut Handle) -> usize;
    /// Finds the route by which the payer sends the least, among all of 1 to 20 channels of the map.
    pub fn lgm_route(
        map: *mut Handle,
        payment: *const Payment,
        hops: *mut Hop,
        hops_len: usize,
        payloads: *mut u8,
        payloads_len: usize,
        lengths: *mut Lengths,
    ) -> u32;
    /// Makes the payloads of a route that was found, for a payee that gets more than lgm_route tells it.
    pub fn lgm_payloads(
        arrival: *const Arrival,
        hops: *mut Hop,
        hops_len: usize,
        payloads: *mut u8,
        payloads_len: usize,
        lengths: *mut Lengths,
    ) -> u32;
    /// Opens a closed handle.
    pub fn lgm_estimates_open(estimates: *mut Handle) -> u32;
    /// Frees what a handle has, if it is open, and closes the handle.
    pub fn lgm_estimates_free(estimates: *mut Handle);
    /// Looks up what is believed of an edge, also if nothing is known of it.
    pub fn lgm_estimate(estimates: *mut Handle, scid: u64, from: *const [u8; 33], estimate: *mut Estimate) -> u32;
    /// Sets what is believed of an edge, whatever was known of it.
    pub fn lgm_estimates_set(
        estimates: *mut Handle,
        scid: u64,
        from: *const [u8; 33],
        estimate: *const Estimate,
    ) -> u32;
    /// Notes that an edge carried an amount, as when a try fails at a later hop, or reaches the payee.
    pub fn lgm_estimates_carried(estimates: *mut Handle, scid: u64, from: *const [u8; 33], amount_msat: u64) -> u32;
    /// Notes that an edge failed to carry an amount.
    pub fn lgm_estimates_failed(estimates: *mut Handle, scid: u64, from: *const [u8; 33], amount_msat: u64) -> u32;
    /// Forgets what is known of an edge.
    pub fn lgm_estimates_forget(estimates: *mut Handle, scid: u64, from: *const [u8; 33]) -> u32;
    /// The number of edges of which something is known, or 0 for a closed handle.
    pub fn lgm_estimates_count(estimates: *mut Handle) -> usize;
    /// Looks up the edge at a place below that number.
    pub fn lgm_estimates_at(
        estimates: *mut Handle,
        place: usize,
        scid: *mut u64,
        from: *mut [u8; 33],
        estimate: *mut Estimate,
    ) -> u32;
    /// Has what is known of edges fade, since balances move.
    pub fn lgm_estimates_fade(estimates: *mut Handle, map: *mut Handle, elapsed: u32, half_life: u32) -> u32;
    /// Writes what is known of edges as bytes, with a version and a checksum, and their length to `needed`.
    pub fn lgm_estimates_save(estimates: *mut Handle, bytes: *mut u8, bytes_len: usize, needed: *mut usize) -> u32;
    /// Opens a closed handle with what was saved as these bytes.
    pub fn lgm_estimates_load(estimates: *mut Handle, bytes: *const u8, bytes_len: usize) -> u32;
    /// Finds the best route for an attempt by what its payer prefers and has learnt of edges, in a map that changes
    /// or a published one.
    pub fn lgm_attempt_route(
        map: *mut Handle,
        attempt: *const Attempt,
        estimates: *mut Handle,
        hops: *mut Hop,
        hops_len: usize,
        payloads: *mut u8,
        payloads_len: usize,
        lengths: *mut Lengths,
    ) -> u32;
    /// Tells why there is no route for an attempt, whatever its payer prefers and has learnt.
    pub fn lgm_no_route_reason(map: *mut Handle, attempt: *const Attempt) -> u32;
    /// Tells how likely a route is to fail, in millionths.
    pub fn lgm_odds(
        map: *mut Handle,
        attempt: *const Attempt,
        estimates: *mut Handle,
        hops: *const Hop,
        hops_len: usize,
        odds: *mut u32,
    ) -> u32;
    /// Opens a closed handle with a payer that has begun no payment.
    pub fn lgm_payer_open(payer: *mut Handle, point: *const [u8; 33], estimates: *mut Handle) -> u32;
    /// Frees what a handle has, if it is open, and closes the handle.
    pub fn lgm_payer_free(payer: *mut Handle);
    /// Begins a payment, and writes its number.
    pub fn lgm_payer_begin(
        payer: *mut Handle,
        invoice: *const Invoice,
        bounds: *const Bounds,
        payment: *mut u64,
    ) -> u32;
    /// Chooses the next part of a payment, beside all that is under way, and writes it, its hops and their payloads,
    /// as lgm_payloads does.
    pub fn lgm_payer_next(
        payer: *mut Handle,
        map: *mut Handle,
        payment: u64,
        sight: *const Sight,
        part: *mut Part,
        hops: *mut Hop,
        hops_len: usize,
        payloads: *mut u8,
        payloads_len: usize,
    ) -> u32;
    /// Notes that a part failed with a failure message, and learns from it.
    pub fn lgm_payer_failed(payer: *mut Handle, payment: u64, part: u64, place: u8, code: u16, is_renewed: bool) -> u32;
    /// Notes that a part failed, and that no failure message could be read.
    pub fn lgm_payer_unreadable(payer: *mut Handle, payment: u64, part: u64) -> u32;
    /// Notes that the payee took the whole.
    pub fn lgm_payer_fulfilled(payer: *mut Handle, payment: u64) -> u32;
    /// Sends nothing more for a payment.
    pub fn lgm_payer_abandon(payer: *mut Handle, payment: u64) -> u32;
    /// Forgets a payment of which nothing is under way.
    pub fn lgm_payer_forget(payer: *mut Handle, payment: u64) -> u32;
    /// Has what was learnt of edges fade, since balances move.
    pub fn lgm_payer_fade(payer: *mut Handle, map: *mut Handle, elapsed: u32, half_life: u32) -> u32;
    /// Copies what was learnt of edges, and opens a closed handle with it.
    pub fn lgm_payer_learnt(payer: *mut Handle, estimates: *mut Handle) -> u32;
    /// How many parts were sent, over all payments.
    pub fn lgm_payer_sent(payer: *mut Handle) -> u64;
    /// Looks up a payment.
    pub fn lgm_payer_payment(payer: *mut Handle, payment: u64, info: *mut PaymentInfo) -> u32;
    /// Goes through the payments by their numbers.
    pub fn lgm_payer_next_payment(payer: *mut Handle, is_first: bool, payment: *mut u64) -> u32;
    /// Looks up the part at a place of a payment, from 0 to `parts` of lgm_payment_info, in the order in which they
    /// were sent, and writes its hops, with payload lengths of 0.
    pub fn lgm_payer_part(
        payer: *mut Handle,
        payment: u64,
        place: usize,
        part: *mut PartInfo,
        hops: *mut Hop,
        hops_len: usize,
    ) -> u32;
    /// Writes all that a payer is as bytes, with a version and a checksum, and their length to `needed`.
    pub fn lgm_payer_save(payer: *mut Handle, bytes: *mut u8, bytes_len: usize, needed: *mut usize) -> u32;
    /// Opens a closed handle with the payer that was saved as these bytes.
    pub fn lgm_payer_load(payer: *mut Handle, bytes: *const u8, bytes_len: usize) -> u32;
    /// Answers a peer's query_short_channel_ids or query_channel_range.
    pub fn lgm_query(
        map: *mut Handle,
        query: *const u8,
        query_len: usize,
        replies: *mut u8,
        replies_len: usize,
        needed: *mut usize,
    ) -> u32;
    /// Finds the messages of the map that pass a peer's gossip_timestamp_filter, to be sent when the filter arrives.
    pub fn lgm_filter(
        map: *mut Handle,
        filter: *const u8,
        filter_len: usize,
        messages: *mut u8,
        messages_len: usize,
        needed: *mut usize,
    ) -> u32;
    /// Finds the messages that pass the filter now and didn't at the mark, which are news to a peer.
    pub fn lgm_news(
        map: *mut Handle,
        filter: *const u8,
        filter_len: usize,
        messages: *mut u8,
        messages_len: usize,
        needed: *mut usize,
    ) -> u32;
    /// Finds the messages that pass the filter in a map and didn't in another, earlier one.
    pub fn lgm_news_between(
        before: *mut Handle,
        after: *mut Handle,
        filter: *const u8,
        filter_len: usize,
        messages: *mut u8,
        messages_len: usize,
        needed: *mut usize,
    ) -> u32;
    /// Moves the mark to the map as it is now, or sets the first mark, which takes no memory.
    pub fn lgm_mark(map: *mut Handle) -> u32;
    /// Writes the query_channel_range that asks a peer for the ids of its channels of `blocks` blocks from
    /// `first_block` on, and for the timestamps of their updates, and its length to `needed`.
    pub fn lgm_ask_range(
        map: *mut Handle,
        first_block: u32,
        blocks: u32,
        query: *mut u8,
        query_len: usize,
        needed: *mut usize,
    ) -> u32;
    /// Writes the gossip_timestamp_filter that asks a peer for gossip with timestamps from `first` on, for so many
    /// seconds, in the same way.
    pub fn lgm_ask_filter(
        map: *mut Handle,
        first: u32,
        seconds: u32,
        filter: *mut u8,
        filter_len: usize,
        needed: *mut usize,
    ) -> u32;
    /// Tells what the map lacks of the channels in a peer's reply_channel_range, by ascending id.
    pub fn lgm_lacking(
        map: *mut Handle,
        reply: *const u8,
        reply_len: usize,
        lacking: *mut Lacking,
        lacking_len: usize,
        needed: *mut usize,
    ) -> u32;
    /// Writes the query_short_channel_ids that asks a peer for what is lacking of the first LGM_MOST_IDS of these
    /// channels, or of all if there are fewer, and its length to `needed`.
    pub fn lgm_ask_ids(
        map: *mut Handle,
        lacking: *const Lacking,
        lacking_len: usize,
        query: *mut u8,
        query_len: usize,
        needed: *mut usize,
    ) -> u32;
    /// Moves the block up to which the replies to a query cover its range, exclusive, by one reply more.
    pub fn lgm_covered(map: *mut Handle, reply: *const u8, reply_len: usize, next: *mut u64) -> u32;
    /// Opens a closed handle with the map as it is now, with its view, for good.
    pub fn lgm_publish(map: *mut Handle, published: *mut Handle) -> u32;
    /// Opens a closed handle with what the one of a published map has.
    pub fn lgm_share(published: *mut Handle, other: *mut Handle) -> u32;
    /// How many messages, closes and bans the map has accepted, or had when it was published.
    pub fn lgm_version_of(map: *mut Handle) -> u64;
    /// Looks up a channel.
    pub fn lgm_channel(map: *mut Handle, scid: u64, channel: *mut Channel) -> u32;
    /// Looks up a node, and writes its addresses as they were announced, descriptors one after the other, and their
    /// length to `needed`.
    pub fn lgm_node(
        map: *mut Handle,
        point: *const [u8; 33],
        node: *mut Node,
        addresses: *mut u8,
        addresses_len: usize,
        needed: *mut usize,
    ) -> u32;
    /// Writes a message of a channel as it was received, and its length to `needed`.
    pub fn lgm_channel_message(
        map: *mut Handle,
        scid: u64,
        which: u32,
        message: *mut u8,
        message_len: usize,
        needed: *mut usize,
    ) -> u32;
    /// Writes the announcement of a node in the same way.
    pub fn lgm_node_message(
        map: *mut Handle,
        point: *const [u8; 33],
        message: *mut u8,
        message_len: usize,
        needed: *mut usize,
    ) -> u32;
    /// Go through the channels of a map by id, and by point, byte by byte, through its nodes with an announcement and
    /// through its banned nodes.
    pub fn lgm_next_channel(map: *mut Handle, is_first: bool, scid: *mut u64) -> u32;
    /// Go through the channels of a map by id, and by point, byte by byte, through its nodes with an announcement and
    /// through its banned nodes.
    pub fn lgm_next_node(map: *mut Handle, is_first: bool, point: *mut [u8; 33]) -> u32;
    /// Go through the channels of a map by id, and by point, byte by byte, through its nodes with an announcement and
    /// through its banned nodes.
    pub fn lgm_next_banned(map: *mut Handle, is_first: bool, point: *mut [u8; 33]) -> u32;
}
