// Made of include/lgm.h by python3 surface/make.py. Change that, and not this.
//! The numbers of `include/lgm.h`: limits, verdicts, and what calls return. Each fault is a constant of [`Fault`].

use crate::Fault;

/// The size of the longest word, with a zero after it.
pub const WORD_LEN: usize = 24;

/// A route has at most 20 hops, and its payloads fit an onion packet (BOLT 4).
pub const MOST_HOPS: usize = 20;

/// A route has at most 20 hops, and its payloads fit an onion packet (BOLT 4).
pub const MOST_PAYLOADS: usize = 1_300;

/// The most edges and limits of a call.
pub const MOST_EDGES: usize = 100_000;

/// The most edges and limits of a call.
pub const MOST_LIMITS: usize = 300_000;

/// The most steps and labels of a search, if the call doesn't say.
pub const MOST_STEPS: usize = 5_000_000;

/// The most steps and labels of a search, if the call doesn't say.
pub const MOST_LABELS: usize = 1_000_000;

/// The most channels of one query: with the flags of each it fits a message.
pub const MOST_IDS: usize = 7_000;

pub const OK: u32 = 0;

/// The route that was written may not be the best one, since labels or steps ran out.
pub const SO_FAR: u32 = 27;

/// No part is to be sent: all of the amount is under way, or the payee took it.
pub const WHOLE: u32 = 28;

/// All four are valid.
pub const SIG_ALL_FOUR: u32 = 0;

/// Not all four are valid.
pub const SIG_NOT_ALL_FOUR: u32 = 1;

/// The one signature is valid for the key `signer`.
pub const SIG_BY: u32 = 2;

/// It is valid for no key.
pub const SIG_NOBODY: u32 = 3;

pub const FUNDING_NOT_ASKED: u32 = 0;

/// It is unspent, pays to the 2-of-2 of the bitcoin keys, and holds `sat` satoshi.
pub const FUNDING_UNSPENT: u32 = 1;

pub const FUNDING_SPENT: u32 = 2;

/// It doesn't exist, or pays to something else.
pub const FUNDING_WRONG: u32 = 3;

/// Parts may be sent.
pub const STAGE_OPEN: u32 = 0;

/// Nothing more is sent.
pub const STAGE_ABANDONED: u32 = 1;

/// The payee took the whole.
pub const STAGE_PAID: u32 = 2;

/// It is under way, or has arrived if its payment is paid.
pub const PART_HELD: u32 = 0;

/// It failed, and no failure message could be read.
pub const PART_UNREADABLE: u32 = 1;

/// It failed with a failure message.
pub const PART_FAILED: u32 = 2;

/// What a fault is of.
#[derive(Clone, Copy, Debug, PartialEq, Eq)]
pub enum Kind {
    /// A message or a close is refused, for the first of these reasons (docs/script.md, "Refusals of items").
    Refused,
    /// A payment has no route, for the first of these reasons (docs/script.md, "Payments without a route").
    Unrouted,
    /// Why a payment has no route, the first of these that holds (lgm_no_route_reason).
    Reason,
    /// No part of a payment can be sent (lgm_payer_next). Parts that are under way are still to be waited for.
    Unpaid,
    /// A payer can't be told this of a payment.
    Untold,
    /// Why a message is malformed (lgm_fault_of; docs/protocol.md, "The first fault of a malformed message").
    FirstFault,
    /// The call can't do what it is for.
    Fault,
    /// An argument is wrong. Its word names it, and says what it may be.
    Argument,
}

impl Fault {
    /// It is no well-formed message, as lgm_fault_of says.
    pub const MALFORMED: Fault = Fault(1);

    /// It has an unknown even type.
    pub const UNKNOWN_EVEN: Fault = Fault(2);

    /// It has an unknown odd type.
    pub const IGNORED: Fault = Fault(3);

    /// It is a query, a reply or a filter.
    pub const NOT_GOSSIP: Fault = Fault(4);

    /// It is of another chain.
    pub const CHAIN: Fault = Fault(5);

    /// It names a node or a bitcoin key that is no compressed point.
    pub const POINT: Fault = Fault(6);

    /// It names its two nodes out of order, or the same node twice.
    pub const NODE_ORDER: Fault = Fault(7);

    /// It has `dont_forward` set.
    pub const PRIVATE: Fault = Fault(8);

    /// It has no valid unspent funding output of a possible size, or none was looked up.
    pub const FUNDING: Fault = Fault(9);

    /// It isn't signed as required.
    pub const SIGNATURE: Fault = Fault(10);

    /// The channel isn't in the map.
    pub const UNKNOWN_CHANNEL: Fault = Fault(11);

    /// The channel is in the map, between the same nodes.
    pub const KNOWN: Fault = Fault(12);

    /// The node has no channel in the map.
    pub const UNKNOWN_NODE: Fault = Fault(14);

    /// Its timestamp isn't above the one in the map.
    pub const NOT_NEWER: Fault = Fault(15);

    /// A node of it is banned.
    pub const BANNED: Fault = Fault(16);

    /// The payment is of 0 msat.
    pub const AMOUNT_ZERO: Fault = Fault(21);

    /// The payment is of more than 2,100,000,000,000,000,000 msat.
    pub const AMOUNT_TOO_LARGE: Fault = Fault(22);

    /// The payment expires above block 498,000,000.
    pub const EXPIRY_TOO_LARGE: Fault = Fault(23);

    /// The payer is the payee.
    pub const SELF_PAYMENT: Fault = Fault(24);

    /// There is no usable walk of 1 to 20 channels, within the limits.
    pub const NO_ROUTE: Fault = Fault(25);

    /// Labels or steps ran out before a route was found: it says nothing about the payment.
    pub const UNDECIDED: Fault = Fault(26);

    /// The message is neither a 261 nor a 263.
    pub const NOT_QUERY: Fault = Fault(31);

    /// The message isn't a 265.
    pub const NOT_FILTER: Fault = Fault(32);

    /// The map has no announcement of the node.
    pub const NOT_ANNOUNCED: Fault = Fault(33);

    /// The bytes aren't those of a saved map of this chain, payer or estimates, as they were written.
    pub const NOT_SAVED: Fault = Fault(34);

    /// The message isn't a 264.
    pub const NOT_REPLY: Fault = Fault(35);

    /// No edge leaves the payer.
    pub const PAYER_HAS_NO_CHANNEL: Fault = Fault(41);

    /// No edge leads to the payee, or it requires features that aren't known.
    pub const PAYEE_TAKES_NO_PAYMENT: Fault = Fault(42);

    /// No edge out of the payer carries the amount.
    pub const PAYER_LACKS_AMOUNT: Fault = Fault(43);

    /// No edge into the payee carries the amount.
    pub const PAYEE_LACKS_AMOUNT: Fault = Fault(44);

    /// Nothing connects the two for this amount.
    pub const UNCONNECTED: Fault = Fault(45);

    /// Nothing within the limit of the delay does.
    pub const BEYOND_DELAY: Fault = Fault(46);

    /// Nothing within the limit of the hops does.
    pub const BEYOND_HOPS: Fault = Fault(47);

    /// Nothing within both limits does.
    pub const BEYOND_BOTH: Fault = Fault(48);

    /// It has more than 65,535 bytes.
    pub const FAULT_LONG: Fault = Fault(51);

    /// It has fewer than the two bytes of a type.
    pub const FAULT_SHORT: Fault = Fault(52);

    /// It ends before its fields do.
    pub const FAULT_CUT: Fault = Fault(53);

    /// Encoded ids, query flags or timestamps begin with a byte other than 0.
    pub const FAULT_ENCODING: Fault = Fault(54);

    /// Encoded ids aren't of eight bytes each.
    pub const FAULT_IDS: Fault = Fault(55);

    /// Its TLV stream ends inside a record.
    pub const FAULT_TLV_CUT: Fault = Fault(56);

    /// A number of the stream isn't in its shortest form.
    pub const FAULT_TLV_NOT_MINIMAL: Fault = Fault(57);

    /// A record's type isn't above the one before.
    pub const FAULT_TLV_ORDER: Fault = Fault(59);

    /// A record's type is even and unknown, or 1 and the record malformed.
    pub const FAULT_TLV_KIND: Fault = Fault(60);

    /// Query flags aren't one for each id.
    pub const FAULT_FLAGS: Fault = Fault(61);

    /// The cheapest route has a fee beyond what the bound leaves.
    pub const TOO_DEAR: Fault = Fault(71);

    /// The payer's channels can't send what is left, in however many parts.
    pub const CHANNELS_SHORT: Fault = Fault(72);

    /// The edges into the payee can't carry what is left, in however many parts.
    pub const PAYEE_SHORT: Fault = Fault(73);

    /// As many parts as the bound allows were sent.
    pub const TRIES_USED_UP: Fault = Fault(74);

    /// The payee returned a failure that no other try mends.
    pub const PAYEE_REFUSED: Fault = Fault(75);

    /// The payment was abandoned.
    pub const ABANDONED: Fault = Fault(76);

    /// The paths from the payer to the payee can't carry what is left, in however many parts.
    pub const PATHS_SHORT: Fault = Fault(77);

    /// No payment has this number: none was begun with it, or it was forgotten.
    pub const UNKNOWN_PAYMENT: Fault = Fault(81);

    /// The payment has no part with this number.
    pub const UNKNOWN_PART: Fault = Fault(82);

    /// The part isn't under way: it failed before, or has arrived.
    pub const NOT_UNDER_WAY: Fault = Fault(83);

    /// The failure is said to be of a node beyond the part's route.
    pub const BEYOND_ROUTE: Fault = Fault(84);

    /// The node at this place doesn't send this failure code.
    pub const FOREIGN_CODE: Fault = Fault(85);

    /// Nothing of the payment is under way, so the payee can't have taken it.
    pub const NOTHING_UNDER_WAY: Fault = Fault(86);

    /// The payee took the whole before.
    pub const ALREADY_PAID: Fault = Fault(87);

    /// Parts of the payment are under way, so it can't be forgotten.
    pub const UNDER_WAY: Fault = Fault(88);

    /// One of the payer's channels, as they were told, doesn't leave the payer.
    pub const FOREIGN_CHANNEL: Fault = Fault(89);

    /// The payer's channels are said to reckon parts that weren't sent yet.
    pub const RECKONED_AHEAD: Fault = Fault(90);

    /// The payer's channels don't reckon parts of a paid payment that was forgotten.
    pub const RECKONED_BEFORE: Fault = Fault(91);

    /// The bound allows no part to be under way.
    pub const NO_PARTS: Fault = Fault(92);

    /// 2^64 - 1 payments were begun, or parts sent.
    pub const NUMBERS_USED_UP: Fault = Fault(93);

    /// The handle is closed.
    pub const CLOSED: Fault = Fault(100);

    /// The handle is open already.
    pub const OPEN: Fault = Fault(101);

    /// Out of memory: the same call may be made again.
    pub const NO_MEMORY: Fault = Fault(102);

    /// A buffer is too short: the lengths that are needed were written.
    pub const ROOM: Fault = Fault(104);

    /// The map has more than 2,000,000,000 channels, too many for a route search.
    pub const FULL: Fault = Fault(105);

    /// The map was published, so it doesn't change.
    pub const PUBLISHED: Fault = Fault(106);

    /// No id or point above the given one, no such update, or no edge of which something is known.
    pub const NONE: Fault = Fault(107);

    /// `sig` isn't 0 to 3.
    pub const ARGUMENT_SIG: Fault = Fault(110);

    /// `funding` isn't 0 to 3.
    pub const ARGUMENT_FUNDING: Fault = Fault(111);

    /// There are more than LGM_MOST_EDGES edges.
    pub const ARGUMENT_EDGES: Fault = Fault(112);

    /// There are more than LGM_MOST_LIMITS limits.
    pub const ARGUMENT_LIMITS: Fault = Fault(113);

    /// An edge's `htlc_maximum_msat` is 0, so it would carry nothing.
    pub const ARGUMENT_MAXIMUM: Fault = Fault(114);

    /// The map isn't a published one.
    pub const ARGUMENT_PUBLISHED: Fault = Fault(115);

    /// The hops aren't 1 to 20 that follow one another.
    pub const ARGUMENT_HOPS: Fault = Fault(116);

    /// A record's type is below 65,536.
    pub const ARGUMENT_RECORD_TYPE: Fault = Fault(117);

    /// A record's type isn't above the one before.
    pub const ARGUMENT_RECORD_ORDER: Fault = Fault(118);

    /// The payloads don't fit an onion packet.
    pub const ARGUMENT_PAYLOADS: Fault = Fault(119);

    /// `which` isn't 0, 1 or 2.
    pub const ARGUMENT_WHICH: Fault = Fault(120);

    /// What it is of; `None` of a number that is no fault.
    pub const fn kind(self) -> Option<Kind> {
        match self.0 {
            1..=16 => Some(Kind::Refused),
            21..=25 => Some(Kind::Unrouted),
            41..=48 => Some(Kind::Reason),
            71..=77 => Some(Kind::Unpaid),
            81..=93 => Some(Kind::Untold),
            51..=61 => Some(Kind::FirstFault),
            26 | 31..=35 | 100..=102 | 104..=107 => Some(Kind::Fault),
            110..=120 => Some(Kind::Argument),
            _ => None,
        }
    }

    /// Its word, such as `not-newer`, as a string of the program; empty of a number that no call returns.
    pub const fn text(self) -> &'static str {
        match self.0 {
            0 => "accepted",
            1 => "malformed",
            2 => "unknown-even",
            3 => "ignored",
            4 => "not-gossip",
            5 => "chain",
            6 => "point",
            7 => "node-order",
            8 => "private",
            9 => "funding",
            10 => "signature",
            11 => "unknown-channel",
            12 => "known",
            13 => "conflict",
            14 => "unknown-node",
            15 => "not-newer",
            16 => "banned",
            21 => "amount-zero",
            22 => "amount-too-large",
            23 => "expiry-too-large",
            24 => "self-payment",
            25 => "no-route",
            26 => "undecided",
            27 => "so-far",
            28 => "whole",
            31 => "not-query",
            32 => "not-filter",
            33 => "not-announced",
            34 => "not-saved",
            35 => "not-reply",
            41 => "payer-has-no-channel",
            42 => "payee-takes-no-payment",
            43 => "payer-lacks-amount",
            44 => "payee-lacks-amount",
            45 => "unconnected",
            46 => "beyond-delay",
            47 => "beyond-hops",
            48 => "beyond-both",
            51 => "long",
            52 => "short",
            53 => "cut",
            54 => "encoding",
            55 => "ids",
            56 => "tlv-cut",
            57 => "tlv-not-minimal",
            58 => "tlv-too-long",
            59 => "tlv-order",
            60 => "tlv-kind",
            61 => "flags",
            71 => "too-dear",
            72 => "channels-short",
            73 => "payee-short",
            74 => "tries-used-up",
            75 => "payee-refused",
            76 => "abandoned",
            77 => "paths-short",
            81 => "unknown-payment",
            82 => "unknown-part",
            83 => "not-under-way",
            84 => "beyond-route",
            85 => "foreign-code",
            86 => "nothing-under-way",
            87 => "already-paid",
            88 => "under-way",
            89 => "foreign-channel",
            90 => "reckoned-ahead",
            91 => "reckoned-before",
            92 => "no-parts",
            93 => "numbers-used-up",
            100 => "closed",
            101 => "open",
            102 => "no-memory",
            104 => "room",
            105 => "full",
            106 => "published",
            107 => "none",
            110 => "sig: 0 to 3",
            111 => "funding: 0 to 3",
            112 => "edges: at most 100,000",
            113 => "limits: at most 300,000",
            114 => "edge: a maximum of 0",
            115 => "published: not one",
            116 => "hops: no route",
            117 => "record: type < 65,536",
            118 => "records: not ascending",
            119 => "payloads: too long",
            120 => "which: 0, 1 or 2",
            _ => "",
        }
    }

    /// What it means, as the header says it; empty of a number that no call returns.
    pub const fn meaning(self) -> &'static str {
        match self.0 {
            1 => "it is no well-formed message, as lgm_fault_of says",
            2 => "it has an unknown even type",
            3 => "it has an unknown odd type",
            4 => "it is a query, a reply or a filter",
            5 => "it is of another chain",
            6 => "it names a node or a bitcoin key that is no compressed point",
            7 => "it names its two nodes out of order, or the same node twice",
            8 => "it has `dont_forward` set",
            9 => "it has no valid unspent funding output of a possible size, or none was looked up",
            10 => "it isn't signed as required",
            11 => "the channel isn't in the map",
            12 => "the channel is in the map, between the same nodes",
            13 => "never returned: contradicting announcements of a channel ban the nodes of both.",
            14 => "the node has no channel in the map",
            15 => "its timestamp isn't above the one in the map",
            16 => "a node of it is banned",
            21 => "the payment is of 0 msat",
            22 => "the payment is of more than 2,100,000,000,000,000,000 msat",
            23 => "the payment expires above block 498,000,000",
            24 => "the payer is the payee",
            25 => "there is no usable walk of 1 to 20 channels, within the limits",
            26 => "labels or steps ran out before a route was found: it says nothing about the payment",
            27 => "the route that was written may not be the best one, since labels or steps ran out",
            28 => "no part is to be sent: all of the amount is under way, or the payee took it",
            31 => "the message is neither a 261 nor a 263",
            32 => "the message isn't a 265",
            33 => "the map has no announcement of the node",
            34 => "the bytes aren't those of a saved map of this chain, payer or estimates, as they were written",
            35 => "the message isn't a 264",
            41 => "no edge leaves the payer",
            42 => "no edge leads to the payee, or it requires features that aren't known",
            43 => "no edge out of the payer carries the amount",
            44 => "no edge into the payee carries the amount",
            45 => "nothing connects the two for this amount",
            46 => "nothing within the limit of the delay does",
            47 => "nothing within the limit of the hops does",
            48 => "nothing within both limits does",
            51 => "it has more than 65,535 bytes",
            52 => "it has fewer than the two bytes of a type",
            53 => "it ends before its fields do",
            54 => "encoded ids, query flags or timestamps begin with a byte other than 0",
            55 => "encoded ids aren't of eight bytes each",
            56 => "its TLV stream ends inside a record",
            57 => "a number of the stream isn't in its shortest form",
            58 => "never returned.",
            59 => "a record's type isn't above the one before",
            60 => "a record's type is even and unknown, or 1 and the record malformed",
            61 => "query flags aren't one for each id",
            71 => "the cheapest route has a fee beyond what the bound leaves",
            72 => "the payer's channels can't send what is left, in however many parts",
            73 => "the edges into the payee can't carry what is left, in however many parts",
            74 => "as many parts as the bound allows were sent",
            75 => "the payee returned a failure that no other try mends",
            76 => "the payment was abandoned",
            77 => "the paths from the payer to the payee can't carry what is left, in however many parts",
            81 => "no payment has this number: none was begun with it, or it was forgotten",
            82 => "the payment has no part with this number",
            83 => "the part isn't under way: it failed before, or has arrived",
            84 => "the failure is said to be of a node beyond the part's route",
            85 => "the node at this place doesn't send this failure code",
            86 => "nothing of the payment is under way, so the payee can't have taken it",
            87 => "the payee took the whole before",
            88 => "parts of the payment are under way, so it can't be forgotten",
            89 => "one of the payer's channels, as they were told, doesn't leave the payer",
            90 => "the payer's channels are said to reckon parts that weren't sent yet",
            91 => "the payer's channels don't reckon parts of a paid payment that was forgotten",
            92 => "the bound allows no part to be under way",
            93 => "2^64 - 1 payments were begun, or parts sent",
            100 => "the handle is closed",
            101 => "the handle is open already",
            102 => "out of memory: the same call may be made again",
            104 => "a buffer is too short: the lengths that are needed were written",
            105 => "the map has more than 2,000,000,000 channels, too many for a route search",
            106 => "the map was published, so it doesn't change",
            107 => "no id or point above the given one, no such update, or no edge of which something is known",
            110 => "`sig` isn't 0 to 3",
            111 => "`funding` isn't 0 to 3",
            112 => "there are more than LGM_MOST_EDGES edges",
            113 => "there are more than LGM_MOST_LIMITS limits",
            114 => "an edge's `htlc_maximum_msat` is 0, so it would carry nothing",
            115 => "the map isn't a published one",
            116 => "the hops aren't 1 to 20 that follow one another",
            117 => "a record's type is below 65,536",
            118 => "a record's type isn't above the one before",
            119 => "the payloads don't fit an onion packet",
            120 => "`which` isn't 0, 1 or 2",
            _ => "",
        }
    }
}
