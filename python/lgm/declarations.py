# Made of include/lgm.h by python3 surface/make.py. Change that, and not this.
"""The declarations of include/lgm.h, for ctypes and `struct`."""

from __future__ import annotations

import ctypes
from struct import Struct
from typing import Any, Dict, List, Tuple

VERSION = 5
WORD_LEN = 24
MOST_HOPS = 20
MOST_PAYLOADS = 1300
MOST_EDGES = 100000
MOST_LIMITS = 300000
MOST_STEPS = 5000000
MOST_LABELS = 1000000
MOST_IDS = 7000

OK = 0
SO_FAR = 27  # the route that was written may not be the best one, since labels or steps ran out
WHOLE = 28  # no part is to be sent: all of the amount is under way, or the payee took it
SIG_ALL_FOUR = 0  # all four are valid
SIG_NOT_ALL_FOUR = 1  # not all four are valid
SIG_BY = 2  # the one signature is valid for the key `signer`
SIG_NOBODY = 3  # it is valid for no key
FUNDING_NOT_ASKED = 0
FUNDING_UNSPENT = 1  # it is unspent, pays to the 2-of-2 of the bitcoin keys, and holds `sat` satoshi
FUNDING_SPENT = 2
FUNDING_WRONG = 3  # it doesn't exist, or pays to something else
STAGE_OPEN = 0  # parts may be sent
STAGE_ABANDONED = 1  # nothing more is sent
STAGE_PAID = 2  # the payee took the whole
PART_HELD = 0  # it is under way, or has arrived if its payment is paid
PART_UNREADABLE = 1  # it failed, and no failure message could be read
PART_FAILED = 2  # it failed with a failure message

# The structs, in this machine's layout. One in another has its members there.
# lgm_map: is_open, at
MAP = Struct("@?P0P")
# lgm_signed: scid, signed_from, block, transaction, output, type, has_scid, is_second, signatures, key_1, key_2, key_3,
# key_4
SIGNED = Struct("@QNIIHH??B33s33s33s33s0Q")
# lgm_pruned: scid, timestamp
PRUNED = Struct("@QI0Q")
# lgm_payment: amount_msat, expiry, payer, payee, secret
PAYMENT = Struct("@QI33s33s32s0Q")
# lgm_hop: scid, amount_msat, payload_len, expiry, from, to
HOP = Struct("@QQNI33s33s0Q")
# lgm_lengths: hops, payloads
LENGTHS = Struct("@NN0N")
# lgm_record: type, value, value_len
RECORD = Struct("@QPN0Q")
# lgm_arrival: total_msat, metadata, metadata_len, records, records_len, secret
ARRIVAL = Struct("@QPNPN32s0Q")
# lgm_estimates: is_open, at
ESTIMATES = Struct("@?P0P")
# lgm_estimate_info: least_msat, most_msat, penalty_msat
ESTIMATE = Struct("@QQQ0Q")
# lgm_edge: scid, htlc_minimum_msat, htlc_maximum_msat, fee_base_msat, fee_proportional_millionths, cltv_expiry_delta,
# from, to
EDGE = Struct("@QQQIIH33s33s0Q")
# lgm_limit: scid, most_msat, from
LIMIT = Struct("@QQ33s0Q")
# lgm_point: point
POINT = Struct("@33s0B")
# lgm_search: most_steps, most_labels, failure_msat, hop_msat, most_delay, most_hops
SEARCH = Struct("@QNIIHB0Q")
# lgm_attempt: payment (lgm_payment), edges, edges_len, limits, limits_len, silent, silent_len, search (lgm_search)
ATTEMPT = Struct("@0QQI33s33s32s0QPNPNPN0QQNIIHB0Q0Q")
# lgm_payer: is_open, at
PAYER = Struct("@?P0P")
# lgm_invoice: amount_msat, hints, hints_len, metadata, metadata_len, records, records_len, min_final_cltv_expiry_delta,
# basic_mpp, payee, secret
INVOICE = Struct("@QPNPNPNH?33s32s0Q")
# lgm_bounds: most_fee_msat, least_part_msat, most_tries, most_parts, most_blocks
BOUNDS = Struct("@QQNNH0Q")
# lgm_sight: channels, channels_len, reckoned, most_steps, most_labels, height, failure_msat, hop_msat, prefers
SIGHT = Struct("@PNQQNIII?0Q")
# lgm_part: part, amount_msat, fee_msat, detail, lengths (lgm_lengths), odds, blocks, is_best
PART = Struct("@QQQQ0NNN0NII?0Q")
# lgm_payment_info: amount_msat, left_msat, fee_msat, parts, parts_held, stage
PAYMENT_INFO = Struct("@QQQNNI0Q")
# lgm_part_info: part, amount_msat, fee_msat, hops, blocks, ending, code, place
PART_INFO = Struct("@QQQNIIHB0Q")
# lgm_lacking_info: scid, timestamp_1, timestamp_2, flags
LACKING = Struct("@QIIB0Q")
# lgm_direction: is_held, message_flags, channel_flags, cltv_expiry_delta, timestamp, fee_base_msat,
# fee_proportional_millionths, htlc_minimum_msat, htlc_maximum_msat
DIRECTION = Struct("@?BBHIIIQQ0Q")
# lgm_channel_info: capacity_sat, node_1, node_2, from_1 (lgm_direction), from_2 (lgm_direction)
CHANNEL = Struct("@Q33s33s0Q?BBHIIIQQ0Q0Q?BBHIIIQQ0Q0Q")
# lgm_node_info: timestamp, rgb, alias
NODE = Struct("@I3s32s0I")

# Bytes that a call reads, the address of what it may write to, and numbers.
BYTES, AT, BOOL = ctypes.c_char_p, ctypes.c_void_p, ctypes.c_bool
U8, U16, U32, U64, SIZE = ctypes.c_uint8, ctypes.c_uint16, ctypes.c_uint32, ctypes.c_uint64, ctypes.c_size_t

# The calls, each with its result and its arguments.
CALLS: Dict[str, Tuple[Any, List[Any]]] = {
    "lgm_version": (U32, []),
    "lgm_word": (None, [U32, AT]),
    "lgm_open": (U32, [AT, BYTES, BOOL, BYTES, SIZE, BYTES]),
    "lgm_free": (None, [AT]),
    "lgm_save": (U32, [AT, AT, SIZE, AT]),
    "lgm_load": (U32, [AT, BYTES, BOOL, BYTES, SIZE, BYTES, BYTES, SIZE]),
    "lgm_offer": (U32, [AT, BYTES, SIZE, U32, BYTES, U32, U64]),
    "lgm_wanted": (U32, [AT, BYTES, SIZE, AT]),
    "lgm_fault_of": (U32, [BYTES, SIZE]),
    "lgm_reads": (U32, [BYTES, SIZE, AT]),
    "lgm_close_channel": (U32, [AT, U64]),
    "lgm_ban": (U32, [AT, BYTES]),
    "lgm_prune": (U32, [AT, U32, U32, AT, SIZE, AT]),
    "lgm_count": (SIZE, [AT]),
    "lgm_route": (U32, [AT, BYTES, AT, SIZE, AT, SIZE, AT]),
    "lgm_payloads": (U32, [BYTES, AT, SIZE, AT, SIZE, AT]),
    "lgm_estimates_open": (U32, [AT]),
    "lgm_estimates_free": (None, [AT]),
    "lgm_estimate": (U32, [AT, U64, BYTES, AT]),
    "lgm_estimates_set": (U32, [AT, U64, BYTES, BYTES]),
    "lgm_estimates_carried": (U32, [AT, U64, BYTES, U64]),
    "lgm_estimates_failed": (U32, [AT, U64, BYTES, U64]),
    "lgm_estimates_forget": (U32, [AT, U64, BYTES]),
    "lgm_estimates_count": (SIZE, [AT]),
    "lgm_estimates_at": (U32, [AT, SIZE, AT, AT, AT]),
    "lgm_estimates_fade": (U32, [AT, AT, U32, U32]),
    "lgm_estimates_save": (U32, [AT, AT, SIZE, AT]),
    "lgm_estimates_load": (U32, [AT, BYTES, SIZE]),
    "lgm_attempt_route": (U32, [AT, BYTES, AT, AT, SIZE, AT, SIZE, AT]),
    "lgm_no_route_reason": (U32, [AT, BYTES]),
    "lgm_odds": (U32, [AT, BYTES, AT, BYTES, SIZE, AT]),
    "lgm_payer_open": (U32, [AT, BYTES, AT]),
    "lgm_payer_free": (None, [AT]),
    "lgm_payer_begin": (U32, [AT, BYTES, BYTES, AT]),
    "lgm_payer_next": (U32, [AT, AT, U64, BYTES, AT, AT, SIZE, AT, SIZE]),
    "lgm_payer_failed": (U32, [AT, U64, U64, U8, U16, BOOL]),
    "lgm_payer_unreadable": (U32, [AT, U64, U64]),
    "lgm_payer_fulfilled": (U32, [AT, U64]),
    "lgm_payer_abandon": (U32, [AT, U64]),
    "lgm_payer_forget": (U32, [AT, U64]),
    "lgm_payer_fade": (U32, [AT, AT, U32, U32]),
    "lgm_payer_learnt": (U32, [AT, AT]),
    "lgm_payer_sent": (U64, [AT]),
    "lgm_payer_payment": (U32, [AT, U64, AT]),
    "lgm_payer_next_payment": (U32, [AT, BOOL, AT]),
    "lgm_payer_part": (U32, [AT, U64, SIZE, AT, AT, SIZE]),
    "lgm_payer_save": (U32, [AT, AT, SIZE, AT]),
    "lgm_payer_load": (U32, [AT, BYTES, SIZE]),
    "lgm_query": (U32, [AT, BYTES, SIZE, AT, SIZE, AT]),
    "lgm_filter": (U32, [AT, BYTES, SIZE, AT, SIZE, AT]),
    "lgm_news": (U32, [AT, BYTES, SIZE, AT, SIZE, AT]),
    "lgm_news_between": (U32, [AT, AT, BYTES, SIZE, AT, SIZE, AT]),
    "lgm_mark": (U32, [AT]),
    "lgm_ask_range": (U32, [AT, U32, U32, AT, SIZE, AT]),
    "lgm_ask_filter": (U32, [AT, U32, U32, AT, SIZE, AT]),
    "lgm_lacking": (U32, [AT, BYTES, SIZE, AT, SIZE, AT]),
    "lgm_ask_ids": (U32, [AT, BYTES, SIZE, AT, SIZE, AT]),
    "lgm_covered": (U32, [AT, BYTES, SIZE, AT]),
    "lgm_publish": (U32, [AT, AT]),
    "lgm_share": (U32, [AT, AT]),
    "lgm_version_of": (U64, [AT]),
    "lgm_channel": (U32, [AT, U64, AT]),
    "lgm_node": (U32, [AT, BYTES, AT, AT, SIZE, AT]),
    "lgm_channel_message": (U32, [AT, U64, U32, AT, SIZE, AT]),
    "lgm_node_message": (U32, [AT, BYTES, AT, SIZE, AT]),
    "lgm_next_channel": (U32, [AT, BOOL, AT]),
    "lgm_next_node": (U32, [AT, BOOL, AT]),
    "lgm_next_banned": (U32, [AT, BOOL, AT]),
}

# The word of each number that a call returns.
WORDS: Dict[int, str] = {
    0: "accepted",
    1: "malformed",
    2: "unknown-even",
    3: "ignored",
    4: "not-gossip",
    5: "chain",
    6: "point",
    7: "node-order",
    8: "private",
    9: "funding",
    10: "signature",
    11: "unknown-channel",
    12: "known",
    13: "conflict",
    14: "unknown-node",
    15: "not-newer",
    16: "banned",
    21: "amount-zero",
    22: "amount-too-large",
    23: "expiry-too-large",
    24: "self-payment",
    25: "no-route",
    26: "undecided",
    27: "so-far",
    28: "whole",
    31: "not-query",
    32: "not-filter",
    33: "not-announced",
    34: "not-saved",
    35: "not-reply",
    41: "payer-has-no-channel",
    42: "payee-takes-no-payment",
    43: "payer-lacks-amount",
    44: "payee-lacks-amount",
    45: "unconnected",
    46: "beyond-delay",
    47: "beyond-hops",
    48: "beyond-both",
    51: "long",
    52: "short",
    53: "cut",
    54: "encoding",
    55: "ids",
    56: "tlv-cut",
    57: "tlv-not-minimal",
    58: "tlv-too-long",
    59: "tlv-order",
    60: "tlv-kind",
    61: "flags",
    71: "too-dear",
    72: "channels-short",
    73: "payee-short",
    74: "tries-used-up",
    75: "payee-refused",
    76: "abandoned",
    77: "paths-short",
    81: "unknown-payment",
    82: "unknown-part",
    83: "not-under-way",
    84: "beyond-route",
    85: "foreign-code",
    86: "nothing-under-way",
    87: "already-paid",
    88: "under-way",
    89: "foreign-channel",
    90: "reckoned-ahead",
    91: "reckoned-before",
    92: "no-parts",
    93: "numbers-used-up",
    100: "closed",
    101: "open",
    102: "no-memory",
    104: "room",
    105: "full",
    106: "published",
    107: "none",
    110: "sig: 0 to 3",
    111: "funding: 0 to 3",
    112: "edges: at most 100,000",
    113: "limits: at most 300,000",
    114: "edge: a maximum of 0",
    115: "published: not one",
    116: "hops: no route",
    117: "record: type < 65,536",
    118: "records: not ascending",
    119: "payloads: too long",
    120: "which: 0, 1 or 2",
}
