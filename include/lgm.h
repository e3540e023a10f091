/*
 * lgm: a verified map of Lightning gossip, with routes over it, as a library.
 *
 * A handle (lgm_map) has the map of one chain. The caller offers gossip messages to it, with verdicts on their signatures
 * and funding outputs. It finds routes for payments, with their payloads, and answers the queries and filters of peers.
 * A published map has what a map had when lgm_publish made it, for good: each thread that is to read while another one
 * extends the map has a handle of it. The same calls answer of both, but those that change a map return LGM_PUBLISHED of a
 * published one. Handles of other kinds have what was learnt of edges (lgm_estimates), and a payer with its payments
 * (lgm_payer). docs/embedding.md is a guide; docs/protocol.md has the rules.
 *
 * What is proved holds for callers that meet these conditions, which nothing checks:
 *
 *   - Every pointer is valid for its type, and not null, even where what it points to is ignored: anything else is
 *     undefined behavior.
 *   - A pointer followed by a length points to at least that many items, in one object of at most PTRDIFF_MAX bytes. With
 *     the length 0 it may be null: the compiled code then takes it for a pointer to no items, as tests show.
 *   - While a call runs, nothing else reads or writes what it may write to, and no two of its arguments overlap there.
 *   - A handle is initialized with zeros, {0}, and then only written by calls.
 *   - A handle isn't copied. It may be moved, if the old place isn't used any more.
 *   - A handle is used by one call at a time, from any thread: what it holds is proved to be `Send`. Calls from different
 *     threads on one handle are ordered by a lock, a thread's start or join, or a sequentially consistent atomic.
 *     Different handles need no order, also those that share a published map.
 *   - An open handle is freed by lgm_free, lgm_estimates_free or lgm_payer_free before it goes out of scope; otherwise its
 *     memory leaks.
 *   - A bool is true or false.
 *   - malloc, realloc and free are those of one allocator, and behave as the C standard says.
 *   - No call is made from a signal handler, or in the child of a fork of a process with threads.
 *
 * Amounts are in msat (1000 msat are a satoshi), expiries are block heights, timestamps are seconds since 1970. A point
 * is a compressed public key, 33 bytes. A short_channel_id is a number: the block in its upper 24 bits, the index of the
 * transaction in the next 24, the output in the last 16.
 *
 * A call's comment ends with the numbers that it returns beside LGM_OK, of which the first that holds is returned. What it
 * costs is said with n channels in the map; where nothing is said, it is constant.
 */
#ifndef LGM_H
#define LGM_H

/*
 * Of this header surface/make.py makes the declarations for Python and Rust and tables of docs, and ./package the manual
 * pages. surface/header.py says how it is read.
 */

#include <stdbool.h>
#include <stddef.h>
#include <stdint.h>

#ifdef __cplusplus
extern "C" {
#endif

/*
 * What a call returns: LGM_OK, LGM_SO_FAR, LGM_WHOLE, or the number of the first fault. After a fault the map is unchanged, or
 * the payer, or what is known of edges, and so are the buffers, except for the lengths that are written with LGM_ROOM, the node
 * of lgm_node, the `detail` of lgm_payer_next, and what lgm_prune had closed when memory ran out. LGM_SO_FAR is no fault: the
 * buffers are written as with LGM_OK.
 *
 * LGM_NO_MEMORY comes only if the call would have succeeded, or returned LGM_ROOM, or was to search for a route, to make
 * payloads, to open what was saved, or to decode a query or a reply with lists: any other fault is returned even if memory is
 * short. lgm_filter returns LGM_ROOM even then.
 */
enum {
    /* Done: the call has done what it is for. */
    LGM_OK = 0,
    LGM_SO_FAR = 27, /* the route that was written may not be the best one, since labels or steps ran out */
    LGM_WHOLE = 28,  /* no part is to be sent: all of the amount is under way, or the payee took it */

    /* Refused: a message or a close is refused, for the first of these reasons (docs/script.md, "Refusals of items"). */
    LGM_MALFORMED = 1,        /* it is no well-formed message, as lgm_fault_of says */
    LGM_UNKNOWN_EVEN = 2,     /* it has an unknown even type */
    LGM_IGNORED = 3,          /* it has an unknown odd type */
    LGM_NOT_GOSSIP = 4,       /* it is a query, a reply or a filter */
    LGM_CHAIN = 5,            /* it is of another chain */
    LGM_POINT = 6,            /* it names a node or a bitcoin key that is no compressed point */
    LGM_NODE_ORDER = 7,       /* it names its two nodes out of order, or the same node twice */
    LGM_PRIVATE = 8,          /* it has `dont_forward` set */
    LGM_FUNDING = 9,          /* it has no valid unspent funding output of a possible size, or none was looked up */
    LGM_SIGNATURE = 10,       /* it isn't signed as required */
    LGM_UNKNOWN_CHANNEL = 11, /* the channel isn't in the map */
    LGM_KNOWN = 12,           /* the channel is in the map, between the same nodes */
    /* 13 is never returned: contradicting announcements of a channel ban the nodes of both. */
    LGM_UNKNOWN_NODE = 14,    /* the node has no channel in the map */
    LGM_NOT_NEWER = 15,       /* its timestamp isn't above the one in the map */
    LGM_BANNED = 16,          /* a node of it is banned */

    /* Unrouted: a payment has no route, for the first of these reasons (docs/script.md, "Payments without a route"). */
    LGM_AMOUNT_ZERO = 21,      /* the payment is of 0 msat */
    LGM_AMOUNT_TOO_LARGE = 22, /* the payment is of more than 2,100,000,000,000,000,000 msat */
    LGM_EXPIRY_TOO_LARGE = 23, /* the payment expires above block 498,000,000 */
    LGM_SELF_PAYMENT = 24,     /* the payer is the payee */
    LGM_NO_ROUTE = 25,         /* there is no usable walk of 1 to 20 channels, within the limits */

    /* Reason: why a payment has no route, the first of these that holds (lgm_no_route_reason). */
    LGM_PAYER_HAS_NO_CHANNEL = 41,   /* no edge leaves the payer */
    LGM_PAYEE_TAKES_NO_PAYMENT = 42, /* no edge leads to the payee, or it requires features that aren't known */
    LGM_PAYER_LACKS_AMOUNT = 43,     /* no edge out of the payer carries the amount */
    LGM_PAYEE_LACKS_AMOUNT = 44,     /* no edge into the payee carries the amount */
    LGM_UNCONNECTED = 45,            /* nothing connects the two for this amount */
    LGM_BEYOND_DELAY = 46,           /* nothing within the limit of the delay does */
    LGM_BEYOND_HOPS = 47,            /* nothing within the limit of the hops does */
    LGM_BEYOND_BOTH = 48,            /* nothing within both limits does */

    /* Unpaid: no part of a payment can be sent (lgm_payer_next). Parts that are under way are still to be waited for. */
    LGM_TOO_DEAR = 71,       /* the cheapest route has a fee beyond what the bound leaves */
    LGM_CHANNELS_SHORT = 72, /* the payer's channels can't send what is left, in however many parts */
    LGM_PAYEE_SHORT = 73,    /* the edges into the payee can't carry what is left, in however many parts */
    LGM_TRIES_USED_UP = 74,  /* as many parts as the bound allows were sent */
    LGM_PAYEE_REFUSED = 75,  /* the payee returned a failure that no other try mends */
    LGM_ABANDONED = 76,      /* the payment was abandoned */
    LGM_PATHS_SHORT = 77,    /* the paths from the payer to the payee can't carry what is left, in however many parts */

    /* Untold: a payer can't be told this of a payment. */
    LGM_UNKNOWN_PAYMENT = 81,   /* no payment has this number: none was begun with it, or it was forgotten */
    LGM_UNKNOWN_PART = 82,      /* the payment has no part with this number */
    LGM_NOT_UNDER_WAY = 83,     /* the part isn't under way: it failed before, or has arrived */
    LGM_BEYOND_ROUTE = 84,      /* the failure is said to be of a node beyond the part's route */
    LGM_FOREIGN_CODE = 85,      /* the node at this place doesn't send this failure code */
    LGM_NOTHING_UNDER_WAY = 86, /* nothing of the payment is under way, so the payee can't have taken it */
    LGM_ALREADY_PAID = 87,      /* the payee took the whole before */
    LGM_UNDER_WAY = 88,         /* parts of the payment are under way, so it can't be forgotten */
    LGM_FOREIGN_CHANNEL = 89,   /* one of the payer's channels, as they were told, doesn't leave the payer */
    LGM_RECKONED_AHEAD = 90,    /* the payer's channels are said to reckon parts that weren't sent yet */
    LGM_RECKONED_BEFORE = 91,   /* the payer's channels don't reckon parts of a paid payment that was forgotten */
    LGM_NO_PARTS = 92,          /* the bound allows no part to be under way */
    LGM_NUMBERS_USED_UP = 93,   /* 2^64 - 1 payments were begun, or parts sent */

    /* First fault: why a message is malformed (lgm_fault_of; docs/protocol.md, "The first fault of a malformed message"). */
    LGM_FAULT_LONG = 51,            /* it has more than 65,535 bytes */
    LGM_FAULT_SHORT = 52,           /* it has fewer than the two bytes of a type */
    LGM_FAULT_CUT = 53,             /* it ends before its fields do */
    LGM_FAULT_ENCODING = 54,        /* encoded ids, query flags or timestamps begin with a byte other than 0 */
    LGM_FAULT_IDS = 55,             /* encoded ids aren't of eight bytes each */
    LGM_FAULT_TLV_CUT = 56,         /* its TLV stream ends inside a record */
    LGM_FAULT_TLV_NOT_MINIMAL = 57, /* a number of the stream isn't in its shortest form */
    /* 58 is never returned. */
    LGM_FAULT_TLV_ORDER = 59,       /* a record's type isn't above the one before */
    LGM_FAULT_TLV_KIND = 60,        /* a record's type is even and unknown, or 1 and the record malformed */
    LGM_FAULT_FLAGS = 61,           /* query flags aren't one for each id */

    /* Fault: the call can't do what it is for. */
    LGM_UNDECIDED = 26,     /* labels or steps ran out before a route was found: it says nothing about the payment */
    LGM_NOT_QUERY = 31,     /* the message is neither a 261 nor a 263 */
    LGM_NOT_FILTER = 32,    /* the message isn't a 265 */
    LGM_NOT_ANNOUNCED = 33, /* the map has no announcement of the node */
    LGM_NOT_SAVED = 34,     /* the bytes aren't those of a saved map of this chain, payer or estimates, as they were written */
    LGM_NOT_REPLY = 35,     /* the message isn't a 264 */
    LGM_CLOSED = 100,       /* the handle is closed */
    LGM_OPEN = 101,         /* the handle is open already */
    LGM_NO_MEMORY = 102,    /* out of memory: the same call may be made again */
    LGM_ROOM = 104,         /* a buffer is too short: the lengths that are needed were written */
    LGM_FULL = 105,         /* the map has more than 2,000,000,000 channels, too many for a route search */
    LGM_PUBLISHED = 106,    /* the map was published, so it doesn't change */
    LGM_NONE = 107,         /* no id or point above the given one, no such update, or no edge of which something is known */

    /* Argument: an argument is wrong. Its word names it, and says what it may be. */
    LGM_ARGUMENT_SIG = 110,          /* `sig` isn't 0 to 3 */
    LGM_ARGUMENT_FUNDING = 111,      /* `funding` isn't 0 to 3 */
    LGM_ARGUMENT_EDGES = 112,        /* there are more than LGM_MOST_EDGES edges */
    LGM_ARGUMENT_LIMITS = 113,       /* there are more than LGM_MOST_LIMITS limits */
    LGM_ARGUMENT_MAXIMUM = 114,      /* an edge's `htlc_maximum_msat` is 0, so it would carry nothing */
    LGM_ARGUMENT_PUBLISHED = 115,    /* the map isn't a published one */
    LGM_ARGUMENT_HOPS = 116,         /* the hops aren't 1 to 20 that follow one another */
    LGM_ARGUMENT_RECORD_TYPE = 117,  /* a record's type is below 65,536 */
    LGM_ARGUMENT_RECORD_ORDER = 118, /* a record's type isn't above the one before */
    LGM_ARGUMENT_PAYLOADS = 119,     /* the payloads don't fit an onion packet */
    LGM_ARGUMENT_WHICH = 120         /* `which` isn't 0, 1 or 2 */
};

/*
 * A handle: a map, or none. All zeros are a closed handle. The map is one that changes, opened by lgm_open, or a published
 * one, opened by lgm_publish or lgm_share, which all handles of it own together. A published map outlives the map that it
 * is of.
 */
typedef struct {
    bool is_open;
    void *at;
} lgm_map;

/* The version of this header. */
#define LGM_VERSION 5

/* The version of the library, to be compared with LGM_VERSION. */
uint32_t lgm_version(void);

/* The size of the longest word, with a zero after it. */
#define LGM_WORD_LEN 24

/*
 * The word of a number that a call returned, as `lgm run` writes it: "accepted" for 0, "malformed" for 1 and so on,
 * padded with zeros. 13 and 58 have the words "conflict" and "tlv-too-long"; any other number that no call returns has the
 * empty word.
 */
void lgm_word(uint32_t number, uint8_t word[LGM_WORD_LEN]);

/* The word of a number as a string of the program, for printf and the like: one for each number, which lasts. */
static inline const char *lgm_text(uint32_t number) {
    switch (number) {
    case LGM_OK: return "accepted";
    case LGM_MALFORMED: return "malformed";
    case LGM_UNKNOWN_EVEN: return "unknown-even";
    case LGM_IGNORED: return "ignored";
    case LGM_NOT_GOSSIP: return "not-gossip";
    case LGM_CHAIN: return "chain";
    case LGM_POINT: return "point";
    case LGM_NODE_ORDER: return "node-order";
    case LGM_PRIVATE: return "private";
    case LGM_FUNDING: return "funding";
    case LGM_SIGNATURE: return "signature";
    case LGM_UNKNOWN_CHANNEL: return "unknown-channel";
    case LGM_KNOWN: return "known";
    case 13: return "conflict";
    case LGM_UNKNOWN_NODE: return "unknown-node";
    case LGM_NOT_NEWER: return "not-newer";
    case LGM_BANNED: return "banned";
    case LGM_AMOUNT_ZERO: return "amount-zero";
    case LGM_AMOUNT_TOO_LARGE: return "amount-too-large";
    case LGM_EXPIRY_TOO_LARGE: return "expiry-too-large";
    case LGM_SELF_PAYMENT: return "self-payment";
    case LGM_NO_ROUTE: return "no-route";
    case LGM_UNDECIDED: return "undecided";
    case LGM_SO_FAR: return "so-far";
    case LGM_NOT_QUERY: return "not-query";
    case LGM_NOT_FILTER: return "not-filter";
    case LGM_NOT_ANNOUNCED: return "not-announced";
    case LGM_NOT_SAVED: return "not-saved";
    case LGM_NOT_REPLY: return "not-reply";
    case LGM_PAYER_HAS_NO_CHANNEL: return "payer-has-no-channel";
    case LGM_PAYEE_TAKES_NO_PAYMENT: return "payee-takes-no-payment";
    case LGM_PAYER_LACKS_AMOUNT: return "payer-lacks-amount";
    case LGM_PAYEE_LACKS_AMOUNT: return "payee-lacks-amount";
    case LGM_UNCONNECTED: return "unconnected";
    case LGM_BEYOND_DELAY: return "beyond-delay";
    case LGM_BEYOND_HOPS: return "beyond-hops";
    case LGM_BEYOND_BOTH: return "beyond-both";
    case LGM_WHOLE: return "whole";
    case LGM_TOO_DEAR: return "too-dear";
    case LGM_CHANNELS_SHORT: return "channels-short";
    case LGM_PAYEE_SHORT: return "payee-short";
    case LGM_TRIES_USED_UP: return "tries-used-up";
    case LGM_PAYEE_REFUSED: return "payee-refused";
    case LGM_ABANDONED: return "abandoned";
    case LGM_PATHS_SHORT: return "paths-short";
    case LGM_UNKNOWN_PAYMENT: return "unknown-payment";
    case LGM_UNKNOWN_PART: return "unknown-part";
    case LGM_NOT_UNDER_WAY: return "not-under-way";
    case LGM_BEYOND_ROUTE: return "beyond-route";
    case LGM_FOREIGN_CODE: return "foreign-code";
    case LGM_NOTHING_UNDER_WAY: return "nothing-under-way";
    case LGM_ALREADY_PAID: return "already-paid";
    case LGM_UNDER_WAY: return "under-way";
    case LGM_FOREIGN_CHANNEL: return "foreign-channel";
    case LGM_RECKONED_AHEAD: return "reckoned-ahead";
    case LGM_RECKONED_BEFORE: return "reckoned-before";
    case LGM_NO_PARTS: return "no-parts";
    case LGM_NUMBERS_USED_UP: return "numbers-used-up";
    case LGM_FAULT_LONG: return "long";
    case LGM_FAULT_SHORT: return "short";
    case LGM_FAULT_CUT: return "cut";
    case LGM_FAULT_ENCODING: return "encoding";
    case LGM_FAULT_IDS: return "ids";
    case LGM_FAULT_TLV_CUT: return "tlv-cut";
    case LGM_FAULT_TLV_NOT_MINIMAL: return "tlv-not-minimal";
    case 58: return "tlv-too-long";
    case LGM_FAULT_TLV_ORDER: return "tlv-order";
    case LGM_FAULT_TLV_KIND: return "tlv-kind";
    case LGM_FAULT_FLAGS: return "flags";
    case LGM_CLOSED: return "closed";
    case LGM_OPEN: return "open";
    case LGM_NO_MEMORY: return "no-memory";
    case LGM_ROOM: return "room";
    case LGM_FULL: return "full";
    case LGM_PUBLISHED: return "published";
    case LGM_NONE: return "none";
    case LGM_ARGUMENT_SIG: return "sig: 0 to 3";
    case LGM_ARGUMENT_FUNDING: return "funding: 0 to 3";
    case LGM_ARGUMENT_EDGES: return "edges: at most 100,000";
    case LGM_ARGUMENT_LIMITS: return "limits: at most 300,000";
    case LGM_ARGUMENT_MAXIMUM: return "edge: a maximum of 0";
    case LGM_ARGUMENT_PUBLISHED: return "published: not one";
    case LGM_ARGUMENT_HOPS: return "hops: no route";
    case LGM_ARGUMENT_RECORD_TYPE: return "record: type < 65,536";
    case LGM_ARGUMENT_RECORD_ORDER: return "records: not ascending";
    case LGM_ARGUMENT_PAYLOADS: return "payloads: too long";
    case LGM_ARGUMENT_WHICH: return "which: 0, 1 or 2";
    default: return "";
    }
}

/*
 * Opens a closed handle, with a map of this chain without channels and nodes, and without a mark.
 *
 * Routes avoid nodes that require features other than `known`: bit 0 is the least significant bit of the last byte (BOLT
 * 9). If `all_known`, every feature is known, and the bits of `known` are ignored: pass NULL and 0. The seed is 16 random
 * bytes that nobody else knows, by which points are hashed.
 *
 * Cost: a few allocations.
 *
 * LGM_OPEN; LGM_NO_MEMORY.
 */
uint32_t lgm_open(lgm_map *map, const uint8_t chain[32], bool all_known, const uint8_t *known,
                  size_t known_len, const uint8_t seed[16]);

/*
 * Frees the map of a handle, if it is open, and closes the handle. A published map is freed with the last handle of it,
 * unless it is to catch up (lgm_publish).
 *
 * Cost: the whole map. Of a published one constant, but for the last owner of one that doesn't take turns any more.
 */
void lgm_free(lgm_map *map);

/*
 * Writes the map of a handle as bytes, with its chain, a version and a checksum, and their length to `needed`: what lgm_load
 * opens. They have its channels, updates and nodes as they were received, and its bans. A published map is saved, too: so a
 * thread saves it while another one extends the map. The bytes tell what was changed by mistake, or cut; they are no
 * signature, so keep them where nobody else writes.
 *
 * Cost: a pass over the whole map. With room for the bytes no copy of them is made.
 *
 * LGM_CLOSED; LGM_ROOM; LGM_NO_MEMORY.
 */
uint32_t lgm_save(lgm_map *map, uint8_t *bytes, size_t bytes_len, size_t *needed);

/*
 * Opens a closed handle with the map of this chain that was saved as these bytes, and sets its mark there. `all_known`,
 * `known` and `seed` are those of lgm_open, and needn't be those of the map that was saved. It has accepted nothing yet:
 * lgm_version_of counts from 0. Signatures and funding outputs aren't verified again.
 *
 * Cost: log n for each channel, update, node and ban. The next message, close or ban copies the index, as after lgm_mark.
 *
 * LGM_OPEN; LGM_NOT_SAVED, of bytes that were cut or changed, or are of another version or chain; LGM_NO_MEMORY.
 */
uint32_t lgm_load(lgm_map *map, const uint8_t chain[32], bool all_known, const uint8_t *known, size_t known_len,
                  const uint8_t seed[16], const uint8_t *bytes, size_t bytes_len);

/* The verdict on a message's signatures: four of a channel_announcement, one of any other. */
enum {
    LGM_SIG_ALL_FOUR = 0,     /* all four are valid */
    LGM_SIG_NOT_ALL_FOUR = 1, /* not all four are valid */
    LGM_SIG_BY = 2,           /* the one signature is valid for the key `signer` */
    LGM_SIG_NOBODY = 3        /* it is valid for no key */
};

/* The verdict on the funding output of a channel_announcement. For other messages it is ignored. */
enum {
    LGM_FUNDING_NOT_ASKED = 0,
    LGM_FUNDING_UNSPENT = 1, /* it is unspent, pays to the 2-of-2 of the bitcoin keys, and holds `sat` satoshi */
    LGM_FUNDING_SPENT = 2,
    LGM_FUNDING_WRONG = 3 /* it doesn't exist, or pays to something else */
};

/*
 * Offers a gossip message, beginning with the two bytes of its type, with the verdicts on it (BOLT 7). The bytes of
 * `signer` are used only with LGM_SIG_BY, but it always points to 33 bytes; `sat` is used only with LGM_FUNDING_UNSPENT.
 *
 * Cost: log n; for a ban, or a node whose features change, also log n for each channel of the nodes. Once the mark's copy or
 * the last but one publication lacks as much as the map has channels, and 1,024 more, a call also brings it up to date, as
 * lgm_close_channel and lgm_ban do.
 *
 * LGM_CLOSED; LGM_PUBLISHED; LGM_ARGUMENT_SIG; LGM_ARGUMENT_FUNDING; 1 to 16; LGM_NO_MEMORY.
 */
uint32_t lgm_offer(lgm_map *map, const uint8_t *message, size_t message_len, uint32_t sig,
                   const uint8_t signer[33], uint32_t funding, uint64_t sat);

/*
 * Tells whether a message is worth verifying: LGM_OK if it would be accepted with the right verdicts, else its refusal, which
 * no verdicts mend. For a channel_update and a node_announcement it writes the key whose signature is to be verified to
 * `signer`, which is unchanged otherwise. lgm_offer returns the same with the right verdicts: LGM_SIG_ALL_FOUR and
 * LGM_FUNDING_UNSPENT, of up to 2,100,000,000,000,000 satoshi, on a channel_announcement, and LGM_SIG_BY with that key on the
 * others. Of a published map it tells what that map would accept if it still changed. The map is unchanged.
 *
 * Cost: log n, and the message is read twice: some 1,000 instructions of an update that isn't newer, where lgm_offer
 * takes some 640.
 *
 * LGM_CLOSED; 1 to 8; 11 to 16; LGM_NO_MEMORY, of a query or a reply with lists alone: no other message takes memory.
 */
uint32_t lgm_wanted(lgm_map *map, const uint8_t *message, size_t message_len, uint8_t signer[33]);

/*
 * The first fault of a message, as LGM_MALFORMED doesn't tell: LGM_OK if it has none.
 *
 * Cost: the message is read once.
 *
 * LGM_UNKNOWN_EVEN; LGM_IGNORED; 51 to 61; LGM_NO_MEMORY, of a query or a reply with lists alone.
 */
uint32_t lgm_fault_of(const uint8_t *message, size_t message_len);

/* A message, as who verifies it sees it. */
typedef struct {
    uint64_t scid;        /* the id of its channel, or 0 */
    size_t signed_from;   /* where the bytes begin whose double SHA-256 is signed: they end where the message does */
    uint32_t block;       /* the parts of the id: the height of the block with the funding transaction */
    uint32_t transaction; /* the index of that transaction in the block */
    uint16_t output;      /* the index of the funding output in it */
    uint16_t type;        /* 256, a channel_announcement; 257, a node_announcement; 258, a channel_update; or another one */
    bool has_scid;        /* whether it is of a channel: a channel_announcement or a channel_update */
    bool is_second;       /* of a channel_update: whether node 2 of the channel signs it, and not node 1 */
    uint8_t signatures;   /* how many it has, of 64 bytes each, one after the other from byte 2 on: 4, 1 or 0 */
    uint8_t key_1[33];    /* the key of the first signature: of a channel_announcement node 1, of a node_announcement its node */
    uint8_t key_2[33];    /* that of the second one, which a channel_announcement alone has: node 2 */
    uint8_t key_3[33];    /* that of the third one: bitcoin_key_1 */
    uint8_t key_4[33];    /* that of the fourth one: bitcoin_key_2 */
} lgm_signed;

/*
 * Tells what a verifier needs of a message: its type, its channel, how many signatures it has, by which keys, and which bytes
 * are signed. Bytes are counted from the type on, which has two. A channel_update doesn't name the key that signs it:
 * lgm_wanted tells it. Where there is no key, `key_1` to `key_4` are zeros. Whether keys and signatures are right isn't
 * looked at (BOLT 7, "The channel_announcement Message" and those of the other two).
 *
 * Cost: the message is read once.
 *
 * 1 to 3, of bytes that are no message; LGM_NO_MEMORY, of a query or a reply with lists alone.
 */
uint32_t lgm_reads(const uint8_t *message, size_t message_len, lgm_signed *read);

/*
 * Closes a channel, because its funding output was spent: removes it with its updates, and the announcement of each of
 * its nodes that has no other channel.
 *
 * Cost: log n, and a step for each channel of its two nodes.
 *
 * LGM_CLOSED; LGM_PUBLISHED; LGM_UNKNOWN_CHANNEL; LGM_NO_MEMORY.
 */
uint32_t lgm_close_channel(lgm_map *map, uint64_t scid);

/*
 * Bans a node, as contradicting announcements of a channel ban the nodes of both: removes its channels with their updates,
 * and the announcement of each node that has no other channel. Announcements of it and of its channels are refused from
 * then on. A ban lasts as long as the map. The point isn't checked: any 33 bytes can be banned.
 *
 * Cost: log n for each channel of the node, and a step for each channel of their other nodes.
 *
 * LGM_CLOSED; LGM_PUBLISHED; LGM_BANNED; LGM_NO_MEMORY.
 */
uint32_t lgm_ban(lgm_map *map, const uint8_t point[33]);

/* A channel that was closed since it is old. */
typedef struct {
    uint64_t scid;
    uint32_t timestamp; /* of its latest update, in seconds since 1970; 0 without one */
} lgm_pruned;

/*
 * Closes each channel whose latest update, of both directions, has a timestamp below `before`, in seconds since 1970, and each
 * channel without an update that was funded below the block `block`. Writes them to `pruned`, by ascending id, and their number
 * to `needed`. BOLT 7 lets a node prune what wasn't updated for two weeks, 1,209,600 seconds ("Recommendation on Pruning Stale
 * Entries"). An id that was pruned is accepted again: who keeps what is written here asks for it only where a peer's update is
 * newer.
 *
 * With LGM_ROOM nothing was closed, and `needed` is the room that is. With LGM_NO_MEMORY the first ones may have been closed, as
 * many as `needed` says, and those were written: another call goes on.
 *
 * Cost: a step for each channel of the map, and what lgm_close_channel costs for each that is closed.
 *
 * LGM_CLOSED; LGM_PUBLISHED; LGM_ROOM; LGM_NO_MEMORY.
 */
uint32_t lgm_prune(lgm_map *map, uint32_t before, uint32_t block, lgm_pruned *pruned, size_t pruned_len, size_t *needed);

/* The number of channels, or 0 for a closed handle. */
size_t lgm_count(lgm_map *map);

/* A payment to be made. */
typedef struct {
    uint64_t amount_msat; /* what the payee receives */
    uint32_t expiry;      /* the expiry of the HTLC to the payee */
    uint8_t payer[33];
    uint8_t payee[33];
    uint8_t secret[32]; /* the payment secret, from the invoice */
} lgm_payment;

/* A hop of a route: one channel, with the HTLC that is offered over it. */
typedef struct {
    uint64_t scid;
    uint64_t amount_msat; /* the amount of the HTLC */
    size_t payload_len;   /* the length of the payload for the receiving node */
    uint32_t expiry;      /* the expiry of the HTLC */
    uint8_t from[33];     /* the node that offers it */
    uint8_t to[33];       /* the node that receives it */
} lgm_hop;

/* The size of a route: the number of its hops, and the bytes of all their payloads. */
typedef struct {
    size_t hops;
    size_t payloads;
} lgm_lengths;

/* A route has at most 20 hops, and its payloads fit an onion packet (BOLT 4). */
#define LGM_MOST_HOPS 20
#define LGM_MOST_PAYLOADS 1300

/*
 * Finds the route by which the payer sends the least, among all of 1 to 20 channels of the map (BOLT 7, "HTLC Fees";
 * docs/protocol.md). Writes the hops, from the payer on, to `hops`; to `payloads` the payloads for the receiving nodes,
 * one after the other, each beginning with its length as a BigSize (BOLT 4, "Payload Format"); and the numbers of both to
 * `lengths`. In a map that changes the first search builds the view in which routes are searched, and later calls update
 * it; a published map has its view from the start.
 *
 * Cost: a search, which takes from some ten microseconds to a few milliseconds on the public network. The first one in a
 * map that changes also builds the view of the whole map.
 *
 * LGM_CLOSED; LGM_FULL; 21 to 25; LGM_ROOM; LGM_NO_MEMORY.
 */
uint32_t lgm_route(lgm_map *map, const lgm_payment *payment, lgm_hop *hops, size_t hops_len,
                   uint8_t *payloads, size_t payloads_len, lgm_lengths *lengths);

/* A record of the payee's payload that BOLT 4 doesn't define, as 5482373484 with the preimage of a spontaneous payment. */
typedef struct {
    uint64_t type; /* at least 65,536; of an even one that it doesn't know the payee refuses the payment */
    const uint8_t *value;
    size_t value_len;
} lgm_record;

/* What the payee gets beside the amount and the expiry over the last hop. */
typedef struct {
    uint64_t total_msat; /* what it is to get by all parts of the payment together; of one in one part, the amount */
    const uint8_t *metadata; /* the payment metadata, from the invoice (BOLT 11, field `m`); with the length 0, none */
    size_t metadata_len;
    const lgm_record *records; /* custom records, by ascending types */
    size_t records_len;
    uint8_t secret[32]; /* the payment secret, from the invoice */
} lgm_arrival;

/*
 * Makes the payloads of a route that was found, for a payee that gets more than lgm_route tells it: those of one part of a
 * payment in several, and with payment metadata or custom records (BOLT 4, "Payload Format"). Reads the hops; writes to
 * each the length of its payload, which alone may change; to `payloads` the payloads, as lgm_route does; and the numbers of
 * both to `lengths`. That the parts of a payment add up to its total isn't checked.
 *
 * Cost: some 2 microseconds for one hop, and 18 for 20: a few allocations for each hop and record.
 *
 * LGM_ARGUMENT_HOPS, unless the hops are 1 to 20, each of which begins where the one before ends, with no greater amount
 * and no later expiry; 117 to 119, of the first record that is wrong, or of payloads that are too long; LGM_ROOM;
 * LGM_NO_MEMORY, which may come in place of 117 to 119.
 */
uint32_t lgm_payloads(const lgm_arrival *arrival, lgm_hop *hops, size_t hops_len, uint8_t *payloads, size_t payloads_len,
                      lgm_lengths *lengths);

/*
 * A handle of what a payer has learnt of edges, or none. All zeros are a closed handle. It has no chain, and is used beside
 * any map. An edge is named by its id and the node that it leaves (`from`), which resolves the id among its own channels;
 * whether a map has such an edge isn't asked.
 */
typedef struct {
    bool is_open;
    void *at;
} lgm_estimates;

/* What a payer believes of an edge. Of one of which nothing is known: 0, UINT64_MAX and 0. */
typedef struct {
    uint64_t least_msat;   /* it surely carries this much: up to it a payment has no penalty for a failure */
    uint64_t most_msat;    /* it surely carries no more: the odds of a failure count on a balance up to it */
    uint64_t penalty_msat; /* what the payer would rather pay than use it */
} lgm_estimate_info;

/*
 * Opens a closed handle: nothing is known.
 *
 * LGM_OPEN; LGM_NO_MEMORY.
 */
uint32_t lgm_estimates_open(lgm_estimates *estimates);

/* Frees what a handle has, if it is open, and closes the handle. */
void lgm_estimates_free(lgm_estimates *estimates);

/*
 * Looks up what is believed of an edge, also if nothing is known of it.
 *
 * LGM_CLOSED.
 */
uint32_t lgm_estimate(lgm_estimates *estimates, uint64_t scid, const uint8_t from[33], lgm_estimate_info *estimate);

/*
 * Sets what is believed of an edge, whatever was known of it. LGM_NO_MEMORY comes only if nothing was, here and in the next
 * two calls.
 *
 * Cost: constant, but for a table that grows.
 *
 * LGM_CLOSED; LGM_NO_MEMORY.
 */
uint32_t lgm_estimates_set(lgm_estimates *estimates, uint64_t scid, const uint8_t from[33],
                           const lgm_estimate_info *estimate);

/*
 * Notes that an edge carried an amount, as when a try fails at a later hop, or reaches the payee. It surely carries as much:
 * `least_msat` and `most_msat` are raised to the amount, if they are less.
 *
 * Cost: constant, but for a table that grows.
 *
 * LGM_CLOSED; LGM_NO_MEMORY.
 */
uint32_t lgm_estimates_carried(lgm_estimates *estimates, uint64_t scid, const uint8_t from[33], uint64_t amount_msat);

/*
 * Notes that an edge failed to carry an amount. It surely carries less: `least_msat` and `most_msat` are lowered to 1 msat
 * below the amount, if they are more.
 *
 * Cost: constant, but for a table that grows.
 *
 * LGM_CLOSED; LGM_NO_MEMORY.
 */
uint32_t lgm_estimates_failed(lgm_estimates *estimates, uint64_t scid, const uint8_t from[33], uint64_t amount_msat);

/*
 * Forgets what is known of an edge.
 *
 * LGM_CLOSED; LGM_NONE, if nothing was known of it.
 */
uint32_t lgm_estimates_forget(lgm_estimates *estimates, uint64_t scid, const uint8_t from[33]);

/* The number of edges of which something is known, or 0 for a closed handle. */
size_t lgm_estimates_count(lgm_estimates *estimates);

/*
 * Looks up the edge at a place below that number: its id, the node that it leaves, and what is believed of it. An edge of
 * which something new is known comes last; lgm_estimates_forget changes the places.
 *
 * LGM_CLOSED; LGM_NONE, at a place where there is none.
 */
uint32_t lgm_estimates_at(lgm_estimates *estimates, size_t place, uint64_t *scid, uint8_t from[33],
                          lgm_estimate_info *estimate);

/*
 * Has what is known of edges fade, since balances move: half of it is left for each half-life, both in one unit of time. What
 * then says little is forgotten, and so are edges of channels that the map doesn't have. A half-life of 0 counts as 1.
 *
 * Cost: log n for each edge of which something is known.
 *
 * LGM_CLOSED, of either; LGM_NO_MEMORY.
 */
uint32_t lgm_estimates_fade(lgm_estimates *estimates, lgm_map *map, uint32_t elapsed, uint32_t half_life);

/*
 * Writes what is known of edges as bytes, with a version and a checksum, and their length to `needed`: what lgm_estimates_load
 * opens. What a payer has learnt is in its own bytes (lgm_payer_save).
 *
 * Cost: a step for each edge, and with room for them two copies of the bytes in memory for a moment.
 *
 * LGM_CLOSED; LGM_ROOM; LGM_NO_MEMORY.
 */
uint32_t lgm_estimates_save(lgm_estimates *estimates, uint8_t *bytes, size_t bytes_len, size_t *needed);

/*
 * Opens a closed handle with what was saved as these bytes.
 *
 * Cost: a step for each edge.
 *
 * LGM_OPEN; LGM_NOT_SAVED, of bytes that were cut or changed, or are of another version; LGM_NO_MEMORY.
 */
uint32_t lgm_estimates_load(lgm_estimates *estimates, const uint8_t *bytes, size_t bytes_len);

/*
 * An edge beside the map's, by the caller's word: a channel of the payer's own, announced or not, or a route hint of an
 * invoice (BOLT 11, field `r`). Its nodes needn't be in the map, and it has no capacity.
 */
typedef struct {
    uint64_t scid;              /* as the node that the edge leaves resolves it */
    uint64_t htlc_minimum_msat; /* the least amount of a payment over it */
    /* the most that it carries, 1 or more: of a channel of the payer's own, what it can send; of a hint, UINT64_MAX */
    uint64_t htlc_maximum_msat;
    uint32_t fee_base_msat;               /* the payer's own channel charges nothing and adds no delay, whatever it has here */
    uint32_t fee_proportional_millionths; /* of what is forwarded */
    uint16_t cltv_expiry_delta;           /* in blocks */
    uint8_t from[33];                     /* the node that it leaves */
    uint8_t to[33];                       /* the node that it leads to */
} lgm_edge;

/* What the edge with an id out of a node carries at most, one of the map or of the extra ones. */
typedef struct {
    uint64_t scid;
    uint64_t most_msat; /* 0 excludes the edge */
    uint8_t from[33];   /* the node that the edge leaves: the other direction of the channel has a limit of its own */
} lgm_limit;

typedef struct {
    uint8_t point[33];
} lgm_point;

/* The most edges and limits of a call. */
#define LGM_MOST_EDGES 100000
#define LGM_MOST_LIMITS 300000

/* The most steps and labels of a search, if the call doesn't say. */
#define LGM_MOST_STEPS 5000000
#define LGM_MOST_LABELS 1000000

/*
 * What a payer prefers, and limits of its route and of the search for it. All zeros prefer nothing, and limit nothing but
 * the search.
 */
typedef struct {
    uint64_t most_steps;   /* the most steps: edges looked at, and labels compared; 0 stands for LGM_MOST_STEPS */
    size_t most_labels;    /* the most labels, of some 50 bytes each; 0 stands for LGM_MOST_LABELS */
    uint32_t failure_msat; /* what a failed try is worth to the payer */
    uint32_t hop_msat;     /* what each hop is */
    uint16_t most_delay;   /* the most delay in blocks, of all channels but the first; 0 stands for any */
    uint8_t most_hops;     /* the most channels, up to 20; 0 stands for 20 */
} lgm_search;

/*
 * A payment to be tried: what its payer knows beside the map (docs/protocol.md, "What a payer knows beside the map"), and
 * what it prefers ("A route that arrives"). All zeros but the payment are a payment over the map alone.
 *
 *   - each of the edges stands in place of the map's with its id out of its node; of such edges the first counts;
 *   - the least limit of an edge counts;
 *   - no edge of the map that leaves a silent node is used. The node may be paid, and edges of this attempt may leave it.
 */
typedef struct {
    lgm_payment payment;
    const lgm_edge *edges;
    size_t edges_len;
    const lgm_limit *limits;
    size_t limits_len;
    const lgm_point *silent;
    size_t silent_len;
    lgm_search search;
} lgm_attempt;

/*
 * Finds the best route for an attempt by what its payer prefers and has learnt of edges, in a map that changes or a
 * published one. What is believed of edges counts as `estimates` has it; of a closed handle nothing is known. The expiry
 * over the first hop is above that of the payment by at most `most_delay` blocks, and the route has at most `most_hops`
 * hops ("A route within a delay"). LGM_NO_ROUTE then says that no usable route is within both; lgm_no_route_reason says
 * why.
 *
 * A search ends before it is certain once it has made `most_labels` labels, or taken `most_steps` steps. Then it writes the
 * best route so far, and returns LGM_SO_FAR, or returns LGM_UNDECIDED if it found none. LGM_NO_ROUTE never comes for want of
 * either. Without preferences, and without an estimate that has a penalty, the two come only if the route that sends least of
 * all isn't within the limits of delay and hops: that one is found whatever it takes. Within such limits up to two searches
 * are made, each with all labels and steps. More of these help, or to exclude edges with large deltas by limits of 0.
 *
 * The map, what is known of edges, and all else that is passed are unchanged. While the call runs, it alone uses the handle
 * of the estimates. With a closed one, and zeros but the payment, it does what lgm_route does, and costs the same.
 *
 * Cost: that of lgm_route, and more for what is passed; with preferences, estimates or a limit of the delay usually a
 * few tenths of a millisecond, and by default at most some 0.2 seconds, with up to 60 MB.
 *
 * LGM_CLOSED, of `map`; LGM_ARGUMENT_EDGES; LGM_ARGUMENT_LIMITS; LGM_ARGUMENT_MAXIMUM; LGM_FULL; 21 to 24; LGM_NO_MEMORY;
 * 25 to 27; LGM_ROOM, in place of LGM_SO_FAR too.
 */
uint32_t lgm_attempt_route(lgm_map *map, const lgm_attempt *attempt, lgm_estimates *estimates, lgm_hop *hops,
                           size_t hops_len, uint8_t *payloads, size_t payloads_len, lgm_lengths *lengths);

/*
 * Tells why there is no route for an attempt, whatever its payer prefers and has learnt: the first of the reasons 41 to 48
 * that holds, over the map's edges and what the payer knows beside them; or LGM_OK if there is a route within its limits.
 * It looks at all edges, and makes up to four searches, each with all labels and steps.
 *
 * Cost: a look at each edge, and one search, or up to four where there is a route without the limits.
 *
 * LGM_CLOSED; LGM_ARGUMENT_EDGES; LGM_ARGUMENT_LIMITS; LGM_ARGUMENT_MAXIMUM; LGM_FULL; 21 to 24; LGM_NO_MEMORY; 41 to 48;
 * LGM_UNDECIDED, if labels or steps ran out first.
 */
uint32_t lgm_no_route_reason(lgm_map *map, const lgm_attempt *attempt);

/*
 * Tells how likely a route is to fail, in millionths: `*odds` is 3,000,000 for odds of 3 to 1 that it fails. It is the sum of
 * the odds of its channels, but for the first, which is the payer's own: those of a channel are the amount above what it
 * surely carries, over what is left of what it may carry at most, plus one, and 100 to 1 at most ("Odds of a route" in
 * docs/protocol.md). At most it carries the maximum of the first of the edges with its name, or else of the map's direction;
 * or a limit that is less. Of the attempt only edges and limits count. The hops are as lgm_attempt_route writes them.
 *
 * Cost: for each hop a step for each edge and limit, and log n.
 *
 * LGM_CLOSED, of `map`; LGM_ARGUMENT_EDGES; LGM_ARGUMENT_LIMITS; LGM_ARGUMENT_MAXIMUM; LGM_ARGUMENT_HOPS; LGM_NO_MEMORY.
 */
uint32_t lgm_odds(lgm_map *map, const lgm_attempt *attempt, lgm_estimates *estimates, const lgm_hop *hops, size_t hops_len,
                  uint32_t *odds);

/*
 * A handle of a payer, or none. All zeros are a closed handle. A payer is a node that pays: it has payments, with all parts
 * that were sent of them, and what it has learnt of edges. It never sends more than an invoice's amount, nor fees, parts or
 * tries beyond the bounds; and over no channel more than it can carry beside all that is under way of its payments, as far as
 * that is known (docs/paying.md). Payments have numbers, in the order in which they were begun, and so have parts, over all
 * payments, in the order in which they were sent; no number is given twice.
 */
typedef struct {
    bool is_open;
    void *at;
} lgm_payer;

/* What a payee asks for (BOLT 11), as the caller has decoded it, and what else the payer sends to it. */
typedef struct {
    uint64_t amount_msat;  /* 1 or more; where the invoice has none, it is the payer's choice */
    const lgm_edge *hints; /* of the fields `r`: an edge from each node to the next, the last one to the payee */
    size_t hints_len;
    const uint8_t *metadata; /* the payment metadata, of the field `m`; with the length 0, none */
    size_t metadata_len;
    const lgm_record *records; /* custom records, by ascending types */
    size_t records_len;
    uint16_t min_final_cltv_expiry_delta; /* in blocks, of the field `c` */
    bool basic_mpp;                       /* whether the payee takes several parts: feature 16 or 17 */
    uint8_t payee[33];
    uint8_t secret[32]; /* the payment secret, of the field `s` */
} lgm_invoice;

/* What a payment may take. */
typedef struct {
    uint64_t most_fee_msat;   /* the fees of all parts together that are under way or have arrived */
    uint64_t least_part_msat; /* of a part, if the amount is divided */
    size_t most_tries;        /* parts that are ever sent */
    size_t most_parts;        /* parts that are under way or have arrived, where the payee takes several: 1 or more */
    uint16_t most_blocks;     /* until the first HTLC of a part expires */
} lgm_bounds;

/* What a payer sees when it asks for a part of a payment. */
typedef struct {
    const lgm_edge *channels; /* the payer's channels: edges out of it, each with what it can send now, which may be 0 */
    size_t channels_len;
    uint64_t reckoned;     /* how many parts they reckon: all with a lower number. What later ones take is deducted */
    uint64_t most_steps;   /* as of lgm_search */
    size_t most_labels;    /* as of lgm_search */
    uint32_t height;       /* the height of the chain */
    uint32_t failure_msat; /* what a failed try is worth to the payer, if it `prefers` */
    uint32_t hop_msat;     /* what each hop is, if it `prefers` */
    /* whether these two count. Otherwise a failed try is worth 200 millionths of the payment's amount, but a hundredth of it up
     * to 20 satoshi, and a hop half a satoshi */
    bool prefers;
} lgm_sight;

/* A part that is under way from now on. */
typedef struct {
    uint64_t part;        /* its number: how many parts the payer had sent before */
    uint64_t amount_msat; /* what the payee gets */
    uint64_t fee_msat;    /* what is sent beyond that */
    uint64_t detail;      /* what comes with some faults, see lgm_payer_next; unchanged otherwise */
    lgm_lengths lengths;  /* the numbers of its hops, and of the bytes of their payloads */
    uint32_t odds;        /* the odds that it fails, in millionths, as lgm_odds has them */
    uint32_t blocks;      /* from the height until its first HTLC expires */
    bool is_best;         /* false, if its route may not be the best one, since labels or steps ran out */
} lgm_part;

/*
 * Opens a closed handle with a payer that has begun no payment. It has learnt what `estimates` has, of which it gets a copy; with
 * a closed handle, nothing.
 *
 * LGM_OPEN; LGM_NO_MEMORY.
 */
uint32_t lgm_payer_open(lgm_payer *payer, const uint8_t point[33], lgm_estimates *estimates);

/* Frees what a handle has, if it is open, and closes the handle. */
void lgm_payer_free(lgm_payer *payer);

/*
 * Begins a payment, and writes its number. Hints out of the payer are left out: what its channels are the payer alone says. An
 * invoice that is begun twice is paid twice.
 *
 * LGM_CLOSED; 21, of an amount of 0; LGM_NO_PARTS; LGM_NUMBERS_USED_UP; LGM_NO_MEMORY.
 */
uint32_t lgm_payer_begin(lgm_payer *payer, const lgm_invoice *invoice, const lgm_bounds *bounds, uint64_t *payment);

/*
 * Chooses the next part of a payment, beside all that is under way, and writes it, its hops and their payloads, as lgm_payloads
 * does: it is under way from now on, so send it. LGM_WHOLE says that there is none, since all of the amount is under way, or
 * the payee took it. A payee that takes several parts holds them until all have come, so ask for parts until there is none.
 *
 * The part is what is left, or else its half, its quarter and so on: the first whose best route fails with odds of 3 to 1 or
 * less, or else the one that is expected to bring most. Its route is the best one by what the payer prefers and has learnt,
 * or, where the fee of that is beyond the bound, the cheapest one. Before what is left is divided, a cut between the payer and
 * the payee is sought across which less can be carried: if one is found, nothing is sent, with LGM_PATHS_SHORT.
 *
 * `hops_len` is at least LGM_MOST_HOPS, and `payloads_len` LGM_MOST_PAYLOADS: else LGM_ROOM, before anything is sent. `detail`
 * is written with LGM_TOO_DEAR: the fee of the cheapest route, in msat; with LGM_CHANNELS_SHORT, LGM_PAYEE_SHORT and
 * LGM_PATHS_SHORT: what can be sent or carried together, in msat; and with LGM_PAYEE_REFUSED: the failure code. After any other
 * number than LGM_OK nothing else has changed.
 *
 * Cost: that of lgm_attempt_route for each amount that is tried, a copy of what was learnt where something is under way over
 * an edge of which something is known, a step for each hop of each part, and once what is left is divided, less than a
 * millisecond for the cut.
 *
 * LGM_CLOSED, of either; LGM_ROOM; LGM_FULL, also where the map, the channels and the hints name too many nodes; LGM_UNKNOWN_PAYMENT; LGM_FOREIGN_CHANNEL; LGM_RECKONED_AHEAD;
 * LGM_RECKONED_BEFORE; LGM_WHOLE; LGM_ABANDONED; LGM_PAYEE_REFUSED; LGM_TRIES_USED_UP; LGM_CHANNELS_SHORT; LGM_PAYEE_SHORT;
 * LGM_PATHS_SHORT; 22 to 26; LGM_TOO_DEAR; 117 to 119; LGM_NUMBERS_USED_UP; LGM_NO_MEMORY.
 */
uint32_t lgm_payer_next(lgm_payer *payer, lgm_map *map, uint64_t payment, const lgm_sight *sight, lgm_part *part, lgm_hop *hops,
                        size_t hops_len, uint8_t *payloads, size_t payloads_len);

/*
 * Notes that a part failed with a failure message (BOLT 4, "Failure Messages"), and learns from it. `place` is that of the node
 * that returned it: 1 is the one that the first hop leads to, 0 the payer itself. `code` is its failure_code. If the message is
 * about the terms of an edge, offer the update that came with it to the map first: `is_renewed` says whether it was accepted.
 *
 * Cost: a copy of what was learnt.
 *
 * LGM_CLOSED; LGM_UNKNOWN_PAYMENT; LGM_UNKNOWN_PART; LGM_NOT_UNDER_WAY; LGM_BEYOND_ROUTE; LGM_FOREIGN_CODE; LGM_NO_MEMORY.
 */
uint32_t lgm_payer_failed(lgm_payer *payer, uint64_t payment, uint64_t part, uint8_t place, uint16_t code, bool is_renewed);

/*
 * Notes that a part failed, and that no failure message could be read. A part of which nothing comes back is under way until its
 * HTLC is resolved, whatever that takes.
 *
 * LGM_CLOSED; LGM_UNKNOWN_PAYMENT; LGM_UNKNOWN_PART; LGM_NOT_UNDER_WAY; LGM_NO_MEMORY.
 */
uint32_t lgm_payer_unreadable(lgm_payer *payer, uint64_t payment, uint64_t part);

/*
 * Notes that the payee took the whole: a preimage came back. All parts that are under way have arrived, also if the payment was
 * abandoned, and what they carry is gone from their edges for good.
 *
 * Cost: a copy of what was learnt.
 *
 * LGM_CLOSED; LGM_UNKNOWN_PAYMENT; LGM_ALREADY_PAID; LGM_NOTHING_UNDER_WAY; LGM_NO_MEMORY.
 */
uint32_t lgm_payer_fulfilled(lgm_payer *payer, uint64_t payment);

/*
 * Sends nothing more for a payment. What is under way is waited for.
 *
 * LGM_CLOSED; LGM_UNKNOWN_PAYMENT; LGM_ALREADY_PAID.
 */
uint32_t lgm_payer_abandon(lgm_payer *payer, uint64_t payment);

/*
 * Forgets a payment of which nothing is under way. What was learnt stays. If it was paid, `reckoned` of lgm_sight is at least
 * the number of parts sent so far from then on.
 *
 * Cost: a step for each payment.
 *
 * LGM_CLOSED; LGM_UNKNOWN_PAYMENT; LGM_UNDER_WAY.
 */
uint32_t lgm_payer_forget(lgm_payer *payer, uint64_t payment);

/*
 * Has what was learnt of edges fade, since balances move: half of it is left for each half-life, both in one unit of time. What
 * then says little is forgotten, and so are edges of channels that the map doesn't have. A half-life of 0 counts as 1.
 *
 * Cost: log n for each edge of which something is known.
 *
 * LGM_CLOSED, of either; LGM_NO_MEMORY.
 */
uint32_t lgm_payer_fade(lgm_payer *payer, lgm_map *map, uint32_t elapsed, uint32_t half_life);

/*
 * Copies what was learnt of edges, and opens a closed handle with it.
 *
 * LGM_CLOSED, of `payer`; LGM_OPEN, of `estimates`; LGM_NO_MEMORY.
 */
uint32_t lgm_payer_learnt(lgm_payer *payer, lgm_estimates *estimates);

/* How many parts were sent, over all payments: the number of the next one. 0 for a closed handle. */
uint64_t lgm_payer_sent(lgm_payer *payer);

/* What became of a payment. */
enum {
    LGM_STAGE_OPEN = 0,      /* parts may be sent */
    LGM_STAGE_ABANDONED = 1, /* nothing more is sent */
    LGM_STAGE_PAID = 2       /* the payee took the whole */
};

/* A payment. */
typedef struct {
    uint64_t amount_msat;
    uint64_t left_msat; /* what is neither under way nor has arrived */
    uint64_t fee_msat;  /* of the parts that are under way or have arrived */
    size_t parts;       /* how many were ever sent */
    size_t parts_held;  /* how many of them haven't failed: they are under way, or have arrived if it is paid */
    uint32_t stage;
} lgm_payment_info;

/*
 * Looks up a payment.
 *
 * Cost: a step for each payment and part.
 *
 * LGM_CLOSED; LGM_UNKNOWN_PAYMENT.
 */
uint32_t lgm_payer_payment(lgm_payer *payer, uint64_t payment, lgm_payment_info *info);

/*
 * Goes through the payments by their numbers: replaces `*payment` by the least one above it or, if `is_first`, by the least of
 * all. With LGM_NONE it is unchanged.
 *
 * Cost: a step for each payment.
 *
 * LGM_CLOSED; LGM_NONE.
 */
uint32_t lgm_payer_next_payment(lgm_payer *payer, bool is_first, uint64_t *payment);

/* How a part ended. */
enum {
    LGM_PART_HELD = 0,       /* it is under way, or has arrived if its payment is paid */
    LGM_PART_UNREADABLE = 1, /* it failed, and no failure message could be read */
    LGM_PART_FAILED = 2      /* it failed with a failure message */
};

/* A part that was sent. */
typedef struct {
    uint64_t part;        /* its number */
    uint64_t amount_msat; /* what the payee gets */
    uint64_t fee_msat;    /* what is sent beyond that */
    size_t hops;          /* how many hops its route has */
    uint32_t blocks;      /* from the height at which it was asked for until its first HTLC expires */
    uint32_t ending;      /* how it ended */
    uint16_t code;        /* the failure_code, of a part that failed with a message; else 0 */
    uint8_t place;        /* the place of the node that returned it; else 0 */
} lgm_part_info;

/*
 * Looks up the part at a place of a payment, from 0 to `parts` of lgm_payment_info, in the order in which they were sent, and
 * writes its hops, with payload lengths of 0. With LGM_ROOM the part is written, but not its hops.
 *
 * LGM_CLOSED; LGM_UNKNOWN_PAYMENT; LGM_NONE, at a place where there is none; LGM_ROOM.
 */
uint32_t lgm_payer_part(lgm_payer *payer, uint64_t payment, size_t place, lgm_part_info *part, lgm_hop *hops, size_t hops_len);

/*
 * Writes all that a payer is as bytes, with a version and a checksum, and their length to `needed`: what lgm_payer_load opens.
 * Save it before a part is sent, and after each call that changed it: a payer that is opened from older bytes doesn't know
 * what is under way, and may pay twice.
 *
 * Cost: all that the payer has, and with room for it two copies of the bytes in memory for a moment.
 *
 * LGM_CLOSED; LGM_ROOM; LGM_NO_MEMORY.
 */
uint32_t lgm_payer_save(lgm_payer *payer, uint8_t *bytes, size_t bytes_len, size_t *needed);

/*
 * Opens a closed handle with the payer that was saved as these bytes.
 *
 * LGM_OPEN; LGM_NOT_SAVED, of bytes that were cut or changed, or of another version; LGM_NO_MEMORY.
 */
uint32_t lgm_payer_load(lgm_payer *payer, const uint8_t *bytes, size_t bytes_len);

/*
 * Answers a peer's query_short_channel_ids (261) or query_channel_range (263) (BOLT 7, "Query Messages"). Writes the
 * replies to `replies`, whole messages, each after its length in eight bytes, little-endian; and the length of all of
 * that to `needed`. A query for another chain is answered too, as BOLT 7 says.
 *
 * Cost: log n for each id, or a step for each channel in the range. The reply is counted first, and with room for it
 * there are two copies of it in memory for a moment.
 *
 * LGM_CLOSED; 1 to 3; LGM_NOT_QUERY; LGM_ROOM; LGM_NO_MEMORY.
 */
uint32_t lgm_query(lgm_map *map, const uint8_t *query, size_t query_len, uint8_t *replies,
                   size_t replies_len, size_t *needed);

/*
 * Finds the messages of the map that pass a peer's gossip_timestamp_filter (265), to be sent when the filter arrives.
 * They are written as by lgm_query.
 *
 * Cost: two passes over the whole map, one of which counts.
 *
 * LGM_CLOSED; 1 to 3; LGM_NOT_FILTER; LGM_CHAIN; LGM_ROOM; LGM_NO_MEMORY.
 */
uint32_t lgm_filter(lgm_map *map, const uint8_t *filter, size_t filter_len, uint8_t *messages,
                    size_t messages_len, size_t *needed);

/*
 * Finds the messages that pass the filter now and didn't at the mark, which are news to a peer. Before the first mark, and
 * in a published map, which has none, these are all that pass. They are written as by lgm_query.
 *
 * Cost: log n for each channel and node that changed since the mark, or for each of the map, if more was accepted than
 * it has channels, and 1,024 more. The first call after a mark also brings the copy of the map there, by what was
 * accepted since the mark before.
 *
 * LGM_CLOSED; 1 to 3; LGM_NOT_FILTER; LGM_CHAIN; LGM_ROOM; LGM_NO_MEMORY.
 */
uint32_t lgm_news(lgm_map *map, const uint8_t *filter, size_t filter_len, uint8_t *messages,
                  size_t messages_len, size_t *needed);

/*
 * Finds the messages that pass the filter in a map and didn't in another, earlier one. They are written as by lgm_query.
 * The chain is that of `after`. The two are different handles, each of a map that changes or of a published one.
 *
 * Cost: a pass over both maps.
 *
 * LGM_CLOSED, of either; 1 to 3; LGM_NOT_FILTER; LGM_CHAIN; LGM_ROOM; LGM_NO_MEMORY.
 */
uint32_t lgm_news_between(lgm_map *before, lgm_map *after, const uint8_t *filter, size_t filter_len,
                          uint8_t *messages, size_t messages_len, size_t *needed);

/*
 * Moves the mark to the map as it is now, or sets the first mark, which takes no memory. From then on each accepted
 * message, close and ban is kept until the mark moves, or until there are more than the map has channels, and 1,024 more:
 * then none are, and the next lgm_news takes the time of the map. Before the first of them that comes after the first mark,
 * or after one that none led to, the map's index is copied. None are kept for a mark on a map without channels.
 *
 * Cost: constant. The next message, close or ban after the first call copies the map, but not its messages. One after a
 * later call does so, too, if more was accepted since the mark before than the map has channels, and 1,024 more.
 *
 * LGM_CLOSED; LGM_PUBLISHED.
 */
uint32_t lgm_mark(lgm_map *map);

/*
 * Writes the query_channel_range (263) that asks a peer for the ids of its channels of `blocks` blocks from `first_block` on, and
 * for the timestamps of their updates (BOLT 7, "Query Messages"), and its length to `needed`. The peer answers with messages
 * of type 264: lgm_lacking tells what the map lacks of each, and lgm_covered how far they go.
 *
 * LGM_CLOSED; LGM_ROOM; LGM_NO_MEMORY.
 */
uint32_t lgm_ask_range(lgm_map *map, uint32_t first_block, uint32_t blocks, uint8_t *query, size_t query_len, size_t *needed);

/*
 * Writes the gossip_timestamp_filter (265) that asks a peer for gossip with timestamps from `first` on, for so many seconds, in
 * the same way.
 *
 * LGM_CLOSED; LGM_ROOM; LGM_NO_MEMORY.
 */
uint32_t lgm_ask_filter(lgm_map *map, uint32_t first, uint32_t seconds, uint8_t *filter, size_t filter_len, size_t *needed);

/*
 * A channel of which a map lacks messages that a peer has. The timestamps are those of the peer's updates by node 1 and by
 * node 2, in seconds since 1970, and 0 without an update, or if the reply tells none: who has pruned an old channel compares
 * them.
 */
typedef struct {
    uint64_t scid;
    uint32_t timestamp_1;
    uint32_t timestamp_2;
    uint8_t flags; /* bit 0: the announcement; bits 1 and 2: the updates of node 1 and node 2; bits 3 and 4: these nodes */
} lgm_lacking_info;

/*
 * Tells what the map lacks of the channels in a peer's reply_channel_range (264), by ascending id: all messages of a channel
 * that it doesn't have, and the updates whose timestamps are above those of its own. Writes them to `lacking`, and how many
 * there are to `needed`. Ids that don't ascend are passed over: BOLT 7 requires that they do.
 *
 * Cost: log n for each id.
 *
 * LGM_CLOSED; 1 to 3; LGM_NOT_REPLY; LGM_CHAIN; LGM_ROOM; LGM_NO_MEMORY.
 */
uint32_t lgm_lacking(lgm_map *map, const uint8_t *reply, size_t reply_len, lgm_lacking_info *lacking, size_t lacking_len,
                     size_t *needed);

/* The most channels of one query: with the flags of each it fits a message. */
#define LGM_MOST_IDS 7000

/*
 * Writes the query_short_channel_ids (261) that asks a peer for what is lacking of the first LGM_MOST_IDS of these channels, or
 * of all if there are fewer, and its length to `needed`. Only their ids and flags count. BOLT 7 requires that ids ascend, and
 * that a peer has answered one query before it gets the next.
 *
 * Cost: a step for each channel.
 *
 * LGM_CLOSED; LGM_ROOM; LGM_NO_MEMORY.
 */
uint32_t lgm_ask_ids(lgm_map *map, const lgm_lacking_info *lacking, size_t lacking_len, uint8_t *query, size_t query_len,
                     size_t *needed);

/*
 * Moves the block up to which the replies to a query cover its range, exclusive, by one reply more: `*next` is at first the first
 * block of the range, and the range is covered once it is at its end or beyond. A reply that begins after `*next` would
 * leave a gap, and one that ends before it adds nothing: with both it is unchanged. So a peer can't claim to have told of a block
 * that no reply has.
 *
 * Cost: the message is read once.
 *
 * LGM_CLOSED; 1 to 3; LGM_NOT_REPLY; LGM_CHAIN; LGM_NO_MEMORY.
 */
uint32_t lgm_covered(lgm_map *map, const uint8_t *reply, size_t reply_len, uint64_t *next);

/*
 * Opens a closed handle with the map as it is now, with its view, for good.
 *
 * If nothing was accepted since the last publication, both share one map. Otherwise the map that was published before the
 * last one catches up, if no handle of it is open any more, and if no more was accepted than the map has channels: the
 * cost is that of applying what it lacks. Else the index of the map is copied, but not its messages, and its view is built.
 * From the first publication on, what is accepted is kept until it is published twice, or until it is more than the map
 * has channels. A published map is published by one more handle of it, as by lgm_share.
 *
 * Cost: what was accepted since the last but one publication; or a copy of the index and a new view. Of a published map
 * constant.
 *
 * LGM_CLOSED, of `map`; LGM_OPEN, of `published`, also if it is the handle of the map itself; LGM_NO_MEMORY.
 */
uint32_t lgm_publish(lgm_map *map, lgm_map *published);

/*
 * Opens a closed handle with what the one of a published map has: one more owner, for another thread. Nothing is copied.
 *
 * LGM_CLOSED, of `published`; LGM_ARGUMENT_PUBLISHED, if that is a map that changes; LGM_OPEN, of `other`, also if it is the
 * same handle; LGM_NO_MEMORY.
 */
uint32_t lgm_share(lgm_map *published, lgm_map *other);

/* How many messages, closes and bans the map has accepted, or had when it was published; 0 for a closed handle. */
uint64_t lgm_version_of(lgm_map *map);

/* The terms of a channel's direction, from its channel_update. If the map has none, all is 0. */
typedef struct {
    bool is_held;
    uint8_t message_flags;
    uint8_t channel_flags; /* bit 0: the direction; bit 1: disabled */
    uint16_t cltv_expiry_delta;
    uint32_t timestamp;
    uint32_t fee_base_msat;
    uint32_t fee_proportional_millionths;
    uint64_t htlc_minimum_msat;
    uint64_t htlc_maximum_msat;
} lgm_direction;

/* A channel. Node 1 is the lesser of the two points, compared as bytes. */
typedef struct {
    uint64_t capacity_sat;
    uint8_t node_1[33];
    uint8_t node_2[33];
    lgm_direction from_1; /* set by node 1, for payments from it to node 2 */
    lgm_direction from_2;
} lgm_channel_info;

/*
 * Looks up a channel.
 *
 * Cost: log n.
 *
 * LGM_CLOSED; LGM_UNKNOWN_CHANNEL.
 */
uint32_t lgm_channel(lgm_map *map, uint64_t scid, lgm_channel_info *channel);

/* A node, from its node_announcement. */
typedef struct {
    uint32_t timestamp;
    uint8_t rgb[3];
    uint8_t alias[32]; /* any bytes */
} lgm_node_info;

/*
 * Looks up a node, and writes its addresses as they were announced, descriptors one after the other, and their length to
 * `needed`. With LGM_ROOM the node is written, but not the addresses.
 *
 * Cost: log n.
 *
 * LGM_CLOSED; LGM_NOT_ANNOUNCED; LGM_ROOM.
 */
uint32_t lgm_node(lgm_map *map, const uint8_t point[33], lgm_node_info *node, uint8_t *addresses,
                  size_t addresses_len, size_t *needed);

/*
 * Writes a message of a channel as it was received, and its length to `needed`: the announcement if `which` is 0, the update
 * that node 1 sets if it is 1, and that of node 2 if it is 2.
 *
 * Cost: log n.
 *
 * LGM_CLOSED; LGM_ARGUMENT_WHICH; LGM_UNKNOWN_CHANNEL; LGM_NONE, without such an update; LGM_ROOM.
 */
uint32_t lgm_channel_message(lgm_map *map, uint64_t scid, uint32_t which, uint8_t *message, size_t message_len,
                             size_t *needed);

/*
 * Writes the announcement of a node in the same way.
 *
 * Cost: log n.
 *
 * LGM_CLOSED; LGM_NOT_ANNOUNCED; LGM_ROOM.
 */
uint32_t lgm_node_message(lgm_map *map, const uint8_t point[33], uint8_t *message, size_t message_len, size_t *needed);

/*
 * Go through the channels of a map by id, and by point, byte by byte, through its nodes with an announcement and through its
 * banned nodes. Each replaces `*scid` or `point` by the least one above it or, if `is_first`, by the least of all. With
 * LGM_NONE it is unchanged. Between two calls the map may change.
 *
 * Cost: log n, or of the number of banned nodes.
 *
 * LGM_CLOSED; LGM_NONE.
 */
uint32_t lgm_next_channel(lgm_map *map, bool is_first, uint64_t *scid);
uint32_t lgm_next_node(lgm_map *map, bool is_first, uint8_t point[33]);
uint32_t lgm_next_banned(lgm_map *map, bool is_first, uint8_t point[33]);

#ifdef __cplusplus
}
#endif

#endif
