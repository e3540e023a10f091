/*
 * Tests that calls that fail return the number of the fault, and leave the map and the buffers unchanged, also if an
 * allocation fails: each one in turn. What is refused is refused then, too. The exit status is 0 if all tests pass. Under
 * valgrind it also shows that nothing is freed twice, written past its end, or leaked.
 *
 * It is linked with -Wl,--wrap=malloc,--wrap=realloc, so that it can make allocations fail.
 */
#include "failing.h"

/* ---- the handles */

static void closed_handles(void) {
    lgm_map map = {0};
    lgm_estimates nothing = {0};
    uint8_t message[QUERY], room[8] = {5, 5, 5, 5, 5, 5, 5, 5};
    size_t needed = 77;
    lgm_payment payment = {0};
    lgm_attempt attempt = {.payment = payment};
    lgm_hop hops[1];
    lgm_lengths lengths = {77, 77};
    lgm_channel_info channel = {.capacity_sat = 77};
    lgm_node_info info = {.timestamp = 77};
    uint64_t id = 77;
    uint8_t point[33] = {77};
    query(message, 263);
    lgm_free(&map);
    lgm_free(&map);
    expect("a closed handle's count", lgm_count(&map), 0);
    expect("a closed handle's offer", lgm_offer(&map, message, QUERY, 9, a, 9, 0), LGM_CLOSED);
    expect("a closed handle's wants", lgm_wanted(&map, message, QUERY, point), LGM_CLOSED);
    expect("a closed handle's close", lgm_close_channel(&map, scid), LGM_CLOSED);
    expect("a closed handle's route", lgm_route(&map, &payment, hops, 1, room, 8, &lengths), LGM_CLOSED);
    expect("a closed handle's attempt", lgm_attempt_route(&map, &attempt, &nothing, hops, 1, room, 8, &lengths), LGM_CLOSED);
    expect("a closed handle's reason", lgm_no_route_reason(&map, &attempt), LGM_CLOSED);
    expect("a closed handle's query", lgm_query(&map, message, QUERY, room, 8, &needed), LGM_CLOSED);
    expect("a closed handle's filter", lgm_filter(&map, message, QUERY, room, 8, &needed), LGM_CLOSED);
    expect("a closed handle's news", lgm_news(&map, message, QUERY, room, 8, &needed), LGM_CLOSED);
    expect("a closed handle's mark", lgm_mark(&map), LGM_CLOSED);
    expect("a closed handle's channel", lgm_channel(&map, scid, &channel), LGM_CLOSED);
    expect("a closed handle's node", lgm_node(&map, a, &info, room, 8, &needed), LGM_CLOSED);
    expect("a closed handle's ban", lgm_ban(&map, a), LGM_CLOSED);
    expect("a closed handle's message", lgm_channel_message(&map, scid, 3, room, 8, &needed), LGM_CLOSED);
    expect("a closed handle's announcement", lgm_node_message(&map, a, room, 8, &needed), LGM_CLOSED);
    expect("a closed handle's next channel", lgm_next_channel(&map, true, &id), LGM_CLOSED);
    expect("a closed handle's next node", lgm_next_node(&map, true, point), LGM_CLOSED);
    expect("a closed handle's next ban", lgm_next_banned(&map, true, point), LGM_CLOSED);
    expect("the id", id, 77);
    expect("the point", point[0], 77);
    expect("what was needed", needed, 77);
    expect("the lengths", lengths.hops + lengths.payloads, 2 * 77);
    expect("the channel", channel.capacity_sat, 77);
    expect("the node", info.timestamp, 77);
    expect("the room", room[0] + room[7], 2 * 5);
    expect("the handle", map.is_open || nothing.is_open, false);
}

static void opening(lgm_map *map) {
    uint8_t none = 0;
    expect("the version", lgm_version(), LGM_VERSION);
    expect("opening", lgm_open(map, chain, true, &none, 0, seed), LGM_OK);
    void *at = map->at;
    expect("opening again", lgm_open(map, chain, true, &none, 0, seed), LGM_OPEN);
    expect("the map", map->at == at, true);
}

/* What lgm_wanted returns, and the first two bytes of the key that it writes over zeros. It takes no memory. */
static void expect_wanted(const char *what, lgm_map *map, const uint8_t *message, size_t len, uint32_t number,
                          uint32_t begins) {
    uint8_t signer[33] = {0};
    none_left = true;
    expect(what, lgm_wanted(map, message, len, signer), number);
    none_left = false;
    expect(what, (uint32_t)(signer[0] << 8 | signer[1]), begins);
}

static void offering(lgm_map *map) {
    uint8_t channel[ANNOUNCEMENT], terms[UPDATE], one[NODE], nothing = 0;
    announcement(channel);
    update(terms, 5);
    node(one);
    expect("a verdict that is none", lgm_offer(map, channel, ANNOUNCEMENT, 4, a, LGM_FUNDING_UNSPENT, 100000),
           LGM_ARGUMENT_SIG);
    expect("another one", lgm_offer(map, channel, ANNOUNCEMENT, LGM_SIG_ALL_FOUR, a, 4, 100000), LGM_ARGUMENT_FUNDING);
    expect("both", lgm_offer(map, channel, ANNOUNCEMENT, 4, a, 4, 100000), LGM_ARGUMENT_SIG);
    expect("no bytes", lgm_offer(map, &nothing, 0, LGM_SIG_ALL_FOUR, a, LGM_FUNDING_UNSPENT, 100000), LGM_MALFORMED);
    expect("signatures", lgm_offer(map, channel, ANNOUNCEMENT, LGM_SIG_NOT_ALL_FOUR, a, LGM_FUNDING_UNSPENT, 100000),
           LGM_SIGNATURE);
    expect("an output that is spent",
           lgm_offer(map, channel, ANNOUNCEMENT, LGM_SIG_ALL_FOUR, a, LGM_FUNDING_SPENT, 0), LGM_FUNDING);
    expect("an update of no channel", lgm_offer(map, terms, UPDATE, LGM_SIG_BY, a, LGM_FUNDING_NOT_ASKED, 0),
           LGM_UNKNOWN_CHANNEL);
    expect("nothing accepted", lgm_count(map), 0);
    expect_wanted("no bytes", map, &nothing, 0, LGM_MALFORMED, 0);
    expect_wanted("a channel", map, channel, ANNOUNCEMENT, LGM_OK, 0);
    expect_wanted("an update of no channel", map, terms, UPDATE, LGM_UNKNOWN_CHANNEL, 0);
    expect_wanted("a node of no channel", map, one, NODE, LGM_UNKNOWN_NODE, 0);
    expect("a channel", lgm_offer(map, channel, ANNOUNCEMENT, LGM_SIG_ALL_FOUR, a, LGM_FUNDING_UNSPENT, 100000),
           LGM_OK);
    expect("the same", lgm_offer(map, channel, ANNOUNCEMENT, LGM_SIG_ALL_FOUR, a, LGM_FUNDING_UNSPENT, 100000),
           LGM_KNOWN);
    expect_wanted("the same", map, channel, ANNOUNCEMENT, LGM_KNOWN, 0);
    expect_wanted("its update", map, terms, UPDATE, LGM_OK, 0x020a);
    terms[111] = 1;
    expect_wanted("its other update", map, terms, UPDATE, LGM_OK, 0x020b);
    terms[111] = 0;
    expect("its update", lgm_offer(map, terms, UPDATE, LGM_SIG_BY, a, LGM_FUNDING_NOT_ASKED, 0), LGM_OK);
    expect_wanted("the same update", map, terms, UPDATE, LGM_NOT_NEWER, 0);
    expect_wanted("a node", map, one, NODE, LGM_OK, 0x020a);
    expect("the same update", lgm_offer(map, terms, UPDATE, LGM_SIG_BY, a, LGM_FUNDING_NOT_ASKED, 0), LGM_NOT_NEWER);
    expect("a node", lgm_offer(map, one, NODE, LGM_SIG_BY, a, LGM_FUNDING_NOT_ASKED, 0), LGM_OK);
    expect("one channel", lgm_count(map), 1);
    expect("a close of no channel", lgm_close_channel(map, scid + 1), LGM_UNKNOWN_CHANNEL);
}

static void looking(lgm_map *map) {
    lgm_channel_info channel = {0};
    lgm_node_info info = {0};
    uint8_t addresses[3] = {5, 5, 5};
    size_t needed = 0;
    expect("the channel", lgm_channel(map, scid, &channel), LGM_OK);
    expect("its capacity", channel.capacity_sat, 100000);
    expect("its nodes", memcmp(channel.node_1, a, 33) == 0 && memcmp(channel.node_2, b, 33) == 0, true);
    expect("terms of node 1", channel.from_1.is_held, true);
    expect("their delta", channel.from_1.cltv_expiry_delta, 40);
    expect("their base fee", channel.from_1.fee_base_msat, 1000);
    expect("their millionths", channel.from_1.fee_proportional_millionths, 100);
    expect("their time", channel.from_1.timestamp, 5);
    expect("their maximum", channel.from_1.htlc_maximum_msat, 100000000);
    expect("terms of node 2", channel.from_2.is_held, false);
    expect("another channel", lgm_channel(map, scid + 1, &channel), LGM_UNKNOWN_CHANNEL);
    expect("a node with no room", lgm_node(map, a, &info, addresses, 1, &needed), LGM_ROOM);
    expect("what its addresses need", needed, 2);
    expect("the room", addresses[0], 5);
    expect("a node", lgm_node(map, a, &info, addresses, 3, &needed), LGM_OK);
    expect("its addresses", addresses[0] << 16 | addresses[1] << 8 | addresses[2], 0xff0105);
    expect("its time", info.timestamp, 9);
    expect("its name", memcmp(info.alias, "alice", 6), 0);
    expect("its color", memcmp(info.rgb, "rgb", 3), 0);
    expect("another node", lgm_node(map, b, &info, addresses, 3, &needed), LGM_NOT_ANNOUNCED);
}

/* What a map lists: one channel, one node with an announcement, and no banned node. */
static void listing(lgm_map *map) {
    uint8_t point[33] = {77};
    uint64_t id = 77;
    expect("the first channel", lgm_next_channel(map, true, &id), LGM_OK);
    expect("its id", id, scid);
    expect("no other channel", lgm_next_channel(map, false, &id), LGM_NONE);
    expect("the id", id, scid);
    id--;
    expect("the channel above", lgm_next_channel(map, false, &id), LGM_OK);
    expect("its id", id, scid);
    expect("no banned node", lgm_next_banned(map, true, point), LGM_NONE);
    expect("the point", point[0], 77);
    expect("the first node", lgm_next_node(map, true, point), LGM_OK);
    expect("its point", memcmp(point, a, 33), 0);
    expect("no other node", lgm_next_node(map, false, point), LGM_NONE);
}

/* The messages of the channel and the node, as they were offered, with a buffer of each length. */
static void expect_message(lgm_map *map, uint32_t which, const uint8_t *wanted, size_t len) {
    for (size_t room = len - 2; room <= len + 2; room++) {
        uint8_t *buffer = malloc(room);
        size_t needed = 0;
        memset(buffer, 5, room);
        none_left = true;
        uint32_t number = which == 3 ? lgm_node_message(map, a, buffer, room, &needed)
                                     : lgm_channel_message(map, scid, which, buffer, room, &needed);
        none_left = false;
        expect("a message", number, room < len ? LGM_ROOM : LGM_OK);
        expect("its length", needed, len);
        expect("its bytes", room < len || memcmp(buffer, wanted, len) == 0, true);
        for (size_t i = room < len ? 0 : len; i < room; i++) expect("the room", buffer[i], 5);
        free(buffer);
    }
}

static void stored_messages(lgm_map *map) {
    uint8_t channel[ANNOUNCEMENT], terms[UPDATE], one[NODE], room[ANNOUNCEMENT];
    size_t needed = 77;
    announcement(channel);
    update(terms, 5);
    node(one);
    expect_message(map, 0, channel, ANNOUNCEMENT);
    expect_message(map, 1, terms, UPDATE);
    expect_message(map, 3, one, NODE);
    expect("no update", lgm_channel_message(map, scid, 2, room, sizeof room, &needed), LGM_NONE);
    expect("no message", lgm_channel_message(map, scid, 3, room, sizeof room, &needed), LGM_ARGUMENT_WHICH);
    expect("no channel", lgm_channel_message(map, scid + 1, 0, room, sizeof room, &needed), LGM_UNKNOWN_CHANNEL);
    expect("no channel", lgm_channel_message(map, scid + 1, 2, room, sizeof room, &needed), LGM_UNKNOWN_CHANNEL);
    expect("no node", lgm_node_message(map, b, room, sizeof room, &needed), LGM_NOT_ANNOUNCED);
    expect("what was needed", needed, 77);
}

/* A map in which node A is banned, while one allocation fails. */
static void banning(void) {
    lgm_map map = {0};
    uint8_t channel[ANNOUNCEMENT], one[NODE], filter[FILTER], point[33] = {0}, room[2000] = {0};
    size_t needed;
    announcement(channel);
    node(one);
    query(filter, 265);
    AGAIN("opening", lgm_open(&map, chain, true, room, 0, seed), LGM_OK);
    AGAIN("a channel", lgm_offer(&map, channel, ANNOUNCEMENT, LGM_SIG_ALL_FOUR, a, LGM_FUNDING_UNSPENT, 100000), LGM_OK);
    AGAIN("a mark", lgm_mark(&map), LGM_OK);
    AGAIN("a node", lgm_offer(&map, one, NODE, LGM_SIG_BY, a, LGM_FUNDING_NOT_ASKED, 0), LGM_OK);
    AGAIN("a ban", lgm_ban(&map, a), LGM_OK);
    none_left = true;
    expect("the same ban", lgm_ban(&map, a), LGM_BANNED);
    expect("its channel", lgm_offer(&map, channel, ANNOUNCEMENT, LGM_SIG_ALL_FOUR, a, LGM_FUNDING_UNSPENT, 100000),
           LGM_BANNED);
    expect("its node", lgm_offer(&map, one, NODE, LGM_SIG_BY, a, LGM_FUNDING_NOT_ASKED, 0), LGM_BANNED);
    expect("no channel", lgm_count(&map), 0);
    expect("no node", lgm_next_node(&map, true, point), LGM_NONE);
    expect("the banned node", lgm_next_banned(&map, true, point), LGM_OK);
    expect("its point", memcmp(point, a, 33), 0);
    expect("no other", lgm_next_banned(&map, false, point), LGM_NONE);
    expect("what was accepted", lgm_version_of(&map), 3);
    none_left = false;
    AGAIN("a ban", lgm_ban(&map, b), LGM_OK);
    expect("the next banned node", lgm_next_banned(&map, false, point), LGM_OK);
    expect("its point", memcmp(point, b, 33), 0);
    AGAIN("no news", lgm_news(&map, filter, FILTER, room, sizeof room, &needed), LGM_OK);
    expect("no news", needed, 0);
    lgm_free(&map);
}

/* Three channels are pruned, while one allocation fails: those that were closed are told, and another call goes on. */
static void pruning(void) {
    lgm_map map = {0};
    lgm_pruned pruned[3];
    uint8_t channel[ANNOUNCEMENT];
    size_t needed, told = 0;
    uint32_t number;
    announcement(channel);
    AGAIN("opening", lgm_open(&map, chain, true, channel, 0, seed), LGM_OK);
    for (uint64_t i = 0; i < 3; i++) {
        put_number(channel + 292, scid + (i << 16), 8);
        AGAIN("a channel", lgm_offer(&map, channel, ANNOUNCEMENT, LGM_SIG_ALL_FOUR, a, LGM_FUNDING_UNSPENT, 100000), LGM_OK);
    }
    AGAIN("a mark", lgm_mark(&map), LGM_OK);
    do {
        number = lgm_prune(&map, 0, 600001, pruned, 3, &needed);
        for (size_t i = 0; i < needed; i++) expect("an id", pruned[i].scid, scid + ((told + i) << 16));
        told += needed;
        expect("what is left", lgm_count(&map), 3 - told);
        expect("what was accepted", lgm_version_of(&map), 3 + told);
    } while (number == LGM_NO_MEMORY && has_failed);
    expect("pruning", number, LGM_OK);
    expect("what was pruned", told, 3);
    lgm_free(&map);
}

/* Each call with a buffer of each length: nothing is written where it is too short, nor past the answer. */
typedef uint32_t messages_call(lgm_map *, const uint8_t *, size_t, uint8_t *, size_t, size_t *);

static void expect_messages(const char *what, lgm_map *map, messages_call *call, const uint8_t *message, size_t len,
                            size_t wanted) {
    for (size_t room = 1; room <= wanted + 2; room++) {
        uint8_t *buffer = malloc(room);
        size_t needed = 0;
        memset(buffer, 5, room);
        expect(what, call(map, message, len, buffer, room, &needed), room < wanted ? LGM_ROOM : LGM_OK);
        expect(what, needed, wanted);
        for (size_t i = room < wanted ? 0 : wanted; i < room; i++) expect(what, buffer[i], 5);
        free(buffer);
    }
}

static void asking(lgm_map *map) {
    uint8_t range[QUERY], other[QUERY], room[1];
    size_t needed = 77;
    query(range, 263);
    query(other, 265);
    /* One reply: 45 bytes before the ids, the byte of their encoding, and one id. */
    expect_messages("a range", map, lgm_query, range, QUERY, 8 + 45 + 1 + 8);
    expect_messages("a filter", map, lgm_filter, other, FILTER, 3 * 8 + ANNOUNCEMENT + UPDATE + NODE);
    expect_messages("news before a mark", map, lgm_news, other, FILTER, 3 * 8 + ANNOUNCEMENT + UPDATE + NODE);
    expect("a mark", lgm_mark(map), LGM_OK);
    expect_messages("no news", map, lgm_news, other, FILTER, 0);
    uint8_t terms[UPDATE];
    update(terms, 6);
    expect("an update", lgm_offer(map, terms, UPDATE, LGM_SIG_BY, a, LGM_FUNDING_NOT_ASKED, 0), LGM_OK);
    expect_messages("news", map, lgm_news, other, FILTER, 8 + UPDATE);
    expect("a mark", lgm_mark(map), LGM_OK);
    expect_messages("no more news", map, lgm_news, other, FILTER, 0);
    expect("a filter as a query", lgm_query(map, other, FILTER, room, 1, &needed), LGM_NOT_QUERY);
    expect("a query as a filter", lgm_filter(map, range, QUERY, room, 1, &needed), LGM_NOT_FILTER);
    expect("a query as a filter", lgm_news(map, range, QUERY, room, 1, &needed), LGM_NOT_FILTER);
    other[2] = 0xd1;
    expect("another chain", lgm_filter(map, other, FILTER, room, 1, &needed), LGM_CHAIN);
    expect("bytes that are cut", lgm_query(map, range, QUERY - 1, room, 1, &needed), LGM_MALFORMED);
    expect("what was needed", needed, 77);
}

static void routing(lgm_map *map) {
    lgm_payment payment = {.amount_msat = 1000, .expiry = 700000};
    lgm_lengths lengths = {0, 0};
    memcpy(payment.payer, a, 33);
    memcpy(payment.payee, b, 33);
    for (size_t room = 1; room <= 60; room++) {
        lgm_hop *hops = malloc(2 * sizeof *hops);
        uint8_t *payloads = malloc(room);
        memset(hops, 5, 2 * sizeof *hops);
        memset(payloads, 5, room);
        uint32_t number = lgm_route(map, &payment, hops, 2, payloads, room, &lengths);
        expect("a route's hops", lengths.hops, 1);
        expect("a route", number, room < lengths.payloads ? LGM_ROOM : LGM_OK);
        for (size_t i = number == LGM_OK ? lengths.payloads : 0; i < room; i++) expect("payloads", payloads[i], 5);
        expect("hops", hops[1].scid, 0x0505050505050505);
        expect("the hop", hops[0].scid, number == LGM_OK ? scid : 0x0505050505050505);
        expect("no room for hops", lgm_route(map, &payment, hops, 0, payloads, room, &lengths), LGM_ROOM);
        free(hops);
        free(payloads);
    }
    lgm_hop hop;
    uint8_t payloads[LGM_MOST_PAYLOADS];
    lengths.hops = 77;
    payment.amount_msat = 0;
    expect("no amount", lgm_route(map, &payment, &hop, 1, payloads, sizeof payloads, &lengths), LGM_AMOUNT_ZERO);
    payment.amount_msat = UINT64_MAX;
    expect("too great an amount", lgm_route(map, &payment, &hop, 1, payloads, sizeof payloads, &lengths),
           LGM_AMOUNT_TOO_LARGE);
    payment.amount_msat = 1000;
    payment.expiry = UINT32_MAX;
    expect("too late", lgm_route(map, &payment, &hop, 1, payloads, sizeof payloads, &lengths), LGM_EXPIRY_TOO_LARGE);
    payment.expiry = 700000;
    memcpy(payment.payee, a, 33);
    expect("to itself", lgm_route(map, &payment, &hop, 1, payloads, sizeof payloads, &lengths), LGM_SELF_PAYMENT);
    memcpy(payment.payee, key, 33);
    expect("to nowhere", lgm_route(map, &payment, &hop, 1, payloads, sizeof payloads, &lengths), LGM_NO_ROUTE);
    expect("the lengths", lengths.hops, 77);
}

/* A pointer before the length 0 may be null. The map has one channel, with terms of node 1, and a node. */
static void null_with_no_items(lgm_map *map) {
    lgm_map other = {0};
    lgm_estimates nothing = {0};
    lgm_payment payment = {.amount_msat = 1000, .expiry = 700000};
    lgm_lengths lengths = {0, 0};
    lgm_node_info info;
    uint8_t range[QUERY], filter[FILTER];
    size_t needed = 77;
    query(range, 263);
    query(filter, 265);
    memcpy(payment.payer, a, 33);
    memcpy(payment.payee, b, 33);
    for (int all_known = 0; all_known < 2; all_known++) {
        expect("null for known", lgm_open(&other, chain, all_known, NULL, 0, seed), LGM_OK);
        expect("null for messages", lgm_filter(&other, filter, FILTER, NULL, 0, &needed), LGM_OK);
        expect("no messages", needed, 0);
        lgm_free(&other);
    }
    expect("null for a message", lgm_offer(map, NULL, 0, LGM_SIG_NOBODY, a, LGM_FUNDING_NOT_ASKED, 0), LGM_MALFORMED);
    expect("null for a query", lgm_query(map, NULL, 0, NULL, 0, &needed), LGM_MALFORMED);
    expect("null for a filter", lgm_news(map, NULL, 0, NULL, 0, &needed), LGM_MALFORMED);
    expect("null for replies", lgm_query(map, range, QUERY, NULL, 0, &needed), LGM_ROOM);
    expect("null for messages", lgm_filter(map, filter, FILTER, NULL, 0, &needed), LGM_ROOM);
    expect("null for news", lgm_news(map, filter, FILTER, NULL, 0, &needed), LGM_ROOM);
    expect("null for a route", lgm_route(map, &payment, NULL, 0, NULL, 0, &lengths), LGM_ROOM);
    expect("its hops", lengths.hops, 1);
    expect("null for lists",
           lgm_attempt_route(map, &(lgm_attempt){.payment = payment}, &nothing, NULL, 0, NULL, 0, &lengths), LGM_ROOM);
    expect("its hops", lengths.hops, 1);
    expect("null for lists, and a reason", lgm_no_route_reason(map, &(lgm_attempt){.payment = payment}), LGM_OK);
    expect("null for a message", lgm_fault_of(NULL, 0), LGM_FAULT_SHORT);
    expect("null for addresses", lgm_node(map, a, &info, NULL, 0, &needed), LGM_ROOM);
    expect("their length", needed, 2);
}

/* The header's words, as the compiler has them, are the library's. */
static void words(void) {
    for (uint32_t number = 0; number < 1000; number++) {
        uint8_t word[LGM_WORD_LEN];
        memset(word, 5, sizeof word);
        lgm_word(number, word);
        expect("a word's end", word[LGM_WORD_LEN - 1], 0);
        expect("a text", strcmp((const char *)word, lgm_text(number)), 0);
    }
}

/* The first fault of a message, which takes no memory but of a query with lists. */
static void first_faults(void) {
    static const uint8_t unknown[2] = {1, 3}, even[2] = {1, 4}, ids[37] = {1, 5, [35] = 1, [36] = 1};
    uint8_t channel[ANNOUNCEMENT];
    announcement(channel);
    none_left = true;
    expect("no fault", lgm_fault_of(channel, ANNOUNCEMENT), LGM_OK);
    expect("a byte less", lgm_fault_of(channel, ANNOUNCEMENT - 1), LGM_FAULT_CUT);
    expect("one byte", lgm_fault_of(channel, 1), LGM_FAULT_SHORT);
    expect("an odd type", lgm_fault_of(unknown, 2), LGM_IGNORED);
    expect("an even type", lgm_fault_of(even, 2), LGM_UNKNOWN_EVEN);
    none_left = false;
    AGAIN("an encoding", lgm_fault_of(ids, 37), LGM_FAULT_ENCODING);
}

/* What is refused even if there is no memory at all. */
static void refused_without_memory(lgm_map *map, lgm_payment payment) {
    uint8_t channel[ANNOUNCEMENT], other[FILTER], room[1] = {0};
    lgm_hop hop;
    lgm_lengths lengths;
    size_t needed;
    announcement(channel);
    query(other, 265);
    payment.amount_msat = 0;
    none_left = true;
    expect("opening again", lgm_open(map, chain, true, room, 0, seed), LGM_OPEN);
    expect("a known channel", lgm_offer(map, channel, ANNOUNCEMENT, LGM_SIG_ALL_FOUR, a, LGM_FUNDING_UNSPENT, 100000),
           LGM_KNOWN);
    expect("a close of no channel", lgm_close_channel(map, scid + 1), LGM_UNKNOWN_CHANNEL);
    expect("no amount", lgm_route(map, &payment, &hop, 1, room, 1, &lengths), LGM_AMOUNT_ZERO);
    expect("a filter as a query", lgm_query(map, other, FILTER, room, 1, &needed), LGM_NOT_QUERY);
    other[2] = 0xd1;
    expect("another chain", lgm_news(map, other, FILTER, room, 1, &needed), LGM_CHAIN);
    none_left = false;
}

/* Each call once, while one allocation fails. */
/* A hop from a to b, and what b gets beside it: metadata, and a custom record. */
static lgm_hop one_hop(void) {
    lgm_hop hop = {.scid = scid, .amount_msat = 1000, .payload_len = 77, .expiry = 700000};
    memcpy(hop.from, a, 33);
    memcpy(hop.to, b, 33);
    return hop;
}

static const uint8_t bytes[3] = {1, 2, 3};
static const lgm_record records[2] = {{65536, bytes, 3}, {65537, NULL, 0}};
static const lgm_arrival arrival = {
    .total_msat = 3000, .metadata = bytes, .metadata_len = 3, .records = records, .records_len = 2};

/* 45 bytes as of a payment in one part, and records of 5, 9 and 6 bytes. */
static void payloads_without_memory(void) {
    lgm_hop hop = one_hop();
    lgm_lengths lengths = {77, 77};
    uint8_t room[LGM_MOST_PAYLOADS] = {5};
    AGAIN("payloads", lgm_payloads(&arrival, &hop, 1, room, sizeof room, &lengths), LGM_OK);
    expect("their length", lengths.payloads, 1 + 45 + 5 + 9 + 6);
    expect("that of the hop", hop.payload_len, lengths.payloads);
    expect("the length in front", room[0], lengths.payloads - 1);
}

static void payloads(void) {
    static const lgm_record descending[2] = {{65537, bytes, 3}, {65536, bytes, 3}}, reserved[1] = {{65535, bytes, 3}};
    lgm_arrival other = arrival;
    lgm_hop hop = one_hop(), two[2] = {one_hop(), one_hop()};
    lgm_lengths lengths = {77, 77};
    uint8_t room[LGM_MOST_PAYLOADS] = {5};
    none_left = true;
    expect("no hops", lgm_payloads(&arrival, NULL, 0, room, sizeof room, &lengths), LGM_ARGUMENT_HOPS);
    expect("hops that don't follow", lgm_payloads(&arrival, two, 2, room, sizeof room, &lengths), LGM_ARGUMENT_HOPS);
    expect("no memory", lgm_payloads(&arrival, &hop, 1, room, sizeof room, &lengths), LGM_NO_MEMORY);
    none_left = false;
    other.records = descending;
    expect("types that descend", lgm_payloads(&other, &hop, 1, room, sizeof room, &lengths), LGM_ARGUMENT_RECORD_ORDER);
    other.records = reserved;
    other.records_len = 1;
    expect("a type that isn't custom", lgm_payloads(&other, &hop, 1, room, sizeof room, &lengths), LGM_ARGUMENT_RECORD_TYPE);
    expect("the lengths", lengths.hops + lengths.payloads, 2 * 77);
    expect("the hop", hop.payload_len, 77);
    expect("the room", room[0], 5);
    expect("null for payloads", lgm_payloads(&arrival, &hop, 1, NULL, 0, &lengths), LGM_ROOM);
    expect("their length", lengths.payloads, 1 + 45 + 5 + 9 + 6);
    expect("the hop", hop.payload_len, 77);
    other = (lgm_arrival){.total_msat = 3000};
    expect("null for metadata and records", lgm_payloads(&other, &hop, 1, room, sizeof room, &lengths), LGM_OK);
    expect("the length", hop.payload_len, 1 + 45);
}

static void out_of_memory(void) {
    lgm_map map = {0};
    lgm_payment payment = {.amount_msat = 1000, .expiry = 700000};
    lgm_hop hops[LGM_MOST_HOPS];
    lgm_lengths lengths;
    uint8_t channel[ANNOUNCEMENT], terms[UPDATE], one[NODE], range[QUERY], other[FILTER], room[2000], known = 0;
    size_t needed;
    announcement(channel);
    node(one);
    query(range, 263);
    query(other, 265);
    memcpy(payment.payer, a, 33);
    memcpy(payment.payee, b, 33);
    AGAIN("opening", lgm_open(&map, chain, false, &known, 1, seed), LGM_OK);
    AGAIN("a channel", lgm_offer(&map, channel, ANNOUNCEMENT, LGM_SIG_ALL_FOUR, a, LGM_FUNDING_UNSPENT, 100000),
          LGM_OK);
    AGAIN("a mark", lgm_mark(&map), LGM_OK);
    for (uint32_t time = 1; time <= 2; time++) {
        update(terms, time);
        AGAIN("an update", lgm_offer(&map, terms, UPDATE, LGM_SIG_BY, a, LGM_FUNDING_NOT_ASKED, 0), LGM_OK);
        expect("the same", lgm_offer(&map, terms, UPDATE, LGM_SIG_BY, a, LGM_FUNDING_NOT_ASKED, 0), LGM_NOT_NEWER);
        AGAIN("news", lgm_news(&map, other, FILTER, room, sizeof room, &needed), LGM_OK);
        expect("news", needed, 8 + UPDATE + (time == 1 ? 8 + ANNOUNCEMENT : 0));
        AGAIN("a mark", lgm_mark(&map), LGM_OK);
    }
    AGAIN("a node", lgm_offer(&map, one, NODE, LGM_SIG_BY, a, LGM_FUNDING_NOT_ASKED, 0), LGM_OK);
    refused_without_memory(&map, payment);
    AGAIN("a route", lgm_route(&map, &payment, hops, LGM_MOST_HOPS, room, sizeof room, &lengths), LGM_OK);
    expect("its hops", lengths.hops, 1);
    refused_without_memory(&map, payment);
    AGAIN("a range", lgm_query(&map, range, QUERY, room, sizeof room, &needed), LGM_OK);
    expect("its reply", needed, 8 + 45 + 1 + 8);
    AGAIN("a filter", lgm_filter(&map, other, FILTER, room, sizeof room, &needed), LGM_OK);
    expect("its messages", needed, 3 * 8 + ANNOUNCEMENT + UPDATE + NODE);
    AGAIN("a close", lgm_close_channel(&map, scid), LGM_OK);
    expect("no channel", lgm_count(&map), 0);
    lgm_free(&map);
}

int main(void) {
    lgm_map map = {0};
    long requests = 0;
    do {
        has_failed = false;
        left = ++requests;
        out_of_memory();
        banning();
        pruning();
        payloads_without_memory();
        left = 0;
    } while (has_failed);
    expect("some memory", requests > 20, true);
    closed_handles();
    words();
    first_faults();
    payloads();
    opening(&map);
    offering(&map);
    looking(&map);
    listing(&map);
    stored_messages(&map);
    null_with_no_items(&map);
    routing(&map);
    asking(&map);
    expect("a close", lgm_close_channel(&map, scid), LGM_OK);
    expect("no channel", lgm_count(&map), 0);
    lgm_free(&map);
    lgm_free(&map);
    expect("a handle that was freed", lgm_close_channel(&map, scid), LGM_CLOSED);
    opening(&map);
    lgm_free(&map);
    puts(failures == 0 ? "ok" : "failed");
    return failures != 0;
}
