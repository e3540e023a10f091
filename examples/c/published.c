/*
 * Tests published maps: what a map had is in them, and nothing else, whatever becomes of the map and of others that are
 * published, also if an allocation fails: each one in turn. The exit status is 0 if all tests pass. Under valgrind it also
 * shows that nothing is freed twice, written past its end, or leaked.
 *
 * It is linked with -Wl,--wrap=malloc,--wrap=realloc, so that it can make allocations fail.
 */
#include "failing.h"

static void closed_handles(void) {
    lgm_map map = {0}, published = {0}, other = {0};
    uint8_t message[QUERY], room[8] = {5, 5, 5, 5, 5, 5, 5, 5};
    size_t needed = 77;
    query(message, 265);
    lgm_free(&published);
    lgm_free(&published);
    expect("a closed map's publication", lgm_publish(&map, &published), LGM_CLOSED);
    expect("a closed map's share", lgm_share(&published, &other), LGM_CLOSED);
    expect("a closed map's version", lgm_version_of(&published), 0);
    expect("its news", lgm_news_between(&other, &published, message, FILTER, room, 8, &needed), LGM_CLOSED);
    expect("what was needed", needed, 77);
    expect("the room", room[0] + room[7], 2 * 5);
    expect("the handles", map.is_open || published.is_open || other.is_open, false);
}

/* ---- what a published map has */

static lgm_payment payment_to_b(void) {
    lgm_payment payment = {.amount_msat = 1000, .expiry = 700000};
    memcpy(payment.payer, a, 33);
    memcpy(payment.payee, b, 33);
    return payment;
}

/* A published map with the channel, its update of this time, and the announcement of a node. */
static void expect_whole(lgm_map *published, uint64_t version, uint32_t time) {
    uint8_t range[QUERY], filter[FILTER], room[2000];
    lgm_payment payment = payment_to_b();
    lgm_hop hops[LGM_MOST_HOPS];
    lgm_lengths lengths;
    lgm_channel_info channel;
    lgm_node_info info;
    size_t needed;
    query(range, 263);
    query(filter, 265);
    expect("a version", lgm_version_of(published), version);
    expect("a count", lgm_count(published), 1);
    AGAIN("a route", lgm_route(published, &payment, hops, LGM_MOST_HOPS, room, sizeof room, &lengths), LGM_OK);
    expect("its hops", lengths.hops, 1);
    AGAIN("a range", lgm_query(published, range, QUERY, room, sizeof room, &needed), LGM_OK);
    expect("its reply", needed, 8 + 45 + 1 + 8);
    AGAIN("a filter", lgm_filter(published, filter, FILTER, room, sizeof room, &needed), LGM_OK);
    expect("its messages", needed, 3 * 8 + ANNOUNCEMENT + UPDATE + NODE);
    expect("a channel", lgm_channel(published, scid, &channel), LGM_OK);
    expect("its time", channel.from_1.timestamp, time);
    expect("a node", lgm_node(published, a, &info, room, sizeof room, &needed), LGM_OK);
    expect("its time", info.timestamp, 9);
}

static void expect_empty(lgm_map *published, uint64_t version) {
    uint8_t room[LGM_MOST_PAYLOADS];
    lgm_payment payment = payment_to_b();
    lgm_hop hops[LGM_MOST_HOPS];
    lgm_lengths lengths;
    lgm_channel_info channel;
    expect("a version", lgm_version_of(published), version);
    expect("a count", lgm_count(published), 0);
    AGAIN("no route", lgm_route(published, &payment, hops, LGM_MOST_HOPS, room, sizeof room, &lengths),
          LGM_NO_ROUTE);
    expect("no channel", lgm_channel(published, scid, &channel), LGM_UNKNOWN_CHANNEL);
}

/* ---- a map that is extended, while one allocation fails */

static void offer_update(lgm_map *map, uint32_t time) {
    uint8_t terms[UPDATE];
    update(terms, time);
    AGAIN("an update", lgm_offer(map, terms, UPDATE, LGM_SIG_BY, a, LGM_FUNDING_NOT_ASKED, 0), LGM_OK);
}

/* Handles that are open already, and a map that changes, which isn't shared, even if there is no memory at all. */
static void expect_open(lgm_map *map, lgm_map *published, lgm_map *other) {
    none_left = true;
    expect("an open handle", lgm_publish(map, published), LGM_OPEN);
    expect("an open handle", lgm_publish(published, other), LGM_OPEN);
    expect("an open handle", lgm_share(published, other), LGM_OPEN);
    expect("the map's own handle", lgm_publish(map, map), LGM_OPEN);
    expect("a published one's own handle", lgm_publish(published, published), LGM_OPEN);
    expect("the same of a share", lgm_share(published, published), LGM_OPEN);
    expect("a map that changes", lgm_share(map, published), LGM_ARGUMENT_PUBLISHED);
    expect("its own handle", lgm_share(map, map), LGM_ARGUMENT_PUBLISHED);
    none_left = false;
}

/* What changes a map is refused of a published one, even if there is no memory at all. */
static void expect_unchanged(lgm_map *published) {
    uint8_t terms[UPDATE];
    update(terms, 99);
    none_left = true;
    expect("an update", lgm_offer(published, terms, UPDATE, LGM_SIG_BY, a, LGM_FUNDING_NOT_ASKED, 0), LGM_PUBLISHED);
    expect("no verdict", lgm_offer(published, terms, UPDATE, 4, a, LGM_FUNDING_NOT_ASKED, 0), LGM_PUBLISHED);
    expect("a close", lgm_close_channel(published, scid), LGM_PUBLISHED);
    expect("a ban", lgm_ban(published, a), LGM_PUBLISHED);
    expect("a mark", lgm_mark(published), LGM_PUBLISHED);
    none_left = false;
}

/* The turns of both networks: the third publication catches up, since nobody has the first any more, and the fourth and fifth
 * are copies, since the ones before are kept. */
static void publications(void) {
    lgm_map map = {0}, first = {0}, second = {0}, third = {0}, fourth = {0}, empty = {0}, shared = {0};
    uint8_t channel[ANNOUNCEMENT], one[NODE], filter[FILTER], room[2000] = {0};
    size_t needed;
    announcement(channel);
    node(one);
    query(filter, 265);
    AGAIN("opening", lgm_open(&map, chain, true, room, 0, seed), LGM_OK);
    AGAIN("a channel", lgm_offer(&map, channel, ANNOUNCEMENT, LGM_SIG_ALL_FOUR, a, LGM_FUNDING_UNSPENT, 100000), LGM_OK);
    AGAIN("a node", lgm_offer(&map, one, NODE, LGM_SIG_BY, a, LGM_FUNDING_NOT_ASKED, 0), LGM_OK);
    offer_update(&map, 5);
    AGAIN("the first", lgm_publish(&map, &first), LGM_OK);
    offer_update(&map, 6);
    AGAIN("the second", lgm_publish(&map, &second), LGM_OK);
    expect_whole(&first, 3, 5);
    lgm_free(&first);
    offer_update(&map, 7);
    AGAIN("the third", lgm_publish(&map, &third), LGM_OK);
    expect_open(&map, &third, &second);
    expect_unchanged(&third);
    offer_update(&map, 8);
    AGAIN("the fourth", lgm_publish(&map, &fourth), LGM_OK);
    AGAIN("another owner", lgm_share(&second, &shared), LGM_OK);
    lgm_free(&second);
    AGAIN("more news", lgm_news_between(&shared, &map, filter, FILTER, room, sizeof room, &needed), LGM_OK);
    expect("news", needed, 8 + UPDATE);
    AGAIN("a close", lgm_close_channel(&map, scid), LGM_OK);
    AGAIN("the fifth", lgm_publish(&map, &empty), LGM_OK);
    expect("the map's version", lgm_version_of(&map), 7);
    lgm_free(&map);
    AGAIN("news", lgm_news_between(&shared, &third, filter, FILTER, room, sizeof room, &needed), LGM_OK);
    expect("news", needed, 8 + UPDATE);
    expect_whole(&shared, 4, 6);
    expect_whole(&third, 5, 7);
    expect_whole(&fourth, 6, 8);
    expect_empty(&empty, 7);
    lgm_free(&shared);
    lgm_free(&third);
    lgm_free(&fourth);
    lgm_free(&empty);
    expect("a published map that was freed", lgm_version_of(&third), 0);
}

int main(void) {
    long requests = 0;
    do {
        has_failed = false;
        left = ++requests;
        publications();
        left = 0;
    } while (has_failed);
    expect("some memory", requests > 20, true);
    closed_handles();
    puts(failures == 0 ? "ok" : "failed");
    return failures != 0;
}
