/*
 * Tests a map as bytes, estimates as bytes, and what a map lacks of a peer's, also if an allocation fails: each one in turn. A call
 * that is out of memory changes nothing, and does what it should when it is made again. The exit status is 0 if all tests pass.
 * Under valgrind it also shows that nothing is freed twice, read or written past its end, or leaked.
 *
 * It is linked with -Wl,--wrap=malloc,--wrap=realloc, so that it can make allocations fail.
 */
#include "failing.h"

enum { MOST_BYTES = 1 << 13, REPLY = 65, HEAD = 52, CHECKSUM = 16 };

static const uint8_t other_seed[16] = {9};

/* Opens a map with a channel, its update, a node and a ban. */
static void open_map(lgm_map *map) {
    uint8_t message[ANNOUNCEMENT], none = 0;
    AGAIN("opening a map", lgm_open(map, chain, true, &none, 0, seed), LGM_OK);
    announcement(message);
    AGAIN("a channel", lgm_offer(map, message, ANNOUNCEMENT, LGM_SIG_ALL_FOUR, a, LGM_FUNDING_UNSPENT, 100000), LGM_OK);
    update(message, 5);
    AGAIN("its update", lgm_offer(map, message, UPDATE, LGM_SIG_BY, a, LGM_FUNDING_NOT_ASKED, 0), LGM_OK);
    node(message);
    AGAIN("a node", lgm_offer(map, message, NODE, LGM_SIG_BY, a, LGM_FUNDING_NOT_ASKED, 0), LGM_OK);
    AGAIN("a ban", lgm_ban(map, key), LGM_OK);
}

/* A buffer whose bytes show whether they were written. */
static void fresh(uint8_t *bytes) {
    memset(bytes, 77, MOST_BYTES);
}

static void expect_fresh(const char *what, const uint8_t *bytes) {
    for (size_t i = 0; i < MOST_BYTES; i++) expect(what, bytes[i], 77);
}

/* Saves a map, whose bytes are unchanged where memory or room is short. The length of what was written. */
static size_t save(lgm_map *map, uint8_t *bytes) {
    size_t needed = 77;
    fresh(bytes);
    uint32_t number = lgm_save(map, bytes, 100, &needed);
    if (number == LGM_NO_MEMORY) {
        expect("a length without memory", needed, 77);
        number = lgm_save(map, bytes, 100, &needed);
    }
    expect("a short buffer", number, LGM_ROOM);
    expect_fresh("a short buffer's bytes", bytes);
    size_t length = needed;
    number = lgm_save(map, bytes, MOST_BYTES, &needed);
    if (number == LGM_NO_MEMORY) {
        expect_fresh("bytes without memory", bytes);
        number = lgm_save(map, bytes, MOST_BYTES, &needed);
    }
    expect("saving", number, LGM_OK);
    expect("the length", needed, length);
    for (size_t i = needed; i < MOST_BYTES; i++) expect("bytes behind the map", bytes[i], 77);
    return needed;
}

/* Loads a map, which stays closed where memory is short. */
static void load(lgm_map *map, const uint8_t *bytes, size_t len) {
    uint8_t none = 0;
    uint32_t number = lgm_load(map, chain, true, &none, 0, other_seed, bytes, len);
    if (number == LGM_NO_MEMORY) {
        expect("a handle without memory", map->is_open, false);
        number = lgm_load(map, chain, true, &none, 0, other_seed, bytes, len);
    }
    expect("loading", number, LGM_OK);
    expect("loading again", lgm_load(map, chain, true, &none, 0, other_seed, bytes, len), LGM_OPEN);
}

/* Bytes of which one was changed open nothing, and leak nothing. */
static void damage(uint8_t *bytes, size_t len) {
    const size_t places[] = {0, 11, 12, 44, HEAD, HEAD + 34, len / 2, len - CHECKSUM, len - 1};
    for (size_t i = 0; i < sizeof places / sizeof *places; i++) {
        lgm_map map = {0};
        uint8_t none = 0;
        bytes[places[i]] ^= 1;
        uint32_t number = lgm_load(&map, chain, true, &none, 0, seed, bytes, len);
        expect("bytes that were changed", number == LGM_NOT_SAVED || (number == LGM_NO_MEMORY && has_failed), true);
        expect("which open nothing", map.is_open, false);
        bytes[places[i]] ^= 1;
    }
}

/* A map, and what is loaded of its bytes, which are the same. */
static void maps(lgm_map *map) {
    static uint8_t bytes[MOST_BYTES], again[MOST_BYTES];
    size_t len = save(map, bytes);
    expect("its length", len, HEAD + 34 + 11 + ANNOUNCEMENT + 3 + UPDATE + 3 + NODE + CHECKSUM);
    damage(bytes, len);
    lgm_map other = {0}, published = {0};
    load(&other, bytes, len);
    expect("its version", lgm_version_of(&other), 0);
    AGAIN("publishing", lgm_publish(&other, &published), LGM_OK);
    expect("what was loaded", save(&published, again), len);
    expect("its bytes", (uint64_t)(memcmp(bytes, again, len) != 0), 0);
    uint8_t message[ANNOUNCEMENT];
    update(message, 6);
    AGAIN("an update behind it", lgm_offer(&other, message, UPDATE, LGM_SIG_BY, a, LGM_FUNDING_NOT_ASKED, 0), LGM_OK);
    lgm_free(&other), lgm_free(&published);
}

/* A `reply_channel_range` of the channel, with timestamps of its updates. */
static void reply(uint8_t *at, uint32_t timestamp) {
    at = put_number(put_number(put(put_number(at, 264, 2), chain, 32), 0, 4), 0xffffffff, 4);
    at = put_number(put_number(put_number(put_number(at, 1, 1), 9, 2), 0, 1), scid, 8);
    put_number(put_number(put_number(put_number(put_number(at, 1, 1), 9, 1), 0, 1), timestamp, 4), 0, 4);
}

/* The messages that ask, and what they bring. */
static void syncing(lgm_map *map) {
    uint8_t query_sent[100], told[REPLY];
    size_t needed = 0, count = 77;
    lgm_lacking_info lacking[2] = {{.scid = 77}, {.scid = 77}};
    uint64_t next = 7;
    AGAIN("a query of a range", lgm_ask_range(map, 0, UINT32_MAX, query_sent, sizeof query_sent, &needed), LGM_OK);
    expect("its length", needed, QUERY + 3);
    AGAIN("a filter", lgm_ask_filter(map, 0, UINT32_MAX, query_sent, sizeof query_sent, &needed), LGM_OK);
    expect("its length", needed, FILTER);
    reply(told, 6);
    uint32_t number = lgm_lacking(map, told, sizeof told, lacking, 2, &count);
    if (number == LGM_NO_MEMORY) {
        expect("what is lacking without memory", count + lacking[0].scid, 2 * 77);
        number = lgm_lacking(map, told, sizeof told, lacking, 2, &count);
    }
    expect("what is lacking", number, LGM_OK);
    expect("how many", count, 1);
    expect("the channel", lacking[0].scid, scid);
    expect("its flags", lacking[0].flags, 2);
    expect("its timestamps", lacking[0].timestamp_1 + lacking[0].timestamp_2, 6);
    expect("what is behind it", lacking[1].scid, 77);
    AGAIN("too few entries", lgm_lacking(map, told, sizeof told, NULL, 0, &count), LGM_ROOM);
    AGAIN("a query of ids", lgm_ask_ids(map, lacking, 1, query_sent, sizeof query_sent, &needed), LGM_OK);
    expect("its length", needed, 2 + 32 + 2 + 9 + 4);
    AGAIN("a range", lgm_covered(map, told, sizeof told, &next), LGM_OK);
    expect("its end", next, UINT32_MAX);
    expect("no reply", lgm_covered(map, query_sent, 10, &next), LGM_MALFORMED);
    expect("the end then", next, UINT32_MAX);
}

/* Estimates that fade, are saved and loaded. */
static void estimates(lgm_map *map) {
    static uint8_t bytes[MOST_BYTES];
    lgm_estimates known = {0}, other = {0};
    lgm_estimate_info info = {80000000, 90000000, 1000};
    size_t needed = 77;
    AGAIN("estimates", lgm_estimates_open(&known), LGM_OK);
    AGAIN("one of them", lgm_estimates_set(&known, scid, a, &info), LGM_OK);
    uint32_t number = lgm_estimates_fade(&known, map, 1, 1);
    if (number == LGM_NO_MEMORY) {
        expect("what is known without memory", lgm_estimate(&known, scid, a, &info), LGM_OK);
        expect("the least then", info.least_msat, 80000000);
        number = lgm_estimates_fade(&known, map, 1, 1);
    }
    expect("a half-life", number, LGM_OK);
    expect("the edge", lgm_estimate(&known, scid, a, &info), LGM_OK);
    expect("the least", info.least_msat, 40000000);
    fresh(bytes);
    number = lgm_estimates_save(&known, bytes, MOST_BYTES, &needed);
    if (number == LGM_NO_MEMORY) {
        expect_fresh("bytes without memory", bytes);
        expect("the length without memory", needed, 77);
        number = lgm_estimates_save(&known, bytes, MOST_BYTES, &needed);
    }
    expect("saving", number, LGM_OK);
    AGAIN("loading", lgm_estimates_load(&other, bytes, needed), LGM_OK);
    expect("what was loaded", lgm_estimate(&other, scid, a, &info), LGM_OK);
    expect("its penalty", info.penalty_msat, 500);
    lgm_estimates_free(&known), lgm_estimates_free(&other);
}

int main(void) {
    long requests = 0;
    do {
        lgm_map map = {0};
        has_failed = false;
        left = ++requests;
        open_map(&map);
        maps(&map);
        syncing(&map);
        estimates(&map);
        left = 0;
        lgm_free(&map);
    } while (has_failed);
    expect("some memory", requests > 20, true);
    puts(failures == 0 ? "ok" : "failed");
    return failures != 0;
}
