/*
 * Tests a payer, lgm_payer, also if an allocation fails: each one in turn. A call that is out of memory leaves the payer as it was,
 * as its bytes show, and does what it should when it is made again. The exit status is 0 if all tests pass. Under valgrind it also
 * shows that nothing is freed twice, read or written past its end, or leaked.
 *
 * It is linked with -Wl,--wrap=malloc,--wrap=realloc, so that it can make allocations fail.
 */
#include "failing.h"

enum { MOST_BYTES = 1 << 16, BALANCE = 0x1007, HEIGHT = 600000 };

static uint8_t payee[33] = {2, 11}, payer_point[33] = {2, 12};

/* The bytes of a payer. No allocation fails meanwhile. */
static size_t bytes_of(lgm_payer *payer, uint8_t *bytes) {
    long kept = left;
    size_t needed = 0;
    left = 0;
    expect("saving", lgm_payer_save(payer, bytes, MOST_BYTES, &needed), LGM_OK);
    left = kept;
    return needed;
}

/* Makes a call on an open payer again if it failed by out of memory, and compares the payer's bytes before that. */
#define UNCHANGED(what, payer, call, wanted)                                          \
    do {                                                                              \
        static uint8_t before[MOST_BYTES], after[MOST_BYTES];                         \
        size_t len = bytes_of(payer, before);                                         \
        uint32_t number = (call);                                                     \
        if (number == LGM_NO_MEMORY) {                                                \
            expect(what ", which fails once", has_failed, true);                     \
            expect(what ", its length", bytes_of(payer, after), len);                \
            expect(what ", its bytes", (uint64_t)(memcmp(before, after, len) != 0), 0); \
            number = (call);                                                          \
        }                                                                             \
        expect(what, number, wanted);                                                 \
    } while (0)

static void open_map(lgm_map *map) {
    uint8_t message[ANNOUNCEMENT], none = 0;
    AGAIN("opening a map", lgm_open(map, chain, true, &none, 0, seed), LGM_OK);
    announcement(message);
    AGAIN("a channel", lgm_offer(map, message, ANNOUNCEMENT, LGM_SIG_ALL_FOUR, a, LGM_FUNDING_UNSPENT, 100000), LGM_OK);
    update(message, 5);
    AGAIN("its update", lgm_offer(map, message, UPDATE, LGM_SIG_BY, a, LGM_FUNDING_NOT_ASKED, 0), LGM_OK);
}

/* Pays with two parts over two channels of the payer's, the first of which fails once. */
static void pay(lgm_payer *payer, lgm_map *map) {
    lgm_edge own[2] = {{.scid = 1, .htlc_maximum_msat = 8000000}, {.scid = 2, .htlc_maximum_msat = 8000000}};
    lgm_edge hint = {.scid = 3, .htlc_maximum_msat = UINT64_MAX};
    uint8_t metadata[3] = {1, 2, 3};
    lgm_record record = {.type = 65537, .value = metadata, .value_len = 3};
    lgm_bounds bounds = {.most_fee_msat = 100000, .least_part_msat = 1000, .most_tries = 9, .most_parts = 4, .most_blocks = 2016};
    lgm_invoice invoice = {.amount_msat = 10000000, .hints = &hint, .hints_len = 1, .metadata = metadata, .metadata_len = 3,
                           .records = &record, .records_len = 1, .min_final_cltv_expiry_delta = 18, .basic_mpp = true};
    for (int i = 0; i < 2; i++) memcpy(own[i].from, payer_point, 33), memcpy(own[i].to, a, 33);
    memcpy(hint.from, a, 33), memcpy(hint.to, payee, 33), memcpy(invoice.payee, payee, 33);
    lgm_sight sight = {.channels = own, .channels_len = 2, .height = HEIGHT};
    uint64_t payment = 77;
    lgm_part part = {0};
    lgm_hop hops[LGM_MOST_HOPS];
    uint8_t payloads[LGM_MOST_PAYLOADS];
    UNCHANGED("beginning", payer, lgm_payer_begin(payer, &invoice, &bounds, &payment), LGM_OK);
#define NEXT lgm_payer_next(payer, map, payment, &sight, &part, hops, LGM_MOST_HOPS, payloads, LGM_MOST_PAYLOADS)
    UNCHANGED("a part", payer, NEXT, LGM_OK);
    expect("the part", part.part, 0);
    UNCHANGED("its failure", payer, lgm_payer_failed(payer, payment, 0, 1, BALANCE, false), LGM_OK);
    uint64_t sum = 0;
    uint32_t parts = 0;
    for (uint64_t number = 1; sum < 10000000 && number < 9; number++) {
        UNCHANGED("a next part", payer, NEXT, LGM_OK);
        expect("its number", part.part, number);
        sum += part.amount_msat;
        parts++;
    }
    expect("the whole", sum, 10000000);
    UNCHANGED("no part", payer, NEXT, LGM_WHOLE);
    UNCHANGED("one that can't be read", payer, lgm_payer_unreadable(payer, payment, part.part), LGM_OK);
    UNCHANGED("what was paid", payer, lgm_payer_fulfilled(payer, payment), LGM_OK);
    lgm_payment_info info = {0};
    expect("the payment", lgm_payer_payment(payer, payment, &info), LGM_OK);
    expect("its stage", info.stage, LGM_STAGE_PAID);
    expect("its parts", info.parts_held, parts - 1);
    UNCHANGED("time", payer, lgm_payer_fade(payer, map, 1, 1), LGM_OK);
}

/* Copies what was learnt, and the odds by it; and what the payer is, which the bytes that are read back are. */
static void copy(lgm_payer *payer, lgm_map *map) {
    static uint8_t bytes[MOST_BYTES], again[MOST_BYTES];
    size_t needed = 0;
    lgm_estimates learnt = {0};
    lgm_payer other = {0};
    UNCHANGED("what was learnt", payer, lgm_payer_learnt(payer, &learnt), LGM_OK);
    lgm_edge edge = {.scid = 9, .htlc_maximum_msat = 9};
    lgm_limit limit = {.scid = 9, .most_msat = 9};
    lgm_attempt attempt = {.edges = &edge, .edges_len = 1, .limits = &limit, .limits_len = 1};
    lgm_hop hop = {.scid = scid, .amount_msat = 1000, .expiry = HEIGHT};
    memcpy(hop.from, a, 33), memcpy(hop.to, payee, 33);
    uint32_t odds = 77;
    AGAIN("odds", lgm_odds(map, &attempt, &learnt, &hop, 1, &odds), LGM_OK);
    expect("of the payer's own channel", odds, 0);
    AGAIN("saving", lgm_payer_save(payer, bytes, MOST_BYTES, &needed), LGM_OK);
    AGAIN("loading", lgm_payer_load(&other, bytes, needed), LGM_OK);
    expect("what was loaded", bytes_of(&other, again), needed);
    expect("its bytes", (uint64_t)(memcmp(bytes, again, needed) != 0), 0);
    bytes[needed / 2] ^= 1;
    lgm_payer damaged = {0};
    uint32_t number = lgm_payer_load(&damaged, bytes, needed);
    expect("bytes that were changed", number == LGM_NOT_SAVED || (number == LGM_NO_MEMORY && has_failed), true);
    expect("which open nothing", damaged.is_open, false);
    lgm_payer_free(&other), lgm_estimates_free(&learnt);
}

int main(void) {
    long requests = 0;
    do {
        lgm_map map = {0};
        lgm_estimates nothing = {0};
        lgm_payer payer = {0};
        has_failed = false;
        left = ++requests;
        open_map(&map);
        AGAIN("opening", lgm_payer_open(&payer, payer_point, &nothing), LGM_OK);
        pay(&payer, &map);
        copy(&payer, &map);
        expect("forgetting", lgm_payer_forget(&payer, 0), LGM_OK);
        left = 0;
        lgm_payer_free(&payer), lgm_payer_free(&payer), lgm_free(&map);
        expect("a payer that was freed", lgm_payer_sent(&payer), 0);
    } while (has_failed);
    expect("some memory", requests > 20, true);
    puts(failures == 0 ? "ok" : "failed");
    return failures != 0;
}
