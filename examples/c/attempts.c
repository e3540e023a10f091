/*
 * Tests payments over what the payer knows beside the map, and by what it prefers and has learnt, lgm_attempt_route, and
 * why there is no route, in a map that changes and in a published one, also if an allocation fails: each one in turn. The
 * exit status is 0 if all tests pass. Under valgrind it also shows that nothing is freed twice, read or written past its
 * end, or leaked.
 *
 * It is linked with -Wl,--wrap=malloc,--wrap=realloc, so that it can make allocations fail.
 */
#include "failing.h"

static uint8_t c[33] = {2, 12}, d[33] = {2, 13};

/* What a payment of 1000 msat at block 700000 is asked with, and what is written. */
typedef struct {
    lgm_payment payment;
    lgm_edge edges[3];
    lgm_limit limits[3];
    lgm_point silent[3];
    size_t edges_len, limits_len, silent_len;
    lgm_estimates estimates; /* closed, unless a test opens it */
    lgm_search search;
    lgm_hop hops[LGM_MOST_HOPS];
    uint8_t payloads[LGM_MOST_PAYLOADS];
    lgm_lengths lengths;
} attempt;

static void begin(attempt *it, const uint8_t *payee) {
    memset(it, 0, sizeof *it);
    it->payment.amount_msat = 1000;
    it->payment.expiry = 700000;
    memcpy(it->payment.payer, a, 33);
    memcpy(it->payment.payee, payee, 33);
}

static void add_edge(attempt *it, uint64_t id, const uint8_t *from, const uint8_t *end, uint32_t base, uint16_t delta,
                     uint64_t most) {
    lgm_edge *edge = &it->edges[it->edges_len++];
    edge->scid = id;
    edge->htlc_maximum_msat = most;
    edge->fee_base_msat = base;
    edge->cltv_expiry_delta = delta;
    memcpy(edge->from, from, 33);
    memcpy(edge->to, end, 33);
}

static void add_limit(attempt *it, uint64_t id, const uint8_t *from, uint64_t most) {
    lgm_limit *limit = &it->limits[it->limits_len++];
    limit->scid = id;
    limit->most_msat = most;
    memcpy(limit->from, from, 33);
}

static void add_silent(attempt *it, const uint8_t *node) {
    memcpy(it->silent[it->silent_len++].point, node, 33);
}

static lgm_attempt asked_by(const attempt *it) {
    return (lgm_attempt){.payment = it->payment, .edges = it->edges, .edges_len = it->edges_len, .limits = it->limits,
                         .limits_len = it->limits_len, .silent = it->silent, .silent_len = it->silent_len,
                         .search = it->search};
}

static uint32_t route_in(lgm_map *map, attempt *it, lgm_hop *hops, size_t hops_len, uint8_t *payloads, size_t payloads_len,
                         lgm_lengths *lengths) {
    lgm_attempt asked = asked_by(it);
    return lgm_attempt_route(map, &asked, &it->estimates, hops, hops_len, payloads, payloads_len, lengths);
}

static uint32_t route_over(lgm_map *map, attempt *it) {
    return route_in(map, it, it->hops, LGM_MOST_HOPS, it->payloads, sizeof it->payloads, &it->lengths);
}

static uint32_t reason(lgm_map *map, const attempt *it) {
    lgm_attempt asked = asked_by(it);
    return lgm_no_route_reason(map, &asked);
}

static void expect_hop(const char *what, const attempt *it, size_t place, uint64_t id, uint64_t amount, uint32_t expiry) {
    expect(what, it->lengths.hops > place, true);
    expect(what, it->hops[place].scid, id);
    expect(what, it->hops[place].amount_msat, amount);
    expect(what, it->hops[place].expiry, expiry);
}

/* ---- what is known beside a map of one channel, whose node A takes 1 to 100000000 msat over it */

static void nothing(lgm_map *map) {
    attempt plain, over;
    begin(&plain, b);
    begin(&over, b);
    AGAIN("a route", lgm_route(map, &plain.payment, plain.hops, LGM_MOST_HOPS, plain.payloads, sizeof plain.payloads,
                               &plain.lengths), LGM_OK);
    AGAIN("a route over nothing", route_over(map, &over), LGM_OK);
    expect("the same lengths", memcmp(&plain.lengths, &over.lengths, sizeof plain.lengths), 0);
    expect("the same payloads", memcmp(plain.payloads, over.payloads, sizeof plain.payloads), 0);
    expect_hop("the same hop", &over, 0, plain.hops[0].scid, plain.hops[0].amount_msat, plain.hops[0].expiry);
    over.search.most_delay = 1;
    over.search.most_hops = 1;
    AGAIN("a route without delay", route_over(map, &over), LGM_OK);
    expect_hop("its hop", &over, 0, scid, 1000, 700000);
    begin(&over, c);
    AGAIN("to nowhere", route_over(map, &over), LGM_NO_ROUTE);
    expect("the lengths", over.lengths.hops, 0);
}

static void limits(lgm_map *map) {
    static const struct {
        uint64_t more, most;
        bool is_other;
        uint32_t number;
    } cases[] = {{0, 1000, false, LGM_OK}, {0, 999, false, LGM_NO_ROUTE}, {0, 0, false, LGM_NO_ROUTE},
                 {1, 0, false, LGM_OK}, {0, 0, true, LGM_OK}, {0, UINT64_MAX, false, LGM_OK}};
    for (size_t i = 0; i < sizeof cases / sizeof *cases; i++) {
        attempt it;
        begin(&it, b);
        add_limit(&it, scid + cases[i].more, cases[i].is_other ? b : a, cases[i].most);
        AGAIN("a limit", route_over(map, &it), cases[i].number);
        add_limit(&it, scid, a, 1000);
        AGAIN("another one", route_over(map, &it), cases[i].number);
        add_limit(&it, scid, a, 999);
        AGAIN("the least one", route_over(map, &it), LGM_NO_ROUTE);
    }
}

static void silent_nodes(lgm_map *map) {
    attempt it;
    begin(&it, b);
    add_silent(&it, b);
    AGAIN("a silent payee", route_over(map, &it), LGM_OK);
    add_silent(&it, a);
    AGAIN("a silent payer", route_over(map, &it), LGM_NO_ROUTE);
    add_edge(&it, 5, a, b, 9, 9, 1000);
    AGAIN("a silent payer with a channel", route_over(map, &it), LGM_OK);
    expect_hop("its hop", &it, 0, 5, 1000, 700000);
    add_limit(&it, 5, a, 999);
    AGAIN("a channel that can send less", route_over(map, &it), LGM_NO_ROUTE);
}

/* Of two edges with one id out of a node the first counts, and the map's doesn't. */
static void own_channels(lgm_map *map) {
    attempt it;
    begin(&it, b);
    add_edge(&it, scid, a, b, 0, 0, 999);
    AGAIN("a channel that can send less", route_over(map, &it), LGM_NO_ROUTE);
    add_edge(&it, scid, a, b, 0, 0, 1000);
    AGAIN("the first counts", route_over(map, &it), LGM_NO_ROUTE);
    it.edges[0].htlc_maximum_msat = 1000;
    AGAIN("a channel that can send it", route_over(map, &it), LGM_OK);
    it.edges[0].htlc_minimum_msat = 1001;
    AGAIN("a channel that sends no less", route_over(map, &it), LGM_NO_ROUTE);
}

/* Two hints: from B to C for 5 msat, with a delta of 30, and from D to C for 50 msat, with one of 10. */
static void hints(lgm_map *map) {
    attempt it;
    begin(&it, c);
    add_edge(&it, 6, b, c, 5, 30, UINT64_MAX);
    AGAIN("a hint", route_over(map, &it), LGM_OK);
    expect_hop("the map's hop", &it, 0, scid, 1005, 700030);
    expect_hop("the hint's hop", &it, 1, 6, 1000, 700000);
    expect("two hops", it.lengths.hops, 2);
    expect("their payloads", it.lengths.payloads, it.hops[0].payload_len + it.hops[1].payload_len);
    it.search.most_delay = 30;
    AGAIN("a hint in time", route_over(map, &it), LGM_OK);
    it.search.most_delay = 29;
    AGAIN("a hint that is too slow", route_over(map, &it), LGM_NO_ROUTE);
    add_edge(&it, 7, a, d, 0, 0, UINT64_MAX);
    add_edge(&it, 8, d, c, 50, 10, UINT64_MAX);
    AGAIN("a quicker one", route_over(map, &it), LGM_OK);
    expect_hop("the payer's hop", &it, 0, 7, 1050, 700010);
    it.search.most_delay = 9;
    AGAIN("none in time", route_over(map, &it), LGM_NO_ROUTE);
}

/* Two hops that add 40,000 blocks each. */
static void long_delays(lgm_map *map) {
    attempt it;
    begin(&it, d);
    add_edge(&it, 6, b, c, 0, 40000, UINT64_MAX);
    add_edge(&it, 7, c, d, 0, 40000, UINT64_MAX);
    AGAIN("80,000 blocks", route_over(map, &it), LGM_OK);
    expect_hop("its first hop", &it, 0, scid, 1000, 780000);
    it.search.most_delay = UINT16_MAX;
    AGAIN("65,535 blocks", route_over(map, &it), LGM_NO_ROUTE);
}

/* Two hints from B to C: 6 for 5 msat, which carries so little more than 1000 that its odds are 1 to 1, and 7 for 9 msat. */
static void add_two_hints(attempt *it) {
    add_edge(it, 6, b, c, 5, 30, 1999);
    add_edge(it, 7, b, c, 9, 10, UINT64_MAX);
}

/* Expects a route over one of these hints, and what is sent. */
static void expect_hint(const char *what, const attempt *it, uint64_t id, uint64_t sent) {
    expect("two hops", it->lengths.hops, 2);
    expect_hop(what, it, 0, scid, sent, id == 6 ? 700030 : 700010);
    expect_hop(what, it, 1, id, 1000, 700000);
}

/* A try over 6 that is worth 4 msat makes it as dear as 7, and then the lesser id decides. */
static void preferences(lgm_map *map) {
    attempt it;
    begin(&it, c);
    add_two_hints(&it);
    AGAIN("no preferences", route_over(map, &it), LGM_OK);
    expect_hint("the one that sends least", &it, 6, 1005);
    it.search.failure_msat = 4;
    AGAIN("a failure of 4 msat", route_over(map, &it), LGM_OK);
    expect_hint("the lesser id", &it, 6, 1005);
    it.search.failure_msat = 5;
    AGAIN("a failure of 5 msat", route_over(map, &it), LGM_OK);
    expect_hint("the one that arrives", &it, 7, 1009);
    it.search.most_delay = 9;
    AGAIN("none in time", route_over(map, &it), LGM_NO_ROUTE);
}

/* From B to C for 50 msat, or over D for nothing. Two hops more are worth 100 msat: then both cost the same. */
static void few_hops(lgm_map *map) {
    attempt it;
    begin(&it, c);
    add_edge(&it, 6, b, d, 0, 10, UINT64_MAX);
    add_edge(&it, 7, d, c, 0, 10, UINT64_MAX);
    add_edge(&it, 8, b, c, 50, 10, UINT64_MAX);
    it.search.hop_msat = 49;
    AGAIN("hops of 49 msat", route_over(map, &it), LGM_OK);
    expect("three hops", it.lengths.hops, 3);
    expect_hop("the first of three", &it, 0, scid, 1000, 700020);
    it.search.hop_msat = 50;
    AGAIN("hops of 50 msat", route_over(map, &it), LGM_OK);
    expect("two hops", it.lengths.hops, 2);
    expect_hop("the first of two", &it, 0, scid, 1050, 700010);
    it.search.hop_msat = 0;
    it.search.most_hops = 2;
    AGAIN("at most two hops", route_over(map, &it), LGM_OK);
    expect_hop("the second of two", &it, 1, 8, 1000, 700000);
    it.search.most_hops = 1;
    AGAIN("at most one hop", route_over(map, &it), LGM_NO_ROUTE);
}

/* One step finds the cheapest way, and isn't enough to be certain. One label is that of the payee. */
static void budgets(lgm_map *map) {
    attempt it;
    begin(&it, c);
    add_two_hints(&it);
    it.search = (lgm_search){.most_steps = 1, .most_labels = 1};
    AGAIN("no budget is needed", route_over(map, &it), LGM_OK);
    it.search.most_delay = 10;
    memset(&it.lengths, 0, sizeof it.lengths);
    AGAIN("one label within a delay", route_over(map, &it), LGM_UNDECIDED);
    it.search.most_delay = 9;
    AGAIN("none in time", route_over(map, &it), LGM_NO_ROUTE);
    it.search = (lgm_search){.failure_msat = 5, .most_labels = 1};
    AGAIN("one label", route_over(map, &it), LGM_UNDECIDED);
    expect("nothing is written", it.lengths.hops + it.lengths.payloads, 0);
    it.search = (lgm_search){.failure_msat = 5, .most_steps = 1};
    AGAIN("one step", route_over(map, &it), LGM_SO_FAR);
    expect_hint("the best one so far", &it, 7, 1009);
    expect("its payloads", it.lengths.payloads, it.hops[0].payload_len + it.hops[1].payload_len);
    AGAIN("one step, and room for one hop",
          route_in(map, &it, it.hops, 1, it.payloads, sizeof it.payloads, &it.lengths), LGM_ROOM);
    it.search = (lgm_search){.failure_msat = 5, .most_steps = LGM_MOST_STEPS, .most_labels = LGM_MOST_LABELS};
    AGAIN("many steps and labels", route_over(map, &it), LGM_OK);
    expect_hint("the best one", &it, 7, 1009);
}

/* What is learnt of 6 and 7 decides between them, and the call leaves it as it is. */
static void learnt(lgm_map *map) {
    lgm_estimate_info info = {.most_msat = UINT64_MAX, .penalty_msat = 996};
    attempt it;
    begin(&it, c);
    add_two_hints(&it);
    it.search.failure_msat = 1000;
    AGAIN("estimates", lgm_estimates_open(&it.estimates), LGM_OK);
    AGAIN("nothing learnt", route_over(map, &it), LGM_OK);
    expect_hint("the one that arrives", &it, 7, 1009);
    AGAIN("an edge that carried", lgm_estimates_carried(&it.estimates, 6, b, 1000), LGM_OK);
    AGAIN("no odds", route_over(map, &it), LGM_OK);
    expect_hint("the one that carried", &it, 6, 1005);
    expect("an edge that failed", lgm_estimates_failed(&it.estimates, 6, b, 1000), LGM_OK);
    AGAIN("odds of 1 to 1", route_over(map, &it), LGM_OK);
    expect_hint("the other one", &it, 7, 1009);
    AGAIN("a penalty", lgm_estimates_set(&it.estimates, 7, b, &info), LGM_OK);
    AGAIN("1005 and 1000 are 1009 and 996", route_over(map, &it), LGM_OK);
    expect_hint("the lesser id", &it, 6, 1005);
    expect("what is known", lgm_estimates_count(&it.estimates), 2);
    expect("what is known of 7", lgm_estimate(&it.estimates, 7, b, &info), LGM_OK);
    expect("its penalty", info.penalty_msat, 996);
    lgm_estimates_free(&it.estimates);
    AGAIN("a closed handle", route_over(map, &it), LGM_OK);
    expect_hint("the one that arrives", &it, 7, 1009);
    expect("the handle", it.estimates.is_open, false);
}

/* Why there is no route: each reason of one payment, and none that a later one would hide. */
static void reasons(lgm_map *map) {
    attempt it;
    begin(&it, b);
    AGAIN("a route", reason(map, &it), LGM_OK);
    memcpy(it.payment.payer, c, 33);
    AGAIN("no channel", reason(map, &it), LGM_PAYER_HAS_NO_CHANNEL);
    begin(&it, c);
    AGAIN("no channel of the payee", reason(map, &it), LGM_PAYEE_TAKES_NO_PAYMENT);
    add_edge(&it, 6, b, c, 5, 30, 999);
    add_limit(&it, scid, a, 999);
    AGAIN("too much for the payer", reason(map, &it), LGM_PAYER_LACKS_AMOUNT);
    it.limits_len = 0;
    AGAIN("too much for the payee", reason(map, &it), LGM_PAYEE_LACKS_AMOUNT);
    it.edges[0].htlc_maximum_msat = 1000;
    add_limit(&it, scid, a, 1004);
    AGAIN("too much with the fee", reason(map, &it), LGM_UNCONNECTED);
    it.limits_len = 0;
    it.search.most_delay = 29;
    AGAIN("too slow", reason(map, &it), LGM_BEYOND_DELAY);
    it.search.most_hops = 1;
    AGAIN("too slow, and too long", reason(map, &it), LGM_BEYOND_DELAY);
    it.search.most_delay = 30;
    AGAIN("too long", reason(map, &it), LGM_BEYOND_HOPS);
    add_edge(&it, 7, a, c, 0, 0, 1000);
    AGAIN("a channel of its own", reason(map, &it), LGM_OK);
    it.edges[0].htlc_maximum_msat = 0;
    AGAIN("no maximum", reason(map, &it), LGM_ARGUMENT_MAXIMUM);
    AGAIN("no maximum", route_over(map, &it), LGM_ARGUMENT_MAXIMUM);
    it.payment.amount_msat = 0;
    AGAIN("no maximum, and no amount", reason(map, &it), LGM_ARGUMENT_MAXIMUM);
    it.edges[0].htlc_maximum_msat = 1;
    AGAIN("no amount", reason(map, &it), LGM_AMOUNT_ZERO);
}

/* Over C or over D, which is slow but takes fewer hops: nothing is within both limits. */
static void beyond_both(lgm_map *map) {
    static uint8_t e[33] = {2, 14};
    attempt it;
    begin(&it, e);
    it.search = (lgm_search){.most_delay = 50, .most_hops = 2};
    add_edge(&it, 6, b, e, 0, 60, 1000);
    add_edge(&it, 7, b, c, 0, 10, 1000);
    add_edge(&it, 8, c, e, 0, 10, 1000);
    AGAIN("beyond both", reason(map, &it), LGM_BEYOND_BOTH);
    it.search.most_hops = 3;
    AGAIN("one more hop", reason(map, &it), LGM_OK);
    it.search = (lgm_search){.most_delay = 60, .most_hops = 2};
    AGAIN("ten more blocks", reason(map, &it), LGM_OK);
    it.search = (lgm_search){.most_delay = 60, .most_hops = 2, .most_labels = 1};
    AGAIN("one label", reason(map, &it), LGM_OK);
    it.search = (lgm_search){.most_delay = 50, .most_hops = 3, .most_labels = 1};
    AGAIN("one label within a delay", reason(map, &it), LGM_UNDECIDED);
}

/* Nothing is written where a buffer is too short, nor past the route. */
static void short_buffers(lgm_map *map) {
    for (size_t room = 0; room <= 2; room++) {
        attempt it, before;
        begin(&it, c);
        add_edge(&it, 6, b, c, 5, 30, UINT64_MAX);
        it.search.most_delay = 30;
        AGAIN("a route", route_over(map, &it), LGM_OK);
        size_t bytes = it.lengths.payloads;
        memset(it.hops, 5, sizeof it.hops);
        memset(it.payloads, 5, sizeof it.payloads);
        before = it;
        AGAIN("some room for hops",
              route_in(map, &it, it.hops, room, it.payloads, bytes, &it.lengths), room < 2 ? LGM_ROOM : LGM_OK);
        expect("the other hops", memcmp(it.hops + 2, before.hops + 2, sizeof it.hops - 2 * sizeof *it.hops), 0);
        expect("the other payloads", memcmp(it.payloads + bytes, before.payloads + bytes, sizeof it.payloads - bytes), 0);
        AGAIN("too little room for payloads",
              route_in(map, &it, before.hops, 2, before.payloads, bytes - 1, &before.lengths), LGM_ROOM);
        expect("the lengths", before.lengths.hops == 2 && before.lengths.payloads == bytes, true);
        expect("the room", before.hops[0].scid == 0x0505050505050505 && before.payloads[0] == 5, true);
    }
}

/* The first fault is returned even if there is no memory at all, and nothing is written. */
static void refused_without_memory(lgm_map *map) {
    lgm_map closed = {0};
    attempt it, before;
    begin(&it, c);
    add_edge(&it, 6, b, c, 5, 30, UINT64_MAX);
    add_limit(&it, 6, b, 2000);
    add_silent(&it, d);
    AGAIN("estimates", lgm_estimates_open(&it.estimates), LGM_OK);
    it.search.failure_msat = 1000;
    it.lengths.hops = 77;
    none_left = true;
    expect("a closed handle", route_over(&closed, &it), LGM_CLOSED);
    it.payment.amount_msat = 0;
    expect("no amount", route_over(map, &it), LGM_AMOUNT_ZERO);
    it.payment.amount_msat = UINT64_MAX;
    expect("too great an amount", route_over(map, &it), LGM_AMOUNT_TOO_LARGE);
    it.payment.amount_msat = 1000;
    it.payment.expiry = UINT32_MAX;
    expect("too late", route_over(map, &it), LGM_EXPIRY_TOO_LARGE);
    it.payment.expiry = 700000;
    memcpy(it.payment.payee, a, 33);
    expect("to itself", route_over(map, &it), LGM_SELF_PAYMENT);
    memcpy(it.payment.payee, c, 33);
    before = it;
    expect("no memory", route_over(map, &it), LGM_NO_MEMORY);
    expect("what is passed, and the room", memcmp(&it, &before, sizeof it), 0);
    none_left = false;
    lgm_estimates_free(&it.estimates);
}

/* Each of these, while an allocation fails: each one in turn. */
static void known_beside(lgm_map *map) {
    static void (*const tests[])(lgm_map *) = {nothing, limits, silent_nodes, own_channels, hints, long_delays, preferences,
                                               few_hops, budgets, learnt, reasons, beyond_both, short_buffers,
                                               refused_without_memory};
    for (size_t i = 0; i < sizeof tests / sizeof *tests; i++) {
        long requests = 0;
        do {
            has_failed = false;
            left = ++requests;
            tests[i](map);
            left = 0;
        } while (has_failed);
        expect("some memory", requests > 2, tests[i] != refused_without_memory);
    }
}

/* A map that changes and a published one. Only the first route of all builds a view. */
static void both_kinds(void) {
    lgm_map map = {0}, published = {0};
    uint8_t channel[ANNOUNCEMENT], terms[UPDATE];
    announcement(channel);
    update(terms, 5);
    expect("opening", lgm_open(&map, chain, true, NULL, 0, seed), LGM_OK);
    expect("a channel", lgm_offer(&map, channel, ANNOUNCEMENT, LGM_SIG_ALL_FOUR, a, LGM_FUNDING_UNSPENT, 100000), LGM_OK);
    expect("its update", lgm_offer(&map, terms, UPDATE, LGM_SIG_BY, a, LGM_FUNDING_NOT_ASKED, 0), LGM_OK);
    expect("a publication", lgm_publish(&map, &published), LGM_OK);
    known_beside(&map);
    known_beside(&published);
    expect("the version", lgm_version_of(&map), 2);
    lgm_free(&map);
    known_beside(&published);
    lgm_free(&published);
}

/* ---- many edges */

/* Edges of as many nodes lead to C, the last but one from A. */
static void most_edges(void) {
    lgm_map map = {0};
    attempt it;
    lgm_edge *edges = calloc(LGM_MOST_EDGES + 1, sizeof *edges);
    begin(&it, c);
    expect("opening", lgm_open(&map, chain, true, NULL, 0, seed), LGM_OK);
    for (size_t i = 0; i <= LGM_MOST_EDGES; i++) {
        edges[i].scid = i;
        edges[i].htlc_maximum_msat = 1000;
        memcpy(edges[i].from, d, 33);
        put_number(edges[i].from + 25, i, 8);
        memcpy(edges[i].to, c, 33);
    }
    memcpy(edges[LGM_MOST_EDGES - 1].from, a, 33);
    lgm_attempt asked = asked_by(&it);
    asked.edges = edges;
    for (asked.edges_len = LGM_MOST_EDGES - 1; asked.edges_len <= LGM_MOST_EDGES + 1; asked.edges_len++)
        expect("many edges",
               lgm_attempt_route(&map, &asked, &it.estimates, it.hops, LGM_MOST_HOPS, it.payloads, sizeof it.payloads,
                                 &it.lengths),
               asked.edges_len < LGM_MOST_EDGES ? LGM_NO_ROUTE
                                                : asked.edges_len > LGM_MOST_EDGES ? LGM_ARGUMENT_EDGES : LGM_OK);
    expect_hop("the last edge", &it, 0, LGM_MOST_EDGES - 1, 1000, 700000);
    asked.edges_len = LGM_MOST_EDGES + 1;
    asked.payment.amount_msat = 0;
    none_left = true;
    expect("too many, and no amount",
           lgm_attempt_route(&map, &asked, &it.estimates, it.hops, LGM_MOST_HOPS, it.payloads, sizeof it.payloads,
                             &it.lengths), LGM_ARGUMENT_EDGES);
    expect("too many, and no reason", lgm_no_route_reason(&map, &asked), LGM_ARGUMENT_EDGES);
    none_left = false;
    lgm_free(&map);
    expect("too many, of a closed handle",
           lgm_attempt_route(&map, &asked, &it.estimates, it.hops, LGM_MOST_HOPS, it.payloads, sizeof it.payloads,
                             &it.lengths), LGM_CLOSED);
    free(edges);
}

int main(void) {
    both_kinds();
    most_edges();
    puts(failures == 0 ? "ok" : "failed");
    return failures != 0;
}
