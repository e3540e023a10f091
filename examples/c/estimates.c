/*
 * Tests what a payer has learnt of edges, lgm_estimates, also if an allocation fails: each one in turn. What fails changes
 * nothing. The exit status is 0 if all tests pass. Under valgrind it also shows that nothing is freed twice, read or written
 * past its end, or leaked.
 *
 * It is linked with -Wl,--wrap=malloc,--wrap=realloc, so that it can make allocations fail.
 */
#include "failing.h"

enum { MANY = 1000 };

static void expect_estimate(const char *what, lgm_estimates *estimates, uint64_t id, const uint8_t *from, uint64_t least,
                            uint64_t most, uint64_t penalty) {
    lgm_estimate_info found = {77, 77, 77};
    expect(what, lgm_estimate(estimates, id, from, &found), LGM_OK);
    expect(what, found.least_msat, least);
    expect(what, found.most_msat, most);
    expect(what, found.penalty_msat, penalty);
}

static void closed_handles(void) {
    lgm_estimates estimates = {0};
    lgm_estimate_info info = {77, 77, 77};
    uint64_t id = 77;
    uint8_t point[33] = {77};
    lgm_estimates_free(&estimates);
    expect("a closed handle's count", lgm_estimates_count(&estimates), 0);
    expect("a closed handle's estimate", lgm_estimate(&estimates, scid, a, &info), LGM_CLOSED);
    expect("a closed handle's set", lgm_estimates_set(&estimates, scid, a, &info), LGM_CLOSED);
    expect("a closed handle's try", lgm_estimates_carried(&estimates, scid, a, 1), LGM_CLOSED);
    expect("a closed handle's failure", lgm_estimates_failed(&estimates, scid, a, 1), LGM_CLOSED);
    expect("a closed handle's edge", lgm_estimates_forget(&estimates, scid, a), LGM_CLOSED);
    expect("a closed handle's place", lgm_estimates_at(&estimates, 0, &id, point, &info), LGM_CLOSED);
    expect("the id", id, 77);
    expect("the point", point[0], 77);
    expect("the estimate", info.least_msat + info.most_msat + info.penalty_msat, 3 * 77);
    expect("the handle", estimates.is_open, false);
}

/* Learns something of many edges, where an allocation may fail, and is made again. What is known already takes no memory. */
static void learning(lgm_estimates *estimates) {
    uint32_t number = lgm_estimates_open(estimates);
    if (number == LGM_NO_MEMORY) {
        expect("a handle without memory", estimates->is_open, false);
        number = lgm_estimates_open(estimates);
    }
    expect("opening", number, LGM_OK);
    expect("opening again", lgm_estimates_open(estimates), LGM_OPEN);
    for (uint64_t id = 0; id < MANY; id++) {
        number = lgm_estimates_carried(estimates, id, a, id);
        if (number == LGM_NO_MEMORY) {
            expect("what is known without memory", lgm_estimates_count(estimates), id);
            expect_estimate("the edge without memory", estimates, id, a, 0, UINT64_MAX, 0);
            number = lgm_estimates_carried(estimates, id, a, id);
        }
        expect("an edge that carried", number, LGM_OK);
    }
    none_left = true;
    expect("a failure of one that is known", lgm_estimates_failed(estimates, 500, a, 900), LGM_OK);
    expect("one that is forgotten", lgm_estimates_forget(estimates, 600, a), LGM_OK);
    expect("one that was", lgm_estimates_forget(estimates, 600, a), LGM_NONE);
    none_left = false;
}

static void seeing(lgm_estimates *estimates) {
    lgm_estimate_info info = {0};
    uint64_t id = 77, sum = 0;
    uint8_t point[33] = {77};
    size_t count = lgm_estimates_count(estimates);
    expect("the number of edges", count, MANY - 1);
    for (size_t place = 0; place < count; place++) {
        expect("a place", lgm_estimates_at(estimates, place, &id, point, &info), LGM_OK);
        expect("the node", memcmp(point, a, 33), 0);
        expect("the least", info.least_msat, id);
        expect("the most", info.most_msat, id == 500 ? 899 : UINT64_MAX);
        sum += id;
    }
    expect("each id", sum, MANY * (MANY - 1) / 2 - 600);
    expect("no place", lgm_estimates_at(estimates, count, &id, point, &info), LGM_NONE);
    expect_estimate("an edge of another node", estimates, 500, b, 0, UINT64_MAX, 0);
    expect_estimate("what was forgotten", estimates, 600, a, 0, UINT64_MAX, 0);
}

int main(void) {
    long requests = 0;
    do {
        lgm_estimates estimates = {0};
        has_failed = false;
        left = ++requests;
        learning(&estimates);
        left = 0;
        seeing(&estimates);
        lgm_estimates_free(&estimates);
        lgm_estimates_free(&estimates);
        expect("a handle that was freed", lgm_estimates_count(&estimates), 0);
    } while (has_failed);
    expect("some memory", requests > 5, true);
    closed_handles();
    puts(failures == 0 ? "ok" : "failed");
    return failures != 0;
}
