/*
 * Measures the library for C (include/lgm.h): offers the messages of a file to a map, asks for the news of a filter,
 * sets the mark, and finds the routes of the file's payments; then saves the map as bytes, and loads another map of them, as
 * for a restart. It prints the CPU time of the calls of each kind.
 *
 *     offers CHAIN FILTER CALLS
 *
 * CHAIN and FILTER are hexadecimal digits. CALLS is a file that bench/embedding.py writes: records of two kinds, each
 * after a byte that says which, in this machine's byte order.
 */
#define _POSIX_C_SOURCE 200809L

#include "lgm.h"

#include <inttypes.h>
#include <stdio.h>
#include <stdlib.h>
#include <string.h>
#include <time.h>

/* A message, whose bytes follow; a payment. */
typedef struct {
    uint64_t sat;
    uint32_t sig, funding, len;
    uint8_t signer[33];
} offered;

enum { MESSAGE = 'm', PAYMENT = 'r', FILTER_LEN = 42, ROOM = 256 << 20 };

/* A file in memory. */
typedef struct {
    uint8_t *bytes;
    size_t len;
} contents;

static void fail(const char *what) {
    fprintf(stderr, "offers: %s\n", what);
    exit(1);
}

static void expect(uint32_t number, uint32_t other, const char *call) {
    uint8_t word[LGM_WORD_LEN];
    if (number == LGM_OK || number == other) return;
    lgm_word(number, word);
    fprintf(stderr, "offers: %s: %s\n", call, (const char *)word);
    exit(1);
}

static double seconds(void) {
    struct timespec now;
    clock_gettime(CLOCK_PROCESS_CPUTIME_ID, &now);
    return (double)now.tv_sec + (double)now.tv_nsec / 1e9;
}

static void read_digits(const char *digits, uint8_t *bytes, size_t len) {
    if (strlen(digits) != 2 * len) fail("digits of another length");
    for (size_t i = 0; i < len; i++)
        if (sscanf(digits + 2 * i, "%2" SCNx8, &bytes[i]) != 1) fail("no digits");
}

static contents read_file(const char *name) {
    contents file = {0};
    FILE *stream = fopen(name, "rb");
    if (stream == NULL || fseek(stream, 0, SEEK_END) != 0) fail("the file can't be read");
    file.len = (size_t)ftell(stream);
    file.bytes = malloc(file.len + 1);
    rewind(stream);
    if (file.bytes == NULL || fread(file.bytes, 1, file.len, stream) != file.len) fail("the file can't be read");
    fclose(stream);
    return file;
}

/* Offers each message, and says where the payments begin. */
static size_t offer_all(lgm_map *map, contents calls, size_t *count) {
    size_t at = 0;
    for (*count = 0; at < calls.len && calls.bytes[at] == MESSAGE; ++*count) {
        offered next;
        memcpy(&next, calls.bytes + at + 1, sizeof next);
        at += 1 + sizeof next;
        expect(lgm_offer(map, calls.bytes + at, next.len, next.sig, next.signer, next.funding, next.sat), LGM_OK,
               "lgm_offer");
        at += next.len;
    }
    return at;
}

/* Finds each route, and counts those that there are. */
static size_t route_all(lgm_map *map, contents calls, size_t at, size_t *count) {
    static uint8_t payloads[LGM_MOST_PAYLOADS];
    static lgm_hop hops[LGM_MOST_HOPS];
    size_t found = 0;
    for (*count = 0; at < calls.len && calls.bytes[at] == PAYMENT; ++*count) {
        lgm_payment payment;
        lgm_lengths lengths;
        memcpy(&payment, calls.bytes + at + 1, sizeof payment);
        at += 1 + sizeof payment;
        uint32_t number =
            lgm_route(map, &payment, hops, LGM_MOST_HOPS, payloads, sizeof payloads, &lengths);
        expect(number, LGM_NO_ROUTE, "lgm_route");
        found += number == LGM_OK;
    }
    if (at != calls.len) fail("the file has a record of another kind");
    return found;
}

int main(int argc, char **argv) {
    if (argc != 4) fail("usage: offers CHAIN FILTER CALLS");
    uint8_t chain[32], filter[FILTER_LEN], seed[16] = {1}, none = 0;
    read_digits(argv[1], chain, sizeof chain);
    read_digits(argv[2], filter, sizeof filter);
    contents calls = read_file(argv[3]);
    uint8_t *room = malloc(ROOM);
    if (room == NULL) fail("out of memory");
    lgm_map map = {0};
    size_t messages, payments, news;

    double start = seconds();
    expect(lgm_open(&map, chain, true, &none, 0, seed), LGM_OK, "lgm_open");
    size_t at = offer_all(&map, calls, &messages);
    double offers_end = seconds();
    expect(lgm_news(&map, filter, sizeof filter, room, ROOM, &news), LGM_OK, "lgm_news");
    expect(lgm_mark(&map), LGM_OK, "lgm_mark");
    double mark_end = seconds();
    size_t found = route_all(&map, calls, at, &payments);
    double routes_end = seconds();
    size_t saved;
    expect(lgm_save(&map, room, ROOM, &saved), LGM_OK, "lgm_save");
    double save_end = seconds();
    lgm_map other = {0};
    expect(lgm_load(&other, chain, true, &none, 0, seed, room, saved), LGM_OK, "lgm_load");
    double load_end = seconds();
    if (lgm_count(&other) != lgm_count(&map)) fail("the other map has something else");

    printf("offers %zu %.6f\n", messages, offers_end - start);
    printf("news-and-mark %zu %.6f\n", news, mark_end - offers_end);
    printf("routes %zu %.6f\n", payments, routes_end - mark_end);
    printf("dump %zu %.6f\n", saved, save_end - routes_end);
    printf("load %zu %.6f\n", saved, load_end - save_end);
    printf("found %zu\n", found);
    lgm_free(&other);
    lgm_free(&map);
    free(room);
    free(calls.bytes);
    return 0;
}
