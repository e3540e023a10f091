/*
 * What the tests beside this file have in common: what is expected, allocations of which one fails, and messages. A program
 * with it is linked with -Wl,--wrap=malloc,--wrap=realloc.
 */
#ifndef LGM_FAILING_H
#define LGM_FAILING_H

#include "lgm.h"

#include <stdio.h>
#include <stdlib.h>
#include <string.h>

static int failures;

static inline void expect(const char *what, uint64_t found, uint64_t wanted) {
    if (found == wanted) return;
    printf("%s: %llu, and not %llu\n", what, (unsigned long long)found, (unsigned long long)wanted);
    failures++;
}

/* ---- allocations, of which one may fail */

/* The number of allocations up to the one that fails, or 0 if none does, or it has failed already. */
static long left;
static bool has_failed;
/* Whether all allocations fail. */
static bool none_left;

void *__real_malloc(size_t size);
void *__real_realloc(void *block, size_t size);
void *__wrap_malloc(size_t size);
void *__wrap_realloc(void *block, size_t size);

static inline bool fails_now(void) {
    if (none_left) return true;
    if (left == 0 || --left != 0) return false;
    has_failed = true;
    return true;
}

void *__wrap_malloc(size_t size) {
    return fails_now() ? NULL : __real_malloc(size);
}

void *__wrap_realloc(void *block, size_t size) {
    return fails_now() ? NULL : __real_realloc(block, size);
}

/* ---- messages, as BOLT 7 has them */

enum { ANNOUNCEMENT = 432, UPDATE = 138, NODE = 144, QUERY = 42, FILTER = 42 };

static const uint8_t chain[32] = {0xc1, 0xc1, 0xc1};
static const uint8_t seed[16] = {7};
static uint8_t a[33] = {2, 10}, b[33] = {2, 11}, key[33] = {2, 238};
static const uint64_t scid = 600000ULL << 40 | 1 << 16;

static inline uint8_t *put(uint8_t *at, const void *bytes, size_t len) {
    memcpy(at, bytes, len);
    return at + len;
}

static inline uint8_t *put_number(uint8_t *at, uint64_t number, size_t len) {
    for (size_t i = 0; i < len; i++) at[i] = (uint8_t)(number >> 8 * (len - 1 - i));
    return at + len;
}

static inline uint8_t *put_zeros(uint8_t *at, size_t len) {
    memset(at, 0, len);
    return at + len;
}

static inline void announcement(uint8_t *at) {
    at = put_zeros(put_number(at, 256, 2), 256 + 2);
    at = put_number(put(at, chain, 32), scid, 8);
    put(put(put(put(at, a, 33), b, 33), key, 33), key, 33);
}

static inline void update(uint8_t *at, uint32_t timestamp) {
    at = put_number(put(put_zeros(put_number(at, 258, 2), 64), chain, 32), scid, 8);
    at = put_number(put_number(put_number(at, timestamp, 4), 1, 1), 0, 1);
    at = put_number(put_number(put_number(put_number(at, 40, 2), 1, 8), 1000, 4), 100, 4);
    put_number(at, 100000000, 8);
}

/* With no features, a color, a name, and an address of two bytes that is of no known type. */
static inline void node(uint8_t *at) {
    at = put(put_number(put_zeros(put_number(at, 257, 2), 64 + 2), 9, 4), a, 33);
    at = put_zeros(put(put(at, "rgb", 3), "alice", 5), 32 - 5);
    put_number(put_number(at, 2, 2), 0xff01, 2);
}

static inline void query(uint8_t *at, uint16_t type) {
    put_number(put_number(put(put_number(at, type, 2), chain, 32), 0, 4), 0xffffffff, 4);
}

/* Makes a call again if it failed by out of memory. */
#define AGAIN(what, call, wanted)                 \
    do {                                          \
        uint32_t number = (call);                 \
        if (number == LGM_NO_MEMORY) {            \
            expect(what, has_failed, true);      \
            number = (call);                      \
        }                                         \
        expect(what, number, wanted);             \
    } while (0)

#endif
