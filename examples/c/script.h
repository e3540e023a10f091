/*
 * What the programs beside this file have in common: memory, the fields of a script's lines (docs/script.md), and offering
 * its items.
 */
#ifndef LGM_SCRIPT_H
#define LGM_SCRIPT_H

#include "lgm.h"

#include <ctype.h>
#include <errno.h>
#include <stdio.h>
#include <stdlib.h>
#include <string.h>

/* The longest message that a line has, in bytes. */
enum { MOST_BYTES = 70000 };

/* ---- memory */

static inline void *must(void *block) {
    if (block == NULL) {
        fputs("out of memory\n", stderr);
        exit(1);
    }
    return block;
}

/* A buffer that grows. It is never empty, so that its pointer isn't null. */
typedef struct {
    uint8_t *bytes;
    size_t len, capacity;
} buffer;

static inline void reserve(buffer *b, size_t capacity) {
    if (b->bytes == NULL || b->capacity < capacity) {
        b->capacity = capacity < 4096 ? 4096 : 2 * capacity;
        b->bytes = must(realloc(b->bytes, b->capacity));
    }
}

static inline void append(buffer *b, const void *bytes, size_t len) {
    reserve(b, b->len + len);
    memcpy(b->bytes + b->len, bytes, len);
    b->len += len;
}

/* ---- fields of lines */

static inline int digit(char c) {
    if (c >= '0' && c <= '9') return c - '0';
    if (c >= 'a' && c <= 'f') return c - 'a' + 10;
    if (c >= 'A' && c <= 'F') return c - 'A' + 10;
    return -1;
}

/* Decodes digits to at most `most` bytes, and returns their number: 0 if there are none, or they aren't digits. */
static inline size_t read_hex(const char *field, uint8_t *bytes, size_t most) {
    size_t len = strlen(field);
    if (len == 0 || len % 2 != 0 || len / 2 > most) return 0;
    for (size_t i = 0; i < len; i += 2) {
        int high = digit(field[i]), low = digit(field[i + 1]);
        if (high < 0 || low < 0) return 0;
        bytes[i / 2] = (uint8_t)(high << 4 | low);
    }
    return len / 2;
}

static inline bool read_exactly(const char *field, uint8_t *bytes, size_t len) {
    return read_hex(field, bytes, len) == len;
}

/* Reads a decimal number without a sign and leading zeros, which is at most `most`. */
static inline bool read_number(const char *field, uint64_t most, uint64_t *number) {
    if (!isdigit((unsigned char)field[0]) || (field[0] == '0' && field[1] != 0)) return false;
    char *end;
    errno = 0;
    *number = strtoull(field, &end, 10);
    return errno == 0 && *end == 0 && *number <= most;
}

static inline bool read_scid(char *field, uint64_t *scid) {
    uint64_t block, index, output;
    char *second = strchr(field, 'x');
    if (second == NULL) return false;
    *second++ = 0;
    char *third = strchr(second, 'x');
    if (third == NULL) return false;
    *third++ = 0;
    if (!read_number(field, 0xffffff, &block) || !read_number(second, 0xffffff, &index)
        || !read_number(third, 0xffff, &output))
        return false;
    *scid = block << 40 | index << 16 | output;
    return true;
}

/* Splits a line at single spaces into at most `most` fields, and returns their number: 0 if one is empty. */
static inline size_t split(char *line, char **fields, size_t most) {
    size_t count = 0;
    for (char *field = line; field != NULL; count++) {
        char *space = strchr(field, ' ');
        if (space != NULL) *space++ = 0;
        if (*field == 0 || count == most) return 0;
        fields[count] = field;
        field = space;
    }
    return count;
}

/* ---- what is offered */

/* An item: a message with the verdicts on it, or the close of a channel. */
typedef struct {
    bool is_close;
    uint64_t scid;
    size_t start, len; /* of its bytes among those of all pending items */
    uint32_t sig, funding;
    uint64_t sat;
    uint8_t signer[33];
} item;

static inline bool read_verdicts(char *sig, char *funding, item *it) {
    if (strcmp(sig, "all") == 0) it->sig = LGM_SIG_ALL_FOUR;
    else if (strcmp(sig, "not-all") == 0) it->sig = LGM_SIG_NOT_ALL_FOUR;
    else if (strcmp(sig, "nobody") == 0) it->sig = LGM_SIG_NOBODY;
    else if (read_exactly(sig, it->signer, 33)) it->sig = LGM_SIG_BY;
    else return false;
    if (strcmp(funding, "-") == 0) it->funding = LGM_FUNDING_NOT_ASKED;
    else if (strcmp(funding, "spent") == 0) it->funding = LGM_FUNDING_SPENT;
    else if (strcmp(funding, "wrong") == 0) it->funding = LGM_FUNDING_WRONG;
    else if (read_number(funding, UINT64_MAX, &it->sat)) it->funding = LGM_FUNDING_UNSPENT;
    else return false;
    return true;
}

static inline uint32_t offer(lgm_map *map, const item *it, const uint8_t *bytes) {
    if (it->is_close) return lgm_close_channel(map, it->scid);
    return lgm_offer(map, bytes, it->len, it->sig, it->signer, it->funding, it->sat);
}

/* ---- payments */

/* Reads the fields behind `route`. */
static inline bool read_payment(char **fields, lgm_payment *payment) {
    uint64_t expiry;
    if (!read_exactly(fields[0], payment->payer, 33) || !read_exactly(fields[1], payment->payee, 33)
        || !read_number(fields[2], UINT64_MAX, &payment->amount_msat)
        || !read_number(fields[3], UINT32_MAX, &expiry) || !read_exactly(fields[4], payment->secret, 32))
        return false;
    payment->expiry = (uint32_t)expiry;
    return true;
}

/* ---- maps */

/* Opens a map in which all features are known, with random bytes as its seed. */
static inline void open_map(lgm_map *map, const uint8_t chain[32]) {
    uint8_t seed[16], none = 0;
    FILE *random = fopen("/dev/urandom", "rb");
    if (random == NULL || fread(seed, 1, sizeof seed, random) != sizeof seed) {
        fputs("no random bytes\n", stderr);
        exit(1);
    }
    fclose(random);
    if (lgm_open(map, chain, true, &none, 0, seed) != LGM_OK) must(NULL);
}

#endif
