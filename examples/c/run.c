/*
 * Answers a script as `lgm run` does (docs/script.md), by the library: it has two handles, one with all accepted items
 * and one with the committed ones, and answers requests from the second one.
 *
 *     run CHAIN < SCRIPT
 *
 * It shows the use of the calls of include/lgm.h. The program itself is faster: it decodes digits in blocks, checks
 * messages once and not for each map, and shares work between threads.
 */
#define _POSIX_C_SOURCE 200809L

#include "script.h"

#include <inttypes.h>
#include <stdarg.h>
#include <sys/types.h>

enum { MOST_PEERS = 1000, FILTER_LEN = 42 };

/* ---- the session */

typedef struct {
    lgm_map accepted, committed;
    uint64_t line, items;
    item *pending;
    size_t pending_len, pending_capacity;
    buffer bytes;    /* of the messages that are pending */
    buffer messages; /* that the library wrote */
    bool has_filter[MOST_PEERS];
    uint8_t filters[MOST_PEERS][FILTER_LEN];
    size_t filter_lens[MOST_PEERS];
} session;

static void print_line(const session *s, const char *format, ...) {
    va_list words;
    va_start(words, format);
    printf("%" PRIu64 " ", s->line);
    vprintf(format, words);
    putchar('\n');
    va_end(words);
}

static void print_bytes(const session *s, const char *what, const uint8_t *bytes, size_t len) {
    printf("%" PRIu64 " %s", s->line, what);
    for (size_t i = 0; i < len; i++) printf("%02x", bytes[i]);
    putchar('\n');
}

/* Prints the word of a number. Out of memory ends the program. */
static void print_word(const session *s, uint32_t number) {
    if (number >= LGM_CLOSED) {
        fprintf(stderr, "run: line %" PRIu64 ": %s\n", s->line, lgm_text(number));
        exit(1);
    }
    print_line(s, "%s", lgm_text(number));
}

/* A call of the library that writes messages: lgm_query, lgm_filter or lgm_news. */
typedef uint32_t messages_call(lgm_map *, const uint8_t *, size_t, uint8_t *, size_t, size_t *);

static uint32_t call_for_messages(session *s, messages_call *call, const uint8_t *bytes, size_t len) {
    reserve(&s->messages, 1);
    uint32_t number = call(&s->committed, bytes, len, s->messages.bytes, s->messages.capacity, &s->messages.len);
    if (number == LGM_ROOM) {
        reserve(&s->messages, s->messages.len);
        number = call(&s->committed, bytes, len, s->messages.bytes, s->messages.capacity, &s->messages.len);
    }
    return number;
}

static void print_messages(const session *s, const char *what) {
    for (size_t at = 0; at < s->messages.len;) {
        uint64_t len = 0;
        for (size_t i = 8; i-- > 0;) len = len << 8 | s->messages.bytes[at + i];
        print_bytes(s, what, s->messages.bytes + at + 8, len);
        at += 8 + len;
    }
}

static void print_to_peer(const session *s, uint64_t peer) {
    char what[16];
    snprintf(what, sizeof what, "to %" PRIu64 " ", peer);
    print_messages(s, what);
}

/* ---- the lines */

static void take_item(session *s, item *it, const uint8_t *bytes) {
    uint32_t number = offer(&s->accepted, it, bytes);
    print_word(s, number);
    if (number != LGM_OK) return;
    s->items++;
    it->start = s->bytes.len;
    append(&s->bytes, bytes, it->len);
    if (s->pending_len == s->pending_capacity) {
        s->pending_capacity = 2 * s->pending_capacity + 16;
        s->pending = must(realloc(s->pending, s->pending_capacity * sizeof *s->pending));
    }
    s->pending[s->pending_len++] = *it;
}

static void take_message(session *s, char *hex, char *sig, char *funding) {
    static uint8_t bytes[MOST_BYTES];
    item it = {0};
    it.len = read_hex(hex, bytes, sizeof bytes);
    if (it.len == 0 || !read_verdicts(sig, funding, &it)) print_line(s, "bad");
    else take_item(s, &it, bytes);
}

static void take_close(session *s, char *scid) {
    item it = {.is_close = true};
    if (!read_scid(scid, &it.scid)) print_line(s, "bad");
    else take_item(s, &it, it.signer);
}

/* Offers what is pending to the committed map, and prints the news for each peer. */
static void commit(session *s) {
    for (size_t i = 0; i < s->pending_len; i++) {
        uint32_t number = offer(&s->committed, &s->pending[i], s->bytes.bytes + s->pending[i].start);
        if (number != LGM_OK) print_word(s, number);
    }
    s->pending_len = 0;
    s->bytes.len = 0;
    print_line(s, "commit %" PRIu64, s->items);
    for (uint64_t peer = 0; peer < MOST_PEERS; peer++) {
        if (!s->has_filter[peer]) continue;
        uint32_t number = call_for_messages(s, lgm_news, s->filters[peer], s->filter_lens[peer]);
        if (number != LGM_OK) print_word(s, number);
        else print_to_peer(s, peer);
    }
    uint32_t number = lgm_mark(&s->committed);
    if (number != LGM_OK) print_word(s, number);
}

static void query(session *s, char *hex) {
    static uint8_t bytes[MOST_BYTES];
    size_t len = read_hex(hex, bytes, sizeof bytes);
    if (len == 0) {
        print_line(s, "bad");
        return;
    }
    uint32_t number = call_for_messages(s, lgm_query, bytes, len);
    if (number != LGM_OK) print_word(s, number);
    else print_messages(s, "");
}

static void filter(session *s, char *peer_field, char *hex) {
    static uint8_t bytes[MOST_BYTES];
    uint64_t peer;
    size_t len = read_hex(hex, bytes, sizeof bytes);
    if (len == 0 || !read_number(peer_field, MOST_PEERS - 1, &peer)) {
        print_line(s, "bad");
        return;
    }
    uint32_t number = call_for_messages(s, lgm_filter, bytes, len);
    if (number != LGM_OK) {
        print_word(s, number);
        return;
    }
    /* Bytes after the fields of a filter have no meaning. */
    s->has_filter[peer] = true;
    s->filter_lens[peer] = len < FILTER_LEN ? len : FILTER_LEN;
    memcpy(s->filters[peer], bytes, s->filter_lens[peer]);
    print_line(s, "filter");
    print_to_peer(s, peer);
}

static void print_hops(const session *s, const lgm_hop *hops, size_t count, const uint8_t *payload) {
    print_line(s, "route %" PRIu64 " %" PRIu32 " %zu", hops[0].amount_msat, hops[0].expiry, count);
    for (size_t i = 0; i < count; i++) {
        char what[64];
        snprintf(what, sizeof what, "hop %" PRIu64 "x%" PRIu64 "x%" PRIu64 " ", hops[i].scid >> 40,
                 hops[i].scid >> 16 & 0xffffff, hops[i].scid & 0xffff);
        print_bytes(s, what, payload, hops[i].payload_len);
        payload += hops[i].payload_len;
    }
}

static void route(session *s, char **fields) {
    lgm_payment payment;
    lgm_hop hops[LGM_MOST_HOPS];
    uint8_t payloads[LGM_MOST_PAYLOADS];
    lgm_lengths lengths;
    if (!read_payment(fields + 1, &payment)) {
        print_line(s, "bad");
        return;
    }
    uint32_t number = lgm_route(&s->committed, &payment, hops, LGM_MOST_HOPS, payloads, sizeof payloads, &lengths);
    if (number != LGM_OK) print_word(s, number);
    else print_hops(s, hops, lengths.hops, payloads);
}

static void answer(session *s, char *line) {
    char *fields[7];
    if (line[0] == 0 || line[0] == '#') return;
    size_t count = split(line, fields, 7);
    const char *word = count == 0 ? "" : fields[0];
    if (count == 4 && strcmp(word, "m") == 0) take_message(s, fields[1], fields[2], fields[3]);
    else if (count == 2 && strcmp(word, "close") == 0) take_close(s, fields[1]);
    else if (count == 1 && strcmp(word, "commit") == 0) commit(s);
    else if (count == 2 && strcmp(word, "q") == 0) query(s, fields[1]);
    else if (count == 3 && strcmp(word, "filter") == 0) filter(s, fields[1], fields[2]);
    else if (count == 6 && strcmp(word, "route") == 0) route(s, fields);
    else print_line(s, "bad");
}

int main(int argc, char **argv) {
    static session s;
    uint8_t chain[32];
    if (argc != 2 || !read_exactly(argv[1], chain, sizeof chain) || lgm_version() != LGM_VERSION) {
        fputs("usage: run CHAIN < SCRIPT\n", stderr);
        return 2;
    }
    open_map(&s.accepted, chain);
    open_map(&s.committed, chain);
    if (lgm_mark(&s.committed) != LGM_OK) must(NULL);
    reserve(&s.bytes, 1);
    char *line = NULL;
    size_t capacity = 0;
    for (ssize_t len; (len = getline(&line, &capacity, stdin)) > 0;) {
        if (line[len - 1] == '\n') line[len - 1] = 0;
        s.line++;
        answer(&s, line);
    }
    lgm_free(&s.accepted);
    lgm_free(&s.committed);
    free(line);
    free(s.pending);
    free(s.bytes.bytes);
    free(s.messages.bytes);
    return 0;
}
