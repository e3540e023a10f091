/*
 * Answers payments in several threads while another one extends the map (docs/embedding.md, "Threads").
 *
 *     cc -pthread -I include examples/c/serve.c examples/out/liblgm.a -o serve
 *     serve [-q] [-t TRIES] CHAIN READERS BATCH PAUSE TIMES < SCRIPT
 *
 * The items before the first `commit` of the script (docs/script.md) are offered first. Then the writer offers the
 * others, publishes the map after each BATCH of them, and then pauses for PAUSE milliseconds. Meanwhile each of the READERS
 * routes the payments of the script, again and again, each in the map that was published last: at least TIMES times, and at
 * last all of them in the last one. Each payment is tried TRIES times, once if that is left out, or until there is no route.
 * Nothing is sent here, so a try is taken to fail at the middle hop of its route, which the payment excludes from then on.
 *
 * For each answer it prints a line, unless there is a `-q`: the version of that map, the number of the payment, the first being
 * 0, what it excludes, and what `lgm run` answers. What was done, and how long it took, is written to standard error.
 */
#define _POSIX_C_SOURCE 200809L

#include "script.h"

#include <inttypes.h>
#include <pthread.h>
#include <sys/types.h>
#include <time.h>

enum { MOST_READERS = 64, MOST_TRIES = 16, MOST_ANSWER = 8192 };

/* What the writer publishes for the readers. Both hold the lock for a moment: no call that takes long is made under it. */
static pthread_mutex_t lock = PTHREAD_MUTEX_INITIALIZER;
static lgm_map latest;
static uint64_t latest_version;
static bool has_ended; /* no other map will be published */

static item *items;
static lgm_payment *payments;
static size_t items_len, items_capacity, payments_len, payments_capacity;
static size_t first_len; /* of the items that are offered before the readers start */
static buffer messages;
static size_t batch, pause_ms, times, tries = 1;
static bool is_quiet;

static void expect(uint32_t number) {
    if (number == LGM_OK) return;
    fprintf(stderr, "serve: %s\n", lgm_text(number));
    exit(1);
}

static double now(void) {
    struct timespec time;
    clock_gettime(CLOCK_MONOTONIC, &time);
    return (double)time.tv_sec + (double)time.tv_nsec / 1e9;
}

static void *grown(void *list, size_t len, size_t *capacity, size_t size) {
    if (len < *capacity) return list;
    *capacity = 2 * *capacity + 16;
    return must(realloc(list, *capacity * size));
}

/* ---- the writer */

/* What publications took, in seconds. */
typedef struct {
    double *taken;
    size_t len, capacity;
} publications;

/* Publishes the map as it is. The readers that still have an older one go on with it. */
static void publish(lgm_map *map, publications *done) {
    lgm_map fresh = {0}, old;
    double start = now();
    expect(lgm_publish(map, &fresh));
    done->taken = grown(done->taken, done->len, &done->capacity, sizeof *done->taken);
    done->taken[done->len++] = now() - start;
    uint64_t version = lgm_version_of(&fresh);
    pthread_mutex_lock(&lock);
    old = latest;
    latest = fresh;
    latest_version = version;
    pthread_mutex_unlock(&lock);
    lgm_free(&old);
}

static void offer_items(lgm_map *map, size_t from, size_t to) {
    for (size_t i = from; i < to; i++) {
        uint32_t number = offer(map, &items[i], messages.bytes + items[i].start);
        if (number >= LGM_CLOSED) expect(number);
    }
}

static void write_map(lgm_map *map, publications *done) {
    for (size_t from = first_len; from < items_len;) {
        size_t to = items_len - from < batch ? items_len : from + batch;
        offer_items(map, from, to);
        publish(map, done);
        nanosleep(&(struct timespec){(time_t)(pause_ms / 1000), (long)(pause_ms % 1000) * 1000000}, NULL);
        from = to;
    }
    pthread_mutex_lock(&lock);
    has_ended = true;
    pthread_mutex_unlock(&lock);
}

/* ---- the readers */

/* Takes the map that was published last in place of an older one. Returns whether no other will follow. */
static bool renew(lgm_map *published, uint64_t *version) {
    lgm_map fresh = {0};
    pthread_mutex_lock(&lock);
    bool is_last = has_ended;
    if (!published->is_open || *version != latest_version) expect(lgm_share(&latest, &fresh));
    pthread_mutex_unlock(&lock);
    if (fresh.is_open) {
        lgm_free(published);
        *published = fresh;
        *version = lgm_version_of(published);
    }
    return is_last;
}

static size_t describe_bytes(char *text, const uint8_t *bytes, size_t len) {
    for (size_t i = 0; i < len; i++) sprintf(text + 2 * i, "%02x", bytes[i]);
    return 2 * len;
}

/* A payment, with what the tries before have taught, and the answer to this one. */
typedef struct {
    size_t payment;
    lgm_limit limits[MOST_TRIES];
    size_t limits_len;
    uint32_t number;
    lgm_hop hops[LGM_MOST_HOPS];
    uint8_t payloads[LGM_MOST_PAYLOADS];
    lgm_lengths lengths;
} attempt;

static size_t describe_id(char *text, uint64_t scid) {
    return (size_t)sprintf(text, "%" PRIu64 "x%" PRIu64 "x%" PRIu64, scid >> 40, scid >> 16 & 0xffffff, scid & 0xffff);
}

/* What is excluded: the ids, each with the node that the edge leaves. */
static size_t describe_limits(char *text, const attempt *it) {
    size_t at = (size_t)sprintf(text, "-");
    for (size_t i = 0; i < it->limits_len; i++) {
        at += describe_id(text + at, it->limits[i].scid);
        text[at++] = '/';
        at += describe_bytes(text + at, it->limits[i].from, sizeof it->limits[i].from);
        text[at++] = ',';
    }
    return at;
}

static void describe_route(char *text, const attempt *it) {
    const uint8_t *payload = it->payloads;
    size_t at = (size_t)sprintf(text, "route %" PRIu64 " %" PRIu32 " %zu", it->hops[0].amount_msat, it->hops[0].expiry,
                                it->lengths.hops);
    for (size_t i = 0; i < it->lengths.hops; i++) {
        at += (size_t)sprintf(text + at, " hop ");
        at += describe_id(text + at, it->hops[i].scid);
        text[at++] = ' ';
        at += describe_bytes(text + at, payload, it->hops[i].payload_len);
        payload += it->hops[i].payload_len;
    }
    text[at] = 0;
}

/* Prints a line, in one call, so that those of other readers don't come between. */
static void print_answer(uint64_t version, const attempt *it) {
    char text[MOST_ANSWER];
    size_t at = (size_t)sprintf(text, "%" PRIu64 " %zu ", version, it->payment);
    at += describe_limits(text + at, it);
    text[at++] = ' ';
    if (it->number == LGM_OK) {
        describe_route(text + at, it);
    } else {
        sprintf(text + at, "%s", lgm_text(it->number));
    }
    puts(text);
}

static void route(lgm_map *published, uint64_t version, attempt *it) {
    lgm_estimates nothing = {0};
    lgm_attempt asked = {.payment = payments[it->payment], .limits = it->limits, .limits_len = it->limits_len};
    it->number = lgm_attempt_route(published, &asked, &nothing, it->hops, LGM_MOST_HOPS, it->payloads, sizeof it->payloads,
                                   &it->lengths);
    if (it->number >= LGM_CLOSED) expect(it->number);
    if (!is_quiet) print_answer(version, it);
}

/* Takes the middle hop for the one that failed, and excludes it. A node would exclude less: what that hop couldn't carry. */
static void learn(attempt *it) {
    const lgm_hop *hop = &it->hops[it->lengths.hops / 2];
    lgm_limit *limit = &it->limits[it->limits_len++];
    *limit = (lgm_limit){.scid = hop->scid, .most_msat = 0};
    memcpy(limit->from, hop->from, sizeof limit->from);
}

/* Tries a payment until there is no route, or often enough, each time in the map that was published last. Returns how often. */
static size_t pay(lgm_map *published, uint64_t *version, size_t payment) {
    attempt it = {.payment = payment};
    for (;;) {
        route(published, *version, &it);
        if (it.number != LGM_OK || it.limits_len + 1 == tries) return it.limits_len + 1;
        learn(&it);
        renew(published, version);
    }
}

/* A thread: it has a published map of its own, reads alone, and counts its answers. */
static void *read_map(void *answers) {
    lgm_map published = {0};
    uint64_t version = 0;
    size_t *count = answers;
    bool is_last = false;
    for (size_t round = 0; !is_last || round < times; round++) {
        is_last = renew(&published, &version);
        for (size_t i = 0; i < payments_len; i++) {
            if (i > 0 && !is_last) renew(&published, &version);
            *count += pay(&published, &version, i);
        }
    }
    lgm_free(&published);
    return NULL;
}

/* ---- the script */

/* Takes an item or a payment. Other lines have no meaning here. */
static void take_line(char *line, bool *has_commit) {
    static uint8_t bytes[MOST_BYTES];
    char *fields[7];
    size_t count = split(line, fields, 7);
    item it = {0};
    if (count == 4 && strcmp(fields[0], "m") == 0 && read_verdicts(fields[2], fields[3], &it))
        it.len = read_hex(fields[1], bytes, sizeof bytes);
    it.is_close = count == 2 && strcmp(fields[0], "close") == 0 && read_scid(fields[1], &it.scid);
    if (it.len > 0 || it.is_close) {
        it.start = messages.len;
        append(&messages, bytes, it.len);
        items = grown(items, items_len, &items_capacity, sizeof *items);
        items[items_len++] = it;
        if (!*has_commit) first_len = items_len;
    }
    *has_commit |= count == 1 && strcmp(fields[0], "commit") == 0;
    payments = grown(payments, payments_len, &payments_capacity, sizeof *payments);
    if (count == 6 && strcmp(fields[0], "route") == 0 && read_payment(fields + 1, &payments[payments_len])) payments_len++;
}

static void read_script(void) {
    char *line = NULL;
    size_t capacity = 0;
    bool has_commit = false;
    for (ssize_t len; (len = getline(&line, &capacity, stdin)) > 0;) {
        if (line[len - 1] == '\n') line[len - 1] = 0;
        take_line(line, &has_commit);
    }
    free(line);
    reserve(&messages, 1);
}

/* ---- the program */

static int compare(const void *one, const void *other) {
    double left = *(const double *)one, right = *(const double *)other;
    return (left > right) - (left < right);
}

/* The first two publications are copies, since there are no networks to take turns yet. */
static void report(publications *done, size_t answers, double seconds) {
    fprintf(stderr, "first publication %.1f ms\n", done->taken[0] * 1000);
    if (done->len > 1) {
        qsort(done->taken + 1, done->len - 1, sizeof *done->taken, compare);
        fprintf(stderr, "others %zu, median %.1f ms, %.1f ms at most\n", done->len - 1,
                done->taken[(done->len + 1) / 2] * 1000, done->taken[done->len - 1] * 1000);
    }
    fprintf(stderr, "answers %zu, %.0f a second\n", answers, (double)answers / seconds);
}

static bool read_count(const char *field, size_t most, size_t *count) {
    uint64_t number;
    if (!read_number(field, most, &number)) return false;
    *count = number;
    return true;
}

/* Reads the words that may be left out, and returns those behind them. */
static char **read_options(char **words) {
    is_quiet = *words != NULL && strcmp(*words, "-q") == 0;
    words += is_quiet;
    if (words[0] == NULL || strcmp(words[0], "-t") != 0 || words[1] == NULL) return words;
    return read_count(words[1], MOST_TRIES, &tries) && tries > 0 ? words + 2 : words;
}

/* Waits for the readers, and returns how many answers they gave. */
static size_t joined(pthread_t *threads, const size_t *answers, size_t readers) {
    size_t all = 0;
    for (size_t i = 0; i < readers; i++) {
        pthread_join(threads[i], NULL);
        all += answers[i];
    }
    return all;
}

int main(int argc, char **argv) {
    static size_t answers[MOST_READERS];
    static pthread_t threads[MOST_READERS];
    lgm_map map = {0};
    uint8_t chain[32];
    size_t readers;
    char **words = read_options(argv + 1);
    if (argv + argc - words != 5 || !read_exactly(words[0], chain, sizeof chain)
        || !read_count(words[1], MOST_READERS, &readers) || !read_count(words[2], SIZE_MAX, &batch) || batch == 0
        || !read_count(words[3], 1000000, &pause_ms) || !read_count(words[4], SIZE_MAX, &times)
        || lgm_version() != LGM_VERSION) {
        fputs("usage: serve [-q] [-t TRIES] CHAIN READERS BATCH PAUSE TIMES < SCRIPT\n", stderr);
        return 2;
    }
    read_script();
    open_map(&map, chain);
    offer_items(&map, 0, first_len);
    publications done = {0};
    publish(&map, &done);
    double start = now();
    for (size_t i = 0; i < readers; i++)
        if (pthread_create(&threads[i], NULL, read_map, &answers[i]) != 0) must(NULL);
    write_map(&map, &done);
    size_t all = joined(threads, answers, readers);
    report(&done, all, now() - start);
    lgm_free(&latest);
    lgm_free(&map);
    free(done.taken);
    free(items);
    free(payments);
    free(messages.bytes);
    return 0;
}
