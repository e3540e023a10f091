/*
 * Tests heap.c and process.c, or the kit's C code in their place: what each function answers at its limits. It is linked
 * with -Wl,--wrap=malloc,--wrap=realloc,--wrap=free, and run as `test "" four`. Ends with 0, or says which line is wrong.
 */
#include <errno.h>
#include <pthread.h>
#include <stdbool.h>
#include <stdint.h>
#include <stdio.h>
#include <string.h>
#include <sys/types.h>

typedef struct {
    bool ok;
    void *p;
} tried;

tried rattle_alloc(size_t n, size_t a);
tried rattle_realloc(void *p, size_t kept, size_t n, size_t a);
void rattle_dealloc(void *p);
int rattle_errno(void);
void rattle_set_errno(int error);
size_t rattle_arg_count(void);
ssize_t rattle_arg(size_t i, uint8_t *buf, size_t len);

static bool refuses;
static size_t asked; /* the bytes of the last call of either */
static const void *freed; /* the last block that was */
void *__real_malloc(size_t n);
void *__real_realloc(void *p, size_t n);
void __real_free(void *p);

void *__wrap_malloc(size_t n) {
    asked = n;
    return refuses ? NULL : __real_malloc(n);
}

void *__wrap_realloc(void *p, size_t n) {
    asked = n;
    return refuses ? NULL : __real_realloc(p, n);
}

void __wrap_free(void *p) {
    freed = p;
    __real_free(p);
}

static int wrong;

static void check(bool holds, int line) {
    if (!holds) wrong++, fprintf(stderr, "line %d\n", line);
}

#define CHECK(it) check(it, __LINE__)

static bool is_aligned(const void *p) { return ((uintptr_t)p & 15) == 0; }

static void test_blocks(void) {
    for (size_t n = 1; n < 5000; n = 3 * n / 2 + 1) {
        tried it = rattle_alloc(n, 16);
        CHECK(it.ok && it.p && asked == n);
        CHECK(n < 16 || is_aligned(it.p));
        memset(it.p, 7, n);
        it = rattle_realloc(it.p, n, 2 * n, 16);
        CHECK(it.ok && asked == 2 * n && memchr(it.p, 7, 1) == it.p && ((char *)it.p)[n - 1] == 7);
        memset(it.p, 8, 2 * n);
        it = rattle_realloc(it.p, 1, 1, 1); /* one that is made smaller keeps what fits */
        CHECK(it.ok && asked == 1 && *(char *)it.p == 8);
        rattle_dealloc(it.p);
        CHECK(freed == it.p);
    }
}

static void test_no_bytes(void) {
    tried it = rattle_alloc(0, 8), other = rattle_alloc(0, 8);
    CHECK(it.ok && other.ok && it.p && other.p && it.p != other.p && asked == 8);
    it = rattle_realloc(it.p, 0, 24, 8);
    CHECK(it.ok && asked == 24);
    memset(it.p, 1, 24);
    it = rattle_realloc(it.p, 0, 0, 8); /* and it is still a block, to be freed once */
    CHECK(it.ok && it.p && asked == 8);
    rattle_dealloc(it.p);
    rattle_dealloc(other.p);
}

static void test_refused(void) {
    tried it = rattle_alloc(3, 1);
    memcpy(it.p, "abc", 3);
    refuses = true;
    tried none = rattle_alloc(1, 1), empty = rattle_alloc(0, 1), larger = rattle_realloc(it.p, 3, 1 << 20, 1);
    refuses = false;
    CHECK(!none.ok && none.p && !empty.ok && empty.p && !larger.ok && larger.p);
    CHECK(memcmp(it.p, "abc", 3) == 0);
    CHECK(!rattle_alloc(INT64_MAX, 16).ok); /* the most that is asked for */
    CHECK(!rattle_realloc(it.p, 3, INT64_MAX, 1).ok && memcmp(it.p, "abc", 3) == 0);
    rattle_dealloc(it.p);
}

static void *other_thread(void *unused) {
    rattle_set_errno(ENOENT);
    return unused;
}

static void test_errno(void) {
    errno = EINTR;
    CHECK(rattle_errno() == EINTR);
    rattle_set_errno(0);
    CHECK(errno == 0 && rattle_errno() == 0);
    rattle_set_errno(EAGAIN);
    pthread_t thread;
    CHECK(pthread_create(&thread, NULL, other_thread, NULL) == 0 && pthread_join(thread, NULL) == 0);
    CHECK(errno == EAGAIN); /* each thread has its own */
}

static void test_arguments(const char *name) {
    uint8_t buf[4096], spare[8];
    memset(spare, 9, sizeof spare);
    CHECK(rattle_arg_count() == 3);
    CHECK(rattle_arg(0, buf, sizeof buf) == (ssize_t)strlen(name) && memcmp(buf, name, strlen(name)) == 0);
    CHECK(rattle_arg(1, spare, 0) == 0 && rattle_arg(1, spare, 8) == 0 && spare[0] == 9);
    CHECK(rattle_arg(2, spare, 8) == 4 && memcmp(spare, "four\t\t\t\t", 8) == 0);
    memset(spare, 9, sizeof spare);
    CHECK(rattle_arg(2, spare, 4) == 4 && memcmp(spare, "four\t", 5) == 0); /* it just fits */
    memset(spare, 9, sizeof spare);
    CHECK(rattle_arg(2, spare, 3) == -2 && memcmp(spare, "fou\t", 4) == 0);
    CHECK(rattle_arg(2, spare, 0) == -2);
    CHECK(rattle_arg(3, spare, 8) == -1 && rattle_arg(SIZE_MAX, spare, 8) == -1);
}

int main(int argc, char **argv) {
    (void)argc;
    test_blocks();
    test_no_bytes();
    test_refused();
    test_errno();
    test_arguments(argv[0]);
    return wrong != 0;
}
