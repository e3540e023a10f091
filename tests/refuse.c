/* Refuses one call of a program that it is loaded into (LD_PRELOAD).
 *
 * REFUSE is the kind of call: memory, thread, read or write. REFUSE_CALL is which call of that kind is refused, from 1.
 * REFUSED is a file that is made when it is refused. */

#define _GNU_SOURCE
#include <dlfcn.h>
#include <errno.h>
#include <fcntl.h>
#include <pthread.h>
#include <stdatomic.h>
#include <stdlib.h>
#include <string.h>
#include <sys/syscall.h>
#include <unistd.h>

enum { MEMORY, THREAD, READ, WRITE, KINDS };

static const char *const names[KINDS] = {"memory", "thread", "read", "write"};

/* How many calls of each kind there are up to the one that is refused; 0 where none is, or was. */
static atomic_long left[KINDS];
static const char *refused;

__attribute__((constructor)) static void begin(void)
{
    const char *kind = getenv("REFUSE"), *call = getenv("REFUSE_CALL");
    refused = getenv("REFUSED");
    for (int k = 0; kind && call && refused && k < KINDS; k++)
        if (strcmp(kind, names[k]) == 0)
            left[k] = atol(call);
}

static int is_refused(int kind)
{
    if (left[kind] <= 0 || atomic_fetch_sub(&left[kind], 1) != 1)
        return 0;
    syscall(SYS_close, syscall(SYS_open, refused, O_CREAT | O_WRONLY, 0600));
    return 1;
}

extern void *__libc_malloc(size_t);
extern void *__libc_realloc(void *, size_t);

void *malloc(size_t size)
{
    if (!is_refused(MEMORY))
        return __libc_malloc(size);
    errno = ENOMEM;
    return NULL;
}

void *realloc(void *block, size_t size)
{
    if (!is_refused(MEMORY))
        return __libc_realloc(block, size);
    errno = ENOMEM;
    return NULL;
}

int pthread_create(pthread_t *thread, const pthread_attr_t *attr, void *(*run)(void *), void *with)
{
    static int (*next)(pthread_t *, const pthread_attr_t *, void *(*)(void *), void *);
    if (is_refused(THREAD))
        return EAGAIN;
    if (!next)
        next = (int (*)(pthread_t *, const pthread_attr_t *, void *(*)(void *), void *))dlsym(RTLD_NEXT, "pthread_create");
    return next(thread, attr, run, with);
}

ssize_t read(int file, void *bytes, size_t count)
{
    if (!is_refused(READ))
        return syscall(SYS_read, file, bytes, count);
    errno = EIO;
    return -1;
}

ssize_t write(int file, const void *bytes, size_t count)
{
    if (!is_refused(WRITE))
        return syscall(SYS_write, file, bytes, count);
    errno = EIO;
    return -1;
}

ssize_t __write(int file, const void *bytes, size_t count)
{
    return write(file, bytes, count);
}
