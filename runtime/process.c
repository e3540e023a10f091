/*
 * What Rattle's programs ask of their process, for machines for which the kit has no C code of its own: the last error, and
 * the arguments. Above each function stands the kit's declaration that it meets, as the contract has it in os/src/c.rt.
 * It needs the GNU C library, which passes main's arguments to constructors, too.
 */
#include <errno.h>
#include <stddef.h>
#include <stdint.h>
#include <sys/types.h>

/*
 * pub safe fn rattle_errno() -> i32
 *
 * The number of the last error of this thread.
 */
int rattle_errno(void) { return errno; }

/* pub safe fn rattle_set_errno(error: i32) */
void rattle_set_errno(int error) { errno = error; }

static size_t count;
static char **words;

__attribute__((constructor)) static void keep(int argc, char **argv) {
    count = (size_t)argc;
    words = argv;
}

/*
 * pub safe fn rattle_arg_count() -> usize
 *
 * How many arguments the process has, its name among them.
 */
size_t rattle_arg_count(void) { return count; }

/*
 * pub safe fn rattle_arg(i: usize, buf: &mut [u8]) -> isize
 *
 * Puts argument i at the start of buf and answers its length, -1 where there is no such argument, or -2 where it doesn't fit,
 * and then buf is full. A slice is passed as its address and its length.
 */
ssize_t rattle_arg(size_t i, uint8_t *buf, size_t len) {
    if (i >= count || words[i] == NULL) return -1;
    size_t length = 0;
    for (; words[i][length] != 0; length++) {
        if (length == len) return -2;
        buf[length] = (uint8_t)words[i][length];
    }
    return (ssize_t)length;
}
