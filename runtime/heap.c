/*
 * The heap of Rattle's libraries over that of the C library, for machines for which the kit has no C code of its own.
 * Above each function stands the kit's declaration that it meets, as the contract has it in libc/src/heap.rt.
 */
#include <stdbool.h>
#include <stddef.h>
#include <stdlib.h>

/*
 * The kit's `libc::types::Tried`: whether there is a block, and where. Where there is none, the pointer isn't null all the
 * same, and owns nothing.
 */
typedef struct {
    bool ok;
    void *p;
} tried;

static char none;

static tried block_at(void *p) { return (tried){p != NULL, p != NULL ? p : &none}; }

/*
 * pub fn rattle_alloc(memory: Memory, n: usize, a: usize) -> crate::types::Tried
 *
 * A new block of n bytes for a type aligned to a, which divides 16; `Memory` has no bytes, so nothing is passed for it.
 * malloc aligns to 16 each block that has room for such a type. One of 0 bytes gets a bytes, since malloc(0) may be null.
 */
tried rattle_alloc(size_t n, size_t a) { return block_at(malloc(n != 0 ? n : a)); }

/*
 * pub unsafe fn rattle_realloc(memory: Memory, p: *mut u8, kept: usize, n: usize, a: usize) -> crate::types::Tried
 *
 * The block at p, with n bytes, of which the first `kept` are as they were: realloc keeps all that fit. Where it fails, the
 * block is as it was. realloc(p, 0) may free it, so here, too, 0 bytes are a bytes.
 */
tried rattle_realloc(void *p, size_t kept, size_t n, size_t a) {
    (void)kept;
    return block_at(realloc(p, n != 0 ? n : a));
}

/*
 * pub unsafe fn rattle_dealloc(memory: Memory, p: *mut u8)
 *
 * Frees what either answered.
 */
void rattle_dealloc(void *p) { free(p); }
