/* The library with nothing below it: no C library, no start-up code, and the pool in a section of its own, which example/placement.ld puts at an address. Ends with 0, or with the
   number of the first answer that was wrong. Build it at the root of the tree, on x86_64 (or for i686: gcc -m32, and the library of tools/library i686):

       tools/library
       gcc -std=c99 -ffreestanding -nostdlib -static -fno-pie -no-pie -fno-stack-protector -fno-tree-loop-distribute-patterns -Wl,--gc-sections \
           -Itarget/library -T example/placement.ld example/placement.c target/library/libyoldrick.a -o target/placement */
#include "yoldrick.h"

/* The pool, which nothing loads or clears: yoldrick_prepare does not ask what is there. */
enum { CELLS = 64 };
static struct {
    uint64_t masks[YOLDRICK_MASKS(CELLS)];
    uint32_t slots[YOLDRICK_SLOTS(CELLS)];
    uint32_t book[YOLDRICK_BOOK(CELLS)];
} pool __attribute__((section(".bss.yoldrick_pool")));

#define POOL pool.slots, YOLDRICK_SLOTS(CELLS), pool.masks, YOLDRICK_MASKS(CELLS), pool.book, YOLDRICK_BOOK(CELLS)

/* The functions that a freestanding compiler may call, the archive's too. */
void *memset(void *to, int byte, size_t count) {
    unsigned char *at = to;
    while (count-- > 0)
        *at++ = (unsigned char)byte;
    return to;
}

void *memcpy(void *restrict to, const void *restrict from, size_t count) {
    unsigned char *at = to;
    const unsigned char *source = from;
    while (count-- > 0)
        *at++ = *source++;
    return to;
}

void *memmove(void *to, const void *from, size_t count) {
    unsigned char *at = to;
    const unsigned char *source = from;
    if ((uintptr_t)at <= (uintptr_t)source)
        return memcpy(to, from, count);
    while (count-- > 0)
        at[count] = source[count];
    return to;
}

static int first_wrong(void) {
    yoldrick_lengths counts = yoldrick_sizes(CELLS);
    yoldrick_answer found;
    if (counts.code != YOLDRICK_DONE || counts.slots != YOLDRICK_SLOTS(CELLS) || counts.masks != YOLDRICK_MASKS(CELLS) || counts.book != YOLDRICK_BOOK(CELLS))
        return 1;
    if (yoldrick_prepare(POOL) != YOLDRICK_DONE || yoldrick_free_cells(POOL).number != CELLS)
        return 2;
    /* Two drops of one voxel, apart: each has a middle node and a leaf, and negative is inside. */
    if (yoldrick_insert(POOL, 0, 5, -3, 70, yoldrick_bits(-0.25f)) != YOLDRICK_DONE || yoldrick_insert(POOL, 1, 90, 90, 90, yoldrick_bits(-0.5f)) != YOLDRICK_DONE)
        return 3;
    if (yoldrick_free_cells(POOL).number != CELLS - 4)
        return 4;
    found = yoldrick_lookup(POOL, 0, 5, 125, 70 + 128);
    if (found.code != YOLDRICK_DONE || yoldrick_bits(found.value) != yoldrick_bits(-0.25f))
        return 5;
    if (yoldrick_lookup(POOL, 0, 5, -3, 71).code != YOLDRICK_NOTHING)
        return 6;
    if (yoldrick_union(POOL, 0, 1) != YOLDRICK_REFUSED_UNFILLED)
        return 7;
    if (yoldrick_fill_signs(POOL, 0) != YOLDRICK_DONE || yoldrick_flip(POOL, 0) != YOLDRICK_DONE || yoldrick_fill_signs(POOL, 1) != YOLDRICK_DONE)
        return 8;
    /* All of the seat 0 is outside now and all of the seat 1 inside: what is in 1 and not in 0 is all of it. */
    if (yoldrick_subtract(POOL, 1, 0) != YOLDRICK_DONE || yoldrick_sign(POOL, 1, 0, 0, 0).number != 1 || yoldrick_is_empty(POOL, 0).number != 1)
        return 9;
    /* Something else writes to the pool: it is found, and a new start is made. */
    pool.book[8] = CELLS + 1;
    if (yoldrick_clear(POOL, 1) != YOLDRICK_REFUSED_DAMAGED || yoldrick_prepare(POOL) != YOLDRICK_DONE || yoldrick_free_cells(POOL).number != CELLS)
        return 10;
    return 0;
}

/* Linux starts here, and this call of it ends the program; a board has its own reset code. */
#ifdef __x86_64__
#define END(code) __asm__ volatile("syscall" : : "a"(60L), "D"((long)(code)) : "rcx", "r11", "memory")
#else
#define END(code) __asm__ volatile("int $0x80" : : "a"(1L), "b"((long)(code)) : "memory")
#endif

__attribute__((force_align_arg_pointer, noreturn)) void _start(void) {
    END(first_wrong());
    __builtin_unreachable();
}
