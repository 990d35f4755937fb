/* The first steps: lend memory, prepare it, insert a voxel, look it up and remove it; give a seat its signs; and start again after damage. Build it at the root of the tree:

       tools/library
       gcc -std=c99 -Wall -Wextra -Itarget/library example/first.c target/library/libyoldrick.a -o target/first */
#include <stdio.h>

#include "yoldrick.h"

/* A pool of 100 cells, 45 kB, with no heap. */
enum { CELLS = 100 };
static uint32_t slots[YOLDRICK_SLOTS(CELLS)];
static uint64_t masks[YOLDRICK_MASKS(CELLS)];
static uint32_t book[YOLDRICK_BOOK(CELLS)];

/* The three arrays as arguments. */
#define POOL slots, YOLDRICK_SLOTS(CELLS), masks, YOLDRICK_MASKS(CELLS), book, YOLDRICK_BOOK(CELLS)

static void show(const char *what, int32_t x, int32_t y, int32_t z) {
    yoldrick_answer found = yoldrick_lookup(POOL, 0, x, y, z);
    if (found.code == YOLDRICK_DONE)
        printf("%s: (%d, %d, %d) is %g\n", what, (int)x, (int)y, (int)z, (double)found.value);
    else if (found.code == YOLDRICK_NOTHING)
        printf("%s: (%d, %d, %d) has nothing\n", what, (int)x, (int)y, (int)z);
    else
        printf("%s: %s\n", what, yoldrick_text(found.code));
}

int main(void) {
    printf("lookup before prepare of a seat that is none: refusal %u\n", (unsigned)yoldrick_lookup(POOL, 8, 0, 0, 0).code);
    printf("prepare: %u\n", (unsigned)yoldrick_prepare(POOL));
    printf("free cells: %u\n", (unsigned)yoldrick_free_cells(POOL).number);
    printf("seat 0 is empty: %u\n", (unsigned)yoldrick_is_empty(POOL, 0).number);
    show("fresh", 5, -3, 70);
    printf("insert: %u\n", (unsigned)yoldrick_insert(POOL, 0, 5, -3, 70, yoldrick_bits(0.25f)));
    show("inserted", 5, -3, 70);
    show("the same voxel", 5, 125, 70 + 128);
    show("its neighbour", 5, -3, 71);
    printf("free cells: %u\n", (unsigned)yoldrick_free_cells(POOL).number);
    printf("insert of an infinity: refusal %u\n", (unsigned)yoldrick_insert(POOL, 0, 5, -3, 70, 0x7f800000u));
    printf("remove: %u\n", (unsigned)yoldrick_remove(POOL, 0, 5, -3, 70));
    show("removed", 5, -3, 70);
    printf("free cells: %u\n", (unsigned)yoldrick_free_cells(POOL).number);
    printf("sign of a seat that is not filled: refusal %u\n", (unsigned)yoldrick_sign(POOL, 0, 5, -3, 70).code);
    printf("insert: %u\n", (unsigned)yoldrick_insert(POOL, 0, 5, -3, 70, yoldrick_bits(-0.25f)));
    printf("fill with signs: %u\n", (unsigned)yoldrick_fill_signs(POOL, 0));
    printf("a hidden voxel is negative: %u\n", (unsigned)yoldrick_sign(POOL, 0, 90, 90, 90).number);
    book[8] = CELLS + 1; /* something else writes to the pool */
    show("damaged, its path whole", 5, -3, 70);
    if (yoldrick_flip(POOL, 0) == YOLDRICK_REFUSED_DAMAGED)
        printf("%s; prepare: %u\n", yoldrick_text(YOLDRICK_REFUSED_DAMAGED), (unsigned)yoldrick_prepare(POOL));
    printf("no memory at all: refusal %u\n", (unsigned)yoldrick_prepare(NULL, 0, NULL, 0, NULL, 0));
    return 0;
}
