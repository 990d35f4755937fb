/* The header by itself, as C and as C++: its texts, its floats as bits, and each call linked, of which each refuses no memory at all with 1. Ends with 0 if all is so. */
#include "yoldrick.h"
#include "yoldrick.h"

#include <stdio.h>
#include <string.h>

#define NONE NULL, 0, NULL, 0, NULL, 0

static int wrong;

static void check(const char *what, int right) {
    if (!right) {
        printf("header: FAILED: %s\n", what);
        wrong = 1;
    }
}

static void check_texts(void) {
    uint32_t i, j;
    check("a code that there is not", strcmp(yoldrick_text(11), "no such code") == 0 && strcmp(yoldrick_text(UINT32_MAX), "no such code") == 0);
    for (i = 0; i <= 11; i++)
        for (j = 0; j < i; j++)
            check("two codes with one text", strcmp(yoldrick_text(i), yoldrick_text(j)) != 0);
}

static void check_bits(void) {
    check("the bits of 0.25", yoldrick_bits(0.25f) == 0x3e800000u);
    check("the bits of -0", yoldrick_bits(-0.0f) == 0x80000000u);
    check("the bits of the largest value", yoldrick_bits(3.402823466e38f) == 0x7f7fffffu);
}

static void check_calls(void) {
    const uint32_t codes[] = {
        yoldrick_sizes(0).code,
        yoldrick_prepare(NONE),
        yoldrick_free_cells(NONE).code,
        yoldrick_is_empty(NONE, 8).code,
        yoldrick_lookup(NONE, 8, 0, 0, 0).code,
        yoldrick_sign(NONE, 8, 0, 0, 0).code,
        yoldrick_insert(NONE, 8, 0, 0, 0, yoldrick_bits(1.0f)),
        yoldrick_remove(NONE, 8, 0, 0, 0),
        yoldrick_fill(NONE, 8, yoldrick_bits(1.0f)),
        yoldrick_clear(NONE, 8),
        yoldrick_prune(NONE, 8),
        yoldrick_cut_below(NONE, 8, 1.0f),
        yoldrick_cut_above(NONE, 8, 1.0f),
        yoldrick_cut_between(NONE, 8, 0.0f, 1.0f),
        yoldrick_flip(NONE, 8),
        yoldrick_fill_signs(NONE, 8),
        yoldrick_copy(NONE, 8, 8),
        yoldrick_union(NONE, 8, 8),
        yoldrick_subtract(NONE, 8, 8),
        yoldrick_intersect(NONE, 8, 8),
    };
    size_t i;
    for (i = 0; i < sizeof codes / sizeof *codes; i++)
        check("a call on no memory at all", codes[i] == YOLDRICK_REFUSED_LENGTHS);
}

static void check_sizes(void) {
    const yoldrick_lengths most = yoldrick_sizes(65535);
    check("the counts of the largest pool", most.code == YOLDRICK_DONE && most.slots == YOLDRICK_SLOTS(65535) && most.masks == YOLDRICK_MASKS(65535) && most.book == YOLDRICK_BOOK(65535));
}

int main(void) {
    check_texts();
    check_bits();
    check_calls();
    check_sizes();
    return wrong;
}
