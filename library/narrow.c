/* The calls for a machine with pointers and counts of 32 bits. The library is proved for counts of 64 bits. tools/archive gives its calls the names yoldrick_inner_ and so on, and has
   those whose answer is more than one number write it to a place that they are given, since how such an answer is returned differs from machine to machine. So here each call widens its
   counts and goes on to the one inside. */
#include "yoldrick.h"

#define LENT(kind) kind uint32_t *slots, size_t slots_count, kind uint64_t *masks, size_t masks_count, kind uint32_t *book, size_t book_count
#define INSIDE(kind) kind uint32_t *, uint64_t, kind uint64_t *, uint64_t, kind uint32_t *, uint64_t
#define POOL slots, slots_count, masks, masks_count, book, book_count

void yoldrick_inner_sizes(yoldrick_lengths *, uint32_t);
yoldrick_lengths yoldrick_sizes(uint32_t cells) {
    yoldrick_lengths told;
    yoldrick_inner_sizes(&told, cells);
    return told;
}

uint32_t yoldrick_inner_prepare(INSIDE());
uint32_t yoldrick_prepare(LENT()) {
    return yoldrick_inner_prepare(POOL);
}

void yoldrick_inner_free_cells(yoldrick_number *, INSIDE(const));
yoldrick_number yoldrick_free_cells(LENT(const)) {
    yoldrick_number told;
    yoldrick_inner_free_cells(&told, POOL);
    return told;
}

void yoldrick_inner_is_empty(yoldrick_number *, INSIDE(const), uint32_t);
yoldrick_number yoldrick_is_empty(LENT(const), uint32_t seat) {
    yoldrick_number told;
    yoldrick_inner_is_empty(&told, POOL, seat);
    return told;
}

void yoldrick_inner_lookup(yoldrick_answer *, INSIDE(const), uint32_t, int32_t, int32_t, int32_t);
yoldrick_answer yoldrick_lookup(LENT(const), uint32_t seat, int32_t x, int32_t y, int32_t z) {
    yoldrick_answer told;
    yoldrick_inner_lookup(&told, POOL, seat, x, y, z);
    return told;
}

void yoldrick_inner_sign(yoldrick_number *, INSIDE(const), uint32_t, int32_t, int32_t, int32_t);
yoldrick_number yoldrick_sign(LENT(const), uint32_t seat, int32_t x, int32_t y, int32_t z) {
    yoldrick_number told;
    yoldrick_inner_sign(&told, POOL, seat, x, y, z);
    return told;
}

uint32_t yoldrick_inner_insert(INSIDE(), uint32_t, int32_t, int32_t, int32_t, uint32_t);
uint32_t yoldrick_insert(LENT(), uint32_t seat, int32_t x, int32_t y, int32_t z, uint32_t bits) {
    return yoldrick_inner_insert(POOL, seat, x, y, z, bits);
}

uint32_t yoldrick_inner_remove(INSIDE(), uint32_t, int32_t, int32_t, int32_t);
uint32_t yoldrick_remove(LENT(), uint32_t seat, int32_t x, int32_t y, int32_t z) {
    return yoldrick_inner_remove(POOL, seat, x, y, z);
}

uint32_t yoldrick_inner_fill(INSIDE(), uint32_t, uint32_t);
uint32_t yoldrick_fill(LENT(), uint32_t seat, uint32_t bits) {
    return yoldrick_inner_fill(POOL, seat, bits);
}

uint32_t yoldrick_inner_clear(INSIDE(), uint32_t);
uint32_t yoldrick_clear(LENT(), uint32_t seat) {
    return yoldrick_inner_clear(POOL, seat);
}

uint32_t yoldrick_inner_prune(INSIDE(), uint32_t);
uint32_t yoldrick_prune(LENT(), uint32_t seat) {
    return yoldrick_inner_prune(POOL, seat);
}

uint32_t yoldrick_inner_cut_below(INSIDE(), uint32_t, float);
uint32_t yoldrick_cut_below(LENT(), uint32_t seat, float high) {
    return yoldrick_inner_cut_below(POOL, seat, high);
}

uint32_t yoldrick_inner_cut_above(INSIDE(), uint32_t, float);
uint32_t yoldrick_cut_above(LENT(), uint32_t seat, float low) {
    return yoldrick_inner_cut_above(POOL, seat, low);
}

uint32_t yoldrick_inner_cut_between(INSIDE(), uint32_t, float, float);
uint32_t yoldrick_cut_between(LENT(), uint32_t seat, float low, float high) {
    return yoldrick_inner_cut_between(POOL, seat, low, high);
}

uint32_t yoldrick_inner_flip(INSIDE(), uint32_t);
uint32_t yoldrick_flip(LENT(), uint32_t seat) {
    return yoldrick_inner_flip(POOL, seat);
}

uint32_t yoldrick_inner_fill_signs(INSIDE(), uint32_t);
uint32_t yoldrick_fill_signs(LENT(), uint32_t seat) {
    return yoldrick_inner_fill_signs(POOL, seat);
}

uint32_t yoldrick_inner_copy(INSIDE(), uint32_t, uint32_t);
uint32_t yoldrick_copy(LENT(), uint32_t from, uint32_t to) {
    return yoldrick_inner_copy(POOL, from, to);
}

uint32_t yoldrick_inner_union(INSIDE(), uint32_t, uint32_t);
uint32_t yoldrick_union(LENT(), uint32_t a, uint32_t b) {
    return yoldrick_inner_union(POOL, a, b);
}

uint32_t yoldrick_inner_subtract(INSIDE(), uint32_t, uint32_t);
uint32_t yoldrick_subtract(LENT(), uint32_t a, uint32_t b) {
    return yoldrick_inner_subtract(POOL, a, b);
}

uint32_t yoldrick_inner_intersect(INSIDE(), uint32_t, uint32_t);
uint32_t yoldrick_intersect(LENT(), uint32_t a, uint32_t b) {
    return yoldrick_inner_intersect(POOL, a, b);
}
