/* stack: how deep the stack of each call goes, on x86_64. Each call is run one instruction at a time, and the lowest stack pointer is counted from the caller's: the return address
   is in it, arguments that are passed on the stack are not. (A painted stack would not show the end of a frame that is never written.) The calls are made on seats that have
   cells on all levels, so that what calls itself goes all the way down, and each must be accepted. Ends with 1 if one is not, or goes deeper than YOLDRICK_STACK. */
#define _GNU_SOURCE
#include <signal.h>
#include <stdio.h>
#include <stdlib.h>
#include <string.h>
#include <ucontext.h>

#include "yoldrick.h"

enum { CELLS = 16, MOST = 20 };
static uint32_t slots[YOLDRICK_SLOTS(CELLS)];
static uint64_t masks[YOLDRICK_MASKS(CELLS)];
static uint32_t book[YOLDRICK_BOOK(CELLS)];
#define POOL slots, YOLDRICK_SLOTS(CELLS), masks, YOLDRICK_MASKS(CELLS), book, YOLDRICK_BOOK(CELLS)

static struct {
    const char *name;
    uintptr_t depth;
} table[MOST];
static int rows;

static uintptr_t from, lowest;

static void on_step(int number, siginfo_t *about, void *context) {
    uintptr_t at = (uintptr_t)((ucontext_t *)context)->uc_mcontext.gregs[REG_RSP];
    (void)number;
    (void)about;
    if (at < lowest)
        lowest = at;
}

/* The trap flag is set before the call and taken away after it. */
#define MEASURE(name, call)                                                                                                                                                        \
    do {                                                                                                                                                                           \
        uint32_t code;                                                                                                                                                             \
        __asm__ volatile("mov %%rsp, %0\n\tmov %%rsp, %1\n\tpushfq\n\torq $0x100, (%%rsp)\n\tpopfq" : "=m"(from), "=m"(lowest) : : "memory", "cc");                                \
        code = (call);                                                                                                                                                             \
        __asm__ volatile("pushfq\n\tandq $~0x100, (%%rsp)\n\tpopfq" : : : "memory", "cc");                                                                                         \
        enter(name, code);                                                                                                                                                         \
    } while (0)

/* The deepest of a call's runs stands in its row. */
static void enter(const char *name, uint32_t code) {
    int row = 0;
    if (code != YOLDRICK_DONE) {
        printf("stack: FAILED: %s: %s\n", name, yoldrick_text(code));
        exit(1);
    }
    while (row < rows && strcmp(table[row].name, name) != 0)
        row++;
    if (row == rows)
        table[rows++].name = name;
    if (from - lowest > table[row].depth)
        table[row].depth = from - lowest;
}

/* Two leaves of one middle node, and a leaf of another. */
static void grow(uint32_t seat, float value) {
    yoldrick_insert(POOL, seat, 1, 2, 3, yoldrick_bits(value));
    yoldrick_insert(POOL, seat, 14, 14, 14, yoldrick_bits(value));
    yoldrick_insert(POOL, seat, 90, 90, 90, yoldrick_bits(value));
}

/* The seat 0 has one node more than the seat 1, so that not every branch meets one; then both are filled with signs, those of the seat 1 all alike. */
static void begin(float one, float other) {
    yoldrick_prepare(POOL);
    grow(0, one);
    yoldrick_insert(POOL, 0, 50, 50, 50, yoldrick_bits(-one));
    grow(1, other);
    yoldrick_fill_signs(POOL, 0);
    yoldrick_fill_signs(POOL, 1);
}

static void measure_voxels(void) {
    begin(1.0f, -1.0f);
    MEASURE("free_cells", yoldrick_free_cells(POOL).code);
    MEASURE("is_empty", yoldrick_is_empty(POOL, 0).code);
    MEASURE("lookup", yoldrick_lookup(POOL, 0, 1, 2, 3).code);
    MEASURE("sign", yoldrick_sign(POOL, 0, 1, 2, 2).code);
    yoldrick_fill(POOL, 2, yoldrick_bits(3.0f));
    MEASURE("insert", yoldrick_insert(POOL, 0, 1, 2, 2, yoldrick_bits(4.0f)));
    MEASURE("insert", yoldrick_insert(POOL, 0, 30, 0, 0, yoldrick_bits(4.0f)));
    MEASURE("insert", yoldrick_insert(POOL, 2, 1, 2, 3, yoldrick_bits(4.0f)));
    MEASURE("remove", yoldrick_remove(POOL, 0, 1, 2, 2));
    MEASURE("remove", yoldrick_remove(POOL, 0, 30, 0, 0));
    MEASURE("remove", yoldrick_remove(POOL, 2, 30, 0, 0));
}

static void measure_seats(void) {
    begin(1.0f, -1.0f);
    MEASURE("fill", yoldrick_fill(POOL, 0, yoldrick_bits(3.0f)));
    MEASURE("clear", yoldrick_clear(POOL, 1));
    begin(1.0f, -1.0f);
    MEASURE("prune", yoldrick_prune(POOL, 0));
    MEASURE("cut_below", yoldrick_cut_below(POOL, 1, 0.0f));
    MEASURE("cut_above", yoldrick_cut_above(POOL, 0, 0.0f));
    begin(1.0f, -1.0f);
    MEASURE("cut_between", yoldrick_cut_between(POOL, 0, 0.0f, 2.0f));
    MEASURE("flip", yoldrick_flip(POOL, 1));
    MEASURE("fill_signs", yoldrick_fill_signs(POOL, 1));
    MEASURE("copy", yoldrick_copy(POOL, 1, 2));
}

/* Where a branch meets the other seat's tile it is released, all the way down: in a union or a subtraction an inside one, in an intersection an outside one. */
static void measure_pairs(void) {
    begin(1.0f, -1.0f);
    MEASURE("union", yoldrick_union(POOL, 0, 1));
    begin(1.0f, -1.0f);
    MEASURE("subtract", yoldrick_subtract(POOL, 0, 1));
    begin(-1.0f, 1.0f);
    MEASURE("intersect", yoldrick_intersect(POOL, 0, 1));
}

int main(void) {
    static char room[65536];
    stack_t other = {.ss_sp = room, .ss_size = sizeof room};
    struct sigaction action = {.sa_sigaction = on_step, .sa_flags = SA_SIGINFO | SA_ONSTACK};
    uintptr_t most = 0;
    if (sigaltstack(&other, NULL) != 0 || sigaction(SIGTRAP, &action, NULL) != 0) {
        perror("stack");
        return 1;
    }
    MEASURE("sizes", yoldrick_sizes(CELLS).code);
    MEASURE("prepare", yoldrick_prepare(POOL));
    measure_voxels();
    measure_seats();
    measure_pairs();
    for (int row = 0; row < rows; row++) {
        printf("  %-12s %6lu\n", table[row].name, (unsigned long)table[row].depth);
        most = table[row].depth > most ? table[row].depth : most;
    }
    if (rows != MOST || most > YOLDRICK_STACK) {
        printf("stack: FAILED: %d calls, %lu bytes, and the header says %u\n", rows, (unsigned long)most, YOLDRICK_STACK);
        return 1;
    }
    return 0;
}
