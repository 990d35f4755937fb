/* fuzz SEED CALLS SECONDS: the calls of yoldrick.h on arbitrary, damaged and worked-on memory. Ends when so many calls were made and so many seconds have passed.

   Each lent array ends at a page that cannot be touched, or begins after one. An episode is one filling of the arrays and some calls on them; it depends on the seed and
   its number alone. Each answer and each refusal is foretold from document 01, on any memory, and so is all that a sound pool stands for after a call, by a second
   reading of the layout:

       slots   eight tops of 512, then 64 a cell
       masks   branches: 8 words a top, 1 a cell; then active values: the same; bit 0 is the highest
       book    8 filled marks, the count of free cells, n use marks, n places of the stack, of which those below the count name the free cells

   The use mark of a free cell is its place in the stack, that of another 65536 + 512 node + slot of the branch to it, where node is a seat or 8 + a cell. */
#define _GNU_SOURCE
#include <signal.h>
#include <stdbool.h>
#include <stdio.h>
#include <stdlib.h>
#include <string.h>
#include <sys/mman.h>
#include <time.h>
#include <unistd.h>

#include "yoldrick.h"

enum { PREPARE, FREE_CELLS, IS_EMPTY, LOOKUP, SIGN, INSERT, REMOVE, FILL, CLEAR, PRUNE, CUT_BELOW, CUT_ABOVE, CUT_BETWEEN, FLIP, FILL_SIGNS, COPY, UNION, SUBTRACT, INTERSECT, KINDS };
enum { SLOTS, MASKS, BOOK, PARTS };
enum { CODES = 11, MOST = 65536, VOXELS = 256 };

/* The codes of each call, from yoldrick.h: no other may be given, and each must have been seen at the end. */
enum { C0 = 1 << 0, C1 = 1 << 1, C2 = 1 << 2, C3 = 1 << 3, C4 = 1 << 4, C5 = 1 << 5, C6 = 1 << 6, C7 = 1 << 7, C8 = 1 << 8, C9 = 1 << 9, C10 = 1 << 10 };

static const struct {
    const char *name;
    uint32_t codes;
} kinds[KINDS] = {
    [PREPARE] = {"prepare", C0 | C1},
    [FREE_CELLS] = {"free_cells", C0 | C1 | C5},
    [IS_EMPTY] = {"is_empty", C0 | C1 | C2 | C5},
    [LOOKUP] = {"lookup", C0 | C1 | C2 | C5 | C10},
    [SIGN] = {"sign", C0 | C1 | C2 | C5 | C6},
    [INSERT] = {"insert", C0 | C1 | C2 | C4 | C5 | C9},
    [REMOVE] = {"remove", C0 | C1 | C2 | C5 | C9},
    [FILL] = {"fill", C0 | C1 | C2 | C4 | C5},
    [CLEAR] = {"clear", C0 | C1 | C2 | C5},
    [PRUNE] = {"prune", C0 | C1 | C2 | C5},
    [CUT_BELOW] = {"cut_below", C0 | C1 | C2 | C4 | C5},
    [CUT_ABOVE] = {"cut_above", C0 | C1 | C2 | C4 | C5},
    [CUT_BETWEEN] = {"cut_between", C0 | C1 | C2 | C4 | C5},
    [FLIP] = {"flip", C0 | C1 | C2 | C5},
    [FILL_SIGNS] = {"fill_signs", C0 | C1 | C2 | C5 | C7},
    [COPY] = {"copy", C0 | C1 | C2 | C3 | C5 | C8 | C9},
    [UNION] = {"union", C0 | C1 | C2 | C3 | C5 | C6 | C7},
    [SUBTRACT] = {"subtract", C0 | C1 | C2 | C3 | C5 | C6 | C7},
    [INTERSECT] = {"intersect", C0 | C1 | C2 | C3 | C5 | C6 | C7},
};

/* A lent array: the room between two guard pages, the part of it that is lent, and what that held after the last call. */
typedef struct {
    unsigned char *room;
    size_t bytes;
    size_t width;
    void *at;
    size_t count;
    unsigned char *copy;
} part;

/* The bits are those of a value, or of a bound; a cut between two has a second one. A copy or a combination has a second seat. */
typedef struct {
    int kind;
    uint32_t seat, to;
    int32_t x, y, z;
    uint32_t bits, high;
} call;

typedef struct {
    uint32_t code, more;
} result;

typedef struct {
    uint32_t seat, point, bits;
} voxel;

static part parts[PARTS];
static uint64_t seen[KINDS][CODES];
static uint64_t made, kept_sound;

/* Where the run is, for a report. */
static uint64_t seed, episode;
static const char *memory;
static call now;

/* The cells that the lent counts belong to, or 0; whether every accepted call is looked at for what it leaves; and whether all since the last accepted prepare is in the
   model. */
static uint32_t cells;
static bool watched, modelled;
static voxel model[VOXELS];
static size_t model_count;
static uint32_t used;

/* Of each seat in the model: whether it is filled with signs, and whether an odd number of flips came since. */
static bool filled[8], turned[8];

/* The points and the two seats that an episode comes back to. */
static uint32_t hot_point[4], hot_seat, hot_other;

/* Whether most values of an episode are zeros and ones, so that equal ones meet. */
static bool few_values;

static uint64_t state;

static const uint32_t FAR = 0x7f7fffffu, MINUS = 0x80000000u;

static uint64_t any(void) {
    state += 0x9e3779b97f4a7c15u;
    uint64_t z = state;
    z = (z ^ (z >> 30)) * 0xbf58476d1ce4e5b9u;
    z = (z ^ (z >> 27)) * 0x94d049bb133111ebu;
    return z ^ (z >> 31);
}

static uint32_t any32(void) { return (uint32_t)(any() >> 32); }
static uint32_t below(uint32_t k) { return (uint32_t)(((any() >> 32) * k) >> 32); }
static bool finite_word(uint32_t w) { return (w & 0x7f800000u) != 0x7f800000u; }
static uint32_t *slots(void) { return parts[SLOTS].at; }
static uint64_t *masks(void) { return parts[MASKS].at; }
static uint32_t *book(void) { return parts[BOOK].at; }

static void tell(const char *what) {
    fprintf(stderr, "fuzz: FAILED: %s\n  seed %llu, episode %llu (%s), %llu calls made\n  counts %zu %zu %zu, cells %u, %s seat %u to %u at (%d, %d, %d) bits %08x %08x\n", what,
            (unsigned long long)seed, (unsigned long long)episode, memory, (unsigned long long)made, parts[SLOTS].count, parts[MASKS].count, parts[BOOK].count,
            (unsigned)cells, kinds[now.kind].name, (unsigned)now.seat, (unsigned)now.to, (int)now.x, (int)now.y, (int)now.z, (unsigned)now.bits, (unsigned)now.high);
}

static void fail(const char *what) {
    tell(what);
    exit(1);
}

static void on_signal(int number) {
    tell(number == SIGALRM ? "a call has no end" : number == SIGSEGV || number == SIGBUS ? "a call left the lent arrays" : "a call trapped");
    _exit(1);
}

/* ---- memory ---- */

static void *pages(size_t bytes, int protection) {
    void *at = mmap(NULL, bytes, protection, MAP_PRIVATE | MAP_ANONYMOUS | MAP_NORESERVE, -1, 0);
    if (at == MAP_FAILED) {
        perror("fuzz: mmap");
        exit(1);
    }
    return at;
}

static void make_room(part *p, size_t most, size_t width) {
    size_t page = (size_t)sysconf(_SC_PAGESIZE);
    p->width = width;
    p->bytes = (most * width + page - 1) / page * page;
    p->room = (unsigned char *)pages(p->bytes + 2 * page, PROT_NONE) + page;
    if (mprotect(p->room, p->bytes, PROT_READ | PROT_WRITE) != 0) {
        perror("fuzz: mprotect");
        exit(1);
    }
    p->copy = pages(p->bytes, PROT_READ | PROT_WRITE);
}

/* Lends count elements that end at the guard page, or begin after one. None at all may be NULL, or a place that cannot be read. */
static void lend(part *p, size_t count, bool first) {
    p->count = count;
    p->at = first ? p->room : p->room + p->bytes - count * p->width;
    if (count == 0)
        p->at = below(2) ? NULL : p->room + p->bytes;
}

static void keep(void) {
    for (int i = 0; i < PARTS; i++)
        if (parts[i].count > 0)
            memcpy(parts[i].copy, parts[i].at, parts[i].count * parts[i].width);
}

static bool kept(void) {
    for (int i = 0; i < PARTS; i++)
        if (parts[i].count > 0 && memcmp(parts[i].copy, parts[i].at, parts[i].count * parts[i].width) != 0)
            return false;
    return true;
}

/* Each slot word is the word before or finite. */
static bool slots_kept_or_finite(void) {
    const uint32_t *is = slots(), *was = (const uint32_t *)(const void *)parts[SLOTS].copy;
    for (size_t i = 0; i < parts[SLOTS].count; i++)
        if (is[i] != was[i] && !finite_word(is[i]))
            return false;
    return true;
}

static uint32_t cells_of_counts(void) {
    size_t n = parts[BOOK].count < 11 ? 0 : (parts[BOOK].count - 9) / 2;
    bool fit = n >= 1 && n <= 65535 && parts[SLOTS].count == 4096 + 64 * n && parts[MASKS].count == 128 + 2 * n && parts[BOOK].count == 9 + 2 * n;
    return fit ? (uint32_t)n : 0;
}

/* ---- a second reading of the memory ---- */

/* The arrays as they are, or as they were before the call. */
typedef struct {
    const uint32_t *slots;
    const uint64_t *masks;
    const uint32_t *book;
} view;

static view after(void) { return (view){parts[SLOTS].at, parts[MASKS].at, parts[BOOK].at}; }
static view before(void) { return (view){(const void *)parts[SLOTS].copy, (const void *)parts[MASKS].copy, (const void *)parts[BOOK].copy}; }

/* Where a walk ends: broken, or at a slot of a level, 2 for a top, active or hidden, with the word there. */
typedef struct {
    bool broken, active;
    uint32_t level, word;
} end;

/* The slot of a point at the level whose slots are 2^shift voxels a side, with 2^bits slots a side. */
static uint32_t slot_of(uint32_t point, uint32_t shift, uint32_t bits) {
    uint32_t m = (1u << bits) - 1;
    return (point >> (14 + shift) & m) << (2 * bits) | (point >> (7 + shift) & m) << bits | (point >> shift & m);
}

static uint32_t slot_at(uint32_t point, uint32_t level) { return level == 2 ? slot_of(point, 4, 3) : slot_of(point, 2 * level, 2); }

static uint32_t wide(uint32_t level) { return level == 2 ? 512 : 64; }

/* The place of a node's slot 0 among the words, and among the bits of either mask. */
static size_t place_of(uint32_t node) { return node < 8 ? 512 * (size_t)node : 4096 + 64 * (size_t)(node - 8); }

static uint32_t word_at(view m, uint32_t node, uint32_t k) { return m.slots[place_of(node) + k]; }

static bool bit_at(view m, bool active, uint32_t node, uint32_t k) {
    size_t place = place_of(node) + k;
    return m.masks[(active ? 64 + cells : 0) + place / 64] >> (63 - place % 64) & 1;
}

static end walk(view m, uint32_t seat, uint32_t point) {
    uint32_t node = seat;
    for (uint32_t level = 2;; level--) {
        uint32_t k = slot_at(point, level), word = word_at(m, node, k);
        bool active = bit_at(m, true, node, k);
        if (level == 0 || !bit_at(m, false, node, k))
            return (end){!finite_word(word), active, level, word};
        if (active || word >= cells)
            return (end){.broken = true};
        node = 8 + word;
    }
}

/* Finite words in the order of their numbers. The two zeros are equal. */
static int64_t number(uint32_t w) { return w & MINUS ? -(int64_t)(w ^ MINUS) : (int64_t)w; }

static bool equal_values(uint32_t a, uint32_t b) { return number(a) == number(b); }

/* The call is a cut, and this value is one that it hides. */
static bool cuts(const call *c, uint32_t w) {
    switch (c->kind) {
    case CUT_BELOW: return number(w) < number(c->bits);
    case CUT_ABOVE: return number(w) > number(c->bits);
    case CUT_BETWEEN: return number(w) >= number(c->bits) && number(w) <= number(c->high);
    default: return false;
    }
}

/* 0 if so many free cells can be had as the memory records them, or the refusal. */
static uint32_t afford(view m, uint32_t need) {
    uint32_t count = m.book[8];
    if (need > 0 && count > cells)
        return 5;
    for (uint32_t j = 0; j < need && j < count; j++)
        if (m.book[9 + cells + count - 1 - j] >= cells)
            return 5;
    return need > 0 && count < need ? 9 : 0;
}

/* What holds each cell: nothing yet, the stack, or a branch. */
static bool held[MOST];

static bool hold(view m, uint32_t cell, uint32_t use) {
    if (cell >= cells || held[cell] || m.book[9 + cell] != use)
        return false;
    held[cell] = true;
    return true;
}

static bool sound_node(view m, uint32_t node, uint32_t level) {
    for (uint32_t k = 0; k < wide(level); k++) {
        uint32_t word = word_at(m, node, k);
        if (level == 0 || !bit_at(m, false, node, k)) {
            if (!finite_word(word))
                return false;
            continue;
        }
        if (bit_at(m, true, node, k) || !hold(m, word, 65536 + 512 * node + k) || !sound_node(m, 8 + word, level - 1))
            return false;
    }
    return true;
}

static bool sound(view m) {
    memset(held, 0, cells * sizeof *held);
    for (uint32_t seat = 0; seat < 8; seat++)
        if (m.book[seat] > 1)
            return false;
    if (m.book[8] > cells)
        return false;
    for (uint32_t i = 0; i < m.book[8]; i++)
        if (!hold(m, m.book[9 + cells + i], i))
            return false;
    for (uint32_t seat = 0; seat < 8; seat++)
        if (!sound_node(m, seat, 2))
            return false;
    return memchr(held, 0, cells * sizeof *held) == NULL;
}

/* What the calls on whole seats read of a sound pool. */
static bool empty_node(view m, uint32_t node, uint32_t level) {
    for (uint32_t k = 0; k < wide(level); k++)
        if ((level > 0 && bit_at(m, false, node, k)) || bit_at(m, true, node, k))
            return false;
    return true;
}

static uint32_t cells_below(view m, uint32_t node, uint32_t level) {
    uint32_t sum = 0;
    for (uint32_t k = 0; level > 0 && k < wide(level); k++)
        if (bit_at(m, false, node, k))
            sum += 1 + cells_below(m, 8 + word_at(m, node, k), level - 1);
    return sum;
}

static bool empty_branch_below(view m, uint32_t node, uint32_t level) {
    for (uint32_t k = 0; level > 0 && k < wide(level); k++) {
        uint32_t child = 8 + word_at(m, node, k);
        if (bit_at(m, false, node, k) && (empty_node(m, child, level - 1) || empty_branch_below(m, child, level - 1)))
            return true;
    }
    return false;
}

/* ---- pictures: what a sound pool stands for, and what a call makes of it ---- */

enum { HIDDEN, ACTIVE, BRANCH };

/* The places of a picture are those of the slots, but a cell has the number at which a walk over all seats comes to it: two memories stand for the same exactly if
   their pictures are equal. The word of a branch is its cell. */
typedef struct {
    uint8_t kind[4096 + 64 * MOST];
    uint32_t word[4096 + 64 * MOST];
    uint32_t used, marks[8];
} picture;

typedef struct {
    uint8_t kind;
    uint32_t word;
} slot;

/* A node to draw: one of the memory, or one whose slots are all alike. */
typedef struct {
    bool alike;
    slot all;
    uint32_t node;
} source;

/* The sign of a slot, of a branch that of its slot 0. And the sign that it hands on: of a branch, that of its last slot. */
static uint32_t sign_in(const picture *p, size_t place) {
    while (p->kind[place] == BRANCH)
        place = place_of(8 + p->word[place]);
    return p->word[place] & MINUS;
}

static uint32_t sign_behind(const picture *p, size_t place) { return sign_in(p, p->kind[place] == BRANCH ? place_of(8 + p->word[place]) + 63 : place); }

/* The sign that comes to slot k of a node: that of the nearest slot before it that is not hidden, in its own row, or else along the row of row starts (x, y, 0), or
   else along (x, 0, 0), or else of the first slot that is not hidden. */
static uint32_t sign_coming(const picture *p, size_t node, uint32_t side, uint32_t k) {
    const uint8_t *kind = p->kind + node;
    for (uint32_t step = 1; step < side * side * side; step *= side) {
        k -= k % step;
        for (uint32_t back = 0; back <= k / step % side; back++)
            if (kind[k - back * step] != HIDDEN)
                return sign_behind(p, node + k - back * step);
    }
    for (k = 0; k < side * side * side; k++)
        if (kind[k] != HIDDEN)
            return sign_in(p, node + k);
    return 0;
}

static void draw_signs(picture *p, size_t node, uint32_t side) {
    for (uint32_t k = 0; k < side * side * side; k++)
        if (p->kind[node + k] == HIDDEN)
            p->word[node + k] = FAR | sign_coming(p, node, side, k);
}

static bool nothing_drawn(const picture *p, uint32_t cell) {
    for (uint32_t k = 0; k < 64; k++)
        if (p->kind[place_of(8 + cell) + k] != HIDDEN)
            return false;
    return true;
}

static slot slot_from(view m, source s, uint32_t k, uint32_t level) {
    if (s.alike)
        return s.all;
    uint8_t kind = level > 0 && bit_at(m, false, s.node, k) ? BRANCH : bit_at(m, true, s.node, k) ? ACTIVE : HIDDEN;
    return (slot){kind, word_at(m, s.node, k)};
}

/* A call on a voxel begins a branch where its path ends in this slot above a leaf. */
static bool begins_branch(const call *c, slot s) {
    if (c->kind == INSERT)
        return s.kind == HIDDEN || (s.kind == ACTIVE && !equal_values(s.word, c->bits));
    return c->kind == REMOVE && s.kind == ACTIVE;
}

/* The call releases a branch that is empty, on its path or everywhere. */
static bool releases(const call *c, bool path) { return c->kind == PRUNE || (c->kind >= CUT_BELOW && c->kind <= CUT_BETWEEN) || (c->kind == REMOVE && path); }

static slot value_after(const call *c, slot s, bool voxel) {
    if (voxel && c->kind == INSERT)
        return (slot){ACTIVE, c->bits};
    if (voxel && c->kind == REMOVE)
        return (slot){HIDDEN, s.word};
    if (c->kind == FLIP)
        return (slot){s.kind, s.word ^ MINUS};
    return (slot){s.kind == ACTIVE && !cuts(c, s.word) ? ACTIVE : HIDDEN, s.word};
}

static void draw_node(picture *p, size_t at, view m, source from, uint32_t level, const call *c, bool path);

/* Path: the slot is on the path of a call on a voxel. */
static slot draw_slot(picture *p, view m, slot s, uint32_t level, const call *c, bool path) {
    source below = {.node = 8 + s.word};
    if (path && level > 0 && begins_branch(c, s)) {
        below = (source){.alike = true, .all = s.kind == ACTIVE ? s : (slot){HIDDEN, FAR}};
        s.kind = BRANCH;
    }
    if (s.kind != BRANCH)
        return value_after(c, s, path && level == 0);
    uint32_t cell = p->used++;
    draw_node(p, place_of(8 + cell), m, below, level - 1, c, path);
    if (!releases(c, path) || !nothing_drawn(p, cell))
        return (slot){BRANCH, cell};
    p->used--;
    return (slot){HIDDEN, FAR};
}

static uint32_t point_of(const call *c) { return ((uint32_t)c->x & 127) << 14 | ((uint32_t)c->y & 127) << 7 | ((uint32_t)c->z & 127); }

static void draw_node(picture *p, size_t at, view m, source from, uint32_t level, const call *c, bool path) {
    uint32_t side = level == 2 ? 8 : 4, on = slot_at(point_of(c), level);
    for (uint32_t k = 0; k < side * side * side; k++) {
        slot s = draw_slot(p, m, slot_from(m, from, k, level), level, c, path && k == on);
        p->kind[at + k] = s.kind;
        p->word[at + k] = s.word;
    }
    if (c->kind == FILL_SIGNS)
        draw_signs(p, at, side);
}

/* ---- pictures of a combination ---- */

static bool combines(int kind) { return kind >= UNION && kind <= INTERSECT; }

/* The order of minimum and maximum: that of the numbers, with -0 below +0. */
static int64_t rank_of(uint32_t w) { return w & MINUS ? -1 - (int64_t)(w ^ MINUS) : (int64_t)w; }

static uint32_t joined(int kind, uint32_t v, uint32_t w) {
    if (kind == SUBTRACT)
        w ^= MINUS;
    return (rank_of(v) < rank_of(w)) == (kind == UNION) ? v : w;
}

static bool inside(slot s) { return s.word & MINUS; }

static void draw_combined(picture *p, size_t at, view m, uint32_t a, uint32_t b, uint32_t level, const call *c);

static slot draw_combined_slot(picture *p, view m, slot s, slot t, uint32_t level, const call *c) {
    static const call take = {.kind = LOOKUP}, turn = {.kind = FLIP};
    if (level == 0)
        return (slot){s.kind == ACTIVE || t.kind == ACTIVE ? ACTIVE : HIDDEN, joined(c->kind, s.word, t.word)};
    if (s.kind != BRANCH && inside(s) == (c->kind == UNION))
        return s;
    if (t.kind != BRANCH && inside(t) == (c->kind != INTERSECT))
        return c->kind == UNION ? (slot){ACTIVE, FAR | MINUS} : (slot){HIDDEN, FAR};
    if (t.kind != BRANCH)
        return draw_slot(p, m, s, level, &take, false);
    if (s.kind != BRANCH)
        return draw_slot(p, m, t, level, c->kind == SUBTRACT ? &turn : &take, false);
    uint32_t cell = p->used++;
    draw_combined(p, place_of(8 + cell), m, 8 + s.word, 8 + t.word, level - 1, c);
    return (slot){BRANCH, cell};
}

static void draw_combined(picture *p, size_t at, view m, uint32_t a, uint32_t b, uint32_t level, const call *c) {
    for (uint32_t k = 0; k < wide(level); k++) {
        slot s = draw_combined_slot(p, m, slot_from(m, (source){.node = a}, k, level), slot_from(m, (source){.node = b}, k, level), level, c);
        p->kind[at + k] = s.kind;
        p->word[at + k] = s.word;
    }
}

/* ---- pictures of any call ---- */

static uint32_t target(const call *c) { return c->kind == COPY ? c->to : c->seat; }

static source top_after(const call *c) {
    switch (c->kind) {
    case PREPARE:
    case CLEAR: return (source){.alike = true, .all = {HIDDEN, FAR}};
    case FILL: return (source){.alike = true, .all = {ACTIVE, c->bits}};
    default: return (source){.node = c->seat};
    }
}

static uint32_t mark_after(const call *c, uint32_t mark) { return c->kind == FILL_SIGNS ? 1 : c->kind == FLIP || combines(c->kind) ? mark : 0; }

/* The memory as it is, or as it is after an accepted call that writes. */
static void draw(picture *p, view m, const call *c) {
    static const call nothing = {.kind = LOOKUP}, clear = {.kind = CLEAR};
    p->used = 0;
    for (uint32_t seat = 0; seat < 8; seat++) {
        bool changes = c != NULL && (c->kind == PREPARE || seat == target(c)), spent = c != NULL && combines(c->kind) && seat == c->to;
        const call *here = spent ? &clear : changes ? c : &nothing;
        if (combines(here->kind))
            draw_combined(p, 512 * seat, m, c->seat, c->to, 2, c);
        else
            draw_node(p, 512 * seat, m, here == &nothing ? (source){.node = seat} : top_after(here), 2, here, changes);
        p->marks[seat] = here == &nothing ? m.book[seat] : mark_after(here, m.book[seat]);
    }
}

static bool same_picture(const picture *p, const picture *q) {
    size_t size = place_of(8 + p->used);
    return p->used == q->used && memcmp(p->marks, q->marks, sizeof p->marks) == 0 && memcmp(p->kind, q->kind, size * sizeof *p->kind) == 0 &&
           memcmp(p->word, q->word, size * sizeof *p->word) == 0;
}

/* ---- the model: the active voxels of all seats ---- */

enum { TOP = 0x70 << 14 | 0x70 << 7 | 0x70, LEAF = 0x7c << 14 | 0x7c << 7 | 0x7c, ALL = (1 << 21) - 1 };

static voxel *model_at(uint32_t seat, uint32_t point, uint32_t under) {
    for (size_t i = 0; i < model_count; i++)
        if (model[i].seat == seat && ((model[i].point ^ point) & under) == 0)
            return &model[i];
    return NULL;
}

static bool model_empty(uint32_t seat) { return model_at(seat, 0, 0) == NULL; }

/* The cells that a voxel here still needs. No tile is ever active in the model. */
static uint32_t needed(uint32_t seat, uint32_t point) { return model_at(seat, point, LEAF) ? 0 : model_at(seat, point, TOP) ? 1 : 2; }

static void model_insert(uint32_t seat, uint32_t point, uint32_t bits) {
    voxel *v = model_at(seat, point, ALL);
    if (v != NULL) {
        v->bits = bits;
        return;
    }
    if (model_count == VOXELS) {
        modelled = false;
        return;
    }
    used += needed(seat, point);
    model[model_count++] = (voxel){seat, point, bits};
}

static void model_remove(uint32_t seat, uint32_t point) {
    voxel *v = model_at(seat, point, ALL);
    if (v == NULL)
        return;
    *v = model[--model_count];
    used -= needed(seat, point);
}

static void model_clear(uint32_t seat) {
    for (voxel *v; (v = model_at(seat, 0, 0)) != NULL;)
        model_remove(seat, v->point);
}

static void model_cut(const call *c) {
    for (size_t i = model_count; i-- > 0;)
        if (model[i].seat == c->seat && cuts(c, model[i].bits))
            model_remove(c->seat, model[i].point);
}

static void model_flip(uint32_t seat) {
    for (size_t i = 0; i < model_count; i++)
        if (model[i].seat == seat)
            model[i].bits ^= MINUS;
}

static void model_copy(uint32_t seat, uint32_t to) {
    for (size_t i = 0, count = model_count; i < count && modelled; i++)
        if (model[i].seat == seat)
            model_insert(to, model[i].point, model[i].bits);
}

/* The middle nodes and leaves of a seat: each counts with its first voxel. */
static uint32_t model_cells(uint32_t seat) {
    uint32_t sum = 0;
    for (size_t i = 0; i < model_count; i++)
        if (model[i].seat == seat)
            sum += (model_at(seat, model[i].point, LEAF) == &model[i]) + (model_at(seat, model[i].point, TOP) == &model[i]);
    return sum;
}

static void model_prepare(void) {
    modelled = true;
    model_count = 0;
    used = 0;
    memset(filled, 0, sizeof filled);
}

/* What a point has in common with the other points of its slot, by level. */
static const uint32_t slot_mask[] = {ALL, LEAF, TOP};

static bool model_slot_sign(uint32_t seat, uint32_t point, uint32_t level);

/* What a slot that is not hidden hands on: a branch the sign of its last slot. */
static bool model_sign_behind(uint32_t seat, uint32_t point, uint32_t level) {
    return level == 0 ? model_at(seat, point, ALL)->bits >> 31 : model_slot_sign(seat, point | (ALL ^ slot_mask[level]), level - 1);
}

/* The sign that the sign fill gives to the slot of this point, or that it has there if it is a voxel: looked for back along z, then y, then x, then from the node's first
   slot on. */
static bool model_sign(uint32_t seat, uint32_t point, uint32_t level) {
    uint32_t side = level == 2 ? 8 : 4, first = point;
    for (uint32_t shift = 2 * level; shift < 21; shift += 7) {
        for (uint32_t back = point >> shift & (side - 1);; back--, point -= 1u << shift) {
            if (model_at(seat, point, slot_mask[level]) != NULL)
                return model_sign_behind(seat, point, level);
            if (back == 0)
                break;
        }
        first = point;
    }
    for (uint32_t k = 0; k < side * side * side; k++) {
        uint32_t x = k / side / side, y = k / side % side, z = k % side, at = first | x << (14 + 2 * level) | y << (7 + 2 * level) | z << 2 * level;
        if (model_at(seat, at, slot_mask[level]) != NULL)
            return model_slot_sign(seat, at, level);
    }
    return false;
}

/* The sign of the slot of a point, of a branch that of its slot 0. */
static bool model_slot_sign(uint32_t seat, uint32_t point, uint32_t level) {
    bool branch = level > 0 && model_at(seat, point, slot_mask[level]) != NULL;
    return branch ? model_slot_sign(seat, point & slot_mask[level], level - 1) : model_sign(seat, point, level);
}

/* The sign at a point of a filled seat. A flip turned every sign, so the signs before it are those of the voxels turned back. */
static bool model_sign_at(uint32_t seat, uint32_t point) {
    if (turned[seat])
        model_flip(seat);
    bool sign = model_sign(seat, point, needed(seat, point));
    if (turned[seat])
        model_flip(seat);
    return sign ^ turned[seat];
}

/* ---- calls ---- */

#define LENT slots(), parts[SLOTS].count, masks(), parts[MASKS].count, book(), parts[BOOK].count

static result from_answer(yoldrick_answer a) { return (result){a.code, yoldrick_bits(a.value)}; }
static result from_number(yoldrick_number a) { return (result){a.code, a.number}; }

static float float_of(uint32_t bits) {
    float value;
    memcpy(&value, &bits, sizeof value);
    return value;
}

static result ask(const call *c) {
    switch (c->kind) {
    case PREPARE: return (result){yoldrick_prepare(LENT), 0};
    case FREE_CELLS: return from_number(yoldrick_free_cells(LENT));
    case IS_EMPTY: return from_number(yoldrick_is_empty(LENT, c->seat));
    case LOOKUP: return from_answer(yoldrick_lookup(LENT, c->seat, c->x, c->y, c->z));
    case SIGN: return from_number(yoldrick_sign(LENT, c->seat, c->x, c->y, c->z));
    case INSERT: return (result){yoldrick_insert(LENT, c->seat, c->x, c->y, c->z, c->bits), 0};
    case REMOVE: return (result){yoldrick_remove(LENT, c->seat, c->x, c->y, c->z), 0};
    case FILL: return (result){yoldrick_fill(LENT, c->seat, c->bits), 0};
    case CLEAR: return (result){yoldrick_clear(LENT, c->seat), 0};
    case PRUNE: return (result){yoldrick_prune(LENT, c->seat), 0};
    case CUT_BELOW: return (result){yoldrick_cut_below(LENT, c->seat, float_of(c->bits)), 0};
    case CUT_ABOVE: return (result){yoldrick_cut_above(LENT, c->seat, float_of(c->bits)), 0};
    case CUT_BETWEEN: return (result){yoldrick_cut_between(LENT, c->seat, float_of(c->bits), float_of(c->high)), 0};
    case FLIP: return (result){yoldrick_flip(LENT, c->seat), 0};
    case FILL_SIGNS: return (result){yoldrick_fill_signs(LENT, c->seat), 0};
    case COPY: return (result){yoldrick_copy(LENT, c->seat, c->to), 0};
    case UNION: return (result){yoldrick_union(LENT, c->seat, c->to), 0};
    case SUBTRACT: return (result){yoldrick_subtract(LENT, c->seat, c->to), 0};
    default: return (result){yoldrick_intersect(LENT, c->seat, c->to), 0};
    }
}

static bool writes(int kind) { return kind == PREPARE || kind >= INSERT; }
static bool on_voxel(int kind) { return kind >= LOOKUP && kind <= REMOVE; }
static bool has_seat(int kind) { return kind != PREPARE && kind != FREE_CELLS; }
static bool has_pair(int kind) { return kind == COPY || combines(kind); }
static bool has_bits(int kind) { return kind == INSERT || kind == FILL || (kind >= CUT_BELOW && kind <= CUT_BETWEEN); }

/* The refusal that the counts, the seats and the values alone give, or 0. */
static uint32_t refused_at_once(const call *c) {
    if (cells == 0)
        return 1;
    if (has_seat(c->kind) && (c->seat > 7 || (has_pair(c->kind) && c->to > 7)))
        return 2;
    if (has_pair(c->kind) && c->seat == c->to)
        return 3;
    if (has_bits(c->kind) && (!finite_word(c->bits) || (c->kind == CUT_BETWEEN && !finite_word(c->high))))
        return 4;
    return 0;
}

/* The answer on a pool that the model knows. */
static result by_model(const call *c) {
    uint32_t point = point_of(c);
    const voxel *v = model_at(c->seat, point, ALL);
    switch (c->kind) {
    case FREE_CELLS: return (result){0, cells - used};
    case IS_EMPTY: return (result){0, model_empty(c->seat)};
    case LOOKUP: return v != NULL ? (result){0, v->bits} : (result){10, 0};
    case SIGN: return filled[c->seat] ? (result){0, model_sign_at(c->seat, point)} : (result){6, 0};
    case INSERT: return (result){cells - used < needed(c->seat, point) ? 9 : 0, 0};
    case COPY: return (result){!model_empty(c->to) ? 8 : cells - used < model_cells(c->seat) ? 9 : 0, 0};
    case UNION:
    case SUBTRACT:
    case INTERSECT: return (result){filled[c->seat] && filled[c->to] ? 0 : 6, 0};
    default: return (result){0, 0};
    }
}

/* The cells that an insert or a remove needs where its walk ends. */
static uint32_t needs(const call *c, end e) {
    if (c->kind == INSERT)
        return e.active && equal_values(e.word, c->bits) ? 0 : e.level;
    return e.active ? e.level : 0;
}

/* The answer of a call on a voxel on any memory, read from it as it was before the call. */
static result foretold_on_voxel(const call *c, view m) {
    end e = walk(m, c->seat, point_of(c));
    if (e.broken)
        return (result){5, 0};
    if (c->kind == LOOKUP)
        return e.active ? (result){0, e.word} : (result){10, 0};
    if (c->kind == SIGN)
        return m.book[c->seat] == 1 ? (result){0, e.word >> 31} : (result){6, 0};
    return (result){afford(m, needs(c, e)), 0};
}

/* The same of any call. */
static result foretold(const call *c) {
    view m = before();
    if (c->kind == PREPARE)
        return (result){0, 0};
    if (on_voxel(c->kind))
        return foretold_on_voxel(c, m);
    if (!sound(m))
        return (result){5, 0};
    switch (c->kind) {
    case FREE_CELLS: return (result){0, m.book[8]};
    case IS_EMPTY: return (result){0, empty_node(m, c->seat, 2)};
    case FILL_SIGNS: return (result){empty_branch_below(m, c->seat, 2) ? 7 : 0, 0};
    case COPY: return (result){!empty_node(m, c->to, 2) ? 8 : cells_below(m, c->seat, 2) > m.book[8] ? 9 : 0, 0};
    case UNION:
    case SUBTRACT:
    case INTERSECT: return (result){m.book[c->seat] != 1 || m.book[c->to] != 1 ? 6 : empty_branch_below(m, c->seat, 2) || empty_branch_below(m, c->to, 2) ? 7 : 0, 0};
    default: return (result){0, 0};
    }
}

/* After an accepted call that writes, a pool that was sound is sound, and stands for what the call makes of it. Only calls on a voxel are accepted on another. */
static void check_effect(const call *c) {
    static picture owed, is;
    if (on_voxel(c->kind) && !sound(before()))
        return;
    kept_sound++;
    if (!sound(after()))
        fail("a sound pool is sound no more");
    draw(&owed, before(), c);
    draw(&is, after(), NULL);
    if (!same_picture(&owed, &is))
        fail("the seats, their marks or their cells are not as the call leaves them");
}

static void check_answer(const call *c, result r) {
    if (r.code >= CODES || (kinds[c->kind].codes >> r.code & 1) == 0)
        fail("a code that this call cannot give");
    seen[c->kind][r.code]++;
    if (r.code != 0 && r.more != 0)
        fail("a refusal with more than its number");
    uint32_t refusal = refused_at_once(c);
    if (refusal != 0 ? r.code != refusal : r.code >= 1 && r.code <= 4)
        fail("not the refusal of these counts, seats and values");
    if (refusal != 0)
        return;
    result f = foretold(c);
    if (r.code != f.code || r.more != f.more)
        fail("not the answer that document 01 gives for this memory");
    if (!modelled)
        return;
    result m = by_model(c);
    if (r.code != m.code || r.more != m.more)
        fail("not what the calls before it lead to");
}

static void check_memory(const call *c, result r) {
    if (r.code != 0 || !writes(c->kind)) {
        if (!kept())
            fail("lent memory has changed");
        return;
    }
    if (!slots_kept_or_finite())
        fail("a slot that is neither as before nor finite");
    if (watched || !on_voxel(c->kind) || below(32) == 0)
        check_effect(c);
    keep();
}

static void follow(const call *c) {
    if (c->kind == PREPARE)
        model_prepare();
    if (c->kind == PREPARE || !modelled)
        return;
    filled[target(c)] = c->kind == FILL_SIGNS || (c->kind == FLIP && filled[c->seat]);
    turned[target(c)] = c->kind == FLIP && !turned[c->seat];
    switch (c->kind) {
    case INSERT: model_insert(c->seat, point_of(c), c->bits); break;
    case REMOVE: model_remove(c->seat, point_of(c)); break;
    case CLEAR: model_clear(c->seat); break;
    case FILL:
    case UNION:
    case SUBTRACT:
    case INTERSECT: modelled = false; break;
    case CUT_BELOW:
    case CUT_ABOVE:
    case CUT_BETWEEN: model_cut(c); break;
    case FLIP: model_flip(c->seat); break;
    case COPY: model_copy(c->seat, c->to); break;
    default: break;
    }
}

static void make(const call *c) {
    now = *c;
    made++;
    result r = ask(c);
    check_answer(c, r);
    check_memory(c, r);
    if (r.code != 0 || !writes(c->kind))
        return;
    follow(c);
    if (!modelled || c->kind == PREPARE)
        return;
    call again = *c;
    again.seat = target(c);
    again.kind = LOOKUP;
    make(&again);
    again.kind = SIGN;
    make(&again);
}

/* ---- what is given ---- */

static uint32_t value_word(void) {
    static const uint32_t odd[] = {0, 0x80000000u, 0x7f800000u, 0xff800000u, 0x7fc00000u, 0x7f800001u, 0xffffffffu, 0x7f7fffffu, 0xff7fffffu, 1, 0x80000001u};
    static const uint32_t few[] = {0, 0x80000000u, 0x3f800000u, 0xbf800000u};
    uint32_t w = any32();
    if (few_values && below(8))
        return few[below(4)];
    if (below(3) == 0)
        return odd[below(sizeof odd / sizeof *odd)];
    return finite_word(w) || below(8) == 0 ? w : w ^ 0x40000000u;
}

static uint32_t odd_word(uint32_t n) {
    switch (below(8)) {
    case 0: return any32();
    case 1: return n;
    case 2: return n + 1;
    case 3: return UINT32_MAX;
    case 4: return 65536 + 512 * below(8 + n) + below(512);
    case 5: return value_word();
    default: return below(n + 1);
    }
}

static int32_t coordinate(uint32_t hot) {
    switch (below(8)) {
    case 0: return (int32_t)any32();
    case 1: return below(2) ? INT32_MIN : INT32_MAX;
    case 2: return (int32_t)(hot ^ below(16));
    case 3: return (int32_t)((any32() & ~127u) | hot);
    default: return (int32_t)hot;
    }
}

static call any_call(void) {
    static const int seldom[] = {PREPARE, FREE_CELLS, IS_EMPTY, FILL, CLEAR};
    static const int whole[] = {PRUNE, CUT_BELOW, CUT_ABOVE, CUT_BETWEEN, FLIP, FLIP, FILL_SIGNS, FILL_SIGNS, FILL_SIGNS, COPY, COPY, COPY, UNION, SUBTRACT, INTERSECT, UNION, SUBTRACT, INTERSECT};
    static const int often[] = {LOOKUP, LOOKUP, LOOKUP, LOOKUP, SIGN, SIGN, INSERT, INSERT, INSERT, INSERT, INSERT, REMOVE, REMOVE, REMOVE};
    uint32_t hot = hot_point[below(4)];
    bool at_hot = below(2);
    uint32_t among = below(24);
    call c = {.seat = !below(4) ? below(10) : below(3) ? hot_seat : hot_other, .bits = value_word(), .high = value_word()};
    c.kind = among == 0 ? seldom[below(sizeof seldom / sizeof *seldom)] : among <= 3 ? whole[below(sizeof whole / sizeof *whole)] : often[below(sizeof often / sizeof *often)];
    c.to = !below(16) ? c.seat : combines(c.kind) && below(4) ? hot_seat ^ hot_other ^ c.seat : below(9);
    c.x = at_hot ? (int32_t)(hot >> 14) : coordinate(hot >> 14);
    c.y = at_hot ? (int32_t)(hot >> 7 & 127) : coordinate(hot >> 7 & 127);
    c.z = at_hot ? (int32_t)(hot & 127) : coordinate(hot & 127);
    if (below(64) == 0)
        c.seat = any32();
    return c;
}

/* Pruned or not, both seats of a combination are filled with signs. */
static void make_ready(const call *c) {
    bool prunes = below(2);
    for (int i = 0; i < 2; i++) {
        call one = {.kind = PRUNE, .seat = i == 0 ? c->seat : c->to};
        if (prunes)
            make(&one);
        one.kind = FILL_SIGNS;
        make(&one);
    }
}

static void work(uint32_t calls) {
    while (calls-- > 0) {
        call c = any_call();
        if (combines(c.kind) && below(2))
            make_ready(&c);
        make(&c);
    }
}

/* ---- fillings ---- */

static uint64_t mask_word(void) {
    switch (below(5)) {
    case 0: return 0;
    case 1: return UINT64_MAX;
    case 2: return any() & any() & any();
    default: return any();
    }
}

static void fill_any(uint32_t n, bool near) {
    for (size_t i = 0; i < parts[SLOTS].count; i++)
        slots()[i] = near ? below(n + 1) : odd_word(n);
    for (size_t i = 0; i < parts[MASKS].count; i++)
        masks()[i] = mask_word();
    for (size_t i = 0; i < parts[BOOK].count; i++)
        book()[i] = near ? below(n + 1) : odd_word(n);
}

static void damage_one(uint32_t n) {
    uint32_t point = hot_point[below(4)], k = slot_of(point, 4, 3), j = slot_of(point, below(2) * 2, 2), c = below(n), active = below(2) * (64 + n);
    uint32_t count = book()[8];
    switch (below(12)) {
    case 0: masks()[below(128 + 2 * n)] ^= (uint64_t)1 << below(64); break;
    case 1: masks()[active + 8 * hot_seat + k / 64] ^= (uint64_t)1 << (63 - k % 64); break;
    case 2: masks()[active + 64 + c] ^= (uint64_t)1 << (63 - j); break;
    case 3: masks()[active + 64 + c] = mask_word(); break;
    case 4: slots()[below(4096 + 64 * n)] = odd_word(n); break;
    case 5: slots()[512 * hot_seat + k] = odd_word(n); break;
    case 6: slots()[4096 + 64 * c + j] = odd_word(n); break;
    case 7: book()[9 + c] = odd_word(n); break;
    case 8: book()[below(2) ? hot_seat : below(8)] = below(2) ? 1 : below(2) ? 2 : odd_word(n); break;
    case 9: book()[8] = below(4) == 0 ? 0 : odd_word(n); break;
    case 10: book()[9 + n + below(n)] = odd_word(n); break;
    default:
        if (count >= 1 && count <= n)
            book()[9 + n + count - 1 - below(count < 2 ? 1 : 2)] = odd_word(n);
    }
}

static void lend_counts(size_t slots_count, size_t masks_count, size_t book_count, bool first) {
    lend(&parts[SLOTS], slots_count, first);
    lend(&parts[MASKS], masks_count, first);
    lend(&parts[BOOK], book_count, first);
    cells = cells_of_counts();
}

static size_t near_count(size_t right) {
    switch (below(10)) {
    case 0: return 0;
    case 1: return below((uint32_t)right);
    case 2: return right + 64;
    case 3: return right + 2;
    case 4: return right + 1;
    case 5: return right - 1;
    default: return right;
    }
}

/* Counts that need not belong together. */
static void lend_wrong(uint32_t n, bool first) { lend_counts(near_count(4096 + 64 * (size_t)n), near_count(128 + 2 * (size_t)n), near_count(9 + 2 * (size_t)n), first); }

static void lend_right(uint32_t n, bool first) { lend_counts(4096 + 64 * (size_t)n, 128 + 2 * (size_t)n, 9 + 2 * (size_t)n, first); }

/* A node of slots with any finite value, all, some or none of them active, and none a branch. */
static void paint(uint32_t node) {
    size_t first = place_of(node), past = place_of(node + 1);
    uint32_t style = below(8);
    for (size_t i = first; i < past; i++) {
        uint32_t w = value_word();
        slots()[i] = finite_word(w) ? w : FAR;
    }
    for (size_t i = first / 64; i < past / 64; i++) {
        masks()[i] = 0;
        masks()[64 + cells + i] = style < 3 ? 0 : style == 3 ? UINT64_MAX : style == 4 ? any() | any() | any() : any() & any() & any();
    }
}

/* A free cell, freshly painted, becomes the branch of a slot. The child word of a leaf holds anything, since no call reads it. */
static void hang(uint32_t node, uint32_t k, uint32_t level) {
    uint32_t cell = book()[9 + cells + --book()[8]];
    size_t place = place_of(node) + k;
    uint64_t bit = (uint64_t)1 << (63 - place % 64);
    slots()[place] = cell;
    masks()[place / 64] |= bit;
    masks()[64 + cells + place / 64] &= ~bit;
    book()[9 + cell] = 65536 + 512 * node + k;
    paint(8 + cell);
    if (level == 1)
        masks()[64 + cell] = any();
}

/* A middle node or a leaf on the way to a point, if there is none. */
static void grow(uint32_t seat, uint32_t point) {
    uint32_t node = seat;
    for (uint32_t level = 2; level > 0 && book()[8] > 0; level--) {
        uint32_t k = slot_at(point, level);
        if (!bit_at(after(), false, node, k)) {
            hang(node, k, level);
            return;
        }
        node = 8 + word_at(after(), node, k);
    }
}

/* A sound pool that no call needs to have led to: tiles and hidden values on every level, empty branches, cells in any order, any marks. */
static void build(void) {
    uint32_t *stack = book() + 9 + cells;
    for (uint32_t i = 0; i < cells; i++) {
        uint32_t j = below(i + 1);
        stack[i] = stack[j];
        stack[j] = i;
    }
    book()[8] = cells;
    for (uint32_t seat = 0; seat < 8; seat++) {
        book()[seat] = below(2);
        paint(seat);
    }
    for (uint32_t i = below(3 * cells + 2); i > 0; i--)
        grow(!below(3) ? below(8) : below(2) ? hot_seat : hot_other, below(2) ? hot_point[below(4)] : any32() & ALL);
    for (uint32_t i = 0; i < book()[8]; i++)
        book()[9 + stack[i]] = i;
    if (!sound(after()))
        fail("the built pool is not sound");
}

static void prepare(void) {
    call c = {.kind = PREPARE};
    keep();
    make(&c);
    for (c.seat = 0; c.seat < 8; c.seat++) {
        c.kind = below(16) ? LOOKUP : IS_EMPTY;
        make(&c);
    }
}

/* The counts of each pool, and of numbers of which there is none. */
static void try_sizes(void) {
    memory = "none lent";
    for (uint32_t i = 0; i <= 100000; i++) {
        uint32_t n = now.bits = i <= MOST ? i : any32();
        bool is = n >= 1 && n <= 65535;
        yoldrick_lengths told = yoldrick_sizes(n);
        if (told.code != !is || told.slots != is * (4096 + 64 * n) || told.masks != is * (128 + 2 * n) || told.book != is * (9 + 2 * n))
            fail("other counts were told");
    }
}

/* The largest pool, and one cell more, which is refused. */
static void run_largest(bool first) {
    memory = "the largest pool";
    uint32_t n = episode % 2 ? 65535 : 65536;
    lend_right(n, first);
    prepare();
    work(6);
    if (cells == 0)
        return;
    modelled = false;
    for (uint32_t i = 1 + below(8); i > 0; i--)
        damage_one(n);
    keep();
    work(6);
}

/* Now and then the point moves into the last slot of its middle node, or of its leaf too, or into the first: these give a branch its signs. */
static uint32_t near_corner(uint32_t point) {
    switch (below(8)) {
    case 0: return point | (LEAF ^ TOP);
    case 1: return point | (ALL ^ TOP);
    case 2: return point & ~(uint32_t)(LEAF ^ TOP);
    default: return point;
    }
}

static void run_episode(void) {
    state = seed * 0x100000001b3u ^ episode << 20;
    bool first = below(2);
    uint32_t n = below(4) ? 1 + below(6) : below(16) ? 1 + below(40) : 1 + below(300);
    modelled = false;
    watched = false;
    few_values = below(4) == 0;
    hot_seat = below(8);
    hot_other = (hot_seat + 1 + below(7)) % 8;
    for (int i = 0; i < 4; i++)
        hot_point[i] = i > 0 && below(2) ? hot_point[0] ^ below(32) << 7 * below(3) : near_corner(any32() & ALL);
    if (episode % 16384 == 7 || episode % 16384 == 8) {
        run_largest(first);
        return;
    }
    uint32_t filling = below(16);
    if (filling < 2) {
        memory = "wrong counts";
        lend_wrong(n, first);
        fill_any(n, below(2));
        keep();
        work(16);
        return;
    }
    lend_right(n, first);
    if (filling < 4) {
        memory = "arbitrary words";
        fill_any(n, below(2));
        keep();
        work(32);
        return;
    }
    if (filling == 4) {
        memory = "built";
        fill_any(n, below(2));
        build();
        keep();
        watched = true;
        work(48);
        return;
    }
    memory = "prepared and worked on";
    prepare();
    work(filling < 8 ? 96 : below(24));
    if (filling < 8)
        return;
    memory = "damaged";
    modelled = false;
    if (below(4) == 0)
        build();
    for (uint32_t i = 1 + below(8); i > 0; i--)
        damage_one(n);
    keep();
    work(48);
}

/* ---- the run ---- */

static bool print_table(void) {
    bool all = true;
    printf("%-11s", "code");
    for (int code = 0; code < CODES; code++)
        printf(" %7d", code);
    for (int k = 0; k < KINDS; k++) {
        printf("\n%-11s", kinds[k].name);
        for (int code = 0; code < CODES; code++) {
            bool given = kinds[k].codes >> code & 1;
            if (given)
                printf(" %7llu", (unsigned long long)seen[k][code]);
            else
                printf(" %7s", "-");
            if (given && seen[k][code] == 0)
                all = false;
        }
    }
    printf("\n");
    return all;
}

int main(int count, char **words) {
    if (count != 4) {
        fprintf(stderr, "fuzz: usage: fuzz SEED CALLS SECONDS\n");
        return 2;
    }
    seed = strtoull(words[1], NULL, 10);
    uint64_t calls = strtoull(words[2], NULL, 10);
    time_t end = time(NULL) + (time_t)strtoull(words[3], NULL, 10);
    static const int signals[] = {SIGSEGV, SIGBUS, SIGILL, SIGFPE, SIGTRAP, SIGALRM};
    for (size_t i = 0; i < sizeof signals / sizeof *signals; i++)
        signal(signals[i], on_signal);
    make_room(&parts[SLOTS], 4096 + 64 * (size_t)MOST, sizeof(uint32_t));
    make_room(&parts[MASKS], 128 + 2 * (size_t)MOST, sizeof(uint64_t));
    make_room(&parts[BOOK], 9 + 2 * (size_t)MOST, sizeof(uint32_t));
    try_sizes();
    for (episode = 0; made < calls || time(NULL) < end; episode++) {
        alarm(30);
        run_episode();
    }
    bool all = print_table();
    printf("fuzz: %llu calls in %llu episodes, %llu changes of a sound pool compared, seed %llu\n", (unsigned long long)made, (unsigned long long)episode, (unsigned long long)kept_sound,
           (unsigned long long)seed);
    if (!all) {
        printf("fuzz: FAILED: a code that a call can give was never seen\n");
        return 1;
    }
    return 0;
}
