/* Our library, and the Rust behind the same C calls: one set of loops serves both. */
#pragma once

#include <malloc.h>

#include "contender.hpp"
#include "must.hpp"
#include "yoldrick.h"

/* bench/rust/src/lib.rs. */
extern "C" {
uint32_t *rust_row(void);
uint32_t *rust_grid(uint32_t *row, uint32_t seat);
size_t rust_tube(float width, Point *points, size_t most);

decltype(yoldrick_prepare) rust_prepare;
decltype(yoldrick_lookup) rust_lookup;
decltype(yoldrick_sign) rust_sign;
decltype(yoldrick_insert) rust_insert;
decltype(yoldrick_remove) rust_remove;
decltype(yoldrick_cut_below) rust_cut_below;
decltype(yoldrick_flip) rust_flip;
decltype(yoldrick_fill_signs) rust_fill_signs;
decltype(yoldrick_copy) rust_copy;
decltype(yoldrick_union) rust_union;
decltype(yoldrick_subtract) rust_subtract;
decltype(yoldrick_intersect) rust_intersect;

yoldrick_answer lean_lookup(const uint32_t *grid, int32_t x, int32_t y, int32_t z);
bool lean_sign(const uint32_t *grid, int32_t x, int32_t y, int32_t z);
void lean_insert(uint32_t *grid, int32_t x, int32_t y, int32_t z, float value);
void lean_remove(uint32_t *grid, int32_t x, int32_t y, int32_t z);

uint64_t loop_lookup(const uint32_t *grid, const Point *points, size_t count);
uint64_t loop_sign(const uint32_t *grid);
void loop_insert(uint32_t *grid, const Point *points, size_t count);
void loop_remove(uint32_t *grid, const Point *points, size_t count);
}

#define CALLS(prefix)                                        \
    static constexpr auto prepare = prefix##_prepare;        \
    static constexpr auto lookup = prefix##_lookup;          \
    static constexpr auto sign = prefix##_sign;              \
    static constexpr auto insert = prefix##_insert;          \
    static constexpr auto remove = prefix##_remove;          \
    static constexpr auto cut_below = prefix##_cut_below;    \
    static constexpr auto flip = prefix##_flip;              \
    static constexpr auto fill_signs = prefix##_fill_signs;  \
    static constexpr auto copy = prefix##_copy;              \
    static constexpr decltype(&yoldrick_union) combine[] = {prefix##_union, prefix##_subtract, prefix##_intersect}

struct OurCalls {
    CALLS(yoldrick);
};

struct RustCalls {
    CALLS(rust);
};

/* Lent memory, as the calls take it. */
struct Lent {
    uint32_t *slots;
    size_t slots_count;
    uint64_t *masks;
    size_t masks_count;
    uint32_t *book;
    size_t book_count;
};

#define LENT(m) (m).slots, (m).slots_count, (m).masks, (m).masks_count, (m).book, (m).book_count

template <class Calls> struct ThroughC : Contender {
    Lent lent;

    explicit ThroughC(Lent given) : lent(given) {}

    void fresh() override { must(Calls::prepare(LENT(lent))); }

    void insert(uint32_t seat, const Points &points) override {
        const Lent m = lent;
        uint32_t refused = 0;
        for (const Point &p : points)
            refused |= Calls::insert(LENT(m), seat, p.x, p.y, p.z, bits_of(p.value));
        must(refused);
    }

    void remove(uint32_t seat, const Points &points) override {
        const Lent m = lent;
        uint32_t refused = 0;
        for (const Point &p : points)
            refused |= Calls::remove(LENT(m), seat, p.x, p.y, p.z);
        must(refused);
    }

    uint64_t lookup(uint32_t seat, const Points &points) override {
        const Lent m = lent;
        uint64_t sum = 0;
        for (const Point &p : points) {
            const yoldrick_answer found = Calls::lookup(LENT(m), seat, p.x, p.y, p.z);
            sum = add(sum, found.code == YOLDRICK_DONE ? bits_of(found.value) : NOTHING_THERE);
        }
        return sum;
    }

    uint64_t signs(uint32_t seat) override {
        const Lent m = lent;
        uint64_t sum = 0;
        for (int32_t x = 0; x < SIDE; x++)
            for (int32_t y = 0; y < SIDE; y++)
                for (int32_t z = 0; z < SIDE; z++)
                    sum = add(sum, Calls::sign(LENT(m), seat, x, y, z).number);
        return sum;
    }

    void fill_signs(uint32_t seat) override { must(Calls::fill_signs(LENT(lent), seat)); }
    void flip(uint32_t seat) override { must(Calls::flip(LENT(lent), seat)); }
    void cut_below(uint32_t seat, float high) override { must(Calls::cut_below(LENT(lent), seat, high)); }
    void copy(uint32_t from, uint32_t to) override { must(Calls::copy(LENT(lent), from, to)); }
    void combine(Operation operation, uint32_t a, uint32_t b) override { must(Calls::combine[operation](LENT(lent), a, b)); }
};

/* Memory whose first word begins a cache line. */
template <class Word> Word *lend(size_t count) {
    void *memory = nullptr;
    must(posix_memalign(&memory, 64, count * sizeof(Word)));
    std::memset(memory, 0x5a, count * sizeof(Word));
    return static_cast<Word *>(memory);
}

struct Ours : ThroughC<OurCalls> {
    explicit Ours(size_t cells)
        : ThroughC({lend<uint32_t>(YOLDRICK_SLOTS(cells)), YOLDRICK_SLOTS(cells), lend<uint64_t>(YOLDRICK_MASKS(cells)), YOLDRICK_MASKS(cells),
                    lend<uint32_t>(YOLDRICK_BOOK(cells)), YOLDRICK_BOOK(cells)}),
          cells(cells) {}

    ~Ours() override {
        free(lent.slots);
        free(lent.masks);
        free(lent.book);
    }

    Ours(const Ours &) = delete;

    size_t free_cells() {
        const yoldrick_number found = yoldrick_free_cells(LENT(lent));
        must(found.code);
        return found.number;
    }

    size_t used_cells() { return cells - free_cells(); }

    /* A cell has 64 slots, a word in each of two masks, its use mark and its place of the stack. A seat has 512 slots, 8 words in each mask, and its filled mark. */
    size_t bytes() override { return used_cells() * (64 * 4 + 2 * 8 + 2 * 4) + 512 * 4 + 16 * 8 + 4; }

  private:
    size_t cells;
};

struct Rust : ThroughC<RustCalls> {
    Rust() : ThroughC({rust_row(), 0, nullptr, 0, nullptr, 0}) {}

    /* The heap in use, as the allocator counts it, less that of eight empty grids, and one top. */
    size_t bytes() override {
        const size_t all = mallinfo2().uordblks;
        fresh();
        const size_t empty = mallinfo2().uordblks;
        return all - empty + top_bytes;
    }

  private:
    enum { top_bytes = 24 + 2 * 64 + 512 * 8 + 8 };
};

/* The Rust behind C calls with no argument more than needed. */
struct LeanRust : Rust {
    void insert(uint32_t seat, const Points &points) override {
        uint32_t *grid = rust_grid(lent.slots, seat);
        for (const Point &p : points)
            lean_insert(grid, p.x, p.y, p.z, p.value);
    }

    void remove(uint32_t seat, const Points &points) override {
        uint32_t *grid = rust_grid(lent.slots, seat);
        for (const Point &p : points)
            lean_remove(grid, p.x, p.y, p.z);
    }

    uint64_t lookup(uint32_t seat, const Points &points) override {
        const uint32_t *grid = rust_grid(lent.slots, seat);
        uint64_t sum = 0;
        for (const Point &p : points) {
            const yoldrick_answer found = lean_lookup(grid, p.x, p.y, p.z);
            sum = add(sum, found.code == YOLDRICK_DONE ? bits_of(found.value) : NOTHING_THERE);
        }
        return sum;
    }

    uint64_t signs(uint32_t seat) override {
        const uint32_t *grid = rust_grid(lent.slots, seat);
        uint64_t sum = 0;
        for (int32_t x = 0; x < SIDE; x++)
            for (int32_t y = 0; y < SIDE; y++)
                for (int32_t z = 0; z < SIDE; z++)
                    sum = add(sum, lean_sign(grid, x, y, z));
        return sum;
    }
};

/* The Rust with its loops beside it, and so inlined. */
struct InlinedRust : Rust {
    void insert(uint32_t seat, const Points &points) override { loop_insert(rust_grid(lent.slots, seat), points.data(), points.size()); }
    void remove(uint32_t seat, const Points &points) override { loop_remove(rust_grid(lent.slots, seat), points.data(), points.size()); }
    uint64_t lookup(uint32_t seat, const Points &points) override { return loop_lookup(rust_grid(lent.slots, seat), points.data(), points.size()); }
    uint64_t signs(uint32_t seat) override { return loop_sign(rust_grid(lent.slots, seat)); }
};
