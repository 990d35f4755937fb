/* Those that are compared, each with eight grids, the seats, and every operation that is timed. */
#pragma once

#include <cstddef>
#include <cstdint>
#include <cstring>
#include <memory>
#include <vector>

struct Point {
    int32_t x, y, z;
    float value;
};

using Points = std::vector<Point>;

enum { SEATS = 8, SIDE = 128 };
enum Operation { UNION, SUBTRACT, INTERSECT };

/* A sum of answers in which a later one weighs otherwise than an earlier one, so that no answer can be left out or moved unseen. */
inline uint64_t add(uint64_t sum, uint64_t word) { return 3 * sum + word; }

/* What is added for a point where nothing is active. */
constexpr uint32_t NOTHING_THERE = 1;

inline uint32_t bits_of(float value) {
    uint32_t bits;
    std::memcpy(&bits, &value, sizeof bits);
    return bits;
}

struct Contender {
    virtual ~Contender() = default;

    /* Eight empty grids. */
    virtual void fresh() = 0;

    /* One voxel after the other. */
    virtual void insert(uint32_t seat, const Points &points) = 0;
    virtual void remove(uint32_t seat, const Points &points) = 0;
    virtual uint64_t lookup(uint32_t seat, const Points &points) = 0;
    /* The sign at every voxel of the grid: x outermost, z innermost. */
    virtual uint64_t signs(uint32_t seat) = 0;

    /* Whole grids. */
    virtual void fill_signs(uint32_t seat) = 0;
    virtual void flip(uint32_t seat) = 0;
    virtual void cut_below(uint32_t seat, float high) = 0;
    virtual void copy(uint32_t from, uint32_t to) = 0;
    virtual void combine(Operation operation, uint32_t a, uint32_t b) = 0;

    /* What the grids need, in bytes. */
    virtual size_t bytes() = 0;
};

std::unique_ptr<Contender> make_vdb();
std::unique_ptr<Contender> make_vdb_with_accessor();
