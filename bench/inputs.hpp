/* What the grids hold. */
#pragma once

#include <algorithm>
#include <cmath>
#include <random>
#include <string>

#include "through_c.hpp"

using Dice = std::mt19937;

struct Input {
    std::string name;
    /* The voxels of two grids, x outermost and z innermost. */
    Points a, b;
    /* Those of a in random order; a random half of them; and as many points where a has nothing. */
    Points shuffled, half, misses;
    /* Two surfaces: the signs then mean the same to OpenVDB, whose sign fill has another rule for the last sign of a branch. */
    bool surfaces;

    Input(std::string name, Points first, Points second, bool surfaces) : name(std::move(name)), a(std::move(first)), b(std::move(second)), shuffled(a), surfaces(surfaces) {
        Dice dice(1);
        std::shuffle(shuffled.begin(), shuffled.end(), dice);
        half.assign(shuffled.begin(), shuffled.begin() + shuffled.size() / 2);
        std::vector<bool> taken(SIDE * SIDE * SIDE);
        for (const Point &p : a)
            taken[number(p)] = true;
        while (misses.size() < a.size()) {
            const Point p = anywhere(dice);
            if (!taken[number(p)])
                misses.push_back(p);
        }
    }

    static size_t number(const Point &p) { return ((size_t)p.x * SIDE + p.y) * SIDE + p.z; }

    static Point at(size_t number, float value) { return {(int32_t)(number / SIDE / SIDE), (int32_t)(number / SIDE % SIDE), (int32_t)(number % SIDE), value}; }

    static Point anywhere(Dice &dice) { return at(dice() % (SIDE * SIDE * SIDE), 0); }
};

/* The width of the band of voxels on each side of a surface. */
constexpr float BAND = 3;

/* Where the second grid's surface is, seen from the first's. */
constexpr int32_t MOVED[] = {7, 5, 3};

/* No value is a zero, which the Rust takes for another sign than document 01. */
inline float no_zero(float value) { return value == 0 ? 1e-3f : value; }

inline Points sphere(float radius, const float (&centre)[3]) {
    Points points;
    for (size_t i = 0; i < SIDE * SIDE * SIDE; i++) {
        const Point p = Input::at(i, 0);
        const float x = p.x - centre[0], y = p.y - centre[1], z = p.z - centre[2];
        const float distance = std::sqrt(x * x + y * y + z * z) - radius;
        if (std::fabs(distance) < BAND)
            points.push_back({p.x, p.y, p.z, no_zero(distance)});
    }
    return points;
}

inline Input two_spheres(float radius) {
    constexpr float middle = SIDE / 2;
    const float other[] = {middle + MOVED[0], middle + MOVED[1], middle + MOVED[2]};
    return {"sphere of radius " + std::to_string((int)radius), sphere(radius, {middle, middle, middle}), sphere(radius, other), true};
}

/* The bent tube of the comparison with the Rust. */
inline Input two_tubes() {
    Points a(SIDE * SIDE * SIDE);
    a.resize(rust_tube(BAND, a.data(), a.size()));
    Points b = a;
    for (Point &p : b)
        p = {p.x + MOVED[0], p.y + MOVED[1], p.z + MOVED[2], p.value};
    return {"tube shell", a, b, true};
}

/* So many voxels anywhere, with any value from -1 to 1. */
inline Points anywhere(size_t count, Dice &dice) {
    std::vector<float> values(SIDE * SIDE * SIDE);
    std::uniform_real_distribution<float> any(-1, 1);
    for (size_t i = 0; i < count; i++)
        values[Input::number(Input::anywhere(dice))] = no_zero(any(dice));
    Points points;
    for (size_t i = 0; i < values.size(); i++)
        if (values[i] != 0)
            points.push_back(Input::at(i, values[i]));
    return points;
}

inline Input two_random() {
    Dice dice(2);
    Points a = anywhere(60000, dice), b = anywhere(60000, dice);
    return {"random voxels", a, b, false};
}
