/* Points and directions. */
#ifndef VEC_H
#define VEC_H

#include <math.h>

typedef struct {
    double x, y, z;
} vec;

static inline vec plus(vec a, vec b) { return (vec){a.x + b.x, a.y + b.y, a.z + b.z}; }
static inline vec minus(vec a, vec b) { return (vec){a.x - b.x, a.y - b.y, a.z - b.z}; }
static inline vec times(vec a, double k) { return (vec){a.x * k, a.y * k, a.z * k}; }
static inline double dot(vec a, vec b) { return a.x * b.x + a.y * b.y + a.z * b.z; }
static inline double length(vec a) { return sqrt(dot(a, a)); }
static inline vec unit(vec a) { return times(a, 1 / length(a)); }
static inline vec cross(vec a, vec b) { return (vec){a.y * b.z - a.z * b.y, a.z * b.x - a.x * b.z, a.x * b.y - a.y * b.x}; }

static inline double least(double a, double b) { return a < b ? a : b; }
static inline double most(double a, double b) { return a > b ? a : b; }
static inline double within(double low, double a, double high) { return most(low, least(a, high)); }

#endif
