#include "view.h"

#include <string.h>

static int place(int x, int y, int z) { return (x * SIDE + y) * SIDE + z; }
static double part_of(vec v, int axis) { return axis == 0 ? v.x : axis == 1 ? v.y : v.z; }

/* ---- colours, in linear light ---- */

static const colour WHITE = {1, 1, 1};

static colour tint(colour a, double k) { return (colour){a.r * k, a.g * k, a.b * k}; }
static colour sum(colour a, colour b) { return (colour){a.r + b.r, a.g + b.g, a.b + b.b}; }
static colour through(colour a, colour b) { return (colour){a.r * b.r, a.g * b.g, a.b * b.b}; }
static colour mix(colour a, colour b, double k) { return sum(tint(a, 1 - k), tint(b, k)); }

/* e to the power -x. */
static double fade(double x) {
    double f = most(0, 1 - x / 1024);
    for (int i = 0; i < 10; i++)
        f *= f;
    return f;
}

static double ease(double low, double x, double high) {
    double t = within(0, (x - low) / (high - low), 1);
    return t * t * (3 - 2 * t);
}

/* What so many voxels of a tone leave of white light. */
static colour filtered(colour tone, double far) {
    far *= 0.2;
    return (colour){fade((1 - tone.r) * far), fade((1 - tone.g) * far), fade((1 - tone.b) * far)};
}

static colour backdrop(double down) { return mix((colour){0.90, 0.905, 0.91}, (colour){0.70, 0.71, 0.73}, ease(0, down, 1)); }

/* ---- fields over the grid ---- */

/* A shell in the room: the distances smoothed, how much material is on the way to the light, and how much is near. */
typedef struct {
    const shell *is;
    vec axes[3], at, low, high, key, rim, up;
    double top;
    float surface[VOXELS], shade[VOXELS], crowd[VOXELS];
} body;

static body bodies[SHELLS];
static float spare[VOXELS];
static const int steps[3] = {SIDE * SIDE, SIDE, 1};

double field(const float *f, vec p) {
    double x = within(0, p.x, SIDE - 1.001), y = within(0, p.y, SIDE - 1.001), z = within(0, p.z, SIDE - 1.001);
    int i = (int)x, j = (int)y, k = (int)z;
    double u = x - i, v = y - j, w = z - k;
    const float *a = f + place(i, j, k), *b = a + SIDE * SIDE;
    double a0 = a[0] + (a[1] - a[0]) * w, a1 = a[SIDE] + (a[SIDE + 1] - a[SIDE]) * w;
    double b0 = b[0] + (b[1] - b[0]) * w, b1 = b[SIDE] + (b[SIDE + 1] - b[SIDE]) * w;
    a0 += (a1 - a0) * v;
    b0 += (b1 - b0) * v;
    return a0 + (b0 - a0) * u;
}

static bool in_grid(vec p) { return p.x >= 0 && p.y >= 0 && p.z >= 0 && p.x <= SIDE - 1 && p.y <= SIDE - 1 && p.z <= SIDE - 1; }

/* The weights 1, 2, 1 to three voxels along each axis. */
static void soften(float *f) {
    for (int axis = 0; axis < 3; axis++) {
        for (int i = 0; i < VOXELS; i++) {
            int step = steps[axis], at = i / step % SIDE;
            spare[i] = (f[at > 0 ? i - step : i] + 2 * f[i] + f[at < SIDE - 1 ? i + step : i]) / 4;
        }
        memcpy(f, spare, sizeof spare);
    }
}

/* The mean of so many voxels to either side along each axis. */
static void blur(float *f, int r) {
    for (int axis = 0; axis < 3; axis++) {
        int step = steps[axis];
        for (int i = 0; i < VOXELS; i++) {
            if (i / step % SIDE != 0)
                continue;
            double all = 0;
            for (int k = 0; k < SIDE + r; k++) {
                all += k < SIDE ? f[i + k * step] : 0;
                all -= k > 2 * r ? f[i + (k - 2 * r - 1) * step] : 0;
                if (k >= r)
                    spare[i + (k - r) * step] = (float)(all / (2 * r + 1));
            }
        }
        memcpy(f, spare, sizeof spare);
    }
}

/* Plane after plane away from the light. */
static void cast_shade(body *b) {
    double size = most(fabs(b->key.x), most(fabs(b->key.y), fabs(b->key.z)));
    int axis = fabs(b->key.x) == size ? 0 : fabs(b->key.y) == size ? 1 : 2;
    vec back = times(b->key, 1 / size);
    for (int n = 0; n < SIDE; n++)
        for (int s = 0; s < SIDE * SIDE; s++) {
            int at[3];
            at[axis] = part_of(b->key, axis) > 0 ? SIDE - 1 - n : n;
            at[(axis + 1) % 3] = s / SIDE;
            at[(axis + 2) % 3] = s % SIDE;
            int i = place(at[0], at[1], at[2]);
            vec from = plus((vec){at[0], at[1], at[2]}, back);
            b->shade[i] = (float)((n > 0 && in_grid(from) ? field(b->shade, from) : 0) + within(0, 0.5 - b->surface[i], 1) / size);
        }
}

static vec to_grid(const body *b, vec way) { return (vec){dot(b->axes[0], way), dot(b->axes[1], way), dot(b->axes[2], way)}; }
static vec to_room(const body *b, vec way) { return plus(times(b->axes[0], way.x), plus(times(b->axes[1], way.y), times(b->axes[2], way.z))); }
static vec point_in_grid(const body *b, vec p) { return plus(b->is->middle, to_grid(b, minus(p, b->at))); }

/* Towards the two lights, and how high a shell is over the floor. */
static const vec KEY = {-0.28, 0.90, 0.34}, RIM = {0.80, 0.25, -0.30};
static const double LIFT = 3;

static void place_body(body *b, const shell *s) {
    b->is = s;
    b->axes[0] = unit(s->x_to);
    b->axes[1] = unit(minus(s->y_to, times(b->axes[0], dot(s->y_to, b->axes[0]))));
    b->axes[2] = cross(b->axes[0], b->axes[1]);
    if (s->mirrored) {
        for (int i = 0; i < 3; i++)
            b->axes[i].x = -b->axes[i].x;
        b->axes[2] = times(b->axes[2], -1);
    }
    b->key = to_grid(b, unit(KEY));
    b->rim = to_grid(b, unit(RIM));
    b->up = to_grid(b, (vec){0, 1, 0});
    memcpy(b->surface, s->values, sizeof b->surface);
    soften(b->surface);
    b->low = (vec){SIDE, SIDE, SIDE};
    b->high = (vec){0, 0, 0};
    double lowest = SIDE, highest = -SIDE;
    for (int i = 0; i < VOXELS; i++) {
        b->crowd[i] = (float)within(0, 0.5 - b->surface[i], 1);
        if (b->surface[i] < 0) {
            vec p = {i / (SIDE * SIDE), i / SIDE % SIDE, i % SIDE};
            b->low = (vec){least(b->low.x, p.x - 2), least(b->low.y, p.y - 2), least(b->low.z, p.z - 2)};
            b->high = (vec){most(b->high.x, p.x + 2), most(b->high.y, p.y + 2), most(b->high.z, p.z + 2)};
            lowest = least(lowest, dot(minus(p, s->middle), b->up));
            highest = most(highest, dot(minus(p, s->middle), b->up));
        }
    }
    b->at = (vec){s->right, LIFT - lowest, 0};
    b->top = LIFT + highest - lowest;
    blur(b->crowd, 4);
    blur(b->crowd, 4);
    cast_shade(b);
}

/* ---- the floor ---- */

enum { FLOOR_WIDE = 260, FLOOR_DEEP = 160 };
static const double FLOOR_STEP = 2;
static colour floor_light[FLOOR_DEEP * FLOOR_WIDE];

/* How much material is from a point of the floor on in a direction. */
static double above(const body *b, vec p, vec way) {
    double all = 0;
    vec from = point_in_grid(b, p), go = to_grid(b, way);
    for (int i = 0; i < 110; i++) {
        vec q = plus(from, times(go, 2 * i + 1));
        all += in_grid(q) ? 2 * field(b->crowd, q) : 0;
    }
    return all;
}

static void light_floor(void) {
    for (int i = 0; i < FLOOR_DEEP * FLOOR_WIDE; i++) {
        vec p = {(i % FLOOR_WIDE - FLOOR_WIDE / 2) * FLOOR_STEP, 0, (i / FLOOR_WIDE - FLOOR_DEEP / 2) * FLOOR_STEP};
        colour key = WHITE;
        double open = 1;
        for (int k = 0; k < SHELLS; k++) {
            key = through(key, filtered(bodies[k].is->tone, 1.5 * above(&bodies[k], p, unit(KEY))));
            open *= fade(0.02 * above(&bodies[k], p, (vec){0, 1, 0}));
        }
        floor_light[i] = sum(tint(key, 0.52), tint(WHITE, 0.48 * open));
    }
}

static colour floor_at(vec p) {
    double x = p.x / FLOOR_STEP + FLOOR_WIDE / 2, z = p.z / FLOOR_STEP + FLOOR_DEEP / 2;
    if (x < 0 || z < 0 || x >= FLOOR_WIDE - 1 || z >= FLOOR_DEEP - 1)
        return WHITE;
    const colour *c = floor_light + (int)z * FLOOR_WIDE + (int)x;
    return mix(mix(c[0], c[1], x - (int)x), mix(c[FLOOR_WIDE], c[FLOOR_WIDE + 1], x - (int)x), z - (int)z);
}

/* ---- what the eye sees ---- */

static vec slope(const body *b, vec p) {
    const float *f = b->surface;
    const double h = 1;
    return (vec){field(f, (vec){p.x + h, p.y, p.z}) - field(f, (vec){p.x - h, p.y, p.z}), field(f, (vec){p.x, p.y + h, p.z}) - field(f, (vec){p.x, p.y - h, p.z}),
                 field(f, (vec){p.x, p.y, p.z + h}) - field(f, (vec){p.x, p.y, p.z - h})};
}

/* A lamp with soft edges and corners, so many times wide and high, as it is seen in a direction. */
static double lamp(vec d, vec to, double wide, double high) {
    vec across = unit(cross((vec){0, 1, 0}, to)), up = cross(to, across);
    double x = most(0, fabs(dot(d, across)) - wide), y = most(0, fabs(dot(d, up)) - high);
    return dot(d, to) > 0 ? 1 - ease(0, sqrt(x * x + y * y), 0.16) : 0;
}

static double lamps(vec d) { return 6 * lamp(d, unit((vec){-0.50, 0.66, 0.56}), 0.26, 0.18) + 3 * lamp(d, unit((vec){0.88, 0.12, 0.30}), 0.02, 0.34); }

/* The light on a surface whose normal is towards the eye. */
static colour light_on(const body *b, vec p, vec normal) {
    colour key = tint(filtered(b->is->tone, 1.6 * field(b->shade, plus(p, times(normal, 2)))), most(0, (dot(normal, b->key) + 0.25) / 1.25));
    double open = within(0, 1.25 - 1.9 * field(b->crowd, plus(p, times(normal, 5))), 1);
    return sum(tint(key, 0.95), tint(WHITE, open * (0.32 + 0.15 * dot(normal, b->up) + 0.25 * most(0, dot(normal, b->rim)))));
}

/* What has come to the eye, and what part of the light from behind still will. */
typedef struct {
    colour seen, left;
} sight;

/* One surface that the ray goes through, in front of material or behind it. */
static void pass(sight *s, const body *b, vec p, vec ray, bool front) {
    vec n = slope(b, p), cut = b->is->cut;
    double size = length(n);
    if (size == 0)
        return;
    n = times(n, (front ? 1 : -1) / size);
    double facing = within(0, -dot(n, ray), 1), graze = (1 - facing) * (1 - facing), mirror = 0.04 + 0.7 * graze * graze * (1 - facing);
    bool opened = front && fabs(dot(minus(p, b->is->middle), cut)) < 0.7 && dot(n, cut) > 0.8;
    double cover = opened ? 0.96 : front ? 0.26 + 0.5 * graze : 0.2 + 0.4 * graze;
    colour base = opened ? mix(b->is->tone, WHITE, 0.4) : b->is->tone;
    double shine = (opened ? 0.2 : front ? 1 : 0.15) * mirror * lamps(to_room(b, plus(ray, times(n, 2 * facing))));
    s->seen = sum(s->seen, through(s->left, sum(tint(through(base, light_on(b, p, n)), cover), tint(WHITE, shine))));
    s->left = tint(s->left, 1 - cover);
}

static void look_through(sight *s, const body *b, vec eye, vec way) {
    vec from = point_in_grid(b, eye), ray = to_grid(b, way);
    double t = 0, end = 1e9;
    for (int i = 0; i < 3; i++) {
        double one = (part_of(b->low, i) - part_of(from, i)) / part_of(ray, i), two = (part_of(b->high, i) - part_of(from, i)) / part_of(ray, i);
        t = most(t, least(one, two));
        end = least(end, most(one, two));
    }
    double before = 1, step = 0, material = 0;
    for (; t < end && s->left.r + s->left.g + s->left.b > 0.05; t += step) {
        double d = field(b->surface, plus(from, times(ray, t)));
        material += before < 0 ? step : 0;
        if ((d < 0) != (before < 0)) {
            double back = step * d / (d - before);
            if (before < 0)
                s->left = through(s->left, filtered(b->is->tone, material - back));
            pass(s, b, plus(from, times(ray, t - back)), ray, d < 0);
            material = d < 0 ? back : 0;
        }
        before = d;
        step = most(0.5, fabs(d));
    }
}

/* From afar the eye looks down a little, at a point over the floor. So many voxels are seen from left to right. */
static vec eye, looked_at;
static const double BREADTH = 280;

static colour seen_at(double x, double y, int wide, int high) {
    double scale = BREADTH / wide;
    vec back = unit(minus(eye, looked_at)), right = {1, 0, 0}, up = cross(back, right);
    vec target = plus(looked_at, plus(times(right, (x - wide / 2.0) * scale), times(up, (high / 2.0 - y) * scale))), ray = unit(minus(target, eye));
    sight s = {{0, 0, 0}, WHITE};
    for (int i = 0; i < SHELLS; i++)
        look_through(&s, &bodies[i], eye, ray);
    colour behind = backdrop(y / high);
    if (ray.y < 0)
        behind = through(behind, floor_at(plus(eye, times(ray, -eye.y / ray.y))));
    return sum(s.seen, through(s.left, behind));
}

static int level(double light) { return (int)(sqrt(within(0, light, 1)) * 255 + 0.5); }

static void put(unsigned char *at, colour c) {
    at[0] = (unsigned char)level(c.r);
    at[1] = (unsigned char)level(c.g);
    at[2] = (unsigned char)level(c.b);
}

/* Whether a pixel differs from one of its neighbours so much that it needs more samples than one. */
static bool rough(const unsigned char *rgb, int wide, int high, int x, int y) {
    for (int n = 0; n < 9; n++) {
        int i = x + n % 3 - 1, j = y + n / 3 - 1;
        for (int k = 0; k < 3 && i >= 0 && j >= 0 && i < wide && j < high; k++) {
            int gap = rgb[3 * (j * wide + i) + k] - rgb[3 * (y * wide + x) + k];
            if (gap > 12 || gap < -12)
                return true;
        }
    }
    return false;
}

enum { FINE = 3 };

void draw(const shell shells[SHELLS], int wide, int high, unsigned char *rgb) {
    static unsigned char coarse[3 * MOST_PIXELS];
    for (int i = 0; i < SHELLS; i++)
        place_body(&bodies[i], &shells[i]);
    light_floor();
    looked_at = (vec){0, most(bodies[0].top, bodies[1].top) / 2, 0};
    eye = plus(looked_at, (vec){0, 200, 640});
    for (int i = 0; i < wide * high; i++)
        put(coarse + 3 * i, seen_at(i % wide + 0.5, i / wide + 0.5, wide, high));
    memcpy(rgb, coarse, 3 * (size_t)wide * (size_t)high);
    for (int i = 0; i < wide * high; i++) {
        if (!rough(coarse, wide, high, i % wide, i / wide))
            continue;
        colour all = {0, 0, 0};
        for (int n = 0; n < FINE * FINE; n++)
            all = sum(all, seen_at(i % wide + (n % FINE + 0.5) / FINE, i / wide + (n / FINE + 0.5) / FINE, wide, high));
        put(rgb + 3 * i, tint(all, 1.0 / (FINE * FINE)));
    }
}
