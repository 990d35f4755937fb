#include "ear.h"

const double VOXEL_MM = 0.2, WALL = 3.5;

/* Where the plans' origin is in the grid: between voxels, so that no surface goes through the middle of one. */
static const vec ORIGIN = {-0.37, 0.21, -0.43};

/* How far a lobe flows into the impression, the wall of the vent, and the bore for the sound: its radius and how far it is from the middle of the canal. */
static const double FLOW = 22, VENT_WALL = 3, BORE = 2.8, BORE_ASIDE = 4.5;

typedef struct {
    vec at;
    double radius;
} ball;

/* What an ear is made from: balls along the canal, which bends twice, lobes of the concha, each from its depth to beyond the faceplate, the horn of the lock, and the vent's
   side of the canal. */
enum { CONTROLS = 7, STEPS = CANAL / (CONTROLS - 1) };

typedef struct {
    ball canal[CONTROLS], lobes[LOBES][2], horn[HORN + 1];
    vec plate_at, plate_normal, vent_side;
    double vent_radius;
} plan;

static const plan left_plan = {
    .canal = {{{14, 55, 60}, 24}, {{32, 55, 60}, 25}, {{48, 58, 58}, 22.5}, {{64, 65, 52.5}, 18.5}, {{79, 69, 50}, 16}, {{94, 63, 54}, 14.5}, {{107, 51, 63}, 13.6}},
    .lobes = {{{{42, 60, 56}, 27}, {{14, 60, 55}, 32}},
              {{{36, 84, 50}, 15}, {{14, 88, 48}, 17}},
              {{{34, 50, 78}, 14}, {{14, 48, 81}, 17}},
              {{{34, 42, 42}, 15}, {{14, 40, 40}, 18}}},
    .horn = {{{33, 88, 49}, 12.5}, {{35, 99, 52}, 10}, {{38, 107, 59}, 8}, {{41, 111, 68}, 6.5}},
    .plate_at = {23, 60, 60},
    .plate_normal = {-1, 0.10, 0.14},
    .vent_side = {0, -0.8, 0.6},
    .vent_radius = 3,
};

static const plan right_plan = {
    .canal = {{{14, 56, 60}, 23}, {{32, 56, 60}, 24}, {{48, 59, 58}, 21}, {{63, 67, 51}, 17.5}, {{78, 71, 48}, 15.5}, {{93, 64, 53}, 14}, {{105, 51, 63}, 13.5}},
    .lobes = {{{{42, 60, 56}, 26}, {{14, 60, 54}, 31}},
              {{{36, 82, 52}, 14}, {{14, 86, 50}, 16}},
              {{{34, 48, 76}, 15}, {{14, 46, 79}, 18}},
              {{{34, 43, 43}, 15}, {{14, 41, 41}, 18}}},
    .horn = {{{33, 86, 51}, 12}, {{35, 97, 54}, 9.5}, {{37, 105, 60}, 8}, {{40, 110, 68}, 7}},
    .plate_at = {23, 60, 60},
    .plate_normal = {-1, 0.06, 0.18},
    .vent_side = {0, -0.8, 0.6},
    .vent_radius = 4,
};

static cone between(ball a, ball b) {
    vec axis = minus(b.at, a.at);
    double far = length(axis), loss = (a.radius - b.radius) / far;
    return (cone){a.at, unit(axis), far, a.radius, loss, loss / sqrt(1 - loss * loss)};
}

/* The distance to the nearest ball of a cone. */
static double to_cone(const cone *c, vec p) {
    vec from = minus(p, c->from);
    double along = dot(from, c->way), aside2 = most(0, dot(from, from) - along * along);
    double place = within(0, along - sqrt(aside2) * c->slant, c->length);
    return sqrt(aside2 + (along - place) * (along - place)) - c->radius + place * c->loss;
}

static double to_chain(const cone *cones, int count, vec p) {
    double d = to_cone(cones, p);
    for (int i = 1; i < count; i++)
        d = least(d, to_cone(cones + i, p));
    return d;
}

/* The union of two, rounded where they meet. */
static double flow(double a, double b, double width) {
    double near = most(0, width - fabs(a - b)) / width;
    return least(a, b) - near * near * width / 4;
}

/* From b to c, by Catmull and Rom. */
static double curve(double a, double b, double c, double d, double t) { return b + t * (c - a + t * (2 * a - 5 * b + 4 * c - d + t * (3 * (b - c) + d - a))) / 2; }

static ball canal_at(const plan *p, int i) {
    int k = i < CANAL ? i / STEPS : CONTROLS - 2;
    double t = (double)(i - k * STEPS) / STEPS;
    const ball *b = p->canal + k, *a = k > 0 ? b - 1 : b, *c = b + 1, *d = k + 2 < CONTROLS ? c + 1 : c;
    return (ball){{curve(a->at.x, b->at.x, c->at.x, d->at.x, t), curve(a->at.y, b->at.y, c->at.y, d->at.y, t), curve(a->at.z, b->at.z, c->at.z, d->at.z, t)},
                  curve(a->radius, b->radius, c->radius, d->radius, t)};
}

static ear_shape made(const plan *p) {
    ear_shape e = {.plate_at = p->plate_at, .plate_normal = unit(p->plate_normal)};
    ball canal[CANAL + 1], vent[VENT_CONES + 1];
    vec way = {0}, aside = {0};
    for (int i = 0; i <= CANAL; i++)
        canal[i] = canal_at(p, i);
    /* The vent goes along the canal, a wall's width below the surface, and leaves through the tip. */
    for (int i = 0; i <= CANAL; i++) {
        way = unit(minus(canal[i < CANAL ? i + 1 : i].at, canal[i > 0 ? i - 1 : i].at));
        aside = unit(minus(p->vent_side, times(way, dot(p->vent_side, way))));
        vent[i] = (ball){plus(canal[i].at, times(aside, canal[i].radius - WALL - p->vent_radius)), p->vent_radius};
    }
    ball tip = canal[CANAL];
    vent[VENT_CONES] = (ball){plus(vent[CANAL].at, times(way, tip.radius)), p->vent_radius};
    vec bored = minus(tip.at, times(aside, BORE_ASIDE));
    e.bore = between((ball){bored, BORE}, (ball){plus(bored, times(way, 2 * tip.radius)), BORE});
    for (int i = 0; i < CANAL; i++)
        e.canal[i] = between(canal[i], canal[i + 1]);
    for (int i = 0; i < VENT_CONES; i++)
        e.vent[i] = between(vent[i], vent[i + 1]);
    for (int i = 0; i < HORN; i++)
        e.horn[i] = between(p->horn[i], p->horn[i + 1]);
    for (int i = 0; i < LOBES; i++)
        e.lobes[i] = between(p->lobes[i][0], p->lobes[i][1]);
    return e;
}

ear_shape left_ear(void) { return made(&left_plan); }

ear_shape right_ear(void) {
    ear_shape e = made(&right_plan);
    e.mirrored = true;
    return e;
}

void distances(const ear_shape *e, vec p, double to[PARTS]) {
    if (e->mirrored)
        p.z = 127 - p.z;
    p = minus(p, ORIGIN);
    to[IMPRESSION] = to_chain(e->canal, CANAL, p);
    for (int i = 0; i < LOBES; i++)
        to[IMPRESSION] = flow(to[IMPRESSION], to_cone(e->lobes + i, p), FLOW);
    to[LOCK] = to_chain(e->horn, HORN, p);
    to[FACEPLATE] = dot(minus(p, e->plate_at), e->plate_normal);
    to[CAVITY] = least(to[IMPRESSION] + WALL, to_cone(&e->bore, p));
    to[VENT] = to_chain(e->vent, VENT_CONES, p);
    to[SLEEVE] = to[VENT] - VENT_WALL;
}
